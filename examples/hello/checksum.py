#!/usr/bin/env python3
"""Writes checksum and complement into a LoROM image whose length is a power of two.

  checksum.py FILE

The checksum is the sum of all bytes, modulo 65,536. It counts itself and its complement, which together always
add 2 * 255 to it, so the sum is taken with FFFF and 0000 in their places.
"""
import sys

with open(sys.argv[1], "r+b") as file:
    image = bytearray(file.read())
    image[0x7FDC:0x7FE0] = b"\xff\xff\x00\x00"
    checksum = sum(image) % 0x10000
    image[0x7FDC:0x7FDE] = (0xFFFF - checksum).to_bytes(2, "little")
    image[0x7FDE:0x7FE0] = checksum.to_bytes(2, "little")
    file.seek(0)
    file.write(image)
