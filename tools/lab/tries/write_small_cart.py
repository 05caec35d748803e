#!/usr/bin/env python3
"""Writes a cartridge whose program does one thing again and again, to measure a change by.

    tools/lab/tries/write_small_cart.py beam|flag|vram SIEVE.sfc OUT.sfc

`beam` waits for vertical blank and for its end, by 4212 HVBJOY. `flag` waits for the NMI flag, by 4210 RDNMI. `vram` moves
5,120 bytes to VRAM and 544 to OAM by DMA in each vertical blank, and waits as `beam` does. SIEVE.sfc is the cartridge of
that name of `./scene --measured`. Its program is written over from the reset vector on.
"""
import sys

START = "78 18 FB E2 20"  # native mode, an accumulator of 8 bits
SETTINGS = "C2 10 A2 FF 1F 9A A9 00 48 AB A9 80 8D 15 21 A9 0F 8D 00 21 9C 00 42"  # stack, bank 0, VMAIN, full brightness
BEGIN = "AD 12 42 10 FB"  # lda $4212; bpl to itself
END = "AD 12 42 30 FB"  # lda $4212; bmi to itself
TO_VRAM = "A2 00 00 8E 16 21 A2 01 18 8E 00 43 A2 00 80 8E 02 43 A9 00 8D 04 43 A2 00 14 8E 05 43 A9 01 8D 0B 42"
TO_OAM = "A2 00 00 8E 02 21 A2 00 04 8E 00 43 A2 00 80 8E 02 43 A2 20 02 8E 05 43 A9 01 8D 0B 42"
PROGRAMS = {
    "beam": f"{BEGIN} {END} 80 F4",
    "flag": "2C 10 42 10 FB 80 F9",  # bit $4210; bpl to itself; bra
    "vram": f"{SETTINGS} {BEGIN} {TO_VRAM} {TO_OAM} {END} 80 B5",
}


def main():
    if len(sys.argv) != 4 or sys.argv[1] not in PROGRAMS:
        sys.exit(__doc__)
    with open(sys.argv[2], "rb") as file:
        cart = bytearray(file.read())
    at = int.from_bytes(cart[0x7FFC:0x7FFE], "little") - 0x8000
    code = bytes.fromhex(START + PROGRAMS[sys.argv[1]])
    cart[at : at + len(code)] = code
    with open(sys.argv[3], "wb") as file:
        file.write(cart)


main()
