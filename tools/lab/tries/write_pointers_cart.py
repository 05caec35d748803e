#!/usr/bin/env python3
"""Writes a cartridge whose program copies and adds words by pointers, to measure the modes with a pointer by.

    tools/lab/tries/write_pointers_cart.py SIEVE.sfc OUT.sfc

SIEVE.sfc is the cartridge of that name of `./scene --measured`. Its program is written over from the reset vector on.
"""
import sys

START = "78 18 FB C2 30 A2 FF 1F 9A A9 00 00 5B"  # native mode, 16 bits, the stack, the direct page
BANK = "F4 7E 7E AB AB"  # pea $7e7e; plb; plb
TARGET = "A9 00 40 85 10"  # ($10) is $4000
SOURCE = "A9 00 80 85 12 A9 00 00 85 14"  # [$12] is 00:8000
SUMS = "A9 00 60 85 16"  # ($16) is $6000
COPY = "B7 12 91 10"  # lda [$12],y; sta ($10),y
ADD = "71 16 91 16"  # adc ($16),y; sta ($16),y
MORE = "B2 10 61 10 92 16"  # lda ($10); adc ($10,x); sta ($16)
NEXT = "C8 C8 C0 00 10 D0"  # iny; iny; cpy #$1000; bne, without its distance


def program():
    loop = bytes.fromhex(COPY + ADD + MORE + NEXT)
    first = bytes.fromhex("A0 00 00")  # ldy #0
    inner = 256 - (len(loop) + 1)
    outer = 256 - (len(first) + len(loop) + 1 + 2)
    head = bytes.fromhex(START + BANK + TARGET + SOURCE + SUMS + "A2 00 00")  # ldx #0
    return head + first + loop + bytes([inner, 0x80, outer])


def main():
    if len(sys.argv) != 3:
        sys.exit(__doc__)
    with open(sys.argv[1], "rb") as file:
        cart = bytearray(file.read())
    at = int.from_bytes(cart[0x7FFC:0x7FFE], "little") - 0x8000
    code = program()
    cart[at : at + len(code)] = code
    with open(sys.argv[2], "wb") as file:
        file.write(cart)


main()
