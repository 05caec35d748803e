#!/usr/bin/env python3
"""Tries each rule of ./lint: a small cartridge that breaks it, and a neighbour that almost does.

    tools/evidence/try_lint.py [--lint PROGRAM] [--only RULE] [--schema FILE]

The cartridges are made here, instruction by instruction. Of each, the findings are compared with what is expected: each rule, the label of
the instruction that caused it, and how often. So a finding too many counts as a failure, too. The scene, the game and examples/hello have
none in 600 frames. The other formats, --allow, --allowed and --fail-on are tried with one cartridge. Of SARIF the parts that are written are checked against what its standard requires of them.
If ca65 is there (Debian: apt-get install cc65), lint/faults.s is assembled, and each of its five faults has to be found on its line, and
nothing else. The last line is `N tried, M failed`, and the status is 1 if M is not 0.

With --schema, logs of SARIF are validated by the JSON schema of OASIS for SARIF 2.1.0: the log of each case with a finding, of a run
without one, and of the planted faults. Changed logs have to be refused. It needs Debian's python3-jsonschema, and checks the form of
URIs if python3-rfc3987 is there too. The schema is no part of the repository. The tests of GCC 15.3 have it, so the source package gcc-15
of Debian unstable has it. With a line `deb-src` of Debian unstable among apt's sources, these lines get it:

    apt-get source --download-only gcc-15
    tar -xOf gcc-15_*.orig.tar.gz --wildcards '*/gcc-*.tar.xz' | tar -xJO --wildcards '*/sarif-schema-2.1.0.json' >sarif-schema-2.1.0.json
"""
import argparse
import json
import os
import re
import shutil
import subprocess
import sys
import tempfile

HERE = os.path.dirname(os.path.realpath(__file__))
sys.path.insert(0, os.path.join(HERE, "lint"))

import sarif_schema  # noqa: E402

TOP = os.path.dirname(os.path.dirname(HERE))
SIZE = 0x8000


class Code:
    """Bytes of a LoROM cartridge of one bank, from 8000 on, with labels."""

    def __init__(self):
        self.bytes = bytearray()
        self.options = {}
        self.labels = {}
        self.jumps = []

    def __call__(self, *values):
        for value in values:
            self.bytes += bytes([value]) if isinstance(value, int) else value
        return self

    def label(self, name):
        self.labels[name] = 0x8000 + len(self.bytes)
        return self

    def branch(self, opcode, name):
        self(opcode, 0)
        self.jumps.append((len(self.bytes), name))
        return self

    # A has 8 bits, X 16.
    def lda(self, value):
        return self(0xA9, value)

    def load(self, address):
        return self(0xAD, word(address))

    def store(self, address, value=None):
        if value is not None:
            self.lda(value)
        return self(0x8D, word(address))

    def pause(self, count):
        """Some 12 clocks of the processor's cycles a turn: DEX and BNE, 5 cycles of 8 clocks or so."""
        self(0xA2, word(count))
        return self(0xCA, 0xD0, 0xFD)

    def until_set(self, address):
        """Waits until bit 7 of a register is set."""
        return self(0xAD, word(address), 0x10, 0xFB)

    def until_clear(self, address):
        return self(0xAD, word(address), 0x30, 0xFB)

    def vblank(self):
        """The beginning of the next vertical blank."""
        return self.until_clear(0x4212).until_set(0x4212)

    def backdrop(self):
        """Black as colour 0, which every picture shows."""
        return self.store(0x2121, 0)(0x9C, word(0x2122), 0x9C, word(0x2122))

    def registers(self, without=None):
        """Zeros in all registers of the picture, but for one, and in colour 0."""
        self.backdrop()
        for register in [0x2101, *range(0x2105, 0x2115), *range(0x2105, 0x2115), *range(0x211A, 0x2121), *range(0x2123, 0x2134)]:
            if register != without:
                self(0x9C, word(register))
        return self

    def shown(self, without=None):
        """The screen on, its registers set."""
        return self.registers(without).store(0x2100, 0x0F)

    def picture(self):
        """Some lines below the top of the next picture, which is on."""
        return self.shown().below_the_top()

    def below_the_top(self):
        return self.vblank().until_clear(0x4212).pause(2000)

    def drawn(self):
        """Within the dots of a line: some clocks after H-blank ended."""
        self(0xAD, word(0x4212), 0x29, 0x40, 0xF0, 0xF9)
        self(0xAD, word(0x4212), 0x29, 0x40, 0xD0, 0xF9)
        return self(0xEA, 0xEA, 0xEA, 0xEA, 0xEA, 0xEA, 0xEA, 0xEA)

    def hblank(self):
        """H-blank, a few clocks after its beginning."""
        self(0xAD, word(0x4212), 0x29, 0x40, 0xD0, 0xF9)
        return self(0xAD, word(0x4212), 0x29, 0x40, 0xF0, 0xF9)

    def dma(self, mode, port, source, bank, count, name="dma", mask=1):
        self.store(0x4300, mode).store(0x4301, port)
        self.store(0x4302, source % 256).store(0x4303, source // 256).store(0x4304, bank)
        self.store(0x4305, count % 256).store(0x4306, count // 256)
        self.lda(mask)
        return self.label(name).store(0x420B)

    def fill(self, register, byte, count, name="filled"):
        """Writes a byte so often to a register, or to it and the next one."""
        self(0x80, 0x01, byte)
        return self.dma(9 if register == 0x18 else 8, register, 0x7FFF + len(self.bytes), 0, count % 65536, name)

    def vram(self, first, words, byte=0, name="filled"):
        """Words of VRAM with a byte in both halves."""
        self.store(0x2115, 0x80).store(0x2116, first % 256).store(0x2117, first // 256)
        return self.fill(0x18, byte, 2 * words, name)

    def oam(self, byte):
        """Small objects, all bytes of which are the same."""
        return self.store(0x2102, 0).store(0x2103, 0).fill(0x04, byte, 512, "low").fill(0x04, 0, 32, "high")

    def end(self):
        return self(0x80, 0xFE)

    def in_file(self, **options):
        """How the file is made: the arguments of `cartridge`."""
        self.options = options
        return self

    def image(self):
        made = bytearray(self.bytes)
        for place, name in self.jumps:
            distance = self.labels[name] - (0x8000 + place)
            made[place - 1] = distance % 256
        return bytes(made)


def word(value):
    return bytes([value % 256, value // 256 % 256])


def begin():
    """Native mode, A of 8 bits, X of 16, the stack, forced blank."""
    return Code()(0x78, 0x18, 0xFB, 0xC2, 0x18, 0xE2, 0x20, 0xA2, word(0x1FFF), 0x9A).store(0x2100, 0x80)


def cartridge(code, nmi=0xFF00, brk=0xFF00, checksum=None, size=5, reset=0x8000, map_byte=0x20, front=0, ram=0, complement=None):
    rom = bytearray(code.image().ljust(SIZE, b"\0"))
    rom[0x7F00:0x7F03] = b"\x40\x80\xFE"  # RTI; and from FF01 on an endless loop
    rom[0x7FC0:0x7FD5] = b"LINT".ljust(21)
    rom[0x7FD5], rom[0x7FD6], rom[0x7FD7], rom[0x7FD8] = map_byte, 2 if ram else 0, size, ram
    for vector in (0x7FE4, 0x7FEE):
        rom[vector:vector + 2] = word(0xFF00)
    for vector in (0x7FE6, 0x7FFE):
        rom[vector:vector + 2] = word(brk)
    rom[0x7FEA:0x7FEC] = word(nmi)
    rom[0x7FFC:0x7FFE] = word(reset)
    rom[0x7FDC:0x7FE0] = b"\xFF\xFF\0\0"
    right = sum(rom) % 65536 if checksum is None else checksum
    rom[0x7FDC:0x7FE0] = word(65535 - right if complement is None else complement) + word(right)
    return bytes(front) + bytes(rom)


CASES = []


def case(rule, wanted):
    """A case: what is found, as rule to (label, count); a label of None is a byte of the file, a count of None any."""
    def keep(make):
        CASES.append((rule, make.__name__, make, wanted))
        return make
    return keep


def found(rule, label="it", count=1):
    return {(rule, label): count}


# Memories of the picture unit.
@case("vram-outside-blank", found("vram-outside-blank"))
def vram_in_the_picture():
    return begin().picture().lda(1).label("it").store(0x2118).end()


@case("vram-outside-blank", {})
def vram_in_vertical_blank():
    return begin().shown().vblank().store(0x2118, 1).end()


@case("vram-outside-blank", {})
def vram_in_forced_blank():
    return begin().picture().vblank().store(0x2100, 0x80).until_clear(0x4212).store(0x2118, 1).end()


@case("vram-outside-blank", {("vram-outside-blank", "it"): 1, ("vram-before-write", "it"): 1})
def vram_read_in_the_picture():
    return begin().picture().label("it").load(0x2139).end()


@case("cgram-outside-blank", found("cgram-outside-blank"))
def cgram_in_a_line():
    return begin().picture().drawn().lda(1).label("it").store(0x2122).end()


@case("cgram-outside-blank", {})
def cgram_in_hblank():
    return begin().picture().hblank().lda(1).store(0x2122).end()


@case("oam-outside-blank", found("oam-outside-blank"))
def oam_in_hblank():
    return begin().picture().hblank().lda(1).label("it").store(0x2104).end()


@case("oam-outside-blank", {})
def oam_in_vertical_blank():
    return begin().picture().vblank().lda(1).store(0x2104).end()


@case("transfer-past-blank", found("transfer-past-blank", "dma"))
def dma_past_the_blank():
    return begin().shown().vblank().dma(1, 0x18, 0x8000, 0, 0x6000).end()


@case("transfer-past-blank", {})
def dma_within_the_blank():
    return begin().shown().vblank().dma(1, 0x18, 0x8000, 0, 0x1000).end()


# Arithmetic: 7 and 8 cycles between, 15 and 16.
def product(between):
    code = begin().store(0x4202, 3).lda(5).store(0x4203)
    return code(between).label("it").load(0x4216).end()


def quotient(between, register=0x4214):
    code = begin().store(0x4204, 3).store(0x4205, 5).lda(5).store(0x4206)
    return code(between).label("it").load(register).end()


@case("product-early", found("product-early"))
def product_after_7_cycles():
    return product(b"\xEA\xEA")


@case("product-early", {})
def product_after_8_cycles():
    return product(b"\xEA\xEB")


@case("quotient-early", found("quotient-early"))
def quotient_after_15_cycles():
    return quotient(b"\xEA" * 6)


@case("quotient-early", found("quotient-early"))
def remainder_after_15_cycles():
    return quotient(b"\xEA" * 6, 0x4216)


@case("quotient-early", {})
def quotient_after_16_cycles():
    return quotient(b"\xEA" * 5 + b"\xEB")


@case("arithmetic-again", found("arithmetic-again"))
def product_begun_again():
    return begin().lda(5).store(0x4203).label("it").store(0x4203).end()


@case("arithmetic-again", {})
def product_begun_later():
    return begin().lda(5).store(0x4203)(0xEA, 0xEB).store(0x4203).end()


# Pads.
def pads():
    return begin().store(0x4200, 1).until_set(0x4210)


@case("pads-while-busy", found("pads-while-busy"))
def pads_at_once():
    return pads().label("it").load(0x4218).end()


@case("pads-while-busy", {})
def pads_after_a_wait():
    return pads()(0xAD, word(0x4212), 0x4A, 0xB0, 0xFA).load(0x4218).end()


@case("pads-while-busy", {})
def pads_after_4224_clocks():
    return pads().pause(150).load(0x4218).end()


@case("strobe-while-busy", found("strobe-while-busy"))
def strobe_at_once():
    return pads().lda(1).label("it").store(0x4016).end()


@case("strobe-while-busy", {})
def strobe_without_auto_read():
    return begin().until_set(0x4210).store(0x4016, 1).end()


@case("wait-for-busy", found("wait-for-busy", "it", None))
def waits_for_the_busy_bit():
    return begin().label("it")(0xAD, word(0x4212), 0x29, 0x01, 0xF0, 0xF9).end()


@case("wait-for-busy", {})
def waits_for_the_end_of_busy():
    return begin().label("again")(0xAD, word(0x4212), 0x29, 0x01, 0xD0, 0xF9).pause(9).branch(0x80, "again")


# Transfers.
@case("wram-to-wram", found("wram-to-wram", "dma", 16))
def dma_from_work_ram_to_work_ram():
    code = begin()
    for at in range(16):
        code.store(0x0100 + at, at)
    return code.dma(0, 0x80, 0x0100, 0x7E, 16).end()


@case("wram-to-wram", {})
def dma_from_rom_to_work_ram():
    return begin().dma(0, 0x80, 0x8000, 0, 16).end()


@case("transfer-of-registers", found("transfer-of-registers", "dma", 4))
def dma_from_registers():
    return begin().dma(8, 0x80, 0x2134, 0, 4).end()


@case("transfer-of-registers", {})
def dma_from_rom():
    return begin().dma(8, 0x18, 0x8000, 0x80, 4).end()


def hdma_table(code):
    return code.store(0x4310, 0).store(0x4311, 0x21).store(0x4312, 0x10).store(0x4313, 0xFF).store(0x4314, 0)


@case("dma-on-hdma-channel", found("dma-on-hdma-channel", "dma"))
def dma_on_the_channel_of_hdma():
    return begin().vblank().store(0x420C, 1).dma(0, 0x18, 0x8000, 0, 4).store(0x420C, 0).end()


@case("dma-on-hdma-channel", {})
def dma_on_another_channel():
    return hdma_table(begin()).vblank().store(0x420C, 2).dma(0, 0x18, 0x8000, 0, 4).end()


@case("hdma-on-in-picture", found("hdma-on-in-picture"))
def hdma_on_in_the_picture():
    return hdma_table(begin()).picture().lda(2).label("it").store(0x420C).store(0x420C, 0).end()


@case("hdma-on-in-picture", {})
def hdma_on_in_vertical_blank():
    return hdma_table(begin()).picture().vblank().lda(2).store(0x420C).end()


# Addresses.
@case("open-bus", found("open-bus"))
def read_where_nothing_lies():
    return begin().label("it").load(0x3000).end()


@case("open-bus", {})
def read_of_rom():
    return begin().load(0x8000).end()


@case("write-to-nothing", found("write-to-nothing"))
def write_where_nothing_lies():
    return begin().label("it").store(0x6000).end()


@case("write-to-nothing", {})
def write_to_work_ram():
    return begin().store(0x1FFF).end()


@case("write-to-rom", found("write-to-rom"))
def write_to_rom():
    return begin().label("it").store(0x8000).end()


@case("write-to-rom", {})
def write_to_work_ram_in_its_bank():
    return begin()(0x8F, word(0x8000), 0x7E).end()


@case("runs-outside-memory", {("runs-outside-memory", 0x2134): 2, ("brk", 0x2134): 1})
def runs_in_registers():
    return begin()(0x4C, word(0x2134)).in_file(brk=0xFF01)


@case("runs-outside-memory", {})
def runs_in_work_ram():
    return begin().store(0x0100, 0x80).store(0x0101, 0xFE)(0x4C, word(0x0100))


@case("stack-outside-wram", found("stack-outside-wram"))
def stack_at_2000():
    return begin()(0xA2, word(0x2000)).label("it")(0x9A).end()


@case("stack-outside-wram", {})
def stack_at_1fff():
    return begin()(0xA2, word(0x1FFF), 0x9A).end()


@case("brk", found("brk"))
def executes_brk():
    return begin().label("it")(0x00, 0x00).end()


@case("cop", found("cop"))
def executes_cop():
    return begin().label("it")(0x02, 0x00).end()


@case("wdm", found("wdm"))
def executes_wdm():
    return begin().label("it")(0x42, 0x00).end()


@case("stp", found("stp"))
def executes_stp():
    return begin().label("it")(0xDB)


@case("brk", {})
def has_such_bytes_as_operands():
    return begin().lda(0x00).lda(0x02).lda(0x42).lda(0xDB).end()


# The file.
@case("checksum", found("checksum", None))
def wrong_checksum():
    return begin().end().in_file(checksum=0x1234)


@case("size-byte", found("size-byte", None))
def wrong_size_byte():
    return begin().end().in_file(size=6)


@case("copier-header", found("copier-header", None))
def copier_header():
    return begin().end().in_file(front=512)


@case("no-header", found("no-header", None))
def no_header():
    return begin().end().in_file(map_byte=0)


@case("map-byte", {("map-byte", None): 1, ("no-header", None): 1})
def map_byte_of_the_other_place():
    return begin().end().in_file(map_byte=0x21)


@case("map-byte", found("no-header", None))
def map_byte_without_a_sum():
    return begin().end().in_file(map_byte=0x21, checksum=0x1234, complement=0)


@case("map-byte", found("map-byte"))
def speed_that_the_map_byte_forbids():
    return begin().lda(1).label("it").store(0x420D).end()


@case("map-byte", {})
def speed_that_the_map_byte_allows():
    return begin().store(0x420D, 1).end().in_file(map_byte=0x30)


@case("reset-vector", {("reset-vector", None): 1, ("wram-before-write", 0): 2, ("brk", 0): 1})
def reset_to_work_ram():
    return begin().end().in_file(reset=0, brk=0xFF01)


@case("checksum", {})
def right_file():
    return begin().end()


@case("interrupt-vector", found("interrupt-vector"))
def nmi_leads_nowhere():
    return begin().lda(0x80).label("it").store(0x4200)(0x9C, word(0x4200)).end().in_file(nmi=0x3000)


@case("interrupt-vector", {})
def nmi_leads_to_rom():
    return begin().lda(0x80).store(0x4200)(0x9C, word(0x4200)).end()


# Work RAM that nothing has written.
@case("wram-before-write", found("wram-before-write"))
def reads_work_ram():
    return begin().label("it").load(0x0010).end()


@case("wram-before-write", {})
def reads_what_it_wrote():
    return begin().store(0x0010, 1)(0xAF, word(0x0010), 0x7E).end()


@case("wram-before-write", {})
def reads_what_2180_wrote():
    return begin().store(0x2181, 0x10).store(0x2182, 0).store(0x2183, 0).dma(8, 0x80, 0x8000, 0, 2).load(0x0011).end()


# Other memories that nothing has written.
@case("sram-before-write", found("sram-before-write"))
def reads_cartridge_ram():
    return begin().label("it")(0xAF, word(0), 0x70).end().in_file(ram=3)


@case("sram-before-write", {})
def reads_cartridge_ram_that_it_wrote():
    return begin()(0x8F, word(0), 0x70, 0xAF, word(0), 0x70).end().in_file(ram=3)


def vram_at(code, address):
    return code.store(0x2116, address % 256).store(0x2117, address // 256)


@case("vram-before-write", found("vram-before-write"))
def reads_vram():
    return vram_at(begin(), 0x1234).label("it").load(0x2139).end()


@case("vram-before-write", {})
def reads_vram_that_it_wrote():
    code = vram_at(begin().store(0x2115, 0x80), 0x1234).store(0x2118, 1).store(0x2119, 2)
    return vram_at(code, 0x1234).load(0x2139).load(0x213A).end()


@case("vram-before-write", found("vram-before-write", "dma", 2))
def dma_reads_vram():
    return vram_at(begin().store(0x2115, 0x80), 0x1234).dma(0x81, 0x39, 0x0100, 0x7E, 2).end()


@case("vram-before-write", {})
def dma_reads_vram_that_dma_wrote():
    code = vram_at(begin().store(0x2115, 0x84), 0x12F4).dma(1, 0x18, 0x8000, 0, 4)
    return vram_at(code, 0x12F4).dma(0x81, 0x39, 0x0100, 0x7E, 2, "again").end()


@case("cgram-before-write", found("cgram-before-write"))
def reads_cgram():
    return begin().store(0x2121, 7).label("it").load(0x213B).load(0x213B).end()


@case("cgram-before-write", {})
def reads_cgram_that_it_wrote():
    return begin().store(0x2121, 7).store(0x2122, 1).store(0x2122, 0).store(0x2121, 7).load(0x213B).load(0x213B).end()


@case("oam-before-write", found("oam-before-write"))
def reads_oam():
    return begin().store(0x2102, 3).store(0x2103, 0).label("it").load(0x2138).end()


@case("oam-before-write", {})
def reads_oam_that_it_wrote():
    code = begin().store(0x2102, 3).store(0x2103, 0).store(0x2104, 1).store(0x2104, 2)
    return code.store(0x2102, 3).store(0x2103, 0).load(0x2138).load(0x2138).end()


# Registers of the picture. Six count in any mode: 2105, 212C, 212E, 2130, 2131 and 2133.
@case("registers-unset", found("registers-unset", "it", 6))
def screen_without_registers():
    return begin().backdrop().lda(0x0F).label("it").store(0x2100).end()


@case("registers-unset", {})
def forced_blank_without_registers():
    return begin().store(0x2100, 0x8F).vblank().store(0x2100, 0).end()


@case("registers-unset", found("registers-unset"))
def background_without_its_map():
    return begin().vram(0, 0x8000).registers(0x2107).store(0x212C, 1).lda(0x0F).label("it").store(0x2100).end()


@case("registers-unset", {})
def another_background_without_its_map():
    return begin().vram(0, 0x8000).registers(0x2107).store(0x212C, 2).store(0x2100, 0x0F).end()


def masked(select, without, masks=1):
    """BG1 masked by windows, by 2123, without a register of them."""
    code = begin().vram(0, 0x8000).registers(without).store(0x212C, 1).store(0x212E, masks).vblank()
    code = code if without == 0x2123 else code.store(0x2123, select)
    return code.lda(0x0F).label("it").store(0x2100).end()


@case("registers-unset", found("registers-unset"))
def windows_of_a_layer_unset():
    return masked(0, 0x2123)


@case("registers-unset", {})
def windows_of_a_layer_that_is_not_masked():
    return masked(0, 0x2123, 2)


@case("registers-unset", found("registers-unset"))
def place_of_a_window_unset():
    return masked(2, 0x2127)


@case("registers-unset", {})
def place_of_another_window_unset():
    return masked(2, 0x2129)


@case("registers-unset", found("registers-unset"))
def how_windows_are_joined_unset():
    return masked(10, 0x212A)


@case("registers-unset", {})
def how_one_window_is_joined_unset():
    return masked(8, 0x212A)


# What a line shows, and nothing has written. The map of BG1 at 0 in 224 rows has 29 rows of 32 words, of which lines 1 to 224 are seen.
SEEN = 29 * 32


def background(code, tiles=0, mode=0):
    """BG1 shown, its map at 0, its tiles at TILES * 1000h."""
    code.registers().store(0x212C, 1).store(0x210B, tiles).store(0x2105, mode).vblank()
    return code.lda(0x0F).label("it").store(0x2100).end()


@case("vram-shown-before-write", found("vram-shown-before-write", "it", 2 * SEEN))
def map_that_nothing_has_written():
    return background(begin())


@case("vram-shown-before-write", {})
def vram_that_was_cleared():
    return background(begin().vram(0, 0x8000), 1)


@case("vram-shown-before-write", {})
def map_that_was_written_as_far_as_it_is_seen():
    return background(begin().vram(0, SEEN))


@case("vram-shown-before-write", found("vram-shown-before-write", "it", 2))
def map_without_its_last_word():
    return background(begin().vram(0, SEEN - 1))


@case("vram-shown-before-write", found("vram-shown-before-write", "it", 16))
def tile_that_nothing_has_written():
    return background(begin().vram(0, SEEN), 1)


@case("vram-shown-before-write", {})
def tile_that_was_written():
    return background(begin().vram(0, SEEN).vram(0x1000, 8, 0, "again"), 1)


@case("vram-shown-before-write", found("vram-shown-before-write", "it", 16))
def tile_without_its_upper_planes():
    return background(begin().vram(0, SEEN).vram(0x1000, 8, 0, "again"), 1, 1)


@case("vram-shown-before-write", {})
def map_of_another_background():
    return begin().registers().store(0x212C, 8).store(0x2105, 1).store(0x2100, 0x0F).end()


@case("vram-shown-before-write", {})
def map_behind_forced_blank():
    return begin().registers().store(0x212C, 1).store(0x2100, 0x8F).end()


@case("vram-shown-before-write", found("vram-shown-before-write"))
def plane_of_mode_7():
    return background(begin(), 0, 7)


@case("vram-shown-before-write", found("vram-shown-before-write"))
def pixel_of_mode_7():
    return background(begin().store(0x2118, 0), 0, 7)


@case("vram-shown-before-write", {})
def plane_of_mode_7_that_was_written():
    return background(begin().vram(0, 1), 0, 7)


def objects(code, sizes=0):
    code.registers().store(0x2101, sizes).store(0x212C, 0x10).vblank()
    return code.lda(0x0F).label("it").store(0x2100).end()


@case("vram-shown-before-write", found("vram-shown-before-write", "it", 32))
def tile_of_objects_that_nothing_has_written():
    return objects(begin().oam(0))


@case("vram-shown-before-write", {})
def tile_of_objects_that_was_written():
    return objects(begin().oam(0).vram(0, 16))


@case("oam-shown-before-write", found("oam-shown-before-write", "it", 256))
def objects_that_nothing_has_written():
    return objects(begin())


@case("oam-shown-before-write", {})
def objects_below_the_picture():
    return objects(begin().oam(0xE0))


@case("oam-shown-before-write", found("oam-shown-before-write", "it", 2))
def last_object_that_nothing_has_written():
    code = begin().store(0x2102, 0).store(0x2103, 0).fill(0x04, 0xE0, 508, "low")
    return objects(code.store(0x2103, 1).fill(0x04, 0, 32, "high"))


@case("oam-shown-before-write", {})
def objects_that_are_not_on_the_screen():
    return begin().registers().store(0x2100, 0x0F).end()


@case("cgram-shown-before-write", found("cgram-shown-before-write"))
def colour_that_nothing_has_written():
    return background(begin().vram(0, 0x8000, 0xFF))


@case("cgram-shown-before-write", {})
def colour_that_was_written():
    return background(begin().vram(0, 0x8000, 0xFF).store(0x2121, 31).store(0x2122, 0).store(0x2122, 0))


@case("cgram-shown-before-write", found("cgram-shown-before-write"))
def another_colour_that_was_written():
    return background(begin().vram(0, 0x8000, 0xFF).store(0x2121, 30).store(0x2122, 0).store(0x2122, 0))


@case("cgram-shown-before-write", found("cgram-shown-before-write"))
def backdrop_that_nothing_has_written():
    code = begin()
    for register in range(0x2123, 0x2134):
        code(0x9C, word(register))
    return code(0x9C, word(0x2105)).lda(0x0F).label("it").store(0x2100).end()


# What the profile does otherwise.
@case("register-inside-line", found("register-inside-line"))
def scroll_in_a_line():
    return begin().picture().drawn().lda(1).label("it").store(0x210D).end()


@case("register-inside-line", {})
def scroll_in_hblank():
    return begin().picture().hblank().lda(1).store(0x210D).end()


@case("register-inside-line", {})
def product_of_the_picture_unit():
    return begin().picture().drawn().lda(1).store(0x211B).end()


def timer(more):
    code = begin().store(0x420A, 0).store(0x4200, 0x20).picture().drawn()
    return code.load(0x2137).load(0x213D)(more).label("it").store(0x4209).end()


@case("timer-on-its-line", found("timer-on-its-line"))
def timer_on_the_line_of_the_beam():
    return timer(b"")


@case("timer-on-its-line", {})
def timer_two_lines_later():
    return timer(b"\x1A\x1A")


@case("latch-by-4201", found("latch-by-4201"))
def latch_by_4201():
    return begin().lda(0).label("it").store(0x4201).end()


@case("latch-by-4201", {})
def same_byte_in_4201():
    return begin().lda(0xFF).store(0x4201).end()


@case("blank-near-edge", found("blank-near-edge"))
def blank_after_an_irq_at_the_edge():
    return blank_after_an_irq(268)


@case("blank-near-edge", {})
def blank_after_a_later_irq():
    return blank_after_an_irq(300)


def blank_after_an_irq(dot):
    code = begin().picture().store(0x4207, dot % 256).store(0x4208, dot // 256).store(0x4200, 0x10)(0xCB).load(0x4211)
    return code.lda(0x80)(0xCB).label("it").store(0x2100)(0x9C, word(0x4200)).end()


@case("field-and-region-bits", found("field-and-region-bits"))
def reads_213f():
    return begin().label("it").load(0x213F).end()


@case("field-and-region-bits", {})
def reads_213e():
    return begin().load(0x213E).end()


def flipped(sizes, attributes, y=0):
    code = begin().vram(0, 0x8000).registers().oam(0xE0).vblank()
    code.store(0x2101, sizes).store(0x212C, 0x10).store(0x2102, 0).store(0x2103, 0)
    code.store(0x2104, 0).store(0x2104, y).store(0x2104, 0).lda(attributes)
    return code.label("it").store(0x2104).store(0x2100, 0x0F).end()


@case("vertical-flip-of-halves", found("vertical-flip-of-halves", "it", None))
def object_of_16_by_32_turned_over():
    return flipped(0xC0, 0x80)


@case("vertical-flip-of-halves", {})
def object_of_16_by_32_turned_sideways():
    return flipped(0xC0, 0x40)


@case("vertical-flip-of-halves", {})
def square_object_turned_over():
    return flipped(0xA0, 0x80)


@case("vertical-flip-of-halves", {})
def object_turned_over_below_the_picture():
    return flipped(0xC0, 0x80, 224)


def fine(settings, colour):
    code = begin().registers().store(0x2121, 0).store(0x2122, colour).store(0x2122, 0).lda(settings)
    return code.label("it").store(0x2133).store(0x2100, 0x0F).end()


@case("backdrop-in-high-resolution", found("backdrop-in-high-resolution", "it", None))
def half_pixels_over_red():
    return fine(8, 0x1F)


@case("backdrop-in-high-resolution", {})
def half_pixels_over_black():
    return fine(8, 0)


@case("backdrop-in-high-resolution", {})
def whole_pixels_over_red():
    return fine(0, 0x1F)


# The sound side. Its program is sent by the protocol of the boot ROM.
def sound(program):
    code = begin()
    code(0xC2, 0x20, 0xA9, word(0xBBAA), 0xCD, word(0x2140), 0xD0, 0xFB, 0xE2, 0x20)
    code.store(0x2142, 0).store(0x2143, 2).store(0x2141, 1).store(0x2140, 0xCC)(0xCD, word(0x2140), 0xD0, 0xFB)
    for at, byte in enumerate(program):
        code.store(0x2141, byte).store(0x2140, at)(0xCD, word(0x2140), 0xD0, 0xFB)
    code.store(0x2142, 0).store(0x2143, 2).store(0x2141, 0).store(0x2140, len(program) + 2)
    return code.end()


def dsp(*pairs):
    return b"".join(bytes([0x8F, value, address]) for address, value in pairs) + b"\x2F\xFE"


@case("key-on-twice", found("key-on-twice", ("sound", 0x0206)))
def key_on_twice():
    return sound(dsp((0xF2, 0x4C), (0xF3, 1), (0xF3, 2)))


@case("key-on-twice", {})
def key_on_later():
    wait = b"\xCD\x20\x1D\xD0\xFD"  # MOV X,#$20; DEC X; BNE
    return sound(bytes([0x8F, 0x4C, 0xF2, 0x8F, 1, 0xF3]) + wait + bytes([0x8F, 2, 0xF3, 0x2F, 0xFE]))


@case("key-off-short", found("key-off-short", ("sound", 0x0206)))
def key_off_short():
    return sound(dsp((0xF2, 0x5C), (0xF3, 1), (0xF3, 0)))


@case("key-off-short", {})
def key_off_stays():
    return sound(dsp((0xF2, 0x5C), (0xF3, 1), (0xF3, 3)))


@case("dsp-selector", found("dsp-selector", ("sound", 0x0203)))
def selector_with_bit_7():
    return sound(dsp((0xF2, 0x8C), (0xF3, 1)))


@case("dsp-selector", {})
def selector_without_bit_7():
    return sound(dsp((0xF2, 0x0C), (0xF3, 1)))


@case("aram-before-write", found("aram-before-write", ("sound", 0x0200)))
def reads_sound_ram():
    return sound(b"\xE5\x00\x04\x2F\xFE")  # MOV A,!$0400; BRA


@case("aram-before-write", {})
def reads_sound_ram_that_it_wrote():
    return sound(b"\xC5\x00\x04\xE5\x00\x04\x2F\xFE")


def echo(fill, then=b""):
    """Fills 0800 (and 0804: BRA to itself), and puts an echo buffer of 4 bytes there."""
    code = b"\xE8\x2F\xC5\x04\x08\xE8\xFE\xC5\x05\x08" + bytes([0xE8, fill]) + b"\xC5\x00\x08"
    return sound(code + dsp((0xF2, 0x6D), (0xF3, 8), (0xF2, 0x7D), (0xF3, 0), (0xF2, 0x6C), (0xF3, 0))[:-2] + then + b"\x2F\xFE")


@case("echo-over-memory", found("echo-over-memory", ("sound", 0x021E)))
def echo_over_what_was_filled():
    return echo(1)


@case("echo-over-memory", {})
def echo_over_what_was_cleared():
    return echo(0)


@case("echo-over-memory", found("echo-over-memory", ("sound", 0x0223)))
def fills_the_echo_buffer():
    return echo(0, b"\xE8\x01\xC5\x03\x08")


@case("echo-over-memory", {})
def fills_behind_the_echo_buffer():
    return echo(0, b"\xE8\x01\xC5\x06\x08")


@case("echo-over-memory", {("echo-over-memory", ("sound", 0x0800 + at)): 1 for at in range(4)})
def runs_in_the_echo_buffer():
    return echo(0, b"\x5F\x00\x08")  # JMP !$0800: four NOP, as the S-DSP writes zeros


@case("wait-for-endx", found("wait-for-endx", ("sound", 0x0203)))
def waits_for_endx():
    return sound(b"\x8F\x7C\xF2\xE4\xF3\xF0\xFC\x2F\xFE")  # MOV A,$F3; BEQ


@case("wait-for-endx", {})
def looks_at_endx_now_and_then():
    return sound(b"\x8F\x7C\xF2\xE4\xF3\xCD\x20\x1D\xD0\xFD\x2F\xF7")


def address_of(code, label):
    if label is None:
        return None
    if isinstance(label, tuple):
        return f"{label[1]:04X}"
    return f"{label if isinstance(label, int) else code.labels[label]:06X}"


def written(folder, code):
    """Writes the cartridge of a case, and returns the file's name."""
    path = os.path.join(folder, "case.sfc")
    with open(path, "wb") as file:
        file.write(cartridge(code, **code.options))
    return path


def differs(lint, folder, code, wanted):
    """How the findings of a cartridge differ from what is wanted; empty if they don't."""
    path = written(folder, code)
    ran = subprocess.run([lint, path, "--frames", "8", "--format", "json"], capture_output=True, timeout=300, check=False)
    if ran.returncode == 2 or not ran.stdout:
        return f"status {ran.returncode}: {ran.stderr.decode()}"
    told = json.loads(ran.stdout)
    got = {}
    for one in told["findings"]:
        place = None if one["unit"] == "file" else one["address"]
        got[one["rule"], place] = got.get((one["rule"], place), 0) + one["count"]
    left = dict(got)
    for (rule, label), count in wanted.items():
        key = rule, address_of(code, label)
        if key not in left:
            return f"{key} is missing: {got}"
        if count is not None and left[key] != count:
            return f"{key}: {left[key]} times, and not {count}"
        del left[key]
    if left:
        return f"too many: {left}"
    warns = any(one["severity"] == "warning" for one in told["findings"])
    return "" if ran.returncode == (1 if warns else 0) else f"status {ran.returncode}"


def call(lint, folder, *words):
    ran = subprocess.run([lint, *words], cwd=folder, capture_output=True, timeout=300, check=False)
    return ran.returncode, ran.stdout.decode(), ran.stderr.decode()


def wrong_in_sarif(text):
    """What SARIF 2.1.0 requires of the parts that are written, and they lack; empty for nothing."""
    log = json.loads(text)
    if log["version"] != "2.1.0" or not log["$schema"].endswith("sarif-2.1.0.json") or len(log["runs"]) != 1:
        return "version, schema or runs"
    run = log["runs"][0]
    rules = [rule["id"] for rule in run["tool"]["driver"]["rules"]]
    if run["tool"]["driver"]["name"] != "lint" or len(rules) != len(set(rules)):
        return "the driver"
    for result in run["results"]:
        place = result["locations"][0]["physicalLocation"]
        region = place.get("region", {"startLine": 1})
        right = (
            result["ruleId"] in rules
            and result["level"] in ("note", "warning")
            and result["message"]["text"]
            and result["occurrenceCount"] >= 1
            and re.fullmatch(r"(?:[A-Za-z0-9/._~-]|%[0-9A-F]{2})+", place["artifactLocation"]["uri"])
            and (region.get("startLine", 0) >= 1 or region.get("byteOffset", -1) >= 0)
            and result["locations"][0]["logicalLocations"][0]["fullyQualifiedName"]
        )
        if not right:
            return f"a result: {result}"
    return ""


def words_and_formats(lint, folder):
    """The other words, with a cartridge that executes COP, BRK (a note and a warning) and has a name with a space."""
    with open(os.path.join(folder, "a b.sfc"), "wb") as file:
        file.write(cartridge(begin().label("cop")(0x02, 0x00).label("brk")(0x00, 0x00).end()))
    with open(os.path.join(folder, "labels"), "w", encoding="utf-8") as file:
        file.write("al 008000 .start\nal 00FF00 .handler\n")
    allowed = os.path.join(folder, "allowed")
    cart = ["a b.sfc", "--frames", "2"]

    def status_of(*words):
        return call(lint, folder, *cart, *words)[0]

    def with_allowed(text):
        with open(allowed, "w", encoding="utf-8") as file:
            file.write(text)
        return status_of("--symbols", "labels", "--allowed", "allowed")

    sarif = call(lint, folder, *cart, "--format", "sarif")
    tap = call(lint, folder, *cart, "--format", "tap")[1]
    people = call(lint, folder, *cart, "--symbols", "labels")[1]
    yield "sarif", wrong_in_sarif(sarif[1]) if sarif[0] == 1 else "status"
    yield "sarif's names", "" if '"a%20b.sfc"' in sarif[1] else sarif[1]
    yield "tap", "" if re.search(r"^not ok \d+ - brk\n# 00", tap, re.M) and re.search(r"^ok \d+ - cop\n# 00", tap, re.M) else tap
    yield "tap's plan", "" if re.match(r"TAP version 14\n1\.\.(\d+)\n", tap) and tap.count("ok ") == int(tap.split("1..")[1].split("\n")[0]) else tap
    yield "people", "" if re.search(r"^a b.sfc: warning: BRK .* \[brk\]\n    008012 start\+12: once, in frame 0, line \d+, dot \d+$", people, re.M) else people
    yield "people's last line", "" if people.endswith("a b.sfc: 1 warning, 1 note, in 2 frames\n") else people
    yield "the same twice", "" if people == call(lint, folder, *cart, "--symbols", "labels")[1] else "differs"
    yield "fail-on never", "" if status_of("--fail-on", "never") == 0 else "status"
    yield "allow", "" if status_of("--allow", "brk") == 0 else "status"
    yield "fail-on note", "" if status_of("--allow", "brk", "--fail-on", "note") == 1 else "status"
    yield "allow two", "" if status_of("--allow", "brk,cop", "--fail-on", "note") == 0 else "status"
    yield "no rule", "" if status_of("--allow", "brk,nothing") == 2 else "status"
    yield "allowed by address", "" if with_allowed("# none\nbrk 008012 # here\n") == 0 else "status"
    yield "allowed elsewhere", "" if with_allowed("brk 008014\n") == 1 else "status"
    yield "allowed by label", "" if with_allowed("brk start\n") == 0 else "status"
    yield "allowed by another label", "" if with_allowed("brk handler\n") == 1 else "status"
    yield "no allowed line", "" if with_allowed("brk start more\n") == 2 else "status"
    yield "no frames", "" if status_of("--frames", "0") == 2 else "status"
    yield "no file", "" if call(lint, folder, "none.sfc")[0] == 2 else "status"


def planted(lint, folder):
    """Each fault of faults.s on its line, and nothing else."""
    source = os.path.join(HERE, "lint", "faults.s")
    shutil.copy(source, folder)
    config = os.path.join(HERE, "lint", "faults.cfg")
    subprocess.run(["ca65", "-g", "--cpu", "65816", "faults.s", "-o", "faults.o"], cwd=folder, check=True)
    subprocess.run(["ld65", "-C", config, "faults.o", "-o", "faults.sfc", "--dbgfile", "faults.dbg"], cwd=folder, check=True)
    with open(source, encoding="utf-8") as file:
        lines = {int(at[1]): number for number, line in enumerate(file, 1) if (at := re.search(r"; fault (\d)", line))}
    rules = ["wram-before-write", "product-early", "vram-outside-blank", "write-to-nothing", "pads-while-busy"]
    wanted = {(rule, "faults.s", lines[number]) for number, rule in enumerate(rules, 1)} | {("checksum", None, None)}
    status, text, said = call(lint, folder, "faults.sfc", "--symbols", "faults.dbg", "--frames", "30", "--format", "json")
    got = {(one["rule"], one.get("file"), one.get("line")) for one in json.loads(text or '{"findings": []}')["findings"]}
    return "" if status == 1 and got == wanted else f"status {status}, {said}, {sorted(got ^ wanted, key=str)}"


def free_cartridges(lint, folder):
    """The free cartridges have no finding, not even a note."""
    for name in ("scene", "game", "hello"):
        path = os.path.join(TOP, "crates/cart_bench/data", f"{name}.sfc")
        status, text, said = call(lint, folder, path, "--fail-on", "note")
        yield f"no finding in {name}.sfc", "" if status == 0 else text + said


# The rules that warn of what only the first profile does otherwise than a console, and some that hold in both.
SILENT = ("wait-for-busy", "timer-on-its-line", "field-and-region-bits", "vertical-flip-of-halves", "backdrop-in-high-resolution", "latch-by-4201")
HOLDING = ("vram-outside-blank", "pads-while-busy", "key-on-twice", "key-off-short", "register-inside-line", "blank-near-edge")


def in_second_profile(lint, folder):
    """The cases of these rules with a script of version 3: the first ones are silent, the others are found."""
    with open(os.path.join(folder, "second.txt"), "w", encoding="utf-8") as file:
        file.write("version 3 ntsc\n")
    for rule, name, make, wanted in CASES:
        if rule in SILENT + HOLDING and any(one == rule for one, _ in wanted):
            words = written(folder, make()), "--frames", "8", "--script", "second.txt", "--format", "json"
            status, text, said = call(lint, folder, *words)
            found = status != 2 and any(one["rule"] == rule for one in json.loads(text)["findings"])
            right = status != 2 and found == (rule in HOLDING)
            yield f"{name} in the second profile", "" if right else said or text


def validated(lint, folder, validator):
    """Validates a log of each case with a finding, of a run without one, and of the planted faults; and has changed logs refused."""
    def log_of(*words):
        return json.loads(call(lint, folder, *words, "--format", "sarif")[1])

    def fault_of(log, has_results):
        if bool(log["runs"][0]["results"]) != has_results:
            return "results" if has_results else "no results"
        return sarif_schema.fault_of(validator, log)

    for _, name, make, wanted in CASES:
        if wanted or name == "right_file":
            log = log_of(written(folder, make()), "--frames", "8")
            yield f"log of {name}", fault_of(log, bool(wanted))
        if name == "wrong_checksum":
            for change, wrong in sarif_schema.changed(validator, log):
                yield f"changed log: {change}", "" if sarif_schema.fault_of(validator, wrong) else "the schema takes it"
    if os.path.exists(os.path.join(folder, "faults.sfc")):
        log = log_of("faults.sfc", "--symbols", "faults.dbg", "--frames", "30")
        lines = json.dumps(log).count('"startLine"')
        yield "log of the planted faults", fault_of(log, True) or ("" if lines == 5 else f"{lines} lines of source")


def main():
    words = argparse.ArgumentParser(description=__doc__, formatter_class=argparse.RawDescriptionHelpFormatter)
    words.add_argument("--lint", default=os.path.join(TOP, "crates/cart_lint/out/cart_lint"))
    words.add_argument("--only")
    words.add_argument("--schema", metavar="FILE")
    given = words.parse_args()
    given.lint = os.path.abspath(given.lint)
    if not os.access(given.lint, os.X_OK):
        sys.exit(f"no program: {given.lint} (ONLY_BUILD=1 tools/run_built.sh lint cart_lint builds it)")
    validator = sarif_schema.validator_of(given.schema) if given.schema else None
    tried = failed = 0
    with tempfile.TemporaryDirectory() as folder:
        for rule, name, make, wanted in CASES:
            if given.only in (None, rule):
                tried += 1
                wrong = differs(given.lint, folder, make(), wanted)
                if wrong:
                    failed += 1
                    print(f"{rule}: {name}: {wrong}")
        if given.only is None:
            more = [*words_and_formats(given.lint, folder), *in_second_profile(given.lint, folder), *free_cartridges(given.lint, folder)]
            if shutil.which("ca65"):
                more.append(("five planted faults", planted(given.lint, folder)))
            if validator:
                logs = list(validated(given.lint, folder, validator))
                valid = sum(name.startswith("log ") and not wrong for name, wrong in logs)
                refused = sum(name.startswith("changed ") and not wrong for name, wrong in logs)
                print(f"by the schema {valid} logs are valid, and {refused} changed ones are not")
                more += logs
            else:
                print("no log of SARIF is validated: no --schema FILE (--help says how to get it)")
            tried += len(more)
            for name, wrong in more:
                if wrong:
                    failed += 1
                    print(f"{name}: {wrong}")
    print(f"{tried} tried, {failed} failed")
    return 1 if failed else 0


if __name__ == "__main__":
    sys.exit(main())
