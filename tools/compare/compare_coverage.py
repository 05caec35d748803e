#!/usr/bin/env python3
"""Compares what ./trace --coverage says of a cartridge with a count from the plain trace of the same run.

    tools/compare/compare_coverage.py PROGRAM CART FRAMES [SCRIPT]
    tools/compare/compare_coverage.py PROGRAM jobs [FRAMES]

PROGRAM is the built program (crates/snes_trace/out/snes_trace). The run is traced as CSV, the console's side alone, and
each byte of ROM gets its marks from the lines: opcode and fetch lines are code, reads, DMA and HDMA are data, flags M and
X come from the column P, and jumps from the instructions' text. The map of the cartridge (LoROM or HiROM) is computed
here. The log of code and data and the table have to say the same. With `jobs` the cartridges are
those of the 80 jobs of crates/console_vectors, one frame each. The status is 0 where all agree.
"""
import csv, os, re, subprocess, sys, tempfile, zlib

import compare_trace

CODE, DATA, JUMP, ENTRY, INDEX, MEMORY = 1, 2, 4, 8, 16, 32
CALLS = ("JSR", "JSL")
BRANCHES = ("BCC", "BCS", "BEQ", "BMI", "BNE", "BPL", "BRA", "BRL", "BVC", "BVS", "JMP")


def fold(offset, size, bits=22):
    """The byte of ROM at an offset of so many bits, by the mirrors of docs/machine/CARTRIDGE.md."""
    while size < 1 << bits:
        bits -= 1
        if offset >= 1 << bits:
            offset -= 1 << bits
            if size > 1 << bits:
                return (1 << bits) + fold(offset, size - (1 << bits), bits)
        elif size > 1 << bits:
            return offset
    return offset


def offset_of(address, size, is_high):
    """The byte of ROM at an address of 24 bits, or none."""
    bank, low = address >> 16, address & 0xFFFF
    if bank in (0x7E, 0x7F):
        return None
    if is_high and (bank & 0x40 or low >= 0x8000):
        return fold(address & 0x3FFFFF, size)
    if not is_high and low >= 0x8000:
        return fold((bank & 0x7F) << 15 | low & 0x7FFF, size)
    return None


def image_of(file):
    """The ROM of a file, without a copier's header and filled with zeros, and whether it is HiROM."""
    rom = open(file, "rb").read()
    rom = rom[512:] if len(rom) % 1024 == 512 else rom
    rom += bytes(-len(rom) % 32768)

    def is_sound(at):
        return rom[at + 0x1C] + rom[at + 0x1E] == 255 and rom[at + 0x1D] + rom[at + 0x1F] == 255

    low = rom[0x7FD5] in (0x20, 0x30)
    high = len(rom) >= 65536 and rom[0xFFD5] in (0x21, 0x31)
    return rom, high and (not low or is_sound(0xFFC0) and not is_sound(0x7FC0))


def mark_of(lead, address):
    """The mark of an opcode at an address by the instruction before it: its text, and its bank."""
    if lead is None:
        return 0
    text, bank = lead
    name, _, operand = text.partition(" ")
    mark = ENTRY if name in CALLS else JUMP if name in BRANCHES else 0
    if not mark or operand.startswith(("(", "[")):
        return mark
    target = int(re.fullmatch(r"\$([0-9A-F]+)", operand)[1], 16)
    if len(operand) < 7:
        target += bank << 16
    return mark if target == address else 0


def counted(lines, rom, is_high):
    """The marks of all bytes by the lines of a trace, and those that the processor read and DMA read."""
    marks, read, moved = bytearray(len(rom)), bytearray(len(rom)), bytearray(len(rom))
    lead, widths = None, 0
    rows = csv.reader(lines)
    place = {name: k for k, name in enumerate(next(rows))}
    KIND, ADDRESS, WAY, TEXT, STATUS = (place[name] for name in ("kind", "address", "way", "instruction", "P"))
    for row in rows:
        if not row[ADDRESS]:
            continue
        address = int(row[ADDRESS], 16)
        at = offset_of(address, len(rom), is_high)
        kind = row[KIND]
        if kind == "opcode":
            status = int(row[STATUS], 16)
            widths = (INDEX if status & 0x10 else 0) | (MEMORY if status & 0x20 else 0)
            led, lead = mark_of(lead, address), (row[TEXT], address >> 16)
            if at is not None:
                marks[at] = marks[at] & ~(INDEX | MEMORY) | CODE | led | widths
        elif kind == "fetch" and at is not None:
            marks[at] = marks[at] & ~(INDEX | MEMORY) | CODE | widths
        elif kind == "read":
            if 0xFFE0 <= address <= 0xFFFF:
                lead = None
            if at is not None:
                marks[at] |= DATA
                read[at] = 1
        elif kind in ("DMA", "HDMA") and row[WAY] in ("to", "table") and at is not None:
            marks[at] |= DATA
            moved[at] = 1
    return marks, read, moved


def table(marks, read, moved, bank):
    """The lines of the table as CSV."""
    lines = ["bank,offset,bytes,executed,data,dma,never"]
    parts = [("%02X,%06X" % (k // bank, k), range(k, min(k + bank, len(marks)))) for k in range(0, len(marks), bank)]
    for head, part in parts + [("all,", range(len(marks)))]:
        counts = [0, 0, 0, 0]
        for at in part:
            counts[0 if marks[at] & CODE else 1 if read[at] else 2 if moved[at] else 3] += 1
        lines.append(",".join([head, str(len(part)), *map(str, counts)]))
    return lines


def compare(program, name, files, frames):
    """Whether the log and the table of a cartridge are as counted here."""
    rom, is_high = image_of(files[1])
    with tempfile.TemporaryDirectory() as folder:
        log = f"{folder}/out.cdl"
        words = [program, *files, "--frames", frames]
        said = subprocess.run([*words, "--coverage", log, "--csv"], capture_output=True, text=True, check=True).stdout
        written = open(log, "rb").read()
        with subprocess.Popen([*words, "--side", "console", "--csv"], stdout=subprocess.PIPE, stderr=subprocess.DEVNULL, text=True) as trace:
            marks, read, moved = counted(trace.stdout, rom, is_high)
    wanted = b"CDLv2" + zlib.crc32(rom).to_bytes(4, "little") + marks
    apart = [at for at in range(len(wanted)) if at >= len(written) or written[at] != wanted[at]]
    for at in apart[:10]:
        have = written[at] if at < len(written) else -1
        print(f"{name}: byte {at} of the log is {have:02X}, not {wanted[at]:02X}")
    lines = table(marks, read, moved, 65536 if is_high else 32768)
    same = said.splitlines() == lines
    if not same:
        print(f"{name}: the table is\n{said}and not\n" + "\n".join(lines))
    kinds = [sum(1 for mark in marks if mark & bit) for bit in (CODE, DATA, JUMP, ENTRY)]
    print(f"{name}: {frames} frames, {len(rom)} bytes, {'HiROM' if is_high else 'LoROM'}; code, data, jumps, entries: {kinds}; {len(apart)} differ, the table is {'the same' if same else 'another'}")
    return not apart and len(written) == len(wanted) and same


def compare_job(program, job, frames):
    """The same for a job of the vectors."""
    with tempfile.TemporaryDirectory() as folder:
        files = []
        for word, name in (("cart", "image"), ("boot", "boot"), ("table", "table"), ("script", "script")):
            text = job[name].encode() if name == "script" else job[name]
            with open(f"{folder}/{name}", "wb") as file:
                file.write(text)
            files += [f"--{word}", f"{folder}/{name}"]
        return compare(program, job["name"], files, frames)


def main():
    program, cart, *more = sys.argv[1:]
    if cart == "jobs":
        jobs = list(compare_trace.jobs(f"{compare_trace.TOP}/crates/console_vectors/data/console.txt"))
        alike = sum(compare_job(program, job, more[0] if more else "1") for job in jobs)
        print(f"{len(jobs)} cartridges, {alike} alike")
        return 0 if jobs and alike == len(jobs) else 1
    files = ["--cart", cart] + (["--script", more[1]] if len(more) > 1 else [])
    return 0 if compare(program, cart, files, more[0]) else 1


if __name__ == "__main__":
    sys.exit(main())
