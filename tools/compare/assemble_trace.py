#!/usr/bin/env python3
"""Gives the 65C816's instructions that ./trace tells to an assembler, and compares the bytes that it makes of them.

The 80 jobs of crates/console_vectors/data/console.txt, whose programs are made at random, are traced; each instruction
is taken with its bytes, which are those that its opcode line and the fetches behind it tell, its flags M and X and, for
a branch, its address. ca65 (Debian's package cc65) assembles the text. So mnemonics, operands, widths and the targets
of branches are checked for every opcode that is reached, which is all but STP.

    tools/compare/assemble_trace.py [PROGRAM]

ca65 writes the operands of BRK, COP and WDM without #, takes the banks of MVN and MVP from addresses of 24 bits, and
wants a: and f: before addresses of two and three bytes, so these are written so. The status is 0 where all are alike,
but for instructions that overwrite their own last byte before they fetch it, which are told.
"""
import csv, importlib.util, io, os, re, subprocess, sys, tempfile

TOP = os.path.join(os.path.dirname(os.path.abspath(__file__)), "..", "..")
BRANCHES = {0x10, 0x30, 0x50, 0x70, 0x90, 0xB0, 0xD0, 0xF0, 0x80, 0x82, 0x62}


def jobs():
    """The jobs of console_vectors, read as tools/compare/compare_trace.py reads them."""
    spec = importlib.util.spec_from_file_location("compare_trace", f"{TOP}/tools/compare/compare_trace.py")
    module = importlib.util.module_from_spec(spec)
    spec.loader.exec_module(module)
    return module.jobs(f"{TOP}/crates/console_vectors/data/console.txt")


def traced(program, job):
    """The CSV of a job's first steps."""
    with tempfile.TemporaryDirectory() as folder:
        for name in ("image", "boot", "table"):
            with open(f"{folder}/{name}", "wb") as file:
                file.write(job[name])
        with open(f"{folder}/script", "w") as file:
            file.write(job["script"])
        files = ["--cart", f"{folder}/image", "--boot", f"{folder}/boot", "--table", f"{folder}/table", "--script", f"{folder}/script"]
        words = ["--frames", "3", "--side", "console", "--csv", "--lines", "40000"]
        return subprocess.run([program, *files, *words], capture_output=True, text=True).stdout


def instructions(text, found):
    """Adds the instructions of a trace: bytes, flags M and X, address of a branch; and the text."""
    begun = None
    for row in csv.DictReader(io.StringIO(text)):
        if row["kind"] == "opcode":
            if begun:
                found[bytes(begun[0]), begun[1], begun[2] if begun[0][0] in BRANCHES else 0x8000] = begun[3]
            begun = (bytearray([int(row["byte"], 16)]), int(row["P"], 16) & 0x30, int(row["address"], 16) & 0xFFFF, row["instruction"])
        elif row["kind"] == "fetch" and begun:
            begun[0].append(int(row["byte"], 16))


def as_ca65(code, text):
    name = text[:3]
    if name in ("WDM", "BRK", "COP"):
        return text.replace("#", "")
    if name in ("MVN", "MVP"):
        return re.sub(r"\$([0-9A-F]{2})", r"$\g<1>0000", text)
    if code[0] in BRANCHES or "#" in text or "(" in text or "[" in text or name == "PEA":
        return text
    return re.sub(r"\$([0-9A-F]{4})$|\$([0-9A-F]{4})(?=,)", r"a:\g<0>", re.sub(r"\$([0-9A-F]{6})", r"f:\g<0>", text))


def assembled(found, folder):
    """The bytes that ca65 makes of each."""
    lines = [".p816"]
    for number, ((code, flags, at), text) in enumerate(found.items()):
        lines += [".a8" if flags & 0x20 else ".a16", ".i8" if flags & 0x10 else ".i16", f".org ${at:04X}", f"  {as_ca65(code, text)} ; @{number}"]
    with open(f"{folder}/all.s", "w") as file:
        file.write("\n".join(lines) + "\n")
    subprocess.run(["ca65", "--cpu", "65816", "-l", f"{folder}/all.lst", "-o", f"{folder}/all.o", f"{folder}/all.s"], check=True)
    made = {}
    for line in open(f"{folder}/all.lst"):
        told = re.match(r"[0-9A-F]{6}r?\s+\d+\s+((?:[0-9A-F]{2} )+).*; @(\d+)", line)
        if told:
            made[int(told[2])] = bytes.fromhex(told[1])
    return made


def main():
    program = sys.argv[1] if len(sys.argv) > 1 else f"{TOP}/crates/snes_trace/out/snes_trace"
    found = {}
    for job in jobs():
        instructions(traced(program, job), found)
    with tempfile.TemporaryDirectory() as folder:
        made = assembled(found, folder)
    different = own = 0
    for number, ((code, flags, at), text) in enumerate(found.items()):
        if made.get(number) == code:
            continue
        # JSL pushes its bank before it fetches its last byte.
        own += code[0] == 0x22
        different += code[0] != 0x22
        print(f"{text}: {code.hex(' ')} fetched, {made.get(number, b'').hex(' ')} assembled")
    opcodes = len({code[0] for code, _, _ in found})
    print(f"{len(found)} instructions, {opcodes} opcodes: {different} differ, {own} overwrote their own last byte")
    return 0 if found and not different else 1


if __name__ == "__main__":
    sys.exit(main())
