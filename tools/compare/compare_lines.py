#!/usr/bin/env python3
"""Compares the record of source lines that ./trace --coverage writes for lcov with a count by ca65's listing.

    tools/compare/compare_lines.py PROGRAM [FRAMES]

PROGRAM is the built program (crates/snes_trace/out/snes_trace). The cartridge is that of examples/hello. ca65 and ld65
(Debian's package cc65) build it in a temporary folder with a debug file, a listing and a map of segments. The record is
made by the debug file. The count is made without it: the listing says which bytes of CODE each line of hello.s has, the
map where CODE begins, and the plain trace which opcodes were executed there. All lines of CODE have to agree, and no
other line of hello.s may be executed. genhtml (Debian's package lcov) then has to read the record, where it is installed.
The status is 0 if all holds.
"""
import csv, os, re, shutil, subprocess, sys, tempfile

TOP = os.path.dirname(os.path.dirname(os.path.dirname(os.path.realpath(__file__))))
LINE = re.compile(r"([0-9A-F]{6})r? (\d)  ((?:[0-9A-Fx]{2} ){1,4})?")


def lines_of(listing):
    """The bytes of CODE that each line of the main file has, as offsets in CODE."""
    found, number, segment, last = {}, 0, "CODE", None
    for text in open(listing, encoding="utf-8"):
        match = LINE.match(text)
        if not match or match[2] != "1":
            continue
        source = text[24:].rstrip("\n")
        at = int(match[1], 16)
        # Of a line with more than four bytes the listing has further rows, with no text.
        if last and segment == "CODE" and at > last[1]:
            found[last[0]] = range(last[1], at)
        if match[3] and not source.strip():
            continue
        number += 1
        last = None
        named = re.search(r'^\s*\.segment\s+"(\w+)"', source)
        if named:
            segment = named[1]
        elif match[3] and segment == "CODE":
            last = (number, at)
    return found


def build(folder):
    """Builds the cartridge, and returns where CODE begins."""
    shutil.copytree(f"{TOP}/examples/hello", folder, dirs_exist_ok=True)
    for one in ("hello", "sound"):
        subprocess.run(["ca65", "-g", "-l", f"{one}.lst", f"{one}.s", "-o", f"{one}.o"], cwd=folder, check=True)
    words = ["-C", "hello.cfg", "hello.o", "sound.o", "-o", "hello.sfc", "--dbgfile", "hello.dbg", "-m", "hello.map"]
    subprocess.run(["ld65", *words], cwd=folder, check=True)
    subprocess.run(["python3", "checksum.py", "hello.sfc"], cwd=folder, check=True)
    return int(re.search(r"^CODE +([0-9A-F]{6}) ", open(f"{folder}/hello.map").read(), re.M)[1], 16)


def executed(program, folder, frames):
    """The addresses of the opcodes that are executed."""
    words = [program, "--cart", "hello.sfc", "--frames", frames, "--side", "console", "--instructions", "--csv"]
    with subprocess.Popen(words, cwd=folder, stdout=subprocess.PIPE, text=True) as trace:
        return {int(row["address"], 16) & 0x7FFFFF for row in csv.DictReader(trace.stdout) if row["kind"] == "opcode"}


def record(program, folder, frames):
    """The lines of hello.s in the record, with 1 for those that were executed."""
    words = [program, "--cart", "hello.sfc", "--frames", frames, "--symbols", "hello.dbg", "--coverage", "hello.info"]
    subprocess.run(words, cwd=folder, check=True, stdout=subprocess.DEVNULL)
    sections = open(f"{folder}/hello.info").read().split("end_of_record\n")
    text = next(section for section in sections if "SF:hello.s\n" in section)
    return {int(line): int(hit) for line, hit in re.findall(r"^DA:(\d+),(\d+)$", text, re.M)}


def main():
    program, frames = os.path.realpath(sys.argv[1]), sys.argv[2] if len(sys.argv) > 2 else "120"
    with tempfile.TemporaryDirectory() as folder:
        start = build(folder)
        lines = lines_of(f"{folder}/hello.lst")
        opcodes = executed(program, folder, frames)
        wanted = {line: int(any(start + at in opcodes for at in places)) for line, places in lines.items()}
        came = record(program, folder, frames)
        apart = [line for line in sorted(wanted) if came.get(line) != wanted[line]]
        apart += [line for line in sorted(came) if line not in wanted and came[line]]
        for line in apart:
            print(f"hello.s:{line}: {came.get(line, 'no line')}, not {wanted.get(line, 'executed')}")
        print(f"hello.s: {frames} frames, {len(wanted)} lines of CODE, {sum(wanted.values())} executed, {len(apart)} differ")
        if shutil.which("genhtml"):
            made = subprocess.run(["genhtml", "hello.info", "-o", "pages"], cwd=folder, capture_output=True, text=True)
            print("genhtml:", (made.stdout + made.stderr).strip().splitlines()[-1 if made.returncode else -2].strip())
            return 1 if apart or made.returncode else 0
    return 1 if apart else 0


if __name__ == "__main__":
    sys.exit(main())
