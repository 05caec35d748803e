#!/usr/bin/env python3
"""Compares the steps that ./trace tells with hashes from outside.

crates/console_vectors/data/console.txt has 80 jobs, with hashes of the first 100, 500, 1,000, 1,500 and 2,000 steps of
each side, which two other programs agreed on (the file's form stands in crates/console_vectors/src/main.rt). Here each
job is traced as CSV, the records of its steps are made of the lines, and their hashes compared. So times, kinds,
addresses, registers of transfers and bytes of some 320,000 lines are checked; instructions and registers are not.

    tools/compare/compare_trace.py [PROGRAM [CASES]]

The status is 0 where all are alike.
"""
import collections, os, struct, subprocess, sys, tempfile

TOP = os.path.join(os.path.dirname(os.path.abspath(__file__)), "..", "..")
LETTERS = {"opcode": "F", "fetch": "F", "read": "R", "write": "W", "internal": "I", "reset": "z", "refresh": "r"}
TRANSFERS = {("HDMA", "table"): "l", ("HDMA", "to"): "b", ("DMA", "to"): "B", ("DMA", "from"): "A"}


def generator(seed):
    while True:
        seed = (seed * 1664525 + 1013904223) % 2**32
        yield seed


def image(size, seed, ands):
    """Bytes, each the AND of so many of the generator's."""
    numbers = generator(seed)
    made = bytearray()
    for _ in range(size):
        byte = 255
        for _ in range(ands):
            byte &= next(numbers) >> 24
        made.append(byte)
    return made


def table(word):
    if word == "ramp":
        entries = [min(4 * i, 2047) for i in range(512)]
    else:
        numbers = generator(int(word, 16))
        entries = [next(numbers) >> 21 for _ in range(512)]
    return b"".join(struct.pack("<H", entry) for entry in entries)


def jobs(path):
    """The jobs of the file, each with the hashes of its first steps (c: the console's, d: the sound side's)."""
    for line in open(path):
        words = line.split()
        if not words or words[0].startswith("#"):
            continue
        if words[0] == "job":
            job = {"name": words[1], "script": "", "c": {}, "d": {}}
        elif words[0] == "image":
            job["image"] = image(int(words[1]), int(words[2], 16), int(words[3]))
        elif words[0] == "p":
            at, put = int(words[1], 16), bytes.fromhex(words[2])
            job["image"][at : at + len(put)] = put
        elif words[0] == "boot":
            job["boot"] = bytes.fromhex(words[1])
        elif words[0] == "table":
            job["table"] = table(words[1])
        elif words[0] == "script":
            job["script"] += line.rstrip("\n")[7:] + "\n"
        elif words[0] in "cd":
            job[words[0]][int(words[1])] = int(words[2], 16)
        elif words[0] == "end":
            yield job


def record(line, side, rate):
    """The record of a step: its time, letter, address, register and byte."""
    stamp, _, _, _, _, kind, address, byte, way, register = line.split(",")[:10]
    letter = LETTERS.get(kind) or TRANSFERS[kind, way]
    time = struct.pack("<Q", int(stamp) // rate) + letter.encode()
    byte = bytes([int(byte or "0", 16)])
    if side == "sound":
        return time + int(address or "0", 16).to_bytes(2, "little") + byte
    return time + int(address or "0", 16).to_bytes(3, "little") + bytes([int(register[2:] or "0", 16)]) + byte


def compare(program, job, side, expected, rate, lines):
    """How many of the hashes are alike."""
    with tempfile.TemporaryDirectory() as folder:
        for name in ("image", "boot", "table"):
            with open(f"{folder}/{name}", "wb") as file:
                file.write(job[name])
        with open(f"{folder}/script", "w") as file:
            file.write(job["script"])
        files = [w for n in (("cart", "image"), ("boot",) * 2, ("table",) * 2, ("script",) * 2) for w in (f"--{n[0]}", f"{folder}/{n[1]}")]
        words = ["--frames", "60", "--side", side, "--csv", "--lines", str(max(expected))]
        told = subprocess.run([program, *files, *words], capture_output=True, text=True).stdout.splitlines()[1:]
    value, alike = 0xCBF29CE484222325, 0
    for count, line in enumerate(told, 1):
        lines[line.split(",")[5]] += 1
        for byte in record(line, side, rate):
            value = (value ^ byte) * 0x100000001B3 % 2**64
        alike += count in expected and value == expected[count]
    return alike


def main():
    program = sys.argv[1] if len(sys.argv) > 1 else f"{TOP}/crates/snes_trace/out/snes_trace"
    cases = sys.argv[2] if len(sys.argv) > 2 else f"{TOP}/crates/console_vectors/data/console.txt"
    hashes = alike = 0
    lines = collections.Counter()
    for job in jobs(cases):
        is_pal = job["script"].startswith("version 2 pal")
        for side, key, rate in (("console", "c", 102400 if is_pal else 5632), ("sound", "d", 2128137 if is_pal else 118125)):
            if job[key]:
                hashes += len(job[key])
                alike += compare(program, job, side, job[key], rate, lines)
    print(f"{hashes} hashes of first steps, {alike} alike;", ", ".join(f"{kind} {count}" for kind, count in sorted(lines.items())))
    return 0 if hashes and alike == hashes else 1


if __name__ == "__main__":
    sys.exit(main())
