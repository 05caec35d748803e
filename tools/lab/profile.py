#!/usr/bin/env python3
"""Prints what the instructions of `serial` go to, by part of the machine and by function.

    tools/lab/profile.py PROGRAM JOB ..

A JOB is a folder with cart.sfc, boot.bin, table.bin and script.txt (`FILES=FOLDER RUNS=0 tools/lab/measure.sh` writes one for each job). All
figures are callgrind's, the difference of a run of 25 frames and one of 5, over 20, so the start is not in them; all outputs
go to the null device. A part has the functions that stay functions of their own in the program: what was built into one
counts for that one. The second table has those of 1 % and more, with their calls a frame and the instructions of a call.
"""
import collections
import os
import re
import subprocess
import sys
import tempfile

PARTS = [
    ("65C816 and its accesses", r"console_machine|console_steps::plain|whole_instructions|cpu_|cpu65816"),
    ("rows of the picture", r"ppu_|scanline_ops|color_window|tile_cache|console_steps::drawing"),
    ("sound side", r"audio_side|spc|sdsp"),
    ("transfers, registers, the beam", r"console_steps|dma_hdma|beam|console_bus|io_math|cart_map"),
    ("clearing and copying", r"__mem"),
    ("loop of both sides, files, the rest", r""),
]


def run(program, job, frames, out):
    files = [word for name in ("cart.sfc", "boot.bin", "table.bin", "script.txt") for word in (f"--{name.split('.')[0]}", f"{job}/{name}")]
    outputs = ["--video", "/dev/null", "--audio", "/dev//null"]
    words = ["valgrind", "--tool=callgrind", f"--callgrind-out-file={out}", program, "serial", *files, "--frames", str(frames), *outputs]
    subprocess.run(words, stdout=subprocess.DEVNULL, stderr=subprocess.DEVNULL, check=True)


def plain(name):
    """A function's name without the kind of what it works on."""
    return re.sub(r"::<.*$|'\d+$", "", name)


def counted(out):
    """Instructions and calls of each function."""
    own, calls = collections.Counter(), collections.Counter()
    text = subprocess.run(["callgrind_annotate", "--threshold=100", out], stdout=subprocess.PIPE, text=True, check=True).stdout
    for count, name in re.findall(r"^ *([\d,]+) \([^)]*\) +\S*?:(\S+)", text, re.M):
        own[plain(name)] += int(count.replace(",", ""))
    names, called = {}, None
    with open(out, encoding="utf-8") as lines:
        for line in lines:
            if at := re.match(r"c?fn=\((\d+)\)(?: (.*))?", line):
                if at[2]:
                    names[at[1]] = at[2]
                if line.startswith("c"):
                    called = at[1]
            elif line.startswith("calls="):
                calls[plain(names[called])] += int(line[6:].split()[0])
    return own, calls


def profile(program, job):
    """Instructions and calls of each function in a frame."""
    with tempfile.TemporaryDirectory() as work:
        short, long = f"{work}/short", f"{work}/long"
        run(program, job, 5, short)
        run(program, job, 25, long)
        (first, first_calls), (own, calls) = counted(short), counted(long)
    return {it: ((own[it] - first[it]) / 20, (calls[it] - first_calls[it]) / 20) for it in own}


def part_of(name):
    return next(part for part, form in PARTS if re.match(form, name))


def main():
    if len(sys.argv) < 3:
        sys.exit(__doc__)
    jobs = sys.argv[2:]
    profiles = [profile(os.path.abspath(sys.argv[1]), it) for it in jobs]
    print(f"{'million instructions a frame':38}" + "".join(f"{os.path.basename(it):>9}" for it in jobs))
    for part, _ in PARTS:
        print(f"{part:38}" + "".join(f"{sum(own for name, (own, _) in it.items() if part_of(name) == part) / 1e6:9.3f}" for it in profiles))
    print(f"{'all':38}" + "".join(f"{sum(own for own, _ in it.values()) / 1e6:9.3f}" for it in profiles))
    for job, found in zip(jobs, profiles):
        print(f"\n{os.path.basename(job)}: thousand instructions a frame, calls a frame, instructions a call")
        whole = sum(own for own, _ in found.values())
        for name, (own, calls) in sorted(found.items(), key=lambda it: -it[1][0]):
            if own >= whole / 100:
                print(f"{own / 1e3:9.0f} {calls:9.0f} {own / calls if calls else 0:9.0f}  {name}")


if __name__ == "__main__":
    main()
