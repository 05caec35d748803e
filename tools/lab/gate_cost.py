#!/usr/bin/env python3
"""Tells what each check of a gate costs, in seconds of a processor and in memory.

    tools/lab/gate_cost.py watch FILE        beside `rt ci` or `.ci/run`: reads /proc twice a second, until it is ended
    tools/lab/gate_cost.py show FILE [MOST]  prints the sums of what FILE has, and the MOST (40) dearest checks

FILE has a line for each process of the prover or of a compiler: its number, when it was first and last seen, its seconds
of a processor, its peak of memory in MB, its folder, its words. The last half second of a process is not seen. A check that was
made twice, as by two gates beside each other, counts once, by the longer one. Other work on the machine makes each check dearer.
"""
import collections
import os
import re
import sys
import time

PROGRAMS = {"rattle", "clang", "ld.lld"}
TICK = os.sysconf("SC_CLK_TCK")


def look(seen):
    """Notes what each process of PROGRAMS has taken so far."""
    now = time.time()
    for number in filter(str.isdigit, os.listdir("/proc")):
        place = f"/proc/{number}"
        try:
            with open(f"{place}/stat", encoding="utf-8", errors="replace") as file:
                name, rest = file.read().split("(", 1)[1].rsplit(")", 1)
            if name not in PROGRAMS:
                continue
            fields = rest.split()
            key = number, fields[19]
            if key not in seen:
                with open(f"{place}/cmdline", encoding="utf-8", errors="replace") as file:
                    seen[key] = [now, now, 0.0, 0, os.readlink(f"{place}/cwd"), file.read().replace("\0", " ")]
            one = seen[key]
            one[1], one[2] = now, (int(fields[11]) + int(fields[12])) / TICK
            with open(f"{place}/status", encoding="utf-8") as file:
                peak = re.search(r"VmHWM:\s+(\d+)", file.read())
            one[3] = int(peak[1]) // 1024 if peak else one[3]
        except (FileNotFoundError, ProcessLookupError, PermissionError):
            continue


def watch(path):
    """Looks until it is ended, and keeps the file up to ten seconds old."""
    seen = {}
    for turn in range(sys.maxsize):
        look(seen)
        if turn % 20 == 0:
            with open(f"{path}.new", "w", encoding="utf-8") as file:
                for (number, _), one in seen.items():
                    print(number, f"{one[0]:.1f}", f"{one[1]:.1f}", f"{one[2]:.2f}", one[3], one[4], one[5], sep="\t", file=file)
            os.replace(f"{path}.new", path)
        time.sleep(0.5)


def kind_of(folder, words):
    """What a process does for the gate: a check of a crate, of its tests, a mutant, or a compiler."""
    crate = re.search(r"--crate-name (\w+)", words)
    if crate is None:
        return "a compiler", "compilers"
    if "/rt-edit" in folder:
        return crate[1], "mutants"
    return crate[1], "tests" if " --test" in words else "proofs"


def show(path, most):
    """Prints the sums by kind, and the dearest checks."""
    dearest, sums = {}, collections.Counter()
    with open(path, encoding="utf-8") as file:
        for line in file:
            _, _, _, seconds, peak, folder, words = line.rstrip("\n").split("\t")
            what = kind_of(folder, words)
            if what[1] in ("mutants", "compilers"):
                sums[what[1]] += float(seconds)
            elif float(seconds) > dearest.get(what, (0, 0))[0]:
                dearest[what] = float(seconds), int(peak)
    for (_, kind), (seconds, _) in dearest.items():
        sums[kind] += seconds
    print(f"{sum(sums.values()):8.0f} s of a processor in all")
    for kind, seconds in sums.most_common():
        print(f"{seconds:8.0f} s  {kind}")
    for (crate, kind), (seconds, peak) in sorted(dearest.items(), key=lambda one: -one[1][0])[:most]:
        print(f"{seconds:8.0f} s {peak:6} MB  {crate} ({kind})")


def main():
    """Reads the command line."""
    if len(sys.argv) == 3 and sys.argv[1] == "watch":
        watch(sys.argv[2])
    elif len(sys.argv) in (3, 4) and sys.argv[1] == "show":
        show(sys.argv[2], int(sys.argv[3]) if len(sys.argv) == 4 else 40)
    else:
        sys.exit(__doc__)


if __name__ == "__main__":
    try:
        main()
    except KeyboardInterrupt:
        pass
