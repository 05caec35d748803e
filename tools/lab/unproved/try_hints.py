#!/usr/bin/env python3
"""Tries other hints on inlining than the sources have, without a proof, and prints what each comes to.

    tools/lab/unproved/try_hints.py MODULE.ll JOB[,JOB..] CHANGE ..

MODULE.ll is what `MODULE=FILE tools/lab/unproved/build.sh OUT` left. A JOB is a folder with cart.sfc, boot.bin, table.bin and
script.txt. A CHANGE is FUNCTION=HINT, or several joined by commas that are tried together: a function by its name in the
module, as console_machine::many_steps::make_all, and a hint that is always, never, hint (a plain #[inline]) or none.

A line has the million instructions a frame of `serial` for each job, by callgrind's difference of 25 frames and 5, and the
change; the first line is of the sources as they stand. A try takes a minute or so.
"""
import copy
import os
import re
import subprocess
import sys
import tempfile

import as_built

HERE = os.path.dirname(os.path.realpath(__file__))
HINTS = [*as_built.ATTRIBUTES, "none"]


def changed(module, change):
    """The module with other hints."""
    other = copy.copy(module)
    other.hints, other.whole = dict(module.hints), {}
    for one in change:
        function, _, hint = one.rpartition("=")
        if function not in module.own or hint not in HINTS:
            sys.exit(f"no function of the module, or no hint: {one}")
        if hint == "none":
            other.hints.pop(function, None)
        else:
            other.hints[function] = hint
    return other


def instructions(program, job, frames):
    files = [word for name in ("cart.sfc", "boot.bin", "table.bin", "script.txt") for word in (f"--{name.split('.')[0]}", f"{job}/{name}")]
    outputs = ["--video", "/dev/null", "--audio", "/dev//null"]
    words = ["valgrind", "--tool=callgrind", "--callgrind-out-file=/dev/null", program, "serial", *files, "--frames", str(frames), *outputs]
    said = subprocess.run(words, stdout=subprocess.DEVNULL, stderr=subprocess.PIPE, text=True, check=True).stderr
    return int(re.search(r"Collected : (\d+)", said)[1])


def measured(module, jobs):
    """Million instructions a frame of each job."""
    with tempfile.TemporaryDirectory() as work:
        with open(f"{work}/module.ll", "w", encoding="utf-8") as text:
            text.write("\n".join(module.written()) + "\n")
        subprocess.run([f"{HERE}/compile.sh", f"{work}/program", f"{work}/module.ll"], check=True)
        return [(instructions(f"{work}/program", it, 25) - instructions(f"{work}/program", it, 5)) / 20e6 for it in jobs]


def main():
    if len(sys.argv) < 3:
        sys.exit(__doc__)
    module = as_built.Module(sys.argv[1], as_built.hints_of(f"{HERE}/../../.."))
    jobs = sys.argv[2].split(",")
    for change in [[], *(it.split(",") for it in sys.argv[3:])]:
        figures = " ".join(f"{it:7.3f}" for it in measured(changed(module, change), jobs))
        print(figures, ",".join(change) or "as it stands", flush=True)


if __name__ == "__main__":
    main()
