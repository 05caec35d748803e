#!/usr/bin/env python3
"""Tries the built programs at their edges, unattended: files, descriptors, signals, command lines.

    tools/evidence/try_edges.py [--snes PROGRAM] [--look PROGRAM] [--scene PROGRAM] [--trace PROGRAM]
                       [--tree FOLDER] [--only WORD] [--list]

Without options it tries what is built here: crates/snes_run/out/snes_run and so on (./snes demo 7 --frames 0, ./look
--help and ./trace --help build them). --tree names another checkout whose
scripts are tried in the place of those here; --only tries the cases whose name has the word, --list prints the names. docs/proof/EDGES.md says what each group is for, and what each fault did before.

Each case brings one fault about and asserts the exit status, the text on standard output, and the bytes of each output:
a prefix of the right bytes, or all of them, or what the file held before, as docs/use/COMMANDS.md says of the answer. The
right bytes are those of a run of the same program without a fault. A case prints one line, `ok` or `FAIL` with what
differed; the last line is `N passed, M failed`, and the status is 1 where M is not 0. Nothing is read from outside, no
network is needed, and all files lie in a folder of its own below TMPDIR, which is removed.

The groups, each a file of tools/evidence/edges:

    writing      a device that fills up in the middle of a film, a limit of file sizes, a full device: every output of
                 every command. The device is a tmpfs of a few pages in a mount namespace of its own: as root, or else
                 in a user namespace. Where the system allows neither, /dev/full and a limit of file sizes stand in for
                 it; the first line says which it is.
    readers      a reader that goes away, of each output and of standard output; FIFOs as inputs and as outputs
    signals      SIGTERM, SIGINT, SIGHUP and SIGKILL in the middle of a run: what is on the disk is a prefix
    names        an output that exists and is longer, read-only and missing folders, folders as files, names that are no
                 UTF-8; two names for one file: by ./, a hard link, a symbolic link, and an output that is an input
    words        command lines with more words than any form has, and with one word too few
    descriptors  0, 1 and 2 closed, in each combination, of `snes`, `look`, `scene` and `trace`
    messages     what standard error says of words, inputs and outputs; --help and --version
    companions   what `scene`, `trace` and `look` say, and their statuses
    wrappers     ./snes on a terminal that gets signals; a built tree that was copied; two first builds at once; a first
                 build that is interrupted; the line of docs/use/CHECKING.md for many cartridges
    many         tools/many_runs.sh: what is made again, and what its status tells

The wrappers are tried in a small copy of the repository, whose crates have one source each, with a stand-in for `rt`
that takes its time and puts the given programs where the gate would. So no proof is made, and a first build takes a
second or two.

`NOBODY`: as root, files are read and written by the user 65534 where a case is about permissions, since root may all.

A case is a function of one argument, the lab (tools/evidence/edges/lab.py), in a folder of its own. To add one, write it into the
file of its group under `@case("name")`, let it assert, and see it fail on a program that is wrong: those of
tools/evidence/edges/*.edit are kept to that end, and tools/evidence/try_edge_faults.sh plants them one at a time.
"""
import argparse
import concurrent.futures
import os
import signal
import sys
import time

sys.path.insert(0, os.path.join(os.path.dirname(os.path.realpath(__file__)), "edges"))

import lab  # noqa: E402
import companions, descriptors, many, messages, names, readers, signals, words, wrappers, writing  # noqa: E401,E402,F401


def tried(bench, name, function):
    """What a case came to: none where it passed."""
    try:
        with bench.room() as room:
            function(room)
        return None
    except AssertionError as fault:
        return str(fault) or "an assertion without a text"
    except Exception as fault:  # what a case runs into is its fault
        return f"{type(fault).__name__}: {fault}"


def main():
    # A shell ignores these two for what it runs in the background, and a program inherits that.
    signal.signal(signal.SIGINT, signal.SIG_DFL)
    signal.signal(signal.SIGQUIT, signal.SIG_DFL)
    parser = argparse.ArgumentParser(description=__doc__, formatter_class=argparse.RawDescriptionHelpFormatter)
    for tool in lab.TOOLS:
        parser.add_argument(f"--{tool}", default=lab.built(tool), metavar="PROGRAM")
    parser.add_argument("--tree", default=lab.TOP, metavar="FOLDER")
    parser.add_argument("--only", default="", metavar="WORD")
    parser.add_argument("--list", action="store_true")
    given = parser.parse_args()
    cases = [(name, function) for name, function in lab.CASES if given.only in name]
    if given.list:
        print("\n".join(name for name, _ in cases))
        return 0
    lab.TREE = os.path.realpath(given.tree)
    programs = {tool: os.path.realpath(getattr(given, tool)) for tool in lab.TOOLS}
    for tool, program in programs.items():
        if not os.access(program, os.X_OK):
            sys.exit(f"no program {program}; see --help")
    began, passed, failed = time.time(), 0, 0
    with lab.Bench(programs) as bench:
        print(f"small device: {bench.device}", flush=True)
        # The cases wait for each other's processes more than they compute.
        with concurrent.futures.ThreadPoolExecutor(max_workers=os.cpu_count() or 1) as pool:
            ends = [(name, pool.submit(tried, bench, name, function)) for name, function in cases]
            for name, end in ends:
                fault = end.result()
                passed, failed = passed + (fault is None), failed + (fault is not None)
                print(f"ok   {name}" if fault is None else f"FAIL {name}: {fault}", flush=True)
    print(f"{time.time() - began:.0f} s", file=sys.stderr)
    print(f"{passed} passed, {failed} failed")
    return 1 if failed or not passed else 0


if __name__ == "__main__":
    sys.exit(main())
