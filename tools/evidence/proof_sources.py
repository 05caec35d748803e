#!/usr/bin/env python3
"""Prints what the check of a crate rests on: the toolchain's logic, and a sum of each committed source of the crate and of all below it.

    tools/evidence/proof_sources.py CRATE

Lines that only tell the compiler what to build into its callers (`#[inline]`, `#[inline(always)]`, `#[inline(never)]`) are left
out of a sum: a check over kept work proves no function anew where one of them changes, so no verdict rests on them.
"""
import functools
import hashlib
import os
import re
import subprocess
import sys

TOP = os.path.dirname(os.path.dirname(os.path.dirname(os.path.realpath(__file__))))
INLINING = re.compile(rb"^[ \t]*#\[inline(\((always|never)\))?\]\n", re.M)


def said_by(*words, given=None):
    return subprocess.run(words, cwd=TOP, input=given, stdout=subprocess.PIPE, check=True).stdout


def texts(blobs):
    """The texts of files by what git calls them, in their order."""
    said, at = said_by("git", "cat-file", "--batch", given="".join(f"{it}\n" for it in blobs).encode()), 0
    for _ in blobs:
        head = said.index(b"\n", at)
        end = head + 1 + int(said[at:head].split()[2])
        yield said[head + 1 : end]
        at = end + 1


@functools.cache
def sources_of(crate):
    below = [re.split("[ :]", it)[0] for it in said_by("tools/lines_below.sh", crate).decode().split("\n") if it]
    folders = [f"crates/{it}/{part}" for it in below for part in ("src", "specs", "proofs")]
    found = [re.match(r"\S+ blob (\S+)\t(.*)", it).groups() for it in said_by("git", "ls-tree", "-r", "HEAD", *folders).decode().split("\n") if it]
    sums = [hashlib.sha256(INLINING.sub(b"", it)).hexdigest() for it in texts([blob for blob, _ in found])]
    lines = [f"{sum} {path}\n" for sum, (_, path) in zip(sums, found)]
    return said_by("rt", "version").decode().split()[-1] + "\n" + "".join(lines)


if __name__ == "__main__":
    if len(sys.argv) != 2:
        sys.exit(__doc__)
    print(sources_of(sys.argv[1]), end="")
