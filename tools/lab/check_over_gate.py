#!/usr/bin/env python3
"""Checks functions of a crate over the libraries that `rt ci` has made in another clone: seconds, and not an hour.

    tools/lab/check_over_gate.py GATE CRATE [WORD ..]

GATE is a clone in which `rt ci` has proved the crates below CRATE; the whole gate may still be running there. `rt check`
would prove all these crates once more, since what `rt ci` keeps does not serve it. CRATE is taken from this clone. A crate
below it whose files differ from those of GATE is proved first, and so is each crate that stands on one of these. What was
proved is kept in crates/NAME/out/over_gate, by a checksum.

Each WORD goes to `rattle check`: `--only NAME`, `--fix-imports`, `--start NAME`. What it says counts for nothing: run
`rt fmt` in the crate, and then `rt ci`.
"""
import hashlib
import os
import shutil
import subprocess
import sys

TOP = os.path.realpath(f"{os.path.dirname(os.path.abspath(__file__))}/../..")
KIT = os.path.dirname(os.path.dirname(os.path.realpath(shutil.which("rt") or sys.exit("no rt on the path"))))


def stands_on():
    """Returns what each crate of crates.txt names."""
    found = {}
    with open(f"{TOP}/crates.txt", encoding="utf-8") as file:
        for line in file:
            name, colon, words = line.partition("#")[0].partition(":")
            if colon:
                found[name.strip()] = words.split()
    return found


def sources(folder):
    """Returns the files that a check reads of a crate, by their path in it."""
    found = {}
    for part in ("src", "specs", "proofs"):
        for at, _, names in os.walk(f"{folder}/{part}"):
            for name in names:
                with open(f"{at}/{name}", "rb") as file:
                    found[os.path.relpath(f"{at}/{name}", folder)] = file.read()
    return found


class Libraries:
    """The libraries below a crate: those of GATE, and those that are proved here."""

    def __init__(self, gate):
        self.gate, self.named, self.sums = gate, stands_on(), {}

    def below(self, crate):
        """Returns the crates of the repository below one, the lowest first."""
        found = []
        for name in self.named[crate]:
            if name in self.named:
                found += [it for it in self.below(name) if it not in found]
                found += [name] if name not in found else []
        return found

    def sum_of(self, crate):
        """Returns a checksum of a crate that differs from GATE's or stands on one that does. None for all others."""
        if crate not in self.sums:
            lower = [self.sum_of(it) for it in self.named[crate] if it in self.named]
            own = sources(f"{TOP}/crates/{crate}")
            if not any(lower) and own == sources(f"{self.gate}/crates/{crate}"):
                self.sums[crate] = None
            else:
                self.sums[crate] = hashlib.sha256(repr((sorted(own.items()), lower)).encode()).hexdigest()
        return self.sums[crate]

    def place(self, crate):
        """Returns the path of a library."""
        if crate not in self.named:
            return f"{KIT}/rlibs/{crate}.rlib"
        if self.sum_of(crate) is None:
            return f"{self.gate}/crates/{crate}/out/rlib/{crate}.rlib"
        return f"{TOP}/crates/{crate}/out/over_gate/{crate}.rlib"

    def call(self, verb, crate, words):
        """Runs the prover over a crate, and returns its status."""
        named = [it for name in self.named[crate] for it in ("--extern", f"{name}={self.place(name)}")]
        found = [it for name in self.below(crate) for it in ("-L", f"dependency={os.path.dirname(self.place(name))}")]
        kit = ["--extern", f"std={KIT}/rlibs/std.rlib", "-L", f"dependency={KIT}/rlibs"]
        logic = ["--antt-project", f"{KIT}/rattle/logic/antt-project.json", "--logic-built", f"{KIT}/logic_built"]
        folder = f"{TOP}/crates/{crate}"
        root = "src/main.rt" if os.path.exists(f"{folder}/src/main.rt") else "src/lib.rt"
        words = [f"{KIT}/bin/rattle", verb, "--crate-name", crate, root, *kit, *named, *found, *logic, *words]
        return subprocess.run(words, cwd=folder, check=False).returncode

    def prove(self, crate):
        """Proves a crate below the one that is asked for, if it is not kept."""
        wanted = self.sum_of(crate)
        kept = f"{TOP}/crates/{crate}/out/over_gate/sum"
        if wanted is None or (os.path.exists(kept) and open(kept, encoding="utf-8").read() == wanted):
            return
        os.makedirs(os.path.dirname(kept), exist_ok=True)
        print(f"{crate} differs, or stands on a crate that does: it is proved first", file=sys.stderr)
        if self.call("build", crate, ["--statements", "-o", self.place(crate)]) != 0:
            sys.exit(f"{crate} is not proved")
        with open(kept, "w", encoding="utf-8") as file:
            file.write(wanted)


def main():
    """Reads the command line."""
    if len(sys.argv) < 3:
        sys.exit(__doc__)
    gate, crate = os.path.realpath(sys.argv[1]), sys.argv[2]
    libraries = Libraries(gate)
    if crate not in libraries.named:
        sys.exit(f"no crate of the repository: {crate}")
    for name in libraries.below(crate):
        libraries.prove(name)
    kept = f"{TOP}/crates/{crate}/out/over_gate/checked"
    os.makedirs(kept, exist_ok=True)
    sys.exit(libraries.call("check", crate, ["--incremental", kept, *sys.argv[3:]]))


if __name__ == "__main__":
    main()
