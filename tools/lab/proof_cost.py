#!/usr/bin/env python3
"""Prints which functions of a crate make its check dear, by what the check kept of each.

    tools/lab/proof_cost.py CRATE|FOLDER [COUNT]

CRATE is a crate whose `rt check` has kept its work in crates/CRATE/out/incremental. FOLDER is such a folder elsewhere,
that of `rattle check .. --incremental FOLDER`. A check writes a file for each module that it checked. The size of a
file goes with the time of its module, and other work on the machine does not change it. The seconds are the time
between two files. They hold for a check from nothing that ran alone.

`Lts` is what the borrow checker says of a function's states. `Tie` is what joins that to the function. `Proof` is the
search for what clauses and safety leave open. Functions that are gone stay in the list until the folder is removed.
"""
import os
import re
import sys


def modules(folder):
    """Returns the modules that a check kept there, oldest first: when each was written, its size, its name."""
    found = []
    for at, folders, names in os.walk(folder):
        folders[:] = [it for it in folders if it not in ("records", "long")]
        for name in names:
            if name.endswith(".oantt"):
                about = os.stat(f"{at}/{name}")
                found.append((about.st_mtime, about.st_size, name.removesuffix(".oantt")))
    return sorted(found)


def main():
    if not 2 <= len(sys.argv) <= 3:
        sys.exit(__doc__)
    name = sys.argv[1]
    root = os.path.normpath(f"{os.path.dirname(os.path.abspath(__file__))}/../..")
    folder = name if os.path.isdir(name) else f"{root}/crates/{name}/out/incremental"
    found = modules(folder)
    if not found:
        sys.exit(f"{folder}: no check has kept anything there")
    functions, kinds, last = {}, {}, found[0][0]
    for when, size, module in found:
        own = re.fullmatch(r"Rattle-\w+-proofs\.(.+)\.(Lts|Tie|Proof)", module)
        kind = own[2] if own else "other modules"
        kinds[kind] = [sum(it) for it in zip(kinds.get(kind, (0, 0, 0)), (1, size, when - last))]
        if own:
            functions.setdefault(own[1], {})[own[2]] = (size, when - last)
        last = when
    print("| modules | number | MB | seconds |\n|---|---|---|---|")
    for kind, (number, size, seconds) in sorted(kinds.items(), key=lambda it: -it[1][1]):
        print(f"| {kind} | {number} | {size / 1e6:.1f} | {seconds:.0f} |")
    print("\n| function | Lts, MB | Lts, seconds | Tie, MB | Proof, MB |\n|---|---|---|---|---|")
    lts = lambda it: it[1].get("Lts", (0, 0))
    count = int(sys.argv[2]) if len(sys.argv) > 2 else 20
    for function, parts in sorted(functions.items(), key=lts, reverse=True)[:count]:
        tie, proof = (parts.get(it, (0, 0))[0] / 1e6 for it in ("Tie", "Proof"))
        size, seconds = parts.get("Lts", (0, 0))
        print(f"| `{function}` | {size / 1e6:.2f} | {seconds:.1f} | {tie:.2f} | {proof:.2f} |")


main()
