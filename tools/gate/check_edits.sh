#!/usr/bin/env bash
# Whether each wrong change (crates/*/must-fail/*.edit, tools/evidence/wrong_bodies/*/*.edit, tools/evidence/row_faults/*.edit, tools/evidence/one_worker/*.edit, tools/evidence/edges/*.edit) can be made as it stands: its file is there, and
# each text that it replaces stands there once when its turn comes; the new text is another; no two of a crate make the same
# change; and none changes what is proved and not the code: a clause, a definition, a proof.
#
# Not every toolchain's `rt ci` fails at an edit that can't be made. This takes no proof and a second. The status is 1 where one can't.
top=$(cd "$(dirname "${BASH_SOURCE[0]}")/../.." && pwd) || exit 2
cd "$top" && exec python3 - <<'P'
import collections, glob, os, re, sys

bad = 0
made = collections.defaultdict(list)


def complain(edit, what):
    global bad
    bad += 1
    print(f"{edit}: {what}")


def is_statement(text):
    """Whether a text of a .rt file ends in a comment, a clause or a ghost item, and not in code."""
    lines = text.split("\n")
    last = lines.pop()
    if re.match(r"\s*(ensures|requires|ghost|//)", last):
        return True
    depth = len(last) - len(last.lstrip())
    for line in reversed(lines):
        if re.match(r"\s*(ensures|requires|ghost)\b", line):
            return depth > len(line) - len(line.lstrip())
        if line.rstrip().endswith(("{", ";", "}", ",", "[", "(")):
            return False
    return False


edits = sorted(
    glob.glob("crates/*/must-fail/*.edit")
    + glob.glob("tools/evidence/wrong_bodies/*/*.edit")
    + glob.glob("tools/evidence/row_faults/*.edit")
    + glob.glob("tools/evidence/one_worker/*.edit")
    + glob.glob("tools/evidence/edges/*.edit")
)
for edit in edits:
    parts = edit.replace("tools/evidence/", "tools/").split("/")
    # What is told by a program names its files from the top.
    crate = {"crates": parts[1], "tools": parts[2]}[parts[0]] if parts[1] not in ("row_faults", "one_worker", "edges") else None
    texts = {}
    name = old = None
    pairs = 0
    for line in open(edit, encoding="utf-8").read().split("\n"):
        if line.startswith("file: "):
            name = f"crates/{crate}/{line[6:]}" if crate else line[6:]
            if not os.path.isfile(name):
                complain(edit, f"no file {name}")
                break
            # A body by one worker has to be proved, so its proof may change with it; a fault that rows tell, with its
            # definition, so that no contract meets it.
            besides = {"one_worker": "/proofs/", "row_faults": "/specs/"}.get(parts[1])
            if "/src/" not in name and not (besides and texts and besides in name):
                complain(edit, "changes no code")
            texts.setdefault(name, open(name, encoding="utf-8").read())
        elif line.startswith("old: "):
            old = line[5:]
        elif line.startswith("new: ") and name and old is not None:
            new = line[5:]
            pairs += 1
            count = texts[name].count(old)
            if count != 1:
                complain(edit, f"its text stands {count} times in {name}: {old}")
                break
            if old == new:
                complain(edit, "changes nothing")
            at = texts[name].index(old)
            # A body by one worker that hands on another value says so in a private ghost member.
            if is_statement(texts[name][: at + len(old)]) and parts[1] != "one_worker":
                complain(edit, f"changes a statement and no code: {old}")
            texts[name] = texts[name].replace(old, new)
            old = None
        elif line:
            complain(edit, f"a line that is none of an edit: {line}")
    if pairs == 0:
        complain(edit, "changes nothing")
    made[(crate, tuple(sorted(texts.items())))].append(edit)
for same in made.values():
    if len(same) > 1:
        complain(same[0], f"the same as {', '.join(same[1:])}")
print(f"{len(edits)} edits, {bad} complaints")
sys.exit(bad > 0)
P
