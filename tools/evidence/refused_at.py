#!/usr/bin/env python3
"""Tells at what the check of a crate refused each wrong body, and keeps it in tools/evidence/wrong_bodies/refused_at.tsv.

    tools/evidence/refused_at.py keep TREE OUTPUT CRATE ..
    tools/evidence/refused_at.py counts CRATE
    tools/evidence/refused_at.py held CRATE

OUTPUT has what `rt must-fail CRATE ..` said in TREE, a clone with the edits in crates/CRATE/must-fail: of each mutant the first
thing that the check complains of. Where that says little of the contract, the crate is checked once more with the edit,
and the strongest of all its complaints is kept: a function's goals are all tried, and printed in the order of its code, so
that what a call requires stands before what the function ensures.

A goal's name says what it asks (the toolchain's guide to shorter proofs, "The names of goals"). Kinds that count:

    clause          `returns..`: what the function ensures, or a clause of a trait that it implements
    type            `invariant_of-..`: the invariant of a type
    loop            `L-init`, `L-preserved`: the invariant of a loop

and kinds that say little of the contract, as the fault may not have been looked at:

    premise         `f-requires..`: what a called function requires
    assertion       `..unreachable-requires`: a `prove!`, or a place that isn't to be reached
    safety          an index, a sum, a cast or a division; `L-smaller`: that the loop ends
    proof           no goal: a lemma, a proof's type, or a name that the edit took away
    limit           the prover gave up at a limit of its own
    unknown         none of these

A complaint within the written answer of a goal counts as one of that goal. The record has a line for each mutant: crate,
mutant, kind, file and goal, and a sum of all that the refusal rests on (what proof_sources.py prints of the crate, and the edit).
A mutant whose kind says little counts where tools/evidence/wrong_bodies/says_little.txt names it, or its crate and the place of the
refusal, with a reason. The status is 1 where one doesn't; `counts` tells it of what the record has of the crate's mutants
beside the gate. `held` names those that count and whose sum is that of now: they need not be tried again.
"""
import fcntl
import hashlib
import os
import re
import subprocess
import sys

from proof_sources import sources_of

TOP = os.path.dirname(os.path.dirname(os.path.dirname(os.path.realpath(__file__))))
RECORD = f"{TOP}/tools/evidence/wrong_bodies/refused_at.tsv"
EXCUSED = f"{TOP}/tools/evidence/wrong_bodies/says_little.txt"
# The strongest first.
KINDS = ["clause", "type", "loop", "premise", "assertion", "safety", "proof", "limit", "unknown"]
COUNTS = KINDS[:3]

# A goal's name, by its parts.
GOALS = [
    ("clause", r"returns(-.*)?"),
    ("type", r"invariant_of-.*"),
    ("assertion", r"(.*-)?unreachable-requires(-.*)?"),
    ("loop", r".*-(init|preserved)(-.*)?"),
    ("premise", r".*-requires(-.*)?"),
    ("safety", r".*-smaller(-.*)?|(overflow|nonzero|bounds|slice_bounds|offset_bounds)(_\w+)?-.*"),
]
# What a message says of its goal, where its name is cut off.
WORDS = [
    ("clause", "what the function ensures holds"),
    ("assertion", "control never comes here"),
    ("loop", "the invariant of the loop holds"),
    ("type", "the `invariant` of the struct|the `invariant` holds of the struct|the struct's ghost fields"),
    ("safety", "is below the array's length|at most the length|ends within|fits its type|fits the type|does not go below 0|divisor is not 0|the loop ends"),
]
# A name that an edit took away: it says nothing of the contract. `rt must-fail` cuts its lines, so one that begins with the module
# or the record that lacks a name is taken for such a one.
GONE = re.compile(r"has no |is not in scope|was not admitted|is no name|error: (`[^`]*`: )*(module|record) `")
LIMIT = re.compile(r"only by a limit of the prover|ran out of (stack|the )|(outgrew the memory limit|stopped at the step limit)")


def kind_of_goal(goal):
    return next((kind for kind, form in GOALS if re.fullmatch(form, goal)), "unknown")


def answer_at(path, line):
    """The declaration of a proof file that has this line, and whether the line is its type."""
    texts = open(path, encoding="utf-8").read().split("\n") if os.path.isfile(path) else []
    for at in range(min(line, len(texts)) - 1, -1, -1):
        head = re.match(r"(?:pub )?([\w.-]+)( :)?(?= )", texts[at])
        if head and head[1] not in ("use", "mod", "unfolding", "--"):
            return head[1], bool(head[2]) and at + 1 == line
    return "", False


def in_proof(file, line, said, folder):
    """Kind and place of an error in a file of proofs/."""
    goal, in_type = answer_at(f"{folder}/{file}", line)
    goal = (re.match(r"error: `([\w.-]+)`: ", said) or ["", goal])[1]
    is_answer = os.path.basename(file) in ("Answers.antt", "Invariants.antt")
    kind = kind_of_goal(goal) if is_answer and not in_type and not GONE.search(said) else "proof"
    return kind, f"{file} {goal}".strip()


def complaint(line, folder):
    """Kind and place of one line of a check's output; None where it is no complaint."""
    left = re.match(r"note: `([\w.-]+)` of (proofs/\S+) must prove", line)
    if left:
        # The file is only where an answer would stand.
        return kind_of_goal(left[1]), f"{os.path.dirname(left[2]).removeprefix('proofs/')} {left[1]}"
    at = re.match(r"(?:note: )?(?:\./)?((?:src|specs|proofs)/\S+?):(\d+):\d+: (.*)", line)
    if not at:
        return None
    file, said = at[1], at[3]
    if not file.startswith("src/"):
        return in_proof(file, int(at[2]), said, folder) if said.startswith("error") else None
    goal, end = (re.findall(r"\(`([\w.-]+)(`\)|$)", said) or [("", "")])[-1]
    kind = kind_of_goal(goal)
    if kind == "unknown":
        kind = next((kind for kind, words in WORDS if re.search(words, said)), "unknown")
    return kind, f"{file} {goal}{'' if end else '..'}"


def complaints(lines, folder):
    found = [it for it in (complaint(line, folder) for line in lines) if it]
    return found or [("limit", "") for line in lines if LIMIT.search(line)][:1]


def strongest(found):
    return min(found, key=lambda it: KINDS.index(it[0]))


def make(folder, edit):
    """Makes the edit's changes in the crate's folder, and returns the texts of before."""
    name = old = None
    before = {}
    for line in open(edit, encoding="utf-8").read().split("\n"):
        if line.startswith("file: "):
            name = f"{folder}/{line[6:]}"
        elif line.startswith("old: "):
            old = line[5:]
        elif line.startswith("new:"):
            text = open(name, encoding="utf-8").read()
            before.setdefault(name, text)
            open(name, "w", encoding="utf-8").write(text.replace(old, line[4:].removeprefix(" ")))
    return before


def all_said(folder, edit):
    """What the check of the crate says with the edit."""
    before = make(folder, edit)
    try:
        ran = subprocess.run(["rt", "check"], cwd=folder, stdin=subprocess.DEVNULL, stdout=subprocess.PIPE, stderr=subprocess.STDOUT, errors="replace")
    finally:
        for name, text in before.items():
            open(name, "w", encoding="utf-8").write(text)
    return ran.stdout.split("\n")


def excuses():
    """What says_little.txt has before the colon of each line: CRATE/NAME of a mutant, or CRATE and the place of a refusal."""
    if not os.path.isfile(EXCUSED):
        return set()
    lines = open(EXCUSED, encoding="utf-8").read().split("\n")
    return {line.partition(": ")[0] for line in lines if line and not line.startswith("#")}


def is_excused(row, excused):
    return f"{row[0]}/{row[1]}" in excused or f"{row[0]} {row[3]}" in excused


def recorded(text):
    return [line.split("\t") for line in text.split("\n") if line]


def stands(crate, name):
    """Whether there is a mutant of this name, in the gate or beside it."""
    return any(os.path.isfile(f"{TOP}/{it}/{name}.edit") for it in (f"tools/evidence/wrong_bodies/{crate}", f"crates/{crate}/must-fail"))


def sum_of(crate, name):
    """A sum of all that the refusal of a mutant rests on; nothing where there is no such mutant."""
    for folder in (f"tools/evidence/wrong_bodies/{crate}", f"crates/{crate}/must-fail"):
        path = f"{TOP}/{folder}/{name}.edit"
        if os.path.isfile(path):
            with open(path, encoding="utf-8") as edit:
                return hashlib.sha256((sources_of(crate) + edit.read()).encode()).hexdigest()[:20]
    return ""


def merge(rows):
    """Puts the rows into the record, in place of what it had of these mutants, and drops what it has of those that are gone."""
    rows = [[*it, sum_of(it[0], it[1])] for it in rows]
    new = {(it[0], it[1]) for it in rows}
    with open(RECORD, "a+", encoding="utf-8") as record:
        fcntl.flock(record, fcntl.LOCK_EX)
        record.seek(0)
        had = [it for it in recorded(record.read()) if (it[0], it[1]) not in new and stands(it[0], it[1])]
        record.truncate(0)
        record.write("".join(f"{line}\n" for line in sorted("\t".join(it) for it in [*had, *rows])))


def said_of(line, folder):
    """Mutant, kind and place of a line of `rt must-fail`; None where it tells of no refusal."""
    at = re.match(r"(?:rt: )?must-fail (\w+)/(\S+)\.edit: refused, as it must be(?:: | )?(.*)", line)
    if not at:
        return None
    if LIMIT.search(at[3]):
        return at[1], at[2], ("limit", "")
    names = re.match(r"\(only because a proof file names[^)]*\): (?:\./)?([^:]*)", at[3])
    if names:
        return at[1], at[2], ("proof", names[1])
    return at[1], at[2], complaint(at[3], f"{folder}/{at[1]}") or ("unknown", "")


def keep(tree, output, crates):
    rows, little = [], 0
    excused = excuses()
    for line in open(output, encoding="utf-8").read().split("\n"):
        told = said_of(line, f"{tree}/crates")
        if not told or told[0] not in crates:
            continue
        crate, name, best = told
        folder = f"{tree}/crates/{crate}"
        if best[0] not in COUNTS and not is_excused((crate, name, *best), excused):
            best = strongest([*complaints(all_said(folder, f"{folder}/must-fail/{name}.edit"), folder), best])
        rows.append((crate, name, *best))
        if best[0] not in COUNTS:
            counts_so = is_excused(rows[-1], excused)
            little += not counts_so
            print(f"{crate}/{name}: refused only at a {best[0]} ({best[1]}){', as says_little.txt has it' if counts_so else ''}")
    merge(rows)
    print(f"{len(rows)} refused, {little} of them where that says little of the contract")
    return little > 0


def counting(crate):
    """What the record has of the crate's mutants that counts."""
    excused = excuses()
    with open(RECORD, encoding="utf-8") as record:
        return [it for it in recorded(record.read()) if it[0] == crate and (it[2] in COUNTS or is_excused(it, excused))]


def held(crate):
    """The names of mutants whose refusal counts and rests on what there is now."""
    return [it[1] for it in counting(crate) if it[4:] == [sum_of(crate, it[1])]]


def counts(crate):
    known = {it[1] for it in counting(crate)}
    names = [it.removesuffix(".edit") for it in os.listdir(f"{TOP}/tools/evidence/wrong_bodies/{crate}")]
    return all(it in known for it in names)


if __name__ == "__main__":
    if len(sys.argv) > 4 and sys.argv[1] == "keep":
        sys.exit(keep(*sys.argv[2:4], sys.argv[4:]))
    if len(sys.argv) == 3 and sys.argv[1] == "counts":
        sys.exit(not counts(sys.argv[2]))
    if len(sys.argv) == 3 and sys.argv[1] == "held":
        print("".join(f"{it}\n" for it in held(sys.argv[2])), end="")
        sys.exit(0)
    sys.exit(__doc__)
