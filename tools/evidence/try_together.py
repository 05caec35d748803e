#!/usr/bin/env python3
"""Tries the mutants of a crate in few checks: in each, as many of them together as change different functions.

    tools/evidence/try_together.py TREE CRATE

TREE is a clone with the mutants in crates/CRATE/must-fail. A function is proved by its own code and by the contracts of what it
calls, and a check tries the goals of every function, also of those that call one that is not proved. So of mutants that
change different functions, each of which has a contract, each has to be refused by a goal of its own function, whatever the
others change. A mutant that is refused so, where it counts (tools/evidence/refused_at.py), is put into the record, and its edit is
taken out of the folder. What is left there is for `rt must-fail`, one by one: a change of a constant or a type, of a
function without a contract, and whatever no goal of its own function refused, or only one that says little.

The status is 0 where the crate is proved as it stands, whatever is left.
"""
import os
import re
import subprocess
import sys

import refused_at

HEADER = re.compile(r"( *)(?:pub(?:\([a-z]+\))? )?(?:const |unsafe |extern \"C\" )*fn (\w+)")


class Function:
    """The function in whose text a place of a source file lies."""

    def __init__(self, lines, at):
        self.name = None
        for number in range(at, -1, -1):
            header = HEADER.match(lines[number])
            if header and f"{header[1]}}}" not in lines[number:at]:
                self.name, self.first, indent = header[2], number, header[1]
                self.last = next((it for it in range(number, len(lines)) if lines[it] == f"{indent}}}"), number)
                break
        if self.name:
            above = [it for it in lines[: self.first] if re.match(r"impl\b|\}", it)]
            self.of = above[-1] if above and above[-1].startswith("impl") else ""
            clauses = [it for it in lines[self.first : self.last] if re.match(r" *ensures\b", it)]
            self.has_contract = bool(clauses) or " for " in self.of


class Mutant:
    def __init__(self, path):
        self.name = os.path.basename(path).removesuffix(".edit")
        self.pairs, file, old = [], None, None
        with open(path, encoding="utf-8") as edit:
            for line in edit.read().split("\n"):
                if line.startswith("file: "):
                    file = line[6:]
                elif line.startswith("old: "):
                    old = line[5:]
                elif line.startswith("new:"):
                    self.pairs.append((file, old, line[4:].removeprefix(" ")))

    def apply(self, texts):
        """Makes the changes in a copy of these texts of the crate, and returns it with the keys of the functions that they are
        in; None where one can't be made, or is in no function that has a contract."""
        texts, keys = dict(texts), set()
        for file, old, new in self.pairs:
            if texts.get(file, "").count(old) != 1:
                return None
            at = texts[file].index(old)
            texts[file] = texts[file].replace(old, new)
            function = Function(texts[file].split("\n"), texts[file][:at].count("\n"))
            if not function.name or not function.has_contract:
                return None
            keys.add((file, function.of, function.name))
        return texts, keys


def sources(folder):
    found = {}
    for at, _, names in os.walk(f"{folder}/src"):
        for name in names:
            with open(f"{at}/{name}", encoding="utf-8") as it:
                found[os.path.relpath(f"{at}/{name}", folder)] = it.read()
    return found


def groups_of(mutants, texts):
    """Mutants that change different functions, with the texts in which all of a group are made."""
    groups = []
    for mutant in mutants:
        for group in groups:
            made = mutant.apply(group["texts"])
            if made and not made[1] & group["keys"].keys():
                group["texts"] = made[0]
                group["keys"].update(dict.fromkeys(made[1], mutant.name))
                break
        else:
            made = mutant.apply(texts)
            if made:
                groups.append({"texts": made[0], "keys": dict.fromkeys(made[1], mutant.name)})
    return groups


def check(folder):
    ran = subprocess.run(["rt", "check"], cwd=folder, stdin=subprocess.DEVNULL, stdout=subprocess.PIPE, stderr=subprocess.STDOUT, errors="replace")
    return ran.stdout.split("\n")


def key_of(line, texts):
    """The function of which a complaint is: by the place in its source, or by the folder of its proof."""
    at = re.match(r"(?:note: )?(?:\./)?(src/\S+?):(\d+):\d+: ", line)
    if at and at[1] in texts:
        function = Function(texts[at[1]].split("\n"), int(at[2]) - 1)
        return [(at[1], function.of, function.name)] if function.name else []
    at = re.match(r"(?:note: `[\w.-]+` of )?(?:\./)?proofs/(\S+)/\w+\.antt", line)
    if not at:
        return []
    *modules, name = at[1].split("/")
    found = []
    for file, text in texts.items():
        parts = [it for it in file.removeprefix("src/").removesuffix(".rt").split("/") if it not in ("lib", "main")]
        rest = modules[len(parts) :]
        if modules[: len(parts)] != parts or len(rest) > 1:
            continue
        lines = text.split("\n")
        for number, it in enumerate(lines):
            header = HEADER.match(it)
            if header and header[2] == name:
                function = Function(lines, number)
                if not rest or re.search(rf"\b{rest[0]}\b", function.of):
                    found.append((file, function.of, name))
    return found


def refused_in(group, said, folder):
    """What refused each mutant of a group: its name, kind and place."""
    best = {}
    for line in said:
        keys = [it for it in key_of(line, group["texts"]) if it in group["keys"]]
        told = refused_at.complaint(line, folder) if len(keys) == 1 else None
        if told:
            name = group["keys"][keys[0]]
            best[name] = refused_at.strongest([told, best.get(name, told)])
    return {name: told for name, told in best.items() if told[0] in refused_at.COUNTS}


def try_group(group, folder, texts):
    changed = [it for it in texts if group["texts"][it] != texts[it]]
    try:
        for it in changed:
            with open(f"{folder}/{it}", "w", encoding="utf-8") as file:
                file.write(group["texts"][it])
        said = check(folder)
    finally:
        for it in changed:
            with open(f"{folder}/{it}", "w", encoding="utf-8") as file:
                file.write(texts[it])
    return refused_in(group, said, folder) if any(it.startswith("logic=not-proved") for it in said) else {}


def main(tree, crate):
    folder = f"{tree}/crates/{crate}"
    edits = f"{folder}/must-fail"
    texts = sources(folder)
    mutants = [Mutant(f"{edits}/{it}") for it in sorted(os.listdir(edits)) if it.endswith(".edit")]
    if not any(it.startswith("logic=proved") for it in check(folder)):
        print(f"{crate} is not proved as it stands")
        return 1
    groups = groups_of(mutants, texts)
    rows = []
    for group in groups:
        if len(set(group["keys"].values())) > 1:
            rows += [(crate, name, *told) for name, told in try_group(group, folder, texts).items()]
    for row in rows:
        os.remove(f"{edits}/{row[1]}.edit")
        print(f"{row[0]}/{row[1]}: refused, together with others, at a {row[2]} ({row[3]})")
    refused_at.merge(rows)
    print(f"{crate}: {len(rows)} of {len(mutants)} mutants are refused in {len(groups)} checks of several at once")
    return 0


if __name__ == "__main__":
    if len(sys.argv) != 3:
        sys.exit(__doc__)
    sys.exit(main(*sys.argv[1:]))
