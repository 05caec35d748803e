#!/usr/bin/env bash
# Whether crates.txt names for each crate the libraries that it uses, and no others.
#
# A crate uses a library where its src/, specs/ or proofs/ have `Rattle.NAME.`, `NAME::` or `use NAME`, outside comments and
# strings. A library is one that crates.txt names, of the repository or of the kit; one of the kit that no line names can't be used at
# all, since then the check finds no such name. An idle entry costs proofs: a crate is proved again whenever one that it names changes.
#
# This takes no proof and a second. The status is 1 where an entry is idle or missing, or a crate or line is none.
top=$(cd "$(dirname "${BASH_SOURCE[0]}")/../.." && pwd) || exit 2
cd "$top" && exec python3 - <<'P'
import collections, os, re, sys

bad = 0
entries = collections.OrderedDict()


def complain(what):
    global bad
    bad += 1
    print(f"crates.txt: {what}")


for number, line in enumerate(open("crates.txt", encoding="utf-8"), 1):
    words, _, _ = line.partition("#")
    if not words.strip():
        continue
    head, colon, libraries = words.partition(":")
    if not colon or not head.split():
        complain(f"line {number} is none of a crate")
        continue
    name = head.split()[0]
    if name in entries:
        complain(f"{name} has two lines")
    if not os.path.isdir(f"crates/{name}/src"):
        complain(f"{name} is no crate")
    entries[name] = libraries.split()

known = sorted(set(entries).union(*entries.values()))
named = re.compile(
    r"\bRattle\.(?P<logic>\w+)\b|(?<![\w:.])(?P<path>[a-z]\w*)::|\buse\s+(?P<use>[a-z]\w*)\b"
)
# Comments and strings; an apostrophe begins a character only where it ends after one.
aside = {
    ".rt": re.compile(r"//[^\n]*|/\*.*?\*/|b?\"(?:\\.|[^\"\\])*\"|b?'(?:\\.|[^'\\])'", re.S),
    ".antt": re.compile(r"(?<!\S)--[^\n]*|\{-.*?-\}|\"(?:\\.|[^\"\\])*\"", re.S),
}


def texts_of(crate):
    """The sources of a crate, without comments and strings."""
    for part in ("src", "specs", "proofs"):
        for folder, _, files in os.walk(f"crates/{crate}/{part}"):
            for file in files:
                kind = os.path.splitext(file)[1]
                if kind in aside:
                    with open(os.path.join(folder, file), encoding="utf-8") as source:
                        yield aside[kind].sub(lambda found: '""' if found[0][-1:] == '"' else " ", source.read())


for crate, libraries in entries.items():
    used, modules = set(), set()
    texts = list(texts_of(crate))
    for text in texts:
        modules.update(re.findall(r"\bmod\s+(\w+)", text))
    for text in texts:
        for found in named.finditer(text):
            name = found["logic"] or found["path"] or found["use"]
            # A module of the crate's own may have the name of a library that it doesn't use.
            if found["logic"] or name in libraries or name not in modules:
                used.add(name)
    for library in libraries:
        if libraries.count(library) > 1:
            complain(f"{crate} names {library} twice")
        if library not in used:
            complain(f"{crate} names {library} and does not use it")
    for library in known:
        if library in used and library not in libraries and library != crate:
            complain(f"{crate} uses {library} and does not name it")
print(f"{len(entries)} crates, {bad} complaints about their entries")
sys.exit(bad > 0)
P
