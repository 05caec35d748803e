#!/usr/bin/env bash
# Whether every link between the pages leads somewhere, every page is reached from README, every page that a file names is there, and
# every line of the index of the machine leads to a rule, a definition and a function.
#
# It complains of a link whose file or heading is missing, of a page or picture in docs/ to which no way of links leads from README.md,
# and of the name of a page, in a source, a script or another page, that is no file. Such a name counts from the top of the repository,
# from the file's own folder, or from the data folder of its crate.
#
# Of docs/machine/INDEX.md it complains of a line whose definition or function is not in the file that it names, of a line whose
# definition and function have no stem in common, of a register whose page has it in no table below the heading that is linked, of
# an opcode or a term that is not below that heading, and of a register in a table of docs/machine that no line has.
#
# It takes no proof and a second. The status is 1 if there is a complaint.
top=$(cd "$(dirname "${BASH_SOURCE[0]}")/../.." && pwd) || exit 2
cd "$top" && exec python3 - <<'P'
import os, re, subprocess, sys
from os.path import dirname, exists, join, normpath

bad = 0


def complain(where, what):
    global bad
    bad += 1
    print(f"{where}: {what}")


def files():
    """The repository's files: those that git has and new ones that it does not ignore, or in a bare copy all but what is built."""
    listed = subprocess.run(["git", "ls-files", "-co", "--exclude-standard"], capture_output=True, text=True)
    if listed.returncode == 0:
        return sorted({f for f in listed.stdout.split("\n") if f and exists(f)})
    found = []
    for folder, inner, names in os.walk("."):
        inner[:] = [d for d in inner if d not in ("out", ".git")]
        found += [normpath(join(folder, n)) for n in names]
    return sorted(found)


def text_of(path):
    """The text of a file, or nothing if it is not text."""
    try:
        return open(path, encoding="utf-8").read()
    except UnicodeDecodeError:
        return ""


def prose(text):
    """Numbered lines of a page without its fenced code; code inside a line becomes as many blanks."""
    fenced = False
    for number, line in enumerate(text.split("\n"), 1):
        if line.startswith("```"):
            fenced = not fenced
        elif not fenced:
            yield number, re.sub(r"`[^`]*`", lambda m: " " * len(m[0]), line)


def headings(text):
    """The anchors of a page's headings, as the hosts of repositories make them."""
    seen, fenced = {}, False
    for line in text.split("\n"):
        fenced ^= line.startswith("```")
        title = re.match(r"#+ +(.*?) *$", line)
        if fenced or not title:
            continue
        plain = re.sub(r"\[([^\]]*)\]\([^)]*\)", r"\1", title[1]).lower()
        anchor = re.sub(r"[^\w\- ]", "", plain).replace(" ", "-")
        again = seen.get(anchor, 0)
        seen[anchor] = again + 1
        yield f"{anchor}-{again}" if again else anchor


def links(page):
    """Follows the links of a page: complains of the dead ones, and gives the files to which the others lead."""
    for number, line in prose(texts[page]):
        for target in re.findall(r"\]\(([^)\s]+)\)", line):
            if re.match(r"[a-z]+:", target):
                continue
            path, _, anchor = target.partition("#")
            leads = normpath(join(dirname(page), path)) if path else page
            if leads.startswith("..") or not exists(leads):
                complain(f"{page}:{number}", f"dead link: there is no {target}")
                continue
            if anchor and anchor not in anchors.get(leads, ()):
                complain(f"{page}:{number}", f"dead link: {leads} has no heading #{anchor}")
            yield leads


def named(path, text):
    """Complains of the pages that a file names and that are not there."""
    if ".md" not in text:
        return
    crate = re.match(r"crates/[^/]+/", path)
    folders = ["", dirname(path)] + ([crate[0] + "data"] if crate else [])
    for number, line in enumerate(text.split("\n"), 1):
        line = re.sub(r"https?:\S+|\[[^\]]*\]\([^)]*\)|\$\{?\w+\}?/", "", line)
        # What a program prints stands in its stdout with the marks of its strings.
        line = line.replace("\\n", " ")
        for name in re.findall(r"(?<![\w./*-])((?:[\w.-]+/)*[\w.-]+\.md)\b", line):
            if not any(exists(normpath(join(folder, name))) for folder in folders):
                complain(f"{path}:{number}", f"names {name}, which is not there")


def expanded(cell):
    """The registers that the first cell of a table names: `2107-210A BGnSC` is four, `F2, F3` two, `4016 write` one."""
    found = []
    for part in re.split(r", | · ", cell):
        match = re.match(r"([0-9A-Fvk][0-9A-Fx]{1,3})(?:(?:-| to )([0-9A-F]{1,4}|43x[0-9A-F]))?(?= |$)", part)
        if not match:
            continue
        first, last = match[1], match[2] or match[1]
        last = first[: len(first) - len(last)] + last
        if "x" in first or not re.fullmatch("[0-9A-F]+", first):
            digits = range(int(first[-1], 16), int(last[-1], 16) + 1)
            found += [f"{first[:-1]}{digit:X}" for digit in digits]
        else:
            found += [f"{number:0{len(first)}X}" for number in range(int(first, 16), int(last, 16) + 1)]
    return found


def sections(page):
    """The registers of the tables of a page by the anchor of the heading above them."""
    anchor, by_anchor, register, kept = None, {}, False, headings(texts[page])
    for line in texts[page].split("\n"):
        if re.match(r"#+ ", line):
            anchor, register = next(kept), False
        elif not line.startswith("|"):
            register = False
        elif re.match(r"\| (Register|Address)\b", line):
            register = True
        elif register and not line.startswith("|---"):
            by_anchor.setdefault(anchor, []).extend(expanded(line.split(" | ")[0].lstrip("| ")))
    return by_anchor


def section(page, anchor):
    """The text of a page from a heading to the next one of its level, in small letters."""
    lines, kept, found, level = [], headings(texts[page]), False, 0
    for line in texts[page].split("\n"):
        title = re.match(r"(#+) ", line)
        if title:
            found = next(kept) == anchor or found and len(title[1]) > level
            level = len(title[1]) if found and not lines else level
        if found:
            lines.append(line.lower())
    return "\n".join(lines)


def unnamed(entry, text):
    """The first opcode or term of an index line that its section doesn't name; a remark in brackets is none of them."""
    for term in re.sub(r" \(.*?\)", "", entry).split(", "):
        word = re.escape(term.lower().removesuffix("s"))
        if not re.match(r"modes? |operands |all opcodes|`", term) and not re.search(rf"\b{word}", text):
            return term
    return None


def defines(path, name):
    """Whether a file below crates/ has a definition or a function of this name."""
    word = re.escape(name)
    if path.endswith(".antt"):
        return re.search(rf"^(?:(?:abbrev|unfoldable|record|data|pub) )*{word} (?::|\(|where)", texts.get(path, ""), re.M)
    return re.search(rf"\bfn {word}\b", texts.get(path, ""))


def have_one_stem(definition, function):
    """Whether a word of one name and a word of the other begin alike: `mode_written` and `write_mode`, `dimmed` and `dim_colour`.

    Four letters are enough, or three that are the whole word but for an ending. Words that only join others don't count.
    """
    joining = {"after", "before", "from", "with"}
    for first in set(definition.split("_")) - joining:
        for second in set(function.split("_")) - joining:
            shared = len(os.path.commonprefix([first, second]))
            ends = (re.fullmatch("s|(.?ed)?", word[shared:]) for word in (first, second))
            if shared > 3 or shared == 3 and all(ends):
                return True
    return False


def index(page):
    """Complains of lines of the index that lead nowhere, and of registers that it lacks."""
    machine = {p: sections(p) for p in pages if p.startswith("docs/machine/") and p != page}
    indexed, of_registers = set(), False
    for number, line in enumerate(texts[page].split("\n"), 1):
        of_registers = line.startswith(("## Registers", "## Ports")) or of_registers and not line.startswith("## ")
        cells = line.strip("| ").split(" | ")
        if not line.startswith("| ") or cells[1:2] == ["Page"]:
            continue
        where = f"{page}:{number}"
        link = re.fullmatch(r"\[[\w-]+\]\(([\w-]+\.md)(?:#([\w-]+))?\)", cells[1]) if len(cells) == 4 else None
        names = [re.fullmatch(r"`([^`]+)` `(\w+)`", cell) for cell in cells[2:]]
        if not link or not all(names):
            complain(where, "is no line of an entry, a page, a definition and a function")
            continue
        for file, name in (match.groups() for match in names):
            if not defines(f"crates/{file}", name):
                complain(where, f"crates/{file} has no {name}")
        if not have_one_stem(names[0][2], names[1][2]):
            complain(where, f"{names[0][2]} and {names[1][2]} have no stem in common")
        term = None if of_registers else unnamed(cells[0], section(f"docs/machine/{link[1]}", link[2]))
        if term:
            complain(where, f"{link[1]} has no {term} below #{link[2]}")
        for register in expanded(cells[0]) if of_registers else ():
            indexed.add(register)
            if register not in machine.get(f"docs/machine/{link[1]}", {}).get(link[2], ()):
                complain(where, f"{link[1]} has no {register} in a table below #{link[2]}")
    for other, by_anchor in machine.items():
        for register in sorted({r for registers in by_anchor.values() for r in registers} - indexed):
            complain(other, f"has the register {register}, which the index lacks")


every = files()
texts = {f: text_of(f) for f in every}
pages = [f for f in every if f.endswith(".md") and not re.match(r"crates/[^/]+/data/", f)]
anchors = {f: set(headings(texts[f])) for f in every if f.endswith(".md")}
leads_to = {page: set(links(page)) for page in pages}
for path in every:
    named(path, texts[path])

index("docs/machine/INDEX.md")

reached, now = set(), ["README.md"]
while now:
    page = now.pop()
    if page not in reached:
        reached.add(page)
        now += leads_to.get(page, ())
for path in every:
    if path not in reached and (path in pages or path.startswith("docs/")):
        complain(path, "no way of links leads to it from README.md")
print(f"{len(pages)} pages, {bad} complaints about their links")
sys.exit(bad > 0)
P
