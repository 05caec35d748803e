#!/usr/bin/env python3
"""Writes the man pages and the completions of an installed snes, of the texts by which its programs help.

    tools/package/texts.py OUT LOOK TRACE LINT SCENE BENCH STEMS VERSION DATE

OUT is a folder, as `usr/share` of a package. LOOK, TRACE, LINT, SCENE and BENCH are the programs frame_look, snes_trace, cart_lint,
scene_cart and cart_bench, and STEMS is the script tools/stems.sh; of each the --help is read. The help of snes is in crates/run_io/src/help.rt, the formats are in
docs/use/COMMANDS.md, the file of cases in docs/use/BENCH.md, and the rules of lint in docs/use/LINT.md.
So an option that a program has is in its page and in its completions, and none is that it has not. DATE is 2026-11-29, for one.
"""
import os
import re
import subprocess
import sys

TOP = os.path.dirname(os.path.dirname(os.path.dirname(os.path.realpath(__file__))))
FORMATS = ("The files", "The outputs", "Statuses and lines", "Limits")
STATE = ("The layout", "What the parts mean")


def text_of(name):
    with open(os.path.join(TOP, name), encoding="utf-8") as file:
        return file.read()


class Command:
    """A command or a program: its arguments, what it is, and its options as (name, value or None, what it is)."""

    def __init__(self, name, synopsis, what, options):
        self.name, self.synopsis, self.what, self.options = name, synopsis, what, options


def installed(text):
    """The text, with the names that things have where they are installed."""
    text = re.sub(r"docs/use/COMMANDS\.md", "snes(5)", text)
    text = re.sub(r"docs/use/(REWIND|STATE|SPC-FILES)\.md", "snes(5)", text)
    return text.replace("./scene", "snes-scene").replace("./snes", "snes")


def snes_help():
    """The commands of snes, what its files are, and its statuses."""
    raw = re.search(r'static HELP: &str = "\\\n(.*?)";', text_of("crates/run_io/src/help.rt"), re.S)[1]
    text = raw.replace("\\n\\\n", "\n").replace("\\n", "\n").replace("\\x20", " ")
    head, tail = text.split("\n\n", 1)
    files, rest = tail.split("\n\n", 1)
    commands, group, what = [], [], []

    def close():
        arguments = next((it.split(" ", 2)[2].strip() for it in group if "--" in it.split(" ", 2)[-1]), "")
        for line in group:
            if line.startswith("snes -"):
                continue
            name = line.split()[1]
            own = line.split(name, 1)[1].strip()
            own = arguments if own.startswith("(") else own
            options = [(option, value, described.get(option, "")) for option, value in re.findall(r"(--\w+) (\w+)", own)]
            commands.append(Command(name, own, " ".join(what), options))

    described = {}
    for line in files.split("\n"):
        for option, meaning in re.findall(r"(--\w+) +(.+?)(?=  +--|$)", line):
            described[option] = meaning.strip()
    for line in head.split("\n"):
        if line.startswith(" "):
            what.append(line.strip())
            continue
        if what:
            close()
            group, what = [], []
        if line.startswith("./snes"):
            break
        group.append(line)
    statuses = [(number, installed(meaning.strip())) for number, meaning in re.findall(r"\b(\d+) ([^,;.]+)", rest.replace("\n", " "))]
    return commands, described, statuses


def clap_help(program, words=()):
    """What a program of clap says of itself or of one of its commands."""
    said = subprocess.run([program, *words, "--help"], capture_output=True, text=True, check=True).stdout
    what, rest = said.split("\n\n", 1)
    usage, rest = rest.split("\n\n", 1)
    usage = " ".join(usage.split()[2 + len(words):])
    parts = {}
    for title, body in re.findall(r"^(Commands|Arguments|Options):\n((?:  .*\n?)+)", rest, re.M):
        parts[title] = [re.match(r"  +(.+?)  +(.*)", it).groups() for it in body.rstrip("\n").split("\n")]
    after = re.split(r"^  -h, --help .*\n", rest, flags=re.M)[-1].strip()
    options = []
    for name, meaning in parts.get("Options", []):
        found = re.match(r"(?:-h, )?(--[\w-]+)(?: <(\w+)>)?", name)
        options.append((found[1], found[2], meaning))
    return Command(words[0] if words else "", usage, what, options), parts, after


# Pages.


def escaped(text):
    text = text.replace("\\", "\\e").replace("-", "\\-")
    return re.sub(r"^(?=[.'])", r"\\&", text)


def inline(text):
    """A line of a page of the repository as one of a man page."""
    text = re.sub(r"\[([^\]]*)\]\([^)]*\)", r"\1", text)
    text = re.sub(r"\*\*(`[^`]*`)\*\*", r"\1", text)
    done = []
    for number, part in enumerate(re.split(r"`([^`]*)`", text)):
        if number % 2:
            done.append(f"\\fB{escaped(part)}\\fR" if part else "")
            continue
        part = escaped(part)
        part = re.sub(r"\*\*([^*]+)\*\*", r"\\fB\1\\fR", part)
        done.append(re.sub(r"(?<![\w*])\*([^*\s][^*]*)\*(?!\w)", r"\\fI\1\\fR", part))
    return re.sub(r"^(?=[.'])", r"\\&", "".join(done))


def table(rows):
    """Rows of a table as paragraphs with a tag."""
    cells = [[it.strip() for it in row.strip().strip("|").split("|")] for row in rows]
    for row in cells[2:]:
        yield ".TP"
        yield "\\fB" + inline(row[0]).replace("\\fB", "").replace("\\fR", "") + "\\fR"
        told = [f"{head}: {cell}" if head else cell for head, cell in zip(cells[0][1:], row[1:]) if cell]
        yield inline(". ".join(told) if len(cells[0]) > 2 else row[1])


def page_of(markdown):
    """Sections of a page of the repository as a man page has them."""
    rows, in_code, paragraph = [], False, []

    def flush():
        nonlocal rows, paragraph
        if rows:
            yield from table(rows)
        if paragraph:
            yield ".PP"
            yield inline(" ".join(paragraph))
        rows, paragraph = [], []

    for line in markdown.split("\n"):
        if line.startswith("    ") and not paragraph:
            if not in_code:
                yield from flush()
                yield ".PP"
                yield ".nf"
                yield ".RS 4"
                in_code = True
            yield escaped(line.strip())
            continue
        if in_code:
            yield ".RE"
            yield ".fi"
            in_code = False
        if line.startswith("#"):
            yield from flush()
            yield (".SH " + escaped(line[3:]).upper()) if line.startswith("## ") else ".SS " + escaped(line.lstrip("# ").replace("`", ""))
        elif line.startswith("|"):
            rows.append(line)
        elif line.startswith("- "):
            yield from flush()
            yield ".IP \\(bu 2"
            yield inline(line[2:])
        elif line.strip():
            if rows:
                yield from flush()
            paragraph.append(line.strip())
        else:
            yield from flush()
    yield from flush()


def option_tag(option, value):
    return f"\\fB{escaped(option)}\\fR" + (f" \\fI{value}\\fR" if value else "")


def version_option():
    return [".TP", option_tag("--version", None), "Alone: prints the version, the commit, and whether the program was proved."]


def head(name, section, date, version, what):
    title = "User Commands" if section == 1 else "File Formats"
    return [f'.TH {name.upper()} {section} {date} "snes {version}" "{title}"', ".SH NAME", f"{escaped(name)} \\- {what}"]


def ending(also):
    if also:
        yield ".SH SEE ALSO"
        yield ",\n".join(f".BR {escaped(name)} ({section})" .replace(" (", " (") for name, section in also).replace(",\n", " ,\n")


def snes_page(version, date):
    commands, described, statuses = snes_help()
    page = head("snes", 1, date, version, "Super Nintendo emulator whose output is proved") + [".SH SYNOPSIS"]
    for number, it in enumerate(commands):
        page += ([".br"] if number else []) + [f"\\fBsnes {it.name}\\fR {escaped(it.synopsis)}"]
    page += [".br", "\\fBsnes \\-\\-help\\fR | \\fB\\-h\\fR | \\fB\\-\\-version\\fR", ".SH DESCRIPTION"]
    page += ["A cartridge, a boot ROM, a table, a script of pads and a number of frames go in.", "Raw video and raw audio come out, the same bytes at every run."]
    page += ["There is no window, and nothing is played.", ".SH COMMANDS"]
    names = []
    for number, it in enumerate(commands):
        names.append(it.name)
        if number + 1 < len(commands) and commands[number + 1].what == it.what:
            continue
        page += [".TP", ", ".join(f"\\fB{name}\\fR" for name in names), escaped(installed(it.what[0].upper() + it.what[1:])) + "."]
        names = []
    page += [".SH OPTIONS"]
    for option, meaning in described.items():
        page += [".TP", option_tag(option, "FILE"), escaped(meaning) + "."]
    page += [".TP", option_tag("--quiet", None), "In front of all other words: nothing is said of how far a run is."]
    page += version_option()
    page += [".SH EXIT STATUS"]
    for number, meaning in statuses:
        if number == "70":
            meaning = "the program was not found"
        page += [".TP", f"\\fB{number}\\fR", escaped(meaning) + "."]
    page += [".SH FILES", ".TP", "\\fI/usr/share/doc/snes/PROVED\\fR", "By which commit and toolchain the programs were made, whether they were proved, and the checksum of each file."]
    others = [("snes-bench", 1), ("snes-lint", 1), ("snes-look", 1), ("snes-scene", 1), ("snes-stems", 1), ("snes-trace", 1), ("snes", 5)]
    return page + list(ending(others))


def sentence(text):
    text = text.strip()
    return text[0].upper() + text[1:] + ("" if text.endswith(".") else ".")


def look_page(program, version, date):
    whole, parts, _ = clap_help(program)
    page = head("snes-look", 1, date, version, "pictures, sounds and sums of what snes wrote") + [".SH SYNOPSIS"]
    body, commands = [], []
    for name, what in parts["Commands"]:
        if name == "help":
            continue
        one, own, _ = clap_help(program, (name,))
        commands.append((one, own))
        page += ([".br"] if len(commands) > 1 else []) + [f"\\fBsnes\\-look {name}\\fR {escaped(one.synopsis)}"]
        body += [f".SS {name}", escaped(sentence(what))]
        for argument, meaning in own.get("Arguments", []):
            body += [".TP", f"\\fI{argument.strip('<>[]')}\\fR", escaped(sentence(meaning))]
        for option, value, meaning in one.options:
            if option != "--help":
                body += [".TP", option_tag(option, value), escaped(sentence(meaning))]
    page += [".SH DESCRIPTION", escaped(sentence(whole.what)), ".SH COMMANDS", *body, ".SH OPTIONS", *version_option()]
    return page + list(ending([("snes", 1), ("snes", 5)])), commands


def trace_page(program, version, date):
    whole, _, after = clap_help(program)
    page = head("snes-trace", 1, date, version, "each step of a run of snes") + [".SH SYNOPSIS", f"\\fBsnes\\-trace\\fR {escaped(whole.synopsis)}"]
    page += [".SH DESCRIPTION", escaped(sentence(whole.what)), ".SH OPTIONS"]
    for option, value, meaning in whole.options:
        page += [".TP", option_tag(option, value), escaped(sentence(meaning))]
    page += version_option()
    heads = {"A file of breakpoints": ".SH BREAKPOINTS", "--symbols": ".SH SYMBOLS", "--until": ".SH END", "--coverage": ".SH COVERAGE", "Statuses: ": ".SH EXIT STATUS"}
    for paragraph in after.split("\n\n"):
        page += [next((head for begin, head in heads.items() if paragraph.startswith(begin)), ".PP")]
        page += [escaped(sentence(" ".join(paragraph.removeprefix("Statuses: ").split())))]
    return page + list(ending([("snes", 1), ("snes", 5)])), whole


def plain_page(name, what, program, version, date):
    """The page of a program without commands: its arguments, options and statuses."""
    whole, parts, after = clap_help(program)
    page = head(name, 1, date, version, what) + [".SH SYNOPSIS", f"\\fB{escaped(name)}\\fR {escaped(whole.synopsis)}"]
    page += [".SH DESCRIPTION", escaped(sentence(whole.what))]
    for argument, meaning in parts.get("Arguments", []):
        page += [".TP", f"\\fI{argument.strip('<>[]')}\\fR", escaped(sentence(meaning))]
    page += [".SH OPTIONS"]
    for option, value, meaning in whole.options:
        page += [".TP", option_tag(option, value), escaped(sentence(meaning))]
    page += version_option()
    statuses = after.split("\n\n")[-1]
    page += [".SH EXIT STATUS", escaped(sentence(" ".join(statuses.removeprefix("Statuses: ").split())))]
    return page + list(ending([("snes", 1), ("snes", 5)])), whole


def sections_of(name):
    return re.findall(r"^## (.+)\n((?:(?!## ).*\n?)*)", text_of(name), re.M)


def with_sections(page, name, titles):
    """A plain page, with sections of a page of the repository in front of its statuses."""
    sections = dict(sections_of(name))
    told = "".join(f"## {title}\n{sections[title]}" for title in titles)
    for tool in ("bench", "lint", "look", "trace", "snes"):
        told = told.replace(f"./{tool}", "snes" if tool == "snes" else f"snes-{tool}")
    at = page.index(".SH EXIT STATUS")
    page = page[:at] + list(page_of(told)) + page[at:]
    # A paragraph begins with its section anyway.
    return [line for number, line in enumerate(page) if line != ".PP" or not page[number - 1].startswith(".S")]


def bench_page(program, version, date):
    """The page of bench: as a plain one, with the form of a file of cases, as its page of the repository has it."""
    page, whole = plain_page("snes-bench", "cases of cartridges, and what each is expected to do", program, version, date)
    page = [line.replace("docs/use/BENCH.md has its form", "THE FILE says in which form") for line in page]
    return with_sections(page, "docs/use/BENCH.md", ("A first case", "The file", "Warnings")), whole


def lint_page(program, version, date):
    """The page of lint: as a plain one, with the rules and the formats, as its page of the repository has them."""
    page, whole = plain_page("snes-lint", "what a cartridge does that a console would not forgive", program, version, date)
    page = [line.replace("(below)", "(ALLOWED PLACES)") for line in page]
    page.insert(page.index(option_tag("--progress", None)) + 2, "It is added if standard error is a terminal.")
    at = page.index(".SH DESCRIPTION") + 2
    page.insert(at, "RULES says of each rule what a console does, what snes does, and how to mend it.")
    page.insert(at + 1, "A source in capitals is a page of the repository of snes.")
    return with_sections(page, "docs/use/LINT.md", ("What a finding says", "Rules", "Allowed places", "Formats")), whole


def formats_page(version, date):
    sections = dict(sections_of("docs/use/COMMANDS.md") + sections_of("docs/use/STATE.md"))
    page = head("snes", 5, date, version, "files that snes reads and writes, its messages and its limits")
    for name in FORMATS[:2] + STATE + FORMATS[2:]:
        title = name.replace("The layout", "The state file")
        for line in page_of(f"## {title}\n" + installed(sections[name])):
            # A paragraph begins with its section anyway.
            if line != ".PP" or not page[-1].startswith(".S"):
                page.append(line)
    return page + list(ending([("snes", 1), ("snes-look", 1), ("snes-trace", 1)]))


# Completions.

BASH = """# Completes the words of {name}; made by tools/package/texts.py.
{function}() {{
  local now=${{COMP_WORDS[COMP_CWORD]}} before=${{COMP_WORDS[COMP_CWORD - 1]}} given=
  COMPREPLY=()
  case $before in
{values}  esac
{words}
  COMPREPLY=($(compgen -W "$given" -- "$now"))
  [[ $now == -* ]] || [ "$COMP_CWORD" -le {first} ] || compopt -o default 2>/dev/null
  return 0
}}
complete -F {function} {name}
"""


def bash_values(commands):
    """What comes after an option: a file, one of few words, or something that is not to be guessed."""
    kinds = {}
    for it in commands:
        for option, value, meaning in it.options:
            if value:
                few = re.search(r"\[possible values: ([^\]]+)\]", meaning)
                kinds[option] = few[1].replace(",", "") if few else None if value in ("FILE", "OUT", "FOLDER") else ""
    for option, words in sorted(kinds.items()):
        if words is None:
            yield f'    {option}) compopt -o default 2>/dev/null; return ;;\n'
        else:
            yield f'    {option}) COMPREPLY=($(compgen -W "{words}" -- "$now")); return ;;\n'


def bash(name, commands, first):
    function = "_" + name.replace("-", "_")
    if commands[0].name:
        words = ["  if [ \"$COMP_CWORD\" -eq 1 ]; then", '    given="' + " ".join([*(it.name for it in commands), *first]) + '"', "  else", "    case ${COMP_WORDS[1]} in"]
        for it in commands:
            words.append(f'      {it.name}) given="{" ".join(option for option, _, _ in it.options)}" ;;')
        words += ["    esac", "  fi"]
    else:
        words = [f'  given="{" ".join([*(option for option, _, _ in commands[0].options), *first])}"']
    return BASH.format(name=name, function=function, values="".join(bash_values(commands)), words="\n".join(words), first=1 if commands[0].name else 0)


def quoted(text):
    return text.replace("'", "'\\''").replace("[", "(").replace("]", ")").replace(":", "\\:").replace("`", "")


def zsh_options(it):
    for option, value, meaning in it.options:
        few = re.search(r"\[possible values: ([^\]]+)\]", meaning)
        kind = "" if not value else ":value:(" + few[1].replace(",", "") + ")" if few else f":{value.lower()}:" + ("_files" if value in ("FILE", "OUT", "FOLDER") else " ")
        yield f"'{option}[{quoted(meaning or option[2:])}]{kind}'"


def zsh(name, commands, first):
    lines = [f"#compdef {name}", "# Made by tools/package/texts.py."]
    if commands[0].name:
        lines += ["if (( CURRENT == 2 )); then", "  local -a commands", "  commands=("]
        lines += [f"    '{it.name}:{quoted(installed(it.what))}'" for it in commands] + ["  )", "  _describe command commands"]
        lines += ["  compadd -- " + " ".join(first), "  return", "fi", "shift words", "(( CURRENT-- ))", "case $words[1] in"]
        lines += [f"  {it.name}) _arguments " + " ".join([*zsh_options(it), "'*:file:_files'"]) + " ;;" for it in commands] + ["esac"]
    else:
        lines += ["_arguments " + " ".join([*zsh_options(commands[0]), *(f"'{it}[{it[2:]}]'" for it in first), "'*:file:_files'"])]
    return "\n".join(lines) + "\n"


def write(out, name, lines):
    path = os.path.join(out, name)
    os.makedirs(os.path.dirname(path), exist_ok=True)
    with open(path, "w", encoding="utf-8") as file:
        file.write(lines if isinstance(lines, str) else "\n".join(lines) + "\n")


def main():
    if len(sys.argv) != 10:
        sys.exit(__doc__)
    out, look, trace, lint, scene, bench, stems, version, date = sys.argv[1:]
    commands, _, _ = snes_help()
    look_text, look_commands = look_page(look, version, date)
    trace_text, trace_whole = trace_page(trace, version, date)
    scene_text, scene_whole = plain_page("snes-scene", "free cartridges and the files that a run of snes needs", scene, version, date)
    bench_text, bench_whole = bench_page(bench, version, date)
    lint_text, lint_whole = lint_page(lint, version, date)
    stems_text, stems_whole = plain_page("snes-stems", "the voices of a sound file apart, as WAV files", stems, version, date)
    write(out, "man/man1/snes.1", snes_page(version, date))
    write(out, "man/man1/snes-look.1", look_text)
    write(out, "man/man1/snes-trace.1", trace_text)
    write(out, "man/man1/snes-scene.1", scene_text)
    write(out, "man/man1/snes-bench.1", bench_text)
    write(out, "man/man1/snes-lint.1", lint_text)
    write(out, "man/man1/snes-stems.1", stems_text)
    write(out, "man/man5/snes.5", formats_page(version, date))
    programs = {
        "snes": (commands, ["--help", "--version", "--quiet"]),
        "snes-look": ([it for it, _ in look_commands], ["--help", "--version"]),
        "snes-trace": ([trace_whole], ["--version"]),
        "snes-scene": ([scene_whole], ["--version"]),
        "snes-bench": ([bench_whole], ["--version"]),
        "snes-lint": ([lint_whole], ["--version"]),
        "snes-stems": ([stems_whole], ["--version"]),
    }
    for name, (known, first) in programs.items():
        write(out, f"bash-completion/completions/{name}", bash(name, known, first))
        write(out, f"zsh/vendor-completions/_{name}", zsh(name, known, first))


if __name__ == "__main__":
    main()
