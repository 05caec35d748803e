#!/usr/bin/env bash
# Whether what the program says of itself is true: its version is that of CHANGELOG.md, and its commands are the same
# in the code, in the definitions, in the help, in the page of formats and in what is said of a faulty command line.
#
# This takes no proof and less than a second. The status is 1 where something differs.
top=$(cd "$(dirname "${BASH_SOURCE[0]}")/../.." && pwd) || exit 2
cd "$top" && exec python3 - <<'P'
import re, sys

bad = 0


def text_of(name):
    return open(name, encoding="utf-8").read()


def complain(what):
    global bad
    bad += 1
    print(f"words: {what}")


help_code = text_of("crates/run_io/src/help.rt")
version = re.search(r'const VERSION: &str = "snes ([0-9.]+)\\n";', help_code)
closed = re.search(r"^## ([0-9.]+)", text_of("CHANGELOG.md"), re.M)
if not version or not closed or version[1] != closed[1]:
    complain("the version of crates/run_io/src/help.rt is not the first one of CHANGELOG.md")
called = re.findall(r'if name == "([^"]+)"', text_of("crates/snes_program/src/call.rt"))
if len(called) < 7:
    complain("crates/snes_program/src/call.rt names no commands")
others = {
    "crates/snes_program/specs/Commands.antt": r'codes "([^"]+)"',
    "crates/snes_program/src/mistakes.rt": r'if name == "([^"]+)"',
}
for name, pattern in others.items():
    if re.findall(pattern, text_of(name)) != called:
        complain(f"{name} has other commands than call.rt, or in another order")
shown = {
    "the help": re.search(r"static HELP.*?;\n\n", help_code, re.S)[0],
    "docs/use/COMMANDS.md": text_of("docs/use/COMMANDS.md"),
}
for where, text in shown.items():
    for command in called:
        if f"snes {command}" not in text:
            complain(f"{where} leaves out {command}")
said = text_of("crates/snes_run/src/messages.rt")
for command in called:
    if not command.startswith("-") and not re.search(rf"\b{command}\b", said):
        complain(f"what is said of a faulty command line leaves out {command}")
print(f"{len(called)} commands, {bad} complaints about what is said of them")
sys.exit(bad > 0)
P
