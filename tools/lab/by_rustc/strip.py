#!/usr/bin/env python3
"""strip.py TOP OUT: the crates of the serial console as one Rust crate, with ghost items, clauses and tactics taken out.

Each crate becomes a module of its name. What the kit's crates and std of Rattle have beyond Rust's stands in kit.rs.
"""
import os, re, sys

CRATES = """snes_defs clock_ratio status_bits port_entries side_law serial_console cpu_tables cpu_alu cpu_modes cpu65816 cart_map
io_math beam dma_hdma scanline_ops ppu_regs tile_cache ppu_tiles color_window ppu_mode7 ppu_objects ppu_screens ppu_line
console_bus console_steps whole_instructions console_machine spc_tables spc_alu spc_modes spc700 sdsp_voice sdsp_echo audio_side input_files demo_files shelf worker_gate
run_drive""".split()
# Of these crates only some files: the loops of the serial run without the shelf of files and the threads.
ONLY = {"run_drive": {"pours.rt", "serial_run.rt", "sink.rt", "driving.rt"}}
NAMES = set(CRATES)
KIT = {"arrayvec", "circular_buffer", "byteorder", "bstr"}


def closed(text, at):
    """The place behind the bracket that closes the one at `at`."""
    opens, closes = text[at], {"{": "}", "[": "]", "(": ")"}[text[at]]
    depth = 0
    while at < len(text):
        if text[at] == opens:
            depth += 1
        elif text[at] == closes:
            depth -= 1
            if depth == 0:
                return at + 1
        at += 1
    raise SystemExit("a bracket that isn't closed")


def without(text, pattern, behind):
    """Takes out what begins with the pattern and ends where `behind` says."""
    out, at = [], 0
    for match in iter(lambda: pattern.search(text, at), None):
        out.append(text[at:match.start()])
        at = behind(text, match)
    return "".join(out) + text[at:]


def behind_bracket(text, match):
    return closed(text, match.end() - 1)


def behind_item(text, match):
    """Behind a ghost item: up to its `;` or `,` outside all brackets."""
    at = match.end()
    while text[at] not in ";,}":
        at = closed(text, at) if text[at] in "{[(" else at + 1
    return at if text[at] == "}" else at + 1


# A clause with its name, if it has one, and the brace that opens it.
CLAUSE = re.compile(r"(?<![\w.])(?:requires|ensures|invariant|decreases)\*?(?:[ \t]+\w+)?\s*\{")
GHOST = re.compile(r"(?m)^[ \t]*(?:pub(?:\([^)]*\))? )?ghost\b")
ATTRIBUTE = re.compile(r"#!?\[(?=tactic|rattlefmt)")
PROVE = re.compile(r"(?m)^[ \t]*(?:const _: \(\) = )?prove!\(")


def stripped(text, name):
    text = re.sub(r"(?m)^[ \t]*//.*$", "", text)
    text = without(text, GHOST, behind_item)
    text = without(text, CLAUSE, behind_bracket)
    text = without(text, ATTRIBUTE, lambda t, m: closed(t, t.index("[", m.start())))
    text = without(text, PROVE, lambda t, m: t.index(";", closed(t, m.end() - 1)) + 1)
    text = re.sub(r"#\[derive\((.*?)\)\]", lambda m: m[0].replace("Drop, ", "").replace(", Drop", "").replace("Drop", ""), text)
    text = re.sub(r" \+ Drop\b|: Drop\b(?! \+)|\bDrop \+ ", "", text)
    text = re.sub(r"\bcrate::", "crate::%s::" % name, text)
    names = "|".join(sorted((NAMES | KIT) - {name}))
    text = re.sub(r"(?<![\w:])(?<!mod )(%s)::" % names, r"crate::\1::", text)
    text = re.sub(r"\bstd::alloc::", "crate::kit::", text)
    text = re.sub(r"\bstd::marker::Model\b", "crate::kit::Model", text)
    text = text.replace("vec![in ", "crate::kit_vec![in ")
    text = re.sub(r"\bpub\(crate\)", "pub", text)
    text = re.sub(r"\n{3,}", "\n\n", text)
    return "#[allow(unused_imports)]\nuse crate::kit::Vec;\n" + text


def main():
    top_of_all, out = sys.argv[1:3]
    for name in CRATES:
        top = os.path.join(top_of_all, "crates", name, "src")
        for folder, _, files in os.walk(top):
            for file in files:
                if not file.endswith(".rt") or file not in ONLY.get(name, {file}):
                    continue
                path = os.path.join(folder, file)
                to = os.path.join(out, name, os.path.relpath(path, top))[:-3] + ".rs"
                if file == "lib.rt" and folder == top:
                    to = os.path.join(out, name, "mod.rs")
                os.makedirs(os.path.dirname(to), exist_ok=True)
                with open(path) as f:
                    text = f.read()
                with open(to, "w") as f:
                    f.write(stripped(text, name))
    for name in ONLY:
        with open(os.path.join(out, name, "mod.rs"), "w") as f:
            for file in sorted(ONLY[name]):
                f.write("pub mod %s;\n" % file[:-3])
            for file in sorted(ONLY[name]):
                f.write("pub use %s::*;\n" % file[:-3])
    with open(os.path.join(out, "main.rs"), "w") as f:
        f.write("#![allow(unused, dead_code)]\n#![recursion_limit = \"512\"]\nmod kit;\nuse kit::{arrayvec, bstr, byteorder, circular_buffer};\n")
        f.writelines("mod %s;\n" % name for name in CRATES)
        f.write("mod bench;\nfn main() {\n    bench::main();\n}\n")


main()
