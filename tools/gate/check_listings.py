#!/usr/bin/env python3
"""Checks the listings of programs of the sound processor that stand in the repository as bytes.

Each instruction is assembled anew and must give the bytes that stand beside it; the addresses must go on without a gap;
and the bytes must be those of the sources that have them. The files of examples/bench, which users run, must be those of
crates/cart_bench/data. CI runs gate.toml there, which must be both files of cases, one after the other. The status is 1 where
something differs.
"""
import os
import re
import sys

TOP = os.path.dirname(os.path.dirname(os.path.dirname(os.path.abspath(__file__))))
# A listing, the address of its first byte, and the sources with its bytes, each by the text before them.
LISTINGS = (
    (
        "examples/spc700/boot.lst",
        0xFFC0,
        (
            ("crates/free_files/src/boot.rt", "static BOOT: [u8; 64] ="),
            ("crates/free_files/specs/Boot.antt", "free_boot ="),
        ),
    ),
    (
        "examples/spc700/scene.lst",
        0x0200,
        (("crates/scene_cart/src/sound.rt", "static SOUND: [u8; SIZE] ="),),
    ),
)
# The instructions that the listings use: d is a byte, a is a word, r is a label that a branch leads to. A form's bytes
# come in the order of the operands behind the opcode.
OPCODES = {
    "MOV X,#d": 0xCD, "MOV Y,#d": 0x8D, "MOV A,#d": 0xE8, "MOV d,#d": 0x8F,
    "MOV A,X": 0x7D, "MOV X,A": 0x5D, "MOV SP,X": 0xBD,
    "MOV A,d": 0xE4, "MOV X,d": 0xF8, "MOV d,A": 0xC4, "MOV d,X": 0xD8, "MOV d,Y": 0xCB, "MOV d,d": 0xFA,
    "MOV A,a+X": 0xF5, "MOV (X)+,A": 0xAF, "MOV [d]+Y,A": 0xD7,
    "MOVW YA,d": 0xBA, "MOVW d,YA": 0xDA,
    "CMP A,#d": 0x68, "CMP X,#d": 0xC8, "CMP X,d": 0x3E, "CMP Y,d": 0x7E,
    "CLRC": 0x60, "ADC A,d": 0x84, "AND A,#d": 0x28, "LSR A": 0x5C, "CLR1 d.5": 0xB2,
    "INC A": 0xBC, "INC X": 0x3D, "INC Y": 0xFC, "INC d": 0xAB, "DEC X": 0x1D,
    "BNE r": 0xD0, "BEQ r": 0xF0, "BMI r": 0x30, "BCC r": 0x90, "BRA r": 0x2F, "CBNE d,r": 0x2E,
    "JMP [a+X]": 0x1F, "CALL a": 0x3F, "RET": 0x6F,
}
# In these the operand that is written first comes last.
TURNED = ("MOV d,#d", "MOV d,d")
OPERAND = {"d": r"([0-9A-F]{2})", "a": r"([0-9A-F]{4})", "r": r"([a-z]+)"}


def assemble(text, at, labels, beside):
    """The bytes of an instruction at an address, or None where no form fits; BYTES stands for those beside it."""
    if text == "BYTES":
        return beside
    if text.startswith("WORD "):
        return int(text[5:], 16).to_bytes(2, "little")
    for form, opcode in OPCODES.items():
        kinds = re.findall(r"\b[dar]\b", form)
        found = re.fullmatch(re.sub(r"\\?\b([dar])\b", lambda m: OPERAND[m[1]], re.escape(form)), text)
        if not found:
            continue
        out = bytes([opcode])
        length = 1 + sum(2 if kind == "a" else 1 for kind in kinds)
        words = list(zip(kinds, found.groups()))
        for kind, word in reversed(words) if form in TURNED else words:
            if kind == "r":
                distance = labels[word] - (at + length)
                if not -128 <= distance <= 127:
                    sys.exit(f"{text}: {word} is {distance} bytes away")
                out += bytes([distance % 256])
            else:
                out += int(word, 16).to_bytes(2 if kind == "a" else 1, "little")
        return out
    return None


def listed(name):
    """The lines of a listing: number, address, bytes, instruction; and the labels."""
    lines, labels, waiting = [], {}, []
    for number, line in enumerate(open(os.path.join(TOP, name), encoding="utf-8"), 1):
        code = line.split(";")[0].rstrip()
        if not code:
            continue
        if re.fullmatch(r"[a-z]+:", code):
            waiting.append(code[:-1])
            continue
        found = re.fullmatch(r"([0-9A-F]{4})  ((?:[0-9A-F]{2} )*[0-9A-F]{2}) +([A-Z].*)", code)
        if not found:
            sys.exit(f"{name}:{number}: no line of a listing: {code}")
        at = int(found[1], 16)
        for label in waiting:
            labels[label] = at
        waiting = []
        lines.append((number, at, bytes.fromhex(found[2]), found[3]))
    return lines, labels


def in_source(name, begin):
    """The bytes that stand in a source file from a text on."""
    text = open(os.path.join(TOP, name), encoding="utf-8").read()
    body = re.search(re.escape(begin) + r"\s*[\[(]([^\])]*)", text)
    return bytes(int(word, 16) for word in re.findall(r"0x([0-9a-f]{2})\b", body[1])) if body else b""


def check(listing, first, sources):
    lines, labels = listed(listing)
    whole = b""
    for number, at, beside, text in lines:
        if at != first + len(whole):
            sys.exit(f"{listing}:{number}: stands at {at:04X}, not at {first + len(whole):04X}")
        made = assemble(text, at, labels, beside)
        if made != beside:
            sys.exit(f"{listing}:{number}: {text} is {made and made.hex(' ')}, not {beside.hex(' ')}")
        whole += made
    for name, begin in sources:
        if in_source(name, begin) != whole:
            sys.exit(f"{name}: its bytes are not those of {listing}")
    print(f"{listing}: {len(lines)} lines give the {len(whole)} bytes of {' and '.join(name for name, _ in sources)}")


def check_copies(copies, data):
    """Checks that two folders hold the same files, beside README.md and gate.toml."""
    held = {}
    for folder in (copies, data):
        names = sorted(name for name in os.listdir(os.path.join(TOP, folder)) if name not in ("README.md", "gate.toml"))
        held[folder] = {name: open(os.path.join(TOP, folder, name), "rb").read() for name in names}
    for name in sorted(set(held[copies]) | set(held[data])):
        if held[copies].get(name) != held[data].get(name):
            sys.exit(f"{copies}/{name} and {data}/{name} are not the same file: cp {data}/{name} {copies}/")
    with open(os.path.join(TOP, data, "gate.toml"), "rb") as gate:
        if gate.read() != held[data]["bench.toml"] + b"\n" + held[data]["faults.toml"]:
            sys.exit(f"{data}/gate.toml is not bench.toml, an empty line and faults.toml")
    print(f"{copies}: its {len(held[copies])} files are those of {data}")


for listing in LISTINGS:
    check(*listing)
check_copies("examples/bench", "crates/cart_bench/data")
