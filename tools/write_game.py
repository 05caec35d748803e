#!/usr/bin/env python3
"""Writes the bytes of the cartridges of examples/ into the crates that have them, or compares them.

  write_game.py EXAMPLES CRATES [--compare]

EXAMPLES is the folder with the built images, CRATES is the folder crates. The bytes of the game become statics in
free_game/src/bytes.rt, those of the cartridges of examples/speed statics in speed_carts/src/bytes.rt: those from the first one up to
the last that is not zero, in parts of 1,024, and the 64 bytes of header and vectors. So do those of examples/profiles, in idiom_carts/src/bytes.rt, where
what all of them have from F800 on stands once. Those of hello become lines of console_vectors/data/hello.txt, 32 bytes in each,
without lines of zeros. With --compare nothing is written, and the status is 1 if a file is not what it should be.
"""
import sys

PART = 1024
# The cartridges of examples/profiles, and where what they share begins in the file.
IDIOMS = ("autoread", "flips", "lineirq", "hires", "region", "field", "vram", "keyon", "keyoff", "oneshot", "latch")
SHARED_AT = 0x7800


def lines_of(data):
    """Sixteen bytes a line, in the layout of rt fmt."""
    return "".join("    " + " ".join(f"{byte:#04x}," for byte in data[at:at + 16]) + "\n" for at in range(0, len(data), 16))


def statics_of(image, part_name, header_name):
    program = image[:0x7FC0].rstrip(b"\0")
    text = ""
    for number, at in enumerate(range(0, len(program), PART)):
        part = program[at:at + PART]
        text += f"pub static {part_name}{number}: [u8; {len(part)}] = [\n{lines_of(part)}];\n\n"
    return text + f"pub static {header_name}: [u8; 64] = [\n{lines_of(image[0x7FC0:])}];\n"


def game_of(image):
    return ("//! The bytes of `examples/game/game.sfc`, written by `tools/write_game.py`: its program from 8000 on, in parts, and\n"
            "//! what is from FFC0 on.\n\n" + statics_of(image, "PART_", "HEADER"))


def speed_of(images):
    text = ("//! The bytes of the cartridges of `examples/speed`, written by `tools/write_game.py`: of each its program from 8000 on,\n"
            "//! in parts, and what is from FFC0 on.\n")
    for name, image in images.items():
        text += "\n" + statics_of(image, f"{name.upper()}_", f"{name.upper()}_HEADER")
    return text


def idioms_of(images):
    shared = {image[SHARED_AT:0x7FC0] for image in images.values()}
    if len(shared) != 1:
        sys.exit("write_game: the cartridges of examples/profiles don't have the same bytes from F800 on")
    part = shared.pop().rstrip(b"\0")
    text = ("//! The bytes of the cartridges of `examples/profiles`, written by `tools/write_game.py`: what all have from F800 on,\n"
            "//! and of each its program from 8000 on, and what is from FFC0 on.\n\n"
            f"pub static SHARED: [u8; {len(part)}] = [\n{lines_of(part)}];\n")
    for name, image in images.items():
        program = image[:SHARED_AT].rstrip(b"\0")
        text += (f"\npub static {name.upper()}: [u8; {len(program)}] = [\n{lines_of(program)}];\n\n"
                 f"pub static {name.upper()}_HEADER: [u8; 64] = [\n{lines_of(image[0x7FC0:])}];\n")
    return text


def patches_of(image):
    text = "# The bytes of examples/hello/hello.sfc, written by tools/write_game.py.\n"
    for at in range(0, len(image), 32):
        if any(image[at:at + 32]):
            text += f"put {at:06X} {image[at:at + 32].hex().upper()}\n"
    return text


def main():
    examples, crates = sys.argv[1:3]

    def image_of(name):
        with open(f"{examples}/{name}.sfc", "rb") as file:
            return file.read()

    texts = {
        "/free_game/src/bytes.rt": game_of(image_of("game/game")),
        "/speed_carts/src/bytes.rt": speed_of({name: image_of(f"speed/{name}") for name in ("sieve", "mode7", "tune")}),
        "/idiom_carts/src/bytes.rt": idioms_of({name: image_of(f"profiles/{name}") for name in IDIOMS}),
        "/console_vectors/data/hello.txt": patches_of(image_of("hello/hello")),
    }
    status = 0
    for end, text in texts.items():
        name = crates + end
        if "--compare" not in sys.argv:
            with open(name, "w", encoding="ascii") as file:
                file.write(text)
            continue
        with open(name, encoding="ascii") as file:
            if file.read() != text:
                print(f"write_game: {name} does not have the bytes of the built cartridge")
                status = 1
    sys.exit(status)


main()
