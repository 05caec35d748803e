#!/usr/bin/env python3
"""Follows rows of the crate console_vectors in another emulator, a libretro core, and compares the pictures.

  game_rows.py CORE CRATE [--table FILE --boot FILE --snes PROGRAM [--write]]

CRATE is crates/console_vectors, whose data/hello.txt, games.txt and pads.txt are followed. Their lines of its stdout are
compared, but for those of the sound. The game's image is examples/game/game.sfc, built before (tools/build_examples.sh).
With --snes the sound's lines come from that program, which has ./snes' command line; and --write writes the lines into
stdout. The status is 1 if a line differs.
"""
import argparse
import os
import subprocess
import sys
import tempfile

import numpy

import peer

HERE = os.path.dirname(os.path.abspath(__file__))
GAME = os.path.join(HERE, "../../examples/game/game.sfc")
# The title of the rows that idioms.py writes.
IDIOMS = "the cartridges of examples/profiles in both profiles"


def parts_of(lines):
    """The lines of stdout that come of the rows here, of those of idioms.py, and of jobs."""
    kinds = [line.rstrip("\n") == IDIOMS or " profile, " in line for line in lines]
    begin = kinds.index(True)
    end = len(kinds) - kinds[::-1].index(True)
    return lines[:begin], lines[begin:end], lines[end:]


def hashed(data):
    """64-bit FNV-1a."""
    value = 0xCBF29CE484222325
    for byte in data:
        value = (value ^ byte) * 0x100000001B3 & 0xFFFFFFFFFFFFFFFF
    return value


class Films:
    """Plays jobs in the core, in a process each, since a core keeps things from one cartridge to the next."""

    def __init__(self, words, folder):
        self.words, self.folder = words, folder

    def film(self, cart, script, frames):
        name = os.path.join(self.folder, "script")
        with open(name, "w", encoding="ascii") as file:
            file.write("".join(line + "\n" for line in script))
        video, audio = os.path.join(self.folder, "video"), os.path.join(self.folder, "audio")
        subprocess.run([sys.executable, os.path.join(HERE, "peer.py"), self.words.core, cart, name, str(frames), video,
                        audio, "--later", "1"], check=True, capture_output=True)
        return numpy.fromfile(video, dtype="<u2").reshape(-1, peer.HEIGHT * peer.WIDTH)

    def sound(self, cart, script, frames):
        """The line of the sound, by another program."""
        if not self.words.snes:
            return None
        audio = os.path.join(self.folder, "sound")
        name = os.path.join(self.folder, "script")
        with open(name, "w", encoding="ascii") as file:
            file.write("".join(line + "\n" for line in script))
        subprocess.run([self.words.snes, "serial", "--cart", cart, "--boot", self.words.boot, "--table", self.words.table,
                        "--script", name, "--frames", str(frames), "--video", "/dev/null", "--audio", audio],
                       check=True, capture_output=True)
        with open(audio, "rb") as file:
            data = file.read()
        return f"sound of {len(data) // 4} samples: {hashed(data):016x}"


def follow(words, folder):
    """The lines that the rows print."""
    films, out = Films(words, folder), []
    hello, cart, script, kept = bytearray(0x8000), None, [], None
    known = {}

    def film(frames):
        key = (cart, tuple(script), frames)
        if key not in known:
            known[key] = films.film(cart, script, frames)
        return known[key]

    for name in ("hello.txt", "games.txt", "pads.txt"):
        with open(os.path.join(words.crate, "data", name), encoding="ascii") as lines:
            for line in lines.read().splitlines():
                fields = line.split()
                if not fields or line.startswith("#"):
                    continue
                if fields[0] == "put":
                    at, data = int(fields[1], 16), bytes.fromhex(fields[2])
                    hello[at:at + len(data)] = data
                elif fields[0] == "row":
                    script = []
                    out.append(line[4:])
                elif fields[0] == "cart":
                    cart = GAME
                    if fields[1] == "hello":
                        cart = os.path.join(folder, "hello.sfc")
                        with open(cart, "wb") as file:
                            file.write(hello)
                elif fields[0] == "script":
                    script.append(line[7:])
                elif fields[0] == "keep":
                    kept = film(int(fields[1]))
                elif fields[0] == "compare":
                    differ = numpy.nonzero((film(int(fields[1])) != kept).any(axis=1))[0]
                    out.append(f"the first frame that differs: {differ[0]}" if len(differ) else "no frame differs")
                elif fields[0] == "show":
                    frames = int(fields[2])
                    for number in fields[3:]:
                        out.append(f"frame {number}: {hashed(film(frames)[int(number)].tobytes()):016x}")
                    out.append(films.sound(cart, script, frames) or "sound")
    return out


def main():
    parser = argparse.ArgumentParser(description="follows rows of console_vectors in a libretro core")
    parser.add_argument("core")
    parser.add_argument("crate")
    for name in ("table", "boot", "snes"):
        parser.add_argument("--" + name)
    parser.add_argument("--write", action="store_true")
    words = parser.parse_args()
    with tempfile.TemporaryDirectory() as folder:
        lines = follow(words, folder)
    with open(os.path.join(words.crate, "stdout"), encoding="ascii") as file:
        stands, *others = parts_of(file.read().splitlines())
    if words.write and words.snes:
        with open(os.path.join(words.crate, "stdout"), "w", encoding="ascii") as file:
            file.write("".join(line + "\n" for part in (lines, *others) for line in part))
        stands = lines
    status = 0
    for number in range(max(len(lines), len(stands))):
        line, stand = ((text[number] if number < len(text) else "nothing") for text in (lines, stands))
        if line != stand and not (line == "sound" and stand.startswith("sound of ")):
            print(f"line {number + 1}: {line}, but stdout has: {stand}")
            status = 1
    print(f"{len(lines)} lines, {'all agree' if status == 0 else 'some differ'}")
    sys.exit(status)


if __name__ == "__main__":
    main()
