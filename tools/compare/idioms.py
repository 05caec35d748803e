#!/usr/bin/env python3
"""Runs the cartridges of examples/profiles in another emulator, a libretro core, and compares what both profiles show.

  idioms.py CORE FOLDER [--snes PROGRAM] [--write CRATE]

FOLDER has what ./scene --idioms writes. PROGRAM has ./snes' command line. For each cartridge and frame a line says how
many of the 114,688 half-pixels of the 224 rows differ: between the core, both profiles of the program, and the pictures
that idiom_pictures.py draws by the rules of each profile. Then come the lengths of the sounds of oneshot.sfc.

With --write the rows of crates/console_vectors/data/idioms.txt are written, and what they print: for the second profile with
the sums of the core's frames, for the first with those of the drawn pictures. It needs numpy. The status is 1 if one of these differs: the core's frame or that of the
second profile from the drawn one, the first profile's from its drawn one.
"""
import argparse
import hashlib
import os
import subprocess
import sys
import tempfile

import numpy

import idiom_pictures
import peer
from game_rows import IDIOMS, parts_of

HERE = os.path.dirname(os.path.abspath(__file__))
# The frames of each cartridge that are compared: those in which its result is shown.
FRAMES = {
    "autoread": (40,), "flips": (30, 60), "lineirq": (120,), "hires": (20, 50, 80, 110), "region": (20,),
    "field": (60, 61), "vram": (20,), "keyon": (40,), "keyoff": (50,), "oneshot": (70,), "latch": (20,),
}
ROWS = 224
ROWS_HEAD = f"""# The SHA-256 of frames of the cartridges of examples/profiles, written by tools/compare/idioms.py.
#
# The pictures of the second profile are those of another emulator (bsnes-mercury, its accuracy core). Those of the
# first are drawn by the rules, from the font and the table of objects (tools/compare/idiom_pictures.py).
row {IDIOMS}
"""
SOUNDS = """
# The sounds of oneshot, in samples. Two or three tries come first; their lengths are not worked out by hand. Then a
# sample of eight blocks is played, with k = 1, 2 and 4 samples for each decoded one. All 128 decoded samples are heard
# in the first profile, 112 in the second. Of k * n samples k + 1 are zero, at the beginning and at the end.
"""
LENGTHS = {"first": ("75", "59", "276", "126", "253", "507"), "second": ("59", "276", "110", "221", "443")}


def count_of(one, other):
    """How many half-pixels differ."""
    return int((one[:ROWS] != other[:ROWS]).sum())


def frames_of(video):
    return numpy.fromfile(video, dtype="<u2").reshape(-1, peer.HEIGHT, peer.WIDTH)


def sounds_of(audio):
    """Where sounds begin and how long they are: stretches of samples that are not zero, 64 zeros apart or more."""
    heard = numpy.flatnonzero((numpy.fromfile(audio, dtype="<i2").reshape(-1, 2) != 0).any(axis=1))
    if not len(heard):
        return []
    breaks = numpy.flatnonzero(numpy.diff(heard) > 64)
    begins, ends = heard[numpy.concatenate(([0], breaks + 1))], heard[numpy.concatenate((breaks, [-1]))]
    return [(int(begin), int(end - begin + 1)) for begin, end in zip(begins, ends)]


class Runs:
    """Runs cartridges, each in a process of its own."""

    def __init__(self, words, folder):
        self.words, self.folder = words, folder

    def core(self, name, count):
        script, video, audio = (os.path.join(self.folder, end) for end in ("script", "video", "audio"))
        with open(os.path.join(self.words.folder, f"{name}.first.txt"), encoding="ascii") as first, \
                open(script, "w", encoding="ascii") as file:
            file.write("".join(line for line in first if not line.startswith("version")))
        cart = os.path.join(self.words.folder, f"{name}.sfc")
        program = [sys.executable, os.path.join(HERE, "peer.py"), self.words.core]
        subprocess.run([*program, cart, script, str(count), video, audio], check=True, capture_output=True)
        return frames_of(video), sounds_of(audio)

    def ours(self, name, count, profile):
        video, audio = (os.path.join(self.folder, end) for end in ("video", "audio"))
        files = {"cart": f"{name}.sfc", "boot": "boot.bin", "table": "table.bin", "script": f"{name}.{profile}.txt"}
        call = [self.words.snes, "serial", "--frames", str(count), "--video", video, "--audio", audio]
        for kind, file in files.items():
            call += [f"--{kind}", os.path.join(self.words.folder, file)]
        subprocess.run(call, check=True, capture_output=True)
        return frames_of(video), sounds_of(audio)


def rows_of(sums):
    """The rows of crates/console_vectors: their lines, and what the program has to print."""
    lines, told = [ROWS_HEAD], [f"{IDIOMS}\n"]
    for profile, part in (("second", "the core's pictures"), ("first", "the drawn pictures")):
        lines.append(f"\n# The {profile} profile: {part}.\n")
        for name, number, total in sums[profile]:
            lines.append(f"frame {name} {profile} {number} {total}\n")
            told.append(f"{name}, {profile} profile, frame {number}: as in the row\n")
    lines.append(SOUNDS)
    for profile in ("second", "first"):
        lines.append(f"sounds oneshot {profile} 71 {' '.join(LENGTHS[profile])}\n")
        told.append(f"oneshot, {profile} profile, {len(LENGTHS[profile])} sounds: as in the row\n")
    return "".join(lines), "".join(told)


def main():
    parser = argparse.ArgumentParser(description="runs the cartridges of examples/profiles in a libretro core")
    parser.add_argument("core")
    parser.add_argument("folder")
    parser.add_argument("--snes")
    parser.add_argument("--write")
    words = parser.parse_args()
    status, sums, sounds = 0, {"first": [], "second": []}, []
    with tempfile.TemporaryDirectory() as folder:
        runs = Runs(words, folder)
        for name, numbers in FRAMES.items():
            count = max(numbers) + 1
            core, heard = runs.core(name, count)
            ours = {profile: runs.ours(name, count, profile) for profile in ("first", "second")} if words.snes else {}
            for number in numbers:
                drawn = {profile: idiom_pictures.expected(name, number, profile, core[number]) for profile in sums}
                differ = [("core from the drawn one", count_of(core[number], drawn["second"]), True)]
                for profile, (frames, _) in ours.items():
                    from_core = count_of(frames[number], core[number])
                    differ.append((f"{profile} from the core", from_core, profile == "second"))
                    differ.append((f"{profile} from the drawn one", count_of(frames[number], drawn[profile]), True))
                print(f"{name} frame {number}:", ", ".join(f"{who} {many}" for who, many, _ in differ))
                status |= any(many > 0 for _, many, counts in differ if counts)
                sums["second"].append((name, number, hashlib.sha256(core[number].tobytes()).hexdigest()))
                sums["first"].append((name, number, hashlib.sha256(drawn["first"].tobytes()).hexdigest()))
            if name == "oneshot":
                sounds = [("core", heard)] + [(profile, heard) for profile, (_, heard) in ours.items()]
    for who, heard in sounds:
        print(f"oneshot {who}:", " ".join(f"{length} samples at {begin}" for begin, length in heard))
    if words.write:
        rows, told = rows_of(sums)
        with open(os.path.join(words.write, "data/idioms.txt"), "w", encoding="ascii") as file:
            file.write(rows)
        with open(os.path.join(words.write, "stdout"), "r+", encoding="ascii") as file:
            games, _, jobs = parts_of(file.read().splitlines(keepends=True))
            file.seek(0)
            file.truncate()
            file.write("".join(games) + told + "".join(jobs))
    sys.exit(status)


if __name__ == "__main__":
    main()
