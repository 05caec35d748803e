#!/usr/bin/env python3
"""Whether `snes rewind` writes what `snes serial` writes for the scripts of a plan's paths, for plans at random.

    tools/evidence/try_plans.py SNES [FROM TO]

SNES is the program. Each number from FROM to before TO (0 and 100) makes a cartridge (`snes make`), a boot ROM, a table, and
a plan: a region or none, goes with pads, save states, returns and resets. For each path that a go leads to, `serial` plays a
script of version 2 with the same pads and resets. The go has to write the frames behind those of the path before it, and the
samples likewise. The numbers in the status line have to be those of all goes. So no byte of `rewind` is compared with itself.

Each number also spoils its plan by one line that has to be refused, at a place at random: the status line has to name that
line. The status is 1 where anything differs.
"""
import os
import random
import subprocess
import sys
import tempfile

PICTURE = 2 * 512 * 239
GO, KEEP, BACK, RESET = range(4)


class Path:
    """What was played from the start: lines of a script, how many frames they last, and the frame of the last reset."""

    def __init__(self, lines=(), frames=0, last=0):
        self.lines, self.frames, self.last = tuple(lines), frames, last

    def gone(self, count, pads):
        return Path((*self.lines, f"{count} {pads}"), self.frames + count, self.last)

    def pressed(self):
        return Path((*self.lines, "reset"), self.frames, self.frames)

    def may_press(self):
        return self.last < self.frames


def steps_at_random(r):
    """The lines of a plan, and for each go the path before it and the path after it."""
    path, held, lines, goes = Path(), {}, [], []
    for _ in range(r.randrange(4, 14)):
        kind = r.choice([GO, GO, GO, KEEP, BACK, RESET, RESET])
        if kind == GO:
            count, pads = r.choice([0, 1, 1, 1, 2, 3]), f"{r.randrange(65536):04x} {r.randrange(65536):04X}"
            lines.append(f"go {count} {pads}")
            goes.append((path, path := path.gone(count, pads)))
        elif kind == KEEP:
            slot = r.randrange(8)
            lines.append(f"keep {slot}")
            held[slot] = path
        elif kind == BACK and held:
            slot = r.choice(list(held))
            lines.append(f"back  {slot}")
            path = held[slot]
        elif kind == RESET and path.may_press():
            lines.append("reset")
            path = path.pressed()
    return lines, goes


def refused_line(r, lines):
    """The lines with one that has to be refused, and its number. Only lines before it are looked at."""
    at = r.randrange(len(lines) + 1)
    before = [it for it in lines[:at] if it]
    path, held = Path(), {}
    for line in before:
        words = line.split()
        if words[0] == "go":
            path = path.gone(int(words[1]), "")
        elif words[0] == "keep":
            held[words[1]] = path
        elif words[0] == "back":
            path = held[words[1]]
        elif words[0] == "reset":
            path = path.pressed()
    wrong = ["reset ", "Reset", "region", "region PAL", "go 1 0000", "go 36001 0000 0000", "keep 8", "back", "version 2 pal", "1 0000 0000"]
    if before:
        wrong += ["region pal", "region ntsc"]
    if not path.may_press():
        wrong += ["reset"] * 4
    lacking = [slot for slot in "01234567" if slot not in held]
    if lacking:
        wrong.append(f"back {r.choice(lacking)}")
    return [*lines[:at], r.choice(wrong), *lines[at:]], at + 1


class Trial:
    def __init__(self, snes, work, number):
        self.snes, self.work, self.r, self.number = snes, work, random.Random(number), number
        self.files = {name: os.path.join(work, name) for name in ("cart", "boot", "table", "plan", "script", "video", "audio")}
        self.call("make", str(number), "--out", self.files["cart"])
        self.write("boot", self.r.choice([bytes([0xEF]) * 64, self.r.randbytes(62) + b"\xC0\xFF"]))
        self.write("table", b"".join(self.r.randrange(2048).to_bytes(2, "little") for _ in range(512)))

    def write(self, name, data):
        with open(self.files[name], "wb") as file:
            file.write(data)

    def read(self, name):
        with open(self.files[name], "rb") as file:
            return file.read()

    def call(self, *words):
        done = subprocess.run([self.snes, *words], stdin=subprocess.DEVNULL, capture_output=True)
        return done.returncode, done.stdout.decode()

    def rewind(self, lines):
        self.write("plan", "".join(f"{line}\n" for line in lines).encode())
        words = [f"--{name}" if at == 0 else self.files[name] for name in ("cart", "boot", "table", "plan", "video", "audio") for at in (0, 1)]
        return self.call("rewind", *words)

    def serial(self, path, region):
        """What a run of the path's script writes."""
        self.write("script", "\n".join([f"version 2 {region}", *path.lines, ""]).encode())
        words = [f"--{name}" if at == 0 else self.files[name] for name in ("cart", "boot", "table", "script", "video", "audio") for at in (0, 1)]
        status, said = self.call("serial", *words, "--frames", str(path.frames))
        if status != 0:
            raise AssertionError(f"serial ended with {status}: {said}")
        return self.read("video"), self.read("audio")

    def fault(self):
        """What is wrong with a plan's bytes, or none."""
        lines, goes = steps_at_random(self.r)
        self.has_reset = "reset" in lines
        region = self.r.choice(["ntsc", "pal"])
        first = [f"region {region}"] if region == "pal" or self.r.randrange(2) else []
        first = [""] * self.r.randrange(2) + first
        status, said = self.rewind([*first, *lines])
        if status != 0:
            return f"status {status}: {said.strip()}"
        video, audio = self.read("video"), self.read("audio")
        runs, wanted_video, wanted_audio, frames = {}, b"", b"", 0
        for before, after in goes:
            for path in (before, after):
                if path.lines not in runs:
                    runs[path.lines] = self.serial(path, region)
            (old_video, old_audio), (new_video, new_audio) = runs[before.lines], runs[after.lines]
            if not new_video.startswith(old_video) or not new_audio.startswith(old_audio):
                return f"the run of {after.lines} does not begin as that of {before.lines}"
            wanted_video += new_video[len(old_video):]
            wanted_audio += new_audio[len(old_audio):]
            frames += after.frames - before.frames
        if said != f"frames {frames} samples {len(wanted_audio) // 4}\n":
            return f"the line is {said!r}"
        if len(wanted_video) != PICTURE * frames or video != wanted_video:
            return "the video differs"
        return None if audio == wanted_audio else "the audio differs"

    def refusal_fault(self):
        """What is wrong with the refusal of a spoiled plan, or none."""
        lines, _ = steps_at_random(self.r)
        first = [["region pal"], []][self.r.randrange(2)]
        spoiled, at = refused_line(self.r, [*first, *lines])
        status, said = self.rewind(spoiled)
        wanted = f"plan refused at line {at}\n"
        return None if (status, said) == (3, wanted) else f"{spoiled}: status {status}, {said!r} in place of {wanted!r}"


def main():
    if len(sys.argv) not in (2, 4):
        sys.exit(__doc__)
    snes = os.path.abspath(sys.argv[1])
    numbers = range(*map(int, sys.argv[2:])) if len(sys.argv) == 4 else range(100)
    faults = resets = 0
    for number in numbers:
        with tempfile.TemporaryDirectory() as work:
            trial = Trial(snes, work, number)
            for what, fault in (("plan", trial.fault()), ("refusal", trial.refusal_fault())):
                if fault:
                    faults += 1
                    print(f"{number}: {what}: {fault}")
            resets += trial.has_reset
    print(f"{len(numbers)} plans, {resets} of them with resets, and as many spoiled ones: {faults} faults")
    sys.exit(1 if faults else 0)


if __name__ == "__main__":
    main()
