#!/usr/bin/env python3
"""Makes music out of cartridges as docs/use/SPC-FILES.md tells a user to, and compares what comes out with another player's.

    tools/evidence/try_music.py [--snes PROGRAM] [--look PROGRAM] [--scene PROGRAM] [--count N] [--first N] [--seconds N] [--long N]

The commands are read from the page, below "A cartridge's music", and are run by a shell: for the game, for the scene, and for N (50) cartridges
with a tune at random (tunes.py). Of these the files have --seconds (6) instead of two minutes, and each has tags of its own; --long is for the
game and the scene. Of every cartridge it is tried that

- the WAVs have the length that was asked for, by Python's reader, by `file` and by ffprobe, and `file` and ffprobe read the sound file and the
  tags as they were given;
- all nine parts together are the ordinary output, byte for byte; the nine stems add up to it, but for what each rounds down, where nothing clamps;
- the fade is a product, rounded down; before it the sound is the same.

Of the tunes at random, of which tunes.py knows what sounds when, it is also tried that

- each voice's stem is byte for byte what `play` gives for a file in which all other volumes are 0, and the eight voices without the echo
  what it gives for a file without the echo's volume;
- ffmpeg (libgme) plays each voice, by such files, when the stem has it, as loud, and at the same pitch.

libgme has a gain of 1.4 (358 of 256); the same is done to ours before levels are compared. It leaves out silence in front, so a voice is shifted to
its first sound. Windows have 20 milliseconds; the level of one has to be that of ours at most 5 milliseconds away, but for one window in a
thousand. Noise is compared as a whole, since its numbers differ. docs/lab/LAST-RUNS.md says which rules make the rest of the difference. What needs ffmpeg, ffprobe or `file` is left out where these are not there.
Last, ./stems takes the length of the tags, refuses what it can't take, and keeps what it has if the disk is full. The status is 1 if something
failed.
"""
import argparse
import cmath
import json
import math
import os
import re
import shlex
import shutil
import subprocess
import sys
import tempfile
import wave
from array import array
from itertools import accumulate
from operator import sub

from tunes import tune_of

TOP = os.path.dirname(os.path.dirname(os.path.dirname(os.path.realpath(__file__))))
PAGE = os.path.join(TOP, "docs/use/SPC-FILES.md")
RATE, WINDOW, MOVED = 32000, 640, 160
GAIN = 358
PARTS = [f"voice{v}" for v in range(8)] + ["echo"]
HAS = {name: shutil.which(name) is not None for name in ("ffmpeg", "ffprobe", "file")}
faults = []


def check(what, holds):
    if not holds:
        faults.append(what)
        print(f"FAILED  {what}", flush=True)


def read(path):
    with open(path, "rb") as file:
        return file.read()


def written(path, data):
    with open(path, "wb") as file:
        file.write(data)
    return path


def said(*words):
    done = subprocess.run(words, capture_output=True, text=True)
    return done.stdout if done.returncode == 0 else f"status {done.returncode}: {done.stderr}"


def commands():
    """The lines of code of the page's section, joined where they are continued."""
    section = re.search(r"^## A cartridge's music\n(.*?)^## ", read(PAGE).decode(), re.M | re.S)[1]
    lines = "\n".join(line[4:] for line in section.split("\n") if line.startswith("    "))
    return [line for line in lines.replace("\\\n", " ").split("\n") if line.strip()]


def numbers(data):
    out = array("h")
    out.frombytes(data)
    if sys.byteorder == "big":
        out.byteswap()
    return out


class Programs:
    def __init__(self, words):
        self.paths = {name: os.path.realpath(getattr(words, name)) for name in ("snes", "look", "scene")}

    def put(self, folder):
        """./snes, ./look, ./scene and ./stems of a folder, as the repository has them."""
        for name, path in self.paths.items():
            os.symlink(path, os.path.join(folder, name))
        text = f'#!/bin/sh\nexec {TOP}/tools/stems.sh {self.paths["snes"]} {self.paths["look"]} {self.paths["scene"]} "$@"\n'
        os.chmod(written(os.path.join(folder, "stems"), text.encode()), 0o755)

    def play(self, file, samples, *more):
        """What `play` writes of the bytes of a sound file."""
        written("now.spc", file)
        done = subprocess.run([self.paths["snes"], "play", "--spc", "now.spc", "--table", "out/table.bin", "--samples", str(samples), *more, "--audio", "now.raw"], capture_output=True, text=True)
        if done.returncode:
            sys.exit(f"play {' '.join(more)}: {done.stdout}{done.stderr}")
        return read("now.raw")


# The files as others read them.


def wav_of(path, samples):
    """The samples of a WAV, after its length was compared by three readers."""
    with wave.open(path) as sound:
        shape, data = (sound.getframerate(), sound.getnchannels(), sound.getsampwidth(), sound.getnframes()), sound.readframes(sound.getnframes())
    check(f"{path}: shape {shape}", shape == (RATE, 2, 2, samples))
    if HAS["file"]:
        check(f"{path}: file", said("file", "-b", path).strip() == "RIFF (little-endian) data, WAVE audio, Microsoft PCM, 16 bit, stereo 32000 Hz")
    if HAS["ffprobe"]:
        probed = json.loads(said("ffprobe", "-v", "error", "-show_entries", "format=format_name,duration", "-of", "json", path))["format"]
        check(f"{path}: ffprobe {probed}", probed["format_name"] == "wav" and abs(float(probed["duration"]) - samples / RATE) < 1e-5)
    return data


def check_tags(path, tags):
    """The tags of a sound file as ffprobe (libgme), file and look read them."""
    if HAS["ffprobe"]:
        probed = json.loads(said("ffprobe", "-v", "error", "-show_entries", "format", "-of", "json", path))["format"]
        check(f"{path}: format {probed['format_name']}", probed["format_name"] == "libgme")
        theirs = {"song": "title", "game": "game", "author": "artist", "comment": "comment"}
        read_there = {theirs[name]: value for name, value in probed["tags"].items() if name in theirs}
        wanted = {name: tags[name] for name in theirs.values()}
        check(f"{path}: ffprobe has {read_there}, not {wanted}", read_there == wanted)
        check(f"{path}: ffprobe's length {probed['duration']}", float(probed["duration"]) == int(tags["length"]))
    if HAS["file"]:
        described = said("file", "-b", path).strip()
        wanted = f'SNES SPC700 sound file, version 0.30, with ID666 tag, song "{tags["title"]}", game "{tags["game"]}"'
        check(f"{path}: file says {described}, not {wanted}", described == wanted)
    check(f"{path}: look tags", said("./look", "tags", path) == "header: text\n" + "".join(f"{name}: {value}\n" for name, value in tags.items()).replace("\\", "\\\\"))


# The laws of the stems.


def check_sums(name, output, stems, main):
    """The nine stems add up to the output but for their rounding, wherever the sum of their sizes leaves no doubt that nothing clamps."""
    all_samples = [numbers(it) for it in stems]
    most = 32000 * min(main, 127) // 128
    sizes = map(sum, zip(*[map(abs, it) for it in all_samples]))
    apart = map(sub, numbers(output), map(sum, zip(*all_samples)))
    tried, worst, least = 0, 0, 0
    for size, difference in zip(sizes, apart):
        if size < most:
            tried += 1
            worst, least = max(worst, difference), min(least, difference)
    check(f"{name}: the stems' sum differs by {least} to {worst}", 0 <= least and worst <= 8)
    return tried, worst


def check_fade(name, sound, plain, milliseconds):
    """The last samples of a sound that fades, by the plain one."""
    fade, count = 32 * milliseconds, len(plain) // 4
    check(f"{name}: before the fade", sound[:4 * (count - fade)] == plain[:4 * (count - fade)])
    left = [65536 * (count - k) // fade for k in range(count - fade, count)]
    old, new = numbers(plain[4 * (count - fade):]), numbers(sound[4 * (count - fade):])
    check(f"{name}: in the fade", all(new[n] == old[n] * left[n // 2] >> 16 for n in range(len(old))))


# Beside libgme.


def by_libgme(file, samples):
    """The left side by ffmpeg. At 32,000 a second libgme does not convert its samples."""
    written("theirs.spc", file)
    words = ["ffmpeg", "-nostdin", "-v", "error", "-sample_rate", str(RATE), "-i", "theirs.spc", "-t", str(samples / RATE), "-f", "s16le", "-"]
    return numbers(subprocess.run(words, capture_output=True, check=True).stdout)[::2]


def as_libgme(samples):
    """Ours, with its gain."""
    return array("h", (max(-32768, min(32767, it * GAIN >> 8)) for it in samples))


def first_sound(samples):
    return next((n for n, it in enumerate(samples) if abs(it) > 3), None)


def level(samples):
    return math.sqrt(sum(it * it for it in samples) / max(1, len(samples)))


def levels_of(samples):
    """The level of the window that begins at a sample."""
    sums = list(accumulate((it * it for it in samples), initial=0))
    return lambda at: math.sqrt((sums[at + WINDOW] - sums[at]) / WINDOW)


def shift_of(ours, theirs):
    """How far theirs is shifted: by the first sound, and then by the best correlation near it."""
    a, b = first_sound(ours), first_sound(theirs)
    if a is None or b is None:
        return None
    found = []
    piece = ours[a + 40:a + 2040]
    for shift in range(b - a - 40, b - a + 41):
        if a + 40 + shift < 0:
            continue
        other = theirs[a + 40 + shift:a + 2040 + shift]
        found.append((sum(map(int.__mul__, piece, other)), -abs(shift - b + a), shift))
    return max(found)[2]


def spectrum(samples):
    """A Fourier transform of 4,096 numbers or fewer, a power of two."""
    count = len(samples)
    if count == 1:
        return list(samples)
    even, odd = spectrum(samples[::2]), spectrum(samples[1::2])
    turned = [cmath.exp(-2j * math.pi * k / count) * it for k, it in enumerate(odd)]
    return [a + b for a, b in zip(even, turned)] + [a - b for a, b in zip(even, turned)]


def pitch_of(samples, near):
    """The frequency of the highest peak from half to one and a half of a frequency: by a parabola through the logarithms."""
    count = len(samples)
    bins = spectrum([it * (0.5 - 0.5 * math.cos(2 * math.pi * n / count)) for n, it in enumerate(samples)])
    sizes = [abs(it) + 1e-9 for it in bins[:count // 2]]
    low, high = max(1, int(near * 0.5 * count / RATE)), min(count // 2 - 2, int(near * 1.5 * count / RATE) + 1)
    at = max(range(low, high + 1), key=lambda k: sizes[k])
    a, b, c = (math.log(sizes[k]) for k in (at - 1, at, at + 1))
    return (at + 0.5 * (a - c) / (a - 2 * b + c)) * RATE / count if a - 2 * b + c else at * RATE / count


class Comparison:
    """What was found beside libgme, over all tunes."""

    def __init__(self):
        self.windows = self.moved = self.voices = self.pitches = 0
        self.levels, self.noises, self.cents, self.of_note, self.apart = [], [], [], [], []

    def add(self, name, tune, voice, elapsed, ours, theirs):
        """Compares a voice alone: windows by level, and notes by pitch."""
        ours = as_libgme(ours)
        shift = shift_of(ours, theirs)
        check(f"{name}: voice {voice} sounds in one player only", (first_sound(ours) is None) == (first_sound(theirs) is None))
        if shift is None:
            return
        self.voices += 1
        first = max(0, -shift)
        last = min(len(ours), len(theirs) - shift)
        theirs = theirs[first + shift:last + shift]
        ours = ours[first:last]
        if voice in tune.noise:
            self.noises.append(20 * math.log10(level(theirs) / level(ours)))
            return
        squares, others = levels_of(ours), levels_of(theirs)
        for at in range(MOVED, len(ours) - WINDOW - MOVED, WINDOW):
            a, b = squares(at), others(at)
            near = [squares(at + moved) for moved in range(-MOVED, MOVED + 1, 4)]
            self.windows += 1
            held = 0.97 * min(near) - 3 <= b <= 1.03 * max(near) + 3
            self.moved += held
            if not held:
                self.apart.append((name, voice, (at + first) / RATE, a, b))
            if a >= 30 and b >= 30:
                self.levels.append(20 * math.log10(b / a))
        if voice not in tune.modulated:
            self.add_pitches(tune.tones(voice, elapsed, last), ours, theirs, first)

    def add_pitches(self, tones, ours, theirs, first):
        for begin, end, frequency in tones:
            begin, end = begin - first, end - first
            middle = begin + 600
            if begin < 0 or middle + 4096 > min(end, len(ours)) or min(level(ours[middle:middle + 4096]), level(theirs[middle:middle + 4096])) < 30:
                continue
            a, b = pitch_of(ours[middle:middle + 4096], frequency), pitch_of(theirs[middle:middle + 4096], frequency)
            self.pitches += 1
            self.cents.append(abs(1200 * math.log2(b / a)))
            self.of_note.append(abs(1200 * math.log2(a / frequency)))

    def report(self):
        """What libgme does otherwise."""
        levels, cents, of_note = sorted(map(abs, self.levels)), sorted(self.cents), sorted(self.of_note)
        if not levels:
            return
        at = lambda them, share: them[min(len(them) - 1, int(share * len(them)))]
        print(f"libgme: {self.voices} voices, {self.windows} windows, {self.windows - self.moved} of which are not within 3 % of ours at most {MOVED} samples away")
        for one in self.apart[:20]:
            print("        %s, voice %d at %.2f s: ours %.0f, libgme's %.0f" % one)
        check("libgme: more than one window in a thousand", 1000 * (self.windows - self.moved) <= self.windows)
        print(f"libgme: levels apart, in dB: half of {len(levels)} windows to {at(levels, 0.5):.3f}, 99 % to {at(levels, 0.99):.3f}, the last {levels[-1]:.2f}")
        if self.noises:
            check("libgme: noise", max(map(abs, self.noises)) < 0.5)
            print(f"libgme: whole levels of {len(self.noises)} voices of noise apart, in dB: to {max(map(abs, self.noises)):.2f}")
        if cents:
            check("libgme: pitches", cents[-1] < 1 and of_note[-1] < 5)
            print(f"libgme: pitches apart, in cents: half of {len(cents)} notes to {at(cents, 0.5):.2f}, the last {cents[-1]:.2f}; ours from the note's, the last {of_note[-1]:.2f}")


# The cartridges.


class Music:
    """A cartridge, and what its commands on the page make: in the current folder."""

    def __init__(self, programs, name, cart, seconds, frames, tags):
        self.programs, self.name, self.cart, self.seconds, self.frames, self.tags = programs, name, cart, seconds, frames, tags
        self.fade = min(10000, 400 * seconds)
        self.samples = RATE * seconds

    def follow_the_page(self):
        """Runs the page's commands for this cartridge."""
        for line in commands():
            if line == "./scene out" and os.path.isdir("out"):
                continue
            line = line.replace("out/game.sfc", self.cart).replace("--frames 600", f"--frames {self.frames}")
            line = line.replace("--seconds 120", f"--seconds {self.seconds}").replace("--frames 7212", f"--frames {math.ceil(self.seconds * 60.0988)}")
            if line.startswith("./snes spc"):
                for tag, value in self.tags.items():
                    line = re.sub(rf"--{tag} ('[^']*'|\S+)", lambda _: f"--{tag} {shlex.quote(value)}", line)
            else:
                line = line.replace("--fade 10000", f"--fade {self.fade}")
            done = subprocess.run(["bash", "-c", line], capture_output=True, text=True)
            if done.returncode:
                sys.exit(f"{self.name}: {line}: status {done.returncode}, {done.stdout}{done.stderr}")
            if line.startswith("./stems") and "--mix" not in line:
                self.told = done.stdout

    def look_at_it(self):
        """Everything that holds of any cartridge. Returns how many samples the stems were added up of, and the largest difference."""
        self.file = read("tune.spc")
        check_tags("tune.spc", self.tags)
        play = lambda *more: self.programs.play(self.file, self.samples, *more)
        wav_of("run.wav", len(read("run.raw")) // 4)
        self.plain = play()
        self.stems = [wav_of(f"music/{part}.wav", self.samples) for part in PARTS]
        sounds = [f"{part}.wav {'sound' if any(it) else 'silence'}\n" for part, it in zip(PARTS, self.stems)]
        check(f"{self.name}: what stems prints", self.told == "".join(sounds))
        check(f"{self.name}: all nine parts", play("--voices", "0,1,2,3,4,5,6,7,echo") == self.plain)
        check_fade(self.name, wav_of("music/mix.wav", self.samples), self.plain, self.fade)
        mains = [abs(it - 256 * (it > 127)) for it in (self.file[0x1010C], self.file[0x1011C])]
        return check_sums(self.name, self.plain, self.stems, min(mains))

    def compare_voices(self, tune, comparison):
        """What tunes.py knows of it: each voice beside a file that has it alone, and that file beside libgme."""
        tune.cart()
        elapsed = tune.elapsed(self.file)
        for voice in range(8):
            alone = tune.alone(self.file, {voice})
            stem = self.stems[voice]
            check(f"{self.name}: voice {voice} alone", self.programs.play(alone, self.samples) == stem)
            if voice in tune.voices and HAS["ffmpeg"]:
                comparison.add(self.name, tune, voice, elapsed, numbers(stem)[::2], by_libgme(alone, self.samples))
        dry = self.programs.play(tune.alone(self.file, set(range(8))), self.samples)
        check(f"{self.name}: without the echo", self.programs.play(self.file, self.samples, "--voices", "0,1,2,3,4,5,6,7") == dry)


def try_stems(music):
    """The length of the tags, arguments that are refused, and a full disk."""
    short = written("short.spc", music.file[:0xA9] + b"00100500" + music.file[0xB1:])
    bare = written("bare.spc", music.file[:0x23] + b"\x1b" + music.file[0x24:])
    stems = lambda words, limit="unlimited": subprocess.run(["bash", "-c", f"ulimit -f {limit} && ./stems {words}"], capture_output=True, text=True)
    for words, samples in ((f"--mix {short} out", 48000), (f"--mix --fade 250 {short} out", 40000), (f"--mix {bare} out", 3840000), (f"--mix --seconds 2 {short} out", 64000)):
        check(f"stems {words}: its line", stems(words).stdout == "mix.wav sound\n")
        wav_of("out/mix.wav", samples)
    kept = read("out/mix.wav")
    long = written("long.spc", music.file[:0xA9] + b"60000001" + music.file[0xB1:])
    for words, about in (
        (f"{short}", "a sound file and a folder"), (f"--seconds 1 {short} out more", "a sound file and a folder"), (f"--seconds x {short} out", "--seconds"),
        (f"--seconds 601 {short} out", "at most 600"), (f"{long} out", "at most 600"), (f"--nothing {short} out", "--nothing"), ("--seconds 1 none.spc out", "none.spc"),
        ("--seconds 1 out/table.bin out", "table.bin"), (f"--seconds 1 --mix {short} {short}", short), (f"--seconds 1 --mix --table {short} {short} out", "table refused"),
        ("--seconds 1 --mix out/mix.wav out", "mix.wav"),
    ):
        done = stems(words)
        check(f"stems {words}: {done.returncode}, {done.stderr}", done.returncode == 2 and not done.stdout and about in done.stderr)
    done = stems(f"--seconds 2 {short} out", 200)
    check(f"stems on a full disk: {done.returncode}, {done.stderr}", done.returncode == 2 and "cannot write" in done.stderr and not done.stdout)
    done = stems(f"--seconds 2 --mix {short} out >/dev/full")
    check(f"stems to a full device: {done.returncode}, {done.stderr}", done.returncode == 2 and "standard output" in done.stderr)
    check("stems: what was there is kept, and nothing else", read("out/mix.wav") == kept and not [it for it in os.listdir("out") if it.startswith((".stems", "voice"))])


def random_tags(r):
    text = lambda most=32: "".join(chr(r.randrange(0x21, 0x7F)) for _ in range(r.choice([1, 8, 20, most])))
    # Of an artist of 32 bytes libgme leaves out the last.
    return {"title": text(), "game": text(), "artist": text(31), "comment": text(), "length": str(r.randrange(1, 1000)), "fade": str(r.randrange(1, 100000))}


def main():
    words = argparse.ArgumentParser(description=__doc__.split("\n")[0])
    for name, crate in (("snes", "snes_run"), ("look", "frame_look"), ("scene", "scene_cart")):
        words.add_argument(f"--{name}", default=os.path.join(TOP, f"crates/{crate}/out/{crate}"))
    for name, value in (("count", 50), ("first", 0), ("seconds", 6), ("long", 120)):
        words.add_argument(f"--{name}", type=int, default=value)
    words = words.parse_args()
    programs, comparison, samples, worst = Programs(words), Comparison(), 0, 0
    with tempfile.TemporaryDirectory() as folder:
        os.chdir(folder)
        programs.put(".")
        of_page = {"title": "The title", "game": "The game", "artist": "Somebody", "comment": "taken after 600 frames", "length": "110", "fade": "10000"}
        for name in ("game", "scene"):
            music = Music(programs, name, f"out/{name}.sfc", words.long, 600, of_page)
            music.follow_the_page()
            tried, apart = music.look_at_it()
            samples, worst = samples + tried, max(worst, apart)
        try_stems(music)
        for number in range(words.first, words.first + words.count):
            tune = tune_of(number)
            written("tune.sfc", tune.cart())
            music = Music(programs, f"tune {number}", "tune.sfc", words.seconds, tune.r.randrange(60, 200), random_tags(tune.r))
            music.follow_the_page()
            tried, apart = music.look_at_it()
            check(f"tune {number}: sound", any(music.plain))
            samples, worst = samples + tried, max(worst, apart)
            music.compare_voices(tune, comparison)
        os.chdir("/")
    comparison.report()
    print(f"{samples} numbers are the sums of nine stems but for 0 to {worst}")
    print(f"{words.count + 2} cartridges, {len(faults)} failed")
    sys.exit(bool(faults))


if __name__ == "__main__":
    main()
