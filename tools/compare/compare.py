#!/usr/bin/env python3
"""Compares two films, and the spectra of their sounds.

  compare.py VIDEO OTHER --frames 60,300,600 [--later N] [--rows 224] [--audio A B [--rates R S]] [--from SECOND]

Frame f of VIDEO is compared with frame f + N of OTHER, in the first 224 rows; --later any looks for N. Sounds are raw
pairs of 16 bits; R and S are their samples a second (32000 and 32040.5). Of both the level is printed and the ten
highest peaks of the spectrum over eight seconds. The status is 0 if all these frames are alike. Needs numpy.
"""
import argparse
import sys

import numpy

WIDTH, HEIGHT = 512, 239


def frame(path, number, rows):
    count = WIDTH * HEIGHT
    with open(path, "rb") as file:
        file.seek(2 * count * number)
        dots = numpy.frombuffer(file.read(2 * count), dtype="<u2")
    if len(dots) < count:
        sys.exit(f"compare: {path} has no frame {number}")
    return dots.reshape(HEIGHT, WIDTH)[:rows]


def found_offset(words, wanted):
    for later in sorted(range(-12, 13), key=abs):
        if all(number + later >= 0 and not (frame(words.video, number, words.rows)
               != frame(words.other, number + later, words.rows)).any() for number in wanted):
            return later
    return None


def spectrum(path, rate, begin):
    """Level, and the highest peaks in Hz with their levels, over eight seconds."""
    pairs = numpy.fromfile(path, dtype="<i2").reshape(-1, 2).astype(float)
    part = pairs[int(begin * rate):int((begin + 8) * rate)].mean(axis=1)
    level = numpy.sqrt((part ** 2).mean())
    size = 1 << 20
    lines = numpy.abs(numpy.fft.rfft(part * numpy.hanning(len(part)), size)) * 2 / len(part)
    peaks = []
    rest = lines.copy()
    while len(peaks) < 10:
        top = int(rest.argmax())
        peaks.append((top * rate / size, lines[top]))
        near = int(8 * size / rate)
        rest[max(0, top - near):top + near] = 0
    return level, sorted(peaks)


def main():
    parser = argparse.ArgumentParser(description="compares two films and their sounds")
    parser.add_argument("video")
    parser.add_argument("other")
    parser.add_argument("--frames", default="60,300,600")
    parser.add_argument("--later", default="any")
    parser.add_argument("--rows", type=int, default=224)
    parser.add_argument("--audio", nargs=2)
    parser.add_argument("--rates", nargs=2, type=float, default=(32000, 32040.5))
    parser.add_argument("--from", dest="begin", type=float, default=1)
    words = parser.parse_args()
    wanted = [int(number) for number in words.frames.split(",")]
    later = found_offset(words, wanted) if words.later == "any" else int(words.later)
    alike = later is not None
    if not alike:
        print("no offset from -12 to 12 makes them alike; these are for 0")
    for number in wanted:
        ours, theirs = (frame(words.video, number, words.rows), frame(words.other, number + (later or 0), words.rows))
        differ = int((ours != theirs).sum())
        alike = alike and differ == 0
        print(f"frame {number} and {number + (later or 0)}: {differ} of {ours.size} dots differ, "
              f"{len(numpy.unique(ours))} colours")
    if words.audio:
        for path, rate in zip(words.audio, words.rates):
            level, peaks = spectrum(path, rate, words.begin)
            print(f"{path}: level {level:.0f}; " + ", ".join(f"{hertz:.1f} Hz {size:.0f}" for hertz, size in peaks))
    sys.exit(0 if alike else 1)


if __name__ == "__main__":
    main()
