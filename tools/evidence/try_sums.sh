#!/usr/bin/env bash
# Compares the sums of random jobs with the recordings of another program, and checks those sums.
#
#   REFERENCE=PROGRAM FREE=FOLDER tools/evidence/try_sums.sh [COUNT [FIRST]]
#
# PROGRAM is a plain program with the command line of snes; it makes the recordings, and sha256sum their sums. FOLDER has what
# ./scene writes: the free boot ROM (boot.bin) and the free table (table.bin). The jobs are those of the numbers FIRST (0, if
# it isn't given) to FIRST + COUNT - 1 (COUNT is 200), as crates/wild_jobs makes them. SNES and WILD_JOBS name programs that are
# already built. For each job:
#
# - `sums` has to write the sums of the recordings, and to print the line of `serial`;
# - `sums` of the cartridge alone has to write those of a recording with the free files and an empty script;
# - `check` of that file has to print the line of `serial`, with status 0;
# - `check` has to name the frame and the column of a digit that is changed, the last line likewise, and a missing or a further
#   frame, with status 6;
# - `check` has to refuse a line in another form by its number, with status 3.
#
# No part of CI. The status is 1 if a job is not as it has to be.
top=$(cd "$(dirname "${BASH_SOURCE[0]}")/../.." && pwd) || exit 2
export SNES=${SNES:-$top/crates/snes_run/out/snes_run} WILD_JOBS=${WILD_JOBS:-$top/crates/wild_jobs/out/wild_jobs}
for program in "$SNES" "$WILD_JOBS" "${REFERENCE:-}"; do
  [ -x "$program" ] || { echo "try_sums: no program: ${program:-REFERENCE is not set}" >&2; exit 2; }
done
for file in boot.bin table.bin; do
  [ -f "${FREE:-}/$file" ] || { echo "try_sums: FREE is no folder with $file" >&2; exit 2; }
done
exec python3 - "${1:-200}" "${2:-0}" <<'P'
import os, random, subprocess, sys, tempfile

SNES, JOBS, REFERENCE, FREE = (os.environ[name] for name in ("SNES", "WILD_JOBS", "REFERENCE", "FREE"))
PICTURE = 512 * 239 * 2
count, first = int(sys.argv[1]), int(sys.argv[2])
checks = faults = 0


def call(*words):
    done = subprocess.run(words, stdout=subprocess.PIPE, stderr=subprocess.PIPE)
    return done.returncode, done.stdout.decode()


def sum_of(data):
    return subprocess.run(["sha256sum"], input=data, stdout=subprocess.PIPE, check=True).stdout.decode().split()[0]


def samples_before(pal, frames):
    """The samples whose stamps lie before the end of so many frames (docs/machine/TIMING.md)."""
    frame, rate = (43578163200, 2128137) if pal else (2012696576, 118125)
    return (frame * frames + rate - 1) // (32 * rate)


def text_of(folder, frames, pal):
    with open(f"{folder}/video", "rb") as file:
        video = file.read()
    with open(f"{folder}/audio", "rb") as file:
        audio = file.read()
    lines = ["frame,picture,sound"]
    for frame in range(frames):
        picture = video[PICTURE * frame:PICTURE * (frame + 1)]
        sound = audio[4 * samples_before(pal, frame):4 * samples_before(pal, frame + 1)]
        lines.append(f"{frame},{sum_of(picture)},{sum_of(sound)}")
    lines.append(f"all,{sum_of(video)},{sum_of(audio)}")
    return lines


def expect(number, what, got, wanted):
    global checks, faults
    checks += 1
    if got != wanted:
        faults += 1
        print(f"job {number}, {what}: {got!r} instead of {wanted!r}")


def written(folder, lines):
    with open(f"{folder}/sums", "w", encoding="ascii") as file:
        file.write("".join(f"{line}\n" for line in lines))


def changed(line, column, chance):
    """The line with another digit in a column."""
    parts = line.split(",")
    at = chance.randrange(64)
    digits = parts[column]
    parts[column] = digits[:at] + chance.choice([d for d in "0123456789abcdef" if d != digits[at]]) + digits[at + 1:]
    return ",".join(parts)


def try_job(number, folder):
    chance = random.Random(number)
    status, said = call(JOBS, str(number), folder)
    frames = int(said.split()[0])
    with open(f"{folder}/script.txt", "rb") as file:
        pal = file.read().startswith(b"version 2 pal")
    own = ["--cart", f"{folder}/cart.sfc", "--frames", str(frames)]
    files = ["--boot", f"{folder}/boot.bin", "--table", f"{folder}/table.bin", "--script", f"{folder}/script.txt"]
    out = ["--video", f"{folder}/video", "--audio", f"{folder}/audio"]
    sums = ["--sums", f"{folder}/sums"]
    # the free files
    open(f"{folder}/empty", "wb").close()
    free = ["--boot", f"{FREE}/boot.bin", "--table", f"{FREE}/table.bin", "--script", f"{folder}/empty"]
    serial = call(REFERENCE, "serial", *own, *free, *out)
    lines = text_of(folder, frames, False)
    expect(number, "sums of the cartridge alone", call(SNES, "sums", *own, *sums), serial)
    with open(f"{folder}/sums", encoding="ascii") as file:
        expect(number, "the sums of the cartridge alone", file.read().split("\n"), lines + [""])
    # the files of the job
    serial = call(REFERENCE, "serial", *own, *files, *out)
    lines = text_of(folder, frames, pal)
    expect(number, "sums", call(SNES, "sums", *own, *files, *sums), serial)
    with open(f"{folder}/sums", encoding="ascii") as file:
        expect(number, "the sums", file.read().split("\n"), lines + [""])

    def check(what, text, wanted):
        written(folder, text)
        expect(number, f"check {what}", call(SNES, "check", *own, *files, *sums), wanted)

    check("the same", lines, serial)
    for column, name in ((1, "picture"), (2, "sound")):
        frame = chance.randrange(frames)
        text = list(lines)
        text[frame + 1] = changed(text[frame + 1], column, chance)
        check(f"a changed {name}", text, (6, f"differs: frame {frame} {name}\n"))
        text = list(lines)
        text[-1] = changed(text[-1], column, chance)
        check(f"a changed sum of all, {name}", text, (6, f"differs: all {name}\n"))
    check("a frame less", lines[:-2] + lines[-1:], (6, "differs: frames\n"))
    check("a frame more", lines[:-1] + [f"{frames},{lines[1].split(',', 1)[1]}"] + lines[-1:], (6, "differs: frames\n"))
    at = chance.randrange(len(lines))
    check("a line in another form", lines[:at] + [lines[at] + " "] + lines[at + 1:], (3, f"sums refused at line {at + 1}\n"))
    check("without the last line", lines[:-1], (3, f"sums refused at line {len(lines)}\n"))
    return frames


total = 0
for number in range(first, first + count):
    with tempfile.TemporaryDirectory() as work:
        total += try_job(number, f"{work}/job")
print(f"{count} jobs, {total} frames, {checks} comparisons, {faults} faults")
sys.exit(faults > 0)
P
