#!/usr/bin/env python3
"""Gives the built program hostile inputs and command lines, and compares what it answers with what the pages say.

    tools/evidence/try_hostile.py [--snes PROGRAM] [--count N] [--seed N] [--jobs N] [--case N]

N tries (10,000) in order from the seed (1), each a call of `snes` in a folder of its own: a command with words that
are cut, swapped, doubled, replaced or random, or with a cartridge, boot ROM, table, script, sound file or plan that is cut,
swapped, flipped, random, empty, oversized, missing, a folder or a device. Runs have 0 to 2 frames or few samples.

What has to come is reckoned by tools/evidence/edges/oracle.py, which was written from docs/use/COMMANDS.md and the pages that it
names. Asserted of each try: it ends within a minute, by no signal; its status and the whole of standard output are
those of the page; after Usage, LoadFault and Refused everything in the folder is as it was, outputs that were there among
it; after Ok each output has the length that the line says; after WriteFault no input has changed.

A try that differs prints its number and how it differed; --case N makes that one alone, and prints its words. The last
line is `N tried, M failed`, and the status is 1 where M is not 0. It takes a minute or so on four processors.
"""
import argparse
import hashlib
import multiprocessing
import os
import random
import re
import shutil
import subprocess
import sys
import tempfile
import time

HERE = os.path.dirname(os.path.realpath(__file__))
sys.path.insert(0, os.path.join(HERE, "edges"))

import lab  # noqa: E402
import oracle  # noqa: E402

OLD = b"held before\n"
ODD_WORDS = [b"", b"-", b"--", b"-h", b"--help", b"--version", b"--quiet", b"run", b"serial", b"make", b"demo", b"--frames", b"--cart",
             b"--video", b"--out", b"0", b"1", b"36001", b"-1", b"+1", b"1e3", b"0x10", b"00001", b"000001", b"4294967296", b"\xff",
             b"\xc3\x28", b"\xed\xa0\x80", b"\xf4\x90\x80\x80", "日本".encode(), b"a b", b"'", b'"', b"\n", b"\r\n", b"\t", b"$(x)",
             b"%s%n", b"../x", b"/", b".", b"..", b"/dev/null", b"/dev/zero", b"/dev/full", b"x" * 255, b"x" * 256, b"x" * 4096,
             b"x" * 4097, b"x" * 100_000, b"cart", b"=", b"--cart=cart", b"--frames=1"]
NUMBERS = [b"0", b"1", b"2", b"00", b"00002", b"", b" 1", b"1 ", b"-0", b"+1", b"36001", b"99999", b"100000", b"000001", b"1.0", b"a",
           "١".encode(), b"18446744073709551616", b"4294967296", b"19200001", b"\xff"]


class Try:
    """One call: its words and the files of its folder."""

    def __init__(self, number, seed, inputs):
        self.dice = random.Random(f"{seed} {number}")
        self.inputs = inputs
        self.files = {}
        self.command = self.dice.choice(["run", "serial", "serial", "serial", "lockless", "play", "rewind", "rewind", "make", "demo"])
        self.words = self.right_words()
        for option in oracle.FORMS[self.command][1]:
            self.files[option.encode()] = inputs[option]
        if self.dice.random() < 0.5:
            for output in oracle.FORMS[self.command][3]:
                self.files[f"{output}.raw".encode()] = OLD
        if self.dice.random() < 0.5 and oracle.FORMS[self.command][1]:
            self.spoil_files()
        else:
            self.spoil_words()

    def right_words(self):
        numbered, inputs, count, outputs = oracle.FORMS[self.command]
        pairs = [[f"--{option}".encode(), option.encode()] for option in inputs]
        pairs += [[f"--{option}".encode(), f"{option}.raw".encode()] for option in outputs]
        if count:
            pairs.append([f"--{count}".encode(), str(self.dice.choice([0, 1, 1, 2]) * (1 if count == "frames" else 100)).encode()])
        self.dice.shuffle(pairs)
        number = [str(self.dice.randrange(2 ** 32)).encode()] if numbered else []
        return [self.command.encode(), *number, *(it for pair in pairs for it in pair)]

    def odd_word(self):
        kind = self.dice.randrange(4)
        if kind == 0:
            return bytes(self.dice.randrange(1, 256) for _ in range(self.dice.randrange(12)))
        if kind == 1:
            return self.dice.choice(NUMBERS)
        return self.dice.choice(ODD_WORDS)

    def spoil_words(self):
        dice, words = self.dice, self.words
        for _ in range(dice.choice([0, 1, 1, 1, 2, 3])):
            at = dice.randrange(len(words)) if words else 0
            kind = dice.randrange(10)
            if kind == 0 and words:
                del words[at]
            elif kind == 1:
                words.insert(at, self.odd_word())
            elif kind == 2 and words:
                words[at] = self.odd_word()
            elif kind == 3 and words:
                other = dice.randrange(len(words))
                words[at], words[other] = words[other], words[at]
            elif kind == 4:
                words.insert(at, dice.choice(words or [b""]))
            elif kind == 5 and words:
                del words[at:]
            elif kind == 6 and words:
                words[at] = self.spoiled(words[at])
            elif kind == 7:
                words += [self.odd_word() for _ in range(dice.choice([1, 2, 3, 16, 100]))]
            elif kind == 8 and words:
                # A value that names something else: an output that can't be made, an input that is none.
                words[at] = dice.choice([b"missing/x", b"folder", b"./cart", b"none", b"/dev/full", b"/dev/null", b"/proc/x"])
            elif words:
                words[:] = [self.odd_word() for _ in range(dice.randrange(20))]
        self.words = [it.replace(b"\0", b"") for it in words]

    def spoiled(self, data):
        """Bytes that are cut, swapped, flipped, doubled, replaced or filled up."""
        dice, data = self.dice, bytearray(data)
        for _ in range(dice.choice([1, 1, 2, 5])):
            kind, at = dice.randrange(8), dice.randrange(len(data) + 1)
            if kind == 0:
                del data[at:]
            elif kind == 1 and data:
                other = dice.randrange(len(data))
                at = min(at, len(data) - 1)
                data[at], data[other] = data[other], data[at]
            elif kind == 2 and data:
                data[min(at, len(data) - 1)] ^= 1 << dice.randrange(8)
            elif kind == 3 and data:
                data[min(at, len(data) - 1)] = dice.randrange(256)
            elif kind == 4:
                data[at:at] = data[:dice.randrange(len(data) + 1)]
            elif kind == 5:
                del data[at:at + dice.choice([1, 2, 512, 1024])]
            elif kind == 6:
                data += bytes(dice.choice([1, 512, 1024, 32768]))
            else:
                data[at:at] = dice.randbytes(dice.choice([1, 2, 3, 64, 512]))
        return bytes(data)

    def random_text(self, kinds):
        dice = self.dice
        lines = []
        for _ in range(dice.randrange(12)):
            line = dice.choice(kinds)
            if dice.random() < 0.15:
                line = self.spoiled(line).replace(b"\0", b"")
            lines.append(line + dice.choice([b"\n", b"\n", b"\n", b"\r\n", b"\r", b" \n", b""]))
        return b"".join(lines)

    def spoil_files(self):
        dice, option = self.dice, self.dice.choice(oracle.FORMS[self.command][1])
        name, right, most = option.encode(), self.inputs[option], oracle.LIMITS[option]
        kind = dice.randrange(12)
        if kind < 5:
            self.files[name] = self.spoiled(right)
        elif kind == 5:
            self.files[name] = dice.randbytes(dice.choice([0, 1, 63, 64, 65, 1023, 1024, 1025, 32768, 65536, 70000, 131072]))
        elif kind == 6:
            self.files[name] = right.ljust(most + dice.choice([-1, 0, 1, 2]), b"\0")
        elif kind == 7:
            self.files[name] = self.inputs[dice.choice(list(self.inputs))]
        elif kind == 8:
            del self.files[name]
        elif kind == 9:
            self.words[self.words.index(b"--" + name) + 1] = dice.choice([b"folder", b"/dev/null", b"/dev/zero", b"/dev/full", b"/proc/self/mem"])
        elif option == "cart":
            cart = bytearray(right)
            for _ in range(dice.randrange(1, 4)):
                cart[0x7FC0 + dice.choice([0x15, 0x16, 0x17, 0x18, 0x1C, 0x1D, 0x1E, 0x1F, 0x3C, 0x3D])] = dice.randrange(256)
                # Random programs run wild, which is what they are here for.
                at = dice.randrange(0x7F00)
                cart[at:at + 32] = dice.randbytes(32)
            self.files[name] = bytes(cart)
        elif option == "script":
            self.files[name] = self.random_text([b"version 2 ntsc", b"version 2 pal", b"", b"reset", b"1 0000 ffff", b"2  8000   0001", b"36000 0 0",
                                                 b"00001 ABCD abcd", b"35999 0000 0000", b"0 0000 0000", b"1 0000 0000 "])
        elif option == "plan":
            self.files[name] = self.random_text([b"go 1 0000 ffff", b"keep 0", b"back 0", b"keep  7", b"back 7", b"", b"go 0 1234 abcd", b"back 3", b"keep 8",
                                                 b"reset", b"go 1 0000 ffff", b"region pal", b"region ntsc", b"reset "])
        elif option == "boot":
            self.files[name] = dice.randbytes(64)
        elif option == "spc":
            self.files[name] = right[:37] + dice.randbytes(len(right) - 37)
        else:
            self.files[name] = b"".join(dice.randrange(2048).to_bytes(2, "little") for _ in range(512))


def is_long(form, folder):
    """Whether a run would take long: frames or samples that words or a plan came to by chance."""
    if form is None or form.command not in oracle.FORMS:
        return False
    if form.count is not None and form.count > (2 if oracle.FORMS[form.command][2] == "frames" else 4000):
        return True
    if form.command == "rewind":
        data = oracle.loaded(folder, form.names["plan"], oracle.LIMITS["plan"])
        return data is not None and oracle.goes_of(data)[0] > 20
    return False


def look_at(folder):
    """What stands in a folder: of each file a sum of its bytes."""
    return {name: hashlib.sha256(lab.read(os.path.join(os.fsencode(folder), name))).digest()
            for name in os.listdir(os.fsencode(folder)) if os.path.isfile(os.path.join(os.fsencode(folder), name))}


def prediction(folder, words):
    """The status and the line that have to come; a line of Ok is none, since its numbers are looked at apart."""
    form = oracle.form_of(words)
    if form is None:
        return form, 1, oracle.USAGE
    if form.command not in oracle.FORMS:
        return form, 0, None
    end, data = oracle.inputs_of(folder, form)
    if end:
        return form, *end
    outputs = oracle.FORMS[form.command][3]
    for output in outputs:
        if not oracle.can_be_created(folder, form.names[output]):
            return form, 4, f"cannot write {oracle.NAMES[output]}"
        # An output that is an input by another name.
        for option in oracle.FORMS[form.command][1]:
            with_it = [os.path.join(os.fsencode(folder), it) for it in (form.names[output], form.names[option])]
            if all(map(os.path.isfile, with_it)) and os.path.samefile(*with_it):
                return form, 4, f"cannot write {oracle.NAMES[output]}"
    written = form.count if form.command != "rewind" else oracle.goes_of(data["plan"])[0]
    for output in outputs:
        if os.path.realpath(form.names[output]) == b"/dev/full" and (form.command == "make" or written):
            return form, 4, f"cannot write {oracle.NAMES[output]}"
    return form, 0, None


def fault_of_ok(form, line, folder):
    """What is wrong with an Ok: its line, and the lengths of its outputs."""
    forms = {"play": r"samples (?P<samples>\d+)", "make": "image 524288", "demo": r"frames (?P<frames>\d+) samples \d+ video \d+ sound \d+"}
    if form.command in ("--help", "-h", "--version"):
        return None if line else "no text"
    found = re.fullmatch(forms.get(form.command, r"frames (?P<frames>\d+) samples (?P<samples>\d+)"), line)
    if not found:
        return f"the line of Ok is {line!r}"
    told = found.groupdict()
    counted = told.get(oracle.FORMS[form.command][2] or "")
    if counted is not None and int(counted) != form.count:
        return f"the line says {counted} in place of {form.count}"
    lengths = {"out": 524_288, "video": 244_736 * int(told.get("frames", 0)), "audio": 4 * int(told.get("samples") or 0)}
    for output in oracle.FORMS[form.command][3]:
        path = os.path.join(os.fsencode(folder), form.names[output])
        if os.path.isfile(path) and os.path.getsize(path) != lengths[output]:
            return f"{output} has {os.path.getsize(path)} bytes in place of {lengths[output]}"
    return None


def fault_of(snes, made, folder):
    """How a try differs from what has to come, or none."""
    before = look_at(folder)
    form, status, line = prediction(folder, made.words)
    try:
        end = subprocess.run([snes, *made.words], cwd=folder, stdin=subprocess.DEVNULL, capture_output=True, timeout=60, check=False)
    except subprocess.TimeoutExpired:
        return "no end within a minute"
    said = end.stdout.decode(errors="replace")
    if end.returncode != status:
        return f"status {end.returncode} in place of {status} ({line}), {said!r}"
    if status == 0:
        return fault_of_ok(form, said.removesuffix("\n"), folder)
    if said != line + "\n":
        return f"{said!r} in place of {line!r}"
    after = look_at(folder)
    if status < 4 and after != before:
        return f"the folder was touched: {set(after.items()) ^ set(before.items())}"
    names = {form.names[it] for it in oracle.FORMS[form.command][1]} if form else set()
    for name in names & before.keys():
        if after[name] != before[name]:
            return f"the input {name} was touched"
    return None


def do(task):
    number, seed, snes, inputs, work, is_told = task
    for again in range(100):
        made = Try(f"{number}.{again}", seed, inputs)
        folder = os.path.join(work, f"{number}")
        os.makedirs(os.path.join(folder, "folder"))
        for name, data in made.files.items():
            lab.write(os.path.join(os.fsencode(folder), name), data)
        try:
            if not is_long(oracle.form_of(made.words), folder) and sum(map(len, made.words)) < 120_000:
                if is_told:
                    print(made.words, {name: len(data) for name, data in made.files.items()})
                return number, fault_of(snes, made, folder), oracle.form_of(made.words) is not None
        finally:
            shutil.rmtree(folder, ignore_errors=True)
    return number, "no try that is short was found", False


def main():
    parser = argparse.ArgumentParser(description=__doc__, formatter_class=argparse.RawDescriptionHelpFormatter)
    parser.add_argument("--snes", default=lab.built("snes"), metavar="PROGRAM")
    parser.add_argument("--count", type=int, default=10_000)
    parser.add_argument("--seed", default="1")
    parser.add_argument("--jobs", type=int, default=os.cpu_count())
    parser.add_argument("--case", type=int)
    given = parser.parse_args()
    snes = os.path.realpath(given.snes)
    if not os.access(snes, os.X_OK):
        sys.exit(f"no program {snes}; see --help")
    data = f"{lab.TOP}/crates/snes_run/data"
    inputs = {"cart": lab.read(f"{data}/red.sfc"), "boot": lab.read(f"{data}/boot.bin"), "table": lab.read(f"{data}/table.bin"),
              "script": b"version 2 ntsc\n1 8000 0000\nreset\n2 0000 1000\n", "spc": lab.sound_file(),
              "plan": b"region pal\ngo 1 0000 0000\nkeep 0\nreset\ngo 1 8000 0000\nback 0\ngo 0 0000 8000\n"}
    numbers = range(given.count) if given.case is None else [given.case]
    failed, formed, began, told = 0, 0, time.time(), 0.0
    with tempfile.TemporaryDirectory(prefix="snes-hostile-") as work, multiprocessing.Pool(given.jobs) as pool:
        tasks = ((number, given.seed, snes, inputs, work, given.case is not None) for number in numbers)
        for done, (number, fault, is_formed) in enumerate(pool.imap_unordered(do, tasks, chunksize=8), 1):
            formed += is_formed
            if fault:
                failed += 1
                print(f"{number}: {fault[:600]}", flush=True)
            if sys.stderr.isatty() and time.time() - told > 0.5:
                told = time.time()
                print(f"\r\033[K{done} of {len(numbers)}, {failed} failed", end="", file=sys.stderr, flush=True)
    if sys.stderr.isatty():
        print("\r\033[K", end="", file=sys.stderr)
    print(f"words in a form: {formed}; {time.time() - began:.0f} s", file=sys.stderr)
    print(f"{len(numbers)} tried, {failed} failed")
    return 1 if failed else 0


if __name__ == "__main__":
    sys.exit(main())
