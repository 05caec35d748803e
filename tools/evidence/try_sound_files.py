#!/usr/bin/env python3
"""Whether `snes spc` writes the sound files that cartridges at random have to give, byte for byte, and `snes play` plays them.

    tools/evidence/try_sound_files.py SNES [FROM TO]

SNES is the program. Each number from FROM to before TO (0 and 200) makes a boot ROM, a cartridge, and a number of frames in NTSC or
PAL. The boot ROM writes bytes of RAM, registers of the S-DSP that make no sound, and the timers, sets the registers of the
SPC700, and then stays in a loop, or stops. The cartridge writes the ports. Which bytes the file has to have is worked out here,
by nothing of the sources: also in which cycle it has to be taken, from the cycles of the instructions, and so what the timers
have counted. A file is played for 1,000 samples, which are silence. Every second file has tags at random, whose bytes are
worked out here too; if ffprobe is there, it has to read the texts in them as they were given.

Each number also makes a sound file with voices at random. `play --voices` has to write what `play` writes of the same file with
the volumes of the other parts put to 0 in it, which is the same, since nothing in the file writes a register. `play --fade` has
to write the samples of `play` by the products of the level, and `--seconds` those of `--samples`. The status is 1 where a byte
differs.
"""
import array
import json
import os
import random
import shutil
import subprocess
import sys
import tempfile

# By region: the stamps of a frame, and those of a cycle of the SPC700.
REGIONS = {"ntsc": (2012696576, 118125), "pal": (43578163200, 2128137)}
# The registers of the S-DSP that read what was written, and make no sound.
QUIET = [v * 16 + r for v in range(8) for r in range(8)] + [0x0C, 0x1C, 0x2C, 0x3C, 0x0D, 0x2D, 0x3D, 0x4D, 0x5D, 0x6D, 0x7D] + [v * 16 + 15 for v in range(8)]
SAMPLES = 1000
# The tags: the offset of each, its bytes, and whether it is a number.
TAGS = {
    "title": (0x2E, 32, False), "game": (0x4E, 32, False), "comment": (0x7E, 32, False),
    "length": (0xA9, 3, True), "fade": (0xAC, 5, True), "artist": (0xB1, 32, False),
}
# What ffprobe calls those that it reads.
NAMES = {"title": "song", "game": "game", "artist": "author", "comment": "comment"}


def tags_at_random(r):
    """Some tags: their words, and what they are."""
    tags = {}
    for name in r.sample(list(TAGS), r.randrange(1, 7)):
        _, size, number = TAGS[name]
        letters = "0123456789" if number else "".join(map(chr, range(0x20, 0x7F)))
        # libgme shows no spaces at the ends, nor the 32nd letter of an artist.
        tags[name] = "".join(r.choices(letters, k=r.randrange(1, size + 1)))
    return tags


def tagged(file, tags):
    """The file with these tags."""
    file = bytearray(file)
    file[0x23] = 0x1A
    file[0x2E:0x100] = bytes(0xD2)
    for name, word in tags.items():
        at, size, number = TAGS[name]
        word = word.rjust(size, "0") if number else word.ljust(size, "\0")
        file[at:at + size] = word.encode()
    return bytes(file)


def words_of(tags):
    return [it for name, word in tags.items() for it in (f"--{name}", word)]


def read_otherwise(path, tags):
    """The tags that ffprobe reads otherwise."""
    said = subprocess.run(["ffprobe", "-v", "quiet", "-of", "json", "-show_entries", "format_tags", path], capture_output=True)
    if said.returncode:
        return []
    read = json.loads(said.stdout).get("format", {}).get("tags", {})
    read = {name.lower(): text for name, text in read.items()}
    same = lambda name: read.get(NAMES[name], "").strip() in (tags[name].strip(), tags[name][:31].strip())
    return [name for name in tags if name in NAMES and NAMES[name] in read and not same(name)]


class Tune:
    """A sound file with voices at random, whose processor has halted."""

    def __init__(self, seed):
        self.r = r = random.Random(f"tune {seed}")
        ram, dsp = bytearray(r.randbytes(0x10000)), bytearray(128)
        ram[0xF0:0x100] = bytes(16)
        # the end flag is rare, so that voices last; the directory at 300
        for at in range(0x400, 0xF000, 9):
            ram[at] = ram[at] & 0xFC | r.choice([0, 0, 0, 0, 0, 2, 3])
        for source in range(64):
            for half in (0, 2):
                at = 0x400 + 9 * r.randrange(5000)
                ram[0x300 + 4 * source + half:0x302 + 4 * source + half] = at.to_bytes(2, "little")
        ram[0x200] = r.choice([0xEF, 0xFF])
        for voice in range(8):
            pitch = r.randrange(0x100, 0x2000)
            dsp[16 * voice:16 * voice + 8] = bytes([
                r.randrange(256), r.randrange(256), pitch & 255, pitch >> 8, r.randrange(64), r.choice([0, 0x8F, 0xFF]), r.randrange(256), r.randrange(128)])
        for register in (0x0C, 0x1C, 0x2C, 0x3C, 0x0D, *range(0x0F, 0x80, 16)):
            dsp[register] = r.randrange(256)
        self.echo_of = 0 if r.randrange(2) else r.randrange(256)
        dsp[0x4C], dsp[0x5D], dsp[0x4D] = r.randrange(1, 256), 3, self.echo_of
        dsp[0x2D], dsp[0x3D] = r.choice([0, r.randrange(256)]), r.choice([0, r.randrange(256)])
        dsp[0x6D], dsp[0x7D] = 0xF0, r.randrange(2)
        dsp[0x6C] = r.choice([0x00, 0x20]) | r.randrange(0x20)
        self.ram, self.dsp = bytes(ram), bytes(dsp)

    def file(self, parts=range(9)):
        """The file, with the volumes of all other parts put to 0. What a voice gives to the echo goes by its volume too."""
        dsp = bytearray(self.dsp)
        for voice in range(8):
            if voice not in parts:
                dsp[16 * voice] = dsp[16 * voice + 1] = 0
        if 8 not in parts:
            dsp[0x2C] = dsp[0x3C] = 0
        head = b"SNES-SPC700 Sound File Data v0.30\x1A\x1A\x1B\x1E\0\2"
        return head.ljust(256, b"\0") + self.ram + bytes(dsp) + bytes(128)

    def parts(self):
        """Parts at random. With voices in the echo the echo can't be told apart by the file alone."""
        parts = self.r.sample(range(9), self.r.randrange(1, 9))
        return [it for it in parts if it != 8] or [0] if self.echo_of else parts


def faded(samples, fade):
    """Samples of two numbers, of which the last ones fade out."""
    numbers = array.array("h", samples)
    count = len(numbers) // 2
    for k in range(count):
        left = count - k
        level = 65536 if fade <= left else 65536 * left // fade
        for at in (2 * k, 2 * k + 1):
            numbers[at] = numbers[at] * level >> 16
    return numbers.tobytes()


def tune_faults(snes, seed, name):
    """What is wrong with the voices of a tune, its fade, and its seconds."""
    tune = Tune(seed)
    parts, fade, count = tune.parts(), tune.r.randrange(0, 100), tune.r.randrange(0, 3000)
    for what, data in (("tune", tune.file()), ("few", tune.file(parts)), ("table", b"".join(min(2047, 4 * it).to_bytes(2, "little") for it in range(512)))):
        with open(name(what), "wb") as file:
            file.write(data)

    def heard(what, *words, length=("--samples", str(count))):
        return made(snes, ["play", "--spc", name(what), "--table", name("table"), *length, *words, "--audio"], name("audio"))

    whole, few = heard("tune"), heard("few")
    voices = ",".join("echo" if it == 8 else str(it) for it in parts)
    everything = ",".join(tune.r.sample("01234567", 8)) + ",echo"
    if heard("tune", "--voices", voices) != few:
        yield f"voices {voices}"
    if heard("tune", "--voices", everything) != whole:
        yield "all voices"
    if heard("tune", "--fade", str(fade)) != faded(whole, 32 * fade):
        yield f"a fade of {fade}"
    if heard("tune", "--fade", str(fade), "--voices", voices) != faded(few, 32 * fade):
        yield f"voices {voices} with a fade of {fade}"
    if seed % 20 == 0 and heard("tune", length=("--seconds", "1")) != heard("tune", length=("--samples", "32000")):
        yield "seconds"
    if any(whole):
        yield None


class Job:
    """A boot ROM and a cartridge, and the file that they have to give."""

    def __init__(self, seed):
        self.r = r = random.Random(seed)
        self.frames, self.region = r.randrange(1, 20), r.choice(list(REGIONS))
        self.program, self.cycles = bytearray(), 0
        self.ram, self.dsp, self.timers, self.on, self.address = {}, {0x6C: 0xE0}, [0, 0, 0], 0, 0
        self.on_at = 0
        for kind in r.choices([self.byte, self.dsp_register], k=r.randrange(5)) + [self.timer] * r.randrange(2) + [self.registers] * r.randrange(2):
            kind()
        for _ in range(r.randrange(4)):
            self.emit(bytes([0x00]), 2)
        self.end()
        self.ports = r.randbytes(4)

    def emit(self, code, cycles):
        self.program += code
        self.cycles += cycles

    def put(self, at, value):
        """MOV dp, #value: its last cycle writes."""
        self.emit(bytes([0x8F, value, at]), 5)

    def byte(self):
        # The voices read RAM as samples all the time. Bit 0 of a block's first byte would end a sample, and show in ENDX.
        at, value = self.r.randrange(0xF0), self.r.randrange(0, 256, 2)
        self.put(at, value)
        self.ram[at] = value

    def dsp_register(self):
        self.address, value = self.r.choice(QUIET), self.r.randrange(256)
        self.put(0xF2, self.address)
        self.put(0xF3, value)
        self.dsp[self.address] = value

    def timer(self):
        number, target = self.r.randrange(3), self.r.randrange(256)
        self.put(0xFA + number, target)
        self.timers[number] = target
        self.on = self.r.randrange(8)
        self.put(0xF1, 0x80 | self.on)
        self.on_at = self.cycles - 1

    def registers(self):
        """MOV X and MOV SP, X; MOV A, X and Y."""
        self.regs = [self.r.randrange(256) for _ in range(4)]
        sp, a, x, y = self.regs
        self.emit(bytes([0xCD, sp]), 2)
        self.emit(bytes([0xBD]), 2)
        for code, value in ((0xE8, a), (0xCD, x), (0x8D, y)):
            self.emit(bytes([code, value]), 2)

    regs = None

    def end(self):
        """A branch to itself, or a halt."""
        self.pc = 0xFFC0 + len(self.program)
        self.halts = self.r.randrange(4) == 0
        self.program += bytes([self.r.choice([0xEF, 0xFF])]) if self.halts else bytes([0x2F, 0xFE])
        assert len(self.program) <= 62
        self.boot = bytes(self.program).ljust(62, b"\0") + b"\xC0\xFF"

    def cart(self):
        code = bytearray.fromhex("78")
        for n, value in enumerate(self.ports):
            code += bytes([0xA9, value, 0x8D, 0x40 + n, 0x21])
        code += b"\x80\xFE"
        rom = bytearray(0x8000)
        rom[:len(code)] = code
        rom[0x7FD5] = 0x20
        rom[0x7FFC:0x7FFE] = b"\x00\x80"
        return rom

    def taken_at(self):
        """The cycle before which the file is taken."""
        frame, rate = REGIONS[self.region]
        first = -(-frame * self.frames // rate)
        if self.halts:
            return first
        if self.cycles % 4 == 0:
            return -(-first // 128) * 128
        return next(cycle for cycle in range(first + 100_001, first + 100_005) if (cycle - self.cycles) % 4 == 0)

    def counter(self, number, cycle):
        """What a timer has counted: a tick ends each 128th cycle, or each 16th of the third timer."""
        if not self.on >> number & 1:
            return 0
        beat = 16 if number == 2 else 128
        ticks = cycle // beat - self.on_at // beat
        return ticks // (self.timers[number] or 256) % 16

    def file(self):
        sp, a, x, y = self.regs or (0, 0, 0, 0)
        psw = 0 if self.regs is None else (y & 0x80) | (0x02 if y == 0 else 0)
        ram = bytearray(0x10000)
        for at, value in self.ram.items():
            ram[at] = value
        ram[0xF1], ram[0xF2], ram[0xF4:0xF8] = 0x80 | self.on, self.address, self.ports
        cycle = self.taken_at()
        for number in range(3):
            ram[0xFA + number], ram[0xFD + number] = self.timers[number], self.counter(number, cycle)
        ram[0xFFC0:] = self.boot
        dsp = bytes(self.dsp.get(register, 0) for register in range(128))
        head = b"SNES-SPC700 Sound File Data v0.30\x1A\x1A\x1B\x1E" + bytes([self.pc & 255, self.pc >> 8, a, x, y, psw, sp])
        # RAM under the boot ROM was never written.
        return head.ljust(256, b"\0") + bytes(ram) + dsp + bytes(128)


def made(snes, words, path):
    """The file that a command writes."""
    done = subprocess.run([snes, *words, path], capture_output=True, text=True)
    if done.returncode:
        sys.exit(f"{' '.join(words)}: status {done.returncode}, {done.stdout}{done.stderr}")
    with open(path, "rb") as file:
        return file.read()


def main():
    if len(sys.argv) not in (2, 4):
        sys.exit(__doc__)
    snes = sys.argv[1]
    first, last = map(int, sys.argv[2:4]) if len(sys.argv) == 4 else (0, 200)
    bad = halted = late = loud = wrong = read = 0
    ffprobe = shutil.which("ffprobe")
    with tempfile.TemporaryDirectory() as folder:
        name = lambda it: os.path.join(folder, it)
        for seed in range(first, last):
            job = Job(seed)
            halted += job.halts
            late += not job.halts and job.cycles % 4 != 0
            for what, data in (("cart", job.cart()), ("boot", job.boot), ("table", bytes(1024)), ("script", b"version 2 %s\n" % job.region.encode())):
                with open(name(what), "wb") as file:
                    file.write(data)
            files = [it for what in ("cart", "boot", "table", "script") for it in (f"--{what}", name(what))]
            tags = tags_at_random(job.r) if seed % 2 else {}
            got, wanted = made(snes, ["spc", *files, "--frames", str(job.frames), *words_of(tags), "--spc"], name("tune")), job.file()
            if tags:
                wanted = tagged(wanted, tags)
                other = read_otherwise(name("tune"), tags) if ffprobe else []
                read += len(tags)
                if other:
                    bad += 1
                    print(f"{seed}: ffprobe reads {', '.join(other)} otherwise: {tags}")
            faults = [at for at in range(max(len(got), len(wanted))) if got[at:at + 1] != wanted[at:at + 1]]
            heard = made(snes, ["play", "--spc", name("tune"), "--table", name("table"), "--samples", str(SAMPLES), "--audio"], name("audio"))
            if faults or heard != bytes(4 * SAMPLES):
                bad += 1
                print(f"{seed}: {len(faults)} bytes differ, the first at {faults[0]:x}" if faults else f"{seed}: no silence")
            for fault in tune_faults(snes, seed, name):
                if fault is None:
                    loud += 1
                else:
                    wrong += 1
                    print(f"{seed}: {fault} differ")
    print(f"{read} tags, {last - first} tunes ({loud} that are heard), {wrong} differences of voices, fades and seconds")
    print(f"{last - first} sound files ({halted} of a halted processor, {late} after 100,000 cycles), {bad} with bytes that differ")
    sys.exit(bad + wrong > 0)


if __name__ == "__main__":
    main()
