#!/usr/bin/env python3
"""Makes cartridges that play a tune: for try_music.py, and for tools/lab/measure_play.sh.

    tools/evidence/tunes.py NUMBER OUT      the tune of a number, at random
    tools/evidence/tunes.py eight OUT       eight voices that always sound, each into the echo

A cartridge sends its sound program to the APU by the upload protocol (docs/machine/BOOT-ROM.md), and then does nothing. The sound program
is a table and what plays it: each entry waits for some ticks of timer 0, 20 milliseconds each, and writes registers of the S-DSP. At
its end the table begins again. The tables of `random` tunes have one to eight voices with samples that loop or end, by ADSR or GAIN, with
noise, pitch modulation, echo, and notes that are keyed off or sound on.
"""
import random
import struct
import sys

# Where the parts are in the APU's RAM. The echo has the upper half.
PROGRAM, DIRECTORY, SAMPLES, ECHO = 0x0200, 0x0300, 0x0340, 0x8000
RATE, SAMPLES_OF_TICK = 32000, 640
# The code of the sound program: the table is read through the pointer at 00, and 02 counts ticks, then pairs.
PLAYER = (
    "20 CD EF BD"  # CLRP; MOV X,#EF; MOV SP,X
    " 8F A0 FA 8F 01 F1"  # timer 0: 160; on. The boot ROM is hidden
    " 8F %02X 00 8F %02X 01 8D 00"  # begin: the pointer is that of the table; MOV Y,#00
    " F7 00 F0 F4 C4 02 3A 00"  # next: MOV A,[00]+Y; BEQ begin; MOV 02,A; INCW 00
    " E4 FD F0 FC 6E 02 F9"  # wait: MOV A,FD; BEQ wait; DBNZ 02,wait
    " F7 00 C4 02 3A 00"  # the number of pairs
    " F7 00 C4 F2 3A 00 F7 00 C4 F3 3A 00 6E 02 F1"  # pair: the register and its byte; DBNZ 02,pair
    " 2F DA"  # BRA next
)
KON, KOFF, FLG = 0x4C, 0x5C, 0x6C


def block(numbers, shift, coding, flags):
    """A block of BRR: 16 numbers of four bits."""
    return bytes([shift << 4 | coding << 2 | flags]) + bytes((a & 15) << 4 | b & 15 for a, b in zip(numbers[::2], numbers[1::2]))


def looped(rng):
    """A wave that loops, and the number of its samples: one, two or four blocks without a filter."""
    period = rng.choice([16, 32, 64])
    kind = rng.randrange(4)
    half = period // 2
    if kind == 0:
        wave = [rng.choice([5, 7])] * half + [-7] * half
    elif kind == 1:
        wave = [round(7 - 14 * n / (period - 1)) for n in range(period)]
    elif kind == 2:
        wave = [round(7 - 14 * abs(n - half) / half) for n in range(period)]
    else:
        wave = [7] * (period // 4) + [-3] * (period - period // 4)
    shift = rng.choice([10, 11, 12])
    blocks = [block(wave[at:at + 16], shift, 0, 3 if at + 16 == period else 0) for at in range(0, period, 16)]
    return b"".join(blocks), period


def ended(rng):
    """A sample that ends: a few blocks by all filters, the first one by none, as encoders begin."""
    count = rng.randrange(20, 120)
    filters = [0] + [rng.randrange(4) for _ in range(count - 1)]
    return b"".join(block([rng.randrange(-4, 5) for _ in range(16)], rng.choice([8, 9]), it, n == count - 1) for n, it in enumerate(filters))


class Note:
    """A note: its voice, the tick of the table at which it is keyed on and the one at which it is keyed off (None), its source, pitch."""

    def __init__(self, voice, on, off, source, pitch):
        self.voice, self.on, self.off, self.source, self.pitch = voice, on, off, source, pitch


class Tune:
    """A tune: the samples, the table, and what is known of it without playing it."""

    def __init__(self, seed):
        self.r = r = random.Random(f"tune {seed}")
        self.periods = []  # of a source, the samples of a period, or None
        self.sources = []
        self.voices = sorted(r.sample(range(8), r.randrange(1, 9)))
        self.loud = r.randrange(5) == 0
        self.noise = {v for v in self.voices if r.randrange(8) == 0}
        self.modulated = {v for v in self.voices if v and r.randrange(10) == 0}
        self.echoed = {v for v in self.voices if r.randrange(2)}
        for _ in range(r.randrange(1, 5)):
            self.add_source(*looped(r))
        if r.randrange(2):
            self.add_source(ended(r), None)
        self.ticks = r.randrange(60, 180)
        self.notes = [note for v in self.voices for note in self.random_notes(v)]
        self.write_table(self.random_settings())

    def add_source(self, blocks, period):
        self.sources.append(blocks)
        self.periods.append(period)

    def random_notes(self, voice):
        r, at, notes = self.r, self.r.randrange(0, 30), []
        while at < self.ticks - 4:
            length = r.randrange(15, 60)
            source = r.randrange(len(self.sources))
            pitch = round(0x400 * 2 ** (r.randrange(0, 37) / 12))
            off = at + length - r.randrange(2, 8) if r.randrange(3) else None
            notes.append(Note(voice, at, off if off is not None and off < self.ticks else None, source, min(pitch, 0x3FFF)))
            at += length + (r.randrange(0, 20) if r.randrange(2) else 0)
        return notes

    def random_settings(self):
        r = self.r
        mask = lambda voices: sum(1 << v for v in voices)
        main = r.choice([0x7F, 0x60, 0x40])
        pairs = [(FLG, 0x20), (0x5D, DIRECTORY >> 8), (0x0C, main), (0x1C, main if r.randrange(4) else 0x80 - main // 2 & 0xFF)]
        pairs += [(0x2D, mask(self.modulated)), (0x3D, mask(self.noise)), (0x4D, mask(self.echoed))]
        self.delay = r.randrange(1, 16)
        taps = [0x7F] + [0] * 7 if r.randrange(2) else [r.randrange(-20, 21) & 0xFF for _ in range(8)]
        pairs += [(0x10 * k + 15, tap) for k, tap in enumerate(taps)]
        level = r.choice([0x20, 0x30, 0x50]) if self.echoed else 0
        pairs += [(0x6D, ECHO >> 8), (0x7D, self.delay), (0x0D, r.choice([0, 0x20, 0x40, 0xC0])), (0x2C, level), (0x3C, level)]
        for v in self.voices:
            most = 127 if self.loud else 15
            pairs += [(0x10 * v, r.randrange(most // 2, most + 1)), (0x10 * v + 1, r.randrange(most // 2, most + 1) * r.choice([1, 1, 1, -1]) & 0xFF)]
            if r.randrange(3):
                pairs += [(0x10 * v + 5, 0x80 | r.randrange(8) << 4 | r.randrange(9, 16)), (0x10 * v + 6, r.randrange(2, 8) << 5 | r.randrange(0, 17))]
            else:
                pairs += [(0x10 * v + 5, 0), (0x10 * v + 7, r.randrange(0x50, 0x80))]
        return pairs + [(FLG, 0x00 | r.randrange(20, 32))]

    def write_table(self, settings):
        """The table: the settings with the first tick, and the notes; each voice that is keyed off is keyed on again later."""
        by_tick = {0: []}
        for note in self.notes:
            v = note.voice
            pairs = [(0x10 * v + 2, note.pitch & 255), (0x10 * v + 3, note.pitch >> 8), (0x10 * v + 4, note.source)]
            by_tick.setdefault(note.on, []).append((pairs, 1 << v, 0))
            if note.off is not None:
                by_tick.setdefault(note.off, []).append(([], 0, 1 << v))
        self.table, self.places, self.starts, last = bytearray(), [], [], -1
        for tick in sorted(by_tick):
            pairs = list(settings) if tick == 0 else []
            on = off = 0
            for more, keyed, released in by_tick[tick]:
                pairs += more
                on |= keyed
                off |= released
            pairs += [(KOFF, off)] + ([(KON, on)] if on else [])
            self.starts.append((len(self.table), tick))
            self.table += bytes([tick - last, len(pairs)])
            for register, byte in pairs:
                self.places.append((len(self.table) + 1, register))
                self.table += bytes([register, byte])
            last = tick
        # The tick at which it begins again: all notes end there.
        self.starts.append((len(self.table), self.ticks))
        self.table += bytes([self.ticks - last, 1, KOFF, 0xFF, 0])

    def ram(self):
        """What is sent to the APU: from 0200 on."""
        directory, samples = b"", b""
        for blocks in self.sources:
            at = SAMPLES + len(samples)
            directory += struct.pack("<HH", at, at)
            samples += blocks
        self.table_at = SAMPLES + len(samples)
        code = bytes.fromhex(PLAYER % (self.table_at & 255, self.table_at >> 8))
        assert PROGRAM + len(code) <= DIRECTORY and self.table_at + len(self.table) < ECHO
        sent = code.ljust(DIRECTORY - PROGRAM, b"\0") + directory.ljust(SAMPLES - DIRECTORY, b"\0") + samples + bytes(self.table)
        # The byte that starts the program must not be 0.
        return sent if len(sent) % 256 != 255 else sent + b"\0"

    def cart(self):
        """The cartridge: LoROM, 32 KiB, without RAM."""
        sent = self.ram()
        data, start = 0x8100, bytes([0xA9, PROGRAM & 255, 0x8D, 0x42, 0x21, 0xA9, PROGRAM >> 8, 0x8D, 0x43, 0x21])
        code = bytes.fromhex("78 18 FB C2 30")  # SEI; CLC; XCE; REP #30
        code += bytes.fromhex("AD 40 21 C9 AA BB D0 F8 E2 20")  # waits for AA and BB; SEP #20
        code += start + bytes.fromhex("A9 01 8D 41 21 A9 CC 8D 40 21 CD 40 21 D0 FB A2 00 00")
        code += bytes([0xBD, data & 255, data >> 8]) + bytes.fromhex("8D 41 21 8A 8D 40 21 CD 40 21 D0 FB E8 E0") + struct.pack("<H", len(sent))
        code += bytes.fromhex("D0 EB")
        code += start + bytes([0x9C, 0x41, 0x21, 0xA9, len(sent) + 1 & 255]) + bytes.fromhex("8D 40 21 80 FE")
        rom = bytearray(0x8000)
        rom[:len(code)] = code
        rom[data - 0x8000:data - 0x8000 + len(sent)] = sent
        assert len(code) <= 0x100 and len(sent) <= 0x7E00
        rom[0x7FC0:0x7FD5] = b"TUNE".ljust(21)
        rom[0x7FD5], rom[0x7FD7] = 0x20, 5
        rom[0x7FDC:0x7FE0] = b"\xFF\xFF\x00\x00"
        rom[0x7FFC:0x7FFE] = b"\x00\x80"
        return bytes(rom)

    def elapsed(self, file):
        """How many ticks of its table the program had counted when a sound file was taken."""
        at = file[0x100] + 256 * file[0x101] - self.table_at
        start, tick = max(it for it in self.starts if it[0] < max(1, at))
        return tick + 1 - (file[0x102] if at == start + 1 else 0)

    def tones(self, voice, elapsed, samples):
        """The notes of a voice that begin in the first samples of a sound file: the first sample, the one after the last, and the frequency."""
        notes = sorted((it for it in self.notes if it.voice == voice), key=lambda it: it.on)
        ends = [it.on for it in notes[1:]] + [self.ticks]
        for turn in range(samples // (SAMPLES_OF_TICK * (self.ticks + 1)) + 2):
            for note, end in zip(notes, ends):
                begin = note.on + 1 + turn * (self.ticks + 1) - elapsed
                if begin > 0 and self.periods[note.source]:
                    end = (note.off or end) - note.on + begin
                    yield SAMPLES_OF_TICK * begin, SAMPLES_OF_TICK * end, RATE * note.pitch / 4096 / self.periods[note.source]

    def alone(self, file, voices):
        """A sound file of this tune, in which the volumes of the other voices and of the echo are 0: these voices alone, by any player."""
        out = bytearray(file)
        hushed = [r for v in range(8) if v not in voices for r in (0x10 * v, 0x10 * v + 1)] + [0x2C, 0x3C]
        for register in hushed:
            out[0x10100 + register] = 0
        for at, register in self.places:
            if register in hushed:
                out[0x100 + self.table_at + at] = 0
        return bytes(out)


class Eight(Tune):
    """Eight voices that always sound, all of them into an echo of 240 ms with eight taps: what a player has most work with."""

    def random_settings(self):
        pairs = [(FLG, 0x20), (0x5D, DIRECTORY >> 8), (0x0C, 0x7F), (0x1C, 0x7F), (0x2D, 0), (0x3D, 0), (0x4D, 0xFF)]
        pairs += [(0x10 * k + 15, tap) for k, tap in enumerate((0x40, 0x18, 0x10, 0x08, 0x08, 0x04, 0x04, 0x02))]
        pairs += [(0x6D, ECHO >> 8), (0x7D, 15), (0x0D, 0x40), (0x2C, 0x30), (0x3C, 0x30)]
        for v in range(8):
            pairs += [(0x10 * v, 12), (0x10 * v + 1, 12), (0x10 * v + 5, 0x8F), (0x10 * v + 6, 0xEC)]
        return pairs + [(FLG, 0)]

    def __init__(self):
        super().__init__(0)
        self.r = r = random.Random("eight")
        self.sources, self.periods = [], []
        self.voices, self.noise, self.modulated, self.echoed = list(range(8)), set(), set(), set(range(8))
        for _ in range(4):
            self.add_source(*looped(r))
        self.ticks, self.notes = 160, []
        for v in range(8):
            self.notes += [Note(v, at, None, r.randrange(4), round(0x400 * 2 ** (r.randrange(0, 37) / 12))) for at in range(v, 156, 20)]
        self.write_table(self.random_settings())


def tune_of(name):
    return Eight() if name == "eight" else Tune(int(name))


def main():
    if len(sys.argv) != 3 or not (sys.argv[1] == "eight" or sys.argv[1].isdecimal()):
        sys.exit(__doc__)
    with open(sys.argv[2], "wb") as file:
        file.write(tune_of(sys.argv[1]).cart())


if __name__ == "__main__":
    main()
