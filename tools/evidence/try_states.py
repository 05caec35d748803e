#!/usr/bin/env python3
"""Whether `snes dump` writes what cartridges at random have put into the memories.

    tools/evidence/try_states.py SNES SCENE [FROM TO]

SNES is the program, SCENE the one that writes the free boot ROM and table. Each number from FROM to before TO (0 and 200) makes a
cartridge whose program fills parts of work RAM, VRAM, CGRAM and OAM by DMA, stores bytes into its own RAM, uploads a program and
bytes into the RAM of the SPC700, and stops with registers of its choice; the uploaded program writes registers of the S-DSP and
the ports, and stops too. What the file has to hold then is worked out here, by nothing of the sources. Where the page of the
state file puts a byte is written down here once more (OFFSETS). The status is 1 where a byte differs.
"""
import os
import random
import subprocess
import sys
import tempfile

OFFSETS = {"cpu": 0x20, "spc": 0x30, "ports": 0x38, "dsp": 0x80, "cgram": 0x200, "oam": 0x400, "wram": 0x10000, "vram": 0x30000, "aram": 0x40000, "sram": 0x50000}
FRAMES = 60
# The registers of the S-DSP that read what was written, and make no sound.
QUIET = [v * 16 + r for v in range(8) for r in range(8)] + [0x0C, 0x1C, 0x2C, 0x3C, 0x0D, 0x2D, 0x3D, 0x4D, 0x5D, 0x6D, 0x7D] + [v * 16 + 15 for v in range(8)]


class Job:
    """A cartridge, and what its memories have to hold."""

    def __init__(self, seed):
        self.r = random.Random(seed)
        self.rom = bytearray(self.r.randbytes(0x20000))
        self.ram_size = self.r.choice([0, 2, 4, 8, 16, 32]) * 1024
        self.code = bytearray()
        self.want = {"wram": bytearray(0x20000), "vram": bytearray(0x10000), "cgram": bytearray(512), "oam": bytearray(544), "sram": bytearray(self.ram_size)}
        self.latch = 0
        self.emit("78 18 FB E2 30")
        self.store(0x2100, 0x80)
        kinds = [self.fill_wram, self.fill_vram, self.fill_cgram, self.fill_oam, self.fill_sram]
        fills = kinds + self.r.choices(kinds, k=self.r.randrange(8))
        self.r.shuffle(fills)
        for fill in fills:
            fill()
        self.upload()
        self.stop()
        self.finish()

    def emit(self, text):
        self.code += bytes.fromhex(text)

    def store(self, address, value):
        self.code += bytes([0xA9, value & 255, 0x8D, address & 255, address >> 8])

    def dma(self, mode, register, count):
        """Copies bytes of the ROM to a register, and tells which."""
        bank, channel = self.r.randrange(1, 4), self.r.randrange(8)
        address = self.r.randrange(0x8000, 0x10000 - count + 1)
        at = 0x4300 + 16 * channel
        for offset, value in enumerate([mode, register, address, address >> 8, bank, count, count >> 8]):
            self.store(at + offset, value)
        self.store(0x420B, 1 << channel)
        start = bank * 0x8000 + address - 0x8000
        return self.rom[start:start + count]

    def fill_wram(self):
        to = self.r.randrange(0x20000)
        for n in range(3):
            self.store(0x2181 + n, to >> 8 * n)
        for n, byte in enumerate(self.dma(0, 0x80, self.r.randrange(1, 0x6000))):
            self.want["wram"][(to + n) % 0x20000] = byte

    def fill_vram(self):
        word, kind = self.r.randrange(0x8000), self.r.randrange(3)
        self.store(0x2115, [0x80, 0x00, 0x80][kind])
        self.store(0x2116, word)
        self.store(0x2117, word >> 8)
        count = 2 * self.r.randrange(1, 0x2800)
        for n, byte in enumerate(self.dma(*[(1, 0x18), (0, 0x18), (0, 0x19)][kind], count)):
            at = [2 * word + n, 2 * (word + n), 2 * (word + n) + 1][kind]
            self.want["vram"][at % 0x10000] = byte

    def fill_cgram(self):
        first = self.r.randrange(256)
        self.store(0x2121, first)
        for n, byte in enumerate(self.dma(self.r.choice([0, 2]), 0x22, 2 * self.r.randrange(1, 257))):
            self.want["cgram"][(2 * first + n) % 512] = byte & (0x7F if n % 2 else 0xFF)

    def fill_oam(self):
        word = self.r.randrange(512)
        self.store(0x2102, word)
        self.store(0x2103, word >> 8)
        at = 2 * word
        for byte in self.dma(0, 0x04, 2 * self.r.randrange(1, 300)):
            if at >= 512:
                self.want["oam"][512 + at % 32] = byte
            elif at % 2 == 0:
                self.latch = byte
            else:
                self.want["oam"][at - 1:at + 1] = bytes([self.latch, byte])
            at = (at + 1) % 1024

    def fill_sram(self):
        for _ in range(20 if self.ram_size else 0):
            to, value = self.r.randrange(self.ram_size), self.r.randrange(256)
            self.code += bytes([0xA9, value, 0x8F, to & 255, to >> 8, 0x70])
            self.want["sram"][to] = value

    def upload(self):
        """Puts a program and bytes into the RAM of the SPC700, by the protocol of its boot ROM."""
        r = self.r
        self.dsp = {register: r.randrange(256) for register in r.sample(QUIET, 20)}
        self.out = r.randbytes(4)
        self.spc = dict(a=r.randrange(256), x=r.randrange(256), y=r.randrange(256), sp=r.randrange(256))
        program = bytearray()
        for register, value in self.dsp.items():
            program += bytes([0x8F, register, 0xF2, 0x8F, value, 0xF3])
        for n, value in enumerate(self.out):
            program += bytes([0x8F, value, 0xF4 + n])
        # MOV X and MOV SP, X; DI, CLRP, CLRC, CLRV; MOV A, X and Y, of which the last sets N and Z; BRA to itself.
        program += bytes([0xCD, self.spc["sp"], 0xBD, 0xC0, 0x20, 0x60, 0xE0, 0xE8, self.spc["a"], 0xCD, self.spc["x"], 0x8D, self.spc["y"], 0x2F, 0xFE])
        self.spc["psw"] = (self.spc["y"] & 0x80) | (0x02 if self.spc["y"] == 0 else 0)
        self.block_at = r.randrange(0x0200, 0xE000)
        self.block = program + r.randbytes(r.randrange(1, 1500))
        if (len(self.block) + 1) % 256 == 0:
            self.block += b"\x55"
        self.spc["pc"] = self.block_at + len(program) - 2
        # The block lies in bank 0 of the ROM, behind the code.
        self.block_from = 0x4000
        count, to, kick = len(self.block), self.block_at, (len(self.block) + 1) & 255
        self.emit("C2 10 AD4021 C9AA D0F9 AD4121 C9BB D0F2")
        self.code += bytes([0xA2, to & 255, to >> 8])
        self.emit("8E4221 A901 8D4121 A9CC 8D4021 CD4021 D0FB A20000")
        self.emit("BF00C000 8D4121 8A 8D4021 CD4021 D0FB E8")
        self.code += bytes([0xE0, count & 255, count >> 8, 0xD0, 256 - 22])
        self.emit("9C4121")
        self.code += bytes([0xA2, to & 255, to >> 8])
        self.emit("8E4221 A9")
        self.code += bytes([kick])
        self.emit("8D4021")
        self.incoming = bytes([kick, 0, to & 255, to >> 8])

    def stop(self):
        """Registers of its choice, and a branch to itself."""
        r = self.r
        a, x, y, d, s, bank = r.randrange(65536), r.randrange(65536), r.randrange(65536), r.randrange(65536), r.randrange(0x1000, 0x2000), r.randrange(256)
        word = lambda n: bytes([n & 255, n >> 8])
        self.code += b"\xC2\x30\xA9" + word(s) + b"\x1B\xE2\x20\xA9" + bytes([bank]) + b"\x48\xAB\xC2\x20\xA9" + word(d) + b"\x5B"
        self.want["wram"][s] = bank
        self.code += b"\xA9" + word(a) + b"\xA2" + word(x) + b"\xA0" + word(y) + b"\x80\xFE"
        p = 0x05 | (0x80 if y & 0x8000 else 0) | (0x02 if y == 0 else 0)
        self.cpu = b"".join(map(word, [a, x, y, s, d, 0x8000 + len(self.code) - 2])) + bytes([bank, 0, p, 0])

    def finish(self):
        assert len(self.code) < self.block_from and self.block_from + len(self.block) < 0x7FB0
        self.rom[:len(self.code)] = self.code
        self.rom[self.block_from:self.block_from + len(self.block)] = self.block
        self.rom[0x7FC0:0x8000] = bytes(64)
        self.rom[0x7FD5] = 0x20
        self.rom[0x7FD8] = 0 if not self.ram_size else self.ram_size.bit_length() - 11
        self.rom[0x7FFC:0x7FFE] = b"\x00\x80"

    def faults(self, state):
        """The bytes that differ, by the name of the part and the place in it."""
        s = self.spc
        want = dict(self.want, cpu=self.cpu, spc=bytes([s["a"], s["x"], s["y"], s["sp"], s["pc"] & 255, s["pc"] >> 8, s["psw"]]), ports=self.incoming + self.out)
        parts = [(name, OFFSETS[name], bytes(value)) for name, value in want.items()]
        parts.append(("aram", OFFSETS["aram"] + self.block_at, bytes(self.block)))
        parts += [("dsp", OFFSETS["dsp"] + register, bytes([value])) for register, value in self.dsp.items()]
        head = b"SNESDUMP\x01\0\0\0" + FRAMES.to_bytes(4, "little") + self.ram_size.to_bytes(4, "little") + bytes(12)
        parts.append(("header", 0, head))
        if len(state) != 0x50000 + self.ram_size:
            yield "size", len(state)
        for name, at, value in parts:
            for n, byte in enumerate(value):
                if state[at + n:at + n + 1] != bytes([byte]):
                    yield name, n


def main():
    if len(sys.argv) not in (3, 5):
        sys.exit(__doc__)
    snes, scene = sys.argv[1:3]
    first, last = map(int, sys.argv[3:5]) if len(sys.argv) == 5 else (0, 200)
    bad = 0
    with tempfile.TemporaryDirectory() as folder:
        name = lambda it: os.path.join(folder, it)
        subprocess.run([scene, folder], check=True, stdout=subprocess.DEVNULL)
        for seed in range(first, last):
            job = Job(seed)
            with open(name("cart"), "wb") as file:
                file.write(job.rom)
            words = ["dump", "--cart", name("cart"), "--boot", name("boot.bin"), "--table", name("table.bin"), "--script", name("script.txt"), "--frames", str(FRAMES), "--state", name("state")]
            done = subprocess.run([snes, *words], capture_output=True, text=True)
            if done.returncode:
                sys.exit(f"{seed}: status {done.returncode}, {done.stdout}{done.stderr}")
            with open(name("state"), "rb") as file:
                faults = list(job.faults(file.read()))
            if faults:
                bad += 1
                print(f"{seed}: {len(faults)} bytes differ, the first of {faults[0][0]} at {faults[0][1]:x}")
    print(f"{last - first} states, {bad} with bytes that differ")
    sys.exit(bad > 0)


main()
