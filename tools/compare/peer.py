#!/usr/bin/env python3
"""Runs a cartridge in another emulator, a libretro core, and writes its pictures and sound as ./snes writes them.

  peer.py CORE CART SCRIPT FRAMES VIDEO AUDIO [--later N]

CORE is a shared library of Debian's packages, as
/usr/lib/x86_64-linux-gnu/libretro/bsnes_mercury_accuracy_libretro.so. SCRIPT is a script of ./snes (version 1: lines of
a count and two pads). VIDEO gets frames of 239 rows of 512 dots of 15 bits, where rows that the core doesn't show are
zeros; AUDIO pairs of 16 bits at the core's own rate, which is printed. With --later the script begins N frames later.

The cartridge has to read the pads once in each frame, from its first time on, since the core's frames end close to
the auto-read, some before it and some behind it: so reads are counted, and not frames.

The core has a boot ROM and a table of its own: no core of these packages lets a front end choose them. What a front end
needs of libretro's interface is declared here. Needs numpy.
"""
import argparse
import array
import ctypes
import sys

import numpy

WIDTH, HEIGHT = 512, 239
# Where red, green and blue begin in a dot, without their low bits: of the formats 0RGB1555, XRGB8888 and RGB565.
SHIFTS = [(10, 5, 0), (19, 11, 3), (11, 6, 0)]
GET_CAN_DUPE, GET_SYSTEM_DIRECTORY, SET_PIXEL_FORMAT, GET_SAVE_DIRECTORY = 3, 9, 10, 31


class Game(ctypes.Structure):
    _fields_ = [("path", ctypes.c_char_p), ("data", ctypes.c_char_p), ("size", ctypes.c_size_t), ("meta", ctypes.c_char_p)]


class AvInfo(ctypes.Structure):
    _fields_ = [(name, ctypes.c_uint) for name in ("width", "height", "max_width", "max_height")] + [
        ("aspect", ctypes.c_float), ("fps", ctypes.c_double), ("rate", ctypes.c_double)]


ENVIRONMENT = ctypes.CFUNCTYPE(ctypes.c_bool, ctypes.c_uint, ctypes.c_void_p)
PICTURE = ctypes.CFUNCTYPE(None, ctypes.c_void_p, ctypes.c_uint, ctypes.c_uint, ctypes.c_size_t)
SAMPLE = ctypes.CFUNCTYPE(None, ctypes.c_int16, ctypes.c_int16)
BATCH = ctypes.CFUNCTYPE(ctypes.c_size_t, ctypes.POINTER(ctypes.c_int16), ctypes.c_size_t)
POLL = ctypes.CFUNCTYPE(None)
STATE = ctypes.CFUNCTYPE(ctypes.c_int16, ctypes.c_uint, ctypes.c_uint, ctypes.c_uint, ctypes.c_uint)


def read_script(path, later):
    """The pads of each frame; behind the last line nothing is pressed."""
    pads = [(0, 0)] * later
    with open(path, encoding="ascii") as lines:
        for line in lines.read().splitlines():
            fields = line.split()
            if not fields:
                continue
            if len(fields) != 3:
                sys.exit(f"peer: only counts and pads are understood, not: {line}")
            pads += [(int(fields[1], 16), int(fields[2], 16))] * int(fields[0])
    return pads


class Peer:
    """A core with a cartridge."""

    def __init__(self, library, cart, pads):
        self.core = ctypes.CDLL(library)
        self.pads, self.frame, self.read, self.format = pads, 0, None, 0
        self.picture, self.sound = numpy.zeros((HEIGHT, WIDTH), dtype="<u2"), array.array("h")
        # The core keeps these, so they have to live as long as it does.
        self.kept = [ENVIRONMENT(self.environment), PICTURE(self.show), SAMPLE(self.hear), BATCH(self.hear_many),
                     POLL(lambda: None), STATE(self.button)]
        for name, function in zip(("environment", "video_refresh", "audio_sample", "audio_sample_batch", "input_poll",
                                   "input_state"), self.kept):
            getattr(self.core, "retro_set_" + name)(function)
        self.core.retro_init()
        with open(cart, "rb") as file:
            image = file.read()
        self.core.retro_load_game.restype = ctypes.c_bool
        game = Game(cart.encode(), image, len(image), None)
        if not self.core.retro_load_game(ctypes.byref(game)):
            sys.exit("peer: the core doesn't take the cartridge")
        for port in (0, 1):
            self.core.retro_set_controller_port_device(port, 1)
        self.info = AvInfo()
        self.core.retro_get_system_av_info(ctypes.byref(self.info))

    def environment(self, command, data):
        if command == SET_PIXEL_FORMAT:
            self.format = ctypes.cast(data, ctypes.POINTER(ctypes.c_int))[0]
            return True
        if command == GET_CAN_DUPE:
            ctypes.cast(data, ctypes.POINTER(ctypes.c_bool))[0] = False
            return True
        if command in (GET_SYSTEM_DIRECTORY, GET_SAVE_DIRECTORY):
            ctypes.cast(data, ctypes.POINTER(ctypes.c_char_p))[0] = b"/tmp"
            return True
        return False

    def show(self, data, width, height, pitch):
        """Takes a picture to five bits a channel, red lowest, and a row to 512 dots."""
        if not data:
            return
        kind = numpy.uint32 if self.format == 1 else numpy.uint16
        bytes_ = ctypes.string_at(data, pitch * height)
        dots = numpy.frombuffer(bytes_, dtype=kind).reshape(height, -1)[:HEIGHT, :width]
        red, green, blue = SHIFTS[self.format]
        colours = (dots >> red & 31) | (dots >> green & 31) << 5 | (dots >> blue & 31) << 10
        if width * 2 == WIDTH:
            colours = numpy.repeat(colours, 2, axis=1)
        self.picture = numpy.zeros((HEIGHT, WIDTH), dtype="<u2")
        self.picture[:len(colours)] = colours

    def hear(self, left, right):
        self.sound.extend((left, right))

    def hear_many(self, data, count):
        self.sound.frombytes(ctypes.string_at(data, 4 * count))
        return count

    def button(self, port, device, _index, number):
        """A button. The first one that is asked of the first pad begins an auto-read."""
        if port == 0 and number == 0:
            self.read = self.frame if self.read is None else self.read + 1
        if device != 1 or port > 1 or number > 11 or self.read is None or self.read >= len(self.pads):
            return 0
        return self.pads[self.read][port] >> (15 - number) & 1

    def run(self, frames, video, audio):
        for self.frame in range(frames):
            self.core.retro_run()
            self.picture.tofile(video)
        self.sound.tofile(audio)


def main():
    parser = argparse.ArgumentParser(description="runs a cartridge in a libretro core")
    for name in ("core", "cart", "script"):
        parser.add_argument(name)
    parser.add_argument("frames", type=int)
    parser.add_argument("video")
    parser.add_argument("audio")
    parser.add_argument("--later", type=int, default=0)
    words = parser.parse_args()
    peer = Peer(words.core, words.cart, read_script(words.script, words.later))
    with open(words.video, "wb") as video, open(words.audio, "wb") as audio:
        peer.run(words.frames, video, audio)
    print(f"frames {words.frames} samples {len(peer.sound) // 2} rate {peer.info.rate:g} format {peer.format}")


if __name__ == "__main__":
    main()
