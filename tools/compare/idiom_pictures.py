"""The pictures that the cartridges of examples/profiles have to show, drawn by the rules alone.

Letters come from the font of examples/hello, objects from their table. Neither this project's program nor another
emulator takes part, except at hires.sfc: its picture in the second profile is another emulator's, and that of the first
is this picture with the rule applied to it.
"""
import os
import re

import numpy

HERE = os.path.dirname(os.path.abspath(__file__))
FONT = os.path.join(HERE, "../../examples/hello/font.inc")
WIDTH, HEIGHT = 512, 239
DARK, WHITE, BLUE, GREEN, HIRES_BLUE = 0x2000, 0x7FFF, 0x5000, 0x02A0, 0x3C00
OBJECT_COLOURS = (None, 0x03FF, 0x7FE0, 0x03E0)

# Lines of text: what both profiles show, what the first shows, what the second shows. Each has row, column and text.
TEXTS = {
    "autoread": ([(4, "AUTO-READ, PAD 1: A AND R")], [(7, "WAITING FOR BIT 0 OF 4212")],
                 [(7, "16 AUTO-READS SEEN"), (9, "WHILE BUSY: 0000"), (11, "THEN:       0090")]),
    "lineirq": ([(4, "V-IRQ FOR THE PRESENT LINE"), (12, "WRITTEN AGAIN: 10")],
                [(row, f"BY {name}:       00") for row, name in ((6, 4209), (8, "420A"), (10, 4200))]
                + [(14, "A CHAIN OF 80: 08")],
                [(row, f"BY {name}:       10") for row, name in ((6, 4209), (8, "420A"), (10, 4200))]
                + [(14, "A CHAIN OF 80: 80")]),
    "region": ([(4, "STAT78 BIT 4 SAYS:")], [(6, "NTSC, 60 HZ")], [(6, "PAL, 50 HZ")]),
    "field": ([], [(4, "WAITING FOR FIELDS")], [(4, "16 FIELDS SEEN")]),
    "vram": ([(4, "VRAM IN THE PICTURE"), (10, "KEPT")], [(row, "LOSTKEPT") for row in (6, 8, 12)],
             [(row, "    KEPT") for row in (6, 8, 12)]),
    "keyon": ([(4, "KON, 64 TIMES EACH"), (8, "             VOICE 3: 40")],
              [(6, "FOUR WRITES, VOICE 0: 40"), (10, "VOICE 0, THEN NONE:   40")],
              [(6, "FOUR WRITES, VOICE 0: 05"), (10, "VOICE 0, THEN NONE:   05")]),
    "keyoff": ([(4, "KOFF FOR 42 CYCLES, 64 TIMES")], [(6, "NOTES THAT GO ON: 00")], [(6, "NOTES THAT GO ON: 16")]),
    "oneshot": ([(4, "BLOCKS THAT ARE HEARD"), (6, "END WITHOUT LOOP, FIRST: 1"), (10, "END WITH LOOP:           1")],
                [(8, "                   LAST: 1")], [(8, "                   LAST: 0")]),
    "latch": ([(4, "LINES THAT WERE LATCHED"), (10, "2137 WHILE IT IS 1: 82")],
              [(6, "4201, BIT 7 FALLS: 64"), (8, "2137 WHILE IT IS 0: 78")],
              [(6, "4201, BIT 7 FALLS: 6E"), (8, "2137 WHILE IT IS 0: 6E")]),
}
# Across, down, tile, flipped across, flipped down: the first four are 16 by 32, the others 32 by 64 or 32 by 32.
OBJECTS = [(left + 64 * i, top, tile, i % 2, i // 2) for left, top, tile in ((24, 40, 0x13), (16, 104, 0x11))
           for i in range(4)]


def letters():
    """The 64 letters, 8 lines each, as lists of bits."""
    data = []
    with open(FONT, encoding="ascii") as file:
        for line in file:
            line = line.split(";")[0].strip()
            if line.startswith(".res"):
                data += [0] * int(line.split()[1])
            elif line.startswith(".byte"):
                data += [int(digits, 16) for digits in re.findall(r"\$([0-9A-F]{2})", line)]
    return [[[byte >> (7 - x) & 1 for x in range(8)] for byte in data[at:at + 8]] for at in range(0, 512, 8)]


LETTERS = letters()


def put(page, x, y, colour):
    if 0 <= x < 256 and 0 <= y < 224:
        page[y, 2 * x:2 * x + 2] = colour


def say(page, row, column, text):
    """Writes text into the map of a background. Row 0 of the picture is line 1 of the map."""
    for place, letter in enumerate(text):
        for y, line in enumerate(LETTERS[ord(letter) - 32]):
            for x, bit in enumerate(line):
                if bit:
                    put(page, 8 * (column + place) + x, 8 * row + y - 1, WHITE)


def object_value(tile, x, y):
    """The value of a pixel of the objects' tiles: the letters three times, with values 1, 2 and 3."""
    number = (tile + 16 * (y // 8) & 0xF0) | (tile + x // 8 & 15)
    return (number // 64 + 1) * LETTERS[number % 64][y % 8][x % 8] if number < 192 else 0


def flips(page, code, profile):
    say(page, 2, 3, f"SIZE CODE {code}")
    for number, (left, top, tile, across, down) in enumerate(OBJECTS):
        width = 16 if number < 4 else 32
        height = 32 if number < 4 or code == 7 else 64
        for y in range(height):
            line = y
            if down:
                line = height - 1 - y if profile == "first" or width == height else y ^ (width - 1)
            for x in range(width):
                value = object_value(tile, width - 1 - x if across else x, line)
                if value:
                    put(page, left + x, top + y, OBJECT_COLOURS[value])


def expected(name, number, profile, core):
    """The picture of a cartridge in a frame, 239 rows of 512 half-pixels; CORE is another emulator's."""
    page = numpy.zeros((HEIGHT, WIDTH), dtype="<u2")
    if name == "hires":
        page[:] = core
        if profile == "first":
            even = page[:224, ::2]
            even[even == HIRES_BLUE] = 0
        return page
    page[:224] = DARK
    if name == "flips":
        flips(page, 6 if number < 45 else 7, profile)
        return page
    if name == "field" and profile == "second":
        page[:224] = GREEN if number % 2 else BLUE
    both, first, second = TEXTS[name]
    for row, text in both + (first if profile == "first" else second):
        say(page, row, 3, text)
    return page
