"""Why a call was not done: the statuses and causes of snes.h, and what to do about each."""
from __future__ import annotations

import enum


class Status(enum.IntEnum):
    """The status of a call, as snes.h has it."""

    OK = 0
    FRAMES = 1
    REFUSED = 3
    TOO_SHORT = 4
    NO_MEMORY = 5
    EMPTY = 6
    FULL = 7


class Cause(enum.IntEnum):
    """The cause of a status, as snes.h has it. RESET_TOO_SOON is of this package: snes_reset gives no cause."""

    RESET_TOO_SOON = 0
    CART_TOO_SHORT = 1
    CART_TOO_LONG = 2
    CART_NO_HEADER = 3
    CART_COPROCESSOR = 4
    CART_RAM_SIZE = 5
    BOOT_SIZE = 6
    TABLE = 7
    SCRIPT = 8
    VIDEO_TOO_SHORT = 9
    SOUND_TOO_SHORT = 10
    TOO_MANY_FRAMES = 11
    WANT_OF_MEMORY = 12
    NO_CONSOLE = 13
    BAD_REGION = 14
    BAD_SLOT = 15
    CONSOLE_HELD = 16


# What happened, and what to do. The others are none that a caller of this package can bring about.
_CAUSES = {
    Cause.RESET_TOO_SOON: ('no frame was played since the start or the last press of reset', 'Play a frame first.'),
    Cause.CART_TOO_SHORT: ('the cartridge has fewer than 32,768 bytes', 'Give the whole image of a cartridge.'),
    Cause.CART_TOO_LONG: ('the cartridge has more than 4,194,304 bytes', 'Give the image of one cartridge, without more behind it.'),
    Cause.CART_NO_HEADER: ('the cartridge has neither a LoROM nor a HiROM header', 'Give an image of these two kinds.'),
    Cause.CART_COPROCESSOR: ('the cartridge has the chip {place:02X}', 'Cartridges with a chip of their own are not played.'),
    Cause.CART_RAM_SIZE: ('the cartridge asks for RAM of size {place}', 'Cartridges with more than 128 KiB of RAM are not played.'),
    Cause.BOOT_SIZE: ('the boot ROM does not have 64 bytes', 'Give 64 bytes, or None for the free boot ROM.'),
    Cause.TABLE: ('the table is refused at entry {place}', 'Give 512 numbers of 16 bits up to 2047, or None for the free table.'),
    Cause.TOO_MANY_FRAMES: ('a path has 1 to 36,000 frames, and not more than `most`', 'Go back to a slot, or begin a new console.'),
    Cause.WANT_OF_MEMORY: ('there is no memory', 'Take fewer slots, or close other consoles.'),
    Cause.NO_CONSOLE: ('the console is closed', 'Begin a new console.'),
    Cause.BAD_REGION: ('the region is neither NTSC nor PAL', "Give 'ntsc' or 'pal'."),
    Cause.BAD_SLOT: ('there is no such slot', 'Name a slot from 0 to `slots` - 1. A console has 0 to 64 slots.'),
}


class ConsoleError(Exception):
    """A call of the library that was not done. The console is as it was before the call.

    `status` and `cause` are those of snes.h, `place` is the detail of the cause, `advice` is what to do.
    """

    def __init__(self, status: int, cause: int, place: int = 0) -> None:
        self.status = Status(status)
        self.cause = Cause(cause)
        self.place = place
        what, self.advice = _CAUSES.get(self.cause, (self.cause.name, ''))
        super().__init__(f'{what.format(place=place)}. {self.advice}'.strip())

    def __reduce__(self) -> tuple[type[ConsoleError], tuple[int, int, int]]:
        return type(self), (int(self.status), int(self.cause), self.place)


class LibraryNotFound(OSError):
    """libbogtrun-snes.so is at no place where it is looked for, or lacks the calls of this package."""
