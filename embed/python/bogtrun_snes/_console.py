"""A console that is kept between frames."""
from __future__ import annotations

import array
import ctypes
import enum
import os
import threading
from typing import Any, NamedTuple, Union

from . import _library
from ._errors import Cause, ConsoleError, Status

try:
    import numpy
except ImportError:
    numpy = None  # type: ignore[assignment]

WIDTH, HEIGHT = 512, 239
FRAME_BYTES, FRAME_SOUND_ROOM = 244736, 2560
REGIONS = {'ntsc': 0, 'pal': 1}

File = Union[bytes, bytearray, memoryview, str, 'os.PathLike[str]']


class Button(enum.IntFlag):
    """The buttons of a pad. `Button.A | Button.RIGHT` is a pad with both down. The low four bits of a pad count as 0."""

    B = 0x8000
    Y = 0x4000
    SELECT = 0x2000
    START = 0x1000
    UP = 0x0800
    DOWN = 0x0400
    LEFT = 0x0200
    RIGHT = 0x0100
    A = 0x0080
    X = 0x0040
    L = 0x0020
    R = 0x0010


class Frame(NamedTuple):
    """A frame.

    `picture` has 239 rows of 512 dots, each dot red, green and blue of 8 bits: with numpy an array of the shape
    (239, 512, 3) and the type uint8, else bytes in the same order. `samples` has left and right, 32,000 a second: with
    numpy an array of the shape (n, 2) and the type int16, else an array('h') of left and right by turns.
    """

    picture: Any
    samples: Any


class RawFrame(NamedTuple):
    """The bytes of a frame, as snes.h says and as `snes serial` writes them."""

    video: bytes
    sound: bytes


# Five bits of a colour as eight.
_WIDER = bytes((value & 31) << 3 | (value & 31) >> 2 for value in range(256))
_LOW_BYTE_GREEN = bytes(value >> 5 for value in range(256))
_HIGH_BYTE_GREEN = bytes((value & 3) << 3 for value in range(256))
_HIGH_BYTE_BLUE = bytes(_WIDER[value >> 2] for value in range(256))


def _picture_by_numpy(video: bytes) -> Any:
    dots = numpy.frombuffer(video, '<u2').reshape(HEIGHT, WIDTH)
    picture = numpy.empty((HEIGHT, WIDTH, 3), numpy.uint8)
    for colour in range(3):
        five = (dots >> (5 * colour)) & 31
        picture[..., colour] = five << 3 | five >> 2
    return picture


def _picture_by_bytes(video: bytes) -> bytes:
    low, high = video[::2], video[1::2]
    # Either part of green has bits of its own, so that one addition puts all of them together.
    parts = (int.from_bytes(part, 'little') for part in (low.translate(_LOW_BYTE_GREEN), high.translate(_HIGH_BYTE_GREEN)))
    picture = bytearray(3 * len(low))
    picture[::3] = low.translate(_WIDER)
    picture[1::3] = sum(parts).to_bytes(len(low), 'little').translate(_WIDER)
    picture[2::3] = high.translate(_HIGH_BYTE_BLUE)
    return bytes(picture)


def _bytes_of(file: File | None) -> bytes:
    if file is None:
        return b''
    if isinstance(file, (bytes, bytearray, memoryview)):
        return bytes(file)
    with open(file, 'rb') as opened:
        return opened.read()


class Console:
    """A console with a cartridge in it, switched on.

    `cart`, `boot` and `table` are bytes, or the name of a file. Without `boot` and `table` the free ones are taken.
    `region` is 'ntsc' or 'pal'. A path has `most` frames at most, 1 to 36,000. There is room for `slots` save states, 0 to
    64. `library` names the shared object; else SNES_LIBRARY does, else it is beside this package, or the system's.

    A call that is not done raises a ConsoleError, and leaves the console as it was. One thread at a time is in a call of a
    console; others wait. Two consoles in two threads play at the same time.
    """

    def __init__(
        self,
        cart: File,
        boot: File | None = None,
        table: File | None = None,
        region: str = 'ntsc',
        most: int = 36000,
        slots: int = 8,
        library: str | os.PathLike[str] | None = None,
    ) -> None:
        self._kept = _library.Kept()
        self._lock = threading.RLock()
        self._answer = _library.Answer()
        self._frames = 0
        self._frames_kept: dict[int, int] = {}
        self.most = most
        self.slots = slots
        self.region = region
        self._library = _library.load(library)
        inputs: list[bytes | int] = []
        for file, name in ((cart, 'cart'), (boot, 'boot'), (table, 'table')):
            data = _bytes_of(file)
            if not data and file is not None and name != 'cart':
                raise ValueError(f'{name} is empty; None stands for the free one')
            inputs += [data, len(data)]
        numbers = [_word(number) for number in (REGIONS.get(region, 2), most, slots)]
        self._video = ctypes.create_string_buffer(FRAME_BYTES)
        self._sound = ctypes.create_string_buffer(FRAME_SOUND_ROOM)
        self._done(self._library.snes_begin(self._kept, *inputs, *numbers, self._answer))

    @property
    def frames(self) -> int:
        """How many frames the path has so far."""
        return self._frames

    def raw_frame(self, pad1: int = 0, pad2: int = 0) -> RawFrame:
        """Plays a frame while the pads have these buttons down, and gives its bytes."""
        with self._lock:
            rooms = (self._video, FRAME_BYTES, self._sound, FRAME_SOUND_ROOM)
            for pad in (pad1, pad2):
                if not 0 <= pad <= 0xffff:
                    raise ValueError(f'{pad} is no pad: give 0 to 0xFFFF, or Buttons')
            self._done(self._library.snes_frame(self._kept, pad1, pad2, *rooms, self._answer))
            self._frames += 1
            video = ctypes.string_at(self._video, self._answer.video_count)
            return RawFrame(video, ctypes.string_at(self._sound, self._answer.sound_count))

    def frame(self, pad1: int = 0, pad2: int = 0) -> Frame:
        """Plays a frame while the pads have these buttons down, and gives its picture and its samples."""
        video, sound = self.raw_frame(pad1, pad2)
        if numpy is None:
            return Frame(_picture_by_bytes(video), array.array('h', sound))
        return Frame(_picture_by_numpy(video), numpy.frombuffer(bytearray(sound), '<i2').reshape(-1, 2))

    def reset(self) -> None:
        """Presses the reset button: the next frame begins with a reset.

        It is refused before the first frame of the path, and twice with no frame between, as in a script.
        """
        with self._lock:
            self._moved(self._library.snes_reset(self._kept), Cause.RESET_TOO_SOON)

    def keep(self, slot: int) -> None:
        """Keeps the state in a slot, in place of what the slot had."""
        with self._lock:
            self._moved(self._library.snes_keep(self._kept, _word(slot)))
            self._frames_kept[slot] = self._frames

    def back(self, slot: int) -> None:
        """Goes back to the state that a slot has. A slot in which nothing was kept has the state of the start."""
        with self._lock:
            self._moved(self._library.snes_back(self._kept, _word(slot)))
            self._frames = self._frames_kept.get(slot, 0)

    def close(self) -> None:
        """Ends the console, and gives back its memory. A console that is closed stays closed."""
        with self._lock:
            if self._library.snes_end(self._kept) not in (Status.OK, Status.EMPTY):
                raise AssertionError('a console could not be ended')

    def __enter__(self) -> Console:
        return self

    def __exit__(self, *fault: object) -> None:
        self.close()

    def __del__(self) -> None:
        # One that could not begin may have no library yet.
        if hasattr(self, '_library'):
            self.close()

    def _done(self, status: int) -> None:
        """Raises a status that is not OK, with the cause that the call gave."""
        if status != Status.OK:
            raise ConsoleError(status, self._answer.cause, self._answer.place)

    @staticmethod
    def _moved(status: int, refused: Cause = Cause.BAD_SLOT) -> None:
        """Raises a status that is not OK of a call that gives no cause, since each of its statuses has but one."""
        if status != Status.OK:
            raise ConsoleError(status, Cause.NO_CONSOLE if status == Status.EMPTY else refused)


def _word(number: int) -> int:
    """A number as the library takes it. One that is no number of 32 bits becomes one that it refuses."""
    number = int(number)
    return number if 0 <= number < 1 << 32 else (1 << 32) - 1
