"""A Super Nintendo console, a frame at a time.

    from bogtrun_snes import Button, Console

    with Console('game.sfc') as console:
        for _ in range(60):
            picture, samples = console.frame(Button.START)
        console.keep(0)
        console.frame(Button.A | Button.RIGHT)
        console.back(0)

The frames of a path are those of the program `snes serial` for a script with the same pads and resets, byte for byte. The
console is the library libbogtrun-snes.so, which is proved; this package, which calls it by ctypes, is not.
docs/use/EMBEDDING.md of the project says what is proved, and what of a caller.
"""
from ._console import Button, Console, Frame, RawFrame
from ._errors import Cause, ConsoleError, LibraryNotFound, Status

__all__ = ['Button', 'Cause', 'Console', 'ConsoleError', 'Frame', 'LibraryNotFound', 'RawFrame', 'Status']
