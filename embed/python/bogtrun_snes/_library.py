"""Finds libbogtrun-snes.so, and declares its calls."""
from __future__ import annotations

import ctypes
import os
import threading
from ctypes import POINTER, c_char_p, c_size_t, c_uint16, c_uint32, c_void_p

from ._errors import LibraryNotFound

NAME = 'libbogtrun-snes.so'

_loaded: dict[str, ctypes.CDLL] = {}
_lock = threading.Lock()


class Answer(ctypes.Structure):
    """struct snes_answer."""

    _fields_ = [('cause', c_uint32), ('place', c_uint32), ('video_count', c_size_t), ('sound_count', c_size_t)]


class Kept(ctypes.Structure):
    """struct snes_console. Nobody here looks into it."""

    _fields_ = [('full', c_uint32), ('at', c_void_p)]


_INPUT = [c_char_p, c_size_t]
_ROOM = [c_void_p, c_size_t]
_CALLS = {
    'snes_begin': [POINTER(Kept), *_INPUT, *_INPUT, *_INPUT, c_uint32, c_uint32, c_uint32, POINTER(Answer)],
    'snes_frame': [POINTER(Kept), c_uint16, c_uint16, *_ROOM, *_ROOM, POINTER(Answer)],
    'snes_reset': [POINTER(Kept)],
    'snes_keep': [POINTER(Kept), c_uint32],
    'snes_back': [POINTER(Kept), c_uint32],
    'snes_end': [POINTER(Kept)],
}


def _places(library: str | os.PathLike[str] | None) -> list[str]:
    """Where the library may be. One that is named by the caller or the environment is looked for nowhere else."""
    named = os.fspath(library) if library is not None else os.environ.get('SNES_LIBRARY')
    if named:
        return [named]
    return [os.path.join(os.path.dirname(os.path.abspath(__file__)), NAME), NAME]


def load(library: str | os.PathLike[str] | None = None) -> ctypes.CDLL:
    """The library: the one that is named, else of SNES_LIBRARY, else beside this package, else the system's."""
    faults = []
    with _lock:
        for place in _places(library):
            try:
                if place not in _loaded:
                    found = ctypes.CDLL(place)
                    for name, kinds in _CALLS.items():
                        call = getattr(found, name)
                        call.argtypes, call.restype = kinds, c_uint32
                    _loaded[place] = found
                return _loaded[place]
            except (OSError, AttributeError) as fault:
                faults.append(str(fault))
    raise LibraryNotFound(f"no {NAME}: {'; '.join(faults)}. Name it by library=, or by SNES_LIBRARY.")
