#!/usr/bin/env python3
"""Plays a cartridge by the console as a shared library, and says the sums of its video and sound.

    play.py LIBRARY CART BOOT TABLE SCRIPT FRAMES [VIDEO-ROOM [SOUND-ROOM]]
"""
import ctypes
import hashlib
import sys

FRAME_BYTES, FRAME_SOUND_ROOM = 244736, 2560


class Answer(ctypes.Structure):
    _fields_ = [('cause', ctypes.c_uint32), ('place', ctypes.c_uint32), ('video', ctypes.c_size_t), ('sound', ctypes.c_size_t)]


def play(library, inputs, frames, video_room, sound_room):
    """Calls snes_play, and gives its status, its answer, and the two rooms behind it."""
    video, sound, answer = bytearray(b'\xee') * (video_room + 1), bytearray(b'\xee') * (sound_room + 1), Answer()
    words = []
    for one in inputs:
        words += [ctypes.c_char_p(one), ctypes.c_size_t(len(one))]
    words.append(ctypes.c_uint32(frames))
    for room, size in ((video, video_room), (sound, sound_room)):
        words += [(ctypes.c_char * len(room)).from_buffer(room), ctypes.c_size_t(size)]
    status = ctypes.CDLL(library).snes_play(*words, ctypes.byref(answer))
    return status, answer, video, sound


def main(library, *words):
    inputs = [open(name, 'rb').read() for name in words[:4]]
    frames, *rooms = map(int, words[4:])
    video_room, sound_room = (rooms + [frames * FRAME_BYTES, frames * FRAME_SOUND_ROOM][len(rooms):])[:2]
    status, answer, video, sound = play(library, inputs, frames, video_room, sound_room)
    print(f'status {status} cause {answer.cause} place {answer.place} video {answer.video} sound {answer.sound}')
    print('video', hashlib.sha256(video[:answer.video]).hexdigest())
    print('sound', hashlib.sha256(sound[:answer.sound]).hexdigest())
    # What stands behind the output, or in both rooms where nothing was played.
    print('behind', *(sum(byte != 0xee for byte in room[count:]) for room, count in ((video, answer.video), (sound, answer.sound))))
    return status


if __name__ == '__main__':
    sys.exit(main(*sys.argv[1:]))
