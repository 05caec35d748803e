"""Tries the package against `snes serial`: python3 -m pytest embed/python/tests."""
import os
import pickle
import subprocess
import sys
import threading

import pytest
from bogtrun_snes import Button, Cause, Console, ConsoleError, LibraryNotFound, Status
from bogtrun_snes import _console, _library

FRAME = 244736
EXAMPLE = os.path.join(os.path.dirname(os.path.abspath(__file__)), '..', 'examples', 'environment.py')


def play(console, pads):
    """The bytes of frames with these pads, in a row."""
    frames = [console.raw_frame(*both) for both in pads]
    return b''.join(one.video for one in frames), b''.join(one.sound for one in frames)


def play_with_resets(console, pads, resets, first=0):
    """The same, with the reset button pressed before the frames of these numbers. The first of the frames has the number `first`."""
    parts = []
    for number, both in enumerate(pads, first):
        if number in resets:
            console.reset()
        parts.append(console.raw_frame(*both))
    return b''.join(one.video for one in parts), b''.join(one.sound for one in parts)


def script_with_resets(region, pads, resets):
    """A script of version 2 with these pads and resets, a line for each frame."""
    lines = [('reset\n' if number in resets else '') + f'1 {one:04x} {two:04x}\n' for number, (one, two) in enumerate(pads)]
    return f'version 2 {region}\n' + ''.join(lines)


def refused(status, cause, place, call, *words, **named):
    with pytest.raises(ConsoleError) as fault:
        call(*words, **named)
    assert (fault.value.status, fault.value.cause, fault.value.place) == (status, cause, place)
    assert fault.value.advice and fault.value.advice in str(fault.value)


def test_frames_are_those_of_serial(game, pads, serial):
    text, pads = pads
    with Console(game) as console:
        assert play(console, pads[:300]) == serial('game.sfc', text, 300)
        assert console.frames == 300


def test_frames_of_pal_are_those_of_serial(scene, pads, serial):
    text, pads = pads
    inputs = {'boot': scene / 'boot.bin', 'table': str(scene / 'table.bin')}
    with Console(scene / 'game.sfc', region='pal', **inputs) as console:
        assert play(console, pads[:300]) == serial('game.sfc', 'version 2 pal\n' + text, 300)


def test_back_to_a_slot(game, pads, serial):
    text, pads = pads
    video, sound = serial('game.sfc', text, 200)
    with Console(game, slots=2) as console:
        first = play(console, pads[:120])
        console.keep(1)
        other = play(console, [(Button.START | Button.A, 0)] * 80)
        console.back(1)
        assert console.frames == 120
        rest = play(console, pads[120:200])
        assert (first[0] + rest[0], first[1] + rest[1]) == (video, sound)
        assert other[0] != rest[0]
        console.back(1)
        assert play(console, pads[120:200]) == rest


def test_a_slot_in_which_nothing_was_kept_has_the_start(game, pads, serial):
    with Console(game, slots=64) as console:
        first = play(console, pads[1][:20])
        console.back(63)
        assert console.frames == 0
        assert play(console, pads[1][:20]) == first


def test_resets_are_those_of_serial(game, pads, serial):
    pads, resets = pads[1][:300], {1, 130, 131, 250, 299}
    for region in ('ntsc', 'pal'):
        wanted = serial('game.sfc', script_with_resets(region, pads, resets), 300)
        with Console(game, region=region) as console:
            assert play_with_resets(console, pads, resets) == wanted
            assert console.frames == 300
        assert wanted != serial('game.sfc', script_with_resets(region, pads, ()), 300)


def test_back_to_a_slot_that_holds_a_reset(game, pads, serial):
    pads = pads[1][:200]
    for region in ('ntsc', 'pal'):
        wanted = serial('game.sfc', script_with_resets(region, pads, {60, 120, 150}), 200)
        plain = serial('game.sfc', script_with_resets(region, pads, {60}), 200)
        with Console(game, region=region, slots=2) as console:
            first = play_with_resets(console, pads[:120], {60})
            console.keep(0)
            console.reset()
            console.keep(1)
            # What is pressed on another path is not pressed on those of the slots.
            play_with_resets(console, pads[:40], {1, 7, 30})
            console.reset()
            for _ in range(2):
                console.back(1)
                refused(Status.REFUSED, Cause.RESET_TOO_SOON, 0, console.reset)
                rest = play_with_resets(console, pads[120:], {150}, 120)
                assert (first[0] + rest[0], first[1] + rest[1]) == wanted
            console.back(0)
            rest = play(console, pads[120:])
            assert (first[0] + rest[0], first[1] + rest[1]) == plain
            assert wanted != plain


def test_refused_resets_leave_the_console(game, pads):
    pads = pads[1][:40]
    with Console(game, most=40) as console, Console(game) as other:
        wanted = play_with_resets(other, pads, {20})
        refused(Status.REFUSED, Cause.RESET_TOO_SOON, 0, console.reset)
        first = play(console, pads[:20])
        console.reset()
        for _ in range(2):
            refused(Status.REFUSED, Cause.RESET_TOO_SOON, 0, console.reset)
        rest = play(console, pads[20:])
        assert (first[0] + rest[0], first[1] + rest[1]) == wanted
        # The button can be pressed behind the last frame too, but no frame follows.
        console.reset()
        refused(Status.REFUSED, Cause.RESET_TOO_SOON, 0, console.reset)
        refused(Status.FRAMES, Cause.TOO_MANY_FRAMES, 0, console.frame)
        # A slot in which nothing was kept has the start, and no frame.
        console.back(0)
        refused(Status.REFUSED, Cause.RESET_TOO_SOON, 0, console.reset)
        assert play_with_resets(console, pads, {20}) == wanted
    refused(Status.EMPTY, Cause.NO_CONSOLE, 0, console.reset)


def test_picture_and_samples(game, monkeypatch):
    with Console(game) as console:
        for _ in range(60):
            console.frame()
        console.keep(0)
        raw = console.raw_frame(Button.START)
        dots = [raw.video[at] | raw.video[at + 1] << 8 for at in range(0, FRAME, 2)]
        wanted = bytes((five & 31) << 3 | (five & 31) >> 2 for dot in dots for five in (dot, dot >> 5, dot >> 10))
        for has_numpy in (True, False):
            if has_numpy and _console.numpy is None:
                continue
            if not has_numpy:
                monkeypatch.setattr(_console, 'numpy', None)
            console.back(0)
            picture, samples = console.frame(Button.START)
            assert bytes(picture) == wanted if not has_numpy else picture.tobytes() == wanted
            assert samples.tobytes() == raw.sound
            if has_numpy:
                assert picture.shape == (239, 512, 3) and samples.shape == (len(raw.sound) // 4, 2)
        assert len(set(dots)) > 3


def test_refused_inputs(scene, game):
    def changed(place, byte):
        other = bytearray(game)
        other[0x7fc0 + place] = byte
        return bytes(other)

    table = bytearray((scene / 'table.bin').read_bytes())
    table[2 * 77:2 * 77 + 2] = (2048).to_bytes(2, 'little')
    refused(Status.REFUSED, Cause.CART_TOO_SHORT, 0, Console, game[:32767])
    refused(Status.REFUSED, Cause.CART_TOO_SHORT, 0, Console, b'')
    refused(Status.REFUSED, Cause.CART_TOO_LONG, 0, Console, bytes(4194305))
    refused(Status.REFUSED, Cause.CART_NO_HEADER, 0, Console, bytes(65536))
    refused(Status.REFUSED, Cause.CART_COPROCESSOR, 0x13, Console, changed(0x16, 0x13))
    refused(Status.REFUSED, Cause.CART_RAM_SIZE, 8, Console, changed(0x18, 8))
    refused(Status.REFUSED, Cause.BOOT_SIZE, 0, Console, game, boot=bytes(63))
    refused(Status.REFUSED, Cause.TABLE, 512, Console, game, table=bytes(1023))
    refused(Status.REFUSED, Cause.TABLE, 77, Console, game, table=table)
    refused(Status.REFUSED, Cause.BAD_REGION, 0, Console, game, region='secam')
    refused(Status.REFUSED, Cause.BAD_SLOT, 0, Console, game, slots=65)
    for most in (0, 36001, -1, 1 << 32):
        refused(Status.FRAMES, Cause.TOO_MANY_FRAMES, 0, Console, game, most=most)
    with pytest.raises(ValueError):
        Console(game, boot=b'')


def test_refused_calls_leave_the_console(game, pads):
    pads = pads[1]
    with Console(game, most=50, slots=2) as console, Console(game) as other:
        wanted = play(other, pads[:50])
        first = play(console, pads[:49])
        for pads_of_a_frame in ((0x10000, 0), (0, -1), (0x8000, 1 << 40)):
            with pytest.raises(ValueError):
                console.frame(*pads_of_a_frame)
        for slot in (2, 64, -1):
            refused(Status.REFUSED, Cause.BAD_SLOT, 0, console.keep, slot)
            refused(Status.REFUSED, Cause.BAD_SLOT, 0, console.back, slot)
        console.keep(0)
        last = play(console, pads[49:50])
        assert (first[0] + last[0], first[1] + last[1]) == wanted
        refused(Status.FRAMES, Cause.TOO_MANY_FRAMES, 0, console.frame)
        console.back(0)
        assert play(console, pads[49:50]) == last
    refused(Status.EMPTY, Cause.NO_CONSOLE, 0, console.frame)
    refused(Status.EMPTY, Cause.NO_CONSOLE, 0, console.keep, 0)
    refused(Status.EMPTY, Cause.NO_CONSOLE, 0, console.back, 0)
    console.close()


def test_rooms_that_lack_a_byte(game, pads):
    library = _library.load()
    with Console(game) as console, Console(game) as other:
        console.raw_frame(), other.raw_frame()
        for sizes, cause in (((FRAME - 1, 2560), Cause.VIDEO_TOO_SHORT), ((FRAME, 2000), Cause.SOUND_TOO_SHORT)):
            rooms = [bytearray(b'\xee') * size for size in sizes]
            words = [word for room in rooms for word in ((_library.ctypes.c_char * len(room)).from_buffer(room), len(room))]
            answer = _library.Answer()
            assert library.snes_frame(console._kept, 0, 0, *words, answer) == Status.TOO_SHORT
            assert (answer.cause, answer.place, answer.video_count, answer.sound_count) == (cause, 0, 0, 0)
            assert all(set(room) == {0xee} for room in rooms)
        assert play(console, pads[1][:5]) == play(other, pads[1][:5])


def test_begin_on_a_console_that_has_not_ended(game):
    with Console(game) as console:
        words = [word for data in (game, b'', b'') for word in (data, len(data))]
        answer = _library.Answer()
        assert _library.load().snes_begin(console._kept, *words, 0, 36000, 8, answer) == Status.FULL
        assert answer.cause == Cause.CONSOLE_HELD
        console.frame()


def test_the_low_bits_of_a_pad_count_as_0(game, pads):
    with Console(game) as console, Console(game) as other:
        assert play(console, pads[1][:120]) == play(other, [(one | 15, two | 9) for one, two in pads[1][:120]])


def test_two_consoles_on_two_threads(game, pads, serial):
    text, pads = pads
    other = [(two, one) for one, two in pads]
    swapped = ''.join(f'1 {one:04x} {two:04x}\n' for one, two in other[:200])
    with Console(game) as first, Console(game) as second:
        found = {}
        threads = [threading.Thread(target=lambda it=it: found.update({it[0]: play(it[1], it[2][:200])}))
                   for it in ((0, first, pads), (1, second, other))]
        for one in threads:
            one.start()
        for one in threads:
            one.join()
    assert found[0] == serial('game.sfc', text, 200)
    assert found[1] == serial('game.sfc', swapped, 200)


def test_where_the_library_is_looked_for(game, monkeypatch):
    with pytest.raises(LibraryNotFound):
        Console(game, library='/nowhere/libsnes.so')
    monkeypatch.setenv('SNES_LIBRARY', '/nowhere/libsnes.so')
    with pytest.raises(LibraryNotFound):
        Console(game)


def test_a_fault_can_go_to_another_process(game):
    with pytest.raises(ConsoleError) as fault:
        Console(game[:100])
    other = pickle.loads(pickle.dumps(fault.value))
    assert (other.status, other.cause, other.place, str(other)) == (3, 1, 0, str(fault.value))


def test_the_score_of_the_example(game, pads, monkeypatch):
    monkeypatch.syspath_prepend(os.path.dirname(EXAMPLE))
    from environment import score_of

    with Console(game) as console:
        play(console, pads[1][:300])
        assert score_of(console.frame(*pads[1][300]).picture) == 0
        play(console, pads[1][301:550])
        assert score_of(console.frame(*pads[1][550]).picture) == 20


def test_the_example(scene):
    words = [sys.executable, EXAMPLE, str(scene / 'game.sfc'), '--steps', '40']
    one, two = (subprocess.run(words, check=True, capture_output=True, text=True).stdout for _ in range(2))
    assert one == two and 'episode' in one
