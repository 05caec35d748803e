"""Signals in the middle of a run: what is on the disk is a prefix."""
import os
import signal
import subprocess
import time

from lab import COMMANDS, case, read, same

LONG = 60


def long_words(room, command, outputs):
    """The words of a long run."""
    plan = room.path("plan")
    with open(plan, "w", encoding="ascii") as file:
        file.write(f"go {LONG} 0000 0000\n")
    words = room.words(command, outputs, {"plan": plan})
    for option, many in (("--frames", str(LONG)), ("--samples", "19200000")):
        if option in words:
            words[words.index(option) + 1] = many
    return words


def is_steady(path):
    """Waits until a file has bytes and grows no more."""
    length, since = -1, time.time()
    for _ in range(600):
        now = os.path.getsize(path) if os.path.exists(path) else 0
        if now != length:
            length, since = now, time.time()
        elif length > 0 and time.time() - since > 0.5:
            return length
        time.sleep(0.02)
    raise AssertionError(f"{path} does not come to rest")


def ended_by(command, sent):
    def try_it(room):
        # Nobody reads the sound, so the run comes to rest once its pipe is full, and waits.
        pipe = room.path("pipe")
        os.mkfifo(pipe)
        held = os.open(pipe, os.O_RDWR)
        whole = room.path("whole")
        room.run(long_words(room, command, {"video": whole, "audio": "/dev/null"})).came(0)
        words = long_words(room, command, {"audio": pipe})
        with subprocess.Popen(words, cwd=room.folder, stdout=subprocess.PIPE, stderr=subprocess.PIPE) as process:
            length = is_steady(room.path("video"))
            process.send_signal(sent)
            out, _ = process.communicate(timeout=10)
        os.close(held)
        same("status", process.returncode, -sent)
        same("standard output", out, b"")
        assert 0 < length < len(read(whole)), f"the run was not ended in its middle: {length} bytes"
        assert read(whole).startswith(read(room.path("video"))), "video is no prefix"
    return try_it


for _command in ("run", "serial", "lockless", "rewind"):
    for _signal in (signal.SIGTERM, signal.SIGKILL, signal.SIGINT, signal.SIGHUP):
        case(f"signals: {_command}, {_signal.name}")(ended_by(_command, _signal))


@case("signals: play, SIGKILL and SIGTERM")
def play(room):
    for sent in (signal.SIGKILL, signal.SIGTERM):
        with subprocess.Popen(long_words(room, "play", {}), cwd=room.folder, stdout=subprocess.PIPE) as process:
            while not os.path.exists(room.path("audio")) or os.path.getsize(room.path("audio")) < 4096:
                time.sleep(0.01)
                assert process.poll() is None, "it ended by itself"
            process.send_signal(sent)
            process.communicate(timeout=10)
        same("status", process.returncode, -sent)
        got, right = read(room.path("audio")), room.bench.right["play"]["audio"]
        assert got[:len(right)] == right[:len(got)], "audio is no prefix"
        os.remove(room.path("audio"))


assert set(COMMANDS) >= {"run", "serial", "lockless", "rewind", "play"}
