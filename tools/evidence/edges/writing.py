"""Faults of writing in the middle of an output, of every output of every command."""
import os
import shutil

from lab import COMMANDS, SAMPLES, case, read, same

# How much of each output fits, in pages of 4 KiB.
PAGES = {"video": 256, "audio": 2, "out": 64, "sums": 1, "state": 16, "spc": 8}


def on_small_device(room, words, pages):
    """Runs a program of which one output is room.path('device/file'), where that is a device of so many pages."""
    device, kept = room.path("device"), room.path("kept")
    os.mkdir(device)
    if room.bench.mount is None:
        return room.run(words, shell=f"ulimit -f {4 * pages}; trap '' XFSZ;"), f"{device}/file"
    text = ('mount -t tmpfs -o size="$1" tmpfs "$2" || exit 99; kept=$3 device=$2; shift 3; "$@"; status=$?;'
            ' cp "$device/file" "$kept" 2>/dev/null; exit $status')
    return room.run([*room.bench.mount, "bash", "-c", text, "bash", f"{4 * pages}k", device, kept, *words]), kept


def fills_up(command, option, pages):
    def try_it(room):
        others = {other: "/dev/null" for other in COMMANDS[command][2] if other != option} if room.bench.mount is None else {}
        end, kept = on_small_device(room, room.words(command, {option: room.path("device/file"), **others}), pages)
        end.came(4, b"cannot write %s\n" % COMMANDS[command][2][option].encode())
        same("bytes on the device", room.has(command, option, "prefix", kept), 4096 * pages)
        for other in COMMANDS[command][2]:
            if other != option and not others:
                room.has(command, other, "prefix")
    return try_it


def is_limited(command, option, kilobytes):
    def try_it(room):
        others = {other: "/dev/null" for other in COMMANDS[command][2] if other != option}
        end = room.run(room.words(command, others), shell=f"ulimit -f {kilobytes}; trap '' XFSZ;")
        end.came(4, b"cannot write %s\n" % COMMANDS[command][2][option].encode())
        same("bytes", room.has(command, option, "prefix"), 1024 * kilobytes)
    return try_it


def is_full(command, option):
    def try_it(room):
        room.run(room.words(command, {option: "/dev/full"})).came(
            4, b"cannot write %s\n" % COMMANDS[command][2][option].encode())
        for other in COMMANDS[command][2]:
            if other != option:
                room.has(command, other, "prefix")
    return try_it


def line_is_lost(command):
    def try_it(room):
        room.run(room.words(command), tail=">/dev/full").came(4, b"")
        for option in COMMANDS[command][2]:
            room.has(command, option, "whole")
    return try_it


for _command, (_, _, _outputs) in COMMANDS.items():
    for _option in _outputs:
        case(f"writing: {_command}, a device of {PAGES[_option]} pages for {_option}")(fills_up(_command, _option, PAGES[_option]))
        case(f"writing: {_command}, a file size limit for {_option}")(is_limited(_command, _option, 4 * PAGES[_option]))
        case(f"writing: {_command}, /dev/full for {_option}")(is_full(_command, _option))
    case(f"writing: {_command}, /dev/full for standard output")(line_is_lost(_command))
# Only the last bytes don't fit, which are written when the output is flushed.
case("writing: make, a device that lacks one page")(fills_up("make", "out", 127))
case("writing: play, a device that lacks one page")(fills_up("play", "audio", (4 * SAMPLES - 1) // 4096))


@case("writing: demo, /dev/full for standard output")
def demo_line(room):
    room.run([room.bench.programs["snes"], "demo", "7", "--frames", "1"], tail=">/dev/full").came(4, b"")


@case("writing: a device that takes everything")
def null_device(room):
    room.run(room.words("serial", {"video": "/dev/null"})).came(0, room.bench.lines["serial"])
    room.has("serial", "audio", "whole")


@case("writing: look, trace and scene on a small device")
def companions_on_device(room):
    programs, inputs = room.bench.programs, room.bench.inputs
    film = room.path("film")
    room.run(room.words("serial", {"video": film})).came(0)
    os.mkdir(room.path("1"))
    whole = room.path("whole")
    room.run([programs["look"], "cut", film, "0", "3", whole]).came(0)
    for words, status, said, right in (
            ([programs["look"], "cut", film, "0", "3", "device/file"], 2, b"cannot write", read(whole)),
            (["sh", "-c", 'exec "$@" >device/file', "sh", programs["trace"],
              *(word for name in ("cart", "boot", "table", "script") for word in (f"--{name}", inputs[name]))],
             2, b"cannot write the trace", None)):
        end, kept = on_small_device(room, words, 4)
        end.came(status, None, said)
        if right is not None:
            assert right.startswith(read(kept)), "the frames are no prefix"
        shutil.rmtree(room.path("device"))
    end, _ = on_small_device(room, [programs["scene"], "device"], 4)
    end.came(2, b"", b"cannot write device/scene.sfc")
