"""Readers that go away, and FIFOs on both ends."""
import contextlib
import os
import threading

from lab import COMMANDS, USAGE, case, read, same

# How much of each output is read, before the reader goes away.
TAKEN = {"video": 700_001, "audio": 9_001, "out": 100_001, "state": 100_001}


def reader_goes(command, option, shell):
    def try_it(room):
        pipe = room.path("pipe")
        os.mkfifo(pipe)
        thread, came = room.drain(pipe, TAKEN[option])
        # The other output is larger than what is gathered, so that the fault comes before the end.
        room.run(room.words(command, {option: pipe}), shell=shell).came(
            4, b"cannot write %s\n" % COMMANDS[command][2][option].encode())
        thread.join(10)
        got = b"".join(came)
        same("bytes that came", len(got), min(TAKEN[option], len(room.bench.right[command][option])))
        assert room.bench.right[command][option].startswith(got), f"{option} is no prefix"
        for other in COMMANDS[command][2]:
            if other != option:
                room.has(command, other, "prefix")
    return try_it


def nobody_hears(command):
    def try_it(room):
        ours, theirs = os.pipe()
        os.close(ours)
        try:
            room.run(room.words(command), stdout=theirs).came(4)
        finally:
            os.close(theirs)
        for option in COMMANDS[command][2]:
            room.has(command, option, "whole")
    return try_it


def by_pipes(command):
    def try_it(room):
        options, _, outputs = COMMANDS[command]
        inputs = {}
        for option in options:
            inputs[option] = room.path(f"in-{option}")
            os.mkfifo(inputs[option])
            room.feed(inputs[option], read(room.bench.inputs[option]))
        drains = {}
        for option in outputs:
            os.mkfifo(room.path(option))
            drains[option] = room.drain(room.path(option))
        room.run(room.words(command, None, inputs)).came(0, room.bench.lines[command])
        for option, (thread, came) in drains.items():
            thread.join(10)
            assert b"".join(came) == room.bench.right[command][option], f"{option} is not whole"
    return try_it


for _command, (_options, _, _outputs) in COMMANDS.items():
    for _option in _outputs:
        # The sound or the sums of a few frames and a sound file fit into what is gathered and a pipe holds: nobody is told that
        # they were not read.
        if _option in ("audio", "sums", "spc") and _command != "play":
            continue
        case(f"readers: {_command}, a reader of {_option} that goes away")(reader_goes(_command, _option, ""))
        case(f"readers: {_command}, the same where SIGPIPE is ignored")(reader_goes(_command, _option, "trap '' PIPE;"))
    case(f"readers: {_command}, standard output that nobody reads")(nobody_hears(_command))
    case(f"readers: {_command}, FIFOs for all inputs and outputs")(by_pipes(_command))


@case("readers: a reader of sound that goes away, in a longer run")
def long_sound(room):
    pipe = room.path("pipe")
    os.mkfifo(pipe)
    thread, came = room.drain(pipe, 20_001)
    words = room.words("serial", {"audio": pipe, "video": "/dev/null"})
    words[words.index("--frames") + 1] = "200"
    room.run(words).came(4, b"cannot write sound\n")
    thread.join(10)
    assert b"".join(came).startswith(room.bench.right["serial"]["audio"]), "the sound does not begin as it should"


@case("readers: a cartridge that breaks off in its FIFO")
def short_cart(room):
    pipe = room.path("pipe")
    os.mkfifo(pipe)
    room.feed(pipe, read(room.bench.inputs["cart"])[:100])
    room.run(room.words("serial", None, {"cart": pipe})).came(3, b"cart refused: too short\n")
    room.has("serial", "video", None)


def drain_terminal(ours):
    """Reads what goes to a terminal, until nobody has it open."""
    with contextlib.suppress(OSError):
        while os.read(ours, 65536):
            pass
    os.close(ours)


@case("readers: one FIFO, the null device and a terminal for both outputs are no clash")
def no_clash(room):
    pipe = room.path("pipe")
    os.mkfifo(pipe)
    thread, came = room.drain(pipe)
    room.run(room.words("serial", {"video": pipe, "audio": "./pipe"})).came(0, room.bench.lines["serial"])
    thread.join(10)
    same("bytes that came", len(b"".join(came)), sum(len(it) for it in room.bench.right["serial"].values()))
    room.run(room.words("serial", {"video": "/dev/null", "audio": "/dev//null"})).came(0, room.bench.lines["serial"])
    ours, theirs = os.openpty()
    name = os.ttyname(theirs)
    threading.Thread(target=drain_terminal, args=(ours,), daemon=True).start()
    room.run(room.words("serial", {"video": name, "audio": name.replace("/dev/", "/dev//")})).came(0, room.bench.lines["serial"])
    os.close(theirs)


@case("readers: words at fault, and nobody reads their line")
def usage_unheard(room):
    room.run([room.bench.programs["snes"]], tail=">/dev/full").came(1, b"")
    room.run([room.bench.programs["snes"]]).came(1, USAGE)
