"""Descriptors 0, 1 and 2 closed, in each combination: what is printed never lands in an output."""
import os

from lab import COMMANDS, case, read, same, write

CLOSED = [combination for combination in range(1, 8)]


def closing(combination):
    """The redirections that close descriptors, and their text."""
    numbers = [number for number in range(3) if combination >> number & 1]
    return " ".join(f"{number}>&-" for number in numbers), " and ".join(map(str, numbers))


def snes(command, combination):
    def try_it(room):
        tail, _ = closing(combination)
        end = room.run(room.words(command), tail=tail)
        for option in COMMANDS[command][2]:
            room.has(command, option, "whole")
        # Without standard output the line can't be written.
        same("status", end.status, 4 if combination & 2 else 0)
        same("standard output", end.out, b"" if combination & 2 else room.bench.lines[command])
    return try_it


for _command in COMMANDS:
    for _combination in CLOSED:
        case(f"descriptors: {_command} without {closing(_combination)[1]}")(snes(_command, _combination))


@case("descriptors: demo, and words at fault, without each of them")
def demo(room):
    program = room.bench.programs["snes"]
    for combination in CLOSED:
        tail, text = closing(combination)
        same(f"demo without {text}", room.run([program, "demo", "7", "--frames", "1"], tail=tail).status, 4 if combination & 2 else 0)
        # A failed put of another line changes no answer.
        same(f"no words, without {text}", room.run([program], tail=tail).status, 1)
        end = room.run(room.words("serial", None, {"cart": room.path("none")}), tail=tail)
        same(f"no cartridge, without {text}", end.status, 2)


@case("descriptors: scene without each of them")
def scene(room):
    whole = {name: read(f"{os.path.dirname(room.bench.inputs['cart'])}/{name}") for name in ("scene.sfc", "boot.bin", "table.bin")}
    for combination in CLOSED:
        tail, text = closing(combination)
        end = room.run([room.bench.programs["scene"], f"out{combination}"], tail=tail)
        for name, right in whole.items():
            assert read(room.path(f"out{combination}/{name}")) == right, f"{name} is not whole, without {text}"
        same(f"script.txt, without {text}", read(room.path(f"out{combination}/script.txt")), b"")
        same(f"status without {text}", end.status, 2 if combination & 2 else 0)


@case("descriptors: look without each of them")
def look(room):
    program = room.bench.programs["look"]
    room.run(room.words("serial")).came(0)
    writes = (("png", "video", "3"), ("wav", "audio"), ("sheet", "video"), ("avi", "video", "audio"))
    for words in writes:
        room.run([program, *words, "whole"]).came(0)
        right = read(room.path("whole"))
        for combination in CLOSED:
            tail, text = closing(combination)
            write(room.path("out"), b"")
            same(f"{words[0]} without {text}", room.run([program, *words, "out"], tail=tail).status, 0)
            assert read(room.path("out")) == right, f"{words[0]} is not whole, without {text}"
    sums = room.run([program, "sums", "video", "audio"]).came(0).out
    for combination in CLOSED:
        tail, text = closing(combination)
        end = room.run([program, "sums", "video", "audio"], tail=tail)
        same(f"sums without {text}", (end.status, end.out), (2, b"") if combination & 2 else (0, sums))
    for option in ("video", "audio"):
        room.has("serial", option, "whole")


@case("descriptors: trace without each of them")
def trace(room):
    words = [room.bench.programs["trace"]]
    for option in ("cart", "boot", "table", "script"):
        words += [f"--{option}", room.bench.inputs[option]]
    words += ["--lines", "5000"]
    right = room.run(words).came(0).out
    for combination in CLOSED:
        tail, text = closing(combination)
        end = room.run(words, tail=tail)
        same(f"status and length without {text}", (end.status, len(end.out)), (2, 0) if combination & 2 else (0, len(right)))


@case("descriptors: what look says of a cut sound never lands in the WAV")
def look_cut(room):
    room.run(room.words("serial")).came(0)
    write(room.path("cut"), read(room.path("audio"))[:1001])
    for combination in range(0, 8, 2):
        tail, text = closing(combination)
        # Standard input is the sound, by a pipe.
        end = room.run(["bash", "-c", f'cat cut | "$@" {tail}', "bash", room.bench.programs["look"], "wav", "-", "out"])
        same(f"status without {text}", end.status, 2)
        got = read(room.path("out"))
        assert b"look" not in got, f"the message is in the WAV, without {text}: {got[-80:]}"
