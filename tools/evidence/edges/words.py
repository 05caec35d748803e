"""Command lines with more words than a form has, and with fewer: outputs stay as they were."""
from lab import COMMANDS, USAGE, case, same, write

OLD = b"kept"


def all_words(room, command):
    """The words of a command behind the program, `demo` among them."""
    return ["demo", "7", "--frames", "1"] if command == "demo" else room.words(command)[1:]


def counts(command):
    def try_it(room):
        outputs = COMMANDS[command][2] if command in COMMANDS else {}
        for option in outputs:
            write(room.path(option), OLD)
        program, form = room.bench.programs["snes"], all_words(room, command)
        form = [it.replace(room.folder, ".") for it in form]
        # The right words and more, up to so many in all: the words behind count, whatever they are.
        for behind in ("x", "", "--frames", form[0], "--quiet"):
            for count in (len(form) + 1, 15, 16, 17, 18, 19, 20, 32, 33, 64, 65, 100, 1000):
                if count > len(form):
                    end = room.run([program, *form, *[behind] * (count - len(form))])
                    same(f"{count} words, the last ones {behind!r}: status", end.status, 1)
                    same("standard output", end.out, USAGE)
        # The same words once more, and pairs that are right by themselves.
        for more in (form[1:], form, form[-2:], ["--video", "other"], ["--audio", "other"]):
            room.run([program, *form, *more]).came(1, USAGE)
        # One word is missing.
        for missing in range(len(form)):
            room.run([program, *form[:missing], *form[missing + 1:]]).came(1, USAGE)
        for option in outputs:
            room.has(command, option, OLD)
        room.run([program, *form]).came(0)
    return try_it


for _command in (*COMMANDS, "demo"):
    case(f"words: {_command}, more words than its form has, and one too few")(counts(_command))


@case("words: none, and such as are no command")
def no_command(room):
    program = room.bench.programs["snes"]
    for words in ([], [""], ["x"], ["RUN"], ["run "], ["-"], ["--"], ["help"], ["make"], ["demo"], ["--quiet"], ["--x"]):
        room.run([program, *words]).came(1, USAGE)


@case("words: numbers of frames, samples and cartridges at their ends")
def numbers(room):
    program = room.bench.programs["snes"]
    for number in ("", "-1", "+1", "1.0", "0x1", "1 ", " 1", "36001", "99999", "000001", "100000", "18446744073709551617", "٣"):
        room.run([program, "demo", "7", "--frames", number]).came(1, USAGE)
    for number in ("", "-1", "+1", "4294967296", "04294967295", "99999999999"):
        room.run([program, "make", number, "--out", room.path("out")]).came(1, USAGE)
    room.run([program, "make", "4294967295", "--out", room.path("out")]).came(0, b"image 524288\n")
    room.run([program, "demo", "0000000007", "--frames", "00000"]).came(0, b"frames 0 samples 0 video 0 sound 0\n")


@case("words: the order of the pairs does not count")
def order(room):
    words = room.words("serial")
    pairs = [words[i:i + 2] for i in range(2, len(words), 2)]
    for turned in range(len(pairs)):
        some = [it for pair in pairs[turned:] + pairs[:turned] for it in pair]
        room.run([*words[:2], *some]).came(0, room.bench.lines["serial"])
        room.has("serial", "video", "whole")
        room.has("serial", "audio", "whole")
