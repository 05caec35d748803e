"""What standard error says: which argument is wrong, which file a fault is about, and what the system said. Standard output
has the line that docs/use/COMMANDS.md promises, and no more."""
import os

from lab import COMMANDS, USAGE, case, write


@case("messages: a word that is wrong is named")
def wrong_words(room):
    program = room.bench.programs["snes"]
    for words, said in ((["rnu"], b"rnu"), ([*room.words("serial")[1:-2], "--vidoe", "x"], b"--vidoe"),
                        (["demo", "7", "--frames", "36001"], b"36001"), (["demo", "x", "--frames", "1"], b"x"),
                        ([*room.words("serial")[1:], "more"], b"more"), (room.words("serial")[1:-2], b"--audio")):
        end = room.run([program, *words]).came(1, USAGE, b"snes: ")
        assert said in end.err and b"--help" in end.err, end.err
    room.run([program, b"\xff"]).came(1, USAGE, b"UTF-8")


@case("messages: an input that can't be read or is refused names its file")
def inputs(room):
    wrong = {"cart": b"", "boot": b"x", "table": b"x", "script": b"x", "plan": b"x", "spc": b"x"}
    os.makedirs(room.path("folder"))
    write(room.path("secret"), b"")
    os.chmod(room.path("secret"), 0)
    for command, (options, _, _) in COMMANDS.items():
        for option in options:
            write(room.path("wrong"), wrong[option])
            end = room.run(room.words(command, None, {option: "wrong"})).came(3, None, b'"wrong": ')
            assert end.out.strip() in end.err, f"{end.out} is not repeated: {end.err}"
            for name, said in (("missing", b"no such file"), ("folder", b"directory"), ("secret", b"permission denied")):
                end = room.run(room.nobody(room.words(command, None, {option: name}))).came(2, b"cannot read %s\n" % option.encode())
                assert name.encode() in end.err and said in end.err.lower(), f"{name}: {end.err}"


@case("messages: an output that can't be written names its file and what the system said")
def outputs(room):
    for command, (options, _, outs) in COMMANDS.items():
        for option in outs:
            for name, said in (("/dev/full", b"no space left"), ("missing/x", b"no such file"), (".", b"directory")):
                end = room.run(room.words(command, {option: name})).came(4, None, b"snes: ")
                assert name.encode() in end.err and said in end.err.lower(), f"{name}: {end.err}"
            end = room.run(room.words(command, {option: "x", **{it: "/dev/null" for it in outs if it != option}}),
                           shell="ulimit -f 4; trap '' XFSZ;").came(4, None, b'"x": ')
            assert b"too large" in end.err, end.err
        if len(outs) == 2:
            room.run(room.words(command, {"video": "x", "audio": "./x"})).came(4, None, b"same file")
        if options:
            write(room.path("copy"), open(room.bench.inputs["table"], "rb").read())
            room.run(room.words(command, {next(iter(outs)): "copy"}, {"table": "copy"})).came(4, None, b"same file")


@case("messages: --help and --version by the program itself")
def help_text(room):
    program = room.bench.programs["snes"]
    for word in ("--help", "-h"):
        end = room.run([program, word]).came(0)
        for command in (*COMMANDS, "demo", "--version"):
            assert f"snes {command}".encode() in end.out or f" {command}".encode() in end.out, f"{command} is missing"
        assert end.err == b"", end.err
        room.run([program, word, "more"]).came(1, USAGE)
        room.run([program, word], tail=">/dev/full").came(4, b"")
    assert room.run([program, "--version"]).came(0).out.startswith(b"snes "), "no version"
    room.run([program, "--version", "--help"]).came(1, USAGE)
    assert os.listdir(room.folder) == [], os.listdir(room.folder)
