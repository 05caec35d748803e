"""What a name leads to: files that are longer, folders, what may not be read or written, names that are no UTF-8, and two
names for one file."""
import os
import shutil
import stat

from lab import COMMANDS, USAGE, case, read, same, write

OLD = b"\xaa" * 3_000_000


def cannot_write(command, option):
    return b"cannot write %s\n" % COMMANDS[command][2][option].encode()


def in_each(group):
    """Adds a case for each command."""
    def add(function):
        for command in COMMANDS:
            case(f"names: {command}, {group}")(lambda room, command=command: function(room, command))
        return function
    return add


@in_each("outputs that exist and are longer")
def longer(room, command):
    for option in COMMANDS[command][2]:
        write(room.path(option), OLD)
    room.run(room.words(command)).came(0, room.bench.lines[command])
    for option in COMMANDS[command][2]:
        room.has(command, option, "whole")


@in_each("a missing folder, a folder, and one that may not be written to, as each output")
def bad_outputs(room, command):
    os.makedirs(room.path("folder"))
    os.makedirs(room.path("shut"))
    write(room.path("kept"), b"kept")
    os.chmod(room.path("kept"), 0o444)
    os.chmod(room.path("shut"), 0o555)
    for option in COMMANDS[command][2]:
        for name in ("missing/file", "folder", "folder/", "shut/file", "kept", "/proc/x"):
            end = room.run(room.nobody(room.words(command, {option: room.path(name) if name[0] != "/" else name})))
            end.came(4, cannot_write(command, option))
            for other in COMMANDS[command][2]:
                if other != option and os.path.exists(room.path(other)):
                    room.has(command, other, "prefix")
                    os.remove(room.path(other))
    same("what may not be written", read(room.path("kept")), b"kept")


@in_each("a missing file, a folder, and one that may not be read, as each input")
def bad_inputs(room, command):
    os.makedirs(room.path("folder"))
    write(room.path("secret"), b"secret")
    os.chmod(room.path("secret"), 0)
    for option in COMMANDS[command][2]:
        write(room.path(option), OLD)
    for option in COMMANDS[command][0]:
        for name in ("missing", "folder", "secret", "secret/below", "x" * 300):
            end = room.run(room.nobody(room.words(command, None, {option: room.path(name)})))
            end.came(2, b"cannot read %s\n" % option.encode())
    for option in COMMANDS[command][2]:
        room.has(command, option, OLD)


@in_each("inputs that are refused leave outputs as they were")
def refused(room, command):
    wrong = {"cart": (b"", b"cart refused: too short\n"), "boot": (b"x" * 63, b"boot refused\n"),
             "table": (b"\xff" * 1024, b"table refused at 0\n"), "script": (b"1 0000 0000\nwrong\n", b"script refused at line 2\n"),
             "plan": (b"back 1\n", b"plan refused at line 1\n"), "spc": (b"x" * 70000, b"spc refused: no text\n")}
    for option in COMMANDS[command][2]:
        write(room.path(option), OLD)
    for option in COMMANDS[command][0]:
        write(room.path("wrong"), wrong[option][0])
        room.run(room.words(command, None, {option: room.path("wrong")})).came(3, wrong[option][1])
    for option in COMMANDS[command][2]:
        room.has(command, option, OLD)


@in_each("names that are no UTF-8 or too long are words at fault")
def no_text(room, command):
    for option in COMMANDS[command][2]:
        write(room.path(option), OLD)
    for option in (*COMMANDS[command][0], *COMMANDS[command][2]):
        for name in (b"no\xffutf8", b"\xc3", b"", b"x" * 4097, b"-x"):
            words = [it if isinstance(it, bytes) else it.encode() for it in room.words(command)]
            words[words.index(f"--{option}".encode()) + 1] = name
            room.run(words).came(1, USAGE)
    for option in COMMANDS[command][2]:
        room.has(command, option, OLD)


@in_each("names with spaces, quotes, a newline and no ASCII")
def odd_names(room, command):
    for name in ("a b", "it's \"so\"", "two\nlines", "日本語 ü", "$(x) `y` *"):
        os.makedirs(room.path(name))
        outputs = {option: room.path(f"{name}/{option} {name}") for option in COMMANDS[command][2]}
        inputs = {}
        for option in COMMANDS[command][0]:
            inputs[option] = room.path(f"{name}/in {option} {name}")
            shutil.copy(room.bench.inputs[option], inputs[option])
        room.run(room.words(command, outputs, inputs)).came(0, room.bench.lines[command])
        for option, path in outputs.items():
            room.has(command, option, "whole", path)


def two_names(command):
    def try_it(room):
        for number, (how, make) in enumerate((
                ("the same file by ./", lambda one, other: None),
                ("a hard link", os.link),
                ("a symbolic link", lambda one, other: os.symlink(os.path.basename(one), other)))):
            write(room.path(f"x{number}"), b"")
            one, other = f"x{number}", f"y{number}"
            make(room.path(one), room.path(other))
            other = f"./{one}" if number == 0 else other
            end = room.run(room.words(command, {"video": one, "audio": other}))
            assert end.status == 4 and end.out == b"cannot write sound\n", f"{how}: status {end.status}, {end.out}"
            room.has(command, "video", "prefix", room.path(one))
    return try_it


for _command, (_options, _, _outputs) in COMMANDS.items():
    if len(_outputs) == 2:
        case(f"names: {_command}, two names for one file")(two_names(_command))


@in_each("each output is an input, by four names")
def output_is_input(room, command):
    for option in COMMANDS[command][0]:
        right = read(room.bench.inputs[option])
        for output in COMMANDS[command][2]:
            folder = room.path(f"{option}-{output}")
            os.mkdir(folder)
            file = f"{folder}/file"
            write(file, right)
            os.link(file, f"{folder}/hard")
            os.symlink("file", f"{folder}/soft")
            for name in ("file", "./file", "hard", "soft"):
                end = room.run(room.words(command, {output: f"{folder}/{name}"}, {option: file}))
                assert read(file) == right, f"{option} was touched by --{output} {name}: status {end.status}, {end.out}"
                assert end.status == 4 and end.out == cannot_write(command, output), f"--{output} {name}: status {end.status}, {end.out}"


@case("names: outputs that are links to other files are written through")
def through_links(room):
    write(room.path("target"), OLD)
    os.symlink("target", room.path("soft"))
    os.symlink("fresh", room.path("hanging"))
    room.run(room.words("serial", {"video": room.path("soft"), "audio": room.path("hanging")})).came(0, room.bench.lines["serial"])
    room.has("serial", "video", "whole", room.path("target"))
    room.has("serial", "audio", "whole", room.path("fresh"))
    assert stat.S_ISLNK(os.lstat(room.path("soft")).st_mode), "the link is gone"


@case("names: one input by two names is no clash")
def one_input(room):
    # 64 bytes that are a boot ROM and a script with one line.
    write(room.path("both"), b"0 0000 0000\n" * 5 + b"\n\n\n\n")
    room.run(room.words("serial", None, {"boot": room.path("both"), "script": room.path("both")})).came(0, room.bench.lines["serial"])
