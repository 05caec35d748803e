"""What docs/use/COMMANDS.md, docs/machine/CARTRIDGE.md and docs/use/SPC-FILES.md say that `snes` answers, written from these
pages and not from the code: the status and the line on standard output for words and files."""
import os
import re

USAGE = "usage: snes run, serial, make or demo"
JOB = ("cart", "boot", "table", "script")
# Of each command: whether a number stands behind its name, its inputs, its count, its outputs.
FORMS = {
    "run": (False, JOB, "frames", ("video", "audio")),
    "serial": (False, JOB, "frames", ("video", "audio")),
    "lockless": (False, JOB, "frames", ("video", "audio")),
    "play": (False, ("spc", "table"), "samples", ("audio",)),
    "make": (True, (), None, ("out",)),
    "demo": (True, (), "frames", ()),
    "rewind": (False, ("cart", "boot", "table", "plan"), None, ("video", "audio")),
}
COUNTS = {"frames": (5, 36_000), "samples": (8, 19_200_000)}
LIMITS = {"cart": 4_194_816, "boot": 64, "table": 1024, "script": 1_048_576, "spc": 1_048_576, "plan": 1_048_576}
NAMES = {"video": "video", "audio": "sound", "out": "image"}
PADS = rb" +[0-9A-Fa-f]{4} +[0-9A-Fa-f]{4}"


class Form:
    """Words that are in a form: the command, its count, and the names after each option."""

    def __init__(self, command, count, names):
        self.command, self.count, self.names = command, count, names


def number_of(word, digits, most):
    """The number that a word spells, or none."""
    if not re.fullmatch(rb"[0-9]{1,%d}" % digits, word) or int(word) > most:
        return None
    return int(word)


def is_text(word):
    try:
        word.decode("utf-8")
        return True
    except UnicodeDecodeError:
        return False


def form_of(words):
    """What words ask for, or none: words are bytes, without the program's own name."""
    if not words or not all(map(is_text, words)):
        return None
    command = words[0].decode()
    if command in ("--help", "-h", "--version"):
        return Form(command, None, {}) if len(words) == 1 else None
    if command not in FORMS:
        return None
    numbered, inputs, count, outputs = FORMS[command]
    rest = list(words[1:])
    if numbered:
        if not rest or number_of(rest.pop(0), 10, 4_294_967_295) is None:
            return None
    wanted = {*inputs, *outputs, *([count] if count else [])}
    names = {}
    if len(rest) != 2 * len(wanted):
        return None
    for option, value in zip(rest[::2], rest[1::2]):
        name = option[2:].decode(errors="replace")
        if option[:2] != b"--" or name not in wanted or name in names or not 1 <= len(value) <= 4096 or value[:1] == b"-":
            return None
        names[name] = value
    found = number_of(names[count], *COUNTS[count]) if count else None
    if count and found is None or len(outputs) == 2 and names["video"] == names["audio"]:
        return None
    return Form(command, found, names)


def cart(data):
    if len(data) % 1024 == 512:
        data = data[512:]
    if len(data) < 32_768:
        return "cart refused: too short"
    if len(data) > 4_194_304:
        return "cart refused: too long"
    rom = data + bytes(-len(data) % 32_768)
    lorom = rom[0x7FC0 + 0x15] in (0x20, 0x30)
    hirom = len(rom) >= 65_536 and rom[0xFFC0 + 0x15] in (0x21, 0x31)

    def adds_up(at):
        return int.from_bytes(rom[at + 0x1C:at + 0x1E], "little") + int.from_bytes(rom[at + 0x1E:at + 0x20], "little") == 0xFFFF
    if not lorom and not hirom:
        return "cart refused: no header"
    at = 0xFFC0 if hirom and (not lorom or adds_up(0xFFC0) and not adds_up(0x7FC0)) else 0x7FC0
    if rom[at + 0x16] > 2:
        return f"cart refused: coprocessor {rom[at + 0x16]:02X}"
    if rom[at + 0x18] > 7:
        return f"cart refused: ram size {rom[at + 0x18]}"
    return None


def boot(data):
    return None if len(data) == 64 else "boot refused"


def table(data):
    if len(data) != 1024:
        return "table refused at 512"
    for entry in range(512):
        if data[2 * entry] + 256 * data[2 * entry + 1] > 2047:
            return f"table refused at {entry}"
    return None


def spc(data):
    if len(data) > 1_048_576:
        return "spc refused: too long"
    if len(data) < 65_920:
        return "spc refused: too short"
    return None if data.startswith(b"SNES-SPC700 Sound File Data") else "spc refused: no text"


def lines_of(data):
    """The lines: each ended by LF, a CR before it dropped; what stands behind the last LF is a line as it stands."""
    parts = data.split(b"\n")
    lines = [it[:-1] if it.endswith(b"\r") else it for it in parts[:-1]]
    return lines + ([parts[-1]] if parts[-1] else [])


def script(data):
    total, resets, version = 0, set(), 1
    for number, line in enumerate(lines_of(data), 1):
        if number == 1 and line in (b"version 2 ntsc", b"version 2 pal"):
            version = 2
        elif line == b"":
            pass
        elif line == b"reset" and version == 2 and total != 0 and total not in resets:
            resets.add(total)
        elif (found := re.fullmatch(rb"([0-9]{1,5})" + PADS, line)) and total + int(found[1]) <= 36_000:
            total += int(found[1])
        else:
            return f"script refused at line {number}"
    return None


def goes_of(data):
    """What a plan adds up to, and the first line at which it is refused, or none."""
    total, kept, begun = 0, {}, False
    # The length of the path, and the frame of its last reset.
    path = last = 0
    for number, line in enumerate(lines_of(data), 1):
        if line == b"":
            continue
        if re.fullmatch(rb"region +(ntsc|pal)", line) and not begun:
            pass
        elif (found := re.fullmatch(rb"go +([0-9]{1,5})" + PADS, line)) and total + int(found[1]) <= 36_000:
            total += int(found[1])
            path += int(found[1])
        elif found := re.fullmatch(rb"keep +([0-7])", line):
            kept[found[1]] = path, last
        elif (found := re.fullmatch(rb"back +([0-7])", line)) and found[1] in kept:
            path, last = kept[found[1]]
        elif line == b"reset" and last < path:
            last = path
        else:
            return total, number
        begun = True
    return total, None


def plan(data):
    _, number = goes_of(data)
    return None if number is None else f"plan refused at line {number}"


ACCEPT = {"cart": cart, "boot": boot, "table": table, "script": script, "spc": spc, "plan": plan}
TOO_LONG = {"script": "script refused at line 0", "plan": "plan refused at line 0", "cart": "cart refused: too long",
            "boot": "boot refused", "table": "table refused at 512", "spc": "spc refused: too long"}


def loaded(folder, name, most):
    """The bytes of a file, one more than the most at the most, or none where it can't be read."""
    try:
        with open(os.path.join(os.fsencode(folder), name), "rb") as file:
            return file.read(most + 1)
    except OSError:
        return None


def inputs_of(folder, form):
    """The status and the line of the first input at which a run ends, or none where all are accepted; and what was loaded."""
    data = {}
    for option in FORMS[form.command][1]:
        data[option] = loaded(folder, form.names[option], LIMITS[option])
        if data[option] is None:
            return (2, f"cannot read {option}"), data
        refusal = TOO_LONG[option] if len(data[option]) > LIMITS[option] else ACCEPT[option](data[option])
        if refusal:
            return (3, refusal), data
    return None, data


def can_be_created(folder, name):
    path = os.path.join(os.fsencode(folder), name)
    # The kernel takes no new file in /proc.
    is_there = os.path.isdir(os.path.dirname(path)) and not path.startswith(b"/proc/")
    return is_there and not os.path.isdir(path) and len(os.path.basename(path)) < 256
