#!/usr/bin/env python3
"""Compares `look tags` with a reader of its own, on sound files that are made here.

    tools/evidence/try_tags.py [--look PROGRAM] [--count N] [--seed N]
    tools/evidence/try_tags.py --rows

The files have tags in the text form and in the binary form of ID666, and extended tags (xid6): fields that are full, empty or filled
with other bytes, chunks that are cut, doubled, of the wrong kind or of an unknown ID, texts in UTF-8 and in no encoding, and bytes at
random. The reader below was written from the description of the format (docs/use/SPC-FILES.md), and shares nothing with the program.
If ffprobe is there, with libgme (Debian: apt-get install ffmpeg), titles, games, artists, dumpers and comments that both can show are
compared with its own. The last line is `N files, M failed`, and the status is 1 if M is not 0.

--rows writes the rows that CI runs, crates/tag_rows/data/rows.txt, and what they must print, crates/tag_rows/stdout.
"""
import argparse
import json
import os
import random
import re
import shutil
import subprocess
import sys
import tempfile

TOP = os.path.dirname(os.path.dirname(os.path.dirname(os.path.realpath(__file__))))
HEAD = b"SNES-SPC700 Sound File Data v0.30\x1a\x1a\x1b\x1e"
EXTENDED = 0x10200
LEAST, MOST = 65920, 1048576

# the chunks that are texts, and those that are numbers: their IDs and names
TEXTS = {1: "title", 2: "game", 3: "artist", 4: "dumper", 7: "comment", 0x10: "soundtrack", 0x13: "publisher"}
NUMBERS = {
    5: "date", 6: "emulator", 0x11: "disc", 0x12: "track", 0x14: "year", 0x30: "intro-ticks", 0x31: "loop-ticks", 0x32: "end-ticks",
    0x33: "fade-ticks", 0x34: "muted", 0x35: "loops", 0x36: "amplification",
}
ORDER = (
    "title game artist dumper date-text comment soundtrack publisher length fade intro-ticks loop-ticks end-ticks fade-ticks loops muted"
    " amplification date disc track year emulator"
).split()


# The reader.


def is_text_form(file):
    """Date, length and fade are a text and two numbers in digits, each followed by zeros alone."""
    return all(
        re.fullmatch(rb"[%s]*\0*" % letters, file[start:end])
        for letters, start, end in ((rb"\x20-\x7e", 0x9E, 0xA9), (rb"0-9", 0xA9, 0xAC), (rb"0-9", 0xAC, 0xB1))
    )


def cut(field):
    """The bytes before the first zero."""
    return field.split(b"\0")[0]


def header_tags(file):
    """The form of the header, its texts and its numbers."""
    if file[0x23] != 26:
        return "no tags", {}, {}
    texts = {
        "title": cut(file[0x2E:0x4E]), "game": cut(file[0x4E:0x6E]), "dumper": cut(file[0x6E:0x7E]), "comment": cut(file[0x7E:0x9E]),
    }
    if is_text_form(file):
        texts["date-text"] = cut(file[0x9E:0xA9])
        texts["artist"] = cut(file[0xB1:0xD1])
        length, fade = cut(file[0xA9:0xAC]), cut(file[0xAC:0xB1])
        emulator = int(chr(file[0xD2])) if 48 <= file[0xD2] <= 57 else file[0xD2]
        numbers = {"muted": file[0xD1] or None, "emulator": emulator or None}
        numbers["length"] = int(length) if length else None
        numbers["fade"] = int(fade) if fade else None
        return "text", texts, numbers
    texts["artist"] = cut(file[0xB0:0xD0])
    day, month, year = file[0x9E], file[0x9F], int.from_bytes(file[0xA0:0xA2], "little")
    numbers = {
        "date": (year * 10000 + month * 100 + day) or None,
        "length": int.from_bytes(file[0xA9:0xAC], "little") or None,
        "fade": int.from_bytes(file[0xAC:0xB0], "little") or None,
        "muted": file[0xD0] or None,
        "emulator": file[0xD1] or None,
    }
    return "binary", texts, numbers


def chunks(file):
    """The first chunk of each ID: its kind, its word and its content."""
    found = {}
    if len(file) < EXTENDED + 8 or file[EXTENDED : EXTENDED + 4] != b"xid6":
        return found
    at = EXTENDED + 8
    end = min(len(file), at + int.from_bytes(file[EXTENDED + 4 : at], "little"))
    while at + 4 <= end:
        ident, kind, word = file[at], file[at + 1], int.from_bytes(file[at + 2 : at + 4], "little")
        size = word if kind else 0
        if at + 4 + size > end:
            break
        found.setdefault(ident, (kind, word, file[at + 4 : at + 4 + size]))
        at += 4 + size + -size % 4
    return found


def extended_tags(file):
    """The texts and the numbers of the extended tags."""
    texts, numbers = {}, {}
    for ident, (kind, word, content) in chunks(file).items():
        if ident in TEXTS and kind == 1:
            texts[TEXTS[ident]] = cut(content)
        if ident in NUMBERS and (kind == 0 or kind == 4 and len(content) == 4):
            numbers[NUMBERS[ident]] = word if kind == 0 else int.from_bytes(content, "little")
    if "date" in numbers:
        numbers["date"] = sum((numbers["date"] >> 4 * place & 15) * 10**place for place in range(8))
    return texts, numbers


def shown(text):
    """A text as it is printed."""
    try:
        hidden = [(0x7F, 0x9F), (0x200E, 0x200F), (0x2028, 0x202E), (0x2066, 0x2069)]
        readable = not any(low <= ord(c) <= high for c in text.decode() for low, high in hidden)
    except UnicodeDecodeError:
        readable = False
    out = b""
    for byte in text:
        if byte == 0x5C:
            out += b"\\\\"
        elif 0x20 <= byte < 0x7F or readable and byte >= 0x80:
            out += bytes([byte])
        else:
            out += b"\\x%02x" % byte
    return out


def report(file):
    """The lines of a file, or why it is refused."""
    if len(file) > MOST:
        return b"refused: too long\n"
    if len(file) < LEAST:
        return b"refused: too short\n"
    if file[:27] != HEAD[:27]:
        return b"refused: no text\n"
    form, texts, numbers = header_tags(file)
    more_texts, more_numbers = extended_tags(file)
    texts.update({name: text for name, text in more_texts.items() if text})
    numbers.update(more_numbers)
    out = b"header: " + form.encode() + b"\n"
    for name in ORDER:
        if texts.get(name):
            out += name.encode() + b": " + shown(texts[name]) + b"\n"
        elif numbers.get(name) is not None:
            number = numbers[name]
            said = str(number).encode()
            if name == "track":
                said = str(number // 256).encode() + (bytes([number % 256]) if 0x20 < number % 256 < 0x7F else b"")
            out += name.encode() + b": " + said + b"\n"
    return out


# The files.


def empty(size=0x10240, tags=True):
    """A sound file with no tag set."""
    file = bytearray(size)
    file[: len(HEAD)] = HEAD
    file[0x23] = 26 if tags else 27
    return file


def put(file, at, content):
    """Puts bytes into a file, as far as it has room for them."""
    content = content[: max(0, len(file) - at)]
    file[at : at + len(content)] = content


def chunk(ident, kind, word, content=b""):
    """The bytes of a chunk."""
    return bytes([ident, kind]) + word.to_bytes(2, "little") + content + bytes(-len(content) % 4)


def with_chunks(file, all_chunks, size=None):
    """A file with extended tags."""
    content = b"".join(all_chunks)
    size = len(content) if size is None else size
    return file[:EXTENDED] + b"xid6" + size.to_bytes(4, "little") + content


def a_text(rng, most):
    """A text of up to so many bytes."""
    kind = rng.randrange(6)
    if kind < 3:
        return bytes(rng.randrange(0x20, 0x7F) for _ in range(rng.choice([0, 1, most - 1, most, rng.randrange(most + 1)])))
    if kind == 3:
        letters = "äé日本語のゲーム\u200e\u2028\u0085\x1b\\a"
        return "".join(rng.choice(letters) for _ in range(most)).encode()[:most]
    if kind == 4:
        return bytes(rng.randrange(256) for _ in range(most))
    return b"" if rng.randrange(2) else bytes(rng.randrange(0x20, 0x7F) for _ in range(most // 2)) + b"\0more"[: most - most // 2]


def digits(rng, most):
    """Decimal digits, up to so many."""
    return b"".join(b"%d" % rng.randrange(10) for _ in range(rng.randrange(most + 1)))


def random_header(rng, file):
    """Sets the fields of the header in one of the forms."""
    for at, size in ((0x2E, 32), (0x4E, 32), (0x6E, 16), (0x7E, 32)):
        put(file, at, a_text(rng, size))
    form = rng.randrange(5)
    if form < 2:
        dates = [b"", b"12/31/1999", b"2001-05-06", b"31.12.99", a_text(rng, 11)]
        put(file, 0x9E, rng.choice(dates))
        put(file, 0xA9, digits(rng, 3))
        put(file, 0xAC, digits(rng, 5))
        put(file, 0xB1, a_text(rng, 32))
        put(file, 0xD1, bytes([rng.randrange(256), rng.choice([0, 1, 48, 49, 50, 200])]))
    elif form < 4:
        put(file, 0x9E, bytes([rng.randrange(32), rng.randrange(13)]) + rng.choice([0, 1999, 2001]).to_bytes(2, "little"))
        put(file, 0xA9, rng.choice([0, 7, 53, 120, 0x3030, 70000]).to_bytes(3, "little"))
        put(file, 0xAC, rng.choice([0, 10000, 0x30, 2**32 - 1]).to_bytes(4, "little"))
        put(file, 0xB0, a_text(rng, 32))
        put(file, 0xD0, bytes([rng.randrange(256), rng.randrange(3)]))
    else:
        put(file, 0x9E, bytes(rng.choice([0, 0, 0, 48, 65, rng.randrange(256)]) for _ in range(0x100 - 0x9E)))


def random_chunk(rng):
    """A chunk, mostly one that has a meaning."""
    ident = rng.choice(list(TEXTS) + list(NUMBERS) + [rng.randrange(256)])
    if ident in TEXTS and rng.randrange(8):
        content = a_text(rng, rng.choice([4, 40, 255]))
        content += bytes(rng.randrange(2))
        return chunk(ident, 1, len(content), content)
    if rng.randrange(2):
        return chunk(ident, 0, rng.choice([0, 1, 0x2041, rng.randrange(65536)]))
    if rng.randrange(8):
        return chunk(ident, 4, 4, rng.choice([0x20010506, 0, 64000, rng.randrange(2**32)]).to_bytes(4, "little"))
    content = bytes(rng.randrange(256) for _ in range(rng.randrange(9)))
    return chunk(ident, rng.choice([1, 2, 4, 255]), len(content), content)


def random_file(rng):
    """A sound file at random, and now and then none."""
    file = empty(rng.choice([LEAST, 0x10200, 0x10208, 0x10240]), rng.randrange(8) > 0)
    file[0x23] = rng.choice([file[0x23]] * 9 + [rng.randrange(256)])
    random_header(rng, file)
    if rng.randrange(3):
        content = [random_chunk(rng) for _ in range(rng.randrange(12))]
        whole = len(b"".join(content))
        file = with_chunks(file + bytes(max(0, EXTENDED - len(file))), content, rng.choice([whole] * 6 + [0, whole // 2, whole + 9, 2**32 - 1]))
        if not rng.randrange(4):
            file = file[: max(LEAST, len(file) - rng.randrange(30))]
    fate = rng.randrange(40)
    if fate == 0:
        file = file[: rng.choice([0, 26, 255, 256, LEAST - 1])]
    elif fate == 1:
        file += bytes(MOST - len(file) + rng.choice([0, 1]))
    elif fate == 2:
        file[rng.randrange(27)] ^= 1 << rng.randrange(8)
    return bytes(file)


# The rows.


class Rows:
    """Rows for the program of crates/tag_rows, and what it must print."""

    def __init__(self):
        self.lines, self.out = [], b""

    def row(self, title, file):
        """Reads a file: its bytes other than 0 are lines."""
        self.lines += ["row " + title, "file %d" % len(file)]
        base = bytearray(len(file))
        base[: len(HEAD)] = HEAD[: len(file)]
        at = 0
        while at < len(file):
            if file[at] == base[at]:
                at += 1
                continue
            end = at
            while end < len(file) and file[end] != base[end] and end < at + 48:
                end += 1
            self.lines.append("put %x %s" % (at, bytes(file[at:end]).hex()))
            at = end
        self.lines.append("show")
        self.out += title.encode() + b"\n" + report(bytes(file))

    def written(self, title, sets, said, fields):
        """Sets tags and writes them: what is said of each, and the bytes of the fields."""
        self.lines += ["row " + title, "file 66048"]
        # what must stay: the version, the registers, and the byte behind the tags
        self.lines += ["put 24 1e34120a0b0c0d0e0102", "put 100 ff"]
        self.lines += ["set %s %s" % pair for pair in sets] + ["write", "bytes 23 2e", "bytes 2e 100", "bytes 100 102", "show"]
        file = empty(66048)
        put(file, 0x24, bytes.fromhex("1e34120a0b0c0d0e0102"))
        file[0x100] = 0xFF
        for at, content in fields:
            put(file, at, content)
        self.out += title.encode() + b"\n" + said
        for start, end in ((0x23, 0x2E), (0x2E, 0x100), (0x100, 0x102)):
            self.out += b" " + "".join(" %02x" % byte for byte in file[start:end]).encode() + b"\n"
        self.out += report(bytes(file))


def write_rows(rows):
    """Rows of tags that are written."""
    long32, long33 = "0123456789abcdefghijklmnopqrstuv", "0123456789abcdefghijklmnopqrstuvw"
    rows.written(
        "every tag that the command line sets",
        [("title", "Overworld"), ("game", "A Game"), ("artist", "A. Composer"), ("comment", "free"), ("length", "90"), ("fade", "8000")], b"",
        [(0x2E, b"Overworld"), (0x4E, b"A Game"), (0x7E, b"free"), (0xA9, b"090"), (0xAC, b"08000"), (0xB1, b"A. Composer")],
    )
    rows.written(
        "full fields", [(name, long32) for name in ("title", "game", "comment", "artist")]
        + [("dumper", long32[:16]), ("date", "12/31/1999"), ("length", "999"), ("fade", "99999")], b"",
        [(at, long32.encode()) for at in (0x2E, 0x4E, 0x7E, 0xB1)]
        + [(0x6E, long32[:16].encode()), (0x9E, b"12/31/1999"), (0xA9, b"999"), (0xAC, b"99999")],
    )
    rows.written(
        "a byte too many, a character outside ASCII, numbers that are none; what was set before stays",
        [("title", "kept"), ("title", long33), ("game", long33), ("artist", long33), ("comment", long33), ("dumper", long32[:17]),
         ("date", "123456789012"), ("title", "caf\u00e9"), ("title", "a\tb"), ("title", "a\x7fb"), ("length", "5"), ("length", ""),
         ("length", "1000"), ("length", "-1"), ("length", "1.5"), ("fade", "100000"), ("fade", "12a"), ("fade", " 1")],
        b"".join(b"  %s refused: %s\n" % pair for pair in (
            (b"title", b"too long"), (b"game", b"too long"), (b"artist", b"too long"), (b"comment", b"too long"), (b"dumper", b"too long"),
            (b"date", b"too long"), (b"title", b"not printable"), (b"title", b"not printable"), (b"title", b"not printable"),
            (b"length", b"not a number"), (b"length", b"too long"), (b"length", b"not a number"), (b"length", b"not a number"),
            (b"fade", b"too long"), (b"fade", b"not a number"), (b"fade", b"not a number"))),
        [(0x2E, b"kept"), (0xA9, b"005")],
    )
    rows.written(
        "a shorter text replaces a longer one whole, an empty one clears the field",
        [("title", long32), ("title", "x"), ("game", "gone"), ("game", ""), ("length", "123"), ("length", "4"), ("fade", "0")], b"",
        [(0x2E, b"x"), (0xA9, b"004"), (0xAC, b"00000")],
    )
    rows.written("no tag set", [], b"", [])


def header_rows(rows):
    """Rows of headers that are read."""
    rows.row("no tags: the byte at 23 is 27", empty(tags=False))
    file = empty(tags=False)
    put(file, 0x2E, b"not read")
    rows.row("a title that the byte at 23 denies", file)
    file = empty(LEAST)
    put(file, 0x2E, b"T" * 32 + b"G" * 32 + b"D" * 16 + b"C" * 32 + b"01/02/2003\0" + b"123" + b"45678" + b"A" * 32 + b"\x81" + b"2")
    rows.row("the text form with full fields, in the shortest file", file)
    file = empty()
    put(file, 0x2E, b"binary")
    put(file, 0x9E, bytes([31, 12]) + (1999).to_bytes(2, "little"))
    put(file, 0xA9, (70000).to_bytes(3, "little") + (2**32 - 1).to_bytes(4, "little") + b"B" * 32 + b"\x03\x01")
    rows.row("the binary form", file)
    file = empty()
    put(file, 0xB0, b"Ed")
    rows.row("an artist at B0, and no date, length or fade: the binary form", file)
    file = empty()
    put(file, 0xB1, b"Ed")
    rows.row("an artist at B1, and no date, length or fade: the text form", file)
    file = empty()
    put(file, 0xA9, b"7\0\0" + b"0\0\0\0\0")
    rows.row("digits that end at once", file)
    file = empty()
    put(file, 0xA9, b"7\0\0" + b"00001")
    rows.row("a fade of five digits", file)
    file = empty()
    put(file, 0xA9, b"1\x002")
    rows.row("digits behind a zero: the binary form", file)
    file = empty()
    put(file, 0x9E, b"May 5 2001\x01")
    rows.row("a date with another byte than a printable one: the binary form", file)
    file = empty()
    put(file, 0x2E, b"\0hidden" + bytes(25) + b"a\\b\n\x1b[2J\x7f")
    put(file, 0x7E, "日本 é".encode())
    put(file, 0xB1, b"caf\xe9")
    put(file, 0x6E, "\u0085x\u202e".encode())
    rows.row("an empty title with bytes behind it, controls, UTF-8, no UTF-8, and characters that hide", file)


def extended_rows(rows):
    """Rows of extended tags."""
    long = ("A title that is longer than the header's thirty-two bytes", "z" * 255)
    file = empty()
    put(file, 0x2E, long[0].encode()[:32])
    rows.row("a longer title, its padding, and a number of each kind", with_chunks(file, [
        chunk(1, 1, len(long[0]) + 1, long[0].encode() + b"\0"), chunk(5, 4, 4, (0x20010506).to_bytes(4, "little")), chunk(6, 0, 1),
        chunk(0x10, 1, 255, long[1].encode()), chunk(0x11, 0, 2), chunk(0x12, 0, 0x0C41), chunk(0x13, 1, 4, b"Pub\0"), chunk(0x14, 0, 1994),
        chunk(0x30, 4, 4, (64000).to_bytes(4, "little")), chunk(0x31, 4, 4, (128001).to_bytes(4, "little")),
        chunk(0x32, 4, 4, (1).to_bytes(4, "little")), chunk(0x33, 4, 4, (2**32 - 1).to_bytes(4, "little")), chunk(0x34, 0, 0x81),
        chunk(0x35, 0, 3), chunk(0x36, 4, 4, (65536).to_bytes(4, "little")),
    ]))
    file = empty()
    put(file, 0x2E, b"header")
    rows.row("an empty text and one of another kind: the header's", with_chunks(file, [chunk(1, 1, 4, b"\0abc"), chunk(1, 1, 4, b"late")]))
    rows.row("kinds that do not fit", with_chunks(file, [chunk(1, 4, 4, b"text"), chunk(0x30, 1, 4, b"1234"), chunk(0x31, 4, 3, b"123")]))
    rows.row("the first of two", with_chunks(file, [chunk(2, 1, 5, b"first"), chunk(2, 1, 6, b"second")]))
    body = [chunk(9, 1, 5, b"other"), chunk(3, 1, 4, b"last")]
    rows.row("an unknown ID before it", with_chunks(file, body))
    rows.row("a size that ends within the last text", with_chunks(file, body, 19))
    rows.row("a size that ends with it", with_chunks(file, body, 20))
    rows.row("a size beyond the file", with_chunks(file, body, 2**32 - 1))
    rows.row("a file that ends within the last text", with_chunks(file, body, 100)[:-1])
    rows.row("a file that ends within the text xid6", with_chunks(file, body)[: EXTENDED + 3])
    rows.row("a text longer than the file", with_chunks(file, [chunk(4, 0, 0)[:1] + b"\1\xff\xff" + b"abc"]))
    rows.row("other letters than xid6", with_chunks(file, body)[:EXTENDED] + b"Xid6" + with_chunks(file, body)[EXTENDED + 4 :])
    rows.row("an extended title without tags in the header", with_chunks(empty(tags=False), [chunk(1, 1, 3, b"Yes")]))


def refused_rows(rows):
    """Rows of files that are refused."""
    rows.row("a byte too few", empty(LEAST - 1))
    rows.row("nothing", bytearray())
    other = empty()
    other[26] = ord("A")
    rows.row("another text", other)
    for size in (MOST, MOST + 1):
        rows.row("a file of %d bytes" % size, empty(size))


def rows_main():
    """Writes rows.txt and stdout of crates/tag_rows."""
    rows = Rows()
    for part in (write_rows, header_rows, extended_rows, refused_rows):
        part(rows)
    folder = os.path.join(TOP, "crates", "tag_rows")
    with open(os.path.join(folder, "data", "rows.txt"), "w", encoding="utf-8") as file:
        file.write("# Made by tools/evidence/try_tags.py --rows\n" + "\n".join(rows.lines) + "\n")
    with open(os.path.join(folder, "stdout"), "wb") as file:
        file.write(rows.out)
    return 0


# The comparison.


def ran(command, path):
    """What a program says of a file: its status and both outputs."""
    done = subprocess.run([*command, path], stdin=subprocess.DEVNULL, stdout=subprocess.PIPE, stderr=subprocess.PIPE, check=False)
    return done.returncode, done.stdout, done.stderr


CAUSES = {
    b"too long": b"it has more than 1048576 bytes", b"too short": b"it has fewer than 65920 bytes",
    b"no text": b"it does not begin with SNES-SPC700 Sound File Data",
}


def differs(look, path, file):
    """Why the program is wrong about a file, or nothing."""
    status, out, err = ran([look, "tags"], path)
    wanted = report(file)
    if wanted.startswith(b"refused: "):
        cause = CAUSES[wanted[9:-1]]
        line = b"look: " + path.encode() + b" is not a sound file: " + cause + b"\n"
        return None if (status, out, err) == (2, b"", line) else "status %d, %r, %r; wanted %r" % (status, out, err, line)
    return None if (status, out, err) == (0, wanted, b"") else "status %d, %r, %r; wanted %r" % (status, out, err, wanted)


def is_plain(text):
    """A text that other readers show as it is: printable, with no space at an end."""
    return re.fullmatch(rb"[!-~]([ -~]*[!-~])?", text) is not None


def gme_differs(path, file):
    """Why ffprobe says something else, or nothing; and how many tags were compared."""
    status, out, _ = ran(["ffprobe", "-v", "quiet", "-of", "json", "-show_entries", "format_tags"], path)
    if status != 0:
        return None, 0
    said = {name.lower(): text for name, text in json.loads(out.decode("utf-8", "replace")).get("format", {}).get("tags", {}).items()}
    # libgme takes the last of two chunks, 31 bytes of the text form's artist, and the binary form's from its second byte on if it
    # begins with a digit: only what is left is compared
    form, texts, _ = header_tags(file)
    if chunks(file):
        return None, 0
    if form == "text" and len(texts["artist"]) > 31 or form == "binary" and texts["artist"][:1].isdigit():
        del texts["artist"]
    count = 0
    for name, their in (("title", "song"), ("game", "game"), ("artist", "author"), ("dumper", "dumper"), ("comment", "comment")):
        if is_plain(texts.get(name, b"")) and their in said:
            count += 1
            if said[their].encode() != texts[name]:
                return "%s is %r to ffprobe, and %r here" % (name, said[their], texts[name]), count
    return None, count


def main():
    options = argparse.ArgumentParser(description="Compares `look tags` with a reader of its own.")
    options.add_argument("--look", default=os.path.join(TOP, "look"))
    options.add_argument("--count", type=int, default=300)
    options.add_argument("--seed", type=int, default=1)
    options.add_argument("--rows", action="store_true")
    options = options.parse_args()
    if options.rows:
        return rows_main()
    rng = random.Random(options.seed)
    ffprobe = shutil.which("ffprobe")
    failed = compared = 0
    with tempfile.TemporaryDirectory() as folder:
        for number in range(options.count):
            file = random_file(rng)
            path = os.path.join(folder, "%d.spc" % number)
            with open(path, "wb") as out:
                out.write(file)
            why = differs(options.look, path, file)
            if why is None and ffprobe and not report(file).startswith(b"refused"):
                why, count = gme_differs(path, file)
                compared += count
            if why is not None:
                failed += 1
                print("file %d: %s" % (number, why))
            os.remove(path)
    if ffprobe:
        print("%d tags compared with ffprobe" % compared)
    print("%d files, %d failed" % (options.count, failed))
    return 1 if failed else 0


if __name__ == "__main__":
    sys.exit(main())
