"""What the programs beside `snes` say, and their statuses."""
import os

from lab import FRAMES, case, read, same, write


def job(room):
    return [it for option in ("cart", "boot", "table", "script") for it in (f"--{option}", room.bench.inputs[option])]


@case("companions: scene says that it wrote only where it did")
def scene(room):
    program = room.bench.programs["scene"]
    end = room.run([program, "out"]).came(0)
    assert end.out.startswith(b"scene.sfc: 131072 bytes\n"), end.out
    for folder in ("/proc/x", "/dev/null/x", "/dev/null"):
        room.run([program, folder]).came(2, b"", b"cannot write " + folder.encode())
    os.makedirs(room.path("shut"))
    os.chmod(room.path("shut"), 0o555)
    room.run(room.nobody([program, "shut"])).came(2, b"", b"cannot write shut/scene.sfc")
    room.run(room.nobody([program, "shut/below"])).came(2, b"", b"cannot write shut/below")
    room.run([program, "out"], tail=">/dev/full").came(2, b"", b"cannot write standard output")
    room.run([program, "out", "more"]).came(2, b"", b"unexpected argument 'more'")
    room.run([program, b"\xff"]).came(2, b"")
    os.chmod(room.path("shut"), 0o755)


def program_of(instructions):
    """A cartridge of 32 KiB whose RESET is at 8000, where these bytes stand."""
    rom = bytearray(0x8000)
    rom[:len(instructions)] = instructions
    rom[0x7FC0:0x7FD5] = b"EDGES".ljust(21)
    rom[0x7FD5:0x7FE0] = bytes([0x20, 0, 5, 0, 0, 0, 0, 0xFF, 0xFF, 0, 0])
    rom[0x7FFC:0x7FFE] = bytes([0, 0x80])
    return bytes(rom)


def lines_of(room, program, breaks, *more):
    write(room.path("breaks"), breaks.encode())
    words = [program, "--cart", room.path("cart"), *job(room)[2:], "--break", room.path("breaks"), *more]
    end = room.run(words)
    assert end.status in (0, 1), end.err
    return [line.split()[5:8] for line in end.out.decode().splitlines()]


@case("companions: a breakpoint that names a bank means what lies there")
def breakpoints(room):
    program = room.bench.programs["trace"]
    # LDA #$5A; STA $06; STA $0006; STA $7E0006; STA $800006; STA $BF0006; LDA $A08000; STA $802105; then a loop.
    write(room.path("cart"), program_of(bytes.fromhex("A95A 8506 8D0600 8F06007E 8F060080 8F0600BF AF0080A0 8F052180 80FE")))
    wanted = [["write", f"{bank}0006", "5A"] for bank in ("00", "00", "7E", "80", "BF")]
    for name in ("7E0006", "000006", "800006", "$BF0006"):
        same(name, lines_of(room, program, f"{name} write"), wanted)
    same("a range", lines_of(room, program, "7E0000-7E000F write"), wanted)
    same("another byte", lines_of(room, program, "7F0006 write"), [])
    same("four digits", lines_of(room, program, "0006 console write"), wanted)
    # The byte A9 of ROM, by the bank in which it is fetched and by that from which it is read.
    for name in ("008000", "808000", "A08000"):
        same(name, lines_of(room, program, name), [["opcode", "008000", "A9"], ["read", "A08000", "A9"]])
    for name in ("002105", "802105", "3F2105"):
        same(name, lines_of(room, program, f"{name} write"), [["write", "802105", "A9"]])


@case("companions: trace refuses what does not go together")
def trace_words(room):
    program = room.bench.programs["trace"]
    room.run([program, *job(room), "--from", "100", "--to", "50"]).came(2, b"", b"--to 50 is before --from 100")
    room.run([program, *job(room), "--from", "100"]).came(2, b"", b"--from and --to go together")
    for more in (("--frame", "3"), ("--frames", "3")):
        room.run([program, *job(room), "--from", "100", "--to", "5000", *more]).came(2, b"", more[0].encode())
    room.run([program, *job(room), "--from", "0", "--to", "1"]).came(0)


@case("companions: a trace whose reader goes away ends quietly")
def trace_pipe(room):
    words = [room.bench.programs["trace"], *job(room), "--frames", "20"]
    for more in ([], ["--csv"]):
        end = room.run(["bash", "-c", '"$@" 2>fault | head -n 3; echo "${PIPESTATUS[0]}" >status', "bash", *words, *more]).came(0)
        same("lines", end.out.count(b"\n"), 3)
        same("status and fault", (read(room.path("status")), read(room.path("fault"))), (b"0\n", b""))
    room.run(words, tail=">/dev/full").came(2, b"", b"cannot write the trace")


@case("companions: look says what it could not write or read")
def look(room):
    program = room.bench.programs["look"]
    room.run(room.words("serial")).came(0)
    for words in (("png", "video", "3"), ("wav", "audio"), ("sheet", "video"), ("avi", "video", "audio")):
        for name in ("/dev/full", "missing/out", "."):
            room.run([program, *words, name]).came(2, b"", b"look: ")
    room.run([program, "sums", "video", "audio"], tail=">/dev/full").came(2, b"", b"look: ")
    room.run([program, "png", "missing", "0", "out"]).came(2, b"", b"missing")
    assert not os.path.exists(room.path("out")), "a picture of nothing"


@case("companions: look overwrites nothing that it reads")
def look_inputs(room):
    program = room.bench.programs["look"]
    room.run(room.words("serial")).came(0)
    room.run([program, "png", "video", "0", "golden"]).came(0)
    for name in ("video", "audio", "golden"):
        os.symlink(name, room.path(f"{name}.soft"))
        os.link(room.path(name), room.path(f"{name}.hard"))
    before = [read(room.path(name)) for name in ("video", "audio", "golden")]
    # The second film differs, so that a picture would be written.
    write(room.path("other"), before[0][:-1] + bytes([before[0][-1] ^ 1]))
    for words, inputs in ((["png", "video", "0"], ["video"]), (["sheet", "video"], ["video"]), (["wav", "audio"], ["audio"]),
                          (["cut", "video", "1", "1"], ["video"]), (["cut", "--audio", "audio", "1", "1"], ["audio"]),
                          (["avi", "video", "audio"], ["video", "audio"]), (["diff", "video", "other", "--png"], ["video", "other"]),
                          (["diff", "--frame", str(FRAMES - 1), "video", "golden", "--png"], ["video", "golden"])):
        for name in inputs:
            for out in (name, f"./{name}", *(f"{name}.{kind}" for kind in ("soft", "hard") if name != "other")):
                room.run([program, *words, out]).came(2, b"", b"nothing is written")
    room.run(["bash", "-c", '"$@" <video', "bash", program, "png", "-", "0", "video"]).came(2, b"", b"nothing is written")
    same("the inputs", [read(room.path(name)) for name in ("video", "audio", "golden")], before)
