"""The scripts ./snes, ./look, ./scene and ./trace: signals on a terminal, limits, first builds, the line of README."""
import contextlib
import os
import pty
import re
import select
import shutil
import signal
import subprocess
import time

import lab
from lab import USAGE, case, processes_in, read, same, write
from stage import Stage


class Terminal:
    """A wrapper on a terminal, as a shell runs it there: in the process group that is in front, of a session that goes on."""

    def __init__(self, stage, words, nap="0", stdout=None):
        told, tell = os.pipe()
        hold, self.release = os.pipe()
        self.leader, self.ours = pty.fork()
        if self.leader == 0:
            try:
                lead(stage, words, nap, stdout, tell, hold)
            finally:
                os._exit(0)
        os.close(tell)
        os.close(hold)
        self.told = os.fdopen(told)
        self.pid = int(self.told.readline())
        self.said, self.has_ended = b"", False

    def hear(self, until, seconds=60):
        """Reads what is printed, until a condition holds."""
        ends = time.time() + seconds
        while not until():
            if time.time() > ends:
                raise AssertionError(f"it does not come to that: {self.said[-300:]!r}")
            if select.select([self.ours], [], [], 0.05)[0]:
                with contextlib.suppress(OSError):
                    self.said += os.read(self.ours, 65536)
            else:
                time.sleep(0.01)

    def status(self):
        """Its exit status as a shell has it, once it has ended."""
        ended = []

        def has_ended():
            if select.select([self.told], [], [], 0)[0]:
                ended.append(int(self.told.readline()))
                self.has_ended = True
            return self.has_ended
        self.hear(has_ended)
        while select.select([self.ours], [], [], 0.1)[0]:
            self.said += os.read(self.ours, 65536)
        return ended[0]

    def __enter__(self):
        return self

    def __exit__(self, *_):
        if not self.has_ended:
            os.kill(self.pid, signal.SIGKILL)
        # Other leaders that were forked meanwhile hold this pipe too, so that its end would not be seen.
        os.write(self.release, b"x")
        os.close(self.release)
        os.waitpid(self.leader, 0)
        os.close(self.ours)
        self.told.close()


def lead(stage, words, nap, stdout, tell, hold):
    """What the leader of the session does: it runs the words in front, says their process and their status, and waits."""
    signal.signal(signal.SIGTTOU, signal.SIG_IGN)
    pid = os.fork()
    if pid == 0:
        os.setpgid(0, 0)
        os.tcsetpgrp(0, os.getpid())
        signal.signal(signal.SIGTTOU, signal.SIG_DFL)
        if stdout:
            os.dup2(os.open(stdout, os.O_WRONLY | os.O_CREAT), 1)
        os.chdir(stage.room.folder)
        os.execve(words[0], words, {**os.environ, **stage.env(nap)})
    os.write(tell, b"%d\n" % pid)
    status = os.waitstatus_to_exitcode(os.waitpid(pid, 0)[1])
    os.write(tell, b"%d\n" % (status if status >= 0 else 128 - status))
    os.read(hold, 1)


def are_gone(folder, seconds=5):
    """Asserts that no process is left."""
    ends = time.time() + seconds
    while left := processes_in(folder):
        assert time.time() < ends, f"left: {left}"
        time.sleep(0.05)


def long_run(stage, sound):
    words = stage.room.words("serial", {"audio": sound}, program=None)[1:]
    words[words.index("--frames") + 1] = "36000"
    return [f"{stage.top}/snes", *words]


def gets_signal(send, status):
    def try_it(room):
        stage = Stage(room).build()
        # Nobody reads the sound, so the run waits in its middle.
        pipe = room.path("pipe")
        os.mkfifo(pipe)
        held = os.open(pipe, os.O_RDWR)
        with Terminal(stage, long_run(stage, pipe)) as terminal:
            terminal.hear(lambda: b" of 36000 frames" in terminal.said)
            send(terminal)
            same("status", terminal.status(), status)
            are_gone(room.folder)
        os.close(held)
        right = read(room.path("video"))
        assert right, "nothing was written"
        assert room.bench.right["serial"]["video"].startswith(right[:len(room.bench.right["serial"]["video"])]), "video is no prefix"
        assert terminal.said.endswith(b"\r\x1b[K"), f"the line of the progress is left: {terminal.said[-80:]!r}"
    return try_it


for _signal in (signal.SIGTERM, signal.SIGINT, signal.SIGHUP):
    case(f"wrappers: ./snes on a terminal, {_signal.name} to the script alone")(
        gets_signal(lambda terminal, sent=_signal: os.kill(terminal.pid, sent), 128 + _signal))
case("wrappers: ./snes on a terminal, Ctrl-C")(gets_signal(lambda terminal: os.write(terminal.ours, b"\x03"), 130))


@case("wrappers: ./snes on a terminal tells the line of the program")
def on_terminal(room):
    stage = Stage(room).build()
    with Terminal(stage, [f"{stage.top}/snes", *room.words("serial")[1:]]) as terminal:
        same("status", terminal.status(), 0)
    assert room.bench.lines["serial"].strip() in terminal.said, terminal.said
    for option in ("video", "audio"):
        room.has("serial", option, "whole")
    with Terminal(stage, [f"{stage.top}/snes", *room.words("serial")[1:]], stdout=room.path("line")) as terminal:
        same("status", terminal.status(), 0)
    same("the line", read(room.path("line")), room.bench.lines["serial"])
    with Terminal(stage, [f"{stage.top}/snes", "x"]) as terminal:
        same("status of a word that is none", terminal.status(), 1)
    assert USAGE.strip() in terminal.said, terminal.said


@case("wrappers: ./snes takes what standard input gives")
def standard_input(room):
    stage = Stage(room).build()
    for on_terminal in (False, True):
        words = [f"{stage.top}/snes", *room.words("serial", None, {"cart": "/dev/stdin"})[1:]]
        if on_terminal:
            words = ["bash", "-c", 'cat "$1" | "${@:2}"', "bash", room.bench.inputs["cart"], *words]
            words[0] = shutil.which("bash")
            with Terminal(stage, words) as terminal:
                same("status", terminal.status(), 0)
        else:
            with open(room.bench.inputs["cart"], "rb") as cart:
                room.run(words, env=stage.env(), stdin=cart).came(0, room.bench.lines["serial"])
        room.has("serial", "video", "whole")
        os.remove(room.path("video"))


@case("wrappers: ./snes without a terminal is the program by the time it runs")
def no_terminal(room):
    stage = Stage(room).build()
    pipe = room.path("pipe")
    os.mkfifo(pipe)
    held = os.open(pipe, os.O_RDWR)
    with subprocess.Popen(long_run(stage, pipe), cwd=room.folder, env={**os.environ, **stage.env()}, stdout=subprocess.PIPE,
                          stderr=subprocess.PIPE) as process:
        while not os.path.exists(room.path("video")) or not os.path.getsize(room.path("video")):
            time.sleep(0.02)
            assert process.poll() is None, "it ended by itself"
        process.terminate()
        process.communicate(timeout=10)
    os.close(held)
    same("status", process.returncode, -signal.SIGTERM)
    are_gone(room.folder)


@case("wrappers: a limit of file sizes is a fault that is told")
def limit(room):
    stage = Stage(room).build()
    env = stage.env()
    words = [f"{stage.top}/snes", *room.words("serial")[1:]]
    room.run(words, shell="ulimit -f 1000;", env=env).came(4, b"cannot write video\n")
    same("bytes", room.has("serial", "video", "prefix"), 1_024_000)
    with Terminal(stage, [shutil.which("bash"), "-c", 'ulimit -f 1000; exec "$@"', "bash", *words]) as terminal:
        same("status on a terminal", terminal.status(), 4)
    room.run(room.words("serial")).came(0)
    room.run([f"{stage.top}/look", "cut", "video", "0", "3", "out"], shell="ulimit -f 100;", env=env).came(2, b"", b"cannot write")
    room.run([f"{stage.top}/scene", "out.d"], shell="ulimit -f 10;", env=env).came(2, b"", b"cannot write out.d/scene.sfc")
    trace = [f"{stage.top}/trace", *(it for name in ("cart", "boot", "table", "script") for it in (f"--{name}", room.bench.inputs[name]))]
    room.run(trace, shell="ulimit -f 100;", tail=">trace", env=env).came(2, None, b"cannot write the trace")
    same("bytes of the trace", os.path.getsize(room.path("trace")), 102_400)


@case("wrappers: closed descriptors, by ./snes")
def closed(room):
    stage = Stage(room).build()
    for tail, status in (("<&-", 0), (">&-", 4), ("2>&-", 0), ("<&- >&- 2>&-", 4)):
        room.run([f"{stage.top}/snes", *room.words("serial")[1:]], tail=tail, env=stage.env()).came(status)
        room.has("serial", "video", "whole")
        room.has("serial", "audio", "whole")


@case("wrappers: a program is built once, by whatever copy or touch of its tree")
def copies(room):
    stage = Stage(room)
    stage.run("scene", "made").came(0)
    same("builds at first", stage.builds(), 1)
    subprocess.run(["cp", "-a", stage.top, room.path("kept")], check=True)
    subprocess.run(["cp", "-r", stage.top, room.path("plain")], check=True)
    later = time.time() + 5
    for folder, _, files in os.walk(room.path("plain")):
        for file in files:
            if file.endswith(".rt"):
                os.utime(f"{folder}/{file}", (later, later))
    for top in ("kept", "plain"):
        stage.run("scene", "made", top=room.path(top)).came(0)
        stage.run("snes", "demo", "7", "--frames", "0", top=room.path(top)).came(0)
    os.utime(stage.source("scene_cart"), (later, later))
    stage.run("scene", "made").came(0)
    same("builds after copies and touches", stage.builds(), 1)
    # Other bytes are a change, whatever their time.
    write(stage.source("scene_cart"), b"// another source\n")
    os.utime(stage.source("scene_cart"), (1, 1))
    stage.run("scene", "made").came(0)
    same("builds after a change", stage.builds(), 2)
    stage.run("scene", "made").came(0)
    same("builds after that", stage.builds(), 2)
    same("copies that are left", stage.copies(), [])


@case("wrappers: a program that the gate or `rt run` has built is taken as it is")
def by_the_gate(room):
    stage = Stage(room)
    made = f"{stage.top}/crates/scene_cart/out/scene_cart"
    os.makedirs(os.path.dirname(made))
    shutil.copy(room.path("programs/scene_cart"), made)
    stage.run("scene", "made").came(0)
    same("builds", stage.builds(), 0)
    subprocess.run(["cp", "-r", stage.top, room.path("plain")], check=True)
    later = time.time() + 5
    os.utime(stage.source("scene_cart", room.path("plain")), (later, later))
    stage.run("scene", "made", top=room.path("plain")).came(0)
    same("builds of a copy", stage.builds(), 0)
    # A change, which the gate then builds.
    write(stage.source("scene_cart"), b"// another source\n")
    time.sleep(0.02)
    with open(made, "ab") as program:
        program.write(b"\0")
    stage.run("scene", "made").came(0)
    same("builds of what the gate built", stage.builds(), 0)
    write(stage.source("scene_cart"), b"// a third source\n")
    stage.run("scene", "made").came(0)
    same("builds of what nobody built", stage.builds(), 1)


@case("wrappers: first builds at the same time")
def at_once(room):
    stage = Stage(room)
    env = {**os.environ, **stage.env("0.2")}
    calls = [subprocess.Popen([f"{stage.top}/{words[0]}", *words[1:]], cwd=room.folder, env=env, stdout=subprocess.PIPE, stderr=subprocess.PIPE)
             for words in (("scene", "one"), ("scene", "two"), ("snes", "demo", "7", "--frames", "0"), ("snes", "demo", "7", "--frames", "0"))]
    ends = [(call.communicate(timeout=60), call.returncode) for call in calls]
    same("statuses", [status for _, status in ends], [0] * 4)
    assert all(out.startswith(b"scene.sfc: 131072 bytes\n") for (out, _), _ in ends[:2]), ends
    same("what they printed", [out for (out, _), _ in ends[2:]], [b"frames 0 samples 0 video 0 sound 0\n"] * 2)
    same("builds", stage.builds(), 1)
    are_gone(room.folder)
    same("copies that are left", stage.copies(), [])


def interrupted(sent, by_terminal):
    def try_it(room):
        stage = Stage(room)
        if by_terminal:
            with Terminal(stage, [f"{stage.top}/snes", "demo", "7", "--frames", "0"], nap="20") as terminal:
                terminal.hear(lambda: stage.builds() == 1)
                if sent is None:
                    os.write(terminal.ours, b"\x03")
                else:
                    os.kill(terminal.pid, sent)
                same("status", terminal.status(), 130 if sent is None else 128 + sent)
                are_gone(room.folder, 10)
        else:
            # A shell that begins in the background ignores SIGINT; this one does not.
            with subprocess.Popen([f"{stage.top}/snes", "demo", "7", "--frames", "0"], cwd=room.folder,
                                  env={**os.environ, **stage.env("20")}, stdout=subprocess.PIPE, stderr=subprocess.PIPE) as process:
                ends = time.time() + 30
                while stage.builds() == 0:
                    assert time.time() < ends, "no build begins"
                    time.sleep(0.02)
                process.send_signal(sent)
                process.communicate(timeout=30)
            same("status", process.returncode, -sent)
        are_gone(room.folder, 10)
        same("copies that are left", stage.copies(), [])
        same("ends of the gate", stage.log("ended"), [])
        began = time.time()
        stage.run("snes", "demo", "7", "--frames", "0").came(0, b"frames 0 samples 0 video 0 sound 0\n")
        assert time.time() - began < 10, "the next call waited"
        same("builds", stage.builds(), 2)
    return try_it


for _signal in (signal.SIGINT, signal.SIGTERM, signal.SIGHUP, signal.SIGKILL):
    case(f"wrappers: a first build that is interrupted by {_signal.name}, and started again")(interrupted(_signal, False))
case("wrappers: a first build on a terminal that is interrupted by SIGTERM")(interrupted(signal.SIGTERM, True))
case("wrappers: a first build on a terminal that is interrupted by Ctrl-C")(interrupted(None, True))


@case("wrappers: no program where the gate does not pass, and none of `rt`")
def not_built(room):
    stage = Stage(room)
    write(f"{stage.bin}/rt", b"#!/bin/sh\necho 'rt: no'\nexit 1\n")
    stage.run("snes", "demo", "7", "--frames", "0").came(70, b"", b"build.log")
    assert not os.path.exists(f"{stage.top}/crates/snes_run/out/snes_run"), "there is a program"
    os.remove(f"{stage.bin}/rt")
    env = {**stage.env(), "PATH": "/usr/bin:/bin"}
    if shutil.which("rt", path=env["PATH"]) is None:
        room.run([f"{stage.top}/snes", "demo", "7", "--frames", "0"], env=env).came(70, b"", b"rt, the command")
    same("copies that are left", stage.copies(), [])


@case("wrappers: ./snes is found through a link and in a folder with an odd name")
def odd_folder(room):
    stage = Stage(room, "it's \"a\" $(folder)\nof two lines")
    os.symlink(f"{stage.top}/snes", room.path("soft"))
    room.run([room.path("soft"), *room.words("serial")[1:]], env=stage.env()).came(0, room.bench.lines["serial"])
    room.has("serial", "video", "whole")


@case("wrappers: the line of CHECKING for many cartridges takes every name")
def line_of_page(room):
    page = next(it for it in (f"{lab.TREE}/docs/use/CHECKING.md", f"{lab.TREE}/README.md") if os.path.exists(it))
    found = re.search(r"^    (\S.*\| xargs .*?\./snes serial .*?\\\n.*?)\n\n", read(page).decode(), re.M)
    assert found, "the page has no such line"
    stage = Stage(room).build()
    folder = room.path("games")
    os.makedirs(folder)
    for option in ("boot", "table", "script"):
        shutil.copy(room.bench.inputs[option], f"{folder}/{os.path.basename(room.bench.inputs[option])}")
    names = ["plain", "a b", "it's", 'say "so"', "two\nlines", "-x", "--cart", "$(x)", "`y`", "*", "{}", "日本", "back\\slash", " "]
    for name in names:
        shutil.copy(room.bench.inputs["cart"], f"{folder}/{name}.sfc")
    for file in ("snes", "tools", "crates", "crates.txt"):
        os.symlink(f"{stage.top}/{file}", f"{folder}/{file}")
    line = found[1].replace("--frames 600", "--frames 8")
    end = room.run(["bash", "-c", f"cd games && {line}"], env=stage.env())
    same("status", end.status, 0)
    same("lines", end.out, room.bench.lines["serial"] * len(names))
    for name in names:
        room.has("serial", "video", "whole", f"{folder}/{name}.sfc.video")
        room.has("serial", "audio", "whole", f"{folder}/{name}.sfc.audio")
    # A name that is no UTF-8 is refused by its words, and the others are run.
    shutil.copy(room.bench.inputs["cart"], folder.encode() + b"/\xff.sfc")
    os.remove(f"{folder}/plain.sfc.video")
    same("status", room.run(["bash", "-c", f"cd games && {line}"], env=stage.env()).status, 123)
    room.has("serial", "video", "whole", f"{folder}/plain.sfc.video")
