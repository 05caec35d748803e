"""tools/many_runs.sh: which runs are made again, and what the status tells."""
import os
import shutil

from lab import case, read, same, write
from stage import Stage


class Folder:
    """A folder of cartridges, and calls of the script over it. Without `parallel` the calls are shares of one."""

    def __init__(self, room):
        self.room, self.stage = room, Stage(room).build()
        self.path, self.results = room.path("games"), room.path("games/results")
        os.makedirs(self.path)
        for option in ("boot", "table", "script"):
            shutil.copy(room.bench.inputs[option], f"{self.path}/{os.path.basename(room.bench.inputs[option])}")

    def add(self, name, number=None):
        if number is None:
            shutil.copy(self.room.bench.inputs["cart"], f"{self.path}/{name}")
        else:
            self.room.run([self.room.bench.programs["snes"], "make", str(number), "--out", f"{self.path}/{name}"]).came(0)

    def call(self, *words, frames=2, **env):
        given = {**self.stage.env(), **env}
        script = [f"{self.stage.top}/tools/many_runs.sh", "--frames", str(frames)]
        if words or shutil.which("parallel"):
            return self.room.run([*script, *words, self.path], env=given)
        shared = self.room.run([*script, "--share", "0", "1", self.path], env=given)
        told = self.room.run([*script, "--manifest", self.path], env=given)
        return told if shared.status in (0, 1) else shared

    def kept(self, name):
        return read(f"{self.results}/{name}")


@case("many: each cartridge by its ending, and what a run keeps")
def endings(room):
    games = Folder(room)
    for number, name in enumerate(("a.sfc", "b.SFC", "c.smc", "d.SMC", "e.Sfc", "f.swc", "g.fig", "it's \"h\" i.sfc", "-j.sfc", "two\nlines.sfc")):
        games.add(name, number)
    games.add("no.txt")
    games.call().came(0, b"", b"10 of 10 runs")
    same("manifest", room.run(["bash", "-c", "cd games/results && sha256sum -c --quiet manifest"]).status, 0)
    same("files of the manifest", games.kept("manifest").count(b".png"), 10)


@case("many: what is removed, replaced or of another number of frames is run again")
def again(room):
    games = Folder(room)
    games.add("a.sfc", 1)
    games.add("b.sfc", 2)
    games.call().came(0)
    first = {name: games.kept(name) for name in ("a.csv", "a.line", "a.png", "b.csv", "manifest")}
    os.remove(f"{games.results}/a.line")
    games.call().came(0, b"", b"2 of 2 runs")
    same("after a removed line", {name: games.kept(name) for name in first}, first)
    games.call(frames=3).came(0, b"", b"2 of 2 runs")
    assert games.kept("a.line").startswith(b"frames 3 "), games.kept("a.line")
    same("lines of a.csv", games.kept("a.csv").count(b"\n"), 5)
    games.call().came(0)
    same("and back", games.kept("a.csv"), first["a.csv"])
    games.add("a.sfc", 3)
    games.call().came(0)
    assert games.kept("a.csv") != first["a.csv"], "a replaced cartridge keeps the old sums"
    same("of the other", games.kept("b.csv"), first["b.csv"])
    write(f"{games.path}/a.txt", b"1 8000 0000\n")
    line = games.kept("a.line")
    games.call().came(0)
    assert games.kept("a.line") != line, "another script keeps the old line"


@case("many: a cartridge that is refused keeps no old results")
def refused(room):
    games = Folder(room)
    games.add("a.sfc", 1)
    games.add("b.sfc", 2)
    games.call().came(0)
    write(f"{games.path}/a.sfc", b"short")
    games.call().came(1, b"", b"1 of 2 runs")
    assert not os.path.exists(f"{games.results}/a.csv") and not os.path.exists(f"{games.results}/a.png"), "old results are kept"
    assert b"# a: cart refused: too short status 3" in games.kept("manifest"), games.kept("manifest")


@case("many: nothing to do, and two names for one result, are errors")
def nothing(room):
    games = Folder(room)
    for words in ((), ("--share", "0", "1"), ("--manifest",)):
        end = games.call(*words)
        assert end.status != 0 and b"no cartridge" in end.err, (end.status, end.err)
    games.add("a.sfc")
    games.add("a.smc")
    end = games.call("--share", "0", "1")
    assert end.status != 0 and b"same name" in end.err, (end.status, end.err)


@case("many: a sheet or sums that fail, a full disk, and a stale line count")
def faults(room):
    games = Folder(room)
    games.add("a.sfc", 1)
    # A `look` that makes no sheet, and an `snes` that writes no sums though it says that all went well.
    look = '[ "$1" = sheet ] || exec {} "$@"\ncat >/dev/null; echo no >&2; exit 2\n'
    snes = '[ "$1" = sums ] || exec {} "$@"\necho frames 2 samples 1064\n'
    for program, bad in (("look", look), ("snes", snes)):
        write(room.path("bad"), ("#!/bin/sh\n" + bad.format(room.bench.programs[program])).encode())
        os.chmod(room.path("bad"), 0o755)
        programs = {name.upper(): room.bench.programs[name] for name in ("look", "snes")}
        end = games.call(**{**programs, program.upper(): room.path("bad")})
        same(f"status with a bad {program}", end.status, 1)
        assert b"status 9" in games.kept("a.line"), games.kept("a.line")
        os.remove(f"{games.results}/a.line")
    games.call().came(0)
    # The line of a cartridge that is gone stands for no other.
    games.add("b.sfc", 2)
    os.rename(f"{games.path}/a.sfc", f"{games.path}/c.sfc")
    games.call("--manifest").came(1, b"", b"0 of 2 runs")
    assert b"# c was not run" in games.kept("manifest"), games.kept("manifest")
    games.call("--manifest", frames=9).came(1)


@case("many: --check runs again what another machine kept, and names what differs")
def checked(room):
    if not shutil.which("parallel"):
        return
    games = Folder(room)
    for number in range(3):
        games.add(f"{number}.sfc", number)
    write(f"{games.path}/bad.sfc", b"short")
    games.call().came(1)
    games.call("--check", frames=9).came(0, b"", b"each run is as")
    sums = games.kept("1.csv")
    last = sums[-2:-1]
    write(f"{games.results}/1.csv", sums[:-2] + (b"0" if last != b"0" else b"1") + b"\n")
    end = games.call("--check")
    assert end.status == 1 and b"1: differs: all sound" in end.err and b"1.csv: FAILED" in end.err, (end.status, end.err)
    write(f"{games.results}/1.csv", sums)
    games.add("2.sfc", 7)
    games.call("--check").came(1, b"", b"2: differs: frame ")
    os.remove(f"{games.results}/0.line")
    games.call("--check").came(1, b"", b"0: was not run")
    os.remove(f"{games.results}/manifest")
    games.call("--check").came(1, b"", b"no manifest")


@case("many: a share ends with a status, and the array job keeps what is said")
def shares(room):
    games = Folder(room)
    for number in range(4):
        games.add(f"{number}.sfc", number)
    write(f"{games.path}/bad.sfc", b"short")
    ends = [games.call("--share", str(share), "2") for share in range(2)]
    same("statuses", sorted(end.status for end in ends), [0, 1])
    assert any(b"bad.sfc: status 3" in end.err for end in ends), [end.err for end in ends]
    games.call("--manifest").came(1, b"", b"4 of 5 runs")
    job = read(f"{games.stage.top}/tools/many_runs.sbatch")
    assert b"/dev/null" not in job and b"#SBATCH --output=many_runs-%A-%a.out" in job, "what the array job says is lost"
    env = {**games.stage.env(), "SLURM_SUBMIT_DIR": games.stage.top, "SLURM_ARRAY_TASK_ID": "0", "SLURM_ARRAY_TASK_COUNT": "1"}
    job = ["bash", f"{games.stage.top}/tools/many_runs.sbatch", games.path, games.results, "2"]
    room.run(job, env=env).came(1, None, b"bad.sfc: status 3")
