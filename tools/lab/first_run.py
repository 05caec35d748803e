#!/usr/bin/env python3
"""Measures the first run: from a fresh clone and with no kept proofs, crate by crate, and along the longest chain.

    tools/lab/first_run.py OUT [KEPT]        runs `./snes demo 7 --frames 60` in a clone of the commit, and prints the tables
    tools/lab/first_run.py --read OUT        prints the tables of an earlier run again
    tools/lab/first_run.py --watch OUT PID SECONDS     the same for a run of CI that is under way: what its processes do

KEPT is the folder in which the toolchain keeps proofs on this machine. It is moved to KEPT.aside before the run, and moved back at
the end, whatever the end; what the run kept is removed. Nothing else may prove meanwhile: the script refuses to begin if a prover
runs. Without KEPT the toolchain takes what it has kept, and the figures are not those of a first run.

Every half second the script reads which crates the processes below `./snes` prove (the word behind --crate-name), and the
processor time of each. OUT gets these times (first_run.tsv: crate, began, ended, processor seconds) and the output (first_run.log).
The first table has the crates in the order in which they began. The longest chain is the one that the end waited for: from
the crate that ended last to that of its libraries which ended last, and so on. The status is 1 if the run failed, or printed another line.
"""
import os
import re
import shutil
import signal
import subprocess
import sys
import tempfile
import time

TOP = os.path.dirname(os.path.dirname(os.path.dirname(os.path.realpath(__file__))))
LINE = b"frames 60 samples 31947 video 1271400168 sound 16274526\n"
TICKS = os.sysconf("SC_CLK_TCK")


def processes():
    """Every process: its parent, the crate that it works on or None, and its seconds with those of its ended children."""
    for name in os.listdir("/proc"):
        if not name.isdigit():
            continue
        try:
            with open(f"/proc/{name}/stat", encoding="latin-1") as file:
                fields = file.read().rpartition(")")[2].split()
            with open(f"/proc/{name}/cmdline", "rb") as file:
                words = file.read().split(b"\0")
        except OSError:
            continue
        at = words.index(b"--crate-name") + 1 if b"--crate-name" in words[:-1] else None
        yield int(name), int(fields[1]), words[at].decode() if at else None, sum(map(int, fields[11:15])) / TICKS


class Watch:
    """What the processes below one did: of each crate the first and the last time that it was seen, and its processor seconds."""

    def __init__(self, root):
        self.root, self.began = root, time.monotonic()
        self.seen, self.spent = {}, {}

    def look(self):
        now = time.monotonic() - self.began
        all_now = list(processes())
        parents = {number: parent for number, parent, _, _ in all_now}
        for number, _, crate, seconds in all_now:
            above = number
            while above in parents and above != self.root:
                above = parents[above]
            if crate and above == self.root:
                first, _ = self.seen.get(crate, (now, now))
                self.seen[crate] = (first, now)
                self.spent.setdefault(crate, {})[number] = seconds

    def rows(self):
        return {crate: (*times, sum(self.spent[crate].values())) for crate, times in self.seen.items()}


def libraries():
    """Of each crate of crates.txt those that it names."""
    below = {}
    with open(f"{TOP}/crates.txt", encoding="utf-8") as file:
        for line in file:
            if found := re.match(r"(\w+)[^:#]*:(.*)", line):
                below[found[1]] = found[2].split()
    return below


def chain_to(crate, rows, below):
    """The crates that a crate waited for, the first in front."""
    chain = [crate]
    while waited := [it for it in below.get(chain[-1], ()) if it in rows]:
        chain.append(max(waited, key=lambda it: rows[it][1]))
    return chain[::-1]


def heaviest(rows, below):
    """The chain that is longest by the time of its crates alone: no number of processors makes the run shorter."""
    longest = {}

    def length(crate):
        if crate not in longest:
            best = max((length(it) for it in below.get(crate, ()) if it in rows), default=(0, []))
            longest[crate] = (best[0] + rows[crate][1] - rows[crate][0], [*best[1], crate])
        return longest[crate]

    return max(length(it) for it in rows)


def report(rows):
    below = libraries()
    if not rows:
        sys.exit("first_run: no crate was seen")
    print(f"{'crate':22} {'began':>7} {'ended':>7} {'wall':>7} {'processor':>9}")
    for crate, (first, last, spent) in sorted(rows.items(), key=lambda it: it[1]):
        print(f"{crate:22} {first:7.0f} {last:7.0f} {last - first:7.0f} {spent:9.0f}")
    end = max(last for _, last, _ in rows.values())
    print(f"{len(rows)} crates; the last ended after {end:.0f} seconds; {sum(it[2] for it in rows.values()) / 60:.1f} processor minutes")
    step = max(60, 60 * round(end / 60 / 15))
    for start in range(0, int(end) + 1, step):
        width = min(start + step, end) - start
        busy = sum(max(0, min(last, start + step) - max(first, start)) for first, last, _ in rows.values())
        print(f"from {start:5d} s on: {busy / width if width > 0 else 0:4.1f} crates at once")
    print("\nThe chain that the end waited for:")
    free = 0.0
    for crate in chain_to(max(rows, key=lambda it: rows[it][1]), rows, below):
        first, last, _ = rows[crate]
        print(f"{crate:22} {first:7.0f} {last:7.0f} {last - first:7.0f}   waited {max(0.0, first - free):.0f}")
        free = last
    length, chain = heaviest(rows, below)
    print(f"\nThe longest chain by wall-clock of its crates alone: {length:.0f} seconds: {' '.join(chain)}")


def keep(out, rows):
    with open(f"{out}/first_run.tsv", "w", encoding="utf-8") as file:
        for crate, (first, last, spent) in sorted(rows.items(), key=lambda it: it[1]):
            file.write(f"{crate}\t{first:.1f}\t{last:.1f}\t{spent:.1f}\n")


def kept(out):
    with open(f"{out}/first_run.tsv", encoding="utf-8") as file:
        rows = [line.split() for line in file]
    return {crate: (float(first), float(last), float(spent)) for crate, first, last, spent in rows}


def run(out):
    """The first run in a new clone. Returns whether it printed the demo's line."""
    with tempfile.TemporaryDirectory() as work, open(f"{out}/first_run.log", "wb") as log:
        subprocess.run(["git", "clone", "-q", TOP, f"{work}/clone"], check=True)
        commit = subprocess.run(["git", "-C", TOP, "rev-parse", "--short", "HEAD"], capture_output=True, text=True, check=True).stdout.strip()
        began = time.monotonic()
        words = ["./snes", "demo", "7", "--frames", "60"]
        running = subprocess.Popen(words, cwd=f"{work}/clone", stdin=subprocess.DEVNULL, stdout=subprocess.PIPE, stderr=log)
        watch = Watch(running.pid)
        try:
            while running.poll() is None:
                watch.look()
                time.sleep(0.5)
        except BaseException:
            running.terminate()
            running.wait()
            raise
        took = time.monotonic() - began
        said = running.stdout.read()
        keep(out, watch.rows())
        done = running.returncode == 0 and said == LINE
        what = "the line of the demo" if said == LINE else repr(said)
        print(f"commit {commit}, {os.cpu_count()} processors: {took // 60:.0f} minutes {took % 60:.0f} seconds, status {running.returncode}, {what}\n")
        built = f"{work}/clone/crates/snes_run/out/build.log"
        if not done and os.path.exists(built):
            shutil.copy(built, f"{out}/build.log")
        return done


def measure(out, store):
    os.makedirs(out, exist_ok=True)
    if any(words and words[0] for words in (it[2:3] for it in processes())):
        sys.exit("first_run: a prover runs on this machine; wait for its end")
    for number in (signal.SIGTERM, signal.SIGHUP):
        signal.signal(number, lambda got, _: sys.exit(128 + got))
    aside = None
    if store:
        store = os.path.realpath(store)
        aside = f"{store}.aside"
        if os.path.exists(aside) or not os.path.isdir(store):
            sys.exit(f"first_run: {store} is not a folder, or {aside} is there from an earlier run: put it back first")
        os.rename(store, aside)
        os.mkdir(store, os.stat(aside).st_mode & 0o7777)
    try:
        done = run(out)
    finally:
        if aside:
            os.rename(store, f"{store}.made")
            os.rename(aside, store)
            shutil.rmtree(f"{store}.made", ignore_errors=True)
    report(kept(out))
    return 0 if done else 1


def main():
    words = sys.argv[1:]
    if len(words) == 2 and words[0] == "--read":
        report(kept(words[1]))
    elif len(words) == 4 and words[0] == "--watch":
        os.makedirs(words[1], exist_ok=True)
        watch = Watch(int(words[2]))
        while time.monotonic() < watch.began + float(words[3]):
            watch.look()
            time.sleep(0.5)
        keep(words[1], watch.rows())
        report(watch.rows())
    elif 1 <= len(words) <= 2 and not words[0].startswith("-"):
        sys.exit(measure(os.path.realpath(words[0]), words[1] if len(words) == 2 else None))
    else:
        sys.exit(__doc__)


if __name__ == "__main__":
    main()
