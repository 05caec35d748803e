"""A small copy of the repository, in which the wrappers are tried: crates of one source each, and a stand-in for `rt`."""
import os
import shutil

import lab
from lab import TOOLS, write

# The stand-in: `rt ci` naps, and puts the program of each crate of crates.txt where the gate would. It notes its beginning
# and its end, and NAP says how long a crate takes.
STAND_IN = """#!/bin/sh
[ "$1" = ci ] || { echo "stand-in for rt"; exit 0; }
echo "began $$ $PWD" >>"$STAGE/rt.log"
sed -n 's/ *:.*//p' crates.txt | while read -r crate; do
  sleep "${NAP:-0}"
  mkdir -p "crates/$crate/out" && cp "$STAGE/programs/$crate" "crates/$crate/out/$crate"
  echo "rt: $crate proved"
done
echo "ended $$" >>"$STAGE/rt.log"
echo "5 passed, 0 failed"
"""


class Stage:
    """The copy, in a room."""

    def __init__(self, room, name="stage"):
        self.room, self.bin = room, room.path("bin")
        self.top = room.path(name)
        os.makedirs(self.bin)
        os.makedirs(room.path("programs"))
        os.makedirs(f"{self.top}/tools/package")
        for file in ("snes", "look", "scene", "trace", "CHANGELOG.md", "HANDLES", "tools/run_built.sh", "tools/built_from.sh",
                     "tools/gate_over_copy.sh",
                     "tools/lines_below.sh", "tools/with_progress.sh", "tools/many_runs.sh",
                     "tools/many_runs.sbatch"):
            shutil.copy(f"{lab.TREE}/{file}", f"{self.top}/{file}")
        write(f"{self.top}/crates.txt", "".join(f"{crate}:\n" for crate in TOOLS.values()).encode())
        for tool, crate in TOOLS.items():
            os.makedirs(f"{self.top}/crates/{crate}/src")
            write(self.source(crate), b"// a source\n")
            shutil.copy(room.bench.programs[tool], room.path(f"programs/{crate}"))
        write(f"{self.bin}/rt", STAND_IN.encode())
        os.chmod(f"{self.bin}/rt", 0o755)
        write(room.path("rt.log"), b"")

    def source(self, crate, top=None):
        return f"{top or self.top}/crates/{crate}/src/main.rt"

    def env(self, nap="0"):
        return {"PATH": f"{self.bin}:{os.environ['PATH']}", "STAGE": self.room.folder, "NAP": nap, "TMPDIR": self.room.folder}

    def run(self, *words, top=None, nap="0", **more):
        """Runs a wrapper of the copy, or of a copy of the copy."""
        return self.room.run([f"{top or self.top}/{words[0]}", *words[1:]], env=self.env(nap), **more)

    def log(self, word):
        """The lines that the stand-in noted."""
        with open(self.room.path("rt.log"), encoding="utf-8") as file:
            return [line.split() for line in file if line.startswith(word)]

    def builds(self):
        return len(self.log("began"))

    def copies(self):
        """The folders of copies that builds have left."""
        return [name for name in os.listdir(self.room.folder) if name.startswith("tmp.")]

    def build(self):
        """Has all programs built."""
        for words in (("snes", "demo", "7", "--frames", "0"), ("scene", "made"), ("look", "--help"), ("trace", "--help")):
            self.run(*words).came(0)
        return self
