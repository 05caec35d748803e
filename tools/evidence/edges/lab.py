"""What the cases of tools/evidence/try_edges.py share: programs, inputs, the right bytes, how a program is run and looked at."""
import contextlib
import os
import shutil
import signal
import subprocess
import tempfile
import threading

TOP = os.path.realpath(os.path.join(os.path.dirname(os.path.realpath(__file__)), "..", "..", ".."))
# The checkout whose scripts are tried.
TREE = TOP
TOOLS = {"snes": "snes_run", "look": "frame_look", "scene": "scene_cart", "trace": "snes_trace"}
FRAMES = 8
SAMPLES = 32000
SECONDS = 120
# The commands that write files: the options of their inputs, what else they are given, and the options of their outputs
# with the name that a fault of writing has.
JOB = ("cart", "boot", "table", "script")
COMMANDS = {
    "run": (JOB, ("--frames", str(FRAMES)), {"video": "video", "audio": "sound"}),
    "serial": (JOB, ("--frames", str(FRAMES)), {"video": "video", "audio": "sound"}),
    "lockless": (JOB, ("--frames", str(FRAMES)), {"video": "video", "audio": "sound"}),
    "play": (("spc", "table"), ("--samples", str(SAMPLES)), {"audio": "sound"}),
    "make": ((), ("7",), {"out": "image"}),
    "rewind": (("cart", "boot", "table", "plan"), (), {"video": "video", "audio": "sound"}),
    # The sums of so many frames take more than a page.
    "sums": (JOB, ("--frames", "60"), {"sums": "sums"}),
    "dump": (JOB, ("--frames", str(FRAMES)), {"state": "state"}),
    "spc": (JOB, ("--frames", str(FRAMES)), {"spc": "spc"}),
}
USAGE = b"usage: snes run, serial, make or demo\n"
PLAN = b"go 3 0000 0000\nkeep 0\ngo 2 8000 0000\nback 0\ngo 3 0000 8000\n"
CASES = []


def case(name):
    """Adds a case to those that are tried."""
    def add(function):
        CASES.append((name, function))
        return function
    return add


def built(tool):
    return f"{TOP}/crates/{TOOLS[tool]}/out/{TOOLS[tool]}"


def same(what, got, wanted):
    """Asserts that two things are alike."""
    assert got == wanted, f"{what}: {short(got)} in place of {short(wanted)}"


def short(what):
    text = repr(what)
    return text if len(text) < 160 else f"{text[:120]}.. ({len(what)})"


def read(path):
    with open(path, "rb") as file:
        return file.read()


def write(path, data):
    with open(path, "wb") as file:
        file.write(data)


def sound_file():
    """A sound file whose processor makes a loop of NOPs."""
    head = b"SNES-SPC700 Sound File Data v0.30\x1a\x1a\x1b\x1e" + bytes([0, 4, 1, 2, 3, 0, 0xEF])
    ram = bytes(0x600) + bytes([0x2F, 0xFE]) + bytes(65536 - 0x602)
    return head.ljust(256, b"\0") + ram + bytes(128) + bytes(128)


class Ended:
    """A program that has ended."""

    def __init__(self, status, out, err):
        self.status, self.out, self.err = status, out, err

    def came(self, status, out=None, err=None):
        """Asserts how it ended, what it printed, and a word of what it said on standard error."""
        same("status", self.status, status)
        if out is not None:
            same("standard output", self.out, out)
        if err is not None:
            assert err in self.err, f"standard error has no {short(err)}: {short(self.err)}"
        return self


class Room:
    """The folder of one case, and what it runs there."""

    def __init__(self, bench, folder):
        self.bench, self.folder = bench, folder

    def path(self, name):
        return os.path.join(self.folder, name)

    def words(self, command, outputs=None, inputs=None, program="snes"):
        """The words of a command over the bench's inputs, whose outputs are in this folder, but for those that are named."""
        options, others, outs = COMMANDS[command]
        words = [self.bench.programs[program] if program == "snes" else program, command]
        words += others if command == "make" else ()
        for option in options:
            words += [f"--{option}", (inputs or {}).get(option, self.bench.inputs[option])]
        words += others if command != "make" else ()
        for option in outs:
            words += [f"--{option}", (outputs or {}).get(option, self.path(option))]
        return words

    def run(self, words, shell="", tail="", stdin=subprocess.DEVNULL, stdout=subprocess.PIPE, stderr=subprocess.PIPE, env=None):
        """Runs a program in this folder; with a text of the shell before it, and redirections behind it."""
        if shell or tail:
            words = ["bash", "-c", f'{shell} exec "$@" {tail}', "bash", *words]
        with subprocess.Popen(words, cwd=self.folder, stdin=stdin, stdout=stdout, stderr=stderr,
                              env=None if env is None else {**os.environ, **env}) as process:
            try:
                out, err = process.communicate(timeout=SECONDS)
            except subprocess.TimeoutExpired:
                process.kill()
                raise AssertionError(f"no end within {SECONDS} seconds") from None
        return Ended(process.returncode, out, err)

    def has(self, command, option, how, path=None):
        """Asserts what an output holds: `whole` the right bytes, `prefix` some first of them, or given bytes."""
        path = path or self.path(option)
        got = read(path) if os.path.exists(path) else None
        right = self.bench.right[command][option]
        if how == "whole":
            assert got == right, f"{option} is not whole: {parts(got, right)}"
        elif how == "prefix":
            assert got is not None and right.startswith(got), f"{option} is no prefix: {parts(got, right)}"
        else:
            assert got == how, f"{option} was touched: {parts(got, how)}"
        return 0 if got is None else len(got)

    def nobody(self, words):
        """The words by which a user runs them who may not all."""
        if os.geteuid() != 0:
            return words
        os.chmod(self.folder, 0o777)
        return ["setpriv", "--reuid=65534", "--regid=65534", "--clear-groups", *words]

    def feed(self, path, data):
        """Writes to a FIFO, in a thread of its own."""
        def give():
            with contextlib.suppress(BrokenPipeError), open(path, "wb") as pipe:
                pipe.write(data)
        thread = threading.Thread(target=give, daemon=True)
        thread.start()
        return thread

    def drain(self, path, most=None):
        """Reads a FIFO to its end, or so many bytes of it, in a thread of its own. What came is in the list."""
        came = []

        def take():
            with open(path, "rb", buffering=0) as pipe:
                left = most
                while left is None or left > 0:
                    part = pipe.read(65536 if left is None else min(left, 65536))
                    if not part:
                        return
                    came.append(part)
                    left = None if left is None else left - len(part)
        thread = threading.Thread(target=take, daemon=True)
        thread.start()
        return thread, came


def parts(got, right):
    if got is None:
        return "there is none"
    if right is None:
        return f"there are {len(got)} bytes, and was none"
    apart = next((i for i, (a, b) in enumerate(zip(got, right)) if a != b), None)
    return f"{len(got)} bytes, {len(right)} right ones" + ("" if apart is None else f", the first that differs is {apart}")


class Bench:
    """The folder of all cases: the programs, the inputs, the right bytes, and which small device there is."""

    def __init__(self, programs):
        self.given = programs

    def __enter__(self):
        self.folder = tempfile.mkdtemp(prefix="snes-edges-")
        os.chmod(self.folder, 0o755)
        self.programs = {}
        for tool, program in self.given.items():
            self.programs[tool] = f"{self.folder}/{tool}"
            shutil.copy(program, self.programs[tool])
            os.chmod(self.programs[tool], 0o755)
        self.made = 0
        self.lock = threading.Lock()
        self.inputs = {}
        self.device, self.mount = small_device()
        self.make_inputs()
        self.make_right()
        return self

    def __exit__(self, *_):
        shutil.rmtree(self.folder, ignore_errors=True)

    def make_inputs(self):
        made = f"{self.folder}/scene_files"
        subprocess.run([self.programs["scene"], made], stdout=subprocess.DEVNULL, check=True)
        for name, file in {"cart": "scene.sfc", "boot": "boot.bin", "table": "table.bin", "script": "script.txt"}.items():
            self.inputs[name] = f"{made}/{file}"
        self.inputs["spc"], self.inputs["plan"] = f"{made}/tune.spc", f"{made}/plan.txt"
        write(self.inputs["spc"], sound_file())
        write(self.inputs["plan"], PLAN)

    def make_right(self):
        """The right bytes of each output, by runs in which nothing fails."""
        self.right, self.lines = {}, {}
        for command, (_, _, outputs) in COMMANDS.items():
            with self.room() as room:
                end = room.run(room.words(command))
                same(f"the status of {command}, where nothing fails", end.status, 0)
                self.right[command] = {option: read(room.path(option)) for option in outputs}
                self.lines[command] = end.out

    @contextlib.contextmanager
    def room(self):
        with self.lock:
            self.made += 1
            folder = f"{self.folder}/case{self.made}"
        os.mkdir(folder)
        try:
            yield Room(self, folder)
        finally:
            end_all(folder)
            subprocess.run(["chmod", "-R", "u+rwX", folder], stderr=subprocess.DEVNULL, check=False)
            shutil.rmtree(folder, ignore_errors=True)


def small_device():
    """What a small device is made of here, and the words that begin a mount namespace."""
    for text, words in (("a tmpfs in a mount namespace, as root", ["unshare", "-m"]),
                        ("a tmpfs in a user namespace", ["unshare", "-r", "-m"])):
        tried = subprocess.run([*words, "mount", "-t", "tmpfs", "-o", "size=4k", "tmpfs", "/mnt"], capture_output=True, check=False)
        if tried.returncode == 0:
            return text, words
    return "none can be mounted: /dev/full, and a limit of file sizes", None


def processes_in(folder):
    """The processes that have to do with a folder, by their words or where they stand, and the words of each."""
    found = {}
    for pid in filter(str.isdigit, os.listdir("/proc")):
        with contextlib.suppress(OSError):
            words = read(f"/proc/{pid}/cmdline").replace(b"\0", b" ").decode(errors="replace")
            if int(pid) != os.getpid() and (folder in words or os.readlink(f"/proc/{pid}/cwd").startswith(folder)):
                found[int(pid)] = words[:100]
    return found


def end_all(folder):
    """Ends what a case that failed has left running in its folder."""
    for pid in processes_in(folder + "/"):
        with contextlib.suppress(OSError):
            os.kill(pid, signal.SIGKILL)
