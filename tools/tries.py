"""What tools/quick tries: programs and tests as `rt try` compiles them, worked cases, and the layout of the sources."""
import contextlib
import difflib
import os
import re
import shutil
import signal
import subprocess
import threading
import time
from typing import NamedTuple, Optional

TOP = os.path.dirname(os.path.dirname(os.path.realpath(__file__)))
CRATES = f"{TOP}/crates"

# The seconds that the program of a crate, or its tests, have, and those of a whole step.
RUN_LIMIT = 300
LIMIT = 1200

# The last line of `rt try`, where the program or the tests ended.
ENDED = re.compile(r"(?m)^run=ended status=(\d+) (.*)\bproved=no$")


class Result(NamedTuple):
    """What came of a step: whether it passed, a note to its line, and what to show if it failed."""

    is_well: bool
    note: str = ""
    output: str = ""


class Done(NamedTuple):
    """What a command that has ended wrote, and its status."""

    status: Optional[int]
    wrote: bytes
    told: str

    def text(self):
        return f"{self.wrote.decode(errors='backslashreplace')}{self.told}"


class Commands:
    """The commands that run, each in a group of its own, so that all of it ends with this run."""

    def __init__(self):
        self.running = set()
        self.lock = threading.Lock()
        self.is_over = False

    def call(self, words, cwd=TOP, given=b""):
        """Runs a command until it ends or has had its time."""
        how = {"stdin": subprocess.PIPE, "stdout": subprocess.PIPE, "stderr": subprocess.PIPE, "start_new_session": True}
        with self.lock:
            if self.is_over:
                return Done(None, b"", "stopped")
            run = subprocess.Popen(words, cwd=cwd, **how)
            self.running.add(run)
        try:
            wrote, told = run.communicate(given, timeout=LIMIT)
            return Done(run.returncode, wrote, told.decode(errors="replace"))
        except subprocess.TimeoutExpired:
            self.end(run)
            return Done(None, b"", f"no end after {LIMIT} seconds")
        finally:
            with self.lock:
                self.running.discard(run)

    def end(self, run):
        """Ends a command, which removes its own files first, and all that it started."""
        for number in (signal.SIGTERM, signal.SIGKILL):
            with contextlib.suppress(ProcessLookupError):
                os.killpg(run.pid, number)
            with contextlib.suppress(subprocess.TimeoutExpired):
                run.wait(20)

    def end_all(self):
        with self.lock:
            self.is_over = True
            left = [*self.running]
        for run in left:
            self.end(run)


COMMANDS = Commands()


def bytes_of(path):
    """What a file has, or nothing if there is none."""
    try:
        with open(path, "rb") as file:
            return file.read()
    except FileNotFoundError:
        return b""


def files_below(folder):
    """The files below a folder, by their paths from there."""
    return sorted(os.path.relpath(f"{at}/{it}", folder) for at, _, files in os.walk(folder) for it in files)


def hints():
    """The processes below this one that look for reserved names beside an `rt try`."""
    parents, found = {}, []
    for number in filter(str.isdecimal, os.listdir("/proc")):
        with contextlib.suppress(OSError, IndexError):
            # (a name in brackets may have any characters)
            parents[int(number)] = int(bytes_of(f"/proc/{number}/stat").rpartition(b")")[2].split()[1])
            if b"\0--start\0no function\0" in bytes_of(f"/proc/{number}/cmdline"):
                found.append(int(number))
    below = {os.getpid()}
    while not below.issuperset(more := {it for it in parents if parents[it] in below}):
        below |= more
    return [it for it in found if it in below]


def end_hints():
    """Ends these looks, until all is over. Each takes as long as its `rt try`, and only says early what a check says too."""
    while not COMMANDS.is_over:
        time.sleep(1)
        for number in hints():
            with contextlib.suppress(ProcessLookupError):
                os.kill(number, signal.SIGKILL)


def by_command(*words):
    """What came of a command that says by its status whether all is well."""
    done = COMMANDS.call([*words])
    return Result(done.status == 0, "", done.text())


def words_of(name):
    """The words that a program is run with."""
    return bytes_of(f"{CRATES}/{name}/args").decode().splitlines()


def judged(name, status, wrote, told, note=""):
    """What came of a run of a program, beside what is stored for it."""
    wanted = int(bytes_of(f"{CRATES}/{name}/status") or 0)
    stored = bytes_of(f"{CRATES}/{name}/stdout")
    if status == wanted and wrote == stored:
        return Result(True, note)
    lines = [it.decode(errors="backslashreplace").splitlines() for it in (stored, wrote)]
    differs = [*difflib.unified_diff(*lines, "stored", "written", lineterm="", n=1)][:60]
    why = "it does not write what is stored" if status == wanted else f"it ends with status {status}, and not {wanted}"
    return Result(False, why, "\n".join([told.rstrip(), *differs]))


def try_program(name):
    """Has `rt try` run a program on what is stored for it."""
    data = f"{CRATES}/{name}/data"
    words = ["rt", "try", "--seconds", str(RUN_LIMIT)]
    for it in files_below(data):
        words += ["--data", f"{it}={data}/{it}"]
    done = COMMANDS.call([*words, "--", *words_of(name)], f"{CRATES}/{name}", bytes_of(f"{CRATES}/{name}/stdin"))
    ended = ENDED.search(done.told)
    if not ended:
        return Result(False, "", done.text())
    note = "compiled and interpreted" if "runners=2" in ended[2] else "compiled"
    return judged(name, int(ended[1]), done.wrote, done.told, note)


def try_tests(name):
    """Has `rt try` run the tests of a crate."""
    done = COMMANDS.call(["rt", "try", "--test", "--seconds", str(RUN_LIMIT)], f"{CRATES}/{name}")
    passed = re.search(rb"(?m)^test result: ok\. (\d+) passed; 0 failed; 0 ignored;", done.wrote)
    ended = ENDED.search(done.told)
    if not passed or not ended or done.status:
        return Result(False, "", done.text())
    return Result(True, f"{passed[1].decode()} tests")


def run_built(name, program, cwd):
    """Runs a program that was built without a proof on what is stored for it."""
    done = COMMANDS.call([program, *words_of(name)], cwd, bytes_of(f"{CRATES}/{name}/stdin"))
    return judged(name, done.status, done.wrote, done.told)


def run_cases(program, folder, names):
    """Runs worked cases, and compares the line of each with the one that is stored."""
    os.makedirs(folder)
    for it in names:
        shutil.copy2(f"{CRATES}/dlog_cases/data/{it}", folder)
    done = COMMANDS.call([program, "."], folder)
    stored = {it.split(":")[0]: it for it in bytes_of(f"{CRATES}/dlog_cases/stdout").decode().splitlines()}
    wanted = [stored.get(it.removesuffix(".case"), f"{it}: no line of it is stored") for it in sorted(names)]
    wrote = done.wrote.decode(errors="backslashreplace").splitlines()
    if done.status or wrote[:-1] != wanted:
        differs = [*difflib.unified_diff(wanted, wrote[:-1], "stored", "written", lineterm="", n=0)]
        return Result(False, f"status {done.status} of {len(names)} cases", "\n".join([*differs, done.told]))
    return Result(True, f"{len(names)} cases")


def lay_out(name, folder):
    """Lays out a copy of a crate. Returns which files `rt fmt` changes, and which wrong bodies cannot be applied."""
    shutil.copytree(f"{CRATES}/{name}", folder, ignore=shutil.ignore_patterns("out", "data"))
    shelves = [f"{folder}/{it}" for it in ("wrong-bodies", "must-fail")]
    for it in shelves:
        os.makedirs(it, exist_ok=True)
    found = [f"crates/{name}: {it} is on both shelves" for it in {*os.listdir(shelves[0])} & {*os.listdir(shelves[1])}]
    for it in os.listdir(shelves[0]):
        os.rename(f"{shelves[0]}/{it}", f"{shelves[1]}/{it}")
    done = COMMANDS.call(["rt", "fmt"], folder)
    for file in re.findall(r"(?m)^rt: formatted (.*)", done.text()):
        found.append(f"crates/{name}/{file} is not laid out as `rt fmt` does")
    for edit, why in re.findall(r"(?m)^rt: note: must-fail/(\S+) (.*)", done.text()):
        found.append(f"crates/{name}: the wrong body {edit} {why}")
    return found or ([f"crates/{name}: {done.text()}"] if done.status else [])


def look_at_layout(work):
    """Compares all crates with the layout that `rt fmt` gives them."""
    names = sorted(it for it in os.listdir(CRATES) if os.path.isdir(f"{CRATES}/{it}/src"))
    wrong = [it for name in names for it in lay_out(name, f"{work}/{name}")]
    return Result(not wrong, f"{len(names)} crates", "\n".join(wrong))
