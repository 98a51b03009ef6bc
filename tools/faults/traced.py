"""Runs dlog under strace, and reads which calls of the system it made in each line of the script."""
import os
import re
import subprocess
import time
from dataclasses import dataclass

# The calls that can touch a folder's files, as far as dlog might make them.
WATCHED = (
    "open,openat,creat,stat,lstat,fstat,newfstatat,statx,access,faccessat,unlink,unlinkat,link,linkat,rename,renameat,renameat2,"
    "write,pwrite64,writev,pwritev,pread64,preadv,lseek,ftruncate,truncate,fallocate,copy_file_range,"
    "fsync,fdatasync,sync_file_range"
)
# No file of this base is ever there: before each line of a script a line `file` asks for one, so that this shows in the trace.
MARKER = "zz"
PATIENCE = 60
CALL = re.compile(r"^\d+ +(\w+)\((.*)\) = (-?\d+|\?)(.*)$", re.S)
QUOTED = re.compile(r'"((?:\\x[0-9a-f]{2})*)"')
OPENED = re.compile(r"(?:^|, )(\d+)<((?:\\x[0-9a-f]{2})*)>")


def unhexed(text):
    return bytes.fromhex(text.replace("\\x", ""))


@dataclass
class Call:
    """A call of the system on something in the folder: its name, how many of this name came up to it, and what it acts on."""

    name: str
    count: int
    files: list
    data: bytes
    numbers: list
    descriptor: int
    answer: int
    error: str
    text: str

    def is_fault(self):
        """Whether the device failed at it. That a file is not there is none."""
        return self.answer < 0 and self.error != "ENOENT"

    def title(self):
        return f"{self.name} {' '.join(self.files) or '.'}"


def within(folder, path):
    """The name of a file in the folder, `` for the folder itself, or None."""
    path = path.decode("latin1")
    if path == folder:
        return ""
    return path[len(folder) + 1 :] if path.startswith(folder + "/") else None


def call_of(line, counts, folder):
    """The call that a line of the trace tells, or None if it is not on the folder."""
    match = CALL.match(line)
    if not match:
        return None
    name, arguments, answer, rest = match.groups()
    counts[name] = counts.get(name, 0) + 1
    quoted = [unhexed(text) for text in QUOTED.findall(arguments)]
    opened = OPENED.search(arguments)
    is_data = name in ("write", "pwrite64", "pread64")
    paths = [unhexed(opened.group(2))] if opened else [] if is_data else quoted
    files = [within(folder, path) for path in paths]
    if not files or files[0] is None:
        return None
    plain = QUOTED.sub("", arguments)
    numbers = [int(it) for it in re.findall(r", (\d+)(?=$|,)", plain)]
    return Call(
        name,
        counts[name],
        [file for file in files if file],
        quoted[0] if is_data and quoted else b"",
        numbers,
        int(opened.group(1)) if opened else int(answer) if answer != "?" else -1,
        int(answer) if answer != "?" else -1,
        rest.split()[0] if rest.split() else "",
        plain,
    )


@dataclass
class Run:
    """What a run answered, and the calls of each line of its script; those before the first line are dropped."""

    answers: list
    steps: list
    told: str


def marked(lines, first):
    return "".join(f"file {MARKER}{first + at}.log\n{line}\n" for at, line in enumerate(lines)).encode()


def has_come_to(trace, at):
    """Whether the trace has the call of a line's marker."""
    name = "".join(f"\\x{byte:02x}" for byte in f"/{MARKER}{at}.log".encode())
    with open(trace, encoding="latin1") as lines:
        return name in lines.read()


def feed(process, trace, lines, pause):
    """Gives a process the lines of a script. Where there is a pause, its action is done before that line is made."""
    at, action = pause or (len(lines), None)
    process.stdin.write(marked(lines[:at], 0))
    if action is not None:
        process.stdin.write(f"file {MARKER}{at}.log\n".encode())
        process.stdin.flush()
        until = time.monotonic() + PATIENCE
        while not (os.path.exists(trace) and has_come_to(trace, at)) and time.monotonic() < until and process.poll() is None:
            time.sleep(0.01)
        action()
        process.stdin.write(marked(lines[at:], at)[len(f"file {MARKER}{at}.log\n") :])
    process.stdin.close()


def run(program, folder, lines, blocks, faults, scratch, pause=None, words=()):
    """Runs a script, with faults given as texts of strace's option `inject`, and more words of the command."""
    trace = f"{scratch}/trace"
    command = ["strace", "-f", "--seccomp-bpf", "-y", "-xx", "-s", "4000000", "-o", trace, "-e", f"trace={WATCHED}"]
    for text in faults:
        command += ["-e", f"inject={text}"]
    command += [program, "run", "--folder", folder, "--blocks", str(blocks), *words]
    with open(f"{scratch}/answers", "w+b") as answers, open(f"{scratch}/told", "w+b") as told:
        process = subprocess.Popen(command, stdin=subprocess.PIPE, stdout=answers, stderr=told)
        try:
            feed(process, trace, lines, pause)
            status = process.wait(PATIENCE)
        except (subprocess.TimeoutExpired, BrokenPipeError):
            process.kill()
            status = "none, the run did not end"
            process.wait()
        answers.seek(0)
        told.seek(0)
        text = told.read().decode() + (f"status {status}" if status else "")
        return Run(answers.read().decode().split("\n")[1::2], steps_of(trace, folder, len(lines)), text)


def steps_of(trace, folder, count):
    """The calls of each line of a script."""
    steps, counts, current = [[] for _ in range(count)], {}, None
    with open(trace, encoding="latin1") as lines:
        for line in lines:
            call = call_of(line.rstrip("\n"), counts, folder)
            if call is None:
                continue
            marker = re.fullmatch(rf"{MARKER}(\d+)\.log", call.files[0]) if call.files else None
            if marker:
                current = int(marker.group(1))
            elif current is not None:
                steps[current].append(call)
    os.remove(trace)
    return steps
