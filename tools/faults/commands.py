"""Runs one command of dlog on a log under strace, and follows which of its bytes are on the device.

The files that the log may have are named to strace, so that all calls on them can fail, those that write too, and what the
command says is never lost.
"""
import os
import random
import re
import signal
import subprocess
from dataclasses import dataclass

import faults
import place
import traced
from folder import Folder, Texts
from judge import Choices, is_hard, pattern_of
from texts import found_log

NAME = "a"
# A file beside the log, to which a repair writes what it cuts.
BAD_FILE = "kept.bad"
# Beside the calls of a script those that lock the folder and list it. Where these do their work they change nothing.
ASKED = ("flock", "getdents64", "fstat")
WATCHED = f"{traced.WATCHED},flock,getdents64"
CHANGING = ("write", "pwrite64", "ftruncate", "fdatasync", "fsync", "rename", "unlink")
PARTS = ("log", "idx", *map(str, range(1, 9)))
PATIENCE = 30
CALM = faults.Plan([], True)
# How the system names its errors.
REASONS = {"EIO": "Input/output error", "ENOSPC": "No space left on device", "EMFILE": "Too many open files"}


@dataclass
class Done:
    """How a command ended: its status, or None if it did not end, what it wrote, what it told, and its calls on the folder."""

    status: int
    out: bytes
    told: list
    calls: list

    def said(self, at):
        """A line of what it told, or an empty one if it told fewer."""
        return self.told[at] if at < len(self.told) else ""

    def failed(self):
        return [call for call in self.calls if call.is_fault()]

    def is_passed_over(self):
        """Whether each call that failed is one whose fault may be passed over."""
        return not any(map(is_hard, self.failed()))

    def may_name(self, file):
        """Whether a call that failed lets a refusal name a file."""
        return Choices([pattern_of(call) for call in self.failed()]).fits(file)


class Device(Folder):
    """The files, and what of them a stop of the machine leaves at least: under the names of the last sync of the folder what
    the last sync of each file found. Bytes at which a sync failed are gone, and no later sync of that file brings them back."""

    def __init__(self, texts):
        super().__init__(texts)
        self.synced = {}
        self.names = {}

    def apply(self, call):
        if call.name in ASKED and call.answer >= 0:
            return
        super().apply(call)
        if call.answer != 0 or call.name not in ("fsync", "fdatasync"):
            return
        if not call.files:
            self.names = dict(self.files)
        elif call.files[0] not in self.lost:
            inode = self.files[call.files[0]]
            self.synced[inode] = bytes(inode.data)

    def durable(self):
        return Texts((name, self.synced[inode]) for name, inode in self.names.items() if inode in self.synced)


def paths_of(folder):
    names = [f"{NAME}.{part}" for part in PARTS]
    return [folder, *(f"{folder}/{name}" for name in [*names, *(f"{name}.new" for name in names), BAD_FILE])]


def ended(command, data):
    """The status, the output and the messages of a command; a status of None if it did not end."""
    pipe = subprocess.PIPE
    process = subprocess.Popen(command, stdin=pipe, stdout=pipe, stderr=pipe, start_new_session=True)
    try:
        out, told = process.communicate(data, PATIENCE)
        return process.returncode, out, told.decode().splitlines()
    except subprocess.TimeoutExpired:
        os.killpg(process.pid, signal.SIGKILL)
        out, told = process.communicate()
        return None, out, told.decode().splitlines()


def run(program, words, data, folder, plan, scratch):
    """Runs a command with faults given as texts of strace's option `inject`."""
    trace = f"{scratch}/trace"
    command = ["strace", "-f", "--seccomp-bpf", "-y", "-xx", "-s", "4000000", "-o", trace, "-e", f"trace={WATCHED}"]
    for path in paths_of(folder):
        command += ["-P", path]
    for text in plan.texts:
        command += ["-e", f"inject={text}"]
    status, out, told = ended([*command, program, *words], data)
    counts = {}
    with open(trace, encoding="latin1") as lines:
        calls = [traced.call_of(line.rstrip("\n"), counts, folder) for line in lines]
    os.remove(trace)
    return Done(status, out, told, [call for call in calls if call is not None])


def plans(calls, pick, most):
    """Faults at calls: each fails once, each and those of its kind after it for a while or from there on, or all calls from there
    on, by EIO and by ENOSPC. A sample of so many, of which at least half are at calls that change something if there are so many."""
    changing, others = [], [faults.now_and_then(calls, pick) for _ in range(most // 6)]
    for at, call in enumerate(calls):
        found = changing if call.name in CHANGING else others
        for error in faults.ERRORS:
            found += [faults.once(call, error), faults.on(call, error), faults.window(call, error, pick.randint(2, 6))]
            found.append(dead(calls, at, error))
        if call.name == "openat":
            found.append(faults.once(call, faults.CROWDED))
    sample = pick.sample(changing, min(len(changing), max(most // 2, most - len(others))))
    return sample + pick.sample(others, min(len(others), most - len(sample)))


def dead(calls, first, error):
    """All calls from one on fail."""
    texts = []
    for name in sorted({call.name for call in calls}):
        # A kind of which no call follows fails too, if there is one after all.
        before = sum(call.name == name for call in calls[:first])
        texts.append(f"{name}:error={error}:when={before + 1}+")
    return faults.Plan(texts, False)


def is_advice(line, folder, file, texts):
    """Whether a command says this of a file that the system refused: why the last call on a file under its base failed, or, where
    it does not know that, what it sees as it looks at the file once more. If the file is there it is not said to be missing."""
    path = f"{folder}/{file}"
    base = re.escape(f"{folder}/{file.split('.')[0]}")
    if re.fullmatch(rf"{base}\.[a-z0-9]+: (?:{'|'.join(REASONS.values())}) \(os error \d+\): \S.*", line):
        return True
    if line == f"{path} is not there, or could not be made: look at the rights of {folder} and the room on its device":
        return file not in texts
    if line == f"the system refused {path}: look at the room on its device, the limits of the process and the system's journal":
        return file in texts
    return any(line.startswith(f"{path}: {reason}") for reason in REASONS.values())


def why_not_run(done, device, before, texts, is_unsynced):
    """Why a run is wrong whatever it was to do, or None."""
    if done.status not in (0, 1, 3):
        return "it did not end" if done.status is None else f"it ended with status {done.status}"
    wrong = [it for it in device.wrong if not (is_unsynced and it.startswith("not durable before"))]
    if wrong:
        return wrong[0]
    if device.texts() != texts:
        return "the folder is not what the trace says"
    drafts = [name for name in texts if name.endswith(".new") and name not in before]
    if drafts and not any(call.name == "unlink" for call in done.failed()):
        return "a draft is left"
    return None


def records(text):
    """The items of what `dump --raw` writes, or None if it ends within one."""
    items, at = [], 0
    while at < len(text):
        length = int.from_bytes(text[at : at + 4], "big")
        items.append(text[at + 4 : at + 4 + length])
        at += 4 + length
    return items if at == len(text) else None


def why_not_read(program, folder, texts, kind):
    """Why new processes do not read what the files say, or None."""
    found = found_log(texts, NAME, kind)
    status, out, told = ended([program, "dump", folder, NAME, "--raw"], b"")
    if not found.is_there or found.refusal:
        return None if (status, out) == (1, b"") else f"dumped, though it is not there: {told}"
    items = [item for file in found.files for item in file.items]
    if (status, records(out)) != (int(any(file.bad for file in found.files)), items):
        return f"a dump has other items than the files: status {status}, {told}"
    _status, out, _told = ended([program, "check", folder, NAME], b"")
    line = out.decode().split("\n")[0]
    last = found.files[-1]
    state = f"needs repair: {len(last.items)} items kept, {last.bad} bytes bad" if found.needs_repair else ""
    if f" items={len(items)} " not in line or state not in line or ("needs repair" in line) != found.needs_repair:
        return f"a check tells other than the files: {line}"
    return None


class Trials:
    """Runs of a command, and how many there were. A judge is made of a case, the folder, how the command ended, what the device
    has and the files; it says why they are wrong, and what is left to be done by a run without faults."""

    def __init__(self, program, scratch, folder, judge_of):
        self.program, self.scratch, self.folder, self.judge_of = program, scratch, folder, judge_of
        self.runs = 0

    def run(self, case, plan, room=None):
        """Runs and judges a case. Returns its judge, and what is wrong, or None."""
        place.fill(self.folder, case.texts, room)
        done = run(self.program, case.words(self.folder), case.data(), self.folder, plan, self.scratch)
        texts, device = place.there(self.folder), Device(case.texts)
        device.line(done.calls)
        self.runs += 1
        judge = self.judge_of(case, self.folder, done, device, texts)
        wrong = why_not_run(done, device, case.texts, texts, case.is_unsynced) or judge.why_wrong()
        return judge, wrong or why_not_read(self.program, self.folder, texts, case.kind)

    def tried(self, case, plan, room=None):
        """Runs and judges a case, and what it leaves to be done. Returns the first judge, and what is wrong, or None."""
        judge, wrong = self.run(case, plan, room)
        rest = None if wrong else judge.rest()
        if rest is None:
            return judge, wrong
        after, wrong = self.run(rest, CALM)
        return judge, wrong and f"run again: {wrong}, status {after.done.status}, {after.done.out}, {after.done.told}"

    def faults_of(self, seed, case, judge, words):
        """The faults over which a case is run, each with the pages that a small device has, if it is run on one. The judge is
        that of a run without faults."""
        pick = random.Random(seed)
        if words.device is None:
            return [(plan, None) for plan in plans(judge.done.calls, pick, words.most)]
        return [(CALM, room) for room in place.rooms(case.texts, judge.texts, pick, words.most)]

    def judged(self, case_of, words):
        """Judges the cases of seeds, each without a fault and with as many as the words say, until so many findings are there
        as are wanted. Returns how many runs there were, and what is wrong."""
        found = []
        for seed in range(words.seed, words.seed + words.commands):
            case, room = case_of(seed), None
            judge, wrong = self.tried(case, CALM)
            todo = [(CALM, None)] if wrong else self.faults_of(seed, case, judge, words)
            for plan, room in todo:
                if not wrong:
                    judge, wrong = self.tried(case, plan, room)
                if wrong:
                    found.append(report(seed, case, plan, room, judge, wrong))
                    wrong = None
                if len(found) >= words.findings:
                    return self.runs, found
        return self.runs, found


def report(seed, case, plan, room, judge, wrong):
    """Tells what is wrong."""
    done = judge.done
    where = "" if room is None else f", {room} pages of room"
    failed = ", ".join(f"{call.title()} {call.error}" for call in done.failed())
    files = ", ".join(f"{name} {text.hex()[:400]}" for name, text in sorted(case.texts.items()))
    return (
        f"{wrong}\n  seed {seed}{where}: {' '.join(case.words('FOLDER'))}, input of {len(case.data())} bytes, files before: {files}\n"
        f"  faults {plan.texts}, failed: {failed[:1000]}\n  status {done.status}, {done.out[:1000]}, {done.told}"
    )
