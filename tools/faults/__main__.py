"""Runs random scripts and commands over failing devices, and judges what dlog answers and leaves.

  python3 tools/faults [PROGRAM] [--seed N] [--scripts N] [--commands N] [--most N] [--findings N] [--device DIR]

PROGRAM is a built dlog, crates/dlog/out/dlog if it is not given. Each script is run once without a fault under strace, and
then again and again with some of the calls on the folder's files made to fail, by EIO, ENOSPC or, at an open, EMFILE: one
call, a few calls of one kind, all calls of one kind from there on, some kinds again and again, or all calls for a while or to
the end. With --device the folder is DIR, which has to be empty and on a small file system of its own, as one of `mount -t
tmpfs -o size=600k tmpfs DIR`: it is filled up but for a few pages, so that writes are cut off, and in some runs room is made
before the turns at the end of the script. The same numbers give the same scripts and faults. The status is 0 if nothing is
wrong, 1 if something is, and 2 if there is no program or no strace.

The rules by which is judged are those of docs/SCRIPTS.md, docs/FORMAT.md and docs/DURABILITY.md, written anew here. `logs.py`
and `hub.py` say what each line of a script is answered, and where a device call in it may fail. `folder.py` does to a copy of
the files what the trace says, so that each line is judged with the files as they stood before it and after it:

1. A line in which no call failed is answered exactly as the logs alone answer it, notices too: so no log is stuck after a
   fault, and no fault is told that was not met. Two answers are E24 without a failing call: the open of a name that lingers,
   and a sync of a log with a file at which a sync failed, until that file is put anew.
2. A line in which a call failed is answered as one of the places of the fault allows: E24 with the file of a call that
   failed, the items of the call before the fault logged and no other; a step to the next file or a truncate that met the
   fault at its new file done, and told; a reopen undone before the first file is to be moved, and the log ended from then on;
   a last close ended, and lingering; an exit, an unblock and held messages done. A fault at a write, a cut, a read, an open,
   a new name or the sync of a file is never passed over; one at the removal of a file that went, or at the names of the
   folder after they changed, may be.
3. The status of a log is the outcome of the last attempt to log, truncate, sync, resize or begin the next file, or E24 after
   a turn that failed. Its owners are told each change, once, after the other notices of the attempt.
4. After each line the index names exactly the files of each log, the older files have all their items, and the current one has
   the front of the items that were answered as done and nothing else, where no write was cut off. What is missing waits, in no
   more blocks than the log is held to: a turn is idle only where nothing waits, and else writes a block of one log. A file
   that a fault kept from being begun is begun by the next write. A log that was closed, or that a turn has finished, has all
   its items and is marked as closed. Bytes are written only behind the mark of an open log. A file keeps its layout, and is
   begun in the second. The count of items and the mark are a write each, and no write leaves a file that is marked as whole
   with a wrong count. Files that went are removed where nothing failed.
5. No line changes files under a base that is not one of its log, and no draft is left but where its removal failed.
6. After a sync that was answered as done nothing of the log waits, each of its files is synced, and so are the names; each
   put or new name comes after the bytes of the other files under its base and after earlier names, but for names of new files
   under other bases, and an index before the file it names last.
7. If no call fails in the turns at the end, the last of them is idle.
8. A new process reads from the files that are left just what they say.
9. If a fault is answered, `run` says on standard error for which file which call failed, and why, each reason once; and nothing
   else (`reasons.py`).

Without --device a server is then served a few calls too, whose last writes fail (`served.py`), and clients whose syncs come
together, of which one fails at the device (`together.py`), as many cases as --commands says. And lines are appended to logs
(`appended.py`) and torn logs are repaired (`repaired.py`), as many of each as --commands says, each without a fault and then with
--most. With `--scripts 0` these are run alone.
"""
import argparse
import os
import random
import re
import shutil
import sys
import tempfile

sys.dont_write_bytecode = True

import appended
import commands
import faults
import place
import reasons
import repaired
import scripts
import served
import together
import traced
from folder import Folder
from judge import Judge

TOP = os.path.dirname(os.path.dirname(os.path.dirname(os.path.realpath(__file__))))
COUNTED = ("scripts", "runs", "runs that met a fault", "failed calls", "writes cut off", "lines", "logs read anew")
# After how many runs the files are read by a new process.
ANEW = 8


class Trials:
    """Runs of scripts, and counts of what was judged."""

    def __init__(self, program, scratch, folder):
        self.program = program
        self.scratch = scratch
        self.folder = folder
        self.counts = dict.fromkeys(COUNTED, 0)

    def run(self, script, plan, room=None):
        """Runs and judges a script. Returns the run, and the line at which something is wrong with what it is, or None."""
        place.fill(self.folder, script.texts, room)
        pause = None
        if room is not None and plan.is_over:
            pause = (script.end, lambda: place.make_room(self.folder))
        run = traced.run(self.program, self.folder, script.lines, script.blocks, plan.texts, self.scratch, pause)
        calls = [call for step in run.steps for call in step]
        failed = sum(map(traced.Call.is_fault, calls))
        self.counts["runs"] += 1
        self.counts["failed calls"] += failed
        self.counts["writes cut off"] += sum(0 <= call.answer < len(call.data) for call in calls)
        self.counts["runs that met a fault"] += failed > 0
        return run, self.judged(script, run)

    def judged(self, script, run):
        failed = [call for step in run.steps for call in step if call.is_fault()]
        wrong = reasons.why_not_said(run.told.splitlines(), self.folder, failed)
        if wrong or len(run.answers) < len(script.lines):
            return len(run.answers), wrong or f"the run did not end well: {run.told}"
        if not run.told and any(re.search(r"\bE24\b|turn fault", answer) for answer in run.answers):
            return len(script.lines), "a fault is answered, and its reason is not said"
        judge = Judge(Folder(script.texts))
        for at, line in enumerate(script.lines):
            wrong = judge.step(line, run.answers[at], run.steps[at])
            self.counts["lines"] += 1
            if wrong:
                return at, wrong
        last = max(at for at, line in enumerate(script.lines) if line != "flush") + 1
        if run.answers[-1] != "turn idle" and not any(call.is_fault() for step in run.steps[last:] for call in step):
            return len(script.lines) - 1, "nothing fails any more, and turns do not come to an end"
        there = place.there(self.folder)
        if there != judge.folder.texts():
            return len(script.lines), "the folder is not what the trace says"
        return self.read_anew(there) if self.counts["runs"] % ANEW == 0 else None

    def read_anew(self, texts):
        """Reads all that is left by a new process, which changes nothing."""
        kinds = {"log": "halt", "idx": "wrap"}
        parts = sorted(name.split(".") for name in texts if name.count(".") == 1 and name.split(".")[1] in kinds)
        lines = []
        for at, (base, part) in enumerate(parts):
            lines.append(f"1 open n{at} {kinds[part]} base={base} mode=ro")
            lines += [f"1 chunk n{at} next 99"] * (3 + len(texts) + sum(map(len, texts.values())) // 65_536)
            lines.append(f"1 close n{at}")
        run = traced.run(self.program, self.folder, lines, 1, [], self.scratch)
        judge = Judge(Folder(texts))
        judge.may_leave_drafts = True
        self.counts["logs read anew"] += len(parts)
        for line, answer, step in zip(lines, run.answers, run.steps):
            wrong = judge.step(line, answer, step)
            if wrong:
                return 1 << 30, f"read anew, {line}: {answer[:200]}: {wrong}"
        return None


def report(seed, script, plan, room, run, wrong):
    """Tells what is wrong, with the script up to there."""
    at, reason = wrong
    where = "" if room is None else f", {room} pages of room"
    print(f"\nWRONG: script {seed}, {script.blocks} blocks{where}, faults {plan.texts}: {reason[:2000]}")
    print("  files before: " + ", ".join(f"{name} {text.hex()}" for name, text in sorted(script.texts.items())))
    for line, answer, step in list(zip(script.lines, run.answers, run.steps))[: at + 1]:
        failed = [f"{call.title()} {call.error}" for call in step if call.is_fault()]
        print(f"  {line}: {answer[:300]}" + (f"    <- {', '.join(failed)}" if failed else ""))
    sys.stdout.flush()


def cases(script, run, left, seed, words):
    """The plans of faults of a script, each with the pages that a small device has, if it is run on one. `left` is what a run
    without faults leaves."""
    pick = random.Random(seed)
    if words.device is None:
        for plan in faults.plans(run, script.end, pick, words.most):
            yield plan, None
    else:
        for room in place.rooms(script.texts, left, pick, words.most):
            yield faults.Plan([], pick.random() < 0.6), room


def judge_scripts(trials, words):
    """Judges scripts until there are as many findings as are wanted. Returns how many there are."""
    found = 0
    for seed in range(words.seed, words.seed + words.scripts):
        script = scripts.script_of(seed)
        trials.counts["scripts"] += 1
        calm = faults.Plan([], True)
        run, wrong = trials.run(script, calm)
        todo = [(calm, None)] if wrong else cases(script, run, place.there(trials.folder), seed, words)
        for plan, room in todo:
            if not wrong:
                run, wrong = trials.run(script, plan, room)
            if wrong:
                report(seed, script, plan, room, run, wrong)
                found += 1
                wrong = None
            if found >= words.findings:
                return found
        if seed % 10 == 0:
            print(f"script {seed}: {trials.counts}, {found} wrong", file=sys.stderr, flush=True)
    return found


def judge_others(trials, words):
    """Judges a server, unless the device is a small one, appends and repairs. For each of them how many runs there were, and what
    is wrong."""
    if words.device is None:
        yield "servers", *served.judge(trials.program, trials.scratch)
        yield "servers of syncs", *together.judge(trials.program, trials.scratch, words.seed, words.commands, words.most)
    for what, module in (("appends", appended), ("repairs", repaired)):
        runs = commands.Trials(trials.program, trials.scratch, trials.folder, module.Judge)
        yield what, *runs.judged(module.case_of, words)


def main():
    parser = argparse.ArgumentParser(prog="faults")
    parser.add_argument("program", nargs="?", default=f"{TOP}/crates/dlog/out/dlog")
    parser.add_argument("--seed", type=int, default=1)
    parser.add_argument("--scripts", type=int, default=20)
    parser.add_argument("--commands", type=int, default=5, help="seeds of appends, and of repairs")
    parser.add_argument("--most", type=int, default=24, help="faults of single calls for each script, beside others, and faults for each command")
    parser.add_argument("--findings", type=int, default=1, help="ends when so many are found")
    parser.add_argument("--device", help="an empty folder on a small file system")
    words = parser.parse_args()
    if not os.access(words.program, os.X_OK) or shutil.which("strace") is None:
        print(f"faults: no program, or no strace: {words.program}", file=sys.stderr)
        return 2
    if words.device is not None and not place.is_small(words.device):
        print(f"faults: no empty folder on a small file system: {words.device}", file=sys.stderr)
        return 2
    with tempfile.TemporaryDirectory(prefix="dlog-faults-") as scratch:
        folder = os.path.realpath(words.device or f"{scratch}/logs")
        os.makedirs(folder, exist_ok=True)
        trials = Trials(os.path.realpath(words.program), scratch, folder)
        found = judge_scripts(trials, words)
        others = list(judge_others(trials, words))
        place.fill(folder, {})
    for what, _runs, wrong in others:
        print("".join(f"\nWRONG: {what}: {reason}\n" for reason in wrong), end="")
    print("; ".join([f"{trials.counts}, {found} wrong", *(f"{runs} {what}, {len(wrong)} wrong" for what, runs, wrong in others)]))
    return 1 if found or any(wrong for _what, _runs, wrong in others) else 0


if __name__ == "__main__":
    sys.exit(main())
