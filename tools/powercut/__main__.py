"""Cuts the power of random scripts at random places, and judges what the device may have then.

  python3 tools/powercut [PROGRAM] [--seed N] [--scripts N] [--states N] [--findings N] [--scratch DIR] [--keep DIR]
                         [--harder] [--unsynced-rolls] [--without SYNCS]
  python3 tools/powercut [PROGRAM] --self-test

PROGRAM is a built dlog, crates/dlog/out/dlog if it is not given. A script is one to three lives of a folder. A life is one to
three sittings, each a run of `dlog run` on several logs, under strace, which may end without a close. What the runs did to the
files and names of the folder is recorded in order. Then the power is cut at a place of this record: of what was not synced up to
there some is on the device and some is not (`device.py` has the model of the file system). So a life has many ends, --states of
them, and each is judged; the next life begins with one of them. The same numbers give the same scripts, cuts and states.

What is judged is what docs/DURABILITY.md promises, with the syncs at rolls (`promises.py`):

1. No log is refused that an open or a sync put on the device. A set has the files of an index that was put. A log that was begun is
   there from the next `sync` of any log on, or from the next change of names under its base; until then it may be gone as a whole.
2. The sure items are there: those that were answered before a `sync` of their log was answered as done; all of the older files of
   a wrap log; what a log was begun, emptied or moved with; what was in the file of a wrap log before a change of its size. They
   may be gone where a line that was begun before the cut takes them: a roll, a truncate, a reopen, an open that empties. Within a
   reopen each file is whole at one base or at the other.
3. An older file of a wrap log is just as it was left: no hole, no bad bytes, no wrong count.
4. Of the current file the first items are there that were logged, in order, and no other. Behind the sure ones bytes may read as
   zeros, so that there are items of zeros, or such as have zeros in them or where their head is torn: these are counted.
5. `dlog check` and `dlog run` say of the files what these say by docs/FORMAT.md, and an open with a close leaves them whole.

--harder has a harder file system (`device.py`). --keep writes the files of the first finding into folders in DIR: those that its
life began with, and those that the cut left.

With --unsynced-rolls the program makes no syncs at rolls or cuts, and bytes that are not there may read as those that an open had
cut. With --without `rolls`, `asked`, `cuts`, `drafts` or `names` syncs are left out of the record: those before an index or a new
name, those of files in `sync` lines, those of files that are cut, those of files that are put, or those of
the folder. Then losses have to be seen. --self-test tries each of these until it sees one: its status is 0 if it always does, and
1 if not.

The status is 0 if nothing is wrong, 1 if something is, and 2 if there is no program, no strace or the words are wrong.
"""
import argparse
import os
import random
import shutil
import sys
import tempfile
from collections import Counter
from dataclasses import dataclass, field

sys.dont_write_bytecode = True

TOP = os.path.dirname(os.path.dirname(os.path.dirname(os.path.realpath(__file__))))
sys.path[1:1] = [f"{TOP}/tools/faults", f"{TOP}/tools/model"]

import opened
import record
from device import Device
from promises import Judge, cut_at, last_sync
from sittings import Sittings
from truth import Told, all_found, all_sure

# The syncs that may be left out of a record, each with the number of a script behind which a loss is soon seen.
PLANTS = {"rolls": 0, "asked": 0, "cuts": 479, "drafts": 0, "names": 0}
# How many states are judged of each cut.
STATES_OF_CUT = 3
MOST_SCRIPTS_OF_SELF_TEST = 40


@dataclass
class Life:
    """What a folder had at first, the lines that were run, and the record of what they did."""

    texts: dict
    lines: list = field(default_factory=list)
    changes: list = field(default_factory=list)


@dataclass
class Finding:
    """What is wrong of a state: in which life it is, behind how many changes, in which way, and its files."""

    life: Life
    place: int
    way: str
    wrongs: list
    texts: dict


def syncs_of(changes, lines):
    """For each change which sync it is, or None."""
    last = None
    for change in changes:
        if change.kind in ("draft", "names"):
            yield {"draft": "drafts", "names": "names"}[change.kind]
        elif change.kind != "sync":
            yield None
        elif lines[change.line].text.split(" ")[1:2] == ["sync"]:
            yield "asked"
        else:
            yield "cuts" if last.kind == "cut" and last.file == change.file else "rolls"
        last = change


class Trials:
    """Lives of folders, and counts of what was judged."""

    def __init__(self, program, scratch, words):
        self.program = program
        self.scratch = scratch
        self.words = words
        self.judge = Judge(words.unsynced_rolls)
        self.counts = Counter()

    def live(self, texts, sittings):
        """Runs the sittings of a life, and records it."""
        life, recorder, folder = Life(texts), record.Recorder(texts), f"{self.scratch}/logs"
        record.lay(folder, texts)
        disk, sure = dict(texts), all_sure(all_found(texts))
        extra = ["--unsynced-rolls"] if self.words.unsynced_rolls else []
        for sitting in sittings:
            answers, steps = record.run(self.program, folder, sitting, self.scratch, extra)
            told = Told(disk, sitting.blocks, sure)
            for line, answer, calls in zip(sitting.lines, answers, steps):
                for call in calls:
                    recorder.add(len(life.lines), call)
                life.lines.append(told.step(line))
                if answer != life.lines[-1].answer:
                    raise record.Broken(f"{line}: {answer[:200]}, and not {life.lines[-1].answer[:200]}")
            sure = told.sure
        syncs = syncs_of(recorder.changes, life.lines)
        life.changes = [change for change, sync in zip(recorder.changes, syncs) if sync is None or sync != self.words.without]
        self.check_record(life, record.there(folder))
        return life

    def check_record(self, life, texts):
        device = Device(life.texts, False)
        for place, change in enumerate(life.changes):
            device.add(place, change)
        if device.whole() != texts:
            raise record.Broken("the folder is not what the record says")

    def states(self, life, pick, count):
        """States that cuts of a life leave: the place of each cut, the cut, the way in which it is left, and the files."""
        cuts = max(1, count // STATES_OF_CUT)
        places = sorted(pick.randint(0, len(life.changes)) for _ in range(cuts))
        device, done = Device(life.texts, self.words.harder), 0
        for place in places:
            for at in range(done, place):
                device.add(at, life.changes[at])
            done = place
            cut = cut_at(life, place)
            cut.olds = device.olds()
            cut.unnamed = device.unnamed(last_sync(life, place))
            for _ in range(STATES_OF_CUT):
                texts, way = device.cut(pick)
                yield place, cut, way, texts

    def judged(self, cut, texts):
        """What is wrong of a state."""
        self.counts["states"] += 1
        wrongs = self.judge.wrongs(cut, texts)
        reason = opened.why_not(self.program, f"{self.scratch}/left", texts, all_found(texts))
        return wrongs + ([f"the program: {reason}"] if reason else [])

    def script(self, seed):
        """Lives a script. Yields what is found."""
        maker, pick = Sittings(seed), random.Random(seed)
        texts = maker.texts()
        self.counts["scripts"] += 1
        for _ in range(pick.choice((1, 2, 2, 3))):
            life = self.live(texts, [maker.sitting() for _ in range(pick.choice((1, 1, 2, 3)))])
            self.counts.update({"lives": 1, "lines": len(life.lines), "changes": len(life.changes)})
            ends, torn = [texts], []
            for place, cut, way, left in self.states(life, pick, self.words.states):
                wrongs = self.judged(cut, left)
                if wrongs:
                    yield Finding(life, place, way, wrongs, left)
                else:
                    (torn if is_torn(left) else ends).append(left)
            texts = pick.choice(torn if torn and pick.random() < 0.7 else ends)


def is_torn(texts):
    """Whether a log has bytes of no item behind its last one, which the next open cuts."""
    return any(found.needs_repair and found.files[-1].bad for found in all_found(texts).values() if not found.refusal)


def shown(text):
    return text.hex() if len(text) <= 150 else f"{text[:100].hex()} .. {text[-40:].hex()} ({len(text)})"


def report(seed, finding, keep):
    """Tells what is wrong, with the lines up to the cut and the last changes before it, and keeps the files."""
    life, place = finding.life, finding.place
    print(f"\nWRONG: script {seed}, cut behind change {place} of {len(life.changes)}, way {finding.way!r}")
    for wrong in finding.wrongs:
        print(f"  {wrong[:600]}")
    print("  files at first: " + (", ".join(f"{name} {shown(text)}" for name, text in sorted(life.texts.items())) or "none"))
    last = life.changes[place - 1].line if place else -1
    for at, line in enumerate(life.lines[: last + 1]):
        print(f"  {at}: {line.text[:160]}: {line.answer[:80]}")
    for change in life.changes[max(0, place - 25) : place]:
        where = "" if change.file is None else f"file {change.file} at {change.at}"
        print(f"    line {change.line}: {' '.join((change.kind, *change.names, where, shown(change.data)))}")
    print("  left: " + ", ".join(f"{name} {shown(text)}" for name, text in sorted(finding.texts.items())), flush=True)
    if keep:
        record.lay(f"{keep}/first", life.texts)
        record.lay(f"{keep}/left", finding.texts)


def judge_scripts(trials, words):
    """Judges scripts until there are as many findings as are wanted. Returns how many there are."""
    found = 0
    for seed in range(words.seed, words.seed + words.scripts):
        try:
            for finding in trials.script(seed):
                found += 1
                report(seed, finding, words.keep if found == 1 else None)
                if found >= words.findings:
                    return found
        except record.Broken as reason:
            found += 1
            print(f"\nWRONG: script {seed}: {reason}", flush=True)
        if seed % 10 == 0:
            print(f"script {seed}: {dict(trials.counts)}, {found} wrong", file=sys.stderr, flush=True)
    return found


def self_test(program, scratch, words):
    """Whether a loss is seen for each sync that is planted to be missing."""
    missed = 0
    for plant in ("unsynced-rolls", *PLANTS):
        words.unsynced_rolls = plant == "unsynced-rolls"
        words.without = plant if plant in PLANTS else None
        trials = Trials(program, scratch, words)
        first = words.seed + PLANTS.get(plant, 0)
        seeds = range(first, first + MOST_SCRIPTS_OF_SELF_TEST)
        finding = next((it for seed in seeds for it in trials.script(seed)), None)
        missed += finding is None
        seen = f"a loss: {finding.wrongs[0][:300]}" if finding else "NO LOSS"
        print(f"{plant}: {seen} (state {trials.counts['states']} of script {trials.counts['scripts']})", flush=True)
    return missed


def parsed():
    parser = argparse.ArgumentParser(prog="powercut", description=__doc__, formatter_class=argparse.RawDescriptionHelpFormatter)
    parser.add_argument("program", nargs="?", default=f"{TOP}/crates/dlog/out/dlog")
    parser.add_argument("--seed", type=int, default=1)
    parser.add_argument("--scripts", type=int, default=20)
    parser.add_argument("--states", type=int, default=60, help="states that are judged of each life")
    parser.add_argument("--findings", type=int, default=1, help="ends when so many are found")
    parser.add_argument("--scratch", help="where the folders are, as /dev/shm")
    parser.add_argument("--keep", help="where the files of the first finding are kept")
    parser.add_argument("--harder", action="store_true", help="a harder file system")
    parser.add_argument("--unsynced-rolls", action="store_true", help="the program makes no syncs at rolls or cuts")
    parser.add_argument("--without", choices=PLANTS, help="which syncs are left out of the record")
    parser.add_argument("--self-test", action="store_true", help="whether losses are seen where syncs are missing")
    return parser.parse_args()


def main():
    words = parsed()
    if not os.access(words.program, os.X_OK) or shutil.which("strace") is None:
        print(f"powercut: no program, or no strace: {words.program}", file=sys.stderr)
        return 2
    program = os.path.realpath(words.program)
    with tempfile.TemporaryDirectory(prefix="dlog-powercut-", dir=words.scratch) as scratch:
        scratch = os.path.realpath(scratch)
        if words.self_test:
            return 1 if self_test(program, scratch, words) else 0
        trials = Trials(program, scratch, words)
        found = judge_scripts(trials, words)
    for kind, count in sorted(trials.judge.seen.items()):
        print(f"{count:8} {kind}")
    print(f"{dict(trials.counts)}, {found} wrong")
    return 1 if found else 0


if __name__ == "__main__":
    sys.exit(main())
