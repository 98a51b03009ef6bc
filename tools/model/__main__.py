"""Runs random scripts of several logs with holds, and compares each answer and each file with those of a model.

  python3 tools/model [PROGRAM] [--seed N] [--scripts N] [--findings N] [--scratch DIR]
  python3 tools/model --cases DIR

PROGRAM is a built dlog, crates/dlog/out/dlog if it is not given. A script is one to three sittings on one folder: each is a run
of `dlog run` with its own number of blocks, which may end in the middle, so that the next one finds files that are open or
torn. The folder may have files of both layouts before, now and then spoilt. The model (`model.py`, with the logs alone of
tools/faults) knows nothing of the program: it follows where each byte is, in a block of the cache or in a file, with the holds of
the logs. What is compared is each line's answer with its notices, the bytes that `file` lines show and the turns of `flush`, and
after each sitting all files. A script that begins with no files is run in memory too. The same numbers give the same scripts.

With --cases no program is run: the model gives the answers of the worked cases in DIR that have no fault and no command.

The status is 0 if nothing differs, 1 if something does, and 2 if there is no program.
"""
import argparse
import os
import shutil
import subprocess
import sys
import tempfile

sys.dont_write_bytecode = True

TOP = os.path.dirname(os.path.dirname(os.path.dirname(os.path.realpath(__file__))))
sys.path.insert(1, f"{TOP}/tools/faults")

import cases
import made
from model import Model

MOST_SECONDS = 60


class Trials:
    """Runs of scripts, and counts of what was compared."""

    def __init__(self, program, folder):
        self.program = program
        self.folder = folder
        self.counts = dict.fromkeys(("scripts", "sittings", "lines", "items", "items written at once for a hold", "files"), 0)

    def lay(self, texts):
        shutil.rmtree(self.folder, ignore_errors=True)
        os.makedirs(self.folder)
        for name, text in texts.items():
            with open(f"{self.folder}/{name}", "wb") as file:
                file.write(text)

    def there(self):
        texts = {}
        for name in os.listdir(self.folder):
            with open(f"{self.folder}/{name}", "rb") as file:
                texts[name] = file.read()
        return texts

    def answers(self, sitting, words):
        """What the program answers, a line for each line, and how it ends."""
        text = "".join(f"{line}\n" for line in sitting.lines).encode()
        command = [*self.program, "run", "--blocks", str(sitting.blocks), *words]
        run = subprocess.run(command, input=text, capture_output=True, timeout=MOST_SECONDS, check=False)
        return run.stdout.decode().split("\n")[:-1], f"status {run.returncode} {run.stderr.decode()[:200]}"

    def why_not(self, sitting, reckoned, words):
        """The first answer that is not the model's, or None."""
        answers, end = self.answers(sitting, words)
        for at, (line, wanted) in enumerate(zip(sitting.lines, reckoned)):
            given = answers[at] if at < len(answers) else f"nothing: {end}"
            if given != wanted:
                return f"line {at + 1}: {line}\n  wanted {shown(wanted)}\n  given  {shown(given)}"
        return None if end.startswith("status 0") and len(answers) == len(reckoned) else end

    def script(self, seed):
        """Runs a script. Returns what is wrong, with the sitting in which it is, or None."""
        sittings, texts = made.Scripts(seed).make()
        disk, is_new = dict(texts), not texts
        self.lay(texts)
        self.counts["scripts"] += 1
        for number, sitting in enumerate(sittings):
            model = Model(disk, sitting.blocks)
            reckoned = [model.line(line) for line in sitting.lines]
            self.count(model, sitting)
            reason = self.why_not(sitting, reckoned, ["--folder", self.folder])
            if reason is None and is_new and number == 0:
                reason = self.why_not(sitting, reckoned, [])
            reason = reason or self.why_not_files(disk)
            if reason:
                return number, sitting, reason
        return None

    def why_not_files(self, wanted):
        there = self.there()
        self.counts["files"] += len(there)
        for name in sorted({*there, *wanted}):
            if there.get(name) != wanted.get(name):
                texts = [text.get(name) for text in (wanted, there)]
                return f"{name}\n  wanted {shown(texts[0] and texts[0].hex())}\n  given  {shown(texts[1] and texts[1].hex())}"
        return None

    def count(self, model, sitting):
        self.counts["sittings"] += 1
        self.counts["lines"] += len(sitting.lines)
        self.counts["items"] += model.items
        self.counts["items written at once for a hold"] += model.held_off


def shown(text):
    return "nothing" if text is None else text if len(text) < 400 else f"{text[:200]} .. {text[-150:]} ({len(text)})"


def report(seed, number, sitting, reason):
    print(f"\nDIFFERS: script {seed}, sitting {number + 1}, {sitting.blocks} blocks: {reason}")
    print("".join(f"  {line}\n" for line in sitting.lines), end="", flush=True)


def compare(trials, words):
    """Compares scripts until as many differ as are wanted. Returns how many do."""
    found = 0
    for seed in range(words.seed, words.seed + words.scripts):
        wrong = trials.script(seed)
        if wrong:
            report(seed, *wrong)
            found += 1
        if found >= words.findings:
            return found
        if (seed + 1) % 1_000 == 0:
            print(f"script {seed}: {trials.counts}, {found} differ", file=sys.stderr, flush=True)
    return found


def main():
    parser = argparse.ArgumentParser(prog="model")
    parser.add_argument("program", nargs="?", default=f"{TOP}/crates/dlog/out/dlog")
    parser.add_argument("--seed", type=int, default=1)
    parser.add_argument("--scripts", type=int, default=1_000)
    parser.add_argument("--findings", type=int, default=1, help="ends when so many are found")
    parser.add_argument("--scratch", help="where the folder of a script is, as /dev/shm")
    parser.add_argument("--cases", help="a folder of worked cases, which are reckoned in place of scripts")
    words = parser.parse_args()
    if words.cases is not None:
        wrong, count = cases.judge(words.cases)
        print("".join(f"DIFFERS: {reason}\n" for reason in wrong) + f"{count} answers, {len(wrong)} cases differ")
        return 1 if wrong else 0
    program = words.program.split(" ")
    if shutil.which(program[0]) is None:
        print(f"model: no program: {words.program}", file=sys.stderr)
        return 2
    with tempfile.TemporaryDirectory(prefix="dlog-model-", dir=words.scratch) as scratch:
        trials = Trials(program, f"{scratch}/logs")
        found = compare(trials, words)
    print(f"{trials.counts}, {found} differ")
    return 1 if found else 0


if __name__ == "__main__":
    sys.exit(main())
