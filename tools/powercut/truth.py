"""What the logs of a folder have at each moment of a script, and which of their items have to be on the device."""
from dataclasses import dataclass, replace

from model import Model
from texts import Found, found_log, read_item_file

KINDS = {"log": "halt", "idx": "wrap"}
NONE = Found(is_there=False)


def families(texts):
    """The logs that a folder has: the base and the kind of each."""
    parts = [name.split(".") for name in sorted(texts) if name.count(".") == 1]
    return [(base, KINDS[part]) for base, part in parts if part in KINDS]


def all_found(texts):
    return {family: found_log(texts, *family) for family in families(texts)}


def state_of(log):
    """What an open log has at a moment, whether it is in a file or waits."""
    files = [replace(file, items=list(file.items)) for file in log.files]
    return Found(size=log.size if log.kind == "wrap" else None, generation=log.current().generation, files=files)


def all_sure(states):
    """How many items of each file of each log are on the device, where all that is there is."""
    return {(family, file.generation): len(file.items) for family, state in states.items() for file in state.files}


@dataclass
class Line:
    """A line of a script: what the logs have before it, at each moment within it and after it, how many items of each file have
    to be on the device before it and once it is answered, and between which logs it moves files."""

    text: str
    answer: str
    before: dict
    within: dict
    after: dict
    sure_before: dict
    sure: dict
    moving: tuple


class Told(Model):
    """A model that notes what each log has whenever the device may be called. What is sure is by docs/DURABILITY.md: what a
    sync put on the device, and what a call that begins a file, moves files or puts an index did."""

    def __init__(self, disk, blocks, sure):
        super().__init__(disk, blocks)
        self.sure = dict(sure)
        self.within = {}
        self.last = self.states()

    def is_met(self, file):
        super().is_met(file)
        self.note()
        return False

    def note(self):
        for log in self.hub.open.values():
            moments = self.within.setdefault((log.base, log.kind), [])
            state = state_of(log)
            if log.mode == "rw" and (not moments or moments[-1] != state):
                moments.append(state)

    def states(self):
        """What each log has now: one that is not open to be written has what its files have."""
        own = {(log.base, log.kind): state_of(log) for log in self.hub.open.values() if log.mode == "rw"}
        return {**all_found(self.disk), **own}

    def step(self, text):
        words = text.split(" ")
        log = self.hub.open.get(words[2]) if len(words) > 2 else None
        moving = ((log.base, log.kind), (words[3], log.kind)) if log and words[1] == "reopen" else None
        written = self.written(log) if log else 0
        before, sure_before, self.within = self.last, dict(self.sure), {}
        answer = self.line(text)
        self.note()
        self.last = self.states()
        reply = answer.split(" | ")[0]
        if moving and reply == "done":
            self.forget(moving[1])
        self.learn(before)
        if reply == "done" and log and log.kind == "wrap" and words[1] == "size":
            self.raise_to(log, {log.current().generation: written})
        if reply == "done" and log and words[1] == "sync":
            self.raise_to(log, {file.generation: len(file.items) for file in log.files})
        return Line(text, answer, before, self.within, self.last, sure_before, dict(self.sure), moving)

    def written(self, log):
        """How many items of the current file of a log are in it, and not in the cache alone."""
        read = read_item_file(self.disk.get(log.current_name(), b""))
        return len(read.items) if read and read.generation == log.current().generation else 0

    def raise_to(self, log, counts):
        for generation, count in counts.items():
            key = ((log.base, log.kind), generation)
            self.sure[key] = max(count, self.sure.get(key, 0))

    def forget(self, family):
        self.sure = {key: count for key, count in self.sure.items() if key[0] != family}

    def learn(self, before):
        """Files that are new are there with the items with which they were begun, or with all, if they were moved."""
        leads = {(log.base, log.kind): log.lead for log in [*self.hub.ended.values(), *self.hub.open.values()]}
        there = set()
        for family, state in self.last.items():
            known = {file.generation for file in before.get(family, NONE).files}
            for file in state.files:
                there.add((family, file.generation))
                if file.generation not in known or (family, file.generation) not in self.sure:
                    is_current = family in leads and file.generation == state.generation
                    self.sure[(family, file.generation)] = leads[family] if is_current else len(file.items)
        self.sure = {key: count for key, count in self.sure.items() if key in there}
