"""Judges a run line by line: which answers and which files are allowed after what the device did.

What is judged stands at the head of `__main__.py`.
"""
import copy
import re
from dataclasses import replace

import logs
from hub import Hub
from stands import BLOCK, beginning, oldest_waiting, strays, waiting
from stands import why_not, why_not_ended, why_not_ending, why_not_kept, why_not_synced

# A fault at one of these is never passed over. Others may be met where a file that went is removed, or after names have changed.
HARD = ("pwrite64", "ftruncate", "rename", "write", "pread64", "fdatasync", "openat")
# An open that fails so may be tried again, with other files closed.
CROWDED = ("EMFILE", "ENFILE")


class Choices:
    """Which of the places at which a fault may come have one. `each` goes over all that fit the calls that failed."""

    def __init__(self, patterns):
        self.patterns = patterns
        self.taken = []
        self.at = 0

    def fits(self, file):
        for pattern in self.patterns:
            if pattern == file or is_under(pattern, file) or is_under(file, pattern):
                return True
        return False

    def __call__(self, file):
        if not self.fits(file):
            return False
        if self.at == len(self.taken):
            self.taken.append(False)
        self.at += 1
        return self.taken[self.at - 1]

    def each(self):
        while True:
            self.at = 0
            yield self
            del self.taken[self.at :]
            while self.taken and self.taken[-1]:
                self.taken.pop()
            if not self.taken:
                return
            self.taken[-1] = True


def is_under(pattern, file):
    return pattern.endswith("*") and file.startswith(pattern[:-1])


def is_hard(call):
    return call.error not in CROWDED and (call.name in HARD or (call.name == "fsync" and call.files))


def pattern_of(call):
    """The files that an answer may name for a call that failed. What is synced or looked at may be so for another file's sake."""
    if not call.files:
        return "*"
    name = call.files[0].removesuffix(".new")
    exact = call.name in ("pwrite64", "ftruncate", "write", "pread64", "rename")
    return name if exact else name.split(".")[0] + ".*"


def matches(wanted, answer):
    return re.fullmatch(re.escape(wanted).replace(r"\*", r"\S+"), answer) is not None


class Judge:
    """The states that the logs may be in, after the lines so far."""

    def __init__(self, folder):
        self.folder = folder
        self.hubs = [Hub()]
        self.may_leave_drafts = False
        # The bases of logs that met a fault: the current file need not be marked yet.
        self.failed = set()

    def step(self, line, answer, calls):
        """Judges a line. Returns what is wrong, or None."""
        before, lost = self.folder.texts(), set(self.folder.lost)
        self.folder.line(calls)
        after = self.folder.texts()
        failed = [call for call in calls if call.is_fault()]
        if self.folder.wrong:
            return self.folder.wrong[0]
        words = line.split(" ")
        if failed:
            self.failed |= {base for hub in self.hubs for base in bases(hub, words)}
        wrong = self.why_others_changed(words, before, after) or self.why_drafts(failed, after)
        wrong = wrong or self.why_not_durable(failed, calls)
        if wrong:
            return wrong
        outcomes = [it for hub in self.hubs for it in self.outcomes(hub, words, before, after, failed, lost)]
        told = [it for it in outcomes if matches(" | ".join([it[1], *it[2]]), answer)]
        if not told:
            allowed = sorted({" | ".join([it[1], *it[2]])[:300] for it in outcomes})
            return f"the answer is none of: {allowed}"
        reasons = [(it, self.why_not_so(it, words, before, after, calls)) for it in told]
        for changed, *_ in told:
            changed.ended = {}
        self.hubs = list({repr(it[0]): it[0] for it, reason in reasons if reason is None}.values())
        return None if self.hubs else " or ".join(sorted({reason for _, reason in reasons}))

    def outcomes(self, hub, words, before, after, failed, lost):
        """Each outcome (hub, reply, notices, hub before) that is allowed, as far as no files are looked at."""
        if words == ["flush"]:
            yield from flushed(hub, before, after, failed)
            return
        patterns = [pattern_of(call) for call in failed]
        must = set()
        if words[1] == "sync" and words[2] in hub.open:
            must = set(hub.open[words[2]].names()) & lost & self.folder.lost
        choices = Choices([*patterns, *must])
        needs_fault = must or any(map(is_hard, failed))
        for fails in choices.each():
            changed = copy.deepcopy(hub)
            reply, notices = changed.line(words, before, fails)
            is_refused_early = must and not reply.startswith(("done", "E24"))
            if any(fails.taken) or not needs_fault or is_refused_early:
                yield changed, reply, notices, hub

    def why_not_so(self, outcome, words, before, after, calls):
        """Why the files are not what an outcome leaves, or None."""
        changed, reply, _, hub = outcome
        known, there = {**hub.open, **hub.lingering}, {**changed.open, **changed.lingering}
        for log in there.values():
            reason = why_not(log, after, log.base in self.failed or log.name in changed.lingering)
            if reason:
                return reason
        for name in set(known) - set(there):
            log = changed.ended.get(name, known[name])
            is_moving = words[-1] != "flush" and words[1] == "reopen"
            reason = why_not_ending(log, words[3], calls, after) if is_moving else why_not_ended(log, after)
            if reason:
                return reason
        if not any(call.is_fault() for call in calls):
            for base in bases(hub, words):
                if strays(there.values(), after, base) - strays(known.values(), before, base):
                    return f"files under {base} were left that have gone"
        if reply.startswith("E24") and words[1] == "open" and words[2] not in known:
            return why_not_kept(words, before, after)
        if reply == "done" and words[1] == "sync":
            return why_not_synced(changed.open[words[2]], self.folder)
        if reply == "done" and words[1] == "reopen":
            return why_not_ended(replace(known[words[2]], base=words[3]), after)
        return None

    def why_others_changed(self, words, before, after):
        """Whether files changed under a base that is none of a line's."""
        own = {base for hub in self.hubs for base in bases(hub, words)}
        names = [name for name in {*before, *after} if before.get(name) != after.get(name) and name.split(".")[0] not in own]
        return f"files of another log have changed: {' '.join(sorted(names))}" if names else None

    def why_not_durable(self, failed, calls):
        """Whether names changed that were not made durable, though nothing failed. Those of new files may wait."""
        has_changed = any(call.answer == 0 and call.name in ("rename", "unlink") for call in calls)
        return "the names of the folder were not made durable" if has_changed and self.folder.owes_names and not failed else None

    def why_drafts(self, failed, after):
        self.may_leave_drafts = self.may_leave_drafts or any(call.name == "unlink" for call in failed)
        drafts = [name for name in after if name.endswith(".new")]
        return f"a draft is left: {' '.join(drafts)}" if drafts and not self.may_leave_drafts else None


def bases(hub, words):
    """The bases whose files a line may change."""
    open_logs = [*hub.open.values(), *hub.lingering.values()]
    if words == ["flush"]:
        return {log.base for log in open_logs}
    if words[1] == "exit":
        return {log.base for log in open_logs if words[0] in log.owners or (log.blocker and log.blocker[0] == words[0])}
    own = {log.base for log in open_logs if log.name == words[2]}
    if words[1] == "open" and not own:
        named = [word[5:] for word in words[4:] if word.startswith("base=")]
        return {*named} or {words[2]}
    return own | {words[3]} if words[1] == "reopen" else own


def flushed(hub, before, after, failed):
    """The outcomes of a flush: the oldest block was written, or met a fault, or there was nothing to do. Where none waits, the
    first log that lingers is finished."""
    logs_there = {**{name: log for name, log in hub.open.items() if log.mode == "rw"}, **hub.lingering}
    ages = {name: oldest_waiting(log, before) for name, log in logs_there.items()}
    waits = [age for age in ages.values() if age is not None]
    if not hub.lingering and not waits:
        yield copy.deepcopy(hub), "turn idle", [], hub
    may_be_any = any(log.current_name() in before.torn for log in logs_there.values())
    first = min(hub.lingering, key=lambda name: hub.lingering[name].opened, default=None)
    for name, age in ages.items():
        if may_be_any or (age == min(waits) if waits else name == first):
            yield from turned(hub, name, before, after, failed)


def turned(hub, name, before, after, failed):
    """The outcomes of a flush that wrote a block of a log or marked it, or met a fault at that."""
    changed = copy.deepcopy(hub)
    log = changed.open.get(name) or changed.lingering[name]
    waited, left, is_torn = waiting(replace(log), before), waiting(log, after), log.current_name() in before.torn
    if left is not None and not any(map(is_hard, failed)) and (is_torn or waited - left <= BLOCK + beginning(log)):
        yield from drained(changed, hub, name, is_torn or left < waited, is_torn or left > 0)
    if Choices([pattern_of(call) for call in failed]).fits(log.current_name()):
        changed, notices = copy.deepcopy(hub), []
        if name in changed.open:
            changed.open[name].with_status(logs.fault(log.current_name()), notices)
        yield changed, f"turn fault {name}", notices, hub


def drained(changed, hub, name, is_less, may_wait):
    """The outcomes of a flush that wrote a block of a log, or marked one that lingers."""
    if name in changed.lingering:
        ended = copy.deepcopy(changed)
        del ended.lingering[name]
        yield ended, f"turn drained {name}", [], hub
        if not may_wait:
            return
    if is_less:
        yield changed, f"turn drained {name}", [], hub
