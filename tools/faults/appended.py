"""Appends lines to logs while calls of the system fail, and judges what `dlog append` tells and leaves.

A log that is new, was closed or left open, or is torn is given lines, with or without syncs:

1. Without a fault, or where each fault may be passed over, the log has all its items and is marked as closed, the status is 0,
   and nothing is told but a repair. Only a halt log that is full takes fewer, which is told.
2. A fault that may not be passed over is told, with a file of a call that failed. The status is 0 only if all lines are in the
   log, and it was closed by a later try; it is 3 only if nothing was done. A fault of the look that tells how many items the last
   file was closed with may be passed over: the open reads the same again.
3. A log has the items that it had and the first of the lines, whole and in order. Its older files are whole, and only a wrap
   log lacks its oldest ones, as far as it went round. Where lines were taken and are missing they waited in memory: the log is
   not closed then, and that is told. With syncs a line may be there that was not taken, since its sync failed: that is told.
4. Lines that are told to be on the device are in bytes that a sync found which did not fail, under names that one found.
5. A single fault leaves a log that was opened closed.
6. New processes read from the files just what they say, and an append of the rest of the lines ends well.
"""
import copy
from dataclasses import dataclass, field, replace

import commands
import hub
import logs
import scripts
from asked import item_of
from commands import NAME
from messages import FULL, IN_LOG, NO_ROOM, STAGES, told_of
from stands import why_not_kept
from texts import count_of, found_log


@dataclass
class Case:
    """An append: the files before it, the kind of the log, the options of its open, after how many items a sync is due, whether
    rolls are not synced, how the input says its items, and these."""

    texts: dict
    kind: str
    options: dict
    syncs: int
    is_unsynced: bool
    source: str
    items: list

    def words(self, folder):
        words = ["append", folder, NAME]
        if "size" in self.options:
            words += ["--wrap" if self.kind == "wrap" else "--size", self.options["size"]]
        if "head" in self.options:
            words += ["--head", self.options["head"]]
        if self.syncs:
            words += ["--sync"] if self.syncs == 1 else ["--sync-every", str(self.syncs)]
        words += ["--unsynced-rolls"] if self.is_unsynced else []
        return words + ([self.source] if self.source else [])

    def data(self):
        if self.source == "--raw":
            return b"".join(len(item).to_bytes(4, "big") + item for item in self.items)
        return b"".join(item + b"\n" for item in self.items)


def case_of(seed):
    maker = scripts.Maker(seed)
    pick = maker.pick
    kind = pick.choice(("halt", "wrap", "wrap"))
    texts = maker.old(NAME, kind) if pick.random() < 0.6 else {}
    texts |= maker.old("b", "halt") if pick.random() < 0.3 else {}
    size = maker.sizes.get(NAME) or maker.size(kind)
    is_left_out = size == "inf" or (found_log(texts, NAME, kind).is_there and pick.random() < 0.5)
    options = {} if is_left_out else {"size": size}
    if pick.random() < 0.3:
        options["head"] = "H0"
    long = pick.random() < 0.4
    words = [f"{pick.randint(3_000, 9_000)}*{chr(97 + at % 26)}" if long else maker.item() for at in range(pick.randint(1, 22))]
    syncs = pick.choice((None, None, 1, 2, 5))
    source = pick.choice(("", "", "--escaped", "--raw"))
    return Case(texts, kind, options, syncs, pick.random() < 0.15, source, [item_of(word) for word in words])


@dataclass
class Expected:
    """What an append without a fault comes to: the answer to its open, the log after each number of items, and why the next
    item is not taken, or None."""

    reply: str
    logs: list = field(default_factory=list)
    refusal: str = None


def expected_of(case):
    reply, log = hub.opened(NAME, case.kind, NAME, case.options, case.texts)
    want = Expected(reply, [log])
    for item in case.items:
        log = copy.deepcopy(log)
        want.refusal = logs.add(log, item, logs.is_no_fault, [])
        if want.refusal:
            break
        want.logs.append(log)
    return want


def count_in(want, log, count, found):
    """How many of the items are in files that lack nothing of a log that took so many but what may have waited, or None if the
    files are not those of this log."""
    first, whole = want.logs[0].current(), log.current()
    if found.refusal or not found.is_there or found.files[:-1] != log.files[:-1]:
        return None
    last = found.files[-1]
    if (last.number, last.generation, last.layout) != (whole.number, whole.generation, whole.layout):
        return None
    is_first = first.generation == whole.generation
    own = len(whole.items) - (len(first.items) if is_first else log.lead)
    missing = len(whole.items) - len(last.items)
    if last.items != whole.items[: len(last.items)] or missing > own + (0 if is_first else log.lead):
        return None
    return count - min(missing, own)


def states(want, count):
    """The log after so many items, and the same one after a step to its next file for which the next item did not fit."""
    yield want.logs[count], count
    if count + 1 < len(want.logs):
        rolled = copy.deepcopy(want.logs[count + 1])
        if rolled.current().generation > want.logs[count].current().generation:
            rolled.current().items.pop()
            yield rolled, count


def counts(want, numbers, found):
    """For each way in which files stand for a log after one of these numbers of items, that number and how many they have."""
    for number in numbers:
        for log, count in states(want, number):
            there = count_in(want, log, count, found)
            if there is not None:
                yield count, there


class Judge:
    """What is judged of one append."""

    def __init__(self, case, folder, done, device, texts):
        self.case, self.folder, self.done, self.device, self.texts = case, folder, done, device, texts
        self.want = expected_of(case)
        self.told = told_of(done.told)
        self.found = found_log(texts, NAME, case.kind)
        # How many of the items the log has.
        self.there = 0

    def why_wrong(self):
        told, status = self.told, self.done.status
        if status == 3:
            return self.why_not_untouched()
        if told.refusal is None:
            reason = self.why_not_all()
        elif told.taken is None:
            return self.why_not_refused()
        else:
            reason = self.why_not_stopped()
        expected = self.want.reply if self.want.reply != "opened" else None
        if told.repair != expected:
            return f"told {told.repair}, and not {expected}"
        if told.repair and told.closed != self.closed_before() and not (told.closed is None and self.is_read_again()):
            return f"told {told.closed} of the file that was closed, and not {self.closed_before()}"
        return reason or self.why_not_there() or self.why_not_durable()

    def closed_before(self):
        """Of the last file of a log that was closed with another number of items than it has, its part and that number."""
        last = found_log(self.case.texts, NAME, self.case.kind).files[-1]
        part = str(last.number or "log")
        count = count_of(self.case.texts.get(f"{NAME}.{part}", b""))
        return (part, count) if count not in (None, len(last.items)) else None

    def why_not_untouched(self):
        if not self.done.failed() or not self.done.said(0).startswith(f"dlog: {self.folder}: ") or len(self.done.told) > 1:
            return "status 3 without a fault of the folder"
        return None if self.texts == self.case.texts else "status 3, and files have changed"

    def why_not_refused(self):
        """Why an open was not refused as is told."""
        if self.done.status != 1 or self.told.repair or self.told.finished or self.told.kept or self.told.is_lost:
            return "no log was opened, and more is told"
        is_begun = self.found.is_there and not found_log(self.case.texts, NAME, self.case.kind).is_there
        if is_begun and any(it.items not in ([], [b"H0"]) for it in self.found.files):
            return "a log that was not opened has items"
        return self.why_not_named() or why_not_kept(["1", "open", NAME, self.case.kind], self.case.texts, self.texts)

    def why_not_named(self):
        """Why the refusal by a fault is not that of a call that failed, or the advice after it is wrong."""
        file = self.told.refusal.removeprefix("E24 device_fault ")
        if not self.done.may_name(file):
            return f"{file} is told, and no call on it failed"
        is_advised = len(self.told.rest) == 1 and commands.is_advice(self.told.rest[0], self.folder, file, self.texts)
        return None if is_advised else f"the advice is wrong: {self.told.rest}"

    def why_not_all(self):
        told = self.told
        if told.rest or told.kept or told.is_lost or self.done.status != 0:
            return "it did not take all, and tells no refusal"
        if self.want.refusal:
            return f"all were taken, and it had to be refused: {self.want.refusal}"
        if told.finished is None:
            return None if self.done.is_passed_over() or self.is_read_again() else "a fault was passed over"
        return None if self.done.may_name(told.finished) else f"{told.finished} is told, and no call on it failed"

    def is_read_again(self):
        """Whether each fault was met at a read of what was read well too before anything was changed."""
        calls = self.done.calls
        first = next((at for at, call in enumerate(calls) if call.name in commands.CHANGING), len(calls))
        before = calls[:first]
        read = [(call.name, call.files) for call in before if call.answer >= 0]
        return all(call in before and (call.name, call.files) in read for call in self.done.failed())

    def why_not_stopped(self):
        told, want = self.told, self.want
        most, all_items = len(want.logs) - 1, len(self.case.items)
        if self.done.status != 1 or (told.finished and (told.is_lost or not self.done.may_name(told.finished))):
            return "the status or the close does not agree with what is told"
        if told.stage != "item" and (told.stage not in STAGES or told.taken != all_items or most != all_items):
            return "not all were taken, as is told"
        if told.taken > most or (told.stage == STAGES[1] and not told.is_lost):
            return "more were taken than fit, or the log was closed"
        if told.refusal != FULL:
            return self.why_not_named()
        if want.refusal != FULL or told.taken != most or told.stage != "item" or told.rest != [NO_ROOM]:
            return "it is full by another item"
        is_told = told.finished or told.is_lost or self.case.syncs
        return None if is_told or self.done.is_passed_over() else "a fault was passed over"

    def taken(self):
        """How many items were taken."""
        return len(self.case.items) if self.told.refusal is None else self.told.taken

    def why_not_there(self):
        """Why the files have not what is told, or None."""
        told, taken = self.told, self.taken()
        numbers = [taken]
        # An item whose own sync failed is there, and is told as one that may be.
        may_be = bool(self.case.syncs) and told.stage == "item" and told.refusal != FULL
        if told.may_be != (taken + 1 if may_be else None):
            return f"what is told of item {taken + 1} is wrong: {told.may_be}"
        if may_be and taken + 1 < len(self.want.logs):
            numbers.append(taken + 1)
        found = list(counts(self.want, numbers, self.found))
        if not found:
            return f"the files have not the items of a log that took {taken}"
        self.there = max(there for _, there in found)
        is_closed = not self.found.needs_repair
        if is_closed and not any(count == there for count, there in found):
            return "the log is closed, and items are missing"
        if not is_closed and not told.is_lost:
            return "the log is not closed, and that is not told"
        return self.why_not_closed(is_closed) or self.why_not_counted(taken)

    def why_not_closed(self, is_closed):
        """Why a log that is told not to be closed had to be, or None. A wrap log whose current file was left to begin the next
        one, which failed, is like one that was closed."""
        if self.told.is_lost and is_closed and self.case.kind == "halt":
            return "the log is closed, and it is told that it is not"
        if self.told.is_lost and len(self.done.failed()) == 1:
            return "a single fault kept the log from being closed"
        return None

    def why_not_counted(self, taken):
        """Why what is told of the items that were taken is wrong, or None."""
        told = self.told
        is_to_tell = told.refusal is not None and taken > 0
        if is_to_tell != (told.kept is not None) or (told.kept == "counted" and not told.is_lost):
            return f"what is told of the {taken} items is wrong: {told.kept}"
        least = taken if told.kept == IN_LOG else told.synced
        return "more are told to be there than are" if self.there < least else None

    def why_not_durable(self):
        """Why items are not on the device that are told to be there, or None."""
        synced = self.told.synced
        if self.told.refusal is None:
            synced = len(self.case.items) if self.case.syncs else 0
        elif self.case.is_unsynced and self.case.kind == "wrap":
            return None
        if synced == 0:
            return None
        found = found_log(self.device.durable(), NAME, self.case.kind)
        numbers = range(synced, len(self.want.logs))
        if any(there >= synced for _, there in counts(self.want, numbers, found)):
            return None
        return f"{synced} items are told to be on the device, and they are not"

    def rest(self):
        """An append of the items that the log has not, if it did not take them all and may take more."""
        if self.done.status == 0 or self.told.refusal == FULL:
            return None
        return replace(self.case, texts=self.texts, items=self.case.items[self.there :])
