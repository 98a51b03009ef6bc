"""Whether what a power cut left keeps what docs/DURABILITY.md promises."""
from collections import Counter
from dataclasses import dataclass, field

from texts import HEADS, file_of, frames, head_length, read_item_file
from truth import NONE, all_found

OLD = "items of bytes that a repair had cut"


@dataclass
class Cut:
    """A place of a record: for each log what it may have, from what it had before the line that is cut to what it has after it;
    how many items of each file are sure; between which logs that line moves files, and the files whose names it has changed; by
    name, what files had before cuts of them that are not synced; the names of new files that no sync put on the device."""

    allowed: dict
    sure: dict
    moving: tuple = None
    touched: set = field(default_factory=set)
    olds: dict = field(default_factory=dict)
    unnamed: set = field(default_factory=set)


def cut_at(life, place):
    """The cut behind so many changes of a record."""
    changes, lines = life.changes, life.lines
    if place == len(changes):
        last = lines[-1]
        return Cut({family: [state] for family, state in last.after.items()}, last.sure)
    line = lines[changes[place].line]
    if place == 0 or changes[place - 1].line != changes[place].line:
        return Cut({family: [state] for family, state in line.before.items()}, line.sure_before)
    known = {*line.before, *line.within, *line.after}
    allowed = {
        family: [line.before.get(family, NONE), *line.within.get(family, []), line.after.get(family, NONE)] for family in known
    }
    done = [change for change in changes[:place] if change.line == changes[place].line]
    return Cut(allowed, line.sure_before, line.moving, {name for change in done for name in change.names})


def last_sync(life, place):
    """The place of a record behind which no `sync` was answered as done before a cut."""
    changes, lines = life.changes, life.lines
    line = len(lines) if place == len(changes) else changes[place].line
    synced = [at for at in range(line) if lines[at].text.split(" ")[1:2] == ["sync"] and lines[at].answer.split(" | ")[0] == "done"]
    return next((at for at, change in enumerate(changes) if synced and change.line > synced[-1]), 0 if not synced else len(changes))


class Judge:
    """Judges what is left, and counts what the page allows. Items of bytes that a repair had cut are wrong, or are counted."""

    def __init__(self, may_be_old):
        self.may_be_old = may_be_old
        self.seen = Counter()

    def wrongs(self, cut, texts):
        """What is wrong of the files that a cut left, a text for each log."""
        found, wrongs = all_found(texts), []
        for family in sorted({*cut.allowed, *found}):
            reason = self.why_not(cut, family, found.get(family, NONE), texts)
            if reason:
                wrongs.append(f"{'.'.join(family)}: {reason}")
        return wrongs

    def why_not(self, cut, family, found, texts):
        states = cut.allowed.get(family, [NONE])
        if cut.moving and family in cut.moving:
            source, target = cut.moving
            if touches(cut.touched, source):
                self.seen["logs in the middle of a reopen"] += 1
                return why_not_moving(cut, texts) if family == source else None
            if family == target and touches(cut.touched, target):
                return None
        sure = {generation: count for (own, generation), count in cut.sure.items() if own == family}
        if f"{family[0]}.{'log' if family[1] == 'halt' else 'idx'}" in cut.unnamed and not found.is_there:
            self.seen["logs that are not there, since nothing was synced after they were begun"] += 1
            return None
        for state in states:
            if state.is_there and not state.refusal and f"{family[0]}.{state.files[-1].number}" in cut.unnamed:
                sure[state.files[-1].generation] = 0
        reasons = []
        for state in reversed(states):
            reason, kinds = why_no_state(found, state, sure, texts, family[0], cut.olds)
            if reason is None and OLD in kinds and not self.may_be_old:
                reason = f"{OLD}: {told(found.files[-1])}"
            if reason is None:
                self.seen.update(kinds)
                self.seen.update(amounts(found, state))
                return None
            if reason not in reasons:
                reasons.append(reason)
        return " or ".join(reasons)


def touches(names, family):
    """Whether one of these names is that of a file of a log."""
    parts = [name.split(".") for name in names if not name.endswith(".new")]
    return any(base == family[0] and (part == "log") == (family[1] == "halt") for base, part in parts)


def amounts(found, state):
    """What is told of a log that kept its promise."""
    if not found.is_there or found.refusal:
        return []
    short = sum(map(len, (it.items for it in found.files))) < sum(map(len, (it.items for it in state.files)))
    kinds = ["logs"]
    if short:
        kinds.append("logs with fewer items than were logged")
        if not found.needs_repair:
            kinds.append("logs with fewer items that an open does not tell")
    return kinds


def why_no_state(found, state, sure, texts, base, olds):
    """Why what is found is not what a log has in a state, less what is not sure; or None, and what of it is not as logged."""
    if state.refusal or not state.is_there:
        is_same = (found.refusal, found.is_there) == (state.refusal, state.is_there)
        return (None if is_same else f"there was {state.refusal or 'no log'}, and now it is another one"), []
    if found.refusal or not found.is_there:
        return f"refused: {found.refusal or 'no log is there'}", []
    entries, wanted = ([(it.number, it.generation) for it in files] for files in (found.files, state.files))
    if entries != wanted or found.size != state.size:
        return f"it has the files {entries} and the size {found.size}, and not {wanted} and {state.size}", []
    for own, whole in zip(found.files[:-1], state.files):
        if own != whole:
            return f"an older file, {own.number}, has {told(own)} and not {told(whole)}", []
    current = state.files[-1]
    name = f"{base}.{current.number or 'log'}"
    sure_here = sure.get(current.generation, 0)
    return why_not_current(found.files[-1], current, sure_here, texts.get(name, b""), olds.get(name, []))


def told(file):
    return f"{len(file.items)} items, {file.bad} bad bytes{', a wrong count' if file.miscounted else ''}"


def why_not_current(own, whole, sure, text, olds):
    """Why the items of a current file are not the first ones that were logged to it, with all that are sure. Behind those, bytes
    may read as zeros. Bytes of an old text, before a cut that is not synced, are told apart."""
    if own.items[:sure] != whole.items[:sure]:
        has = next((at for at in range(sure) if own.items[at : at + 1] != whole.items[at : at + 1]), sure)
        return f"of {sure} sure items {has} are there, of {len(whole.items)} that were logged", []
    if own.items and own.layout != whole.layout:
        return f"its current file has the layout {own.layout}, and not {whole.layout}", []
    kinds = []
    for at in range(sure, len(own.items)):
        item, logged = own.items[at], whole.items[at] if at < len(whole.items) else None
        if item == logged:
            continue
        kind = zeros_of(item, logged)
        if kind is None and is_made_of(own, whole, at, text, []):
            return None, [*kinds, "items whose head is torn"]
        if kind is None and is_made_of(own, whole, at, text, olds):
            return None, [*kinds, OLD]
        if kind is None:
            return f"item {at + 1} was not logged: {item[:40].hex()}", []
        kinds.append(kind if at + 1 == len(own.items) else f"{kind}, with an item behind")
    return None, kinds


def zeros_of(item, logged):
    """In what an item has zeros for the bytes that were logged, or None if it is another one."""
    if logged is None or len(item) != len(logged) or any(byte not in (0, was) for byte, was in zip(item, logged)):
        return None
    return "items in part of zeros" if any(item) else "items of zeros"


def is_made_of(own, whole, at, text, olds):
    """Whether each byte of the first items of a file, up to this one, is as it was logged, or zero, or as in an old text."""
    length = head_length(text)
    end = length + len(frames(own.items[: at + 1]))
    logged = bytes(length) + frames(whole.items)
    texts = [it.ljust(end, b"\0")[length:end] for it in (logged, *olds, b"")]
    return (olds or end <= len(logged)) and all(byte in others for byte, *others in zip(text[length:end], *texts))


def why_not_moving(cut, texts):
    """Why items are missing within a reopen that has given a file of the log its new name, and so has synced all: each file is
    whole at one of both bases."""
    source, target = cut.moving
    reasons = []
    for state in cut.allowed[source][:-1]:
        missing = [file for file in state.files if not any(is_at(base, file, texts) for base in (source[0], target[0]))]
        if not missing:
            return None
        reasons.append(f"within a reopen, file {missing[0].number} with {told(missing[0])} is at neither base")
    return reasons[-1]


def is_at(base, file, texts):
    text = texts.get(f"{base}.{file.number or 'log'}", b"")
    read = read_item_file(text)
    return read is not None and len(text) >= HEADS[read.layout] and file_of(file.number, read) == file
