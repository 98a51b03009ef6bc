"""Repairs torn logs while calls of the system fail, and judges what `dlog repair --yes` tells and leaves.

1. Without a fault, or where each fault may be passed over, the last file has its whole items and no bad bytes, and is marked as
   closed; what was cut is in the file that `--keep-bad` names; the status is 0. A log that needs no repair is left as it is.
   Where the last file was closed with another number of items that is told first.
2. A fault that may not be passed over is told, with a file of a call that failed. The status is 0 only if the log was repaired,
   and closed by a later try; it is 3 only if nothing was done.
3. No item is lost, whatever failed, and no other file of the log changes. The last file has its items, all, some or none of the
   bad bytes after them, and a mark; a mark of a closed log only without bad bytes and with a right count.
4. Where `nothing was cut` is told no file of the log has changed. Bad bytes that are not in the log any more were on the device
   before, in the file that keeps them.
5. What is told to be repaired is, and what is told to need a repair still does. A single fault after the open is passed by.
6. New processes read from the files just what they say, and a repair without faults ends well.
"""
import re
from dataclasses import dataclass, replace

import commands
import scripts
from commands import BAD_FILE, NAME
from stands import why_not_kept
from texts import count_of, found_log, frames, head_length, read_item_file

REFUSED = re.compile(r"dlog: a: (E24 device_fault (\S+))")
FINISHED = re.compile(r"dlog: a: the device failed at (\S+) as the log was closed: it was tried again, and all was written")
UNREAD = re.compile(r"dlog: a: cannot read (\S+)")
UNCUT = re.compile(r"dlog: (.+): nothing was cut")
STILL = "the close was tried again in vain: the log needs a repair still"


@dataclass
class Case:
    """A repair: the files before it, the kind of the log, and the name of the file for what is cut, or None."""

    texts: dict
    kind: str
    bad_file: str
    is_unsynced = False

    def data(self):
        return b""

    def words(self, folder):
        keep = ["--keep-bad", f"{folder}/{self.bad_file}"] if self.bad_file else []
        return ["repair", folder, NAME, "--yes", *keep]


def case_of(seed):
    maker = scripts.Maker(seed)
    pick = maker.pick
    kind = pick.choice(("halt", "wrap"))
    texts = maker.old(NAME, kind) | (maker.old("b", "wrap") if pick.random() < 0.3 else {})
    found = found_log(texts, NAME, kind)
    last = last_name(found)
    if last in texts and found.files[-1].bad and pick.random() < 0.2:
        texts[last] += bytes(pick.randint(60_000, 140_000))
    return Case(texts, kind, pick.choice((None, BAD_FILE, BAD_FILE)))


def last_name(found):
    """The name of the file of a log that takes items."""
    return f"{NAME}.{found.files[-1].number or 'log'}"


class Judge:
    """What is judged of one repair."""

    def __init__(self, case, folder, done, device, texts):
        self.case, self.folder, self.done, self.device, self.texts = case, folder, done, device, texts
        self.was, self.found = found_log(case.texts, NAME, case.kind), found_log(texts, NAME, case.kind)
        self.last = last_name(self.was)
        self.kept = self.was.files[-1]
        self.cut = b""
        if self.kept.bad:
            self.cut = case.texts[self.last][-self.kept.bad :]

    def own(self, texts):
        """The files of the log."""
        return {name: text for name, text in texts.items() if name not in (BAD_FILE, f"{self.last}.new")}

    def is_same(self):
        return self.own(self.texts) == self.own(self.case.texts)

    def why_wrong(self):
        reason = self.why_others_changed() or self.why_not_cut_so() or self.why_not_before()
        if reason:
            return reason
        out = self.done.out.decode().splitlines()
        if self.done.status == 3:
            return self.why_not_unread(out)
        if not self.was.needs_repair:
            return self.why_not_left(out)
        amount = f"{len(self.kept.items)} items"
        plan = f"{NAME}: a repair keeps {amount} of the last file and cuts {self.kept.bad} bytes after them"
        done = f"{NAME}: repaired: {amount} kept, {self.kept.bad} bytes cut"
        if out[:1] == self.noted():
            out = out[1:]
        elif self.noted() and not self.done.failed():
            return f"written without the count: {out}"
        if out not in ([plan], [plan, done]):
            return f"written: {out}"
        return self.why_not_ended(out == [plan, done])

    def noted(self):
        """What is written first where the last file was closed with another number of items than it has."""
        count, has = count_of(self.case.texts.get(self.last, b"")), len(self.kept.items)
        return [f"{self.last} miscounted: it was closed with {count} items and has {has}"] if count not in (None, has) else []

    def why_others_changed(self):
        """Whether items are lost, or a file has changed that is not the last one."""
        names = {*self.own(self.texts), *self.own(self.case.texts)} - {self.last}
        changed = [name for name in names if self.texts.get(name) != self.case.texts.get(name)]
        if changed:
            return f"other files have changed: {' '.join(sorted(changed))}"
        return why_not_kept(["1", "open", NAME, self.case.kind], self.case.texts, self.texts)

    def why_not_cut_so(self):
        """Why the last file is not as far as a repair may have come, or None."""
        before, after = (texts.get(self.last, b"") for texts in (self.case.texts, self.texts))
        if before == after:
            return None
        read = read_item_file(after)
        whole = frames(self.kept.items)
        length = head_length(after)
        if read is None or not after[length:].startswith(whole) or read.bad > self.kept.bad:
            return "the last file has not its items"
        if not (whole + self.cut).startswith(after[length:]):
            return "the last file has other bytes after its items"
        if read.mark == b"SHUT" and (read.bad or read.miscounted) and after[:length] != before[:length]:
            return "the last file is marked as that of a closed log, and needs a repair"
        return None

    def why_not_unread(self, out):
        """Why a repair did not end as one that could not read the folder or the log."""
        told = self.done.told
        is_of_folder = len(told) == 1 and self.done.said(0).startswith(f"dlog: {self.folder}: ")
        match = UNREAD.fullmatch(self.done.said(0))
        is_of_file = match and len(told) == 2 and commands.is_advice(self.done.said(1), self.folder, match[1], self.texts)
        if out or not self.done.failed() or not (is_of_folder or (is_of_file and self.done.may_name(match[1]))):
            return "status 3 without a fault of the folder or the log"
        return None if self.texts == self.case.texts else "status 3, and files have changed"

    def why_not_left(self, out):
        """Why a log that needs no repair was not left, and that told."""
        bad = sum(file.bad for file in self.was.files)
        count = sum(file.miscounted for file in self.was.files)
        told = [f"{NAME}: clean, nothing is to be repaired"] if not bad and not count else []
        rest = f"{NAME}: nothing is to be repaired:"
        if bad:
            told.append(f"{rest} {bad} bytes of older files are bad, and stay until their files are replaced")
        if count:
            told.append(f"{rest} {count} older files count another number of items than they have, and stay until they are replaced")
        if (self.done.status, out, self.done.told) != (0, told, []):
            return "what needs no repair is told otherwise"
        if not self.done.is_passed_over():
            return "a fault was passed over"
        return None if self.texts == self.case.texts else "files have changed, and no repair was needed"

    def why_not_ended(self, is_done):
        """Why the messages and the status are not those of what became of the log, of which it is told that it was repaired or
        not."""
        told = self.done.told
        uncut = UNCUT.fullmatch(self.done.said(0)) if len(told) == 1 else None
        if self.done.status == 0:
            reason = self.why_not_repaired(is_done)
        elif uncut:
            return self.why_not_uncut(uncut[1], is_done)
        else:
            reason = self.why_not_refused(is_done)
        return reason or self.why_not_kept_bad()

    def is_repaired(self):
        return not self.found.needs_repair and not self.found.refusal

    def why_not_repaired(self, is_done):
        told = self.done.told
        finished = FINISHED.fullmatch(self.done.said(0)) if len(told) == 1 else None
        if not is_done or not self.is_repaired() or (told and not finished):
            return "status 0, and the log is not repaired"
        if finished:
            return None if self.done.may_name(finished[1]) else f"{finished[1]} is told, and no call on it failed"
        return None if self.done.is_passed_over() else "a fault was passed over"

    def why_not_refused(self, is_done):
        """Why a log was not refused, or not closed, as is told. One that was refused may need no repair any more, if its bad
        bytes were cut and its mark was not written."""
        rest = self.done.told[2:]
        match = REFUSED.fullmatch(self.done.said(0))
        if not match or not self.done.may_name(match[2]) or rest != ([STILL] if is_done else []):
            return "the refusal is none"
        if not commands.is_advice(self.done.said(1), self.folder, match[2], self.texts):
            return "the advice is wrong"
        if not is_done:
            return None
        if self.is_repaired() or self.found.files[-1].bad or self.last not in self.texts:
            return "it needs no repair, as is told, or it was not done"
        return "a single fault kept the log from being closed" if len(self.done.failed()) == 1 else None

    def why_not_uncut(self, what, is_done):
        """Why `nothing was cut` is wrong, or None."""
        path = f"{self.folder}/{self.case.bad_file}: "
        is_bad_file = what.startswith(path) and any(what[len(path) :].startswith(it) for it in commands.REASONS.values())
        match = re.fullmatch(r"cannot read (\S+)", what)
        if is_done or not self.case.bad_file or not self.done.failed() or not (is_bad_file or match):
            return "why nothing was cut is told otherwise"
        if match and not self.done.may_name(match[1]):
            return f"{match[1]} is told, and no call on it failed"
        return None if self.is_same() else "nothing was cut, as is told, and the log has changed"

    def why_not_kept_bad(self):
        """Why bad bytes are neither in the log nor in the file that keeps them, or None."""
        after = self.texts.get(self.last, b"")
        if not self.case.bad_file or (self.cut and after.endswith(self.cut) and self.found.files[-1].bad == len(self.cut)):
            return None
        if self.texts.get(self.case.bad_file) != self.cut:
            return "what was cut is not in the file that keeps it"
        return None

    def why_not_before(self):
        """Why bad bytes left the log before the file that keeps them was on the device, or None."""
        device = commands.Device(self.case.texts)
        for call in self.done.calls:
            is_cut = call.name in ("ftruncate", "rename") and call.answer == 0 and self.last in call.files
            kept = device.files.get(self.case.bad_file)
            if is_cut and self.case.bad_file and (kept is None or device.synced.get(kept) != self.cut):
                return "the bad bytes were cut before the file that keeps them was synced"
            device.apply(call)
        return None

    def rest(self):
        """A repair of what is left to be repaired, which keeps bad bytes in the same file if that is not there."""
        if self.done.status == 0:
            return None
        is_there = self.case.bad_file in self.texts
        return replace(self.case, texts=self.texts, bad_file=None if is_there else self.case.bad_file)
