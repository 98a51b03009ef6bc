"""Answers and notices, as they are read."""
from __future__ import annotations

import os
import struct
from typing import Callable, Dict, List, NamedTuple, Optional, Tuple, TypeVar, Union

from .errors import BadFrame, Error, NoMemory, NotSynced, Reason, Refused, Suspended
from .requests import KINDS, MODES, Size

ARGUMENTS = (
    "kind", "size", "repair", "head", "items", "item", "count", "continuation", "blocks", "hold",
)
# Why the device failed, but for what the system refused.
CAUSES = (
    "", "out of memory", "it is a link, a folder or a pipe, and no plain file",
    "it is shorter than it was left", "an earlier sync of it failed", "the system gave no reason",
)
NOTICE = 128
Part = TypeVar("Part")


class Hello(NamedTuple):
    """What the server says of itself."""
    version: int
    frame_limit: int
    suspended_limit: int
    program: str


class Repaired(NamedTuple):
    """What an open has done to the current file: items kept and bytes cut."""
    kept: int
    bad: int


class Held(NamedTuple):
    """The items of an `alog` are held by a block."""


class Chunk(NamedTuple):
    """Items, the bad bytes after them, and the place after those: 17 bytes that may be kept."""
    items: List[bytes]
    bad: int
    next: bytes


class Turn(NamedTuple):
    """What became of a flush: "drained", "idle" or "fault", and the log."""
    what: str
    log: Optional[str]


class Notice(NamedTuple):
    """What an owner of a log is told."""
    client: int
    log: str
    what: str
    value: object


class Info(NamedTuple):
    """What a log is. The last four are None if it is read alone."""
    log: str
    base: str
    kind: str
    size: Size
    mode: str
    owners: List[Tuple[int, bool]]
    users: int
    blocked: Optional[str]
    head: Optional[bytes]
    written: Optional[int]
    extent: Optional[Dict[str, Union[int, bool]]]
    hold: Optional[int]


class Reader:
    """What is left of a text from a place on."""

    def __init__(self, text: bytes, at: int) -> None:
        self.text = text
        self.at = at

    def take(self, count: int) -> bytes:
        part = self.text[self.at:self.at + count]
        if len(part) != count:
            raise Error("an answer is cut short")
        self.at += count
        return part

    def number(self, form: str) -> int:
        return int(struct.unpack(form, self.take(struct.calcsize(form)))[0])

    def u8(self) -> int:
        return self.number(">B")

    def u32(self) -> int:
        return self.number(">I")

    def u64(self) -> int:
        return self.number(">Q")

    def short(self) -> str:
        return self.take(self.u8()).decode("ascii")

    def sized(self) -> bytes:
        return self.take(self.u32())

    def items(self) -> List[bytes]:
        return [self.sized() for _ in range(self.u32())]

    def option(self, part: Callable[[], Part]) -> Optional[Part]:
        return part() if self.u8() else None

    def size(self) -> Size:
        kind = self.u8()
        if kind == 0:
            return "infinity"
        return self.u64() if kind == 1 else (self.u64(), self.u32())

    def file(self) -> str:
        base, part = self.short(), self.u8()
        return base + (".log", ".idx")[part] if part < 2 else f"{base}.{self.u32()}"

    def refusal(self, kind: int) -> Refused:
        number = kind - 64
        parts: Tuple[object, ...]
        if number in (1, 4):
            parts = (ARGUMENTS[self.u8()],)
        elif number == 5:
            parts = (self.size(), self.size())
        elif number == 8:
            parts = (self.short(),)
        elif number in (10, 24):
            parts = (self.file(),)
        elif number == 19:
            parts = (self.u64(),)
        elif number == 23:
            parts = (self.u32(),)
        else:
            parts = ()
        return Refused(number, parts)

    def reason(self) -> Reason:
        file, cause, number = self.file(), self.u8(), self.number(">i")
        return Reason(file, CAUSES[cause] or os.strerror(number), number)

    def owner(self) -> Tuple[int, bool]:
        return self.u32(), bool(self.u8())

    def extent(self) -> Dict[str, Union[int, bool]]:
        if self.u8() == 0:
            return {"full": bool(self.u8())}
        names = ("bytes", "items", "all_items", "file", "rolls_since_open", "rolls_since_info")
        values = struct.unpack(">QQQIQQ", self.take(44))
        return dict(zip(names, values))

    def info(self) -> Info:
        log, base, kind, size = self.short(), self.short(), KINDS[self.u8()], self.size()
        mode = MODES[self.u8()]
        owners = [self.owner() for _ in range(self.u32())]
        users = self.u32()
        blocked = self.option(lambda: ("refuse", "queue")[self.u8()])
        if not self.u8():
            return Info(log, base, kind, size, mode, owners, users, blocked, None, None, None, None)
        head, written, extent = self.option(self.sized), self.u64(), self.extent()
        hold = self.option(self.u32)
        return Info(log, base, kind, size, mode, owners, users, blocked, head, written, extent, hold)

    def notice(self) -> Notice:
        client, log, kind = self.u32(), self.short(), self.u8()
        if kind in (0, 1):
            return Notice(client, log, ("wrap", "truncated")[kind], self.u64())
        if kind == 3:
            status = self.refusal(self.u8()) if self.u8() else None
            return Notice(client, log, "error_status", status)
        if kind in (4, 5):
            return Notice(client, log, ("read_only", "blocked")[kind - 4], self.items())
        return Notice(client, log, {2: "full", 6: "no_such_log"}[kind], None)

    def not_synced(self) -> Tuple[str, Error]:
        log = self.short()
        why = self.answer(self.u8())
        if not isinstance(why, Error):
            raise Error("an answer is of no form")
        return log, why

    def answer(self, kind: int) -> object:
        """The value of an answer, or the exception that it stands for."""
        if kind >= 64:
            return self.refusal(kind)
        if kind == 63:
            return BadFrame(self.u32())
        if kind == 0:
            return Hello(self.number(">H"), self.u32(), self.u32(), self.short())
        if kind == 2:
            return Repaired(self.u64(), self.u64())
        if kind == 4:
            return Suspended("a block keeps it off")
        if kind == 5:
            return Held()
        if kind == 6:
            place, bad = self.take(17), self.u64()
            return Chunk(self.items(), bad, place)
        if kind == 8:
            return self.take(17)
        if kind == 9:
            return self.info()
        if kind == 10:
            what = ("drained", "idle", "fault")[self.u8()]
            return Turn(what, None if what == "idle" else self.short())
        if kind == 11:
            return NoMemory("out of memory")
        if kind == 12:
            logs = [self.not_synced() for _ in range(self.u32())]
            return NotSynced(logs) if logs else None
        if kind == 13:
            return self.option(self.reason)
        if kind == 14:
            return [self.short() for _ in range(self.u32())]
        return None


def notice_of(text: bytes) -> Notice:
    return Reader(text, 5).notice()


def value_of(text: bytes) -> object:
    """The value of an answer. Raises what it stands for if it is none."""
    value = Reader(text, 5).answer(text[4])
    if isinstance(value, Error):
        raise value
    return value
