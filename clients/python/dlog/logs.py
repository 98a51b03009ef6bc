"""Clients, and logs as they see them."""
from __future__ import annotations

import collections
from types import TracebackType
from typing import TYPE_CHECKING, Deque, Dict, Iterable, Iterator, List, NamedTuple, Optional, Type, cast

from . import requests
from .answers import Chunk, Info, Repaired

if TYPE_CHECKING:
    from .server import Server


class Opening(NamedTuple):
    """How a log was opened by a client, for a server that is started again."""
    client: int
    log: str
    link: str
    options: Dict[str, object]

    def parts(self) -> bytes:
        front = requests.pack(">I", self.client) + requests.short(self.log)
        return front + requests.opening(**self.options)  # type: ignore[arg-type]


class Client:
    """A client of a server: it owns logs, and blocks them."""

    def __init__(self, server: Server, number: int) -> None:
        self.server = server
        self.number = number
        self._front = requests.pack(">I", number)

    def open(self, name: str, kind: Optional[str] = None, size: Optional[requests.Size] = None,
             base: Optional[str] = None, mode: str = "read_write", repair: str = "yes",
             head: Optional[bytes] = None, notify: bool = False, link: str = "owner",
             hold: Optional[int] = None) -> Log:
        """Opens a log. It is a wrap log with `kind="wrap"` or a `size` of a pair, bytes and files, and else a
        halt log, also where the folder has a wrap log of its name: a new one is begun beside that. With a
        `hold` it has at most so many of the server's blocks, and writes what waits of it where an item
        needs more."""
        kind = kind or ("wrap" if isinstance(size, tuple) else "halt")
        options: Dict[str, object] = dict(kind=kind, size_=size, base=base, mode=mode, repair=repair,
                                          head=head, notify=notify, link=link, hold=hold)
        log = Log(self, name)
        opening = Opening(self.number, log.name, link, options)
        log.repaired = cast(Optional[Repaired], self.server.call(1, opening.parts()))
        self._opened(opening)
        return log

    def _opened(self, opening: Opening) -> None:
        # A log that is opened again is not emptied again.
        if opening.options["repair"] == "truncate":
            opening.options["repair"] = "yes"
        with self.server._changing:
            if opening.link == "owner":
                self._forget(opening.log, self.number, "owner")
            self.server._openings.append(opening)

    def _forget(self, log: Optional[str], client: Optional[int], link: str) -> bool:
        openings = self.server._openings
        for opening in openings:
            if log in (None, opening.log) and client in (None, opening.client) and link == opening.link:
                openings.remove(opening)
                return True
        return False

    def _closed(self, log: str) -> None:
        with self.server._changing:
            self._forget(log, self.number, "owner") or self._forget(log, None, "anonymous")

    def log(self, name: str) -> Log:
        """A log that is open already."""
        return Log(self, name)

    def sync_all(self, *names: str) -> None:
        """Has these logs on the device once it returns. Raises `NotSynced` with those that are not; the others
        are, all the same. Name the logs that matter. Without names it is all that are open, whoever opened
        them: one that is open read-only is among those that are not (E13), and nothing is said of a log that
        was not opened, that a restart did not open again, or that is closed and still waits to be written."""
        self.server.call(18, self._front + requests.names(names))

    def exit(self) -> None:
        """Gives up all that the client owns."""
        self.server.call(15, self._front)
        with self.server._changing:
            while self._forget(None, self.number, "owner"):
                pass


class Log:
    """A log, as one client sees it."""

    def __init__(self, client: Client, name: str) -> None:
        self.client = client
        self.server = client.server
        self.name = name
        self.repaired: Optional[Repaired] = None
        self._front = client._front + requests.short(name)

    def __enter__(self) -> Log:
        return self

    def __exit__(self, kind: Optional[Type[BaseException]], value: Optional[BaseException],
                 trace: Optional[TracebackType]) -> None:
        self.close()

    def __iter__(self) -> Iterator[bytes]:
        """The items from the first one on."""
        chunk = self.chunk()
        while chunk is not None:
            yield from chunk.items
            chunk = self.chunk(chunk.next)

    def call(self, op: int, parts: bytes = b"") -> object:
        """Makes a call on the log, and waits for its answer."""
        return self.server.call(op, self._front + parts)

    def send(self, op: int, parts: bytes = b"") -> int:
        """Sends a call on the log, and returns its tag, for `server.answer`."""
        return self.server.send(op, self._front + parts)

    def send_log(self, *items: bytes) -> int:
        """Sends a call that logs items, and returns its tag."""
        return self.send(2, requests.items(items))

    def send_sync(self) -> int:
        """Sends a sync, and returns its tag."""
        return self.send(10)

    def log(self, *items: bytes) -> None:
        """Logs items in one call."""
        self.call(2, requests.items(items))

    def log_synced(self, *items: bytes) -> None:
        """Logs items in one call, and has them on the device once it returns. The log and its sync are done by
        the same server: with two calls another thread may have started it again between them, and a sync
        says nothing of items that its server has not."""
        self.server.call_all([(2, self._front + requests.items(items)), (10, self._front)])

    def log_many(self, items: Iterable[bytes], ahead: int = 64) -> None:
        """Logs each item by a call of its own, with up to `ahead` calls under way."""
        process, half = self.server._process, max(1, ahead // 2)
        tags: Deque[int] = collections.deque()
        frames: List[bytes] = []
        for item in items:
            tag, frame = process.request(2, self._front + requests.items((item,)))
            tags.append(tag)
            frames.append(frame)
            if len(frames) == half:
                self.server._write(b"".join(frames))
                frames.clear()
                while len(tags) > ahead - half:
                    self.server.answer(tags.popleft())
        self.server._write(b"".join(frames))
        for tag in tags:
            self.server.answer(tag)

    def alog(self, *items: bytes) -> None:
        """Sends items without waiting for an answer."""
        self.server._write(self.server._process.frame(0, 3, self._front + requests.items(items)))

    def chunk(self, place: Optional[bytes] = None, most: int = 1024) -> Optional[Chunk]:
        """At most so many items from a place on, or None at the end."""
        parts = requests.place(place) + requests.pack(">Q", most)
        return cast(Optional[Chunk], self.call(4, parts))

    def chunk_step(self, by: int, place: Optional[bytes] = None) -> bytes:
        """The place of the first item of the file that is so many files on."""
        return cast(bytes, self.call(5, requests.place(place) + requests.pack(">i", by)))

    def truncate(self, head: Optional[bytes] = None) -> None:
        """Empties the log, which begins with the head item then."""
        self.call(6, requests.option(requests.item, head))

    def reopen(self, base: str, head: Optional[bytes] = None) -> None:
        """Gives the log's files another base, and goes on with new ones."""
        self.call(7, requests.short(base) + requests.option(requests.item, head))

    def next_file(self) -> None:
        """Begins the next file of a wrap log."""
        self.call(8)

    def change_size(self, size: requests.Size) -> None:
        """Gives the log another limit."""
        self.call(9, requests.size(size))
        with self.server._changing:
            for opening in self.server._openings:
                if opening.log == self.name:
                    opening.options["size_"] = size

    def sync(self) -> None:
        """Has what was logged on the device once it returns."""
        self.call(10)

    def block(self, queue: bool = True) -> None:
        """Has the calls of other clients suspended, or refused, until `unblock`."""
        self.call(11, requests.pack(">B", bool(queue)))

    def unblock(self) -> None:
        """Lifts the block."""
        self.call(12)

    def info(self) -> Info:
        """What the log is."""
        return cast(Info, self.call(13))

    def close(self) -> None:
        """Gives up the log."""
        self.call(14)
        self.client._closed(self.name)
