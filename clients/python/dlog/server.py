"""A server over a folder, and its calls."""
from __future__ import annotations

import itertools
import threading
import time
import weakref
from pathlib import Path
from types import TracebackType
from typing import List, NamedTuple, Optional, Sequence, Tuple, Type, Union, cast

from . import requests
from .answers import Hello, Notice, Repaired, Turn, notice_of, value_of
from .errors import Error, Gone, NotStarted, NotSynced, Reason, Refused
from .logs import Client, Opening
from .process import Process, deadline_in

TRY_AGAIN_SECONDS = 0.05
# The clients that the server numbers have the numbers from here on.
FIRST_NUMBER = 2**31
# Of how many servers that have ended calls are known that were sent and not awaited.
KEPT_ENDS = 4
# The number of the refusal after a fault of the device.
DEVICE_FAULT = 24


class Reopened(NamedTuple):
    """What became of a log as its server was started again: None, `Repaired`, or what kept it from being open."""
    client: int
    log: str
    outcome: Union[None, Repaired, Error]


class Server:
    """A server over a folder. Leaving it closes the logs that its clients own.

    Any thread may use it, each best as a client of its own (`client()`): calls of threads are sent
    without waiting for each other's answers. A process that was forked off has no part in it.

    `wait` is for how many seconds a folder is waited for that another program has, as one does that
    was killed and still writes. `timeout` is how many seconds a call may take, or None.
    """

    def __init__(self, folder: Union[str, Path], program: Union[str, Path] = "dlog", blocks: int = 16,
                 unsynced_rolls: bool = False, timeout: Optional[float] = None, wait: float = 0) -> None:
        self.timeout = timeout
        self._words = [str(program), "serve", "--folder", str(folder), "--blocks", str(blocks)]
        if unsynced_rolls:
            self._words.append("--unsynced-rolls")
        self._numbers = itertools.count(FIRST_NUMBER)
        # The tags of one server are none of the next one, so that no answer is taken for another call's.
        self._tags = itertools.count()
        self._ended: List[Process] = []
        self._changing = threading.Lock()
        self._openings: List[Opening] = []
        self._start(wait)

    def _start(self, wait: float) -> None:
        until = time.monotonic() + wait
        while True:
            self._process = Process(self._words, self._tags)
            try:
                self.hello = self._say_hello()
                break
            except Gone as gone:
                self._process.close()
                # The status of a folder that is in use, or not there.
                if gone.status != 1 or time.monotonic() >= until:
                    raise NotStarted(gone.status, gone.words) from None
            except BaseException:
                self._process.close()
                raise
            time.sleep(TRY_AGAIN_SECONDS)
        if self.hello.version != requests.VERSION:
            self._process.close()
            raise NotStarted(None, f"it speaks version {self.hello.version} of the frames, and this client "
                                   f"version {requests.VERSION}")
        self._process.frame_limit = self.hello.frame_limit
        self._process.child.pass_on()
        self._closes = weakref.finalize(self, self._process.close, 1.0)

    def __enter__(self) -> Server:
        return self

    def __exit__(self, kind: Optional[Type[BaseException]], value: Optional[BaseException],
                 trace: Optional[TracebackType]) -> None:
        try:
            self.stop()
        except Gone:
            if kind is None:
                raise

    @property
    def pid(self) -> int:
        """The number of the server's process."""
        return self._process.child.pid

    def stop(self, timeout: Optional[float] = None) -> int:
        """Ends the input of the server, which then closes its logs, and waits for its end. Raises `Gone`
        if its status is not 0: what it still had to write may be lost."""
        if not self._process.child.is_ours:
            return 0
        ended = self._process.stop(deadline_in(timeout))
        self._closes.detach()
        if ended.status:
            raise ended
        return 0

    def kill(self) -> None:
        """Ends the server as a stop of the machine would, as where it does not answer."""
        self._process.kill()

    def restart(self, wait: float = 0) -> List[Reopened]:
        """Starts a server that has ended again, and opens the logs that were open, as they were; blocks
        on them are gone. Does nothing if it runs, as after the `restart` of another thread.

        Calls that were under way as it ended have raised `Gone`, whose `may_be_done` says which of them
        may be done. Of what was done before and not synced, the last part may be lost.
        """
        with self._changing:
            if self._process.is_running():
                return []
            self._closes()
            self._ended = [self._process, *self._ended][:KEPT_ENDS]
            self._start(wait)
            return [self._open_again(opening) for opening in self._openings]

    def _open_again(self, opening: Opening) -> Reopened:
        client, log, _, _ = opening
        try:
            return Reopened(client, log, cast(Optional[Repaired], self.call(1, opening.parts())))
        except Error as error:
            return Reopened(client, log, error)

    def client(self, number: Optional[int] = None) -> Client:
        """The client of this number, or one of a number that no other has, from 2**31 on."""
        return Client(self, next(self._numbers) if number is None else number)

    def notices(self) -> List[Notice]:
        """Takes the notices of the calls that were answered. A notice follows the answer of its call,
        so one more question is asked, before whose answer all of them are read."""
        self._say_hello()
        notices = self._process.notices
        return [notice_of(notices.popleft()) for _ in range(len(notices))]

    def flush(self) -> Turn:
        """Writes the oldest block that waits."""
        return cast(Turn, self.call(16, b""))

    def flush_all(self) -> Turn:
        """Writes all that waits."""
        return cast(Turn, self.call(17, b""))

    def logs(self) -> List[str]:
        """The names of the logs that are open, whoever opened them, in the order of opening."""
        return cast(List[str], self.call(20, b""))

    def call(self, op: int, parts: bytes) -> object:
        """Makes one request, and waits for its answer."""
        deadline = deadline_in(self.timeout)
        process = self._process
        return _value_of(process, process.send(op, parts, deadline), deadline)

    def send(self, op: int, parts: bytes) -> int:
        """Sends one request, and returns its tag, for `answer`."""
        return self._process.send(op, parts, deadline_in(self.timeout))

    def answer(self, tag: int, timeout: Optional[float] = None) -> object:
        """Waits for the answer of a request, for so many seconds, or as long as a call may take."""
        deadline = deadline_in(self.timeout if timeout is None else timeout)
        servers = [self._process, *self._ended]
        process = next((it for it in servers if it.awaits(tag)), self._process)
        return _value_of(process, tag, deadline)

    def call_all(self, calls: Sequence[Tuple[int, bytes]]) -> None:
        """Makes requests that are sent together, to the same server, and waits for all answers. Raises what
        the first has met that was not done."""
        deadline, process = deadline_in(self.timeout), self._process
        tags = process.send_all(calls, deadline)
        try:
            while tags:
                _value_of(process, tags.pop(0), deadline)
        finally:
            process.forget(tags)

    def _write(self, frames: bytes) -> None:
        self._process.write(frames, deadline_in(self.timeout))

    def _say_hello(self) -> Hello:
        """What the server says of itself. It changes nothing."""
        return cast(Hello, self.call(0, requests.pack(">H", requests.VERSION)))


def _value_of(process: Process, tag: int, deadline: Optional[float]) -> object:
    """The value of an answer. Raises what it stands for if it is none, with the reason of a fault of the device."""
    try:
        return value_of(process.answer(tag, deadline))
    except (NotSynced, Refused) as error:
        met = [why for _, why in error.logs] if isinstance(error, NotSynced) else [error]
        faults = [why for why in met if isinstance(why, Refused) and why.number == DEVICE_FAULT]
        reason = _reason(process, deadline) if faults else None
        for fault in faults:
            fault.reason = reason if reason and fault.parts == (reason.file,) else None
        raise


def _reason(process: Process, deadline: Optional[float]) -> Optional[Reason]:
    """Why the last call of the device that failed did, or None if the server does not know or cannot be asked."""
    try:
        return cast(Optional[Reason], value_of(process.answer(process.send(19, b"", deadline), deadline)))
    except Error:
        return None
