"""A server that runs: who sends it requests, and who waits for which answer."""
from __future__ import annotations

import collections
import os
import queue
import select
import struct
import threading
import time
from typing import Any, Deque, Dict, Iterator, List, Optional, Sequence, Tuple

from .answers import NOTICE
from .child import READ_BYTES, Child
from .errors import Forked, Gone, Invalid, TimedOut

# How often a writer looks whether it has to read, so that the server goes on, while others read.
LOOK_SECONDS = 0.05


class Process:
    """A server that runs.

    Any thread may send. Of the threads that wait for answers one reads, and hands the others theirs.
    """

    def __init__(self, words: List[str], tags: Iterator[int]) -> None:
        self.frame_limit = 0xFFFFFFFF
        self.notices: Deque[bytes] = collections.deque()
        self.ended: Optional[Gone] = None
        self._tags = tags
        self._answers: Dict[int, Optional[bytes]] = {}
        self._turns: Dict[int, Any] = {}
        self._unsent, self._is_sent = bytearray(), True
        self._unread, self._is_read = b"", True
        self._writing, self._reading = threading.RLock(), threading.RLock()
        self.child = Child(words)

    # ---- requests

    def request(self, op: int, parts: bytes) -> Tuple[int, bytes]:
        """A request as it is to be written, and its tag, for `answer`."""
        tag = next(self._tags) % 0xFFFFFFFF + 1
        frame = self.frame(tag, op, parts)
        self._answers[tag] = None
        return tag, frame

    def frame(self, tag: int, op: int, parts: bytes) -> bytes:
        length = 5 + len(parts)
        if length > self.frame_limit:
            raise Invalid(f"a request of {length} bytes: it has at most {self.frame_limit}")
        return struct.pack(">IIB", length, tag, op) + parts

    def awaits(self, tag: int) -> bool:
        """Whether the request was sent to this server, and its answer not taken."""
        return tag in self._answers

    def send_all(self, calls: Sequence[Tuple[int, bytes]], deadline: Optional[float]) -> List[int]:
        """Sends requests in one piece, and returns their tags."""
        requests = [self.request(op, parts) for op, parts in calls]
        try:
            self.write(b"".join(frame for _, frame in requests), deadline)
        except BaseException:
            self.forget([tag for tag, _ in requests])
            raise
        return [tag for tag, _ in requests]

    def send(self, op: int, parts: bytes, deadline: Optional[float]) -> int:
        """Sends a request, and returns its tag."""
        return self.send_all([(op, parts)], deadline)[0]

    def forget(self, tags: Sequence[int]) -> None:
        """Lets answers go that nobody waits for."""
        for tag in tags:
            self._answers.pop(tag, None)

    def write(self, frames: bytes, deadline: Optional[float]) -> None:
        """Writes whole frames, after what a thread that was out of time has left."""
        self._be_ours()
        if not self._writing.acquire(timeout=_left(deadline, -1)):
            raise TimedOut("the server has not read in time; the call was not sent")
        try:
            if self.ended or self.child.input < 0 or not self._is_sent:
                raise self._gone(False)
            self._unsent += frames
            while self._unsent:
                if not self._write_some():
                    self._wait_to_write(deadline)
        except BrokenPipeError:
            self._read_to_end(deadline)
            raise self._gone(False) from None
        finally:
            self._writing.release()

    def _write_some(self) -> int:
        # An exception in between, by a signal, leaves open how much was written.
        self._is_sent = False
        try:
            count = os.write(self.child.input, self._unsent)
        except BlockingIOError:
            count = 0
        del self._unsent[:count]
        self._is_sent = True
        return count

    def _wait_to_write(self, deadline: Optional[float]) -> None:
        """Waits until the server reads on, which may be once its answers are read."""
        left = _left(deadline, LOOK_SECONDS)
        pipes = select.poll()
        pipes.register(self.child.input, select.POLLOUT)
        if not self._reading.acquire(False):
            pipes.poll(1000 * min(left, LOOK_SECONDS))
        else:
            try:
                pipes.register(self.child.output, select.POLLIN)
                ready = pipes.poll(1000 * left)
                if any(pipe == self.child.output for pipe, _ in ready):
                    self._read_some(deadline)
            finally:
                self._reading.release()
                self._wake_one()
        if left == 0:
            raise TimedOut("the server has not read in time; the call may yet be done")

    def _be_ours(self) -> None:
        if not self.child.is_ours:
            raise Forked

    def _gone(self, may_be_done: bool) -> Gone:
        ended = self.ended or Gone(None, "its input was ended, or a call was interrupted")
        return Gone(ended.status, ended.words, may_be_done)

    # ---- answers

    def answer(self, tag: int, deadline: Optional[float]) -> bytes:
        """Waits for the answer of a request."""
        self._be_ours()
        if tag not in self._answers:
            raise KeyError(f"no answer is awaited for the tag {tag}")
        try:
            text = self._answers[tag]
            while text is None:
                if self.ended:
                    raise self._gone(True)
                self._read_or_wait(tag, deadline)
                text = self._answers[tag]
            return text
        except BaseException:
            self._wake_one()
            raise
        finally:
            self._answers.pop(tag, None)

    def _read_or_wait(self, tag: int, deadline: Optional[float]) -> None:
        if self._reading.acquire(False):
            return self._read_for(tag, deadline)
        turn: Any = queue.SimpleQueue()
        self._turns[tag] = turn
        try:
            if self._reading.acquire(False):
                self._read_for(tag, deadline)
            elif self._answers[tag] is None and not self.ended:
                turn.get(timeout=_left(deadline, None))
        except queue.Empty:
            raise _late() from None
        finally:
            self._turns.pop(tag, None)

    def _read_for(self, tag: int, deadline: Optional[float]) -> None:
        """Reads until the answer of a request is there, and gives another thread its turn."""
        try:
            if not self._is_read:
                raise self._gone(True)
            while self._answers[tag] is None and not self.ended:
                self._read_some(deadline)
        finally:
            self._reading.release()
            self._wake_one()

    def _wake_one(self) -> None:
        for tag, turn in list(self._turns.items()):
            if self._answers.get(tag) is None:
                turn.put(None)
                return

    def _read_some(self, deadline: Optional[float]) -> None:
        is_readable = self.child.is_readable(_left(deadline, None))
        if is_readable is None:
            raise _late()
        if not is_readable:
            return
        before, is_read = len(self._unread), self._is_read
        # An exception in between, by a signal, leaves open how much was read.
        self._is_read = False
        self._unread += os.read(self.child.output, READ_BYTES)
        self._is_read = is_read
        if len(self._unread) == before:
            self._end(deadline)
        elif is_read:
            self._take_frames()
        else:
            self._unread = b""

    def _take_frames(self) -> None:
        text, at = self._unread, 0
        while len(text) - at >= 4:
            end = at + 4 + int.from_bytes(text[at:at + 4], "big")
            if len(text) < end:
                break
            self._hand_over(text[at + 4:end])
            at = end
        self._unread = text[at:]

    def _hand_over(self, text: bytes) -> None:
        if text[4] == NOTICE:
            self.notices.append(text)
            return
        tag = int.from_bytes(text[:4], "big")
        if tag in self._answers:
            self._answers[tag] = text
            turn = self._turns.get(tag)
            if turn is not None:
                turn.put(None)

    # ---- the end

    def _end(self, deadline: Optional[float]) -> None:
        self.ended = self.child.end(_left(deadline, None))
        if self.ended is None:
            raise _late()
        for turn in list(self._turns.values()):
            turn.put(None)

    def _read_to_end(self, deadline: Optional[float]) -> None:
        if not self._reading.acquire(timeout=_left(deadline, -1)):
            raise _late()
        try:
            while not self.ended:
                self._read_some(deadline)
        finally:
            self._reading.release()

    def close(self, seconds: float = -1) -> None:
        """Ends the input of the server, which then closes its logs and ends."""
        if self._writing.acquire(timeout=seconds):
            self.child.close_input()
            self._writing.release()

    def stop(self, deadline: Optional[float]) -> Gone:
        """Ends the input of the server, waits for its end, and returns how it was."""
        self.close(_left(deadline, -1))
        self._read_to_end(deadline)
        assert self.ended is not None
        return self.ended

    def kill(self) -> None:
        """Kills the server, and waits for its end."""
        if self.ended is None:
            self.child.kill()
            self._read_to_end(None)

    def is_running(self) -> bool:
        if self.ended is None and self.child.has_ended():
            self._read_to_end(None)
        return self.ended is None


def deadline_in(seconds: Optional[float]) -> Optional[float]:
    return None if seconds is None else time.monotonic() + seconds


def _left(deadline: Optional[float], without: Any) -> Any:
    """The time up to a deadline, or what is given there without one."""
    return without if deadline is None else max(0.0, deadline - time.monotonic())


def _late() -> TimedOut:
    return TimedOut("the server has not answered in time; the call may yet be done")
