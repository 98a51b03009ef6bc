"""A server as a program that was started: its pipes, and how it ended."""
from __future__ import annotations

import os
import select
import shutil
import subprocess
import weakref
from typing import List, Optional

from .errors import Gone, NotStarted

READ_BYTES = 65536
WORDS_BYTES = 2048
# How long the end of standard error is waited for, which a child of the server may keep open.
LAST_WORDS_SECONDS = 1.0


# The program ignores what is meant to end its parent, and a limit on the size of files, which is an error then.
SPARED = 'trap "" TERM INT HUP XFSZ; exec "$0" "$@"'


class Child:
    """A program in a session of its own, so that no signal to the group of its parent ends it.

    `input` and `output` are its pipes, -1 once they are closed. What it says on standard error is
    heard as its output is read, and passed on.
    """

    def __init__(self, words: List[str]) -> None:
        program = shutil.which(words[0])
        if program is None:
            raise NotStarted(None, f"{words[0]}: there is no such program")
        self.input = self.output = self._errors = -1
        self._said, self._passes_on = b"", False
        theirs: List[int] = []
        try:
            self._open_pipes(theirs)
            self._process = subprocess.Popen(["/bin/sh", "-c", SPARED, program, *words[1:]],
                                             stdin=theirs[0], stdout=theirs[1],
                                             stderr=theirs[2], start_new_session=True)
        except OSError as error:
            self._close_all()
            raise NotStarted(None, f"{words[0]}: {error}") from error
        finally:
            for pipe in theirs:
                os.close(pipe)
        _running.add(self)
        self.pid = self._process.pid
        self.is_ours = True
        os.set_blocking(self.input, False)
        self._pipes = select.poll()
        self._pipes.register(self.output, select.POLLIN)
        self._pipes.register(self._errors, select.POLLIN)

    def _open_pipes(self, theirs: List[int]) -> None:
        """Opens the three pipes. The ends of the program are added to `theirs`, also where one fails."""
        read, self.input = os.pipe()
        theirs.append(read)
        self.output, write = os.pipe()
        theirs.append(write)
        self._errors, write = os.pipe()
        theirs.append(write)

    def is_readable(self, seconds: Optional[float]) -> Optional[bool]:
        """Waits for output, or its end: true if there is some, false if standard error alone had
        some, and None if the time is over."""
        ready = self._pipes.poll(None if seconds is None else 1000 * seconds)
        if len(ready) == 1 and ready[0][0] == self.output:
            return True
        for pipe, _ in ready:
            if pipe == self._errors:
                self._hear()
        return any(pipe == self.output for pipe, _ in ready) if ready else None

    def has_ended(self) -> bool:
        return self._process.poll() is not None

    def kill(self) -> None:
        self._process.kill()

    def end(self, seconds: Optional[float]) -> Optional[Gone]:
        """How the program has ended, or None if it has not in so many seconds."""
        try:
            status = self._process.wait(seconds)
        except subprocess.TimeoutExpired:
            return None
        _running.discard(self)
        while self._errors >= 0 and select.select([self._errors], [], [], LAST_WORDS_SECONDS)[0]:
            self._hear()
        self.output = _closed(self.output)
        self._errors = _closed(self._errors)
        return Gone(status, self._said.decode("utf-8", "replace").strip())

    def close_input(self) -> None:
        self.input = _closed(self.input)

    def pass_on(self) -> None:
        """Passes on what the program has said, and says from now on."""
        self._passes_on = True
        _say(self._said)

    def _hear(self) -> None:
        part = os.read(self._errors, READ_BYTES)
        if not part:
            self._pipes.unregister(self._errors)
            self._errors = _closed(self._errors)
        elif self._passes_on:
            _say(part)
        self._said = (self._said + part)[-WORDS_BYTES:]

    def forget(self) -> None:
        """In a process that was forked off: the server is its parent's, which alone can end its input."""
        self._close_all()
        self.is_ours = False

    def _close_all(self) -> None:
        self.input = _closed(self.input)
        self.output = _closed(self.output)
        self._errors = _closed(self._errors)


_running: "weakref.WeakSet[Child]" = weakref.WeakSet()


def _forget_all() -> None:
    for child in list(_running):
        child.forget()
    _running.clear()


os.register_at_fork(after_in_child=_forget_all)


def _closed(pipe: int) -> int:
    if pipe >= 0:
        os.close(pipe)
    return -1


def _say(said: bytes) -> None:
    try:
        os.write(2, said)
    except OSError:
        pass
