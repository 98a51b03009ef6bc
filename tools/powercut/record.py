"""Runs sittings on a folder under strace, and records what they did to its files and names, in order."""
import os
from dataclasses import dataclass

import traced

# Calls that change nothing and make nothing durable.
SILENT = ("statx", "pread64", "stat", "lstat", "fstat", "newfstatat", "access", "lseek")


class Broken(Exception):
    """A run that cannot be judged: it did not end well, or its answers or its record are not what the model says."""


@dataclass
class Change:
    """A change of a file or a name, or a sync: what it is, in which line, the file by its number, and the rest of it."""

    kind: str
    line: int
    file: int = None
    at: int = 0
    data: bytes = b""
    names: tuple = ()


class Recorder:
    """The changes of a folder so far, with the files by their names and by the descriptors of the run."""

    def __init__(self, texts):
        self.names = {name: number for number, name in enumerate(sorted(texts))}
        self.count = len(texts)
        self.opened, self.ends = {}, {}
        self.changes = []

    def add(self, line, call):
        """Notes a call of the system. One that failed has changed nothing."""
        if call.answer < 0 or call.name in SILENT:
            return
        getattr(self, f"on_{call.name}")(line, call)

    def note(self, kind, line, **parts):
        self.changes.append(Change(kind, line, **parts))

    def on_openat(self, line, call):
        name = call.files[0] if call.files else None
        if "O_TRUNC" in call.text:
            raise Broken(f"a file is emptied as it is opened: {call.title()}")
        if name is not None and name not in self.names:
            self.names[name] = self.count
            self.count += 1
            self.note("create", line, file=self.names[name], names=(name,))
        self.opened[call.descriptor] = self.names.get(name)
        self.ends[call.descriptor] = 0

    def on_write(self, line, call):
        at = self.ends[call.descriptor]
        self.ends[call.descriptor] = at + call.answer
        self.note("write", line, file=self.opened[call.descriptor], at=at, data=call.data[: call.answer])

    def on_pwrite64(self, line, call):
        self.note("write", line, file=self.opened[call.descriptor], at=call.numbers[-1], data=call.data[: call.answer])

    def on_ftruncate(self, line, call):
        self.note("cut", line, file=self.opened[call.descriptor], at=call.numbers[-1])

    def on_fdatasync(self, line, call):
        self.note("sync", line, file=self.opened[call.descriptor])

    def on_fsync(self, line, call):
        number = self.opened.get(call.descriptor)
        if number is None:
            self.note("names", line)
        else:
            self.note("draft", line, file=number)

    def on_rename(self, line, call):
        old, new = call.files
        self.names[new] = self.names.pop(old)
        self.note("rename", line, file=self.names[new], names=(old, new))

    def on_unlink(self, line, call):
        self.note("unlink", line, file=self.names.pop(call.files[0]), names=(call.files[0],))


def lay(folder, texts):
    """Makes a folder have these files and no other."""
    os.makedirs(folder, exist_ok=True)
    for name in os.listdir(folder):
        os.remove(f"{folder}/{name}")
    for name, text in texts.items():
        with open(f"{folder}/{name}", "wb") as file:
            file.write(text)


def there(folder):
    texts = {}
    for name in os.listdir(folder):
        with open(f"{folder}/{name}", "rb") as file:
            texts[name] = file.read()
    return texts


def run(program, folder, sitting, scratch, words):
    """Runs a sitting. Returns what it answered, and the calls of each of its lines."""
    ran = traced.run(program, folder, sitting.lines, sitting.blocks, [], scratch, words=words)
    if ran.told or len(ran.answers) < len(sitting.lines):
        raise Broken(f"a run did not end well: {ran.told}")
    return ran.answers, ran.steps
