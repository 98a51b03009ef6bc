"""Serves a program over a failing device, and judges what `dlog serve` says and leaves as its input ends.

A client opens two logs and logs items that wait in the cache, and its stream ends. Of the writes that follow one fails, or all
from one on:

1. Where one write fails, its reason is said, the status is 0, and each log has all its items: the turn is made again.
2. Where all fail from one on, the status is 1, their reasons are said, and one line tells the log at which the turns came to no
   end.
3. What a log has is a front of the items that were answered as done, whole and in order, whatever failed.
"""
import os
import re
import subprocess
import sys

TOP = os.path.dirname(os.path.dirname(os.path.dirname(os.path.realpath(__file__))))
sys.path.append(f"{TOP}/clients/python")

import dlog
import reasons

LOGS = {"one": (None, [b"x" * 9_000, b"y" * 300, b"z"]), "two": ((5_000, 3), [b"u" * 4_000, b"v" * 10])}
LOST = re.compile(
    r"dlog: (one|two): the device failed as the logs were closed: what waited of \1, and behind it, is lost\n"
)


def wrapped(program, scratch, fault):
    """A program that serves under strace and writes what it says into a file."""
    path = f"{scratch}/serve"
    inject = f"-e 'inject={fault}'" if fault else ""
    with open(path, "w", encoding="ascii") as file:
        file.write(f"#!/bin/sh\nexec strace -f -o '{scratch}/trace' -e trace=pwrite64 {inject} '{program}' \"$@\" 2>'{scratch}/told'\n")
    os.chmod(path, 0o755)
    return path


def calls(scratch):
    with open(f"{scratch}/trace", encoding="latin1") as lines:
        return sum(" pwrite64(" in line for line in lines)


def serve(program, scratch, folder, fault):
    """Returns how many writes were made before the stream ended, all writes, the status and what was told."""
    for name in os.listdir(folder):
        os.remove(f"{folder}/{name}")
    server = dlog.Server(folder, wrapped(program, scratch, fault))
    client = server.client(1)
    for name, (size, items) in LOGS.items():
        client.open(name, size=size).log(*items)
    before = calls(scratch)
    try:
        status = server.stop()
    except dlog.Gone as gone:
        status = gone.status
    with open(f"{scratch}/told", encoding="utf-8") as told:
        return before, calls(scratch), status, told.read()


def left(program, folder):
    """The items that a new process reads of each log, or None where it can't be opened."""
    found = {}
    with dlog.Server(folder, program) as server:
        client = server.client(1)
        for name, (size, _items) in LOGS.items():
            try:
                found[name] = list(client.open(name, size=size))
            except dlog.Refused:
                found[name] = None
    return found


def is_said(told, folder, error):
    """Whether these lines are the reasons of writes that failed so, and there are some."""
    said = [reasons.FAILED.fullmatch(line) for line in told[::2]]
    return bool(said) and len(told) % 2 == 0 and all(
        match and match[1] == folder and match[4] == reasons.text_of(error) and reasons.SAFE.fullmatch(advice)
        for match, advice in zip(said, told[1::2])
    )


def wrong_of(status, told, found, folder, is_once):
    """Why a run is wrong, or None."""
    lines = told.splitlines(keepends=True)
    whole = {name: items for name, (_size, items) in LOGS.items()}
    for name, items in found.items():
        if items is None or items != whole[name][: len(items)]:
            return f"{name} has other items: {items and [len(it) for it in items]}"
    if is_once:
        is_well = (status, found) == (0, whole) and is_said(told.splitlines(), folder, "EIO")
        return None if is_well else f"a fault that passes: status {status}, {told!r}, {found != whole}"
    is_well = status == 1 and lines and LOST.fullmatch(lines[-1]) and is_said("".join(lines[:-1]).splitlines(), folder, "ENOSPC")
    return None if is_well else f"a device that is gone: status {status}, {told!r}"


def judge(program, scratch):
    """Judges a fault at each write behind the end of the stream. Returns how many runs there were, and what is wrong."""
    folder = f"{scratch}/served"
    os.makedirs(folder, exist_ok=True)
    before, after, status, told = serve(program, scratch, folder, None)
    if (status, told) != (0, "") or left(program, folder) != {name: items for name, (_size, items) in LOGS.items()}:
        return 1, [f"without a fault: status {status}, {told!r}"]
    runs, wrong = 1, []
    for at in range(before + 1, after + 1):
        for text, is_once in ((f"pwrite64:error=EIO:when={at}", True), (f"pwrite64:error=ENOSPC:when={at}+", False)):
            _before, _after, status, told = serve(program, scratch, folder, text)
            reason = wrong_of(status, told, left(program, folder), folder, is_once)
            runs += 1
            if reason:
                wrong.append(f"{text}: {reason}")
    return runs, wrong
