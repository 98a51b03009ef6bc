#!/usr/bin/env python3
"""A service with an audit trail: a request is in the log, on the device, before it is answered.

    audit_trail.py FOLDER [PROGRAM]

Reads requests from standard input, a line each that begins with the number of the request, and writes
the number once the line is in the log audit of FOLDER. Eight threads work, each as a client of its own,
so that their syncs can share one of the device. A server that ends is started again, and the requests
that it has not answered are logged again; a device that is full is waited for. So one that is answered
is never missing, and one whose answer was lost, or which met a full device, may be there twice.

A request that is not known to be on the device is not answered: why, is on standard error, the service
goes on with the next one, and its status is 1 at the end. PROGRAM is dlog, if it is not given. PATIENCE
in the environment is how many seconds a folder that is in use and a full device are waited for; 60.
"""
import os
import queue
import sys
import threading
import time

import dlog

THREADS = 8
PATIENCE = float(os.environ.get("PATIENCE", "60"))
PAUSE = 0.1
NO_SUCH_LOG = 2
DEVICE_FAULT = 24


def say(words):
    print(words, file=sys.stderr, flush=True)


class Trail:
    """A log of a server that is started again whenever it ends."""

    def __init__(self, folder, program):
        # A server whose service was killed may still write what waits.
        self.server = dlog.Server(folder, program, wait=PATIENCE)
        self._say_which()

    def of_thread(self):
        """The log, as a client of its own."""
        return self.server.client().open("audit")

    def keep(self, log, entry):
        """Returns once the entry is on the device. Raises what keeps it from there, and lasts."""
        until = time.monotonic() + PATIENCE
        while True:
            try:
                return log.log_synced(entry)
            except dlog.Gone:
                if time.monotonic() >= until:
                    raise
                self._restart()
            except dlog.Refused as refused:
                if refused.number not in (DEVICE_FAULT, NO_SUCH_LOG) or time.monotonic() >= until:
                    raise
                self._wait_for_room(log, until)

    def _restart(self):
        # Of the threads that find the server ended the first starts it; for the others it runs.
        again = self.server.restart(wait=PATIENCE)
        if again:
            self._say_which()
        for log in again:
            # Its thread opens it again, with its next request.
            if isinstance(log.outcome, dlog.Error):
                say(f"the log of client {log.client} is not open again: {log.outcome}")

    @staticmethod
    def _wait_for_room(log, until):
        """Returns once what waits of the log is on the device. Meanwhile no entry is logged once more."""
        while True:
            time.sleep(PAUSE)
            try:
                log.client.open(log.name)
                return log.sync()
            except dlog.Refused:
                if time.monotonic() >= until:
                    raise

    def _say_which(self):
        say(f"the log server is process {self.server.pid}")


class Service:
    """Requests as they come, and the threads that work on them."""

    def __init__(self, trail):
        self.trail = trail
        self.requests = queue.Queue()
        self.answering = threading.Lock()
        self.unanswered = 0
        self.threads = [threading.Thread(target=self._work, args=(trail.of_thread(),)) for _ in range(THREADS)]

    def run(self, lines):
        """Works on the lines, and returns how many were not answered."""
        for thread in self.threads:
            thread.start()
        for line in lines:
            self.requests.put(line.rstrip(b"\n"))
        for _ in self.threads:
            self.requests.put(None)
        for thread in self.threads:
            thread.join()
        return self.unanswered

    def _work(self, log):
        for request in iter(self.requests.get, None):
            number = request.split(b" ", 1)[0].decode("ascii", "backslashreplace")
            try:
                self.trail.keep(log, request)
                with self.answering:
                    print(number, flush=True)
            except Exception as error:  # whatever it is, this request alone is not answered
                with self.answering:
                    self.unanswered += 1
                    say(f"request {number} is not answered: {error}")


def main(folder, program="dlog"):
    trail = Trail(folder, program)
    try:
        with trail.server:
            return 1 if Service(trail).run(sys.stdin.buffer) else 0
    except dlog.Gone as gone:
        say(f"what waited at the end may be lost: {gone}")
        return 1


if __name__ == "__main__":
    sys.exit(main(*sys.argv[1:]))
