#!/usr/bin/env python3
"""How many requests a second a service in Python answers, each once it is on the device, and how long they wait.

    bench/trail.py PROGRAM DIR SECONDS [THREADS ..]

Threads, 1, 8 and 64 if none are given, each write an entry of 100 bytes, wait until it is on the device and write the next. With
`dlog` each is a client of one `dlog serve` and sends its log and its sync together, as clients/examples/audit_trail.py does. With
`plain` they write to one file under a lock, which is held over the fdatasync. PROGRAM is dlog, DIR a folder that is there and empty.
Each measure is taken three times, by turns, for SECONDS each; the line is that of the median, with the requests a second of all
three. For a device that takes two milliseconds to sync, put bench/slow_sync.c before it:

    cc -O2 -shared -fPIC -o slow_sync.so bench/slow_sync.c && LD_PRELOAD=$PWD/slow_sync.so bench/trail.py PROGRAM DIR SECONDS
"""
import os
import shutil
import sys
import threading
import time

sys.path.insert(0, os.path.join(os.path.dirname(os.path.abspath(__file__)), "..", "clients", "python"))
import dlog  # noqa: E402

ROUNDS = 3
ENTRY = b"%0100d"


class Trail:
    """A log of a server."""

    def __init__(self, program, folder):
        self.server = dlog.Server(folder, program)

    def writer(self):
        return self.server.client().open("audit").log_synced

    def count(self):
        return sum(1 for _ in self.server.client().open("audit"))

    def close(self):
        self.server.stop()


class Plain:
    """A file that is written under a lock."""

    def __init__(self, _, folder):
        self.file = open(os.path.join(folder, "audit"), "a+b", buffering=0)
        self.lock = threading.Lock()

    def writer(self):
        def keep(entry):
            with self.lock:
                self.file.write(entry + b"\n")
                os.fdatasync(self.file.fileno())

        return keep

    def count(self):
        self.file.seek(0)
        return sum(1 for _ in self.file)

    def close(self):
        self.file.close()


SYSTEMS = {"dlog": Trail, "plain": Plain}


def work(keep, until, waits):
    begun = time.monotonic()
    while begun < until:
        keep(ENTRY % len(waits))
        ended = time.monotonic()
        waits.append(ended - begun)
        begun = ended


def measure(system, program, folder, threads, seconds):
    """How long each request took, and how many there were a second."""
    os.mkdir(folder)
    trail = SYSTEMS[system](program, folder)
    writers = [trail.writer() for _ in range(threads)]
    waits = [[] for _ in writers]
    begun = time.monotonic()
    running = [threading.Thread(target=work, args=(keep, begun + seconds, its)) for keep, its in zip(writers, waits)]
    for thread in running:
        thread.start()
    for thread in running:
        thread.join()
    took = time.monotonic() - begun
    everything = sorted(wait for its in waits for wait in its)
    assert trail.count() == len(everything), "an entry is missing"
    trail.close()
    shutil.rmtree(folder)
    return len(everything) / took, everything


def line(system, threads, rounds):
    rate, waits = sorted(rounds)[len(rounds) // 2]
    middle, late = (1000 * waits[int(len(waits) * part)] for part in (0.5, 0.99))
    rates = " ".join(f"{rate:.0f}" for rate, _ in rounds)
    return f"{system}_{threads}: {rate:.0f} requests/s, half wait {middle:.2f} ms, 1 of 100 {late:.2f} ms ({rates})"


def main(program, parent, seconds, *words):
    counts = [int(word) for word in words] or [1, 8, 64]
    taken = {(system, threads): [] for threads in counts for system in SYSTEMS}
    for _ in range(ROUNDS):
        for (system, threads), rounds in taken.items():
            rounds.append(measure(system, program, os.path.join(parent, "run"), threads, float(seconds)))
    for (system, threads), rounds in taken.items():
        print(line(system, threads, rounds))


if __name__ == "__main__":
    if len(sys.argv) < 4:
        sys.exit(__doc__)
    main(*sys.argv[1:])
