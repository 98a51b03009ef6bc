"""Plays the example of an audit trail while its server and itself are killed. Words: the program, and an empty folder.

A request is open from when it is sent to when it is answered, also over an end of the service, after which
it is sent again. When somebody is killed, and how many requests are open then, comes from a stored seed.
What is printed always holds, however the kills fall.
"""
import collections
import os
import random
import signal
import subprocess
import sys
import tempfile
import time

SEED = 1
REQUESTS = 1200
OPEN = 32
KILLS = ["server", "service"] * 4
HERE = os.path.dirname(os.path.abspath(__file__))
SERVICE = os.path.join(HERE, "..", "examples", "audit_trail.py")


class Run:
    """The service as it runs, and what it has answered so far."""

    def __init__(self, program, folder):
        self.command = [sys.executable, "-B", SERVICE, folder, program]
        self.path = dict(os.environ, PYTHONPATH=os.path.join(HERE, "..", "python"))
        self.answered, self.open, self.shaken = set(), [], set()
        self.said = tempfile.TemporaryFile()
        self.servers = 0
        self.start()

    def start(self):
        self.servers += 1
        pipe = subprocess.PIPE
        self.service = subprocess.Popen(self.command, stdin=pipe, stdout=pipe, stderr=self.said, env=self.path)
        self.send(self.open)

    def send(self, requests):
        self.service.stdin.writelines(b"%d of user %d\n" % (it, it % 7) for it in requests)
        self.service.stdin.flush()

    def take(self, line):
        number = int(line)
        assert number in self.open, number
        self.open.remove(number)
        self.answered.add(number)

    def server(self):
        """The process of the server that runs, whose number the service writes to standard error."""
        for _ in range(6000):
            told = os.pread(self.said.fileno(), 1 << 20, 0).splitlines()
            if len(told) == self.servers:
                return int(told[-1].split()[-1])
            time.sleep(0.01)
        raise AssertionError(told)

    def kill(self, whom):
        self.shaken.update(self.open)
        if whom == "server":
            os.kill(self.server(), signal.SIGKILL)
            self.servers += 1
            return
        self.service.kill()
        for line in self.service.stdout:
            # A number that the kill has cut short is no answer.
            if line.endswith(b"\n"):
                self.take(line)
        self.service.wait()
        self.start()

    def end(self):
        self.service.stdin.close()
        while self.open:
            self.take(self.service.stdout.readline())
        assert self.service.wait() == 0


def main(program, folder):
    chance = random.Random(SEED)
    when = sorted(chance.sample(range(1, REQUESTS), len(KILLS)))
    run = Run(program, folder)
    kills = list(zip(when, KILLS))
    for number in range(REQUESTS):
        run.send([number])
        run.open.append(number)
        while len(run.open) >= OPEN:
            run.take(run.service.stdout.readline())
        while kills and len(run.answered) >= kills[0][0]:
            run.kill(kills.pop(0)[1])
    run.end()
    dump = subprocess.run([program, "dump", folder, "audit"], stdout=subprocess.PIPE, check=True)
    times = collections.Counter(int(line.split()[0]) for line in dump.stdout.splitlines())
    more = {number for number, count in times.items() if count > 1}
    print(f"{REQUESTS} requests, {KILLS.count('server')} kills of the server, {KILLS.count('service')} of the service")
    print("answered:", len(run.answered))
    print("answered and missing:", len(run.answered - set(times)))
    print("twice, though open at no kill:", len(more - run.shaken))
    print("not asked for:", len(set(times) - set(range(REQUESTS))))


if __name__ == "__main__":
    main(*sys.argv[1:])
