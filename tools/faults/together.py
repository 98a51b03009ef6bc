"""Serves clients whose syncs come together in one write, over a device at which syncs fail, and judges what each of them is told.

Clients open one to three logs. Then they log items and ask for syncs in waves, each of them one write, so that the syncs of one log
in a wave share a sync of the device. Of those syncs one fails, or all from one on:

1. In a wave each client whose sync of a log waited is answered alike: all as done, or all as a fault of the device.
2. A log at whose file a sync failed is a fault for each sync from that wave on, and no other log is.
3. Each log has all items in the end, in their order: no write failed.
"""
import os
import random
import struct
import subprocess
from dataclasses import dataclass

OPENED, DONE, FAULT = 1, 3, 64 + 24
OPEN, LOG, SYNC = 1, 2, 10
LONGEST_RUN = 60


def frame(text):
    return struct.pack(">I", len(text)) + text


@dataclass
class Ask:
    """A call of a client on a log, with its tag, and the item that it logs if it logs one."""

    tag: int
    number: int
    client: int
    log: str
    item: bytes = b""

    def bytes(self):
        parts = {OPEN: bytes(9), LOG: struct.pack(">II", 1, len(self.item)) + self.item, SYNC: b""}[self.number]
        name = bytes([len(self.log)]) + self.log.encode()
        return frame(struct.pack(">IBI", self.tag, self.number, self.client) + name + parts)


class Maker:
    """Makes the waves of a case."""

    def __init__(self, seed):
        self.dice = random.Random(seed)
        self.clients = range(1, self.dice.randint(2, 9) + 1)
        self.logs = [f"log{at}" for at in range(self.dice.randint(1, 3))]
        self.tag = 0

    def ask(self, number, client, log):
        self.tag += 1
        item = b"%d " % self.tag + b"x" * self.dice.choice((0, 9, 99, 5_000)) if number == LOG else b""
        return Ask(self.tag, number, client, log, item)

    def waves(self):
        yield [self.ask(OPEN, client, log) for client in self.clients for log in self.logs]
        for _ in range(self.dice.randint(2, 6)):
            asks = []
            for client in self.dice.sample(self.clients, self.dice.randint(1, len(self.clients))):
                log = self.dice.choice(self.logs)
                asks.append(self.ask(LOG, client, log))
                asks += [self.ask(SYNC, client, log)] * (self.dice.random() < 0.8)
            yield asks


def read_answer(stream):
    """The tag and the kind of the next answer. Owners want no notices here."""
    (length,) = struct.unpack(">I", stream.read(4))
    return struct.unpack_from(">IB", stream.read(length))


def serve(program, folder, scratch, waves, fault):
    """Returns the answers of each wave by their tags, the syncs of the device that were made, and the files at which one failed."""
    for name in os.listdir(folder):
        os.remove(f"{folder}/{name}")
    inject = ["-e", f"inject={fault}"] if fault else []
    command = ["strace", "-f", "-qq", "-y", "-o", f"{scratch}/trace", "-e", "trace=fdatasync", *inject]
    command += [program, "serve", "--folder", folder]
    answers = []
    with subprocess.Popen(command, stdin=subprocess.PIPE, stdout=subprocess.PIPE) as server:
        for wave in waves:
            server.stdin.write(b"".join(map(Ask.bytes, wave)))
            server.stdin.flush()
            answers.append(dict(read_answer(server.stdout) for _ in wave))
        server.stdin.close()
        server.wait(LONGEST_RUN)
    with open(f"{scratch}/trace", encoding="latin1") as lines:
        syncs = [line for line in lines if " fdatasync(" in line]
    failed = {line.split("<")[1].split(">")[0].rpartition("/")[2] for line in syncs if "(INJECTED)" in line}
    return answers, len(syncs), {name.removesuffix(".log") for name in failed}


def items_of(program, folder, log):
    done = subprocess.run([program, "dump", folder, log], capture_output=True, timeout=LONGEST_RUN, check=False)
    return done.stdout.split(b"\n")[:-1] if done.returncode == 0 else None


def wrong_of(waves, answers, failed):
    """Why the answers are wrong, or None."""
    faulty = set()
    for at, (wave, kinds) in enumerate(zip(waves, answers)):
        for ask in wave:
            if ask.number != SYNC and kinds.get(ask.tag) != (OPENED if ask.number == OPEN else DONE):
                return f"wave {at}: call {ask.tag} is answered {kinds.get(ask.tag)}"
        for log in sorted({ask.log for ask in wave if ask.number == SYNC}):
            told = {ask.client: kinds.get(ask.tag) for ask in wave if ask.number == SYNC and ask.log == log}
            if set(told.values()) not in ({DONE}, {FAULT}):
                return f"wave {at}: the syncs of {log} are answered {told}"
            if log in faulty and DONE in told.values():
                return f"wave {at}: a sync of {log} is done after one that failed"
            faulty |= {log} if FAULT in told.values() else set()
    return None if faulty == failed else f"syncs of {sorted(faulty)} were faults, and the device failed at {sorted(failed)}"


def judge_case(program, scratch, seed, most):
    """Runs a case without a fault and with at most so many faults. Yields how many syncs were shared, and what is wrong or None."""
    folder = f"{scratch}/together"
    os.makedirs(folder, exist_ok=True)
    waves = list(Maker(seed).waves())
    items = {}
    for ask in (ask for wave in waves for ask in wave if ask.number == LOG):
        items.setdefault(ask.log, []).append(ask.item)
    asked = sum(ask.number == SYNC for wave in waves for ask in wave)
    _answers, syncs, _failed = serve(program, folder, scratch, waves, None)
    dice = random.Random(seed)
    faults = [None] + [f"fdatasync:error={dice.choice(('EIO', 'ENOSPC'))}:when={at}{more}" for at in range(1, syncs + 1) for more in ("", "+")]
    for fault in faults[:1] + dice.sample(faults[1:], min(most, len(faults) - 1)):
        answers, syncs, failed = serve(program, folder, scratch, waves, fault)
        reason = wrong_of(waves, answers, failed)
        if not reason:
            other = [log for log, own in items.items() if items_of(program, folder, log) != own]
            reason = f"{other} have other items" if other else None
        if not reason and fault and not failed:
            reason = "no sync failed"
        yield asked - syncs if fault is None else 0, reason and f"case {seed}, {fault}: {reason}"


def judge(program, scratch, seed, cases, most):
    """Judges cases. Returns how many runs there were, and what is wrong."""
    runs, shared, wrong = 0, 0, []
    for case in range(seed, seed + cases):
        for spared, reason in judge_case(program, scratch, case, most):
            runs += 1
            shared += spared
            wrong += [reason] if reason else []
    if not shared and cases:
        wrong.append("no syncs shared a sync of the device")
    return runs, wrong
