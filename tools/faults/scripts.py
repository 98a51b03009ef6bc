"""Random scripts, and the files that a folder has before them."""
import random
from dataclasses import dataclass

from hub import Hub
from logs import is_no_fault
from texts import Index, frames, head

NAMES = ("a", "b", "w")
# Bases under which no log is opened by its name. A reopen goes to one of them, or to that of a log.
TARGETS = ("t", "u")
BASES = (*TARGETS, *TARGETS, *NAMES)
CLIENTS = ("1", "2", "3")
LONG = 70_000


@dataclass
class Script:
    """The lines, the place of the first one of its end, the blocks of the cache, and the files that are there before."""

    lines: list
    end: int
    blocks: int
    texts: dict


class Maker:
    def __init__(self, seed):
        self.pick = random.Random(seed)
        self.kinds = {}
        self.sizes = {}
        self.holds = {}
        # About which logs are open, as if there were no files before.
        self.hub = Hub()
        self.longs = 0
        self.letter = 0
        self.weights = {call: weight * self.pick.choice((0.3, 1, 1, 3)) for call, weight in WEIGHTS.items()}

    def item(self):
        """An item that no other item of the script equals, if it has two bytes or more."""
        self.letter += 1
        pick = self.pick.random()
        if pick < 0.03 and self.longs < 3:
            self.longs += 1
            return f"{LONG + self.letter}*{chr(97 + self.letter % 26)}"
        if pick < 0.09:
            return f"{self.pick.randint(1000, 9000)}*{chr(97 + self.letter % 26)}"
        if pick < 0.14:
            return "0*x"
        if pick < 0.5:
            return f"i{self.letter}"
        return f"{self.pick.randint(1, 400) + self.letter}*{chr(97 + self.letter % 26)}"

    def items(self):
        return " ".join(self.item() for _ in range(self.pick.choice((1, 1, 1, 2, 3))))

    def size(self, kind):
        if kind == "wrap":
            return f"{self.pick.choice((20, 40, 100, 600, 5000))}x{self.pick.choice((1, 2, 3, 4))}"
        return self.pick.choice(("inf", "inf", "600", "3000"))

    def hold(self, name):
        """The most blocks that a log may have, or none: mostly the same each time that it is opened."""
        own = self.holds.setdefault(name, self.pick.choice(("", "", " hold=1", " hold=2")))
        return own if self.pick.random() < 0.95 else " hold=3"

    def open(self, name, client=None):
        pick = self.pick
        kind = self.kinds[name]
        line = f"{client or pick.choice(CLIENTS)} open {name} {kind}"
        if pick.random() < 0.9:
            size = self.sizes.setdefault(name, self.size(kind))
            line += f" size={size if pick.random() < 0.9 else self.size(kind)}"
        line += pick.choice((" notify=yes", " notify=yes", "", " link=anon"))
        line += pick.choice(("", "", "", " head=H0", " head=H0"))
        line += pick.choice(("",) * 8 + (" repair=truncate", " repair=no", " mode=ro"))
        line += pick.choice(("",) * 14 + (f" base={pick.choice(BASES)}",))
        return line + self.hold(name)

    def next(self, name):
        """The next line, mostly one about a log that is open, and by one that is in it."""
        line = self.call(name) if name in self.hub.open or self.pick.random() < 0.1 else self.open(name)
        if line != "flush":
            self.hub.line(line.split(" "), {}, is_no_fault)
        return line

    def call(self, name):
        pick, client = self.pick, self.pick.choice(CLIENTS)
        call = pick.choices(list(self.weights), list(self.weights.values()))[0]
        log = self.hub.open.get(name)
        if log and call in ("close", "exit", "unblock") and pick.random() < 0.7:
            client = log.blocker[0] if log.blocker and call == "unblock" else pick.choice([*log.owners, client])
        words = {
            "log": lambda: f"{client} log {name} {self.items()}",
            "alog": lambda: f"{client} alog {name} {self.items()}",
            "sync": lambda: f"{client} sync {name}",
            "truncate": lambda: f"{client} truncate {name}" + pick.choice(("", f" {self.item()}")),
            "reopen": lambda: f"{client} reopen {name} {pick.choice(BASES)}" + pick.choice(("", f" {self.item()}")),
            "nextfile": lambda: f"{client} nextfile {name}",
            "size": lambda: f"{client} size {name} {self.size(self.kinds[name])}",
            "block": lambda: f"{client} block {name} {pick.choice(('queue', 'queue', 'refuse'))}",
            "unblock": lambda: f"{client} unblock {name}",
            "close": lambda: f"{client} close {name}",
            "exit": lambda: f"{client} exit",
            "open": lambda: self.open(name),
            "flush": lambda: "flush",
            "info": lambda: f"{client} info {name}",
            "chunk": lambda: f"{client} chunk {name} {pick.choice(('start', 'next', 'next'))} {pick.choice((1, 2, 99))}",
            "step": lambda: f"{client} step {name} {pick.choice(('start', 'next'))} {pick.choice((-1, 0, 1, 2))}",
        }
        return words[call]()

    def end(self, names, blocks):
        """What shows at the end that no log is stuck and no item is missing: turns, all items, one more item, and turns again."""
        turns = ["flush"] * (blocks + len(names) + 2)
        lines = [f"{client} unblock {name}" for name in names for client in CLIENTS]
        lines += turns
        for name in names:
            lines += [f"9 info {name}", f"9 chunk {name} start 99"] + [f"9 chunk {name} next 99"] * 3
        for name in names:
            lines += [f"9 log {name} last", f"9 sync {name}", f"9 log {name} behind"]
        if self.pick.random() < 0.6:
            lines += [f"{client} {self.pick.choice(('close', 'close', 'exit'))} {name}" for name in names for client in CLIENTS]
            lines = [line.removesuffix(line[-2:]) if " exit " in line else line for line in lines]
        lines += turns
        for name in names:
            lines += [self.open(name, "8"), f"8 info {name}", f"8 chunk {name} start 99"]
        return lines + turns

    def script(self):
        pick = self.pick
        names = NAMES[: pick.randint(1, 3)]
        self.kinds = {name: pick.choice(("halt", "wrap", "wrap")) for name in names}
        texts = {}
        for name in (*names, *TARGETS):
            if pick.random() < 0.25:
                texts.update(self.old(name, self.kinds.get(name, pick.choice(("halt", "wrap")))))
        blocks = pick.choice((1, 1, 2, 3, 6))
        lines = [self.next(pick.choice(names)) for _ in range(pick.randint(15, 45))]
        return Script(lines + self.end(names, blocks), len(lines), blocks, texts)

    def old_file(self, at, age, mark):
        """A file of either layout, now and then with a wrong count."""
        items = [f"old{at}{n}".encode() for n in range(self.pick.randint(0, 3))]
        return head(age, mark, self.pick.choice((1, 2)), len(items) + self.pick.choice((0, 0, 0, 1))) + frames(items)

    def old(self, name, kind):
        """The files of a log that was closed, or of one that a stop left."""
        pick = self.pick
        mark = pick.choice((b"OPEN", b"SHUT"))
        bad = pick.choice((b"", b"", b"\0\0\0\5torn"))
        if kind == "halt":
            return {f"{name}.log": self.old_file(0, 5, mark) + bad}
        count = pick.randint(1, 3)
        entries = [(at + 1, at + 3) for at in range(count)]
        files = {f"{name}.{at}": self.old_file(at, age, b"SHUT" if at < count else mark) for at, age in entries}
        last = f"{name}.{count}"
        if count > 1 and pick.random() < 0.2:
            files[f"{name}.1"] += b"bad"
        cut = files[last][: pick.choice((9, 20))]
        files[last] = pick.choice((files[last], files[last] + bad, cut, None, head(1, layout=pick.choice((1, 2)))))
        texts = {file: text for file, text in files.items() if text is not None}
        size = pick.choice((40, 100))
        self.sizes[name] = f"{size}x3"
        return {**texts, f"{name}.idx": Index((size, 3), entries).text()}


WEIGHTS = {
    "log": 30,
    "alog": 6,
    "sync": 8,
    "truncate": 5,
    "reopen": 5,
    "nextfile": 6,
    "size": 3,
    "block": 4,
    "unblock": 3,
    "close": 5,
    "exit": 2,
    "open": 8,
    "flush": 10,
    "info": 4,
    "chunk": 4,
    "step": 2,
}


def script_of(seed):
    return Maker(seed).script()
