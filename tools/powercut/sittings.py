"""Random scripts for several logs, whose files are small, so that they roll, and whose items are told apart."""
from made import Sitting
from scripts import CLIENTS, TARGETS, Maker

NAMES = ("a", "b", "w", "x")
# Lengths of items about the ends of sectors of 512 bytes and of blocks: 8 bytes of a frame are beside them.
LENGTHS = (0, 1, 3, 7, 40, 56, 100, 248, 475, 476, 477, 480, 496, 504, 505, 1_000, 1_528, 2_040, 4_080, 4_088, 4_089, 9_000)
# Lengths of all items where they have one length. With two of them the head of a frame comes to lie in two sectors.
RECORDS = (8, 56, 100, 120, 504, 1_012, 1_013, 1_016)
WEIGHTS = {
    "log": 45,
    "alog": 5,
    "sync": 12,
    "truncate": 3,
    "reopen": 4,
    "nextfile": 5,
    "size": 4,
    "block": 2,
    "unblock": 4,
    "close": 5,
    "exit": 1,
    "open": 6,
    "flush": 8,
    "info": 1,
    "chunk": 1,
    "step": 1,
}


class Sittings(Maker):
    """Sittings one after another on one folder, each on a hub of its own. What the power cuts between them left is not known."""

    def __init__(self, seed):
        super().__init__(seed)
        pick = self.pick
        self.weights = {call: weight * pick.choice((0.3, 1, 1, 3)) for call, weight in WEIGHTS.items()}
        self.names = NAMES[: pick.choice((1, 2, 2, 3, 4))]
        self.kinds = {name: pick.choice(("halt", "wrap", "wrap")) for name in self.names}
        # The length of all items, or None where each has its own.
        self.record = pick.choice((None, None, *RECORDS))
        if pick.random() < 0.3:
            self.owe_much()

    def owe_much(self):
        """Makes much be written that is not synced, of few logs that do not roll often."""
        self.names = self.names[:2]
        self.kinds = {name: self.pick.choice(("halt", "halt", "wrap")) for name in self.names}
        self.sizes = {name: "inf" if kind == "halt" else "20000x2" for name, kind in self.kinds.items()}
        self.weights.update({call: 0.3 for call in ("sync", "truncate", "reopen", "nextfile", "size", "block")}, log=60, flush=30)

    def item(self):
        """An item that no other item equals from its fourth byte on, and in which its number comes again and again."""
        self.letter += 1
        pick, mark = self.pick, f"i{self.letter}."
        if self.record:
            return (mark * self.record)[: self.record]
        if pick.random() < 0.01 and self.longs < 2:
            self.longs += 1
            return f"{65_000 + self.letter}*{chr(97 + self.letter % 26)}"
        length = pick.choice(LENGTHS) if pick.random() < 0.4 else pick.randint(1, pick.choice((20, 300, 3_000)))
        return (mark * length)[:length] or "0*x"

    def items(self):
        return " ".join(self.item() for _ in range(self.pick.choice((1, 1, 2, 3, 6, 12))))

    def size(self, kind):
        if kind == "wrap":
            return f"{self.pick.choice((40, 100, 600, 600, 2_000, 5_000))}x{self.pick.choice((1, 2, 3, 3, 5))}"
        return self.pick.choice(("inf", "inf", "3000", "100000"))

    def sitting(self):
        """A script for one hub. It may end without a close, as by a stop of the process."""
        pick = self.pick
        self.hub = type(self.hub)()
        lines = [self.next(pick.choice(self.names)) for _ in range(pick.randint(8, 45))]
        if pick.random() < 0.4:
            lines += [f"{client} exit" for client in CLIENTS]
        return Sitting(lines, pick.choice((1, 1, 1, 2, 4, 16)))

    def texts(self):
        """The files of a folder before the first sitting, of both layouts."""
        texts = {}
        for name in (*self.names, *TARGETS):
            if self.pick.random() < 0.25:
                texts.update(self.old(name, self.kinds.get(name, self.pick.choice(("halt", "wrap")))))
        return texts
