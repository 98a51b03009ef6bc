"""Random scripts for several logs, their holds, and the folder that they begin with."""
from dataclasses import dataclass

from scripts import BASES, CLIENTS, TARGETS, Maker
from texts import Index, frames, head

NAMES = ("a", "b", "w", "x")
# Lengths of items about the ends of blocks: 8 bytes of a frame are beside them.
LENGTHS = (0, 1, 87, 88, 89, 1_000, 2_040, 2_041, 4_000, 4_087, 4_088, 4_089, 8_184, 8_185, 9_000, 16_000)
HOLDS = ("1", "1", "1", "2", "2", "3", "5", "16", "40", "65536")


@dataclass
class Sitting:
    """A script for one hub, and the number of its blocks."""

    lines: list
    blocks: int


class Scripts(Maker):
    """Scripts one after another on one folder, each on a hub of its own."""

    def __init__(self, seed):
        super().__init__(seed)
        # How often an open has a hold.
        self.held = self.pick.choice((0.0, 0.5, 0.9, 0.95))
        self.weights["log"] *= 2
        self.weights["block"] /= 3

    def item(self):
        self.letter += 1
        letter = chr(97 + self.letter % 26)
        pick = self.pick.random()
        if pick < 0.01 and self.longs < 2:
            self.longs += 1
            return f"{self.pick.choice((65_528, 65_529, 70_000)) + self.letter}*{letter}"
        if pick < 0.45:
            return f"{self.pick.choice(LENGTHS)}*{letter}"
        if pick < 0.75:
            return f"{self.pick.randint(0, 5_000)}*{letter}"
        return f"i{self.letter}"

    def items(self):
        return " ".join(self.item() for _ in range(self.pick.choice((1, 1, 1, 2, 3, 6))))

    def size(self, kind):
        if self.pick.random() < 0.01:
            return self.pick.choice(("0x1", "1x0", "15", "50x65001", "inf", "40x3"))
        if kind == "wrap":
            return f"{self.pick.choice((1, 40, 100, 600, 5_000, 20_000))}x{self.pick.choice((1, 2, 3, 5))}"
        return self.pick.choice(("inf", "inf", "inf", "inf", "9000", "100000"))

    def hold(self, name):
        """The hold of a log that is opened: mostly the same one each time, and now and then one out of range."""
        pick = self.pick
        if pick.random() > self.held:
            return ""
        if pick.random() < 0.05:
            return f" hold={pick.choice(('0', '65537', '4294967295'))}"
        own = self.holds.setdefault(name, pick.choice(HOLDS))
        return f" hold={own if pick.random() < 0.9 else pick.choice(HOLDS)}"

    def open(self, name, client=None):
        words = super().open(name, client).split(" ")
        options = words[4:]
        self.pick.shuffle(options)
        return " ".join(words[:4] + options)

    def call(self, name):
        if self.pick.random() < 0.1:
            return f"file {self.file()}"
        line = super().call(name)
        if line.split(" ")[1:2] == ["chunk"] and self.pick.random() < 0.03:
            return line.rsplit(" ", 1)[0] + " 0"
        return line

    def next(self, name):
        line = self.call(name) if name in self.hub.open or self.pick.random() < 0.1 else self.open(name)
        if line != "flush" and not line.startswith("file "):
            self.hub.line(line.split(" "), {}, lambda file: False)
        return line

    def file(self):
        base = self.pick.choice([*self.kinds, *self.kinds, *TARGETS])
        part = "log" if self.kinds.get(base, "halt") == "halt" else self.pick.choice(("idx", "1", "2", "3", "5"))
        return f"{base}.{part}"

    def sitting(self, names):
        pick = self.pick
        self.hub = type(self.hub)()
        lines = [self.next(pick.choice(names)) for _ in range(pick.randint(10, 60))]
        if pick.random() < 0.5:
            for name in names:
                lines += [f"9 info {name}", f"9 chunk {name} start 99", f"9 chunk {name} next 99"]
        lines += ["flush"] * pick.choice((0, 0, 1, 3, 18))
        if pick.random() < 0.6:
            lines += [f"{client} exit" for client in CLIENTS]
        return Sitting(lines, pick.choice((1, 1, 2, 2, 3, 4, 6, 8, 16, 16)))

    def make(self):
        """The sittings, and the texts of the folder before them."""
        pick = self.pick
        names = NAMES[: pick.choice((1, 2, 2, 3, 3, 4))]
        self.kinds = {name: pick.choice(("halt", "halt", "wrap")) for name in names}
        texts = {}
        for name in (*names, *TARGETS):
            if pick.random() < 0.3:
                texts.update(self.damaged(self.old(name, self.kinds.get(name, pick.choice(("halt", "wrap"))))))
        return [self.sitting(names) for _ in range(pick.choice((1, 1, 2, 3)))], texts

    def damaged(self, texts):
        """The same files, of which now and then one is cut, lost, begins otherwise, or has a bit turned."""
        pick = self.pick
        if pick.random() > 0.3:
            return texts
        name = pick.choice(sorted(texts))
        text = bytearray(texts.pop(name))
        how = pick.choice(("cut", "cut", "lost", "turned", "turned", "turned", "longer", "long"))
        if how == "cut":
            text = text[: pick.randint(0, len(text))]
        elif how == "turned" and text:
            text[pick.randrange(len(text))] ^= 1 << pick.randrange(8)
        elif how == "longer":
            text += bytes(pick.randrange(256) for _ in range(pick.randint(1, 30)))
        elif how == "long":
            text += frames([b"z" * pick.choice(LENGTHS)])
        return texts if how == "lost" else {**texts, name: bytes(text)}
