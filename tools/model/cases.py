"""Worked cases (docs/CASES.md) whose answers the model gives: those without a fault and without a command."""
import os

from model import Model

BLOCKS = (1, 2, 16)
# What a case may ask for that a run of its lines without faults passes over.
ASIDE = ("sweep", "stops", "refuse", "spoil", "blocks", "file", "again")


def spelt(word):
    """A word of an answer, as K*TEXT and pieces joined by + make it."""
    pieces = []
    for piece in word.split("+"):
        count, star, text = piece.partition("*")
        pieces.append(text * int(count) if star and count.isdigit() else piece)
    return "".join(pieces)


def spelt_line(answer):
    return " ".join(map(spelt, answer.split(" ")))


def is_reckoned(answer):
    """Whether the model knows an answer: it reads no line of a wrong form, and no item that is none."""
    return answer != "bad line" and not answer.startswith("E1 bad_arg item")


class Case:
    """A case with the texts that it lays down, in a disk for each number of blocks."""

    def __init__(self, path):
        self.name = os.path.basename(path)
        with open(path, encoding="utf-8") as file:
            self.lines = file.read().split("\n")

    def is_plain(self):
        return all(line.split(" ")[1] in ASIDE for line in self.lines if line.startswith("!"))

    def blocks(self):
        own = [line.split(" ")[2:] for line in self.lines if line.startswith("! blocks ")]
        return list(map(int, own[0])) if own else BLOCKS

    def why_not(self, blocks):
        """The first line whose answer the model does not give, with both, or None; and how many answers it gave."""
        model, line, count = Model({}, blocks), None, 0
        for at, text in enumerate(self.lines, 1):
            if text.startswith("! file "):
                model.disk[text.split(" ")[2]] = bytes.fromhex(spelt(text.split(" ")[3]).removeprefix("-"))
            elif text == "! again":
                model = Model(model.disk, blocks)
            elif text == "= bad line":
                model.hub.places = {}
            elif text.startswith("= ") and is_reckoned(text[2:]):
                wanted, given = spelt_line(text[2:]), model.line(line)
                if given != wanted:
                    return f"{self.name}:{at}, {blocks} blocks: {line}: wanted {wanted[:200]}, reckoned {given[:200]}", count
                count += 1
            elif text and text[0] not in "#!=>":
                line = text
        return None, count


def judge(folder):
    """Reckons the plain cases of a folder. Returns what is wrong with them, and how many answers were reckoned."""
    wrong, count = [], 0
    for name in sorted(os.listdir(folder)):
        case = Case(f"{folder}/{name}")
        for blocks in case.blocks() if case.is_plain() else ():
            reason, given = case.why_not(blocks)
            count += given
            wrong += [reason] if reason else []
    return wrong, count
