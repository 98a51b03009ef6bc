"""The picture of how a wrap log goes round, and what an open, a roll and a power cut leave."""
from svg import Picture

WIDTH, MARGIN = 830, 18
ROW = 30

# The states of a log of three files: a title, the files that the index names by number and generation, and those that hold no
# place in it yet.
STATES = [
    ("begun", [(1, 1)]),
    ("after 1 roll", [(1, 1), (2, 2)]),
    ("after 2 rolls: full", [(1, 1), (2, 2), (3, 3)]),
    ("after 3 rolls: round", [(2, 2), (3, 3), (1, 4)]),
]

# The steps of the third roll, and what the next open finds after a power cut behind each of them.
STEPS = [
    (
        ["1. What waits in memory is", "written to `w.3`, then its item", "count, then its mark `SHUT`."],
        ["The old index, and `w.3` up to", "its last sync at least:", "`opened` if it has all that `SHUT`", "counts, else `repaired N B`"],
    ),
    (
        ["2. `w.3` is synced. `w.idx.new`", "is written, synced, and renamed", "to `w.idx`; the folder is synced."],
        ["The new index, and `w.1` of", "generation 1, which it does not", "name: `w.1` is begun anew, empty.", "`repaired 0 0`"],
    ),
    (
        ["3. `w.1.new`, with a head of", "generation 4, is written, synced,", "and renamed to `w.1`."],
        ["The new index, and `w.1` of", "generation 4, up to its last sync", "at least.", "`repaired N B`"],
    ),
]


def file_box(picture, x, y, number, generation, is_current):
    """A file with its name, generation and mark."""
    picture.box(x, y, 168, ROW - 6, "current" if is_current else "box")
    picture.text(x + 8, y + 16, f"w.{number}", "code")
    picture.text(x + 44, y + 16, f"generation {generation}")
    picture.text(x + 160, y + 16, "OPEN" if is_current else "SHUT", "code end")


def rounds(picture, y):
    """The files of a log after each roll, a column a state."""
    picture.text(MARGIN, y, "Round and round: a log of three files", "title")
    picture.texts(MARGIN, y + 19, ["Items go to the current file (blue). If an item does not fit, the log rolls: it begins the next file."], "quiet")
    top = y + 50
    step = (WIDTH - 2 * MARGIN + 34) / 4
    for at, (title, files) in enumerate(STATES):
        x = MARGIN + step * at
        picture.text(x, top, title, "strong")
        picture.text(x, top + 19, "w.idx: " + " ".join(f"{number}" for number, _ in files), "code")
        for number in (1, 2, 3):
            below = top + 30 + ROW * (number - 1)
            known = dict(files)
            if number in known:
                file_box(picture, x, below, number, known[number], (number, known[number]) == files[-1])
            else:
                picture.box(x, below, 168, ROW - 6, "gone")
                picture.text(x + 8, below + 16, f"w.{number}", "code quiet")
                picture.text(x + 44, below + 16, "not there yet", "quiet")
        if at:
            picture.arrow(x - 30, top + 71, x - 6)
    below = top + 30 + 3 * ROW + 14
    picture.text(MARGIN, below, "`w.idx` names the files, the oldest first, with their generations. Roll 3 replaces the oldest file and its items.")
    picture.text(MARGIN, below + 17, "Owners that want notices get `wrap N`: N items went with the file. Generations only rise, so an old file is found out.")
    return below + 17


def roll(picture, y):
    """The steps of a roll, and what a power cut leaves."""
    picture.text(MARGIN, y, "A roll, step by step, and what a power cut leaves", "title")
    picture.text(MARGIN, y + 19, "Roll 3 of above. Below each step (red): what the next open finds if the power fails before the step after it.", "quiet")
    width = 240
    step = (WIDTH - 2 * MARGIN - width) / 2
    for at, (does, leaves) in enumerate(STEPS):
        x = MARGIN + step * at
        picture.box(x, y + 32, width, 66, "box")
        picture.texts(x + 10, y + 52, does)
        picture.box(x, y + 106, width, 82, "torn")
        picture.texts(x + 10, y + 126, leaves)
        if at:
            picture.arrow(x - step + width + 6, y + 65, x - 6)
    return y + 188


def last_file(picture, y):
    """The current file, and what each stop leaves of it."""
    picture.text(MARGIN, y, "The current file, and what an open keeps of it", "title")
    x, top, width = MARGIN, y + 16, 96
    parts = [("head", "current"), *[("item", "current")] * 3, *[("item", "box")] * 2, *[("item", "gone")] * 2]
    ends = []
    for words, kind in parts:
        picture.box(x, top, width, 26, kind, 0)
        picture.text(x + width / 2, top + 17, words, "middle")
        x += width + (12 if len(ends) in (3, 5) else 0)
        ends.append(x)
    below = top + 42
    picture.span(MARGIN, below, ends[3] - 12, ["synced: on the device", "a power cut keeps at least this"])
    picture.span(ends[3], below, ends[5] - 12, ["written: with the system", "a stop of the process keeps it"])
    picture.span(ends[5], below, ends[7], ["waiting: in memory", "a stop of the process loses it"])
    words = [
        "An open keeps whole items from the front, cuts what follows (a torn item), and answers `repaired N B`: N items, B bytes cut.",
        "After a power cut, what was written and not synced may be missing, torn, or read as zeros: items have no checksum.",
        "If an older file is missing, an open answers `E11 invalid_index_file`. Bad bytes in an older file stay there.",
    ]
    return picture.texts(MARGIN, below + 62, words) - 17


def draw():
    picture = Picture(WIDTH, "How a wrap log goes round, and what an open, a roll and a power cut leave")
    below = rounds(picture, 34)
    below = roll(picture, below + 40)
    below = last_file(picture, below + 40)
    picture.text(MARGIN, below + 25, "So it is with syncs at rolls, which is how programs open a folder. With `--unsynced-rolls` a power cut may leave less.", "quiet")
    return picture.svg(below + 43)
