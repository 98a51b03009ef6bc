"""The picture of dlog beside its peers. Each figure and each date is read from docs/BENCHMARKS.md."""
import re

from svg import Picture

PAGE = "docs/BENCHMARKS.md"
WIDTH, MARGIN, GAP = 830, 18, 30
COLUMN = (WIDTH - 2 * MARGIN - GAP) / 2
# The room of the names on the left of the bars, and of the figures on their right.
NAMES, FIGURES = 150, 76


class Page:
    """The page with the figures."""

    def __init__(self, text):
        self.text = text

    def part(self, title):
        """The part of the page below a heading."""
        found = re.search(rf"(?ms)^## {re.escape(title)}\n(.*?)(?=^## |\Z)", self.text)
        if not found:
            raise LookupError(f"no part `{title}`")
        return found[1]

    def table(self, title, corner):
        """The first table of a part whose first cell is the one given, and the text of the part before it."""
        before, rows = [], []
        for line in [*self.part(title).splitlines(), ""]:
            cells = [it.strip(" `") for it in line.strip("|").split("|")] if line.startswith("|") else []
            if rows and not cells:
                return {it[0]: it[1:] for it in rows}, "\n".join(before)
            if cells and (rows or cells[0] == corner):
                rows.append(cells)
            else:
                before.append(line)
        raise LookupError(f"the part `{title}` has no table that begins with `{corner}`")


def number(cells, name, at):
    """A figure of a table."""
    if name not in cells:
        raise LookupError(f"no line `{name}`")
    return int(cells[name][at].replace(",", ""))


def last(pattern, text):
    """What a pattern finds last in a text."""
    found = re.findall(pattern, text)
    if not found:
        raise LookupError(f"nothing like `{pattern}`")
    return found[-1]


class Panel:
    """Bars below a title. Those of dlog have a colour of their own."""

    def __init__(self, picture, x, y, title, notes):
        self.picture = picture
        self.x = x
        picture.text(x, y, title, "title")
        self.y = picture.texts(x, y + 19, notes, "quiet") - 6

    def bar(self, words, value, most, worst=None, kind="other", height=16):
        """A bar, with a mark at its worst value if there is one."""
        left, room = self.x + NAMES, COLUMN - NAMES - FIGURES
        middle = self.y + height / 2 + 4.5
        self.picture.text(left - 8, middle, words, "end")
        self.picture.box(left, self.y, max(1, room * value / most), height, kind, 0)
        if worst is not None:
            at = left + room * worst / most
            self.picture.line([(at, self.y), (at, self.y + height)], "mark")
        self.picture.text(left + room * value / most + 6, middle, f"{value:,}")
        self.y += height

    def space(self, height):
        self.y += height


def alone(picture, page, x, y):
    """What one thread appends."""
    figures, _ = page.table("Figures", "line")
    state, _ = page.table("Figures", "")
    when = last(r"\d{4}-\d\d-\d\d", state["state of dlog"][0])
    notes = [f"State of {when}, in memory (tmpfs), no sync.", "Best of five rounds; the mark is the worst."]
    rows = [
        ("BufWriter", "baseline_append_folder"),
        ("dlog, 64 a call", "dlog_append_64_folder"),
        ("dlog, a wrap log", "dlog_append_wrap_folder"),
        ("dlog, a halt log", "dlog_append_folder"),
        ("a write an item", "baseline_append_unbuffered_folder"),
    ]
    panel = Panel(picture, x, y, "Append, one thread: items/s", notes)
    below = draw_lines(panel, figures, rows)
    rows = [("dlog, chunks", "dlog_read_folder"), ("a scan, keeps all", "baseline_read_folder")]
    notes = ["The same run. dlog frees each chunk after use;", "the scan keeps all items in memory."]
    panel = Panel(picture, x, below + 32, "Read back: items/s", notes)
    return draw_lines(panel, figures, rows)


def draw_lines(panel, figures, rows):
    most = max(number(figures, line, 0) for _, line in rows)
    for words, line in rows:
        kind = "own" if line.startswith("dlog") else "other"
        panel.bar(words, number(figures, line, 0), most, number(figures, line, 1), kind)
        panel.space(7)
    return panel.y


def by_four(picture, page, x, y):
    """What four writers append without a sync, beside peers of the same run."""
    figures, before = page.table("By threads", "four writers, no sync")
    when = last(r"\d{4}-\d\d-\d\d", before)
    notes = [f"Another run, {when}, on a slower machine,", "no sync. Best of two."]
    panel = Panel(picture, x, y, "Append, four writers: items/s", notes)
    rows = [("dlog, threads", "dlog"), ("disk_log", "disk_log"), ("LevelDB", "LevelDB")]
    most = max(number(figures, line, 0) for _, line in rows)
    for words, line in rows:
        panel.bar(words, number(figures, line, 0), most, kind="own" if line == "dlog" else "other")
        panel.space(7)
    return panel.y


def durable(picture, page, x, y):
    """What 1, 4 and 16 writers put on a device, each waiting for it."""
    figures, before = page.table("Durable writes", "writers")
    when, sync = last(r"\d{4}-\d\d-\d\d", before), last(r"after (\d+) ms", before)
    last("built without a proof", before)
    counts = ["1", "4", "16"]
    columns = [figures["writers"].index(it) for it in counts]
    notes = [
        f"Another run, {when}. Each writer waits for a",
        f"sync of its item, which is made to take {sync} ms.",
        "Medians of three rounds; a busy machine; dlog",
        "built without a proof.",
    ]
    panel = Panel(picture, x, y, "Durable writes: items/s", notes)
    rows = [
        ("dlog, threads", "threads, one log"),
        ("dlog serve, C", "dlog serve`, C"),
        ("LevelDB", "LevelDB"),
        ("Berkeley DB", "Berkeley DB"),
        ("disk_log", "disk_log"),
        ("SQLite, WAL", "SQLite"),
    ]
    most = max(number(figures, line, at) for _, line in rows for at in columns)
    for words, line in rows:
        picture.text(x, panel.y + 12, words)
        for count, at in zip(counts, columns):
            name = "1 writer" if count == "1" else count
            panel.bar(name, number(figures, line, at), most, kind="own" if words.startswith("dlog") else "other", height=15)
            panel.space(2)
        panel.space(10)
    return panel.y


def draw(text):
    """The picture, from the text of the page."""
    page = Page(text)
    picture = Picture(WIDTH, "dlog beside its peers: append, durable writes, read back")
    right = MARGIN + COLUMN + GAP
    lower = max(by_four(picture, page, MARGIN, alone(picture, page, MARGIN, 34) + 32), durable(picture, page, right, 34))
    picture.text(MARGIN, lower + 22, f"Items of 100 bytes. Compare bars of one run only: each part says which run it shows. {PAGE} has all figures.", "quiet")
    return picture.svg(round(lower + 38))
