"""What a power cut may leave of a folder: a model of a file system.

A sync of a file puts its bytes and its length on the device, and a sync of the folder all names. Of the changes of a file since
its last sync each may be there or not, each by itself, and a write also in a part of its sectors of 512 bytes or of its pages. A
file is as long as the last write of it that is there or, now and then, as one that is not; bytes between that were not written
are zeros. Names that were made, changed or removed since the last sync of the folder are there up to some place in their order. A
file whose new name is there has the bytes that were written before it got that name.

The length of a file changes in order. Where a cut of it is not there it keeps its old length, and no later change of its length
is there; later writes may be, up to that length. Where one is there the rest of its pages of 4,096 bytes is zeros behind the cut,
since the system has one copy of a page, which the cut has cleared. Other pages have the old bytes.

`harder` has no such order: names are there each by itself, a new name may be there without any byte that was not synced, and a
cut that is not there changes nothing of what is written later.
"""
from dataclasses import dataclass, field

SECTOR = 512
PAGE = 4_096
WAYS = ("none", "all", "until", "until", "some", "some", "torn", "torn", "torn", "but one")


@dataclass
class Inode:
    """The bytes of a file that are on the device, and its changes since, each with its place in the record."""

    data: bytearray = field(default_factory=bytearray)
    later: list = field(default_factory=list)

    def olds(self):
        """What the file had before each cut that is not synced."""
        data, olds = bytearray(self.data), []
        for _, change in self.later:
            if change.kind == "cut":
                olds.append(bytes(data))
            apply_whole(data, change)
        return olds


def put(data, at, text):
    """Writes into bytes, which grow with zeros."""
    data.extend(bytes(max(0, at + len(text) - len(data))))
    data[at : at + len(text)] = text


def torn(change, size):
    """The parts of a write that are in one sector or page each."""
    at, end = change.at, change.at + len(change.data)
    while at < end:
        after = min(end, at - at % size + size)
        yield at, change.data[at - change.at : after - change.at]
        at = after


class Way:
    """A choice of which changes are there."""

    def __init__(self, pick, places):
        self.pick = pick
        self.name = pick.choice(WAYS)
        self.last = pick.choice(places) if places else 0
        self.share = pick.choice((0.2, 0.5, 0.8, 0.95))
        self.grows = pick.random() < 0.3

    def has(self, place):
        """Whether the change at a place of the record is there."""
        if self.name in ("none", "all"):
            return self.name == "all"
        if self.name == "until":
            return place <= self.last
        if self.name == "but one":
            return place != self.last
        return self.pick.random() < self.share

    def parts(self, change):
        """The parts of a write that are there: all, or those in some of its sectors or pages."""
        parts = list(torn(change, self.pick.choice((SECTOR, SECTOR, PAGE))))
        if self.name != "torn" or self.pick.random() < 0.4:
            return [(change.at, change.data)]
        first = self.pick.randint(0, len(parts))
        either = (parts[:first], parts[first:], [part for part in parts if self.pick.random() < 0.5])
        return self.pick.choice(either)


class Device:
    """A folder up to a place of its record."""

    def __init__(self, texts, harder):
        self.harder = harder
        self.files = {number: Inode(bytearray(texts[name])) for number, name in enumerate(sorted(texts))}
        self.names = {name: number for number, name in enumerate(sorted(texts))}
        self.later = []
        # The names from which files were moved.
        self.moved = set()

    def add(self, place, change):
        """Does the next change of the record."""
        if change.kind == "names":
            for _, done in self.later:
                rename(self.names, done)
            self.later = []
        elif change.kind in ("create", "rename", "unlink"):
            self.files.setdefault(change.file, Inode())
            self.later.append((place, change))
            if change.kind == "rename" and not change.names[0].endswith(".new"):
                self.moved.add(change.names[0])
        elif change.kind in ("write", "cut"):
            self.files[change.file].later.append((place, change))
        else:
            inode = self.files[change.file]
            for _, done in inode.later:
                apply_whole(inode.data, done)
            inode.later = []

    def unnamed(self, before):
        """The names of files that are new, where the name may not be on the device: there was no file of the name, none was moved away
        from it, and the folder was not synced since a change of names that came behind this place of the record."""
        names, new = dict(self.names), set()
        for place, change in self.later:
            target = change.names[-1]
            may_begin = target not in self.moved or target.split(".")[1].isdigit()
            if change.kind == "rename" and target not in names and place >= before and may_begin:
                new.add(target)
            rename(names, change)
        return new & set(names)

    def olds(self):
        """By name, what files had before cuts that are not synced."""
        names = dict(self.names)
        for _, change in self.later:
            rename(names, change)
        return {name: self.files[number].olds() for name, number in names.items()}

    def whole(self):
        """The folder as the system has it, with all changes."""
        return self.leave(lambda _: True, lambda change: [(change.at, change.data)], False)

    def cut(self, pick):
        """The folder as a power cut may leave it, and in which way."""
        places = [place for place, _ in self.later] + [it for inode in self.files.values() for it, _ in inode.later]
        way = Way(pick, sorted(places))
        return self.leave(way.has, way.parts, way.grows), way.name

    def leave(self, has, parts, grows):
        names, named = dict(self.names), {}
        for place, change in self.later:
            if not has(place):
                if self.harder:
                    continue
                break
            rename(names, change)
            if change.kind == "rename" and not self.harder:
                named[change.file] = place
        return {name: self.text(number, named.get(number, -1), has, parts, grows) for name, number in names.items()}

    def text(self, number, named, has, parts, grows):
        """The bytes of a file, of which all changes up to a place are there."""
        inode = self.files[number]
        data, missed = bytearray(inode.data), None
        for place, change in inode.later:
            is_there = place <= named or has(place)
            if change.kind == "cut" and not self.harder and (missed or not is_there):
                missed = missed or Missed(change.at, len(data))
            elif change.kind == "cut" and is_there:
                apply_whole(data, change)
            elif change.kind == "write":
                for at, part in self.there(change, is_there, place <= named, parts):
                    if missed:
                        missed.write(data, at, part)
                    else:
                        put(data, at, part)
                if grows and not missed:
                    put(data, change.at + len(change.data), b"")
        return bytes(data)

    def there(self, change, is_there, is_whole, parts):
        """The parts of a write that are there."""
        if not is_there:
            return []
        return [(change.at, change.data)] if is_whole else parts(change)


class Missed:
    """A file with a cut that is not there: the length to which it was cut, the one that it keeps, and the pages that were written
    since."""

    def __init__(self, size, length):
        self.size = size
        self.length = length
        self.pages = set()

    def write(self, data, at, part):
        """Writes what is within the length. What the cut has cleared of its pages is zeros."""
        part = part[: max(0, self.length - at)]
        for page in range(at // PAGE, (at + len(part) - 1) // PAGE + 1) if part else []:
            first, end = max(self.size, page * PAGE), min(self.length, (page + 1) * PAGE)
            if page not in self.pages and first < end:
                data[first:end] = bytes(end - first)
            self.pages.add(page)
        data[at : at + len(part)] = part


def apply_whole(data, change):
    if change.kind == "write":
        put(data, change.at, change.data)
    else:
        size = change.at
        data[:] = data[:size] + bytes(max(0, size - len(data)))


def rename(names, change):
    """Does a change of names."""
    if change.kind == "create":
        names[change.names[0]] = change.file
    elif change.kind == "unlink":
        names.pop(change.names[0], None)
    else:
        old, new = change.names
        names.pop(old, None)
        names[new] = change.file
