"""The files of a folder, as the calls that a trace tells have left them, and which of them are durable."""
from texts import COUNT, MARK, head_length, read_index, read_item_file


class Inode:
    def __init__(self, data=b""):
        self.data = bytearray(data)


class Texts(dict):
    """Texts by name, and the names of those that may end in bytes of a write that was cut off."""

    torn = frozenset()


class Folder:
    """The files by name. A call that failed has changed nothing."""

    def __init__(self, texts):
        self.files = {name: Inode(text) for name, text in texts.items()}
        self.opened = {}
        self.ends = {}
        # Those that no call has synced or put yet.
        self.foreign = set(texts)
        # The files that were written since their last sync, and those at which a sync failed.
        self.dirty = set()
        self.lost = set()
        # The files that may have bytes of an item that was not written to its end.
        self.torn = set()
        # Whether names that changed may not be durable but new ones, and the bases under which new ones may not be.
        self.owes_names = False
        self.begun = set()
        # The files that were written in this line, and the names from which files were moved in it.
        self.written = set()
        self.moved = set()
        self.wrong = []

    def texts(self):
        texts = Texts((name, bytes(inode.data)) for name, inode in self.files.items())
        texts.torn = frozenset(self.torn)
        return texts

    def line(self, calls):
        """What the calls of a line did."""
        self.written, self.moved = set(), set()
        for call in calls:
            self.apply(call)

    def apply(self, call):
        """What a call did. Returns nothing; what breaks the order of syncs is noted in `wrong`."""
        if call.answer < 0:
            if call.is_fault():
                self.fail(call)
            return
        act = getattr(self, f"on_{call.name}", None)
        if act is None:
            self.wrong.append(f"the trace has a call that is not known: {call.title()}")
        else:
            act(call)

    def fail(self, call):
        """What is known after a call that failed. A long item is written by two calls, so the first may have left a part."""
        if call.name == "fdatasync":
            self.lost.add(call.files[0])
        elif call.name == "pwrite64" and call.files[0] in self.written:
            self.torn.add(call.files[0])

    def on_statx(self, _call):
        pass

    def on_pread64(self, _call):
        pass

    def on_openat(self, call):
        name = call.files[0] if call.files else ""
        if "O_CREAT" in call.text and name not in self.files:
            self.files[name] = Inode()
        self.opened[call.descriptor] = self.files.get(name)
        self.ends[call.descriptor] = 0
        if "O_TRUNC" in call.text:
            self.files[name].data.clear()

    def on_write(self, call):
        end = self.ends[call.descriptor]
        self.opened[call.descriptor].data[end:] = call.data[: call.answer]
        self.ends[call.descriptor] = end + call.answer
        self.dirty.add(call.files[0])

    def on_pwrite64(self, call):
        at = call.numbers[-1]
        data = self.opened[call.descriptor].data
        if at > len(data):
            self.wrong.append(f"a write past the end: {call.title()}")
        length = head_length(data)
        if at >= length and data[4:8] != b"OPEN":
            self.wrong.append(f"bytes behind a mark that is not OPEN: {call.title()}")
        parts = (MARK, COUNT) if COUNT[0] < length else (MARK,)
        if at < length and (at, len(call.data)) not in parts:
            self.wrong.append(f"a write into a head that is neither its mark nor its count: {call.title()}")
        data[at : at + call.answer] = call.data[: call.answer]
        read = read_item_file(bytes(data))
        if read is not None and read.miscounted:
            self.wrong.append(f"marked as whole with a wrong count: {call.title()}")
        self.dirty.add(call.files[0])
        self.written.add(call.files[0])
        if call.answer < len(call.data):
            self.torn.add(call.files[0])

    def on_ftruncate(self, call):
        data = self.opened[call.descriptor].data
        size = call.numbers[-1]
        data[:] = data[:size] + bytes(max(0, size - len(data)))
        self.dirty.add(call.files[0])
        self.torn.discard(call.files[0])

    def on_fdatasync(self, call):
        self.dirty.discard(call.files[0])
        self.foreign.discard(call.files[0])

    def on_fsync(self, call):
        if call.files:
            self.on_fdatasync(call)
        else:
            self.owes_names = False
            self.begun = set()

    def check_names(self, call):
        """Earlier changes of names come first, but for new names of other bases, and an index before the file that it names last."""
        base, part, *draft = call.files[0].split(".")
        if self.owes_names or base in self.begun:
            self.wrong.append(f"names are not durable before {call.title()}")
        if draft and part.isdigit():
            index = read_index(bytes(self.files[f"{base}.idx"].data))
            put = read_item_file(bytes(self.files[call.files[0]].data))
            if index is None or put is None or index.entries[-1] != (int(part), put.generation):
                self.wrong.append(f"the index does not name it last: {call.title()}")

    def on_unlink(self, call):
        name = call.files[0]
        if not name.endswith(".new"):
            self.check_names(call)
        del self.files[name]
        self.dirty.discard(name)
        self.lost.discard(name)
        self.torn.discard(name)
        self.foreign.discard(name)
        self.owes_names = self.owes_names or not name.endswith(".new")

    def on_rename(self, call):
        """A put, or a new name. What the base has beside it is to be durable before."""
        old, new = call.files
        base = old.split(".")[0]
        is_put = old.endswith(".new")
        # A draft that could not be removed is no file of a log.
        files = {name for name in self.dirty if name == old or not name.endswith(".new")}
        beside = {name for name in files if name.split(".")[0] == base and not (is_put and name == new)}
        if beside:
            self.wrong.append(f"not durable before {call.title()}: {' '.join(sorted(beside))}")
        self.check_names(call)
        if is_put and new not in self.files and new not in self.moved:
            self.begun.add(base)
        else:
            self.owes_names = True
        self.moved |= set() if is_put else {old}
        self.files[new] = self.files.pop(old)
        for names in (self.dirty, self.lost, self.torn, self.foreign):
            names.discard(new)
            if old in names:
                names.remove(old)
                names.add(new)
