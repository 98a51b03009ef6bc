"""What the words of a line ask for, and which of them are refused whatever the log is."""
from texts import LONGEST_FILE, MOST_BLOCKS, MOST_FILES


def item_of(word):
    count, star, letter = word.partition("*")
    return letter.encode() * int(count) if star else word.encode()


def size_of(word):
    if word == "inf":
        return None
    size, wrap, files = word.partition("x")
    return (int(size), int(files)) if wrap else int(size)


def printed_size(size):
    return "inf" if size is None else f"{size[0]}x{size[1]}" if isinstance(size, tuple) else str(size)


def options_of(words):
    return dict(word.split("=", 1) for word in words)


def is_size(size):
    """Whether a log of some kind may have a size."""
    if isinstance(size, tuple):
        return 1 <= size[0] <= LONGEST_FILE and 1 <= size[1] <= MOST_FILES
    return size is None or 16 <= size <= LONGEST_FILE


def bad_argument(call, words):
    """The argument of a call that is refused whatever its log is, or None. An open is asked for its size first."""
    if call == "chunk" and words[2] == "0":
        return "count"
    if call == "size" and not is_size(size_of(words[1])):
        return "size"
    if call == "open":
        kind, options = words[1], options_of(words[2:])
        size = size_of(options["size"]) if "size" in options else None
        if "size" in options and not (is_size(size) and isinstance(size, tuple) == (kind == "wrap")):
            return "size"
        return None if 1 <= int(options.get("hold", 1)) <= MOST_BLOCKS else "hold"
    return None
