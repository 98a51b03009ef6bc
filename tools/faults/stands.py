"""Whether the files of a folder are those of the logs that are open, linger or have ended."""
import os
from dataclasses import replace

from texts import HEADS, Index, file_of, found_log, frames, head, read_index, read_item_file

BLOCK = 4_096


def is_index_right(log, texts):
    entries = [(file.number, file.generation) for file in log.files]
    return log.kind == "halt" or texts.get(log.index_name()) == Index(log.size, entries).text()


def is_whole(log, file, texts):
    """Whether an older file has all its items and their count, and is marked as one that takes no more."""
    read = read_item_file(texts.get(log.file_name(file.number), b""))
    return read is not None and read.mark == b"SHUT" and file_of(file.number, read) == file


def waiting(log, texts):
    """How many bytes of the current file are not in it, or None if what is in it is not the front of it. Those of a file that
    still has to be begun count too. Of a file with bytes of a write that was cut off it may be more."""
    name, file = log.current_name(), log.current()
    text = texts.get(name, b"")
    length, whole = HEADS[file.layout], head(file.generation, layout=file.layout) + file.stream()
    read = read_item_file(text)
    if read is None or (read.generation, read.layout) != (file.generation, file.layout):
        return len(whole) if log.owed else None
    log.owed = False
    written = len(text)
    if not whole[length:].startswith(text[length:]):
        written = len(os.path.commonprefix([text[length:], whole[length:]])) + length
    if written < len(text) and name not in texts.torn:
        return None
    return len(whole) - written


def beginning(log):
    """The size of the text with which the current file begins."""
    return HEADS[log.current().layout] + len(frames(log.current().items[: log.lead]))


def oldest_waiting(log, texts):
    """The line that logged the oldest byte which waits in the cache, or None if none waits."""
    log = replace(log)
    size = log.current().size()
    left = waiting(log, texts)
    end = beginning(log) if log.owed else size - left
    at = HEADS[log.current().layout]
    for item, age in zip(log.current().items, log.ages):
        at += 8 + len(item)
        if at > end:
            return age
    return None


def is_held(log, texts):
    """Whether no more waits of a log than the blocks have that it may have."""
    name = log.current_name()
    return log.hold is None or name in texts.torn or waiting(log, texts) <= log.hold * BLOCK + beginning(log)


def why_not(log, texts, may_be_shut):
    """Why the files do not stand for a log that is open or lingers, or None."""
    if log.mode == "ro":
        return None
    if not is_index_right(log, texts):
        return f"the index of {log.name} does not name its files"
    for file in log.files[:-1]:
        if not is_whole(log, file, texts):
            return f"{log.file_name(file.number)} has not the items of its log"
    if waiting(log, texts) is None:
        return f"{log.current_name()} has not the front of the items of its log"
    if not is_held(log, texts):
        return f"more waits of {log.name} than {log.hold} blocks have"
    if not may_be_shut and texts[log.current_name()][4:8] != b"OPEN":
        return f"{log.current_name()} is not marked as that of an open log"
    return None


def why_not_ended(log, texts):
    """Why the files are not those of a log that was closed, or None."""
    if log.mode == "ro":
        return None
    found = found_log(texts, log.base, log.kind)
    if found.refusal or not found.is_there or found.needs_repair:
        return f"the files of {log.base} are not those of a closed log: {found.refusal or 'missing, or in need of repair'}"
    if found.files != log.files or (log.kind == "wrap" and found.size != log.size):
        return f"the files of {log.base} have not the items of the log that was closed"
    return None


def why_not_moved(log, base, texts):
    """Why items are missing of a log that ended within a reopen: each file is at one base or the other, whole."""
    names = [name for name in texts if name.split(".")[0] in (log.base, base)]
    read = {name: read_item_file(texts[name]) for name in names}
    for file in log.files:
        if not any(it and file_of(file.number, it) == file for it in read.values()):
            return f"the items of generation {file.generation} of {log.name} are neither at {log.base} nor at {base}"
    return None


def why_not_ending(log, base, calls, texts):
    """Why a log cannot have ended within a reopen: none of its files has got a new name, and it was not ready for that."""
    has_moved = any(call.name == "rename" and call.answer == 0 and not call.files[0].endswith(".new") for call in calls)
    reason = None if has_moved else why_not_ended(log, texts)
    return reason or why_not_moved(log, base, texts)


def why_not_kept(words, before, after):
    """Why the files are not those that an open leaves which met a fault, or None. One that begins a wrap log may have put the
    index; any other leaves all items, and of a file that needs a repair perhaps no bad bytes."""
    options = dict(word.split("=", 1) for word in words[4:])
    base, kind = options.get("base", words[2]), words[3]
    was, found = found_log(before, base, kind), found_log(after, base, kind)
    is_begun = not was.is_there or (options.get("repair") == "truncate" and options.get("mode") != "ro")
    same = {name: text for name, text in before.items() if after.get(name) == text}
    own = [name for name in before if name.split(".")[0] == base and not name.endswith(".new")]
    if (is_begun and kind == "halt") or (was.refusal and not is_begun):
        is_same = all(name in same for name in own) and was.is_there == found.is_there
        return None if is_same else f"files under {base} have changed"
    if is_begun:
        return None
    kept, known = ([(it.number, it.generation, it.layout, it.items) for it in files] for files in (found.files, was.files))
    if found.refusal or kept != known or found.size != was.size:
        return f"items under {base} have changed"
    return None


def why_not_synced(log, folder):
    """Why what a sync answered as done is not durable, or None."""
    late = [name for name in log.names() if name in folder.dirty | folder.foreign]
    if late:
        return f"synced, and not durable: {' '.join(late)}"
    if folder.owes_names or folder.begun:
        return "synced, and the names of the folder are not durable"
    if log.owed or waiting(log, folder.texts()):
        return f"synced, and bytes of {log.name} wait"
    if folder.texts()[log.current_name()][4:8] != b"OPEN":
        return f"synced, and {log.current_name()} is not marked as that of an open log"
    return None


def strays(logs, texts, base):
    """The numbered files under a base that neither a wrap log nor, where none is there, an index names."""
    there = {name for name in texts if name.split(".")[0] == base and name.split(".")[1].isdigit()}
    for log in logs:
        if log.base == base and log.kind == "wrap":
            return there - set(log.names())
    index = read_index(texts.get(f"{base}.idx", b""))
    return there - {f"{base}.{number}" for number, _ in index.entries} if index else there
