"""Logs and syncs of three clients, and what comes between them, that reach the server in one write.
The order of the answers is that of the page: syncs after what came with them, all together, and the
calls of each client in its order. With strace the syncs of the device are counted: one for each turn of
the clients, and after the answers that are ready. Words: the program, and a folder that is there and
empty."""
import os
import shutil
import struct
import subprocess
import sys

PROGRAM, ROOM = sys.argv[1:3]
OPENED, DONE, WELCOME, TURN, UNSYNCED, REASON, LOGS, WRONG = 1, 3, 0, 10, 12, 13, 14, 63


def frame(text):
    return struct.pack(">I", len(text)) + text


def call(tag, number, client, parts=b""):
    """A call on the log a."""
    return frame(struct.pack(">IBI", tag, number, client) + b"\x01a" + parts)


def opening(tag, client):
    """An open of a halt log, repaired if need be, whose owner wants no notices."""
    return call(tag, 1, client, bytes(9))


def log(tag, client):
    return call(tag, 2, client, struct.pack(">II", 1, 1) + b"x")


def sync(tag, client):
    return call(tag, 10, client)


def sync_all(tag, client, logs):
    """A sync of many logs, each of which is a name of one byte."""
    names = b"".join(b"\x01" + log for log in logs)
    return frame(struct.pack(">IBII", tag, 18, client, len(logs)) + names)


def texts(command, stream):
    """The texts of the frames that a server answers to one write."""
    said = subprocess.run(command, input=stream, stdout=subprocess.PIPE, timeout=60, check=True).stdout
    at, found = 0, []
    while at < len(said):
        (length,) = struct.unpack_from(">I", said, at)
        found.append(said[at + 4:at + 4 + length])
        at += 4 + length
    return found


def answers(command, stream):
    """The tags and kinds of what a server answers to one write."""
    return [struct.unpack_from(">IB", text) for text in texts(command, stream)]


def opened():
    return b"".join(opening(client, client) for client in (1, 2, 3))


def pairs():
    """Three pairs of a log and a sync. The tag of client 2 is 12 for its log and 22 for its sync."""
    return opened() + b"".join(log(10 + client, client) + sync(20 + client, client)
                               for client in (1, 2, 3))


def rounds(count):
    """So many rounds of pairs, each sent ahead of the answers to the one before."""
    return opened() + b"".join(log(100 * turn + 10 + client, client) + sync(100 * turn + 20 + client, client)
                               for turn in range(1, count + 1) for client in (1, 2, 3))


def check(what, stream, expected):
    found = answers([PROGRAM, "serve"], stream)
    assert found == expected, (what, found)


def traced(name, stream, expected):
    """What a server over a new folder did to answer one write, in its order: `sync` of the device, and `write` of answers."""
    trace, logs = os.path.join(ROOM, name + ".trace"), os.path.join(ROOM, name)
    os.mkdir(logs)
    found = answers(["strace", "-f", "-qq", "-e", "trace=fsync,fdatasync,write", "-o", trace,
                     PROGRAM, "serve", "--folder", logs], stream)
    assert expected is None or found == expected, found
    with open(trace, encoding="ascii") as lines:
        return ["sync" if "sync(" in line else "write" for line in lines if "sync(" in line or " write(1, " in line]


def main():
    begun = [(client, OPENED) for client in (1, 2, 3)]
    done = begun + [(tag, DONE) for tag in (11, 12, 13, 21, 22, 23)]
    check("three pairs", pairs(), done)
    check("a client that calls again", opened() + sync(31, 1) + sync(32, 2) + log(33, 1) + log(34, 3),
          begun + [(31, DONE), (32, DONE), (33, DONE), (34, DONE)])
    check("another client", opened() + sync(35, 1) + log(36, 3) + sync(37, 2) + log(38, 3),
          begun + [(36, DONE), (38, DONE), (35, DONE), (37, DONE)])
    check("two syncs of one client", opened() + sync(41, 1) + sync(42, 2) + sync(43, 1) + log(44, 1),
          begun + [(41, DONE), (42, DONE), (43, DONE), (44, DONE)])
    check("pairs that are sent ahead", rounds(2), begun + [(100 * turn + kind + client, DONE)
          for turn in (1, 2) for kind in (10, 20) for client in (1, 2, 3)])
    check("clients that send one after another", opened() + b"".join(
        log(10 * client, client) + sync(10 * client + 1, client) + log(10 * client + 2, client) + sync(10 * client + 3, client)
        for client in (1, 2, 3)), begun + [(tag, DONE) for tag in (10, 11, 12, 20, 13, 21, 22, 30, 23, 31, 32, 33)])
    for what, text, kind in (("hello", b"\x00\x00\x02", WELCOME), ("flush", b"\x10", TURN),
                             ("flush all", b"\x11", TURN), ("no request", b"\x3f", WRONG),
                             ("sync all", b"\x12" + bytes(8), UNSYNCED),
                             ("reason", b"\x13", REASON), ("logs", b"\x14", LOGS)):
        stream = opened() + sync(51, 1) + sync(52, 2) + frame(struct.pack(">I", 53) + text) + log(54, 3)
        check(what, stream, begun + [(51, DONE), (52, DONE), (53, kind), (54, DONE)])
    check("exit", opened() + sync(61, 2) + frame(struct.pack(">IBI", 62, 15, 1)) + log(63, 3),
          begun + [(61, DONE), (62, DONE), (63, DONE)])
    assert texts([PROGRAM, "serve"], opened() + sync_all(71, 1, []) + sync_all(72, 2, [b"b", b"a", b"b"]))[3:] == [
        struct.pack(">IBI", 71, UNSYNCED, 0), struct.pack(">IBI", 72, UNSYNCED, 2) + b"\x01b\x42\x01b\x42"]
    if shutil.which("strace"):
        once, turns = traced("once", pairs(), done), traced("turns", rounds(20), None)
        print("syncs: three logs and syncs in one write, syncs of the device:", once.count("sync"))
        last = len(once) - 1 - once[::-1].index("sync")
        assert once[:last].count("write") == 1 and once[last + 1:] == ["write"], once
        assert turns.count("sync") == once.count("sync") + 19, turns
    else:
        assert answers([PROGRAM, "serve", "--folder", ROOM], pairs()) == done
    print("syncs: the order of answers is as the page says")


if __name__ == "__main__":
    main()
