"""Scenarios of programs that are no server of this version, and of devices that are full, by the Python client."""
import errno
import os
import resource
import signal
import tempfile

from ends_python import MANY, dlog, raised

# A program whose hello has another version.
OF_VERSION_9 = r"""#!/bin/sh
printf '\0\0\0\024\0\0\0\1\0\0\011\1\0\0\0\0\0\4\0\4dlog'
exec cat >/dev/null
"""


def a_server_of_another_version_is_refused(program, folder):
    other = os.path.join(folder, "other")
    with open(other, "w", encoding="ascii") as file:
        file.write(OF_VERSION_9)
    os.chmod(other, 0o755)
    refused = raised(dlog.NotStarted, dlog.Server, folder, other)
    assert "version 9" in refused.words and f"version {dlog.VERSION}" in str(refused), refused


def limited(program, room):
    """A program whose files become no longer than 4,096 bytes, until its soft limit is raised."""
    full = os.path.join(room, "full")
    with open(full, "w", encoding="ascii") as file:
        file.write(f"#!/bin/sh\nulimit -S -f 8\nexec '{program}' \"$@\"\n")
    os.chmod(full, 0o755)
    return full


TOO_LARGE = os.strerror(errno.EFBIG)


def give_room(process):
    resource.prlimit(process, resource.RLIMIT_FSIZE, (resource.RLIM_INFINITY, resource.RLIM_INFINITY))


def a_full_device_is_an_error_until_it_has_room(program, folder):
    with tempfile.TemporaryDirectory() as room:
        server = dlog.Server(folder, limited(program, room), blocks=1)
    log, other = server.client(1).open("a"), server.client(2).open("b")
    kept = []

    def fill():
        for number in range(MANY):
            log.log(b"%0500d" % number)
            log.sync()
            kept.append(b"%0500d" % number)

    for _ in range(2):
        full = raised(dlog.Refused, fill)
        assert (full.number, full.name, full.parts) == (24, "device_fault", ("a.log",)), full
        assert full.reason == ("a.log", TOO_LARGE, errno.EFBIG), full.reason
        assert str(full) == f"E24 device_fault a.log: {TOO_LARGE}", full
    other.log(b"has room")
    other.sync()
    give_room(server.pid)
    log.log(b"last")
    log.sync()
    assert server.stop() == 0
    with dlog.Server(folder, program) as server:
        log = server.client(1).open("a")
        items = list(log)
        assert log.repaired is None and items[:len(kept)] == kept and items[-1] == b"last", items
        assert kept and list(server.client(1).open("b")) == [b"has room"]


def many_logs_are_synced_by_one_call(program, folder):
    with tempfile.TemporaryDirectory() as room:
        server = dlog.Server(folder, limited(program, room))
    client = server.client(1)
    log, other = client.open("a"), client.open("b")
    log.log(b"x" * 10_000)
    other.log(b"has room")
    left = raised(dlog.NotSynced, client.sync_all).logs
    assert [(name, str(why)) for name, why in left] == [("a", f"E24 device_fault a.log: {TOO_LARGE}")], left
    assert server.logs() == ["a", "b"], server.logs()
    left = raised(dlog.NotSynced, client.sync_all, "missing", "b", "a")
    assert [(name, why.number) for name, why in left.logs] == [("missing", 2), ("a", 24)], left
    raised(dlog.Invalid, client.sync_all, "a b")
    server.client(2).open("b").block()
    left = raised(dlog.NotSynced, client.sync_all, "b").logs
    assert [(name, type(why), str(why)) for name, why in left] == [("b", dlog.Suspended, "a block keeps it off")], left
    server.client(2).log("b").unblock()
    give_room(server.pid)
    client.sync_all("a", "a")
    server.kill()
    with dlog.Server(folder, program) as server:
        assert [list(server.client(1).open(name)) for name in "ab"] == [[b"x" * 10_000], [b"has room"]]


def a_loss_at_the_stop_is_an_error(program, folder):
    def lose():
        with dlog.Server(folder, program) as server:
            server.client(1).open("a").log(b"lost")
            os.kill(server.pid, signal.SIGKILL)

    assert raised(dlog.Gone, lose).status == -signal.SIGKILL
    with tempfile.TemporaryDirectory() as room:
        server = dlog.Server(folder, limited(program, room), blocks=256)
        server.client(1).open("b").log(b"x" * 100_000)
        gone = raised(dlog.Gone, server.stop)
        assert gone.status == 1 and "is lost" in gone.words, gone


SCENARIOS = (
    a_server_of_another_version_is_refused,
    many_logs_are_synced_by_one_call,
    a_full_device_is_an_error_until_it_has_room,
    a_loss_at_the_stop_is_an_error,
)
