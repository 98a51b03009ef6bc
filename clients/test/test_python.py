"""The scenarios of the clients, by the Python client. Words: the program."""
import os
import sys
import tempfile
import time

sys.path.insert(0, os.path.join(os.path.dirname(os.path.abspath(__file__)), "..", "python"))
import dlog  # noqa: E402
import devices_python  # noqa: E402
import ends_python  # noqa: E402

PROGRAM = sys.argv[1]


def serve(folder):
    return dlog.Server(folder, PROGRAM)


def refusal(call, *arguments):
    """The number of the refusal of a call, or 0."""
    try:
        call(*arguments)
    except dlog.Refused as refused:
        return refused.number
    return 0


def items_come_back_in_order(folder):
    with serve(folder) as server:
        assert server.hello == (4, 16777216, 1024, "dlog"), server.hello
        log = server.client(1).open("words")
        log.log(b"first", b"second", b"")
        assert list(log) == [b"first", b"second", b""]
        chunk = log.chunk(most=2)
        assert chunk.items == [b"first", b"second"] and chunk.bad == 0
        assert log.chunk(chunk.next).items == [b""]
        assert log.chunk(log.chunk(chunk.next).next) is None
    with serve(folder) as server:
        log = server.client(1).open("words")
        assert log.repaired is None and list(log) == [b"first", b"second", b""]


def a_full_log_refuses_and_tells(folder):
    with serve(folder) as server:
        log = server.client(1).open("small", size=40, notify=True)
        assert refusal(log.log, b"12345678", b"9") == 14
        told = [(n.client, n.log, n.what) for n in server.notices()]
        assert told == [(1, "small", "full"), (1, "small", "error_status")], told
        assert refusal(log.change_size, 20) == 19
        log.change_size("infinity")
        log.log(b"9")
        info = log.info()
        assert (info.size, info.written, info.owners) == ("infinity", 2, [(1, True)]), info


def a_wrap_log_rolls(folder):
    with serve(folder) as server:
        log = server.client(1).open("ring", size=(40, 2), notify=True, head=b"h")
        for item in (b"one-one-", b"two-two-", b"three---"):
            log.log(item)
        what = [n.what for n in server.notices()]
        assert what == ["wrap", "wrap"], what
        assert log.info().extent["file"] == 1
        place = log.chunk_step(1)
        assert log.chunk(place).items[0] == b"h"
        assert refusal(log.chunk_step, 1, log.chunk(place).next) == 0
        assert refusal(server.client(1).open("ring2", size=(40, 2)).chunk_step, 1) == 22


def a_block_keeps_the_calls_of_others(folder):
    with serve(folder) as server:
        one, two = server.client(1), server.client(2)
        log, other = one.open("shared"), two.open("shared")
        log.block(queue=True)
        waits = other.send_log(b"late")
        other.alog(b"held")
        assert refusal(log.log, b"mine") == 15
        assert list(log) == []
        log.unblock()
        server.answer(waits)
        assert sorted(log) == [b"held", b"late"], list(log)
        log.block(queue=False)
        assert refusal(other.log, b"no") == 15
        one.exit()
        other.log(b"yes")
        assert list(other)[-1] == b"yes"


def a_held_log_has_no_more_than_its_blocks(folder):
    def written(name):
        return os.path.getsize(os.path.join(folder, name + ".log"))

    with serve(folder) as server:
        one, two = server.client(1), server.client(2)
        assert refusal(lambda: one.open("held", hold=0)) == 1
        log, free = one.open("held", hold=1), one.open("free")
        items = [b"%03000d" % number for number in range(3)]
        for item in items:
            log.log(item)
            free.log(item)
        assert written("held") > 6000 > 3000 > written("free"), (written("held"), written("free"))
        try:
            two.open("held", hold=2)
        except dlog.Refused as refused:
            assert (refused.number, refused.parts) == (4, ("hold",)), refused
        else:
            raise AssertionError("held to another number")
        assert list(two.open("held")) == items == list(free)
        assert (log.info().hold, free.info().hold) == (1, None)


def a_hundred_thousand_items_pipelined(folder):
    items = [b"%099d" % n + b"\n" for n in range(100_000)]
    with serve(folder) as server:
        log = server.client(1).open("many")
        start = time.monotonic()
        log.log_many(items)
        seconds = time.monotonic() - start
        assert list(log) == items
        assert log.info().written == 100_000
    print(f"  {len(items) / seconds:,.0f} items of 100 bytes a second")


def what_was_synced_stays_after_a_kill(folder):
    server = serve(folder)
    log = server.client(1).open("kept")
    log.log(b"synced")
    log.sync()
    log.log(b"perhaps")
    server.kill()
    with serve(folder) as server:
        log = server.client(1).open("kept")
        assert log.repaired is not None
        assert list(log)[0] == b"synced"


def what_is_no_request_is_told(folder):
    with serve(folder) as server:
        log = server.client(1).open("a")
        for op, parts, place in ((200, b"", 4), (2, b"", 11), (13, b"x", 11)):
            try:
                log.call(op, parts)
            except dlog.BadFrame as wrong:
                assert wrong.place == place, (op, wrong.place)
            else:
                raise AssertionError(op)
        log.log(b"still there")


def many_clients_stop_in_order(folder):
    with serve(folder) as server:
        for number in range(1, 50):
            server.client(number).open(f"log{number}").log(b"%d" % number)
        assert server.flush_all().what == "idle"
    with serve(folder) as server:
        for number in range(1, 50):
            log = server.client(7).open(f"log{number}")
            assert log.repaired is None and list(log) == [b"%d" % number]


SCENARIOS = (
    items_come_back_in_order,
    a_full_log_refuses_and_tells,
    a_wrap_log_rolls,
    a_block_keeps_the_calls_of_others,
    a_held_log_has_no_more_than_its_blocks,
    a_hundred_thousand_items_pipelined,
    what_was_synced_stays_after_a_kill,
    what_is_no_request_is_told,
    many_clients_stop_in_order,
)


def run(scenario, *arguments):
    with tempfile.TemporaryDirectory() as folder:
        scenario(*arguments, folder)
    print("python:", scenario.__name__.replace("_", " "), flush=True)


for each in SCENARIOS:
    run(each)
for each in ends_python.SCENARIOS + devices_python.SCENARIOS:
    run(each, PROGRAM)
