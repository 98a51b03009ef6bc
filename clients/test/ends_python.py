"""Scenarios of how a server starts and ends, by the Python client, and of threads that share one."""
import os
import resource
import signal
import subprocess
import sys
import threading

sys.path.insert(0, os.path.join(os.path.dirname(os.path.abspath(__file__)), "..", "python"))
import dlog  # noqa: E402

PATIENCE = 60
MANY = 1000
# A program that logs, reports so, and waits for its end within its block.
VICTIM = f"""
import signal, sys
signal.signal(signal.SIGINT, signal.default_int_handler)
signal.signal(signal.SIGHUP, signal.SIG_DFL)
sys.path.insert(0, {os.path.dirname(dlog.__path__[0])!r})
import dlog
with dlog.Server(*sys.argv[1:]) as server:
    log = server.client(1).open("kept")
    log.log_many(b"%d" % number for number in range({MANY}))
    print("logged", flush=True)
    sys.stdin.read()
"""


def raised(kind, call, *arguments, **named):
    """The exception of a kind that a call raises."""
    try:
        call(*arguments, **named)
    except kind as error:
        return error
    raise AssertionError(f"{call} raises no {kind}")


def a_signal_to_the_group_spares_the_server(program, folder):
    for number in (signal.SIGINT, signal.SIGTERM, signal.SIGHUP, signal.SIGKILL):
        own = os.path.join(folder, str(number))
        os.mkdir(own)
        pipe = subprocess.PIPE
        with subprocess.Popen([sys.executable, "-B", "-c", VICTIM, own, program], stdin=pipe, stdout=pipe,
                              stderr=subprocess.DEVNULL, start_new_session=True) as victim:
            assert victim.stdout.readline() == b"logged\n"
            os.killpg(victim.pid, number)
            assert victim.wait(PATIENCE) != 0
        with dlog.Server(own, program, wait=PATIENCE) as server:
            log = server.client(1).open("kept")
            assert log.repaired is None and len(list(log)) == MANY, number
            if number != signal.SIGKILL:
                os.kill(server.pid, number)
                log.log(b"later")


def a_killed_server_is_reported_to_each_caller(program, folder):
    server = dlog.Server(folder, program)
    log = server.client(1).open("busy")
    reported, begun = [], threading.Semaphore(0)

    def write():
        try:
            for _ in iter(int, 1):
                log.log(b"x" * 10_000)
                begun.release()
        except dlog.Gone as gone:
            reported.append(gone.status)

    writers = [threading.Thread(target=write) for _ in range(8)]
    for writer in writers:
        writer.start()
    for _ in range(50):
        assert begun.acquire(timeout=PATIENCE)
    os.kill(server.pid, signal.SIGKILL)
    for writer in writers:
        writer.join(PATIENCE)
    assert reported == [-signal.SIGKILL] * 8, reported
    idle = dlog.Server(folder, program)
    log = idle.client(1).open("busy")
    os.kill(idle.pid, signal.SIGKILL)
    assert raised(dlog.Gone, lambda: [log.info() for _ in iter(int, 1)]).status == -signal.SIGKILL


def descriptors():
    return len(os.listdir("/proc/self/fd"))


def a_server_reports_why_it_does_not_start(program, folder):
    missing = os.path.join(folder, "missing")
    assert "no such program" in str(raised(dlog.NotStarted, dlog.Server, folder, missing))
    no_folder = raised(dlog.NotStarted, dlog.Server, missing, program)
    assert no_folder.status == 1 and "missing" in no_folder.words, no_folder
    with dlog.Server(folder, program):
        in_use = raised(dlog.NotStarted, dlog.Server, folder, program)
        assert in_use.status == 1 and "another program" in str(in_use), in_use
    assert raised(dlog.NotStarted, dlog.Server, folder, program, blocks="many").status == 2
    own, (soft, hard) = descriptors(), resource.getrlimit(resource.RLIMIT_NOFILE)
    words = set()
    for most in range(own - 1, own + 12):
        resource.setrlimit(resource.RLIMIT_NOFILE, (most, hard))
        try:
            dlog.Server(folder, program).stop()
        except dlog.NotStarted as error:
            words.add(str(error).rsplit(": ", 1)[-1])
        finally:
            resource.setrlimit(resource.RLIMIT_NOFILE, (soft, hard))
        assert descriptors() == own, most
    assert "[Errno 24] Too many open files" in words, words


def a_client_refuses_what_no_server_reads(program, folder):
    with dlog.Server(folder, program) as server:
        client = server.client(1)
        log = client.open("a")
        longest = b"x" * dlog.ITEM_LIMIT
        assert "1048576" in str(raised(ValueError, log.log, longest + b"x"))
        assert "16777216" in str(raised(dlog.Invalid, log.log, *[longest] * 16))
        for name in ("", "a b", "a/b", "\xe4", "x" * 65):
            raised(dlog.Invalid, client.open, name)
            raised(dlog.Invalid, client.open, "b", base=name)
        raised(dlog.Invalid, server.client, -1)
        for call in (log.log, log.alog, log.send_log, log.log_synced):
            assert "at least one" in str(raised(dlog.Invalid, call))
        log.log(*[longest] * 15)
        assert list(log) == [longest] * 15


def two_servers_of_one_program_end_alone(program, folder):
    folders = [os.path.join(folder, name) for name in "ab"]
    for name in folders:
        os.mkdir(name)
    first, second = (dlog.Server(name, program) for name in folders)
    log = second.client(1).open("a")
    assert first.stop(timeout=PATIENCE) == 0
    log.log(b"still here")
    assert second.stop(timeout=PATIENCE) == 0


def a_child_keeps_no_server_open(program, folder):
    server = dlog.Server(folder, program)
    log = server.client(1).open("a")
    asks, answers = os.pipe(), os.pipe()
    forked = os.fork()
    if forked == 0:
        os.close(asks[1])
        is_gone = isinstance(raised(dlog.Error, log.log, b"of the child"), dlog.Gone)
        os.write(answers[1], b"1" if is_gone else b"0")
        os.read(asks[0], 1)
        os._exit(0)
    os.close(asks[0])
    assert os.read(answers[0], 1) == b"1"
    with subprocess.Popen(["cat"], stdin=subprocess.PIPE) as started:
        log.log(b"of the parent")
        assert server.stop(timeout=PATIENCE) == 0
        started.stdin.close()
    os.close(asks[1])
    os.waitpid(forked, 0)


def threads_share_a_server(program, folder):
    def write(number):
        client = server.client()
        log = client.open("shared")
        for item in range(200):
            log.log(b"%d %d" % (number, item))
        log.sync()
        own = [item for item in log if item.startswith(b"%d " % number)]
        assert own == [b"%d %d" % (number, item) for item in range(200)]
        done.append(client.number)

    done = []
    with dlog.Server(folder, program, timeout=PATIENCE) as server:
        threads = [threading.Thread(target=write, args=(number,)) for number in range(8)]
        for thread in threads:
            thread.start()
        for thread in threads:
            thread.join()
        assert len(set(done)) == 8, done


def a_call_ends_at_its_time_limit(program, folder):
    with dlog.Server(folder, program) as server:
        log = server.client(1).open("a")
        os.kill(server.pid, signal.SIGSTOP)
        server.timeout = 0.2
        raised(TimeoutError, log.log, b"late")
        raised(dlog.TimedOut, log.log, *[b"x" * dlog.ITEM_LIMIT] * 10)
        os.kill(server.pid, signal.SIGCONT)
        server.timeout = PATIENCE
        log.log(b"last")
        assert [len(item) for item in log] == [4] + [dlog.ITEM_LIMIT] * 10 + [4]


def a_place_outlives_its_server(program, folder):
    with dlog.Server(folder, program) as server:
        log = server.client(1).open("a")
        log.log(b"one", b"two", b"three")
        place = bytes(log.chunk(most=2).next)
        raised(dlog.Invalid, log.chunk, place[:5])
    with dlog.Server(folder, program) as server:
        assert server.client(1).open("a").chunk(place).items == [b"three"]


def a_server_that_has_ended_starts_again(program, folder):
    with dlog.Server(folder, program) as server:
        client = server.client(7)
        halt = client.open("halt", size=1000, repair="truncate")
        ring = client.open("ring", size=(100, 3), notify=True)
        client.open("closed").close()
        halt.change_size(2000)
        halt.log(b"kept")
        halt.sync()
        assert server.restart() == []
        os.kill(server.pid, signal.SIGSTOP)
        sent = halt.send_sync()
        server.kill()
        assert raised(dlog.Gone, server.answer, sent).may_be_done
        assert not raised(dlog.Gone, halt.log, b"lost").may_be_done
        assert not raised(dlog.Gone, halt.log_synced, b"lost").may_be_done
        again = server.restart(wait=PATIENCE)
        assert [(it.client, it.log) for it in again] == [(7, "halt"), (7, "ring")], again
        assert not any(isinstance(it.outcome, dlog.Error) for it in again), again
        assert list(halt) == [b"kept"] and halt.info().size == 2000
        assert ring.info().owners == [(7, True)]
        halt.log_synced(b"synced")
        os.kill(server.pid, signal.SIGSTOP)
        sent = [halt.send_log(b"sent") for _ in range(9)]
        server.kill()
        server.restart(wait=PATIENCE)
        later = [halt.send_sync() for _ in range(99)]
        for tag in sent:
            assert raised(dlog.Gone, server.answer, tag).may_be_done
        assert [server.answer(tag) for tag in later] == [None] * 99 and list(halt) == [b"kept", b"synced"]
        raised(KeyError, server.answer, sent[0])


def a_server_waits_for_its_folder(program, folder):
    server = dlog.Server(folder, program)
    raised(dlog.NotStarted, dlog.Server, folder, program, wait=0.2)
    timer = threading.Timer(0.3, server.stop)
    timer.start()
    with dlog.Server(folder, program, wait=PATIENCE) as second:
        second.client(1).open("a").log(b"first")
    timer.join()


SCENARIOS = (
    a_signal_to_the_group_spares_the_server,
    a_killed_server_is_reported_to_each_caller,
    a_server_reports_why_it_does_not_start,
    a_client_refuses_what_no_server_reads,
    two_servers_of_one_program_end_alone,
    a_child_keeps_no_server_open,
    threads_share_a_server,
    a_call_ends_at_its_time_limit,
    a_place_outlives_its_server,
    a_server_that_has_ended_starts_again,
    a_server_waits_for_its_folder,
)
