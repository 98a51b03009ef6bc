"""How many items of 100 bytes a second the Python client logs, one call at a time and with 64 under way.
Words: the program, an empty folder, and a number of items. Prints `name: items a second`."""
import os
import sys
import time

sys.path.insert(0, os.path.join(os.path.dirname(os.path.abspath(__file__)), "..", "..", "clients", "python"))
import dlog  # noqa: E402


def run(server, log, name, items, write):
    log = server.client(1).open(log)
    start = time.monotonic()
    write(log, items)
    log.close()
    print(f"{name}: {len(items) / (time.monotonic() - start):.0f}")


def one_at_a_time(log, items):
    for item in items:
        log.log(item)


def main(program, folder, count):
    items = [b"%0100d" % number for number in range(int(count))]
    with dlog.Server(folder, program) as server:
        run(server, "one", "python_one_at_a_time", items[:len(items) // 20], one_at_a_time)
        run(server, "ahead", "python_64_under_way", items, dlog.Log.log_many)


main(*sys.argv[1:])
