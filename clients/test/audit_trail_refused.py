"""Plays the example of an audit trail with requests that no log takes, and with a device that is full. Words:
the program, and an empty folder. What is printed always holds."""
import os
import subprocess
import sys
import time

HERE = os.path.dirname(os.path.abspath(__file__))
SERVICE = os.path.join(HERE, "..", "examples", "audit_trail.py")
PROGRAM, ROOM = sys.argv[1:3]
REQUESTS = 60
LONGEST = 1_048_576
# A program whose files become no longer than 4,096 bytes, until its soft limit is raised.
LIMITED = f"#!/bin/sh\nulimit -S -f 8\nexec '{PROGRAM}' \"$@\"\n"


def script(name, text):
    path = os.path.join(ROOM, name)
    with open(path, "w", encoding="ascii") as file:
        file.write(text)
    os.chmod(path, 0o755)
    return path


class Run:
    """The service over a folder of its own, with what it says on standard error in a file."""

    def __init__(self, name, program, patience):
        self.folder, self.said = os.path.join(ROOM, name), os.path.join(ROOM, name + ".said")
        os.mkdir(self.folder)
        around = dict(os.environ, PYTHONPATH=os.path.join(HERE, "..", "python"), PATIENCE=str(patience))
        with open(self.said, "wb") as said:
            self.service = subprocess.Popen([sys.executable, "-B", SERVICE, self.folder, program], env=around,
                                            stdin=subprocess.PIPE, stdout=subprocess.PIPE, stderr=said)

    def words(self):
        with open(self.said, "rb") as said:
            return said.read().decode().splitlines()

    def server(self):
        self.wait_for_words("the log server is process")
        return self.words()[0].split()[-1]

    def answer_first(self):
        """Has the first request answered: then the logs of all threads are open."""
        self.service.stdin.write(requests()[0] + b"\n")
        self.service.stdin.flush()
        assert self.service.stdout.readline() == b"0\n"

    def kill_server(self):
        subprocess.run(["kill", "-s", "KILL", self.server()], check=True)

    def wait_for_words(self, words):
        for _ in range(6000):
            if any(words in line for line in self.words()):
                return
            time.sleep(0.01)
        raise AssertionError(self.words())

    def end(self, requests):
        """The status after these requests, the numbers that were answered, and those that were said not to be."""
        said, _ = self.service.communicate(b"".join(it + b"\n" for it in requests), timeout=60)
        refused = [line for line in self.words() if line.startswith("request ")]
        return self.service.returncode, sorted(map(int, said.split())), sorted(int(it.split()[1]) for it in refused)

    def kept(self):
        dump = subprocess.run([PROGRAM, "dump", self.folder, "audit"], stdout=subprocess.PIPE,
                              stderr=subprocess.DEVNULL, check=False)
        return dump.stdout.splitlines()


def requests():
    return [b"%d %0100d" % (number, number) for number in range(REQUESTS)]


def report(what, status, answered, refused, kept):
    lost = set(answered) - {int(line.split()[0]) for line in kept}
    print(f"{what}: status {status}; each is answered or reported: {sorted(answered + refused) == list(range(REQUESTS))}; "
          f"all are answered: {not refused}; answered and missing: {len(lost)}")


def main():
    run = Run("odd", PROGRAM, 60)
    status, answered, refused = run.end([b"0 \xe4\xff", b"1 " + b"x" * LONGEST, b"2 " + b"x" * (LONGEST - 2), b"3"])
    print(f"odd requests: status {status}, answered {answered}, reported {refused}")
    print(sorted(line[:20] for line in run.kept()))

    run = Run("room", script("limited", LIMITED), 60)
    run.service.stdin.write(b"".join(it + b"\n" for it in requests()))
    run.service.stdin.flush()
    run.wait_for_words("could not be written")
    time.sleep(0.5)
    subprocess.run(["prlimit", "--pid", run.server(), "--fsize=unlimited"], check=True)
    report("a full device that has room again", *run.end([]), run.kept())

    run = Run("full", script("limited", LIMITED), 0.1)
    status, answered, refused = run.end(requests())
    report("a device that stays full", status, answered, refused, run.kept())

    run = Run("gone", script("once", f"#!/bin/sh\nexec '{PROGRAM}' \"$@\"\n"), 0.02)
    run.answer_first()
    script("once", "#!/bin/sh\nexit 1\n")
    run.kill_server()
    status, answered, refused = run.end(requests()[1:])
    report("a server that does not start again", status, [0] + answered, refused, run.kept())

    run = Run("other", PROGRAM, 0.02)
    run.answer_first()
    run.kill_server()
    with open(os.path.join(run.folder, "audit.log"), "wb") as file:
        file.write(b"a file that is no log's\n")
    status, answered, refused = run.end(requests()[1:])
    report("a log that is not opened again", status, [0] + answered, refused, [b"0"])
    said = sum("is not open again: E10 not_a_log_file audit.log" in line for line in run.words())
    print("each client's open is reported:", said == 8)


if __name__ == "__main__":
    main()
