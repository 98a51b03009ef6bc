"""Frames that a program should not write: each byte of each example to each value, each prefix, and
random frames. The server serves them to the end, and each answer has the tag of a request, or none,
and a kind of the page; a place that is told has its form. Whether the parts of an answer are right is
not looked at. Words: the program, and a seed."""
import os
import random
import struct
import subprocess
import sys

HERE = os.path.dirname(os.path.abspath(__file__))
PROGRAM = sys.argv[1]
SEED = int(sys.argv[2]) if len(sys.argv) > 2 else 1
FRAMES = 20_000


def examples():
    """The requests of the page: each line of the form `    > HEX`."""
    with open(os.path.join(HERE, "..", "..", "docs", "PROTOCOL.md"), encoding="ascii") as page:
        for line in page:
            if line.startswith("    > "):
                yield bytes.fromhex(line[6:].split("  ")[0])


def frame(text):
    return struct.pack(">I", len(text)) + text


def answers(stream):
    """The frames that a server in memory answers to a stream, and its status."""
    done = subprocess.run([PROGRAM, "serve"], input=stream, stdout=subprocess.PIPE, timeout=300,
                          stderr=subprocess.DEVNULL, check=False)
    at, texts = 0, []
    while at < len(done.stdout):
        (length,) = struct.unpack_from(">I", done.stdout, at)
        assert at + 4 + length <= len(done.stdout), "an answer is cut short"
        texts.append(done.stdout[at + 4:at + 4 + length])
        at += 4 + length
    return texts, done.returncode


def check(texts, what):
    """Serves texts one after another, each of which is answered by its tag or tells of its place."""
    stream = b"".join(map(frame, texts)) + frame(struct.pack(">IB", 0xFFFFFFFE, 17))
    said, status = answers(stream)
    assert status == 0, (what, status)
    assert said and any(text[:5] == b"\xff\xff\xff\xfe\x0a" for text in said), what
    tags = {text[:4].rjust(4, b"\0") if len(text) >= 4 else b"\0\0\0\0" for text in texts}
    for text in said:
        kind = text[4]
        known = text[:4] in tags or text[:4] in (b"\0\0\0\0", b"\xff\xff\xff\xfe")
        assert known and (kind <= 14 or kind == 63 or 64 < kind < 90 or kind == 128), (what, text)
    wrong = [text for text in said if text[4] == 63]
    for text in wrong:
        assert len(text) == 9, (what, text)
    return len(wrong)


def main():
    pages = [example[4:] for example in examples()]
    assert pages, "the page has no example"
    changed, wrong = 0, 0
    for page in pages:
        texts = [page[:at] + bytes([value]) + page[at + 1:]
                 for at in range(len(page)) for value in range(256)]
        wrong += check(texts, page.hex())
        changed += len(texts)
    prefixes = [page[:length] for page in pages for length in range(len(page))]
    assert check(prefixes, "prefixes") >= len(prefixes) - 2 * len(pages)
    rand = random.Random(SEED)
    texts = []
    for _ in range(FRAMES):
        page = bytearray(rand.choice(pages))
        for _ in range(rand.randrange(4)):
            page[rand.randrange(len(page))] = rand.randrange(256)
        texts.append(bytes(page[:rand.randrange(len(page) + 1)])
                     + rand.randbytes(rand.randrange(8)))
    check(texts, "random")
    for cut in range(1, 30):
        stream = b"".join(map(frame, pages))
        said, status = answers(stream[:-cut])
        assert status == 0 and said, cut
    for length in (0xFFFFFFFF, 16_777_217):
        said, status = answers(frame(pages[0]) + struct.pack(">I", length) + b"x")
        assert status == 1 and said[-1] == b"\0\0\0\0\x3f\0\0\0\0", (length, said)
    print(f"hostile: {changed} changed frames, {wrong} of them no request; {len(prefixes)} prefixes,"
          f" {FRAMES} random frames (seed {SEED})")


main()
