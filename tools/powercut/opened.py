"""Opens what is left by the built program, and compares what it says with what the files say."""
import os
import re
import subprocess

import record
from model import Model
from truth import families

MOST_SECONDS = 60
MOST_CHUNKS = 300
BLOCKS = 4
ZEROS = re.compile(r"(\S+) zeros\b.*")
COUNTED = re.compile(r"(\S+) miscounted: it was closed with \d+ items and has (\d+)")
TOLD = re.compile(r"(\S+) (halt|wrap) (.*)")
AMOUNT = re.compile(r"files=(\d+) items=(\d+) bytes=\d+ bad=(\d+)(?: miscounted=(\d+))? (.*)")
REPAIR = re.compile(r"needs repair: (\d+) items kept, (\d+) bytes bad")


def answers(command, text=b""):
    """The lines that a command prints, what it tells on standard error, and its status."""
    try:
        ran = subprocess.run(command, input=text, capture_output=True, timeout=MOST_SECONDS, check=False)
    except subprocess.TimeoutExpired:
        return [], "it did not end", None
    return ran.stdout.decode().splitlines(), ran.stderr.decode().strip(), ran.returncode


def questions(model, texts):
    """An open of each log, chunks up to its end, an info and a close, each with the answer that the files stand for."""
    asked = []

    def ask(line):
        asked.append((line, model.line(line)))
        return asked[-1][1]

    for at, (base, kind) in enumerate(families(texts)):
        if not ask(f"1 open n{at} {kind} base={base}").startswith(("opened", "repaired")):
            continue
        answer = ask(f"1 chunk n{at} start 99")
        while answer.startswith("items") and len(asked) < MOST_CHUNKS:
            answer = ask(f"1 chunk n{at} next 99")
        ask(f"1 info n{at}")
        ask(f"1 close n{at}")
    return asked


def why_not_told(found, line):
    """Why what `dlog check` tells of a log is not what its files say, or None."""
    if found.refusal:
        return None if line == f"refused: {found.refusal}" else f"{found.refusal}, and check tells {line}"
    match = AMOUNT.fullmatch(line)
    if not match:
        return f"check tells {line}"
    files, items, bad, wrong, state = match.groups()
    older = found.files[:-1]
    counts = (sum(len(it.items) for it in found.files), sum(it.bad for it in found.files))
    if (int(items), int(bad)) != counts or int(files) > len(found.files):
        return f"{counts[0]} items and {counts[1]} bad bytes, and check tells {line}"
    if found.needs_repair:
        repair = REPAIR.fullmatch(state)
        kept = (len(found.files[-1].items), found.files[-1].bad)
        return None if repair and tuple(map(int, repair.groups())) == kept else f"a repair keeps and cuts {kept}: {line}"
    miscounted = sum(it.miscounted for it in older)
    word = "damaged" if any(it.bad for it in older) else "miscounted" if miscounted else "clean"
    return None if state == word and int(wrong or 0) == miscounted else f"{word}, and check tells {line}"


def torn(found):
    """The last files of logs that need a repair, by name."""
    for (base, _), log in found.items():
        if log.needs_repair and not log.refusal:
            yield f"{base}.{log.files[-1].number or 'log'}", log.files[-1]


def zeros(found):
    """The files of which check has to tell that their last item is of zeros."""
    for name, last in torn(found):
        if last.items and last.items[-1] and not any(last.items[-1]):
            yield name


def counted(found):
    """The files of which check has to tell that they were closed with another number of items, and how many they have."""
    for name, last in torn(found):
        if last.miscounted:
            yield name, str(len(last.items))


def why_not_checked(program, folder, found):
    """Why `dlog check` does not tell what the files say, or None."""
    lines, told, _ = answers([program, "check", folder])
    if told:
        return f"check: {told}"
    logs = {match.group(1, 2): match.group(3) for match in map(TOLD.fullmatch, lines) if match}
    if set(logs) != set(found):
        return f"check tells {sorted(logs)}, and there are {sorted(found)}"
    for family, line in logs.items():
        reason = why_not_told(found[family], line)
        if reason:
            return f"{'.'.join(family)}: {reason}"
    wanted, given = sorted(zeros(found)), sorted(match.group(1) for match in map(ZEROS.fullmatch, lines) if match)
    if wanted != given:
        return f"check tells zeros of {given}, and they are in {wanted}"
    wanted, given = sorted(counted(found)), sorted(match.groups() for match in map(COUNTED.fullmatch, lines) if match)
    return None if wanted == given else f"check tells other counts of {given}, and they are of {wanted}"


def why_not_run(program, folder, texts):
    """Why `dlog run` does not answer what the files stand for, or leaves others than it has to, or None."""
    model = Model(dict(texts), BLOCKS)
    asked = questions(model, texts)
    script = "".join(f"{line}\n" for line, _ in asked).encode()
    given, told, status = answers([program, "run", "--folder", folder, "--blocks", str(BLOCKS)], script)
    if told or status:
        return f"run: {told} status {status}"
    for (line, wanted), answer in zip(asked, [*given, *["nothing"] * len(asked)]):
        if answer != wanted:
            return f"{line}: {answer[:200]}, and not {wanted[:200]}"
    left, wanted = (
        {name: text for name, text in it.items() if not name.endswith(".new")} for it in (record.there(folder), model.disk)
    )
    names = [name for name in {*left, *wanted} if left.get(name) != wanted.get(name)]
    return f"the open left other files than it has to: {' '.join(sorted(names))}" if names else None


def why_not(program, folder, texts, found):
    """Why the program does not read what is left as its files say, or None. The folder is left as the program left it."""
    record.lay(os.path.realpath(folder), texts)
    return why_not_checked(program, folder, found) or why_not_run(program, folder, texts)
