"""Which calls of a run are made to fail."""
from dataclasses import dataclass

ERRORS = ("EIO", "ENOSPC")
# That too many files are open.
CROWDED = "EMFILE"
# dlog writes its answers by `write` too, so this call fails once alone.
NEVER_ON = ("write",)


@dataclass
class Plan:
    """Faults as texts of strace's option `inject`, and whether they are over before the turns at the end of the script."""

    texts: list
    is_over: bool


def calls_of(run, last):
    """The calls of the lines of a run up to a line."""
    return [call for step in run.steps[:last] for call in step]


def once(call, error):
    return Plan([f"{call.name}:error={error}:when={call.count}"], True)


def window(call, error, count):
    return Plan([f"{call.name}:error={error}:when={call.count}..{call.count + count - 1}"], False)


def on(call, error):
    return Plan([f"{call.name}:error={error}:when={call.count}+"], False)


def dead(calls, first, last, error):
    """All calls from one on fail, up to another one of the run without faults or to the end."""
    texts = []
    for name in sorted({call.name for call in calls} - {*NEVER_ON}):
        counts = [call.count for call in calls[first:] if call.name == name]
        if not counts:
            continue
        if last is None:
            texts.append(f"{name}:error={error}:when={counts[0]}+")
        else:
            until = [call.count for call in calls[first:last] if call.name == name]
            if until:
                texts.append(f"{name}:error={error}:when={until[0]}..{until[-1]}")
    return Plan(texts, False)


def now_and_then(calls, pick):
    """Calls of some kinds fail again and again, and pass between."""
    kinds = sorted({call.name for call in calls} - {*NEVER_ON})
    texts = []
    for name in pick.sample(kinds, min(len(kinds), pick.randint(1, 4))):
        first = pick.choice([call.count for call in calls if call.name == name])
        texts.append(f"{name}:error={pick.choice(ERRORS)}:when={first}+{pick.randint(2, 9)}")
    return Plan(texts, False)


def error_of(call, pick):
    return CROWDED if call.name == "openat" and pick.random() < 0.2 else pick.choice(ERRORS)


def plans(run, last, pick, most):
    """Plans for a run: each call once, or a sample of so many, and others that last longer."""
    calls = calls_of(run, last)
    if not calls:
        return
    sample = calls if len(calls) <= most else pick.sample(calls, most)
    for call in sample:
        yield once(call, error_of(call, pick))
    lasting = [call for call in calls if call.name not in NEVER_ON]
    for call in pick.sample(lasting, min(len(lasting), most // 4)):
        error = error_of(call, pick)
        yield window(call, error, pick.randint(2, 6)) if pick.random() < 0.5 else on(call, error)
    for first in pick.sample(range(len(calls)), min(len(calls), most // 6)):
        last = None if pick.random() < 0.5 else min(len(calls), first + pick.randint(2, 30))
        yield dead(calls, first, last, pick.choice(ERRORS))
        yield now_and_then(calls, pick)
