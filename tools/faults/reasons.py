"""What `dlog run` and `dlog serve` say of calls that failed, read from their messages: a line with the file and the reason, and one
of what is safe and what to do. Each reason is said once."""
import errno
import os
import re

from traced import MARKER

FAILED = re.compile(r"dlog: (\S+)/([^/ ]+) could not be ([a-z ]+): (.*)")
SAFE = re.compile(
    r"(nothing has changed|what was answered as done and is not yet written, if there is any, waits in memory, and is tried again as long as dlog runs|"
    r"what had this name before is as it was|its items are there|each file is there, under the old name or the new one|"
    r"it is there still|up to the last sync that was done all is on the device, and what came after may be lost): \S.*"
)
# What is said of a file that is moved, though the call on the other name failed.
MOVED = "given its new name"
# What is said of a sync that fails since an earlier one did.
LOST = "an earlier sync of it failed"


def text_of(error):
    """How a reason is said, by the name that strace has for it."""
    number = getattr(errno, error)
    return f"{os.strerror(number)} (os error {number})"


def base_of(file):
    return file.split(".")[0]


def why_not_so(file, undone, reason, failed):
    """Why a reason is none of the calls that failed, or None."""
    near = [call for call in failed if undone == MOVED or not call.files or base_of(file) in map(base_of, call.files)]
    if reason == LOST:
        return None if any(call.name in ("fsync", "fdatasync") for call in failed) else "no sync failed"
    if reason not in {text_of(call.error) for call in near}:
        return f"no call for {file} failed so: {reason}"
    return None


def why_not_said(told, folder, failed):
    """Why the lines that were said are not those of calls that failed, or None."""
    reasons = set()
    for line, advice in zip(told[::2], [*told[1::2], ""]):
        match = FAILED.fullmatch(line)
        if not match or match[1] != folder or not SAFE.fullmatch(advice):
            return f"it said: {line}: {advice}"
        # The calls for the markers between the lines are not among those of the lines.
        wrong = None if match[2].startswith(MARKER) else why_not_so(*match.groups()[1:], failed)
        if wrong:
            return wrong
        if match.group(2, 4) in reasons:
            return f"it is said twice: {line}"
        reasons.add(match.group(2, 4))
    return None
