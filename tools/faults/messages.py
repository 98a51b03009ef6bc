"""What `dlog append` tells, read from its messages."""
import re
from dataclasses import dataclass

REPAIRED = re.compile(r"dlog: a: repaired: (\d+) items kept, (\d+) bytes cut(?:; a\.(\S+) was closed with (\d+) items)?")
FINISHED = re.compile(r"dlog: a: the device failed at (\S+) as the log was closed: it was tried again, and all was written")
TAKEN = re.compile(r"dlog: a: (E\S+ \S+(?: \S+)?): (\d+) (line|item)s were taken, \3 (\d+) was not")
ALL = re.compile(r"dlog: a: (E\S+ \S+(?: \S+)?): all (\d+) (?:line|item)s were taken, but (.*)")
REFUSED = re.compile(r"dlog: a: (E24 device_fault \S+)")
STAGES = ("the last were not put on the device", "the log was not closed")
LOST = re.compile(r"the close was tried again in vain: what waited in memory is lost, and the files have the (?:line|item)s before that")
ON_DEVICE = "all that were taken are on the device"
IN_LOG = "all that were taken are in the log, which was closed, and may not be on the device yet"
COUNTED = re.compile(
    r"(?:the first (\d+) are|none is known to be) on the device, and (?:others|some) may be lost: dlog check \S+ a counts what is there"
)
NO_ROOM = "a greater --size, or none, gives it room; in a script of dlog run, truncate empties it"
FULL = "E14 full"
MAY_BE = re.compile(r"(?:line|item) (\d+) may be in the log all the same: dlog check \S+ a counts what is there")


@dataclass
class Told:
    """What an append told: what it repaired, with how many items which file was closed, if that was another number, the file at which the first try to close the log failed if a later one did not, its
    refusal with how many items it took, or None if it told no number, and at which stage, whether the log was not closed, how many
    items are said to be on the device, in words and in a number, the item that may be in the log though it was not taken, and what
    else."""

    repair: str = None
    closed: tuple = None
    finished: str = None
    refusal: str = None
    taken: int = None
    stage: str = None
    is_lost: bool = False
    kept: str = None
    synced: int = 0
    may_be: int = None
    rest: list = None


def taken_of(told, lines):
    """Reads where an append stopped."""
    if match := TAKEN.fullmatch(lines[0]):
        told.refusal, told.taken = match[1], int(match[2])
        told.stage = "item" if int(match[4]) == told.taken + 1 else "another item"
    elif match := ALL.fullmatch(lines[0]):
        told.refusal, told.taken, told.stage = match[1], int(match[2]), match[3]
    elif match := REFUSED.fullmatch(lines[0]):
        told.refusal = match[1]
    else:
        return lines
    return lines[1:]


def told_of(lines):
    """Reads the messages of an append; those that are none of its forms are the rest."""
    told = Told()
    if lines and (match := REPAIRED.fullmatch(lines[0])):
        told.repair, lines = f"repaired {match[1]} {match[2]}", lines[1:]
        told.closed = (match[3], int(match[4])) if match[3] else None
    if lines and (match := FINISHED.fullmatch(lines[0])):
        told.finished, lines = match[1], lines[1:]
    lines = taken_of(told, lines) if lines else lines
    if lines and LOST.fullmatch(lines[0]):
        told.is_lost, lines = True, lines[1:]
    if lines and lines[0] in (ON_DEVICE, IN_LOG):
        told.kept, lines = lines[0], lines[1:]
        told.synced = told.taken if told.kept == ON_DEVICE else 0
    elif lines and (match := COUNTED.fullmatch(lines[0])):
        told.kept, told.synced, lines = "counted", int(match[1] or 0), lines[1:]
    if lines and (match := MAY_BE.fullmatch(lines[0])):
        told.may_be, lines = int(match[1]), lines[1:]
    told.rest = lines
    return told
