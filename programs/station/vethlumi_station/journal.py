"""What a station says, and how often."""
import os
import re
import sys
import time

from .faults import Fault
from .limits import LONGEST_SERIALS, MOST_REMEMBERED, SAID_AT_ONCE, SAID_A_SECOND

# What is another text each time, in what a program or Python says, and what a terminal may not show.
CHANGING, UNPRINTABLE = re.compile(r" object at 0x[0-9a-f]+"), re.compile(r"[^ -~]")
# How much of a text is looked through for that: the time grows with the square of the length, and an office may send
# megabytes.
MOST_OF_A_TEXT = 1000


def printable(text):
    """At most 200 letters of a text, all of them such as a terminal may show. Where Python has an object in memory is
    left out: it would be another text each time."""
    return UNPRINTABLE.sub("?", CHANGING.sub("", str(text)[:MOST_OF_A_TEXT])[:200])


def print_line(line, file):
    """Prints a line. A station that can't say what it does ends."""
    try:
        print(line, file=file, flush=True)
    except OSError as fault:
        # Python would try to write it once more at its end.
        os.dup2(os.open(os.devnull, os.O_WRONLY), file.fileno())
        raise Fault(f"can't print '{line}': {fault.strerror or fault}") from None


def joined(serials):
    """Ascending serials, those that follow one another as a range: `4, 7-9`. Of too many, the first."""
    ranges = []
    for it in serials:
        if ranges and it <= ranges[-1][1] + 1:
            ranges[-1][1] = it
        elif len(ranges) > LONGEST_SERIALS:
            break
        else:
            ranges.append([it, it])
    text = ", ".join(str(first) if first == last else f"{first}-{last}" for first, last in ranges)
    return text if len(text) <= LONGEST_SERIALS else text[:LONGEST_SERIALS].rpartition(",")[0] + " .."


class Room:
    """How much may be said of what a front can make up."""

    def __init__(self):
        self.left, self.since = SAID_AT_ONCE, time.monotonic()

    def takes(self, line):
        """Whether there is room for a line, which it then takes."""
        now = time.monotonic()
        self.left = min(SAID_AT_ONCE, self.left + (now - self.since) * SAID_A_SECOND)
        self.since = now
        if self.left < len(line):
            return False
        self.left -= len(line)
        return True


class Said:
    """What was left undone, by reasons, and is reported as it changes. Only lines that are new are printed. The first
    of each of the guard's own reasons always is; all others are if there is room, or else as soon as there is."""

    def __init__(self, room):
        self.room, self.last, self.kinds = room, {}, set()

    def say(self, lines, own=(), wholes=None):
        """Reports the lines by their reasons, of which those in `own` can't be made up. A line that shows a part of
        something, which `wholes` has, is new if the whole has changed. Returns whether nothing is left."""
        self.last = {why: line for why, line in self.last.items() if why in lines}
        for why, line in lines.items():
            shown = line, (wholes or {}).get(why)
            if self.last.get(why) == shown:
                continue
            is_first = why in own and why not in self.kinds
            if is_first or self.room.takes(line):
                print_line(f"station: {line}", sys.stderr)
                self.last[why] = shown
                self.kinds |= {why} & {*own}
        return not lines


class Serials:
    """The serials of which something was said, so that it is said once of each."""

    def __init__(self, room):
        self.room, self.serials = room, set()

    def may_say(self, serial, line):
        """Whether this line of a serial is the first. Others are said if there is room."""
        if serial in self.serials or len(self.serials) == MOST_REMEMBERED:
            return self.room.takes(line)
        self.serials.add(serial)
        return True
