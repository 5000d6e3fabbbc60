"""The station's lines of the audit trail, and a copy of the guard's file, with which they can be compared."""
import bisect
import contextlib
import os
import shutil
import sqlite3
import sys
import time

from vethlumi_common import files
from vethlumi_common.ssh import BadFormat, fingerprint
from vethlumi_common.subjects import at_serial
from vethlumi_common.trail import line_of

from .files import state_of
from .journal import print_line, printable
from .limits import LONGEST_PAUSE, MOST_REMEMBERED


def fields_of(body):
    """What a body says of itself, as far as it is one."""
    with contextlib.suppress(BadFormat):
        it = at_serial(body)
        it.number(8)
        kind, key_id, principals = it.number(4), it.string().decode("latin-1"), it.strings()
        return {"kind": {1: "user", 2: "host"}.get(kind), "keyid": key_id, "department": key_id.partition("/")[0],
                "principals": [name.decode("latin-1") for name in principals], "after": it.number(8),
                "before": it.number(8), "ca": fingerprint(body[-51:])}
    return {}


class Runs:
    """Numbers, as runs of those that follow one another: serials mostly do."""

    def __init__(self):
        self.firsts, self.lasts = [], []

    def add(self, number):
        """Adds a number. Returns whether it is new, and None if it can't be remembered."""
        at = bisect.bisect_right(self.firsts, number)
        if at and number <= self.lasts[at - 1]:
            return False
        follows = at and self.lasts[at - 1] == number - 1
        leads = at < len(self.firsts) and self.firsts[at] == number + 1
        if follows and leads:
            self.lasts[at - 1] = self.lasts.pop(at)
            del self.firsts[at]
        elif follows:
            self.lasts[at - 1] = number
        elif leads:
            self.firsts[at] = number
        elif len(self.firsts) == MOST_REMEMBERED:
            return None
        else:
            self.firsts.insert(at, number)
            self.lasts.insert(at, number)
        return True


class Trail:
    """Says what became of each body and list, if that is wanted. The first approval of a serial is always said. What
    else there is, an office can have repeated without end: it is said if there is room, and what isn't said is
    counted."""

    def __init__(self, is_wanted, room):
        self.is_wanted, self.room, self.approved, self.left_out = is_wanted, room, Runs(), 0
        # What was last said of a list.
        self.list = None

    def body(self, row, body, outcome, reason=None):
        """Says what became of a body: `signed`; `approved`, if the guard has it without a signature; `refused`."""
        if not self.is_wanted:
            return
        serial, digest = row.split(" ")
        is_new = outcome != "refused" and self.approved.add(int(serial))
        self.say(bool(is_new), "signature", outcome, reason=reason, serial=int(serial), digest=digest,
                 repeated=is_new is False and outcome != "refused", **fields_of(body))

    def of_list(self, outcome, **fields):
        """Says what became of a list, unless that was the last thing that was said of one."""
        if self.is_wanted and (outcome, fields) != self.list:
            self.list = outcome, fields
            self.say(outcome == "published", "list", outcome, **fields)

    def say(self, is_due, event, outcome, **fields):
        line = line_of("station", event, outcome, **fields)
        if not (is_due or self.room.takes(line)):
            self.left_out += 1
            return
        if self.left_out:
            print_line(line_of("station", event, "left out", count=self.left_out).rstrip("\n"), sys.stdout)
            self.left_out = 0
        print_line(line.rstrip("\n"), sys.stdout)


class Copy:
    """A copy of the guard's file, which the guard keeps locked. It is made again whenever it isn't there."""

    def __init__(self, db, path, said):
        self.db, self.path, self.said, self.due = db, path, said, 0

    def make_if_missing(self):
        """Makes the copy. The guard has answered all that it was asked, and writes nothing until it is asked again."""
        if not self.path or time.monotonic() < self.due or os.path.lexists(self.path):
            return
        try:
            self.make(f"{self.path}.new")
            self.said.say({})
        except (OSError, sqlite3.Error) as fault:
            self.due = time.monotonic() + LONGEST_PAUSE
            why = f"no copy of {self.db} is made: {printable(fault)}"
            self.said.say({why: why})

    def make(self, new):
        names = [it for it in ("", "-wal") if os.path.exists(self.db + it)]
        before = [state_of(self.db + it) for it in names]
        with contextlib.suppress(FileNotFoundError):
            os.unlink(f"{new}-wal")
        for it in names:
            shutil.copyfile(self.db + it, new + it)
        if before != [state_of(self.db + it) for it in names]:
            raise OSError("the file changes meanwhile")
        # The log becomes a part of the copy.
        with contextlib.closing(sqlite3.connect(new)) as database:
            database.execute("PRAGMA wal_checkpoint(TRUNCATE)")
        files.sync_path(new)
        # The log of one that was removed, and that somebody has read, would be taken for this one's.
        for it in ("-wal", "-shm"):
            with contextlib.suppress(FileNotFoundError):
                os.unlink(self.path + it)
        os.rename(new, self.path)
        files.sync_path(os.path.dirname(os.path.abspath(self.path)))
