"""The lines of certificates that were issued just now: read from the office at a pace of our own, and kept for those
who ask again and again until the station has signed.

The front lets a caller read twenty times a second, and refuses what is beyond. So one thread reads, at most at this
pace, however many wait.
"""
import collections
import heapq
import ipaddress
import itertools
import threading
import time

from vethlumi.refusals import Refused

# Reads a second; seconds from an issue to the first read, and the longest pause between two of one serial.
PACE, FIRST, LONGEST_PAUSE = 18, 0.3, 4
# For how many seconds a serial is read again, and its line kept. For how many serials.
KEPT, MOST = 900, 4096
# How many serials that this process hasn't issued are read in a second: whoever asks, and for one source. What one leaves
# is as much as a client asks that waits for its signature.
STRANGE, STRANGE_OF_ONE = 5, 3


class Busy(Exception):
    """Too many ask for serials that weren't issued here."""


def source_of(address):
    """Who is counted as one, as the front does it: an IPv4 address, or a network of IPv6 of 64 bits."""
    try:
        found = ipaddress.ip_address(address)
    except ValueError:
        return address
    return address if found.version == 4 else str(ipaddress.ip_network((found, 64), strict=False))


class Lines:
    """`read(serial)` gives a line, and raises what the office module does. `suits(fields)` says which certificates are
    given away that this process hasn't issued, as far as it knows: it may have been started since."""

    def __init__(self, read, suits, pace=PACE, clock=time.monotonic):
        self.read, self.suits, self.pace, self.clock = read, suits, pace, clock
        self.changed = threading.Condition()
        self.due, self.order = [], itertools.count()
        # By serial: when it was issued, and its line or None.
        self.issued = {}
        # By source, the reads of this second. Those that are refused aren't in it, so few are.
        self.strange, self.strange_since = collections.Counter(), 0
        threading.Thread(target=self.run, daemon=True).start()

    def expect(self, serial):
        """A serial that was just issued: its line is read until it is there."""
        with self.changed:
            if serial not in self.issued:
                self.forget()
                self.issued[serial] = [self.clock(), None]
                heapq.heappush(self.due, (self.clock() + FIRST, next(self.order), serial, FIRST))
                self.changed.notify_all()

    def forget(self):
        """Drops what is old, and the oldest of too many."""
        last = self.clock() - KEPT
        old = [serial for serial, (at, _) in self.issued.items() if at < last]
        for serial in old + [*self.issued][len(old):][:max(0, len(self.issued) - len(old) - MOST + 1)]:
            del self.issued[serial]

    def wait(self, serial, seconds):
        """The line of a serial that was issued, as soon as it is there, or None after so many seconds."""
        with self.changed:
            self.changed.wait_for(lambda: self.issued.get(serial, (0, ""))[1] is not None, seconds)
            return self.issued.get(serial, (0, None))[1]

    def line(self, serial, address):
        """The line of a certificate for somebody at an address, or None if there is none to give."""
        with self.changed:
            if serial in self.issued:
                return self.issued[serial][1]
            self.count_strange(source_of(address))
        try:
            line, fields = self.read(serial)
        except Refused:
            return None
        return line if self.suits(fields) else None

    def count_strange(self, source):
        now = self.clock()
        if now - self.strange_since >= 1:
            self.strange, self.strange_since = collections.Counter(), now
        if self.strange.total() >= STRANGE or self.strange[source] >= STRANGE_OF_ONE:
            raise Busy
        self.strange[source] += 1

    def run(self):
        while True:
            with self.changed:
                self.changed.wait_for(lambda: self.due)
                at, _, serial, pause = self.due[0]
                if at > self.clock():
                    self.changed.wait(at - self.clock())
                    continue
                heapq.heappop(self.due)
                if serial not in self.issued:
                    continue
            begun = self.clock()
            self.read_one(serial, pause)
            time.sleep(max(0.0, begun + 1 / self.pace - self.clock()))

    def read_one(self, serial, pause):
        try:
            line, again = self.read(serial)[0], False
        except Refused as refused:
            # What was revoked meanwhile is never signed.
            line, again = None, refused.name == "NotSigned"
        except Exception:
            # Whatever came, this thread goes on: it reads for all.
            line, again = None, True
        with self.changed:
            if serial not in self.issued:
                return
            if line:
                self.issued[serial][1] = line
                self.changed.notify_all()
            elif again and self.clock() - self.issued[serial][0] < KEPT:
                pause = min(1.5 * pause, LONGEST_PAUSE)
                heapq.heappush(self.due, (self.clock() + pause, next(self.order), serial, pause))
