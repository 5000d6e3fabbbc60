"""What fronts say of the messages that they have seen accepted."""
import contextlib
import threading
import time

from .addresses import fronts_at
from .asking import Connection
from .faults import Fault
from .limits import FOR_A_WHILE, LONGEST_INTERVAL, MOST_FRONTS, OFTEN
from .workers import begin


class OneFront:
    """What the front at an address last said, and when. A thread asks it, over a connection that stays open."""

    def __init__(self, office, address, changed):
        self.office, self.address, self.changed = office, address, changed
        self.said, self.said_at, self.is_asked = None, float("-inf"), True
        begin(self.ask)

    def ask(self):
        with contextlib.closing(Connection(self.office, only=self.address)) as connection:
            while self.is_asked:
                begun = time.monotonic()
                pause = self.ask_once(connection)
                time.sleep(max(0, begun + pause - time.monotonic()))

    def ask_once(self, connection):
        """Asks once. Returns the seconds from then to the next time."""
        try:
            found = connection.tag("/v1/messages")
        except (OSError, Fault):
            return LONGEST_INTERVAL
        if not found:
            # It doesn't know.
            return FOR_A_WHILE
        is_new, self.said, self.said_at = found != self.said, found, time.monotonic()
        if is_new:
            self.changed.set()
        return OFTEN

    def is_current(self):
        return time.monotonic() < self.said_at + LONGEST_INTERVAL


class Hints:
    """What the front at each address of the office's name says. It changes with each message that one of them has seen
    accepted: each of them knows of its own alone. These are hints and no more."""

    def __init__(self, office):
        self.office, self.changed = office, threading.Event()
        # The addresses as they were looked up, whether each of them is asked, and the fronts there.
        self.found, self.are_all, self.fronts = [], True, {}

    def said(self):
        """What the fronts said last."""
        self.follow()
        return {address: front.said for address, front in self.fronts.items() if front.said}

    def are_whole(self):
        """Whether no message can be accepted without a word of one of the fronts."""
        return self.are_all and bool(self.fronts) and all(it.is_current() for it in self.fronts.values())

    def follow(self):
        """Has the fronts at the name's addresses asked, and no others."""
        if not self.office.is_tls or self.office.found is self.found:
            return
        self.found = self.office.found
        addresses = fronts_at(self.found, self.office.routed)
        self.are_all = len(addresses) <= MOST_FRONTS
        before, self.fronts = self.fronts, {}
        for it in addresses[:MOST_FRONTS]:
            self.fronts[it] = before.pop(it, None) or OneFront(self.office, it, self.changed)
        for front in before.values():
            front.is_asked = False

    def wait(self, seconds):
        """Waits until one of them says something new, or for so long."""
        self.changed.wait(seconds)
        self.changed.clear()
