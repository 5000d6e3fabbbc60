"""Threads that ask the office, each by a connection of its own."""
import queue
import signal
import threading

from .ending import ENDINGS


def begin(work):
    """Has a thread call a function. It gets no signal, and no program that it begins gets one that tells the station to
    end: Python handles signals in the main thread, which would go on waiting if another one got them. The station's end
    waits for no thread."""
    before = signal.pthread_sigmask(signal.SIG_BLOCK, {*ENDINGS, signal.SIGALRM})
    try:
        threading.Thread(target=work, daemon=True).start()
    finally:
        signal.pthread_sigmask(signal.SIG_SETMASK, before)


class Workers:
    """At most so many threads, which begin with the first work."""

    def __init__(self, count, connect):
        self.left, self.connect, self.asked = count, connect, queue.SimpleQueue()

    def do(self, future, work, *values):
        """Has a thread call a function with these values and its connection. The future gets what that returns."""
        self.asked.put((future, work, values))
        if self.left:
            self.left -= 1
            begin(self.work)

    def work(self):
        connection = self.connect()
        while True:
            self.work_once(connection)

    def work_once(self, connection):
        """Nothing here keeps what a thread was given, or what came of it, until the next work: it may be long."""
        future, work, values = self.asked.get()
        try:
            future.set_result(work(*values, connection))
        except BaseException as fault:
            future.set_exception(fault)
