"""What tells a station to end."""
import contextlib
import signal
import sys

# What tells a station to end, with the status that it then ends with.
ENDINGS = {signal.SIGTERM: 0, signal.SIGHUP: 129, signal.SIGINT: 130, signal.SIGQUIT: 131}
# The status of the signal that came, if one has.
told_to_end = []


def end_once(number, _):
    """Ends the station. It has done its work, and leaves no files but those of its guards. A second signal would cut
    off what ends them, so it isn't let through any more."""
    signal.pthread_sigmask(signal.SIG_BLOCK, {*ENDINGS})
    told_to_end.append(ENDINGS[number])
    end_if_told()


def end_if_told():
    """Ends the station if it was told to. Python loses what a signal raises while it deletes an object, so each round
    looks again."""
    if told_to_end:
        sys.exit(told_to_end[0])


@contextlib.contextmanager
def held_off():
    """What tells the station to end waits until the block is over. It never reaches a program that the block begins,
    even if somebody sends it to all processes, as a terminal does: a guard that it ended would be cut off in the
    middle, with the log of its file not copied."""
    before = signal.pthread_sigmask(signal.SIG_BLOCK, {*ENDINGS})
    try:
        yield
    finally:
        signal.pthread_sigmask(signal.SIG_SETMASK, before)
