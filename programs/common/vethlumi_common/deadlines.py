"""What ends anything that takes too long."""
import signal


class Overlong(OSError):
    """What took too long."""


class Overdue(BaseException):
    """No Exception: after one of these a library goes on, for example with a name's next address."""


def at_most(seconds, work):
    """What a function returns, or a fault if it takes longer, however its time passes. It isn't the block of a `with`:
    an alarm between the end of a block and what comes after it would be nobody's."""
    is_over = False

    def end(*_):
        if not is_over:
            raise Overdue

    before = signal.signal(signal.SIGALRM, end)
    try:
        try:
            # Every second from then on: what is raised while Python deletes an object is lost.
            signal.setitimer(signal.ITIMER_REAL, seconds, 1)
            return work()
        finally:
            signal.setitimer(signal.ITIMER_REAL, 0)
    except Overdue:
        is_over = True
        signal.setitimer(signal.ITIMER_REAL, 0)
        raise Overlong(f"not within {seconds} seconds") from None
    finally:
        signal.signal(signal.SIGALRM, before)
