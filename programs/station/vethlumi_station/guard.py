"""The guard."""
import contextlib
import subprocess
import sys

from vethlumi_common.deadlines import at_most
from vethlumi_common.ssh import BadFormat
from vethlumi_common.subjects import at_serial

from .ending import held_off
from .faults import Fault
from .files import unusable, unusable_database
from .journal import print_line
from .limits import LONGEST_ENDING, LONGEST_JUDGED, LONGEST_JUDGING, OF_A_FAULT


def serial_of(body):
    """The serial in a body, or None if it ends before that."""
    with contextlib.suppress(BadFormat):
        return at_serial(body).number(8)
    return None


def refused_for_its_length(body):
    """What it would answer to a body that it doesn't take."""
    return ["refuse", "NotABody", "TooLong" if body else "Truncated"]


class Guard:
    """The guard, which judges bodies in their order. What it reports of its own end goes to standard error, and then
    what the station sees of its files. While it is begun, and while it ends, what tells the station to end is held
    off."""

    def __init__(self, given):
        self.given, self.is_explained = given, False
        words = ["sshstation", "judge", "--db", given.db, "--policy", given.policy, "--ahead", str(given.ahead), "-"]
        self.process = subprocess.Popen(words, stdin=subprocess.PIPE, stdout=subprocess.PIPE)

    def answers(self, bodies):
        """The words of its answers to at most MOST_JUDGED bodies, such as `sign 7 DIGEST`, in their order. They come
        after one commit. It takes no body of another length than 1 to LONGEST_JUDGED."""
        judged = iter(self.answers_of([it for it in bodies if 1 <= len(it) <= LONGEST_JUDGED]))
        return [next(judged) if 1 <= len(it) <= LONGEST_JUDGED else refused_for_its_length(it) for it in bodies]

    def answers_of(self, bodies):
        """The same for bodies that it takes."""
        if not bodies:
            return []

        def answered():
            with contextlib.suppress(BrokenPipeError):
                self.process.stdin.write(b"judge %d\n" % len(bodies))
                self.process.stdin.write(b"".join(b"%d\n" % len(it) + it for it in bodies))
                self.process.stdin.flush()
            return [self.process.stdout.readline() for _ in bodies]

        try:
            lines = at_most(LONGEST_JUDGING, answered)
        except OSError as fault:
            self.process.kill()
            raise Fault(f"the guard doesn't answer: {fault}") from None
        except BaseException:
            # It may not have read the bodies yet.
            self.end()
            raise
        if not all(it.endswith(b"\n") for it in lines):
            raise Fault(f"the guard has ended with status {self.end()}")
        return [it.decode(errors="replace").split() for it in lines]

    def stay(self):
        """Raises a fault if the guard has ended."""
        if self.process.poll() is not None:
            raise Fault(f"the guard has ended with status {self.end()}")

    def end(self):
        """Has the guard end, which then closes its file and copies the log, and returns its status."""
        status = self.ended()
        if status == OF_A_FAULT and not self.is_explained:
            self.is_explained = True
            for why in filter(None, (unusable(self.given.policy, False), unusable_database(self.given.db))):
                print_line(f"station: {why}", sys.stderr)
        return status

    def ended(self):
        with held_off():
            with contextlib.suppress(BrokenPipeError):
                self.process.stdin.close()
            try:
                return self.process.wait(LONGEST_ENDING)
            except subprocess.TimeoutExpired:
                self.process.kill()
                print_line(f"station: the guard is killed: not within {LONGEST_ENDING} seconds", sys.stderr)
                return self.process.wait()
