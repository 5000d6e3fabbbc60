"""Programs that the station runs, and the memory that it shares with them."""
import contextlib
import os
import subprocess
import threading

from .journal import printable
from .limits import LONGEST_STATING, PIECE


class Programs:
    """The programs that the station's threads run, so that its end can end them. Some end by themselves: they would be
    cut off in the middle."""

    def __init__(self):
        self.lock, self.begun, self.is_over = threading.Lock(), {}, False

    def run(self, words, timeout, ends_itself=False, **how):
        """As subprocess.run, and nothing is run once the station ends."""
        with self.lock:
            if self.is_over:
                raise OSError("the station ends")
            process = subprocess.Popen(words, **{"stdin": subprocess.DEVNULL, "stderr": subprocess.PIPE} | how)
            self.begun[process] = ends_itself
        with process:
            try:
                out, errors = process.communicate(timeout=timeout)
            except BaseException:
                process.kill()
                raise
            finally:
                with self.lock:
                    del self.begun[process]
        return subprocess.CompletedProcess(words, process.returncode, out, errors)

    def end(self):
        """Kills those that are running, or waits for those that end by themselves. None begins after them."""
        with self.lock:
            self.is_over = True
            begun = dict(self.begun)
        for process, ends_itself in begun.items():
            if not ends_itself:
                process.kill()
            with contextlib.suppress(subprocess.TimeoutExpired):
                process.wait(LONGEST_STATING)


PROGRAMS = Programs()


def output_of(words, timeout, **how):
    """What a program prints."""
    done = PROGRAMS.run(words, timeout, stdout=subprocess.PIPE, **how)
    if done.returncode:
        said = printable(" ".join(done.stderr.decode(errors="replace").split())).removeprefix(f"{words[0]}: ")
        raise OSError(f"{words[0]}: {said or f'status {done.returncode}'}")
    return done.stdout


class Memory:
    """Bytes that programs which are given its `handle` read by its `path`, as they would a file's. No other process can
    open it by a name, so nobody can exchange what was approved for something else before it is signed."""

    def __init__(self, data=b""):
        self.handle = os.memfd_create("station")
        self.path = f"/proc/self/fd/{self.handle}"
        self.put(data)

    def put(self, data):
        """Has it hold these bytes and no others."""
        os.ftruncate(self.handle, 0)
        at = 0
        while at < len(data):
            at += os.pwrite(self.handle, data[at:at + PIECE], at)

    def __enter__(self):
        return self

    def __exit__(self, *_):
        os.close(self.handle)
