"""The output of checks of copies of crates, kept between runs under a sum of all that the prover read.

What is kept is the output as it was printed, and never a verdict: each run reads it again. It takes the place of a
check of the same bytes, over the same libraries, by the same toolchain. Output that anything else may have decided, for
example the memory of the machine, isn't kept. docs/DECISIONS.md has the reasons.
"""

import contextlib
import difflib
import glob
import hashlib
import json
import os
import re
import stat
import subprocess
import tempfile
import threading
import time

# What was kept in another form isn't found. It has to change with how a check is run, and with what is kept of it.
FORM = 1
# The variables of the environment that may change what a check says, and those without which it may not run. It gets no
# others.
VARIABLES = re.compile(r"(?:RATTLE|ANTT|RUST|RAYON|MALLOC|MIMALLOC|GLIBC|LD)_\w+")
NEEDED = {"HOME", "PATH", "TMPDIR"}
# What a check says of its own course: how far it is, and how much of the toolchain's work it could take over.
COURSE = re.compile(r"(?m)^(?:so far: \d+ of \d+ functions checked.*|[\w ]+: modules loaded=\d+ checked=\d+)\n")
# How the last line of an output begins if the prover came to its end.
LAST = re.compile(r"logic=(?:not-)?proved|holes=|only=")
# How a complaint of the compiler begins, after which the prover isn't asked.
OF_COMPILER = re.compile(r"(?m)^(?:\S+:\d+:\d+: )?error\[[\w-]+\]")
# How an output says that a limit, this run or the machine kept the prover from a verdict on something.
CUT_SHORT = re.compile(
    r"ran out of|outgrew the memory limit|stopped at the step limit|stopped after copying|term arena|no memory budget"
    r"|temporary terms|resource limit|could not start|was killed|incremental directory|Run the lower steps again"
    r"|panicked at|internal error|No space left|os error \d+|(?m:^antt: |^fn \S+: could not tell)")
# The name of a file with an output, whole or not yet.
OWN = re.compile(r"[0-9a-f]{64}|new-\w{8}")
# The most that is kept, in bytes. Beyond that, what wasn't used for the longest time goes.
MOST = 500_000_000
# How many seconds an edit is expected to take for each line of its crate's code before it was ever tried: the average
# of all crates.
SECONDS_OF_A_LINE = 0.01
# After so many seconds each check is to be run again and compared with what is kept of it.
WEEK = 7 * 24 * 3600


def place_of(rt):
    """Where this machine keeps output: beside what the toolchain keeps of earlier runs, for this user alone. There is
    no such place with a toolchain that keeps nothing, or can't say what it is."""
    if not hasattr(rt, "STORE") or not hasattr(rt, "kit_sum"):
        return None
    with contextlib.suppress(OSError):
        os.makedirs(rt.STORE, 0o700, exist_ok=True)
        found = os.lstat(rt.STORE)
        if stat.S_ISDIR(found.st_mode) and found.st_uid == os.geteuid() and not found.st_mode & 0o022:
            return f"{rt.STORE}/wrong-bodies"
    return None


def environment():
    """The environment of a check."""
    return {name: value for name, value in os.environ.items() if name in NEEDED or VARIABLES.fullmatch(name)}


def sum_of(files):
    """The sum of files, given by their paths and bytes."""
    digest = hashlib.sha256()
    for path, data in sorted(files.items()):
        digest.update(f"{len(path.encode())} {len(data)} {path}\n".encode())
        digest.update(data)
    return digest.hexdigest()


def without_course(said):
    """An output without what depends on the work that was kept before, and on the time."""
    return COURSE.sub("", said)


def unfit(ran):
    """Why an output isn't one that the same check prints at any time, on any machine, or None if it is."""
    if ran.returncode not in (0, 1):
        return f"status {ran.returncode}"
    cut_short = CUT_SHORT.search(ran.stdout)
    if cut_short:
        return cut_short[0]
    last = ran.stdout.rstrip("\n").rpartition("\n")[2]
    is_whole = LAST.match(last) or (ran.returncode == 1 and OF_COMPILER.search(ran.stdout))
    return None if is_whole else "no last line"


def mark_of(rlib):
    """What tells whether a library was replaced. Its file `format` has a sum of all its other files, and the prover
    takes no library whose files don't match it."""
    with contextlib.suppress(OSError):
        found = os.stat(f"{rlib}/format")
        return rlib, found.st_ino, found.st_size, found.st_mtime_ns
    return rlib, None, None, None


def replace(file, data):
    """Writes a file aside and renames it, so that nobody reads half of it."""
    folder = os.path.dirname(file)
    os.makedirs(folder, 0o700, exist_ok=True)
    with tempfile.NamedTemporaryFile("w", dir=folder, prefix="new-", delete=False, encoding="utf-8") as it:
        json.dump(data, it)
    os.replace(it.name, file)


class Outputs:
    """The kept output in a folder, or none without a folder. With `is_anew` each check is run, and compared with what
    is kept of it."""

    def __init__(self, rt, folder):
        self.folder, self.is_anew, self.lock, self.formats = folder, False, threading.Lock(), {}
        self.taken, self.run, self.compared, self.differing, self.unkept = 0, 0, 0, [], []
        if folder:
            os.makedirs(folder, 0o700, exist_ok=True)
            # Once, before there are threads.
            self.kit = rt.kit_sum()

    def library(self, rlib):
        """The sum of a library's file `format`, and the mark of the library."""
        mark = mark_of(rlib)
        with self.lock:
            found = self.formats.get(mark)
        if found is None:
            with open(f"{rlib}/format", "rb") as it:
                found = hashlib.sha256(it.read()).hexdigest()
            with self.lock:
                self.formats[mark] = found
        return found, mark

    def key(self, crate, files, words):
        """The name of the output of this check of a copy with these files, and the marks of the libraries below it. The
        name is a sum of all that can change what the check says. What it finds in its folder of kept work, the memory
        and the processors can't: they decide how soon it comes to an end, and whether it does. Without a folder, or
        without one of the libraries, there is None."""
        if not self.folder:
            return None
        sums, marks, places = [], [], {}
        for it in crate.below():
            try:
                found, mark = self.library(it.rlib)
            except OSError:
                return None
            sums.append((it.name, found))
            marks.append(mark)
            # Where a library lies says nothing: the gate's lie elsewhere than those of a check alone.
            places[f"{it.name}={it.rlib}"] = f"{it.name}={found}"
            places[f"dependency={os.path.dirname(it.rlib)}"] = f"dependency={found}"
        said = [places.get(word, word) for word in words]
        variables = sorted(it for it in environment().items() if it[0] not in NEEDED)
        parts = (FORM, self.kit, crate.name, said, sums, variables, sum_of(files))
        return hashlib.sha256(repr(parts).encode()).hexdigest(), marks

    def file_of(self, name):
        return f"{self.folder}/{name[:2]}/{name}"

    def kept(self, name):
        """The kept output of this name, or None unless there is one that is whole and may be kept by today's rule."""
        with contextlib.suppress(OSError, ValueError, KeyError, TypeError, AttributeError):
            with open(self.file_of(name), encoding="utf-8") as it:
                found = json.load(it)
            said = found["said"]
            if found["name"] == name and found["sum"] == sum_of({"": said.encode()}):
                ran = subprocess.CompletedProcess([], found["status"], without_course(said))
                return None if unfit(ran) else ran
        return None

    def find(self, key):
        """The kept output that takes the place of a check, or None if the check has to be run."""
        ran = self.kept(key[0]) if key and not self.is_anew else None
        with self.lock:
            self.taken += ran is not None
            self.run += ran is None
        if ran:
            with contextlib.suppress(OSError):
                os.utime(self.file_of(key[0]))
        return ran

    def keep(self, key, ran, of):
        """Keeps the output of a check, if that may be kept and the libraries are still those of the key. If something
        else is kept of the same check, neither is kept from now on, and both are in `differing`."""
        if not key:
            return
        before = self.kept(key[0]) if self.is_anew else None
        why = unfit(ran) or ("a library was replaced" if [mark_of(it[0]) for it in key[1]] != key[1] else None)
        if why:
            with self.lock:
                self.unkept.append((of, why))
            return
        with self.lock:
            self.compared += before is not None
        with contextlib.suppress(OSError):
            if before and (before.returncode, before.stdout) != (ran.returncode, ran.stdout):
                with self.lock:
                    self.differing.append((of, before, ran))
                os.remove(self.file_of(key[0]))
                return
            sum_of_said = sum_of({"": ran.stdout.encode()})
            kept = {"name": key[0], "of": of, "status": ran.returncode, "sum": sum_of_said, "said": ran.stdout}
            replace(self.file_of(key[0]), kept)

    def files(self):
        """The files that runs of this script wrote for outputs, and no others, whatever else is in the folder."""
        at = glob.escape(self.folder or os.devnull)
        for path in [*glob.glob(f"{at}/new-*"), *glob.glob(f"{at}/[0-9a-f][0-9a-f]/*")]:
            if OWN.fullmatch(os.path.basename(path)):
                yield path

    def shrink(self, most=MOST):
        """Removes what a killed run left, and what wasn't used for the longest time, until the rest is in bounds."""
        found = []
        for path in self.files():
            with contextlib.suppress(OSError):
                it = os.stat(path)
                if not os.path.basename(path).startswith("new-"):
                    found.append((it.st_mtime, it.st_size, path))
                elif it.st_mtime < time.time() - 3600:
                    os.remove(path)
        much = sum(size for _, size, _ in found)
        for _, size, path in sorted(found):
            if much <= most:
                break
            with contextlib.suppress(OSError):
                os.remove(path)
            much -= size

    def is_due(self):
        """Whether all checks were last run and compared longer than a week ago, or never."""
        with contextlib.suppress(OSError):
            return os.stat(f"{self.folder}/anew.json").st_mtime < time.time() - WEEK
        return True

    def were_compared(self):
        """Notes that all checks have been run, and that nothing else was kept of them."""
        if self.folder:
            with contextlib.suppress(OSError):
                replace(f"{self.folder}/anew.json", self.compared)


def shown(before, now, count=6):
    """The first lines in which two outputs differ."""
    if before.returncode != now.returncode:
        yield f"status {before.returncode} was kept, and now it is {now.returncode}"
    lines = difflib.unified_diff(before.stdout.split("\n"), now.stdout.split("\n"), "kept", "now", lineterm="", n=0)
    yield from (it[:200] for _, it in zip(range(count), lines))


class Seconds:
    """How many seconds each edit took when it was last tried, by which the next run knows what takes long."""

    def __init__(self, folder):
        self.file, self.lock, self.noted = folder and f"{folder}/seconds.json", threading.Lock(), {}
        self.known = self.read()

    def read(self):
        with contextlib.suppress(OSError, ValueError, TypeError, AttributeError):
            with open(self.file, encoding="utf-8") as it:
                return {str(name): float(seconds) for name, seconds in json.load(it).items()}
        return {}

    def of(self, name, lines):
        """The seconds that an edit of a crate with so many lines is expected to take."""
        return self.known.get(name, lines * SECONDS_OF_A_LINE)

    def note(self, names, seconds):
        """Notes that a try of these edits together took so long."""
        with self.lock:
            self.noted |= dict.fromkeys(names, seconds / len(names))

    def save(self):
        if self.file and self.noted:
            with contextlib.suppress(OSError):
                replace(self.file, self.read() | self.noted)
