"""Proves crates side by side, over what earlier builds kept, and says how far it is."""

import copy
import os
import queue
import re
import sys
import threading
import time
from concurrent.futures import ThreadPoolExecutor

# The share of the free memory that proofs may take, and the share that a proof takes of what rt reckons with at most.
MEMORY_TAKEN = 0.85
SHARE_OF_NEED = 0.5

# The start of a proof takes as long as the proof of so many lines.
LINES_OF_A_START = 250

# A program takes as long besides, for all that is linked.
LINES_OF_A_LINK = 2500

# A crate can wait long if more lines than these can be proved before it, and the build takes no longer.
LONG_WAIT = 8000

# A crate that can't wait for more lines than these is on the longest chain or next to it, and is proved by two
# processes at least: others end before it, and leave their processors idle.
SHORT_WAIT, FEWEST_JOBS = 2000, 2

# Beyond that, the longer a crate can wait, the lower the priority of its processes: by one for each so many lines, and
# by so much at most.
LINES_OF_A_STEP, LAST_STEP = 900, 19


class Progress:
    """Says which crates are proved and which are being proved, and the minutes so far."""

    def __init__(self, count, out=None):
        self.count, self.out, self.started = count, out or sys.stderr, time.time()
        self.done, self.going, self.width = 0, [], 0
        self.lock, self.is_live, self.ended = threading.Lock(), self.out.isatty(), threading.Event()
        if self.is_live:
            threading.Thread(target=self.tick, daemon=True).start()

    def minutes(self):
        return (time.time() - self.started) / 60

    def tick(self):
        while not self.ended.wait(1):
            with self.lock:
                now = ", ".join(self.going)
                self.show(f"{self.minutes():5.1f} min  {self.done} of {self.count} crates proved; now {now}")

    def show(self, text, end=""):
        text = text[:118]
        print(f"\r{text:{self.width}}", end=end, file=self.out, flush=True)
        self.width = 0 if end else len(text)

    def begins(self, name):
        with self.lock:
            self.going.append(name)

    def ends(self, name, is_proved):
        with self.lock:
            self.going.remove(name)
            self.done += is_proved
            what = "proved" if is_proved else "NOT PROVED"
            text = f"{self.minutes():5.1f} min  {name} {what} ({self.done} of {self.count})"
            if self.is_live:
                self.show(text, end="\n")
            else:
                print(text, file=self.out, flush=True)

    def was_proved(self):
        with self.lock:
            self.done += 1

    def close(self):
        self.ended.set()


def prove(crate, progress, jobs, keeps, logs):
    """Proves a library, unless it is proved already, and returns whether that went well. Its proof is kept if that is
    wanted, or if it isn't the first."""
    if crate.is_built():
        progress.was_proved()
        return True
    progress.begins(crate.name)
    crate = copy.copy(crate)
    with open(f"{logs}/{crate.name}", "w+", errors="replace") as crate.out:
        keeps = keeps or os.path.isdir(f"{crate.folder}/out/rlib") or crate.has_kept()
        flags = ["--jobs", str(jobs)]
        status = crate.build_rlib(flags, anew=False) if keeps else state(crate, flags)
    progress.ends(crate.name, status == 0)
    return status == 0


def state(crate, flags):
    """Proves a library from nothing, and leaves what it states and not its proofs, as the toolchain's own gate does.
    The crates above then load half as much. Of the proofs nothing is kept: after an edit, `rt` proves the crate once
    more."""
    folder, stamp, rattle = os.path.dirname(crate.rlib), crate.stamp(), sys.modules["rtlib"].RATTLE
    os.makedirs(folder)
    status = crate.call(rattle, "build", *crate.words(flags, keeps=False), "--statements", "-o", crate.rlib)
    if status == 0 and stamp == crate.stamp():
        with open(f"{folder}/stamp", "w", encoding="utf-8") as it:
            it.write(stamp)
    return status


def made_from(program):
    """A text that changes with all that the program is made from, and with the program itself."""
    return program.stamp() + sys.modules["rtlib"].sum_of(f"{program.folder}/out/{program.name}")


def build_program(program, progress, jobs, logs):
    """Proves, compiles and links a program, unless it is there, and returns whether that went well. Rattle's own
    compiler takes a fifth of the time that LLVM takes, and what it makes is as fast."""
    note = f"{program.folder}/out/made-from"
    if sys.modules["rtlib"].text_of(note) == made_from(program):
        progress.was_proved()
        return True
    progress.begins(program.name)
    with open(f"{logs}/{program.name}", "w+", errors="replace") as log:
        is_built = make(program, ["--jobs", str(jobs), "--backend", "rattle"], log) == 0
    if is_built:
        with open(note, "w", encoding="utf-8") as it:
            it.write(made_from(program))
    progress.ends(program.name, is_built)
    return is_built


def make(program, flags, log):
    """Proves a program whose libraries are built, compiles and links it, and returns the status. The first time no
    proofs are kept: to keep those of the link takes a seventh of the time."""
    rtlib, made = sys.modules["rtlib"], f"out/{program.name}"
    program = copy.copy(program)
    program.out, tools = log, ["--toolchain", f"{rtlib.KIT}/toolchain"]
    if program.has_kept() or os.path.isfile(f"{program.folder}/{made}"):
        status = program.compile(flags, f"{made}.o")
    else:
        words = program.words([*flags, *tools], keeps=False)
        status = program.call(rtlib.RATTLE, "build", *words, "-o", f"{made}.o")
    words = ["--target", "x86_64-unknown-linux-gnu", *tools, "-o", made, f"{made}.o"]
    words += [f"{rtlib.KIT}/c/libos_c.a", f"{rtlib.KIT}/c/liblibc_c.a"]
    return status or program.call(f"{rtlib.KIT}/bin/rattle-link", *words)


def lines_of(crate):
    """The lines of a crate's code, definitions and proofs: the time of its proof goes with them."""
    found = LINES_OF_A_START + LINES_OF_A_LINK * crate.is_program
    for file in sys.modules["rtlib"].files_of(crate.folder):
        with open(file, "rb") as it:
            found += it.read().count(b"\n")
    return found


class Lanes:
    """Proves crates side by side, and builds the programs among them: each as soon as those below it are proved and
    memory is free for it.

    A build takes as long as the longest chain of crates that stand on one another. A crate that isn't on this chain can
    wait: `spare` says how many lines can be proved before it, and the build takes no longer. The crates that can't wait
    long share the processors, all alike; those that can hardly wait are proved by two processes at least. The others
    are proved by one process each, and by more only where processors would be idle. There may be more processes than
    processors: the longer a crate can wait, the less of their time it is given.
    """

    def __init__(self, rt, crates, progress, logs, kept):
        self.rt, self.progress, self.logs, self.kept = rt, progress, logs, kept
        self.processors, self.memory = rt.processors(), MEMORY_TAKEN * rt.free()
        size = {it.name: lines_of(it) for it in crates}
        up_to, behind = {}, {}
        for crate in crates:
            up_to[crate.name] = size[crate.name] + max((up_to[it.name] for it in crate.below()), default=0)
        for crate in reversed(crates):
            above = [it.name for it in crates if crate in it.below()]
            behind[crate.name] = max((size[it] + behind[it] for it in above), default=0)
        longest = max(up_to.values(), default=0)
        self.spare = {it.name: longest - up_to[it.name] - behind[it.name] for it in crates}
        self.left = sorted(crates, key=lambda it: -size[it.name] - behind[it.name])
        self.running, self.proved, self.ended = {}, {}, queue.Queue()

    def is_ready(self, crate):
        return all(it.name in self.proved for it in crate.below())

    def jobs_of(self, crate):
        """By how many processes a crate is proved that can be begun now."""
        others = [it.name for it in self.left if it is not crate and self.is_ready(it)]
        idle = self.processors - sum(jobs for _, jobs in self.running.values()) - len(others)
        if self.spare[crate.name] <= LONG_WAIT:
            pressing = 1 + sum(self.spare[it] <= LONG_WAIT for it in [*self.running, *others])
            idle = max(idle, self.processors // pressing)
        if self.spare[crate.name] <= SHORT_WAIT:
            idle = max(idle, FEWEST_JOBS)
        return min(self.processors, max(1, idle))

    def memory_of(self, crate, jobs):
        """The memory that a proof takes, in bytes: each further process adds its own share."""
        return SHARE_OF_NEED * self.rt.need(crate) * (1 + 0.6 * (jobs - 1))

    def has_room_for(self, crate, jobs):
        taken = sum(self.memory_of(*it) for it in self.running.values())
        count = sum(it for _, it in self.running.values())
        room = self.memory - taken
        return not self.running or (count < 2 * self.processors and self.memory_of(crate, jobs) <= room)

    def start_ready(self):
        """Starts the crates that can be proved now, those with the longest chain first."""
        for crate in [*self.left]:
            jobs = self.jobs_of(crate)
            if self.is_ready(crate) and self.has_room_for(crate, jobs):
                self.left.remove(crate)
                self.running[crate.name] = crate, jobs
                threading.Thread(target=self.work, args=(crate, jobs), daemon=True).start()

    def work(self, crate, jobs):
        """Proves a crate in a thread of its own, from which its processes have their priority: the lower, the longer a
        crate can wait that can wait long."""
        is_proved = False
        try:
            # On Linux this lowers the priority of this thread, and of the processes that it starts.
            os.nice(min(LAST_STEP, max(0, self.spare[crate.name] - LONG_WAIT) // LINES_OF_A_STEP))
            if all(self.proved[it.name] for it in crate.below()):
                is_proved = self.make(crate, jobs)
        finally:
            self.ended.put((crate.name, is_proved))

    def make(self, crate, jobs):
        if crate.is_program:
            return build_program(crate, self.progress, jobs, self.logs)
        return prove(crate, self.progress, jobs, crate.name in self.kept, self.logs)

    def run(self):
        """Proves all, and returns the name of the first that isn't proved, or None."""
        while self.left or self.running:
            self.start_ready()
            name, is_proved = self.ended.get()
            del self.running[name]
            self.proved[name] = is_proved
        return next((name for name, is_proved in self.proved.items() if not is_proved), None)


def prove_side_by_side(rt, crates, progress, logs, kept=()):
    """Proves the libraries, lowest first, builds the programs, and keeps the proofs of those of the names in `kept`.
    Returns the name of one that isn't proved, or None."""
    for crate in crates:
        os.makedirs(f"{crate.folder}/out", exist_ok=True)
    # Nothing here may start a command `rt`, which would wait for these locks.
    held = rt.rtlib.lock(crates)
    # A newer toolchain takes what other checkouts on this machine proved, where it is the same, and offers them its
    # own.
    if hasattr(rt, "share_work"):
        rt.share_work(True)
    try:
        return Lanes(rt, crates, progress, logs, kept).run()
    finally:
        for it in held:
            os.close(it)


def test_side_by_side(rt, crates, logs):
    """Proves and runs the tests of crates whose libraries are built, as many at a time as memory is free for, and
    returns the names of those that don't pass."""
    most = max((SHARE_OF_NEED * rt.need(it) for it in crates), default=1)
    count = max(1, min(rt.processors(), int(MEMORY_TAKEN * rt.free() / most)))
    held = rt.rtlib.lock([below for it in crates for below in [*it.below(), it]])
    try:
        with ThreadPoolExecutor(count) as pool:
            passed = [*pool.map(lambda it: pass_tests(it, logs), crates)]
    finally:
        for it in held:
            os.close(it)
    return [crate.name for crate, is_passed in zip(crates, passed) if not is_passed]


def pass_tests(crate, logs):
    crate = copy.copy(crate)
    with open(f"{logs}/{crate.name}", "w+", errors="replace") as crate.out:
        return crate.run(["--jobs", "1"], [], tests=True) == 0


def end_of(file, count=40):
    """The last lines of a file."""
    with open(file, errors="replace") as it:
        return "".join(it.readlines()[-count:])


def complaints(file, count=40):
    """What a check complains of, or its last lines where it names nothing."""
    with open(file, errors="replace") as it:
        lines = [line for line in it if re.search(r"error|: not proved|: no proof|must prove", line)]
    return "".join(lines[:count]) or end_of(file, count)
