"""What `./check` measures of itself: the clock and the processors, by its parts, in units of a fixed piece of work."""

import collections
import contextlib
import os
import re
import resource
import statistics
import time

# A part: the minutes at which it began, its seconds by the clock and of processors, and what of it was kept.
Part = collections.namedtuple("Part", "what begun clock processor kept")
# How many of the slowest tests are shown.
SLOWEST = 10
# What tools/fixed-work prints, what `rt ci` says that it did, and what tools/wrong-bodies says that it took as kept.
UNIT = re.compile(r"^fixed work: ([\d.]+) s of a processor", re.M)
DONE = re.compile(r"done in this run: (\d+) of the (\d+) proofs[^;]*?(?: and (\d+) of the (\d+) must-fail edits)?;")
ALL_DONE = "every proof and must-fail edit was done in this run"
REMEMBERED = re.compile(r"^tried: \d+, remembered: (\d+)\b", re.M)
OF_GATE = re.compile(r"^rt: ok; .*$", re.M)


def ended(process):
    """The status of a process, and the seconds of processors that it took with all that it has waited for, or None
    while it runs. What cuts itself loose from it isn't counted: daemons, and machines that are booted."""
    found, status, usage = os.wait4(process.pid, os.WNOHANG)
    if not found:
        return None
    process.returncode = os.waitstatus_to_exitcode(status)
    return process.returncode, usage.ru_utime + usage.ru_stime


def worked():
    """The seconds that all processors of the machine have worked since it began, and those that its host took away."""
    with open("/proc/stat", encoding="ascii") as it:
        user, nice, system, _, _, hard, soft, stolen = map(int, it.readline().split()[1:9])
    ticks = os.sysconf("SC_CLK_TCK")
    return (user + nice + system + hard + soft) / ticks, stolen / ticks


def kept_by_gate(said):
    """What of the gate was kept of earlier runs, by its last lines: a text, or None where it doesn't say."""
    line = OF_GATE.findall(said)[-1:]
    found = DONE.search(line[0]) if line else None
    if found:
        proofs, of_proofs, edits, of_edits = (int(it or 0) for it in found.groups())
        return f"{of_proofs - proofs} of {of_proofs} proofs, {of_edits - edits} of {of_edits} edits"
    return "none" if line and ALL_DONE in line[0] else None


def kept_by_wrong_bodies(said, count):
    """How many of so many mutants were judged by answers that were kept, or None where the script doesn't say."""
    found = REMEMBERED.findall(said)
    return f"{found[-1]} of {count} mutants" if found else None


class Measure:
    """What was measured since a check began."""

    def __init__(self):
        self.started, self.first = time.time(), worked()
        self.parts, self.units, self.marks, self.tests = [], [], [], {}

    def add(self, what, begun, processor, kept=None):
        self.parts.append(Part(what, (begun - self.started) / 60, time.time() - begun, processor, kept))

    @contextlib.contextmanager
    def during(self, what):
        """Measures the commands that are waited for meanwhile as one part. No other part may end then."""
        begun, before = time.time(), resource.getrusage(resource.RUSAGE_CHILDREN)
        try:
            yield
        finally:
            now = resource.getrusage(resource.RUSAGE_CHILDREN)
            self.add(what, begun, now.ru_utime + now.ru_stime - before.ru_utime - before.ru_stime)

    def take_unit(self, said):
        """Takes the unit from what tools/fixed-work printed. A toolchain that doesn't prove the work gives none."""
        self.units += [float(it) for it in UNIT.findall(said)]

    def mark(self, what):
        """Notes what the processors have done until now."""
        now, (busy, stolen) = time.time() - self.started, worked()
        self.marks.append((what, now, busy - self.first[0], stolen - self.first[1]))

    def add_tests(self, seconds):
        """Takes the seconds of tests, by their names. One that ran again keeps the longest."""
        for name, took in seconds.items():
            self.tests[name] = max(took, self.tests.get(name, 0))

    def in_units(self, seconds):
        return f"{seconds / statistics.mean(self.units):8.2f}" if self.units else "       -"

    def row(self, what, begun, clock, processor, kept):
        return (f"{what[:24]:24} {begun:6.1f} {clock / 60:7.1f} {processor / 60:9.1f} {self.in_units(clock)} "
                f"{self.in_units(processor)}  {kept or '-'}")

    def shares(self, count):
        """Which share of the clock so many processors worked, until each mark."""
        for what, clock, busy, stolen in self.marks:
            time_of_all = max(clock, 0.001) * count
            yield (f"processors worked {100 * busy / time_of_all:.1f} % of the time {what}, and the host took "
                   f"{100 * stolen / time_of_all:.1f} % away")

    def lines(self):
        """The table, after the last mark. Each line is a measure of its own, so that two logs are easy to compare."""
        self.mark("in all")
        *_, (_, clock, busy, _) = self.marks
        count, rest = os.cpu_count(), busy - sum(it.processor for it in self.parts)
        said = " and ".join(f"{it:.1f} s" for it in self.units) or "not measured"
        yield f"unit: processor time of the fixed work, {said}; the machine has {count} processors"
        yield f"{'part':24} {'began':>6} {'minutes':>7} {'processor':>9} {'units':>8} {'processor':>9} kept"
        for it in self.parts:
            yield self.row(*it)
        yield self.row("other work, daemons", 0, 0, max(rest, 0), None)
        yield self.row("in all", 0, clock, busy, None)
        yield from self.shares(count)
        for name, took in sorted(self.tests.items(), key=lambda it: -it[1])[:SLOWEST]:
            yield f"slow test {took:7.1f} s {self.in_units(took)} units  {name}"
