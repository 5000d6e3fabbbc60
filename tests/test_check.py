"""Runs the tests of a folder as `./check` does: one that fails beside others and then passes alone is named as
unsteady, and one that fails again fails the check. What the check measures of itself is compared with what was done,
and the tests begin once the gate has linked the programs."""
import contextlib
import hashlib
import importlib.machinery
import importlib.util
import os
import re
import shutil
import subprocess
import sys
import threading
import time
import types

import pytest

from running import TOP

pytestmark = pytest.mark.slow

# A test that fails when it runs for the first time.
UNSTEADY = """
import pathlib

import pytest


@pytest.mark.xdist_group("pair")
@pytest.mark.parametrize("what", ["a row", "b@c"])
def test_passes_later(what):
    ran = pathlib.Path(f"{__file__}.{what}")
    had_run = ran.exists()
    ran.touch()
    assert had_run
"""
STEADY = """
import pytest


def test_passes():
    pass


@pytest.mark.alone
def test_passes_alone():
    pass
"""
WRONG = """
def test_fails():
    assert False
"""
# Tests that fail as often as they choose at random by the number of the first time.
OF_A_NUMBER = """
import pathlib


def test_has_another_number(pytestconfig):
    first = pathlib.Path(f"{__file__}.first")
    if not first.exists():
        first.write_text(pytestconfig.option.hypothesis_seed)
    assert first.read_text() != pytestconfig.option.hypothesis_seed
"""
LEFT_OUT_LATER = """
import pathlib

import pytest


def test_is_left_out_later():
    ran = pathlib.Path(f"{__file__}.ran")
    if ran.exists():
        pytest.skip("left out: for a reason")
    ran.touch()
    assert False
"""
LEFT_OUT = """
import pytest


@pytest.mark.parametrize("place", range(3))
def test_is_left_out(place):
    pytest.skip("left out: for a reason")
"""
# A file that workers can't read.
UNREAD = """
import os

assert "PYTEST_XDIST_WORKER" not in os.environ


def test_passes_later():
    pass


def test_fails_later():
    assert False
"""


# A test that takes the time of a processor, and shows by which program it was run.
BUSY = """
import time
import types


def test_is_busy(program, krl_tool):
    assert ("by Rattle", "by LLVM") == (program.read_text(), krl_tool.read_text())
    until = time.process_time() + 0.6
    while time.process_time() < until:
        pass
"""
# A test that makes its own program, and so isn't among the early ones.
MAKING = """
import pytest


@pytest.fixture
def bad_lines():
    return []


def test_passes(bad_lines):
    pass
"""
SUM_OF_WORK = "722e6a7d82ff57907ecff4ef7f6b6dc4ea316ef37e7d3d312c4ddc54846048ba"
# What the toolchain's gate says at its end of what it did and what it took as kept.
OK = "rt: ok; handles allowed: Net; must-fail edits: 24 refused; "
DONE = "; the others are kept from earlier runs of the same files on this machine\n"


def module(name="check"):
    loader = importlib.machinery.SourceFileLoader(name, f"{TOP}/{name}")
    made = importlib.util.module_from_spec(importlib.util.spec_from_loader(name, loader))
    loader.exec_module(made)
    return made


@pytest.fixture
def check(tmp_path, monkeypatch):
    """Runs the tests of these files, and returns the check."""
    monkeypatch.delenv("PYTEST_XDIST_WORKER", raising=False)
    (tmp_path / "tests").mkdir()
    (tmp_path / "log").mkdir()
    settings = (TOP / "pytest.ini").read_text()
    (tmp_path / "pytest.ini").write_text(settings.replace("pythonpath = tests", f"pythonpath = {TOP}/tests"))
    shutil.copy(TOP / "tests/conftest.py", tmp_path / "tests")

    def tests(*files, run=lambda made, check: check.tests()):
        for number, text in enumerate(files):
            (tmp_path / f"tests/test_{number}.py").write_text(text)
        made = module()
        made.TOP = str(tmp_path)
        check = made.Check(str(tmp_path / "log"))
        try:
            run(made, check)
        finally:
            check.stop()
        return check
    return tests


def test_what_passes_alone_is_named_and_fails_nothing(check):
    done = check(STEADY, UNSTEADY)
    assert (4, 0) == (done.passed, done.failed)
    assert ["tests/test_1.py::test_passes_later[a row]", "tests/test_1.py::test_passes_later[b@c]"] == done.unsteady


def test_what_fails_again_fails_the_check(check):
    done = check(STEADY, UNSTEADY, WRONG)
    assert (4, 1) == (done.passed, done.failed)
    assert 2 == len(done.unsteady)


def test_what_fails_by_its_random_numbers_fails_again(check):
    done = check(STEADY, OF_A_NUMBER)
    assert (2, 1, []) == (done.passed, done.failed, done.unsteady)


def test_what_looks_for_a_loss_is_not_tried_again(check):
    done = check(STEADY, UNSTEADY.replace("@pytest.mark.xdist", "@pytest.mark.once\n@pytest.mark.xdist"))
    assert (2, 2, []) == (done.passed, done.failed, done.unsteady)


def test_what_is_left_out_the_second_time_has_failed(check):
    done = check(STEADY, LEFT_OUT_LATER)
    assert (2, 1, []) == (done.passed, done.failed, done.unsteady)


def test_what_is_left_out_is_counted(check):
    done = check(STEADY, LEFT_OUT)
    assert (2, 0, 3) == (done.passed, done.failed, done.left_out)


def test_a_file_that_can_be_read_the_second_time_is_counted_by_its_tests(check):
    done = check(STEADY, UNREAD)
    assert (3, 1, []) == (done.passed, done.failed, done.unsteady)


@pytest.mark.parametrize("line, status, failed", [
    ("3 passed, 0 failed", 0, 0), ("3 passed, 1 failed", 1, 1), ("3 passed, 0 failed", 1, 1),
    ("3 passed, 1 failed", 2, 2), ("3 passed, 0 failed", 3, 1), ("nothing was counted", 0, 1)])
def test_a_part_that_does_not_come_to_its_end_fails(tmp_path, line, status, failed):
    check = module().Check(str(tmp_path))
    check.start("tests", ["sh", "-c", f"echo '{line}'; exit {status}"])
    check.wait("tests")
    assert failed == check.failed and check.well == {"tests": failed == 0}


def test_failures_of_many_files_are_not_tried_again(check):
    done = check(STEADY, UNSTEADY, *5 * [UNSTEADY.replace('"b@c"', '"d"')])
    assert 12 == done.failed and [] == done.unsteady


# ---- what a check measures

def burning(seconds):
    """A command of which a child works for so many seconds of a processor."""
    child = f"import time\nwhile time.process_time() < {seconds}: pass"
    return ["sh", "-c", f"{sys.executable} -c '{child}'; echo '2 passed, 0 failed'"]


def test_a_part_takes_the_time_of_its_children(tmp_path):
    check = module().Check(str(tmp_path))
    check.start("gate", burning(1))
    check.start("tests", ["sh", "-c", "sleep 1; echo '1 passed, 0 failed'"])
    check.wait()
    took = {it.what: it for it in check.measure.parts}
    assert {"gate", "tests"} == {*took} and (3, 0) == (check.passed, check.failed)
    assert 0.9 < took["gate"].processor < 10 and took["tests"].processor < 0.5
    assert took["tests"].clock >= 1


def test_what_is_waited_for_meanwhile_is_a_part(tmp_path):
    measure = module().Check(str(tmp_path)).measure
    with measure.during("building the programs"):
        subprocess.run(burning(1), stdout=subprocess.DEVNULL, check=True)
    with measure.during("must-fail"):
        pass
    took = {it.what: it.processor for it in measure.parts}
    assert 0.9 < took["building the programs"] < 10 and took["must-fail"] < 0.5


@pytest.mark.parametrize("script, shortest, longest", [("pass", 0, 20), ("import time; time.sleep(600)", 1, 100)])
def test_the_making_of_machines_is_a_part_that_ends_with_the_check(check, tmp_path, script, shortest, longest):
    def run(made, check):
        (tmp_path / "tests/machines").mkdir()
        (tmp_path / "tests/machines/boxes.py").write_text(script)
        with made.machines_for_tests(check.measure, False):
            until = time.time() + 1
            while time.time() < until or (script == "pass" and not check.measure.parts):
                time.sleep(0.1)

    [part] = check(run=run).measure.parts
    assert "machines for tests" == part.what and shortest <= part.clock < longest


@pytest.mark.parametrize("status", [0, 1])
def test_the_fixed_work_counts_for_nothing_and_is_the_unit(tmp_path, status):
    check = module().Check(str(tmp_path))
    for what, seconds in (("fixed work", 40), ("fixed work again", 60)):
        said = f"fixed work: {seconds}.0 s of a processor, 70.0 s by the clock"
        check.start(what, ["sh", "-c", f"[ {status} = 1 ] || echo '{said}'; exit {status}"])
        check.wait()
    check.measure.add("gate", time.time(), 500, "none")
    lines = [*check.measure.lines()]
    assert (0, 0) == (check.passed, check.failed)
    gate = next(it for it in lines if it.startswith("gate "))
    if status:
        assert lines[0].startswith("unit: processor time of the fixed work, not measured; ")
        assert ["8.3", "-", "-", "none"] == gate.split()[-4:]
    else:
        assert lines[0].startswith("unit: processor time of the fixed work, 40.0 s and 60.0 s; ")
        # 500 s are 8.3 minutes, and 10 units of 50 s.
        assert ["8.3", "0.00", "10.00", "none"] == gate.split()[-4:]


def test_the_shares_of_the_processors_are_those_of_the_clock(tmp_path, monkeypatch):
    """Four processors have worked for 300 seconds in the first 100, and for none after these."""
    measure = module().Check(str(tmp_path)).measure
    measure.started, measure.first = time.time() - 100, (1000, 10)
    monkeypatch.setattr(sys.modules["measuring"], "worked", lambda: (1000 + 300, 10 + 20))
    measure.mark("until the last test")
    measure.started -= 100
    monkeypatch.setattr(os, "cpu_count", lambda: 4)
    shares = [it for it in measure.lines() if it.startswith("processors")]
    assert ["processors worked 75.0 % of the time until the last test, and the host took 5.0 % away",
            "processors worked 37.5 % of the time in all, and the host took 2.5 % away"] == shares


@pytest.mark.parametrize("said, kept", [
    (OK + "done in this run: 3 of the 82 proofs (of crates and of their tests) and 2 of the 24 must-fail edits" + DONE,
     "79 of 82 proofs, 22 of 24 edits"),
    (OK + "done in this run: 0 of the 82 proofs (of crates and of their tests)" + DONE,
     "82 of 82 proofs, 0 of 0 edits"),
    (OK + "every proof and must-fail edit was done in this run\n", "none"),
    ("rt: FAILED: text\n1 passed, 1 failed\n", None)])
def test_what_the_gate_took_as_kept(tmp_path, said, kept):
    module()
    assert kept == sys.modules["measuring"].kept_by_gate("rt: text proved\n" + said)


@pytest.mark.parametrize("said, kept", [
    ("tried: 4, remembered: 6; checks: 3 run, 2 remembered, 0 compared, 0 differ, 0 not kept\n", "6 of 10 mutants"),
    ("", None)])
def test_what_the_mutants_took_as_kept(tmp_path, said, kept):
    check = module().Check(str(tmp_path))
    check.start("wrong bodies", ["printf", said + "8 passed, 2 failed\n"])
    check.wait()
    assert [kept] == [it.kept for it in check.measure.parts]


def test_the_slowest_tests_are_named(check):
    done = check(STEADY.replace("    pass", "    __import__('time').sleep(0.3)", 1), LEFT_OUT)
    first, *others = [it for it in done.measure.lines() if it.startswith("slow test")]
    assert first.endswith("tests/test_0.py::test_passes") and 0.3 <= float(first.split()[2]) < 5
    assert any(it.endswith("tests/test_0.py::test_passes_alone") for it in others)


def test_the_fixed_work_stays_as_it_is(tmp_path):
    """Changed work is another unit, with which no earlier log can be compared."""
    fixed = module("tools/fixed-work")
    with open(fixed.WORK, "rb") as it:
        assert SUM_OF_WORK == hashlib.sha256(it.read()).hexdigest()
    fixed.unpack(tmp_path)
    files = [it.relative_to(tmp_path / "crates/text") for it in tmp_path.rglob("*.*t") if "crates.txt" != it.name]
    assert {"src", "specs", "proofs"} == {it.parts[0] for it in files} and 13 == len(files)
    assert "text:\n" == (tmp_path / "crates.txt").read_text()


# ---- when the tests begin

# A gate, which says of each program that it is linked. The tests have a minute to begin: then it ends once they have
# run, whatever else the machine does, or after ten minutes more.
GATE = """
for name in sshoffice trial heads_tool krl_tool; do echo "rt: $name proved"; done
echo 'rt: sshstation {is_linked}'
for _ in $(seq 600); do [ ! -e log/tests ] || break; {pause}; done
for _ in $(seq 6000); do
  [ -e log/tests ] || break
  [ -e log/tests.outcomes ] && echo 'rt: the tests ran' && break
  {pause}
done
echo '5 passed, 0 failed'
"""


def run_with_gate(tmp_path, is_linked, pause):
    """Has a gate link programs, in whose files it says by which compiler they were made."""
    def run(made, check):
        for name in made.LINKED:
            out = tmp_path / "crates" / name / "out"
            out.mkdir(parents=True)
            for file, by in ((name, "by LLVM"), (f"{name}.by-rattle", "by Rattle")):
                (out / file).write_text(by)
                (out / file).chmod(0o755)
        check.start("gate", ["sh", "-c", GATE.format(is_linked=is_linked, pause=pause)], cwd=tmp_path)
        made.wait_for_gate(check)
        made.take_as_built()
        check.tests(is_early=True)
    return run


@pytest.mark.parametrize("is_linked", ["proved", "is kept: an earlier run on this machine proved the same files"])
def test_the_tests_begin_before_the_gate_ends(check, tmp_path, is_linked):
    done = check(BUSY, STEADY, run=run_with_gate(tmp_path, is_linked, "sleep 0.1"))
    assert "rt: the tests ran" in (tmp_path / "log/gate").read_text()
    assert (5 + 2, 0) == (done.passed, done.failed), "the one that runs programs, and the one alone"
    assert ["gate", "tests", "tests alone"] == sorted(it.what for it in done.measure.parts)
    assert "by Rattle" == (tmp_path / "crates/sshoffice/out/sshoffice").read_text()
    assert "0" == (tmp_path / "log/left").read_text(), "the mutants may have all memory again"


def test_they_begin_after_a_gate_that_has_not_linked_all(check, tmp_path):
    done = check(MAKING, STEADY, run=run_with_gate(tmp_path, "NOT PROVED", "true"))
    assert "rt: the tests ran" not in (tmp_path / "log/gate").read_text()
    assert (5 + 2, 0) == (done.passed, done.failed)


def test_a_gate_of_which_most_is_kept_shares_the_processors_out_itself(tmp_path, monkeypatch):
    made = module()
    monkeypatch.setattr(made.toolchain, "crates_of", lambda rt: dict.fromkeys(["text", "krl_tool", "lines"]))
    rt = type("", (), {"STORE": str(tmp_path / "kept"), "processors": lambda: 4, "free": lambda: 10 ** 11})
    monkeypatch.setattr(made.toolchain, "load", lambda: rt)
    assert "4" == made.environment_of_gate()["RT_JOBS"], "there is no folder of what is kept"
    rows = (("proof-text-0", "4"), ("tests-lines-0", "4"), ("proof-text-1", "4"), ("proof-krl_tool-0", None))
    for name, jobs in rows:
        (tmp_path / "kept" / name).mkdir(parents=True)
        assert jobs == made.environment_of_gate().get("RT_JOBS"), name


# ---- how crates are proved side by side

# Crates with their lines, and those that they stand on: two programs, of which neither waits for the other's library.
CRATES = {"text": (500, ""), "office": (9000, "text"), "guard": (8500, "text"), "lines": (8200, "text"),
          "wire": (8100, "text"), "sshoffice": (700, "text office"), "sshstation": (3000, "text guard")}


class Crate:
    def __init__(self, name, crates):
        self.name, self.is_program, self.lines = name, name.startswith("ssh"), CRATES[name][0]
        self.names, self.crates = CRATES[name][1].split(), crates

    def below(self):
        return [self.crates[it] for it in self.names]


@pytest.fixture
def lanes(monkeypatch):
    """Lanes of these crates on four processors, of which `prove` is what proves one."""
    module()
    building, crates = sys.modules["building"], {}
    crates.update((it, Crate(it, crates)) for it in CRATES)
    monkeypatch.setattr(building, "lines_of", lambda crate: crate.lines)
    rt = type("", (), {"processors": lambda: 4, "free": lambda: 10 ** 11, "need": lambda crate: 10 ** 9})

    def make(prove):
        made = building.Lanes(rt, [*crates.values()], None, None, ())
        monkeypatch.setattr(made, "make", lambda crate, jobs: prove(crate.name, jobs))
        return made
    return make


def test_a_program_is_built_once_its_own_libraries_are(lanes):
    ended, office_may_end = [], threading.Event()

    def prove(name, jobs):
        if name == "office":
            assert office_may_end.wait(60)
        if name == "sshstation":
            office_may_end.set()
        ended.append(name)
        return True

    assert lanes(prove).run() is None
    assert {*CRATES} == {*ended} and ended.index("sshstation") < ended.index("office") < ended.index("sshoffice")


def test_what_others_wait_for_is_proved_by_two_processes_at_least(lanes):
    jobs = {}
    assert lanes(lambda name, count: jobs.update({name: count}) or True).run() is None
    # The longest chain ends with sshstation, and nothing depends on the last two.
    assert 4 == jobs["text"] and 2 <= jobs["guard"] and 2 <= jobs["sshstation"]
    assert (1, 1) == (jobs["lines"], jobs["wire"])


@pytest.mark.parametrize("lost, never", [("guard", {"sshstation"}), ("text", {*CRATES} - {"text"})])
def test_what_stands_on_a_crate_that_is_not_proved_is_not_tried(lanes, lost, never):
    tried = []
    assert lost == lanes(lambda name, jobs: tried.append(name) or name != lost).run()
    assert {*CRATES} - never == {*tried}


def test_the_tests_of_crates_are_named_that_do_not_pass(lanes, tmp_path):
    building, locked = sys.modules["building"], []
    rt = lanes(None).rt
    rt.rtlib = types.SimpleNamespace(lock=lambda crates: locked.extend({it.name for it in crates}) or [])
    crates = [it for it in lanes(None).left if it.name in ("guard", "office", "lines")]
    for it in crates:
        it.run = lambda flags, words, tests, name=it.name: print(f"ran {tests}", name) or name == "guard"
    assert ["guard"] == building.test_side_by_side(rt, crates, tmp_path)
    assert {"text", "guard", "office", "lines"} == {*locked}


# ---- when no answer is taken as kept

@pytest.mark.parametrize("words, how", [
    ([], ["--weekly"]), (["--anew"], ["--anew"]), (["text"], []), (["--anew", "text"], ["--anew"])])
def test_which_answers_of_mutants_are_taken_as_kept(monkeypatch, words, how):
    made, began = module(), []

    def start(self, what, command, *given, **named):
        if what == "wrong bodies":
            began.extend(command)
            raise SystemExit

    monkeypatch.setattr(made.Check, "start", start)
    crates = {"text": Crate("text", {})}
    for name, value in (("have_packages", True), ("wrong_bodies_fit", True), ("environment_of_gate", {}),
                        ("machines_for_tests", contextlib.nullcontext()), ("prove_some", True)):
        monkeypatch.setattr(made, name, lambda *given, value=value: value)
    monkeypatch.setattr(made.toolchain, "load", lambda: None)
    monkeypatch.setattr(made.toolchain, "crates_of", lambda rt, names=(): crates)
    monkeypatch.setattr(sys, "argv", ["check", *words])
    with pytest.raises(SystemExit):
        made.main()
    assert began[0].endswith("tools/wrong-bodies") and how == [it for it in began if it in ("--anew", "--weekly")]
