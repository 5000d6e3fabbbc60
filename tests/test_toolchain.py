"""What tools/toolchain.py takes from the toolchain's command `rt` is there. A toolchain that lacks some of it, or wants
other arguments, is named at once, and nothing is tried with it."""
import importlib.machinery
import importlib.util
import json
import os
import pathlib
import re
import shutil
import sys
import threading

import pytest

from running import TOP, left_out, run

TOOLCHAIN = (TOP / "tools/toolchain.py").read_text()
CALLED, VALUES = (re.search(rf'^{name} = "+(.*?)"', TOOLCHAIN, re.M | re.S)[1] for name in ("CALLED", "VALUES"))
NAMES = re.findall(r"([\w.]+)\(", CALLED)
TAKES_NONE = re.findall(r"([\w.]+)\(\)", CALLED)

# Says of a toolchain with something else under each name what it lacks, and which files the stamp of a crate reads.
PROGRAM = """
import json, sys
sys.path.insert(0, "tools")
import toolchain

rt = toolchain.load()
opened = []
sys.addaudithook(lambda what, given: what == "open" and opened.append(str(given[0])))
crates = toolchain.crates_of(rt)
opened.clear()
crates["sshoffice"].stamp()
files = [it for it in opened if "/crates/" in it]


def lacking(name, another):
    *path, last = name.split(".")
    holder = toolchain.named(rt, ".".join(path)) if path else rt
    kept = holder.__dict__[last]
    setattr(holder, last, another)
    found = [*toolchain.lacking(rt)]
    setattr(holder, last, kept)
    return found


names = json.load(sys.stdin)
lacks = [{it: lacking(it, another) for it in names} for another in (None, lambda: None)]
print(json.dumps(lacks + [files, hasattr(rt, "share_work")]))
"""


def needs_rt():
    return os.path.realpath(shutil.which("rt") or left_out("the toolchain's command rt isn't on the PATH"))


@pytest.fixture(scope="module")
def told():
    """What lacks where a name is gone, and where it is a function without arguments, and the files of the stamp."""
    needs_rt()
    words = {"input": json.dumps([*NAMES, *VALUES.split()]).encode(), "stdin": None, "cwd": TOP, "check": True}
    return json.loads(run([sys.executable, "-B", "-c", PROGRAM], **words).stdout)


@pytest.mark.parametrize("name", [*NAMES, *VALUES.split()])
def test_another_toolchain_is_found(told, name):
    gone, without_arguments, *_ = told
    assert [name] == [it.partition("(")[0] for it in gone[name]]
    due = [name] if name in NAMES and name not in TAKES_NONE else []
    assert due == [it.partition("(")[0] for it in without_arguments[name]]


def test_the_scripts_take_what_is_listed_and_nothing_else():
    """What older toolchains don't have is taken only if it is there."""
    scripts = [TOP / "build", TOP / "check", *(it for it in (TOP / "tools").iterdir() if it.is_file())]
    texts = "".join(it.read_text() for it in scripts).replace('sys.modules["rtlib"]', "rtlib")
    taken = {*re.findall(r"\brt\.((?!rtlib)\w+)", texts), *re.findall(r"\b(rtlib\.(?!Crate)\w+)", texts)}
    assert {"share_work", "kit_sum", "STORE"} == taken - {*NAMES, *VALUES.split()}


def test_the_stamp_of_a_crate_reads_each_file_once(told):
    """There are thousands of ways from the program down to the lowest crates. Older toolchains go all of them, which
    takes seconds more: the scripts replace nothing of a toolchain."""
    *_, files, is_newer = told
    assert len({*files}) > 500
    if not is_newer:
        left_out("this toolchain reads the files of a crate once for each way that leads to it")
    assert len({*files}) == len(files)


@pytest.mark.parametrize(("change", "complaint"), [
    ("", "crates.txt has no crate none"), ("del need", "this toolchain's rt has no need(crate): "),
    ("below = rtlib.crates_below\nrtlib.crates_below = lambda top: [delattr(it, 'rlib') or it for it in below(top)]",
     "this toolchain's rt has no crate.rlib: ")])
def test_nothing_is_tried_with_another_toolchain(room, change, complaint):
    real = needs_rt()
    (room / "rt").write_text(f"__file__ = {real!r}\nexec(compile(open(__file__).read(), __file__, 'exec'))\n{change}\n")
    (room / "rt").chmod(0o755)
    path = f"{room}{os.pathsep}{os.environ['PATH']}"
    done = run([TOP / "tools/wrong-bodies", "none"], env=os.environ | {"PATH": path})
    assert (2, True) == (done.returncode, done.stderr.decode().startswith(f"wrong-bodies: {complaint}"))


@pytest.fixture
def script(monkeypatch):
    """The code of tools/wrong-bodies."""
    monkeypatch.syspath_prepend(TOP / "tools")
    loader = importlib.machinery.SourceFileLoader("wrong_bodies", str(TOP / "tools/wrong-bodies"))
    script = importlib.util.module_from_spec(importlib.util.spec_from_loader(loader.name, loader))
    monkeypatch.setattr(sys, "dont_write_bytecode", True)
    loader.exec_module(script)
    return script


def test_a_trial_leaves_the_memory_that_other_work_is_about_to_take(room, script):
    """A check of wrong bodies that takes 4 bytes begins beside another one if as many more stay free as a file says."""
    class Toolchain:
        need, free = staticmethod(lambda crate: 8), staticmethod(lambda: 10)

    memory, begun = script.Room(Toolchain, room / "left"), threading.Event()

    def check():
        with memory.for_one(None):
            begun.set()

    (room / "left").write_text("7")
    with memory.for_one(None):
        threading.Thread(target=check, daemon=True).start()
        assert not begun.wait(1)
        (room / "left").write_text("6")
        with memory.turn:
            memory.turn.notify_all()
        assert begun.wait(60)


@pytest.mark.parametrize(("seconds", "running", "first"), [
    ([[90, 5], [80, 70]], [0, 0], 0), ([[90, 5], [80, 70]], [1, 0], 1), ([[90], [44, 44]], [1, 0], 0),
    ([[90], [46, 1]], [1, 0], 1), ([[], [1]], [0, 0], 1)])
def test_the_longest_step_is_the_next(script, seconds, running, first):
    """A step counts half if another one of its crate is being taken. Steps of a crate without its libraries wait."""
    class Trial:
        is_ready, expected = True, staticmethod(lambda step: step)

        def __init__(self, steps, running):
            self.steps, self.running = steps, running

    trials, waiting = [*map(Trial, seconds, running)], Trial([1000], 0)
    waiting.is_ready = False
    assert trials[first] is script.Side([waiting, *trials], None).next()


def test_the_seconds_of_an_edit_are_those_of_its_last_try(room, script):
    """Edits that were tried together took the same. What was never tried takes as long as its crate has lines."""
    took = script.remembered.Seconds(room)
    assert took.of("text/first", 1000) == 1000 * script.remembered.SECONDS_OF_A_LINE
    took.note(["text/first", "text/second"], 60)
    took.save()
    script.remembered.Seconds(room).save()
    later = script.remembered.Seconds(room)
    later.note(["text/second"], 50)
    later.save()
    assert {"text/first": 30, "text/second": 50} == script.remembered.Seconds(room).known
    (room / "seconds.json").write_text('{"text/first": ')
    assert {} == script.remembered.Seconds(room).known


def test_what_was_not_used_for_the_longest_time_goes(room, script):
    """Files of others stay, whatever they are called, and so does what another run is about to write."""
    sums = [number * 32 for number in ("a0", "b1", "c2")]
    others = ["seconds.json", "aa/other", f"folder/{sums[0]}", "new-letter"]
    for number, name in enumerate([f"{it[:2]}/{it}" for it in sums] + ["a0/new-half_1ab", "b1/new-now_12ab", *others]):
        (room / name).parent.mkdir(exist_ok=True)
        (room / name).write_text("x" * 100)
        at = None if "now" in name else (1000 + number, 1000 + number)
        os.utime(room / name, at)
    script.remembered.Outputs(type("Toolchain", (), {"kit_sum": staticmethod(str)}), str(room)).shrink(200)
    left = {str(it.relative_to(room)) for it in room.rglob("*") if it.is_file()}
    assert {f"b1/{sums[1]}", f"c2/{sums[2]}", "b1/new-now_12ab", *others} == left


ENDS = "only=1 holes=0\n"


@pytest.mark.parametrize(("status", "said", "is_kept"), [
    (1, "fn a::b: no proof: `search` did not prove `returns`\n" + ENDS, True), (0, "fn a::b: no holes\n" + ENDS, True),
    (1, "fn a::b: not proved\nlogic=not-proved\n", True), (0, "logic=proved sum=1\n", True), (0, "holes=3\n", True),
    (1, "fn a::b: no proof\n", False), (0, "", False), (2, ENDS, False), (3, ENDS, False), (-9, ENDS, False),
    (1, "src/lib.rt:1:2: error[unknown-name]: no\n", True), (0, "src/lib.rt:1:2: error[unknown-name]: no\n", False),
    (1, "fn a::b: could not tell\n" + ENDS, False), (1, "note: it could not tell `a` from `b`\n" + ENDS, True),
    (1, "`returns`: stopped at the step limit (50000000 steps a task, the default)\n" + ENDS, False),
    (1, "  `search` broke off: the call's work took more than 10000000 steps\n" + ENDS, True),
    (1, "note: antt ran out of the memory that the check of one declaration may use\n" + ENDS, False),
    (1, "note: a copy of rattle was killed by signal 9, perhaps for lack of memory\n" + ENDS, False),
    (1, "antt: a job died\n" + ENDS, False), (1, "fn a::antt: no proof\n" + ENDS, True)])
def test_which_output_is_kept(script, status, said, is_kept):
    """A tactic's own count of steps is the same in each check. What other limits decide may differ."""
    unfit = script.remembered.unfit(script.remembered.subprocess.CompletedProcess([], status, said))
    assert is_kept == (unfit is None)


def test_the_course_of_a_check_is_not_part_of_its_output(script):
    said = "so far: 3 of 33 functions checked\nfn a::b: no holes\nlibrary text: modules loaded=55 checked=579\n" + ENDS
    assert "fn a::b: no holes\n" + ENDS == script.remembered.without_course(said)


def test_the_words_that_are_looked_for_are_the_provers():
    """A prover that says another way that it met a limit would have such output kept."""
    prover = (pathlib.Path(needs_rt()).parent / "rattle").read_bytes()
    words = ["ran out of ", "outgrew the memory limit", "stopped at the step limit", "stopped after copying", "term arena",
             "no memory budget", "temporary terms", "resource limit", "could not start", "was killed by signal",
             "incremental directory", "Run the lower steps again", "panicked at", "internal error", "os error ",
             ": could not tell", "functions checked", ": modules loaded=", "logic=not-proved", "holes=", "only="]
    assert [] == [it for it in words if it.encode() not in prover]
