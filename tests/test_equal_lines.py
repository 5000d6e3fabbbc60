"""What two crates have alike stands once: tools/equal-lines finds runs of lines that stand in both. And what two
programs of Python have alike is in vethlumi_common."""
import ast
import re
import shutil

import pytest

from running import PROGRAMS, TOP, run

pytestmark = pytest.mark.early
TOOL = "tools/equal-lines"
LINES = [f"step{it} = refl" for it in range(30)]


# What is still twice since both crates have the runs of their programs: what a close leaves.
STILL_TWICE = ["proofs/Left.antt"]


def test_the_crates_of_both_guards_share_no_other_run_of_twenty_lines():
    *found, count = run([TOP / TOOL]).stdout.decode().splitlines()
    assert STILL_TWICE == [re.fullmatch(r"\d+ equal lines: crates/guard_sql/(\S+):\d+ crates/list_sql/\1:\d+", it)[1]
                           for it in found]
    assert f"{len(STILL_TWICE)} runs of 20 equal lines or more in guard_sql and list_sql" == count


@pytest.fixture
def found(room):
    """Says which runs are found in two crates of these lines."""
    (room / "tools").mkdir()
    shutil.copy(TOP / TOOL, room / TOOL)

    def find(one, other, place="proofs/Same.antt"):
        for name, lines in (("one", one), ("other", other)):
            file = room / f"crates/{name}/{place}"
            file.parent.mkdir(parents=True, exist_ok=True)
            (room / f"crates/{name}/src").mkdir(exist_ok=True)
            file.write_text("".join(f"{it}\n" for it in lines))
        done = run([room / TOOL, "one", "other"])
        return done.returncode, done.stdout.decode().splitlines()
    return find


@pytest.mark.parametrize("one, other, size", [
    (LINES[:20], LINES[:20], 20), (["a", *LINES[:20]], [*LINES[:20], "b"], 20), (LINES, ["x", *LINES, "y"], 30),
    (["-- one", "", *LINES[:20]], [*LINES[:9], "-- other", "", *LINES[9:20]], 20),
    ([f"  {it}" for it in LINES[:20]], LINES[:20], 20),
])
def test_a_run_is_found_without_comments_blank_lines_and_indentation(found, one, other, size):
    status, said = found(one, other)
    assert 1 == status and said[0].startswith(f"{size} equal lines: crates/one/proofs/Same.antt:"), said
    assert "1 runs of 20 equal lines or more in one and other" == said[1]


@pytest.mark.parametrize("one, other", [
    (LINES[:19], LINES[:19]), ([*LINES[:19], "a", *LINES[19:]], [*LINES[:19], "b", *LINES[19:]]), ([], LINES),
])
def test_a_shorter_run_is_none(found, one, other):
    assert (0, ["0 runs of 20 equal lines or more in one and other"]) == found(one, other)


@pytest.mark.parametrize("place, status", [("src/lib.rt", 1), ("specs/Same.antt", 1), ("out/Same.antt", 0),
                                           ("proofs/notes.txt", 0)])
def test_where_lines_are_looked_for(found, place, status):
    assert status == found(LINES, LINES, place)[0]


@pytest.mark.parametrize("words", [["one"], ["guard_sql", "nothing"], ["--lines", "0"]])
def test_words_that_name_no_two_crates(words):
    assert 2 == run([TOP / TOOL, *words]).returncode


# ---- functions of the programs in Python

# How many equal lines are too many.
LEAST = 6


def outermost(tree):
    """The functions of a tree that are within no other."""
    for it in ast.iter_child_nodes(tree):
        yield from [it] if isinstance(it, ast.FunctionDef) else outermost(it)


def functions(texts):
    """The lines of each function that is in these texts, by its place: those that do something."""
    found = {}
    for name, text in texts.items():
        lines = text.splitlines()
        for it in outermost(ast.parse(text)):
            body = it.body[1:] if ast.get_docstring(it, False) is not None else it.body
            own = [line.strip() for line in lines[body[0].lineno - 1:it.end_lineno]] if body else []
            found[f"{name}:{it.lineno} {it.name}"] = [line for line in own if line and not line.startswith("#")]
    return found


def twice(texts):
    """The functions that share a run of LEAST lines, by the run."""
    found = {}
    for name, lines in functions(texts).items():
        for at in range(len(lines) - LEAST + 1):
            found.setdefault(tuple(lines[at:at + LEAST]), {})[name] = None
    return {run: [*names] for run, names in found.items() if len(names) > 1}


def python_of(folder):
    return {str(it.relative_to(folder)): it.read_text() for it in sorted(folder.rglob("*"))
             if it.is_file() and (it.suffix == ".py" or it.read_bytes().startswith(b"#!/usr/bin/python3"))}


def test_no_function_of_the_programs_stands_twice():
    texts = python_of(PROGRAMS)
    assert {"common/vethlumi_common/files.py", "server/fetch-list", "station/vethlumi_station/rounds.py",
            "client/vethlumi/office.py", "setup/vethlumi-install", "front/authority"} <= {*texts}
    assert {} == twice(texts)


BODY = "".join(f"    step({it})\n" for it in range(LEAST))


@pytest.mark.parametrize("one, other, is_found", [
    (f"def one():\n{BODY}", f"def other():\n    '''It says more.'''\n    # And more.\n\n{BODY}", True),
    (f"def one():\n{BODY}    last()\n", f"class Other:\n  def other(self):\n    first()\n{BODY}", True),
    (f"def one():\n{BODY}", "def other():\n" + BODY.partition("\n")[2], False),
    (f"def one():\n{BODY}", "def other():\n" + BODY.replace("step(3)", "step(7)"), False),
    (f"if one:\n{BODY}", f"if other:\n{BODY}", False), (f"def one():\n{BODY}\ndef two():\n{BODY}", "", True),
])
def test_which_functions_are_alike(one, other, is_found):
    assert is_found == bool(twice({"one": one, "other": other}))
