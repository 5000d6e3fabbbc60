"""What `./near` takes for changed, which tests it chooses, and how it ends: in a repository of its own, with commands
that stand for the toolchain's."""
import importlib.machinery
import importlib.util
import os
import shutil
import subprocess
import sys
import types

import pytest

from running import TOP, left_out, until

LIBRARY = """\
//! A library.
ghost use Rattle.low.specs.Low.{least};

const LEAST: u64 = 0;

/// The next number.
pub fn next(a: u64) -> u64
    ensures more { result ≡ a + 1 }
{
    a + 1
}

/// The number itself.
pub fn same(a: u64) -> u64
    ensures { result ≡ a }
{
    a
}
"""
FILES = {
    "crates/low/src/lib.rt": LIBRARY,
    "crates/low/specs/Low.antt": "abbrev pub least : ℕ\nleast = 0\n",
    "crates/low/proofs/same/Answers.antt": "returns = refl\n",
    "crates/low/wrong-bodies.toml": """\
[the-second-next]
file = 'src/lib.rt'
old = '    a + 1'
new = '    a + 2'

[another-least]
file = 'specs/Low.antt'
old = 'least = 0'
new = 'least = 1'
functions = ['same']
""",
    "README.md": "# A page\n",
}
# What is changed in which file, the functions that changed, whether other crates read another text, and the mutants.
ROWS = [
    ("src/lib.rt", "    a + 1", "    1 + a", {"next"}, False, []),
    ("src/lib.rt", "    a + 1\n", "    // One more.\n    a + 1\n", {"next"}, False, ["the-second-next"]),
    ("src/lib.rt", "{ result ≡ a + 1 }", "{ result ≡ 1 + a }", {"next"}, True, ["the-second-next"]),
    ("src/lib.rt", "/// The next number.", "/// The number after this.", set(), False, []),
    ("src/lib.rt", "const LEAST: u64 = 0;", "const LEAST: u64 = 1;", set(), True, []),
    ("src/lib.rt", "Low.{least}", "Low.{most}", set(), True, []),
    ("specs/Low.antt", "least = 0", "-- the least\nleast = 0", set(), False, ["another-least"]),
    ("specs/Low.antt", ": ℕ", ": List ℕ", set(), True, ["another-least"]),
    ("proofs/same/Answers.antt", "refl", "trans refl refl", {"same"}, False, ["another-least"]),
    ("wrong-bodies.toml", "a + 2", "a + 3", set(), False, ["the-second-next"]),
]


def script(name):
    sys.path.insert(0, str(TOP / "tools"))
    loader = importlib.machinery.SourceFileLoader(os.path.basename(name), str(TOP / name))
    made = importlib.util.module_from_spec(importlib.util.spec_from_loader(loader.name, loader))
    loader.exec_module(made)
    return made


def git(room, *words):
    if not shutil.which("git"):
        left_out("git isn't there, which ./near asks what changed")
    names = ["-c", "user.name=a", "-c", "user.email=a@example.org", "-c", "commit.gpgsign=false"]
    said = subprocess.run(["git", "-C", room, *names, *words], check=True, capture_output=True, text=True)
    return said.stdout.strip()


@pytest.fixture
def repository(room, monkeypatch):
    for path, text in FILES.items():
        (room / path).parent.mkdir(parents=True, exist_ok=True)
        (room / path).write_text(text)
    git(room, "init", "-q", "-b", "main")
    git(room, "add", "-A")
    git(room, "commit", "-q", "-m", "first")
    made = script("near")
    monkeypatch.setattr(made.toolchain, "TOP", str(room))
    monkeypatch.setattr(made, "TOP", str(room))
    return made


def blanked(folder):
    """The sources of a crate without their comments, as the toolchain gives them."""
    found = {}
    for at, _, names in os.walk(folder):
        for file in (f"{at}/{it}" for it in names if it.endswith(".rt") or "/specs" in at):
            with open(file) as it:
                lines = it.read().split("\n")
            found[file] = "\n".join(" " * len(it.encode()) if it.strip()[:2] in ("//", "--") else it for it in lines)
    return found


@pytest.mark.parametrize("path, old, new, functions, is_above, mutants", ROWS)
def test_what_of_a_crate_changed(repository, room, tmp_path_factory, path, old, new, functions, is_above, mutants):
    file = room / "crates/low" / path
    file.write_text(file.read_text().replace(old, new))
    rt = types.SimpleNamespace(rtlib=types.SimpleNamespace(blanked=blanked))
    crate = types.SimpleNamespace(name="low", folder=str(room / "crates/low"))
    found = repository.changes.Difference(rt, crate, "HEAD", [path], str(tmp_path_factory.mktemp("old")))
    assert (functions, is_above, mutants) == (found.functions, found.is_above, found.mutants)


def test_with_which_commit_the_files_are_compared(repository, room):
    base_of, first = repository.changes.base_of, git(room, "rev-parse", "HEAD")
    assert first == base_of(), "there is no other"
    (room / "README.md").write_text("# Another page\n")
    assert first == base_of() and ["README.md"] == repository.changes.files_since(first)
    git(room, "commit", "-q", "-a", "-m", "second")
    second = git(room, "rev-parse", "HEAD")
    assert first == base_of(), "origin has no main, so it is the one before"
    (room / "new").write_text("")
    git(room, "add", "new")
    git(room, "commit", "-q", "-m", "third")
    assert second == base_of()
    git(room, "update-ref", "refs/remotes/origin/main", first)
    assert first == base_of() and ["README.md", "new"] == repository.changes.files_since(first)
    assert second == base_of("HEAD^"), "one that is named comes first"
    (room / "untracked").write_text("")
    assert git(room, "rev-parse", "HEAD") == base_of()
    assert ["README.md", "new", "untracked"] == repository.changes.files_since(first)
    with pytest.raises(subprocess.CalledProcessError):
        base_of("nowhere")


def test_the_sources_of_crates_alone_are_checked(repository):
    files = ["README.md", "crates/low/README.md", "crates/low/src/lib.rt", "crates/low/specs/Low.antt",
             "crates/low/wrong-bodies.toml", "crates/up/proofs/f/Answers.antt", "tests/test_near.py"]
    assert {"low": ["src/lib.rt", "specs/Low.antt", "wrong-bodies.toml"], "up": ["proofs/f/Answers.antt"]} == \
        repository.changes.crates_in(files)


@pytest.mark.parametrize("path, some, first", [
    ("tests/test_krl.py", {"test_krl.py"}, "test_krl.py"),
    ("tests/lists.py", {"test_krl.py", "test_lists.py", "test_fetch_list.py"}, None),
    ("programs/server/fetch-list", {"test_fetch_list.py", "test_published.py", "test_scripts.py"},
     "test_fetch_list.py"),
    ("programs/client/vethlumi/none.py", {"test_vethlumi.py"}, "test_vethlumi.py"),
    ("tests/conftest.py", {"test_frame.py"}, "test_frame.py"),
    ("docs/OPERATING.md", {"test_operating.py", "machines/test_boxes.py"}, None),
    ("crates/guard/src/lib.rt", set(), None)])
def test_which_tests_are_run(path, some, first):
    found = script("near").tests_of([path])
    assert some <= {*found} and (not first or found[0] == first) and (some or not found)


def lines_of(near, capsys, *lines):
    status = near.run(*lines)
    return status, [it.partition(" min  ")[2] or it for it in capsys.readouterr().out.splitlines()]


def test_what_fails_is_shown_and_what_comes_after_it_is_not_run(repository, room, capsys):
    task = repository.Task
    check = task("low is proved", ["sh", "-c", "echo 'fn low::next: not proved'; echo; exit 1"])
    mutants = task("mutants of low", ["touch", "tried"], str(room), after=[check])
    good = task("pages", ["true"])
    none = task("tests", ["sh", "-c", "exit 5", "pytest"])
    near = repository.Near(1, str(room))
    near.unseen.append("tests of machines")
    status, lines = lines_of(near, capsys, [check, mutants], [good, none])
    assert 1 == status and not (room / "tried").exists()
    assert {"FAILS: low is proved", "fn low::next: not proved", "holds: pages"} == {*lines[:3]}
    assert ["not looked at: mutants of low: what comes before it doesn't hold",
            "not looked at: tests: it has no quick tests that can run now", "not looked at: tests of machines",
            "1 held, 1 failed; ./check looks at everything"] == lines[3:]


def has_ended(number):
    """Whether a process has ended, also if nobody has waited for it yet."""
    try:
        with open(f"/proc/{number}/stat") as it:
            return it.read().rpartition(") ")[2].startswith("Z")
    except (FileNotFoundError, ProcessLookupError):
        return True


def test_at_its_limit_everything_is_ended(repository, room, capsys):
    near = repository.Near(8 / 60, str(room))
    slow = repository.Task("slow", ["sh", "-c", "sleep 60 & echo $! >child; wait"], str(room))
    short = repository.Task("short", ["sleep", "60"], longest=0.2)
    status, lines = lines_of(near, capsys, [slow, repository.Task("later", ["true"])],
                             [short, repository.Task("good", ["true"])])
    assert 0 == status
    assert ["holds: good", "not looked at: slow: it takes longer", "not looked at: later: no time was left",
            "not looked at: short: it takes longer", "1 held, 0 failed; ./check looks at everything"] == lines
    until(lambda: has_ended((room / "child").read_text().strip()))
