"""What tools/statement prints of a contract: the definitions that it rests on, each after all that cite it."""
import shutil
import subprocess

import pytest

from running import TOP, loaded

FILES = {
    "crates/low/specs/Shapes.antt": """\
use Rattle.std.specs.Prelude.{ℕ, List}
use Rattle.low.specs.declared.point.Point.{Point}

-- a circle or a point
pub data Shape : Type 0 where
  circle : ℕ → Shape
  dot : Point → Shape

-- no shape uses this
abbrev pub unused : ℕ
unused = 3

abbrev pub size : Shape → ℕ
size (circle radius) = radius
size (dot unused) = unused.x
""",
    "crates/low/src/point.rt": """\
/// A place.
#[derive(Drop)]
pub struct Point {
    /// To the right.
    pub x: u64,
}
""",
    "crates/high/specs/Sums.antt": """\
use Rattle.std.specs.Prelude.{ℕ, List, ◌+◌}
use Rattle.low.specs.Shapes.{Shape, circle}
use Rattle.low.specs.Shapes as shapes

-- the sizes of both
pub record IsSum (a b : Shape) (n : ℕ) : Type 0 where
  -- no third is counted
  pub all : n ≡ sum a b

abbrev pub sum : Shape → Shape → ℕ
sum (circle r) b = r + shapes.size b
sum a b = shapes.size a + shapes.size b
""",
    "crates/high/src/lib.rt": """\
ghost use Rattle.high.specs.Sums.{IsSum};

/// Adds two sizes.
pub fn add(a: u64, b: u64) -> u64
    // It is the sum.
    ensures sum { IsSum a.now b.now result }
{
    a + b
}
""",
}
SIZE = "crates/low/specs/Shapes.antt"


@pytest.fixture
def statement(tmp_path):
    """Runs the script in a repository of two small crates."""
    for name, text in FILES.items():
        path = tmp_path / name
        path.parent.mkdir(parents=True, exist_ok=True)
        path.write_text(text)
    (tmp_path / "tools").mkdir()
    shutil.copy(TOP / "tools/statement", tmp_path / "tools")

    def run(*words):
        words = ["/usr/bin/python3", "-B", tmp_path / "tools/statement", *words]
        return subprocess.run(words, capture_output=True, text=True, stdin=subprocess.DEVNULL)
    return run


def test_a_definition_comes_after_all_that_cite_it(statement):
    printed = statement("high::add").stdout
    heads = ["pub fn add", "pub record IsSum", "abbrev pub sum", "abbrev pub size", "pub data Shape",
             "pub struct Point"]
    places = [printed.find(it) for it in heads]
    assert -1 not in places and sorted(places) == places


def test_texts_come_whole_with_their_comments(statement):
    printed = statement("high::add").stdout
    for part in ("/// Adds two sizes.", "    // It is the sum.\n    ensures sum",
                 "-- the sizes of both\npub record IsSum", "  -- no third is counted\n  pub all",
                 "-- a circle or a point", "/// A place.\npub struct Point {\n",
                 "    /// To the right.\n    pub x: u64,\n}"):
        assert part in printed
    assert "derive" not in printed and "a + b\n}" not in printed, "neither attributes nor bodies"


def test_a_name_that_a_definition_binds_is_not_followed(statement):
    assert "no shape uses this" not in statement("high::add").stdout


def test_what_is_counted_and_the_toolchains_names(statement):
    counted = "5 definitions and the contract in 4 files, 23 lines; 2 names of the toolchain\n"
    assert counted == statement("--count", "high::add").stdout
    assert "- `Rattle.std.specs.Prelude`: `ℕ` `◌+◌`\n" in statement("high::add").stdout


def test_a_function_that_is_not_there_is_named(statement):
    done = statement("high::subtract")
    assert (1, "", "tools/statement: high::subtract: no such function\n") == (done.returncode, done.stdout, done.stderr)


# ---- the page

@pytest.fixture
def script():
    return loaded(TOP / "tools/statement")


def test_a_body_that_begins_with_record_is_no_definition(script, tmp_path):
    first = "-- of a number\nabbrev pub box_of : ℕ → Box\nbox_of n =\n    record { side = n }"
    second = "abbrev pub one : ℕ\none = 1"
    (tmp_path / "Boxes.antt").write_text(f"{first}\n\n{second}\n")
    script.TOP = tmp_path
    assert {"box_of": first, "one": second} == script.pieces("Boxes.antt")


def test_what_is_cited_once_comes_below_its_citer(script):
    """`a` cites b and c, b cites c and d, and d, of another file, cites e. Only c is cited twice."""
    a, b, c = (script.Definition("crates/x/specs/Near.antt", name, f"abbrev {name}") for name in "abc")
    d, e = (script.Definition("crates/x/specs/Far.antt", name, f"abbrev {name}") for name in "de")
    found = {a: [b, c], b: [c, d], c: [], d: [e], e: []}
    below = script.nested(found, {*found})
    assert [(a, 0), (b, 1), (d, 2), (e, 3)] == [*script.tree(a, below)] and [(c, 0)] == [*script.tree(c, below)]
    due = ["abbrev a", "  abbrev b", "    -- from crates/x/specs/Far.antt\n    abbrev d", "      abbrev e"]
    assert "\n\n".join(due) == script.shown_tree(a, below)


def test_what_another_part_shows_is_not_followed(script):
    a, b, c, d = (script.Definition("crates/x/specs/X.antt", name, f"abbrev {name}") for name in "abcd")
    found = {a: [b, c], b: [d], c: [], d: []}
    assert {a, c} == script.reached_without(found, [a], {b})
    assert {a, b, c, d} == script.reached_without(found, [a], set())
    assert {a, c, d} == script.reached_without(found, [a, d], {b})
