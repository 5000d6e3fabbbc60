"""data/mends.toml: that each mend can be taken out again, and that its tests are there. without_mends.py tries them."""
import re

import pytest

from running import TOP
from without_mends import edits, mends

MENDS = mends()


@pytest.mark.parametrize("name", MENDS)
def test_a_mend_can_be_taken_out(name):
    mend = MENDS[name]
    for old, new in edits(mend):
        assert 1 == (TOP / mend["file"]).read_text().count(old)
        assert old != new
    assert bool(edits(mend)) != ("program" in mend)
    for it in mend["tests"]:
        file, _, test = it.partition("::")
        assert re.search(rf"^def {test}\(", (TOP / "tests" / file).read_text(), re.M), it


def test_each_row_of_the_table_has_a_mend_and_its_tests():
    text = (TOP / "tests/README.md").read_text()
    rows = {int(number): rest for number, rest in re.findall(r"^\| (\d+) \| (.*) \|$", text, re.M)}
    assert {*rows} == {it["row"] for it in MENDS.values()} == {*range(1, len(rows) + 1)}
    for mend in MENDS.values():
        files = {it.partition(".py")[0].rpartition("/")[2] for it in mend["tests"]}
        assert [] == sorted(it for it in files if f"`{it}`" not in rows[mend["row"]]), mend
