"""The worked rows of tests/rows: requests in, and bytes out.

Each NAME.exchange is applied to the trial office in memory and to an office in a file, and has to print NAME.expected.
Then each of its records comes to the file again, at another moment and with another nonce: each request has to be given
the last answer that it was given before, so that an accepted message gets its kept reply, and no table of the file may
change. What else the repeat has to print stands in NAME.again. An office with other serials than the trial office's, or
without its department, has the words of its opening in NAME.office, and is run in a file alone.
"""
import re

import pytest

from asking import CA, LAST_SERIAL, answers, exchange, exchanges_of, get, write_exchanges
from running import ROWS, Office, said, sql

pytestmark = pytest.mark.rows

NAMES = sorted(path.stem for path in ROWS.glob("*.exchange"))
DEPARTMENT = ROWS / "the-department-of-the-trial-office.exchange"
# The pages that a command prints as well.
PAGES = ("krl", "signers", "table")


class Row:
    """The files of a row: requests, what is printed, and perhaps the opening and what the repeat prints."""

    def __init__(self, name):
        parts = {path.suffix: path.read_bytes() for path in ROWS.glob(f"{name}.*")}
        self.exchanges, self.expected = exchanges_of(parts[".exchange"]), parts[".expected"]
        self.opening, self.again = [*map(int, re.findall(rb"\d+", parts.get(".office", b"")))], parts.get(".again")

    def last_answers(self):
        """To each request the last answer that it was given."""
        given = answers(self.expected)
        assert len(self.exchanges) == len(given), "as many answers as records"
        return {one.request: answer for one, answer in zip(self.exchanges, given)}

    def printed_again(self):
        last = self.last_answers()
        given = (last[one.request] for one in self.exchanges)
        return self.again or b"".join(b"answer %d\n%s" % (len(it), it) for it in given)


def printed(program, *words):
    """What the program prints, and then its fault."""
    return b"".join(said([program, *words])[1:])


@pytest.mark.parametrize("name", [name for name in NAMES if not Row(name).opening])
def test_a_row_in_memory(name, program):
    assert Row(name).expected == printed(program, "apply", ROWS / f"{name}.exchange")


@pytest.fixture(params=NAMES)
def filed(request, program, room):
    """A row, an office in a file of its opening, and what the row's requests print of it."""
    name = request.param
    row = Row(name)
    first, last = row.opening or (1, LAST_SERIAL)
    office = Office(program, ca=CA, first=first, last=last)
    if not row.opening:
        office.must("apply", "--db", office.db, DEPARTMENT)
    return row, office, printed(program, "apply", "--db", office.db, ROWS / f"{name}.exchange")


def test_a_row_in_a_file(filed):
    row, _, came = filed
    assert row.expected == came


@pytest.mark.parametrize(("filed", "page"), [(name, page) for name in NAMES for page in PAGES if get(
    f"/v1/{page}") in Row(name).last_answers()], indirect=["filed"])
def test_a_command_prints_what_a_page_shows(filed, page):
    """It prints what the row's last request for the page was given."""
    row, office, _ = filed
    assert row.last_answers()[get(f"/v1/{page}")].body == office.must(page, "--db", office.db)


def test_a_row_that_comes_again(filed):
    row, office, _ = filed
    tables = sql(office.db, ".dump")
    file = write_exchanges("again", [exchange(one.request, one.moment ^ 1, 0xee) for one in row.exchanges])
    assert row.printed_again() == printed(office.program, "apply", "--db", office.db, file)
    assert tables == sql(office.db, ".dump"), "a repeat changes no table"


def test_the_table_of_rows_names_each_file():
    listed = (ROWS / "README.md").read_text()
    assert [] == [name for name in NAMES if f"`{name}`" not in listed]
    assert [] == [path.name for path in ROWS.iterdir() if path.name != "README.md" and path.stem not in NAMES]
