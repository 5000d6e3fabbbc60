"""A file of the schema before, which sqlite3 makes of an office: it is moved, and nothing is lost."""
import pytest

from asking import CA, department, exchange, issue, post, revoke_range
from running import sql
from test_tables import fault

ISSUES = [post("ana", f"i{n}", issue(f"web/i{n}", after=3000, before=4000)) for n in range(1, 5)]
ASKED = [exchange(it, 3000) for it in (
    post("root", "web", department()), *ISSUES, post("root", "r1", revoke_range(2, 3)))]
REQUESTS = "SELECT * FROM request ORDER BY caller, key"


@pytest.fixture
def used(make_office):
    made = make_office(ca=CA, last=100)
    made.answered = made.apply(ASKED)
    assert [200] * len(ASKED) == [it.status for it in made.answered]
    return made


@pytest.fixture
def older(used):
    used.was = used.krl(), used.table(), sql(used.db, REQUESTS)
    sql(used.db, "DROP TABLE ca", "UPDATE office SET schema = 1", "VACUUM")
    return used


def test_an_office_of_this_schema_is_not_moved(used):
    assert "WrongSchema" == fault(used, "migrate", "--db", used.db)


def test_no_other_file_is_moved(used, room):
    sql("other.db", "CREATE TABLE t (x)")
    assert "NotAnOffice" == fault(used, "migrate", "--db", "other.db")


def test_the_schema_before_is_not_opened(older):
    assert "WrongSchema" == fault(older, "table", "--db", older.db)


def test_it_is_moved_once_and_nothing_is_lost(older):
    assert b"migrated 1 2\n" == older.must("migrate", "--db", older.db)
    assert "WrongSchema" == fault(older, "migrate", "--db", older.db)
    assert older.was == (older.krl(), older.table(), sql(older.db, REQUESTS))
    assert "1|1|1" == sql(older.db, "SELECT number, since, ca.ca = office.ca FROM ca, office")
    assert older.answered == older.apply(ASKED), "each message gets its answer again"
