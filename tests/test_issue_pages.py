"""Which pages of its file an office reads and writes for an issue, as strace and its log show them.

No statement can be seen from outside. But C SQLite writes the same pages for the statements that an office sent before
departments could have own names, demands and key types (`issuing.py`); and whatever a department has of these, the
office asks the system for the same bytes, in the same order.
"""
import contextlib
import re
import shutil
import sqlite3

import pytest

from asking import CA, department, exchange, issue, post, revoke_keyid, revoke_range, write_exchanges
from issuing import issue_by_sqlite, logged
from running import Office, run
from subject_keys import LINES, SK_ED25519

NOW = 3000
COMMAND, VERIFY = "force-command /bin/true", "verify-required"
# Each department, and what is asked for in it beside the usual.
DEPARTMENTS = {
    "plain": (department(), {}),
    "own names": (department(admins="{name}", principals="{name}@web"), {"principals": "ana@web"}),
    "demands": (department(musts=[COMMAND]), {"options": [COMMAND]}),
    "key types": (department(key_types=[SK_ED25519]), {"key": LINES[SK_ED25519]}),
    "all": (department(admins="{name}", principals="{name}", key_types=[SK_ED25519], musts=[COMMAND, VERIFY]),
            {"principals": "ana", "options": [COMMAND, VERIFY], "key": LINES[SK_ED25519]}),
}
# The tables that the statements write. The key of one is a text, which has an index.
WRITTEN = {"cert", "office", "request", "sqlite_autoindex_request_1"}
ANSWERED = re.compile(r"issued (\d+)\ndigest [0-9a-f]{64}\n")
CALLS = "pread64", "pwrite64", "fdatasync", "ftruncate"
# A call, the end of its file's name, and what it says but bytes.
CALL = re.compile(rf'\d+ +({"|".join(CALLS)})\(\d+<[^>]*\.(db[^>]*)>(?:, ""\.\.\.)?(.*)\) += \d+')


def filled(program, name):
    """A closed office whose tables have rows, with a department; and an issue in it."""
    text, words = DEPARTMENTS[name]
    office = Office(program, f"{name}.db", ca=CA)
    begun = [department("other"), text, issue("other/a"), revoke_range(1, 1), revoke_keyid("other/b")]
    given = office.apply([exchange(post("root", f"k{place}", it), NOW, 1) for place, it in enumerate(begun)])
    assert [200] * len(begun) == [it.status for it in given]
    return office, issue("web/ana", **words)


def pages_by_table(db, pages):
    """The tables and indices whose pages these are: each has one page, which is its root."""
    with contextlib.closing(sqlite3.connect(f"file:{db}?mode=ro", uri=True)) as file:
        roots = dict(file.execute("SELECT rootpage, name FROM sqlite_master"))
    return sorted(roots[it] for it in pages)


@pytest.mark.parametrize("name", DEPARTMENTS)
def test_an_issue_writes_the_pages_that_sqlite_writes_for_its_statements(program, room, name):
    office, message = filled(program, name)
    shutil.copy(office.db, "c.db")
    with office.serving() as served:
        answer = served.post("ana", "i", message).text
        body = served.get(f"/v1/certs/{ANSWERED.fullmatch(answer)[1]}/body").body
        own, = logged(office.db)
    with contextlib.closing(sqlite3.connect("c.db", isolation_level=None)) as file:
        assert ("wal",) == file.execute("PRAGMA journal_mode").fetchone()
        issue_by_sqlite(file, 2, "web/ana", "i", message.encode(), body, answer)
        by_sqlite, = logged("c.db")
    assert sorted(WRITTEN) == pages_by_table(office.db, own) == pages_by_table("c.db", by_sqlite)


def calls_of(program, name):
    """What an office asks the system about its file and its log, with sizes and places, from opening them to the end of
    one issue."""
    office, message = filled(program, name)
    asked = write_exchanges("one", [exchange(post("ana", "i", message), NOW, 2)])
    done = run(["strace", "-f", "-y", "-s", "0", "-e", f"trace={','.join(CALLS)}", "-o", "trace", "--", program,
                "apply", "--db", office.db, asked])
    assert b"issued 2\n" in done.stdout, done
    with open("trace", encoding="ascii") as trace:
        found = [CALL.match(line) for line in trace]
    return [it.groups() for it in found if it]


def test_an_issue_asks_the_system_for_the_same_whatever_the_department_has(program, room):
    plain, *others = (calls_of(program, name) for name in DEPARTMENTS)
    assert {("pread64", "db"), ("pwrite64", "db-wal"), ("fdatasync", "db")} <= {it[:2] for it in plain}
    assert [plain] * len(others) == others
