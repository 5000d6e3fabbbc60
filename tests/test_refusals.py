"""Why a message is refused: each refusal that each kind of message may meet, by the tables of docs/FORMATS.md.

The office has the departments `web`, whose administrator is ana, and `db`, whose administrator is bob. Of its
certificates the first is signed, the second waits, the key id of the third is revoked, and so is the serial of the
fourth. No refusal changes anything, so one office answers all rows.
"""
import tomllib

import pytest

from asking import (CA, LATEST, OTHER_CA, deliver, department, exchange, issue, lasting, post, renew, revoke_keyid,
                    revoke_range, revoke_serial, rollover)
from running import TOP, Office, refusals
from stations import new_station
from subject_keys import LINES

pytestmark = pytest.mark.rows

NOW = 3000
OTHERS = "0" * 64


def asked(keyid="web/x", **words):
    return issue(keyid, **{"after": NOW, "before": NOW + 1000} | words)


def again(serial, **words):
    return renew(serial, **{"after": NOW, "before": NOW + 1000} | words)


# A caller, a message, and the number of its refusal. DIGEST stands for that of the serial's body.
ROWS = [
    ("ana", department("web", principals="bob"), 10),
    ("station", department("new"), 10),
    ("root", department("web", kind="host", principals="alice"), 12),
    ("bob", asked(), 10),
    ("station", asked(), 10),
    ("ana", asked("none/x"), 10),
    ("root", asked("none/x"), 11),
    ("ana", asked("web2/x", department="web"), 13),
    ("ana", asked("we/x", department="web"), 13),
    ("ana", asked("db/x", department="web"), 13),
    ("ana", asked(principals="bob"), 14),
    ("ana", asked(principals="alice,bob"), 14),
    ("ana", asked(before=NOW + 86401), 14),
    ("ana", asked(before=NOW), 14),
    ("ana", asked(after=NOW + 1, before=NOW), 14),
    ("ana", asked(options=["force-command /bin/true"]), 14),
    ("ana", asked(extensions="permit-pty"), 14),
    ("ana", asked(after=NOW - 1000, before=NOW), 15),
    ("ana", asked("web/three"), 16),
    # A key of another type is one more thing that the department doesn't permit.
    *[("ana", asked(key=it), 14) for kind, it in LINES.items() if kind != "ssh-ed25519"],
    ("bob", asked(key=LINES["ssh-rsa"]), 10),
    ("root", asked("none/x", key=LINES["ssh-rsa"]), 11),
    ("ana", asked("db/x", department="web", key=LINES["ssh-rsa"]), 13),
    ("ana", asked(after=NOW - 1000, before=NOW, key=LINES["ssh-rsa"]), 14),
    ("ana", asked("web/three", key=LINES["ssh-rsa"]), 14),
    ("ana", asked(key=LINES["ssh-rsa"].replace("AAAA", "AAAB", 1)), 7),
    ("bob", again(1), 10),
    ("ana", again(99), 10),
    ("ana", again(1, before=NOW + 86401), 14),
    ("ana", again(1, after=NOW - 1000, before=NOW), 15),
    ("ana", again(3), 16),
    ("root", again(99), 17),
    ("ana", again(4), 19),
    ("ana", again(2), 21),
    ("root", deliver(2, "DIGEST"), 10),
    ("ana", deliver(2, "DIGEST"), 10),
    ("station", deliver(99, OTHERS), 17),
    ("station", deliver(2, OTHERS), 18),
    ("station", deliver(3, "DIGEST"), 19),
    ("station", deliver(4, "DIGEST"), 19),
    ("station", deliver(1, "DIGEST", 0x55), 20),
    ("bob", revoke_serial(1), 10),
    ("station", revoke_serial(1), 10),
    ("ana", revoke_serial(99), 10),
    ("root", revoke_serial(99), 17),
    ("ana", revoke_range(1, 2), 10),
    ("root", revoke_range(4, 5), 17),
    ("root", revoke_range(98, 99), 17),
    ("bob", revoke_keyid("web/x"), 10),
    ("ana", revoke_keyid("none/x"), 10),
    ("ana", revoke_keyid("web2/x"), 10),
    ("root", revoke_keyid("none/x"), 11),
    ("root", revoke_keyid("web2/x"), 11),
    ("ana", rollover(OTHER_CA), 10),
    ("root", rollover(CA), 23),
    ("root", "revoke-serial 1", 7),
]


@pytest.fixture(scope="module")
def office(program, tmp_path_factory):
    made = Office(program, tmp_path_factory.mktemp("refusals") / "office.db", ca=CA)
    made.given = []
    certificates = [post("ana", name, asked(f"web/{name}")) for name in ("one", "two", "three", "four")]
    begun = made.apply([exchange(it, NOW) for it in (
        post("root", "web", department("web")), post("root", "db", department("db", admins="bob")), *certificates)])
    made.digests = {serial: it.text.split()[3] for serial, it in enumerate(begun[2:], 1)}
    given = made.apply([exchange(it, NOW) for it in (
        post("station", "one", deliver(1, made.digests[1])), post("ana", "k", revoke_keyid("web/three")),
        post("ana", "s", revoke_serial(4)))])
    assert [200] * 9 == [it.status for it in begun + given]
    return made


@pytest.fixture(scope="module")
def answers(office):
    """The answers to all rows, each under a request key of its own."""
    requests = []
    for place, (caller, message, _) in enumerate(ROWS):
        digest = office.digests.get(int(message.split()[1]), OTHERS) if "DIGEST" in message else ""
        requests.append(exchange(post(caller, f"r{place}", message.replace("DIGEST", digest)), NOW))
    return office.apply(requests)


@pytest.fixture(scope="module")
def table():
    return refusals()


@pytest.mark.parametrize(("place", "number"), [(place, it[2]) for place, it in enumerate(ROWS)],
                         ids=[f"{caller}: {message.splitlines()[0]}: {number}" for caller, message, number in ROWS])
def test_a_message_is_refused(answers, table, place, number):
    name, status = table[number]
    assert (status, f"refused {number} {name}\n") == (answers[place].status, answers[place].text)


@pytest.mark.parametrize(("caller", "key", "moment", "number"), [
    ("ana", "one", NOW, 9), ("ana", "one", LATEST + 1, 8), ("ana", "new", LATEST + 1, 8)])
def test_a_key_is_reused_or_a_moment_is_too_late(office, table, caller, key, moment, number):
    answer, = office.apply([exchange(post(caller, key, asked()), moment)])
    assert f"refused {number} {table[number][0]}\n" == answer.text


def test_a_renewal_is_refused_where_it_is_served(sshstation, make_office, table):
    """A validity has ended by the clock of the system. Of two refusals that apply the least number is answered."""
    due = [f"refused {number} {table[number][0]}\n" for number in (15, 16)]
    office = make_office()
    with office.serving() as served:
        served.post("root", "web", department("web"))
        assert served.post("ana", "i", issue("web/alice", **lasting(3600))).text.startswith("issued 1\n")
        assert [1] == new_station(sshstation, office, served.url).sign()
        assert served.post("ana", "r", renew(1, **lasting(3000))).text.startswith("issued 2\n")
        assert due[0] == served.post("ana", "ended", renew(1, **lasting(-1))).text
        assert served.post("root", "k", revoke_keyid("web/alice")).text.startswith("revoked\n")
        assert due == [served.post("ana", f"again{place}", renew(1, **lasting(seconds))).text
                       for place, seconds in enumerate((-1, 1800))]


def test_the_client_knows_each_refusal_by_its_name(table):
    """The client says what a refusal means, and what to do about it, by a table of its own."""
    known = tomllib.loads((TOP / "programs/client/vethlumi/refusals.toml").read_text(encoding="utf-8"))
    assert {str(number): name for number, (name, _) in table.items()} == {it: row[0] for it, row in known.items()}
    for number, row in known.items():
        assert len(row) == 3 and all(row), number
