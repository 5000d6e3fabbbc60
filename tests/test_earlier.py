"""An earlier version beside this one: its departments had neither own names, nor demands, nor types of keys.

`--earlier=FILE` names the `sshoffice` of that version, built at commit 347b804c, and `--earlier-station=FILE` its
`sshstation`. Without them these tests are left out. What has no addition is answered by both alike: in memory, in a
file, and over a file that the other one has made. What has one the earlier programs can't read. They say so, and change
nothing, and once the addition is gone they go on.
"""
import collections
import itertools
import os
import pathlib

import pytest
from hypothesis import HealthCheck, Phase, settings
from hypothesis import strategies as some
from hypothesis.stateful import rule, run_state_machine_as_test

import test_registers
from asking import (CA, LAST_SERIAL, answers, body, department, digest_of, exchange, get, issue, key_blob, key_line,
                    post, renew, revoke_serial)
from running import Office, applied, sql
from stations import WIDE, Guard
from subject_keys import CERTIFICATES, ED25519, KEYS, LINES, SK_ED25519
from test_registers import EXTENSIONS, KEY_IDS, OPTIONS, PRINCIPALS, Registers, rows_of
from test_rows import DEPARTMENT, NAMES, PAGES, Row

pytestmark = pytest.mark.slow

# The page that the earlier office doesn't have.
NEWER = get("/v1/departments")


@pytest.fixture(params=["the earlier one first", "this one first"])
def turns(request, program, earlier):
    """Both offices' programs, in both orders."""
    return (earlier, program) if request.param.startswith("the earlier") else (program, earlier)


# ---- without additions: the worked rows

def asked_in(row):
    return [one for one in row.exchanges if one.request != NEWER]


def due_to(row):
    return [it for one, it in zip(row.exchanges, answers(row.expected)) if one.request != NEWER]


def reports_of(office):
    """What an office says of all it has."""
    serials = range(1, 1 + int(sql(office.db, "SELECT count(*) FROM cert")))
    pages = ["pending", "krl", "signers", "table", "cas"] + [f"certs/{it}{what}" for it in serials
                                                             for what in ("", "/body")]
    return dict(zip(pages, office.apply([get(f"/v1/{it}") for it in pages]))) | {
        f"the command {it}": office.must(it, "--db", office.db) for it in PAGES}


def test_both_answer_the_rows_in_memory(program, earlier, room):
    for name in NAMES:
        row = Row(name)
        for it in (earlier, program) if not row.opening else ():
            assert (name, due_to(row)) == (name, applied(it, asked_in(row))), it


def opened(program, row, db):
    """An office in a file, in which the row's requests have been answered, and the answers."""
    first, last = row.opening or (1, LAST_SERIAL)
    office = Office(program, db, ca=CA, first=first, last=last)
    if not row.opening:
        office.must("apply", "--db", office.db, DEPARTMENT)
    return office, office.apply(asked_in(row))


@pytest.mark.timeout(3600)
def test_one_goes_on_over_the_file_of_the_other(turns, room):
    """The other one answers each row's requests again, at another moment and with another nonce, and says the same of
    the office. No table changes."""
    maker, other = turns
    for name in NAMES:
        row = Row(name)
        office, given = opened(maker, row, f"{name}.db")
        twin, alike = opened(other, row, f"{name}-twin.db")
        assert (name, due_to(row), due_to(row)) == (name, given, alike)
        tables, reports = sql(office.db, ".dump"), reports_of(office)
        assert (name, sql(twin.db, ".dump")) == (name, tables)
        office.program = other
        again = [exchange(one.request, one.moment ^ 1, 0xee) for one in asked_in(row)]
        assert (name, twin.apply(again)) == (name, office.apply(again))
        assert (name, reports) == (name, reports_of(office))
        assert (name, tables) == (name, sql(office.db, ".dump"))


# ---- without additions: random histories

class Alike(Registers):
    """Histories without additions and without the newer page, of which each program answers a half in a file."""
    programs = ()
    put_department_of_names = ask_by_name = live_by_name = live_with_demands = ask_for = look_at = None

    @rule(to=Registers.FROM_ANA, key_id=KEY_IDS, comment=some.sampled_from([None, "box"]), principals=PRINCIPALS,
          ends=test_registers.ENDS, options=OPTIONS, extensions=EXTENSIONS)
    def ask_for_plain_keys(self, to, key_id, comment, principals, ends, options, extensions):
        self.send(to, issue(key_id, key=key_line(0x22, comment), principals=principals, after=ends[0], before=ends[1],
                            options=options, extensions=extensions))

    @rule(page=some.sampled_from(["pending", "krl", "signers", "table", "cas", "certs/0", "certs/01", "keys"]))
    def look_at_a_page(self, page):
        self.ask(get(f"/v1/{page}"), 1000, 0)

    def reports(self):
        return [one for one in super().reports() if one.request != NEWER]

    def in_memory(self, asked, due):
        if self.last == LAST_SERIAL:
            for it in self.programs:
                assert due == applied(it, asked), it

    def in_a_file(self, asked, due):
        for first, second in itertools.permutations(self.programs):
            office, half = Office(first, f"{next(self.count)}.db", ca=CA, last=self.last), len(asked) // 2
            given = office.apply(test_registers.DEPARTMENT + asked[:half])[len(test_registers.DEPARTMENT):]
            office.program = second
            assert due == given + office.apply(asked[half:]), f"first {first}"
            assert self.office.rows() == rows_of(office.db)
            os.unlink(office.db)


@pytest.mark.timeout(3600)
def test_both_answer_random_histories(request, program, earlier, room):
    class Machine(Alike):
        programs, kinds, additions = (earlier, program), collections.Counter(), collections.Counter()

    run_state_machine_as_test(Machine, settings=settings(
        max_examples=max(1, request.config.getoption("--steps") // 60), stateful_step_count=50, deadline=None,
        database=None, suppress_health_check=HealthCheck.all(), print_blob=False,
        phases=(Phase.generate, Phase.shrink)))
    print(f"figure: {Machine.asked} exchanges of both versions")
    assert not Machine.additions


# ---- what has an addition

# Departments with one addition each.
ADDED = {
    "a name among administrators": {"admins": "ana,{name}"},
    "a name among administrators, with a prefix": {"admins": "ana,host-{name}"},
    "a name among principals": {"principals": "alice,{name}"},
    "a name among principals, with a suffix": {"principals": "alice,{name}@people"},
    "a demand": {"musts": ["verify-required"]}, "a demand with a value": {"musts": ["force-command /bin/true"]},
    "types of keys": {"key_types": [ED25519, SK_ED25519]}, "the type that there was": {"key_types": [ED25519]},
}
# The number of the line of a policy that an earlier guard names: administrators, principals, options, extensions.
BAD_LINES = {"admins": 3, "principals": 4, "musts": 6, "key_types": 7}
PLAIN, OTHER = department(), department("other")


def ask(name, number, of="web"):
    return post("ana", f"{name}{number}", issue(f"{of}/{name}{number}", after=1000, before=2000))


def changed_by(office, *exchanges):
    """The answers to some exchanges, and whether a table has changed."""
    before = sql(office.db, ".dump")
    given = office.apply(exchanges)
    return [it and it.text for it in given], before != sql(office.db, ".dump")


def test_an_earlier_office_finds_the_department_damaged(program, earlier, room):
    for place, (what, addition) in enumerate(ADDED.items()):
        check_damaged(program, Office(earlier, f"{place}.db", ca=CA), what, department(**addition))


def check_damaged(program, office, what, text):
    """What asks for the department gets no answer, and all else goes on. Once this version has put a text without the
    addition in its place, the earlier one goes on with it."""
    earlier = office.program
    assert [200] * 4 == [it.status for it in office.apply([
        post("root", "d1", PLAIN), post("root", "d2", OTHER), ask("a", 1), ask("a", 2)])]
    office.program = program
    assert (["department web\n"], True) == changed_by(office, post("root", "d3", text))
    office.program = earlier
    for request in (ask("b", 1), post("ana", "b2", renew(1, after=1000, before=1500)),
                    post("ana", "b3", revoke_serial(1)), get("/v1/signers")):
        assert (what, [None], False) == (what, *changed_by(office, request)), request
    assert (what, 1, b"", b"sshoffice: Damaged\n") == (what, *office.run("signers", "--db", office.db))
    assert office.apply([ask("a", 1), get("/v1/krl"), get("/v1/table")]) == applied_by(program, office, [
        ask("a", 1), get("/v1/krl"), get("/v1/table")])
    assert "issued 3" in changed_by(office, ask("c", 1, "other"))[0][0]
    office.program = program
    assert (["department web\n"], True) == changed_by(office, post("root", "d4", PLAIN))
    office.program = earlier
    assert "issued 4" in changed_by(office, ask("b", 1))[0][0]


def applied_by(program, office, exchanges):
    """What another program answers over the same file."""
    before, office.program = office.program, program
    try:
        return office.apply(exchanges)
    finally:
        office.program = before


def test_an_earlier_office_takes_no_text_with_an_addition(earlier, room):
    """It is no message for it."""
    office = Office(earlier, ca=CA)
    asked = [post("root", f"d{place}", department(**it)) for place, it in enumerate(ADDED.values())]
    assert (["refused 7 BadMessage\n"] * len(ADDED), False) == changed_by(office, *asked)


def test_a_key_of_another_type_is_refused_by_another_number(program, earlier, room):
    """The one thing that is answered otherwise without an addition."""
    asked = [post("root", "d", PLAIN)] + [
        post("ana", f"k{place}", issue(f"web/{place}", key=it, after=1000, before=2000))
        for place, it in enumerate(LINES.values())]
    given = [[one.text.split("\n")[0] for one in applied(it, [exchange(some, 1000, 1) for some in asked])]
             for it in (earlier, program)]
    assert given == [["department web", *("issued 1" if it == ED25519 else why for it in LINES)]
                     for why in ("refused 7 BadMessage", "refused 14 NotPermitted")]


# ---- guards

def bodies(room):
    """Files with bodies: permitted ones, and others that are refused, each for another reason."""
    made = {f"p{it}": body(it, ca=key_blob(0x11), key_id=f"web/{it}") for it in range(1, 6)} | {
        "again": body(1, ca=key_blob(0x11), key_id="web/other"), "other": body(7, ca=key_blob(0x12)),
        "ended": body(8, ca=key_blob(0x11), after=1, before=2), "root": body(9, ca=key_blob(0x11), principals=["root"]),
        "none": body(10, ca=key_blob(0x11))[:-1], "db": body(11, ca=key_blob(0x11), key_id="db/a")}
    for name, data in made.items():
        (room / name).write_bytes(data)
    (room / "ca.pub").write_text(f"{CA}\n")
    return [*made]


def test_one_guard_goes_on_over_the_file_of_the_other(sshstation, earlier_station, room):
    for place, turns in enumerate(itertools.permutations((earlier_station, sshstation))):
        go_on_with_guards(room, turns, [f"{place}-{it}.db" for it in range(2)])


def go_on_with_guards(room, turns, files):
    names = bodies(room)
    guards = [Guard(it, room / file, room / "ca.pub", WIDE, last=100) for it, file in zip(turns, files)]
    answered = [guard.judge(*names[:3], *names[5:]) for guard in guards]
    assert answered[0] == answered[1] and f"sign 1 {digest_of((room / 'p1').read_bytes())}" == answered[0][0]
    guards[0].program = turns[1]
    assert [answered[0]] * 2 == [guard.judge(*names[:3], *names[5:]) for guard in guards]
    assert guards[0].judge(*names) == guards[1].judge(*names)
    assert [it[:2] for it in guards[0].bodies()] == [it[:2] for it in guards[1].bodies()]


def test_an_earlier_guard_reads_no_policy_with_an_addition(sshstation, earlier_station, room):
    bodies(room)
    for place, addition in enumerate(ADDED.values()):
        guard = Guard(earlier_station, room / f"{place}.db", room / "ca.pub", OTHER + PLAIN, last=100)
        [line] = [8 + BAD_LINES[it] for it in addition]
        check_bad_policy(sshstation, guard, OTHER + department(**addition), line)


def check_bad_policy(sshstation, guard, text, line):
    """The earlier guard says which line doesn't fit, and signs nothing by the other departments, either. This version's
    goes on over the same file; and the earlier one again, once the addition is gone."""
    earlier_station = guard.program
    assert guard.judge("p1")[0].startswith("sign 1 ")
    guard.permit(text)
    before = guard.db.read_bytes(), guard.bodies()
    said = 1, b"", f"sshstation: BadPolicy {line}\n".encode()
    assert said == guard.run("policy", guard.policy)
    assert said == guard.run("judge", "--db", guard.db, "--policy", guard.policy, "p2")
    assert before == (guard.db.read_bytes(), guard.bodies())
    guard.program = sshstation
    assert b"other\nweb\n" == guard.must("policy", guard.policy)
    assert guard.judge("p1")[0].startswith("sign 1 ")
    guard.permit(OTHER + PLAIN)
    guard.program = earlier_station
    assert guard.judge("p1", "p2") == [f"sign {it} {digest_of(pathlib.Path(f'p{it}').read_bytes())}" for it in (1, 2)]


def test_an_earlier_guard_reads_no_body_for_a_key_of_another_type(sshstation, earlier_station, room):
    (room / "ca.pub").write_text(f"{CA}\n")
    names = [name.partition("-cert")[0] for name in CERTIFICATES.values()]
    for serial, (kind, name) in enumerate(zip(CERTIFICATES, names), 1):
        (room / name).write_bytes(body(serial, ca=key_blob(0x11), type_name=CERTIFICATES[kind].encode(),
                                       key=KEYS[kind]))
    given = [[line.split(" ")[:2] for line in Guard(it, room / f"{place}.db", room / "ca.pub", PLAIN).judge(*names)]
             for place, it in enumerate((earlier_station, sshstation))]
    assert given == [[["sign", "1"] if it == ED25519 else ["refuse", why] for it in CERTIFICATES]
                     for why in ("NotABody", "NotPermitted")]
