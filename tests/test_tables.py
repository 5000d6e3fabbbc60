"""An office's file: the rows that sqlite3 finds in it after messages, and what the program says of rows that sqlite3
has changed."""
import pytest

from asking import (CA, LAST_SERIAL, OTHER_CA, deliver, department, digest_of, exchange, get, issue, key_blob, key_line,
                    post, renew, revoke_keyid, revoke_range, revoke_serial, rollover)
from lists import header, section, single
from running import init, run, sql

pytestmark = pytest.mark.rows

FIRST, SECOND = 9223372036854775805, 9223372036854775806


def said(office, *requests):
    """The body of each response without the digest of an issue, or `fault`, at the moment 3000."""
    given = office.apply([exchange(it, 3000) for it in requests])
    return ["fault" if it is None else it.text.partition("\ndigest")[0].rstrip("\n") for it in given]


def told(office, key, message, caller="root"):
    """What one message is answered."""
    return said(office, post(caller, key, message))[0]


def fault(office, *words):
    """The fault in which a command ends."""
    status, out, err = office.run(*words)
    assert (1, b"") == (status, out)
    return err.decode().removeprefix("sshoffice: ").rstrip("\n")


def asked(key, **words):
    """The issue of a certificate `web/KEY` under this request key."""
    return post("ana", key, issue(f"web/{key}", after=3000, before=4000, **words))


def waiting(office):
    """The serials of the certificates that wait for a signature."""
    return [int(line.split()[0]) for line in said(office, get("/v1/pending"))[0].splitlines()]


def runs(office):
    return sql(office.db, "SELECT lo, hi FROM run ORDER BY lo").splitlines()


@pytest.fixture
def with_department(make_office):
    """Makes an office with a department, and so many certificates."""
    def make(count, **options):
        made = make_office(ca=CA, **options)
        told(made, "web", department())
        assert [f"issued {made.first + it}" for it in range(count)] == said(
            made, *[asked(f"i{it + 1}") for it in range(count)])
        return made

    return make


# ---- runs of revoked serials

@pytest.fixture
def twelve(with_department):
    """An office of twelve certificates, of which six are revoked."""
    made = with_department(12, last=LAST_SERIAL)
    for key, message in (("a", revoke_serial(2)), ("b", revoke_range(4, 5)), ("c", revoke_serial(9))):
        told(made, key, message)
    assert "revoked\nversion 4" == told(made, "d", revoke_range(11, 12))
    return made


def test_runs_are_rows_and_share_a_part_of_the_list(twelve):
    assert ["2|2", "4|5", "9|9", "11|12"] == runs(twelve)
    assert 161 == len(twelve.krl())


def test_a_range_that_joins_runs_is_one_version_and_one_row(twelve):
    assert "revoked\nversion 5" == told(twelve, "e", revoke_range(3, 10))
    assert ["2|12"] == runs(twelve)
    assert 129 == len(twelve.krl())
    assert "revoked\nversion 5" == told(twelve, "f", revoke_serial(7)), "what is revoked already changes nothing"
    assert ["2|12"] == runs(twelve)
    assert "ok" == sql(twelve.db, "PRAGMA integrity_check")


@pytest.fixture
def top(with_department):
    """An office that has handed out its only serials, the last two of all, and revoked both."""
    made = with_department(2, first=FIRST, last=SECOND)
    assert ["refused 22 SerialsExhausted"] == said(made, asked("i3"))
    told(made, "a", revoke_serial(SECOND))
    told(made, "b", revoke_serial(FIRST))
    return made


def test_the_last_serials_are_one_row(top):
    assert [f"{FIRST}|{SECOND}"] == runs(top)
    assert 129 == len(top.krl())


def test_at_the_last_version_of_the_list(top):
    sql(top.db, f"UPDATE office SET version = {SECOND}")
    assert f"revoked\nversion {SECOND}" == told(top, "c", revoke_serial(SECOND)), "it is revoked already"
    assert "fault" == told(top, "d", revoke_keyid("web/alice")), "it would change the list"
    sql(top.db, f"UPDATE office SET version = {FIRST}")
    assert f"revoked\nversion {SECOND}" == told(top, "d", revoke_keyid("web/alice")), "one change is left"
    assert "fault" == told(top, "e", revoke_keyid("web/bob"))


def test_an_office_of_another_schema_or_none(top):
    sql(top.db, "UPDATE office SET schema = 7")
    assert "WrongSchema" == fault(top, "krl", "--db", top.db)
    assert "WrongSchema" == fault(top, "migrate", "--db", top.db)
    sql(top.db, "DELETE FROM office")
    assert "NotAnOffice" == fault(top, "krl", "--db", top.db)


# ---- several CAs

@pytest.fixture
def split(with_department):
    """An office of four CAs, of which the second has issued nothing."""
    made = with_department(2, last=100)
    second, third, fourth = (post("root", f"o{it}", rollover(key_line(0x10 + it))) for it in (2, 3, 4))
    said(made, second, third, *[asked(f"i{it}") for it in range(3, 8)], fourth, asked("i8"), asked("i9"))
    return made


def test_cas_serve_from_the_next_serial_on(split):
    assert ["1|1", "2|3", "3|3", "4|8"] == sql(split.db, "SELECT number, since FROM ca ORDER BY number").splitlines()


def test_ranges_across_rollovers(split):
    """Each CA has a section of its own serials, and one that issued nothing has none."""
    ranges = post("root", "a", revoke_range(2, 3)), post("root", "b", revoke_range(7, 9))
    assert ["revoked\nversion 1", "revoked\nversion 2"] == said(split, *ranges)
    assert ["2|3", "7|9"] == runs(split)
    assert (header(2, 3000) + section(0x11, single(2)) + section(0x13, single(3, 7)) + section(0x14, single(8, 9))
            == split.krl())


# ---- a damaged body

@pytest.fixture
def cut(with_department):
    """An office with two certificates, of which the second's body is damaged."""
    made = with_department(2, last=100)
    sql(made.db, "UPDATE cert SET body = x'010203' WHERE serial = 2")
    return made


def renewal(serial, key):
    return post("root", key, renew(serial, after=3500, before=4500))


def test_a_damaged_body_is_a_fault_of_what_reads_it(cut):
    assert ["issued 3"] == said(cut, asked("i3"))
    assert ["fault"] == said(cut, renewal(2, "n2"))
    assert "Fault" == cut.run("apply", "--db", cut.db, cut.db.with_suffix(".exchange"))[2].decode().split()[1]
    assert ["refused 21 NotSigned"] == said(cut, renewal(1, "n1"))
    assert "Damaged" == fault(cut, "table", "--db", cut.db)
    assert "ok" == sql(cut.db, "PRAGMA integrity_check")


def test_what_is_behind_a_fault_is_answered(cut):
    assert ["fault", "issued 3"] == said(cut, renewal(2, "n3"), asked("i4"))
    assert 1 == cut.run("apply", "--db", cut.db, cut.db.with_suffix(".exchange"))[0], "the status is that of a fault"


# ---- each table

ISSUES = [asked(key) for key in "abc"]


@pytest.fixture
def new(make_office):
    return make_office(ca=CA, first=7, last=100)


@pytest.fixture
def filled(new):
    """An office with two departments and three certificates, from the serial 7 on."""
    assert ["department web", "department db", "department web"] == said(
        new, post("root", "web-5", department()), post("root", "db-5", department("db")),
        post("root", "web-9", department(principals="alice,bob")))
    assert ["issued 7", "issued 8", "issued 9"] == said(new, *ISSUES)
    return new


def delivery(office, serial):
    body = bytes.fromhex(sql(office.db, f"SELECT hex(body) FROM cert WHERE serial = {serial}"))
    return body, post("station", "d", deliver(serial, digest_of(body)))


@pytest.mark.parametrize("command", ["krl", "migrate"])
def test_an_empty_database_is_no_office(new, room, command):
    sql("empty.db", "VACUUM")
    assert "NotAnOffice" == fault(new, command, "--db", "empty.db")


def test_init_makes_all_tables_and_one_office(new):
    names = sql(new.db, "SELECT name FROM sqlite_schema WHERE type = 'table' ORDER BY name").split()
    assert "ca cert department office request revoked_keyid run".split() == names
    columns = "id, schema, root, station, first, last, next, version, date"
    assert "1|2|root|station|7|100|7|0|0" == sql(new.db, f"SELECT {columns} FROM office")
    assert "1|7|1" == sql(new.db, "SELECT number, since, ca.ca = office.ca FROM ca, office")
    assert key_blob(0x11).hex().upper() == sql(new.db, "SELECT hex(ca) FROM office")
    assert "AlreadyAnOffice" == fault(new, *init(new.db, new.ca, first=7, last=100))


def test_a_department_takes_the_place_of_another_of_its_name(filled):
    found = sql(filled.db, "SELECT name, rules FROM department ORDER BY name")
    assert ["db|alice", "web|alice,bob"] == found.splitlines()


def test_the_departments_are_a_policy_that_a_guard_reads(filled, sshstation, room):
    told(filled, "d2", department("web-2", kind="host", admins=""))
    given, = filled.apply([get("/v1/departments")])
    (room / "policy").write_bytes(given.body)
    assert b"db\nweb\nweb-2\n" == run([sshstation, "policy", "policy"], check=True).stdout
    texts = department("db"), department(principals="alice,bob"), department("web-2", kind="host", admins="")
    assert "".join(texts) == given.text


def test_each_of_many_departments_is_told_once(filled):
    """More of them than a batch of the table has certificates."""
    texts = {f"d{place * 7919 % 1100}": department(f"d{place * 7919 % 1100}", maxlife=place + 1) for place in range(1100)}
    filled.apply([post("root", f"m{name}", text) for name, text in texts.items()])
    given, = filled.apply([get("/v1/departments")])
    texts |= {"db": department("db"), "web": department(principals="alice,bob")}
    assert "".join(text for _, text in sorted(texts.items())) == given.text


def test_a_certificate_is_a_row_without_a_signature(filled):
    columns = "serial, department, keyid, signature IS NULL"
    assert ["7|web|web/a|1", "8|web|web/b|1", "9|web|web/c|1"] == sql(
        filled.db, f"SELECT {columns} FROM cert").splitlines()
    assert [7, 8, 9] == waiting(filled)
    assert "10|0|0" == sql(filled.db, "SELECT next, version, date FROM office")


def test_a_delivered_signature_is_in_its_row_alone(filled):
    body, request = delivery(filled, 7)
    assert ["signed 7"] == said(filled, request)
    assert ["7|64", "8|", "9|"] == sql(filled.db, "SELECT serial, length(signature) FROM cert").splitlines()
    assert [8, 9] == waiting(filled)
    assert body == delivery(filled, 7)[0], "the body stands as it was"


def test_a_request_is_kept_for_its_caller_and_its_key(filled):
    said(filled, delivery(filled, 7)[1])
    assert ["issued 7"] == said(filled, ISSUES[0])
    assert ["refused 10 NotAllowed"] == said(filled, ISSUES[0].replace(b"callers/ana", b"callers/bob"))
    assert ["ana|a", "ana|b", "ana|c", "root|db-5", "root|web-5", "root|web-9", "station|d"] == sql(
        filled.db, "SELECT caller, key FROM request ORDER BY caller, key").splitlines()


def test_revocations_are_rows(filled):
    assert "revoked\nversion 1" == told(filled, "r1", revoke_range(8, 9))
    assert ["8|9"] == runs(filled)
    assert "revoked\nversion 1" == told(filled, "r2", revoke_serial(9)), "it is revoked already"
    assert "revoked\nversion 2" == told(filled, "r3", revoke_serial(7))
    assert ["7|9"] == runs(filled)
    assert ["revoked\nversion 3", "revoked\nversion 4", "revoked\nversion 4"] == said(
        filled, *[post("root", f"k{place}", revoke_keyid(it)) for place, it in enumerate(("web/z", "web/y", "web/z"))])
    assert ["web/y", "web/z"] == sql(filled.db, "SELECT keyid FROM revoked_keyid ORDER BY keyid").splitlines()
    listed = filled.krl()
    assert 0 < listed.index(b"web/y") < listed.index(b"web/z")
    assert "10|4|3000" == sql(filled.db, "SELECT next, version, date FROM office")
    assert "ok" == sql(filled.db, "PRAGMA integrity_check")


def test_another_ca_is_a_row(filled):
    assert "rollover 2\nsince 10" == told(filled, "o1", rollover(OTHER_CA))
    assert ["1|7", "2|10"] == sql(filled.db, "SELECT number, since FROM ca ORDER BY number").splitlines()


def test_no_certificate_has_the_last_serial_of_all(filled):
    answer, = filled.apply([get(f"/v1/certs/{LAST_SERIAL}")])
    assert (404, "refused 17 UnknownSerial\n") == (answer.status, answer.text)


@pytest.mark.parametrize(("statement", "rule"), [
    ("INSERT INTO ca SELECT 3, ca, 12 FROM ca WHERE number = 1", "UNIQUE"),
    ("INSERT INTO cert VALUES (11, 'none', 'none/a', x'00', NULL)", "FOREIGN")])
def test_the_tables_hold_their_rules(filled, statement, rule):
    assert rule in sql(filled.db, "PRAGMA foreign_keys = ON", statement)


@pytest.mark.parametrize("statement", ["UPDATE run SET hi = -1", "INSERT INTO run VALUES (10, 11)"],
                         ids=["an end below zero", "runs that touch"])
def test_runs_that_no_office_writes_are_damage(filled, statement):
    told(filled, "r1", revoke_range(7, 9))
    sql(filled.db, statement)
    assert "Damaged" == fault(filled, "krl", "--db", filled.db)


def test_an_office_under_another_id_is_damage(filled):
    """The statement that counts its serials looks for id 1."""
    sql(filled.db, "UPDATE office SET id = 2")
    assert "Damaged" == fault(filled, "krl", "--db", filled.db)
    assert ["fault"] == said(filled, post("ana", "e", issue("db/e", after=3000, before=4000)))


def test_a_department_of_no_kind_is_a_fault_of_what_reads_it(filled):
    sql(filled.db, "UPDATE department SET kind = 3 WHERE name = 'web'")
    assert ["fault"] == said(filled, asked("d"))
    assert ["fault"] == said(filled, get("/v1/departments"))
    assert "3|10" == sql(filled.db, "SELECT count(*), (SELECT next FROM office) FROM cert")
    assert ["issued 10"] == said(filled, post("ana", "e", issue("db/e", after=3000, before=4000)))


DAMAGES = {
    "no CA": "DELETE FROM ca",
    "a next serial that was issued": "UPDATE office SET next = 7",
    "another id": "UPDATE office SET id = 2",
    "runs that touch": "INSERT INTO run VALUES (7, 7), (8, 8)",
    "a department of no kind": "UPDATE department SET kind = 3 WHERE name = 'web'",
    "no certificate": "DELETE FROM cert",
    "a reply of 100 bytes": "UPDATE request SET reply = printf('%.100c', 'a')",
}


@pytest.mark.parametrize("damage", DAMAGES)
def test_damaged_tables_stay_as_they_are_unless_a_message_is_accepted(filled, damage):
    """A repeat, a refusal and a request ID that was used change no row, whatever the rows mean."""
    sql(filled.db, DAMAGES[damage])
    before = sql(filled.db, ".dump")
    by_another = ISSUES[0].replace(b"callers/ana", b"callers/bob")
    given = said(filled, ISSUES[0], by_another, post("ana", "a", revoke_serial(7)), get("/v1/table"),
                 get("/v1/departments"))
    assert before == sql(filled.db, ".dump"), given


def test_a_stored_reply_longer_than_any_of_an_office_is_a_fault(filled):
    sql(filled.db, "UPDATE request SET reply = printf('%.100c', 'a')")
    assert ["fault"] == said(filled, ISSUES[0])
    sql(filled.db, "UPDATE request SET reply = printf('%.99c', 'a')")
    assert ["a" * 99] == said(filled, ISSUES[0])


def test_without_its_row_it_is_no_office(filled):
    sql(filled.db, "DELETE FROM office")
    assert "NotAnOffice" == fault(filled, "table", "--db", filled.db)
