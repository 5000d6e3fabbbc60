"""One's own name: departments with `{name}` among their administrators and their principals.

What is expected is written here by hand, by docs/FORMATS.md. The office and the guard in Python say the same of each
row, so that random histories over them (`test_registers`, `test_guard`) test these rules too.
"""
import itertools
import sqlite3

import pytest

import plain_guard
import plain_office
from asking import (CA, body, deliver, department, digest_of, exchange, get, issue, key_blob, post, renew, revoke_keyid,
                    revoke_range, revoke_serial, write_exchanges)
from plain_office import PlainOffice
from running import answers, applied, init, run, worked

NOW = 3000
# What makes the department of the trial office in memory.
DEPARTMENT, _ = worked("the-department-of-the-trial-office")
PEOPLE = department("people", admins="registrar,{name}", principals="{name}@people,{name},shared")
HOSTS = department("hosts", kind="host", admins="host-{name}", principals="{name}.example.org")


def answers_of(program, asked):
    """What the program answers to messages of callers, and what the office in Python does, as the refusals' numbers."""
    rows = [exchange(post(caller, f"k{place}", message), NOW, place) for place, (caller, message) in enumerate(asked)]
    plain = PlainOffice(key_blob(0x11))
    for it in DEPARTMENT:
        plain.answer(*it)
    due = [plain.answer(*row).partition(b"\r\n\r\n")[2] for row in rows]
    assert due == [it.body for it in applied(program, rows)]
    return [int(it.split()[1]) if it.startswith(b"refused") else 0 for it in due]


def asked(key_id, principals, **words):
    return issue(key_id, principals=principals, **{"after": NOW, "before": NOW + 1000} | words)


def longest(suffix):
    return suffix + "x" * (63 - len(suffix))


# ---- texts

# A list of principals, and whether it is one.
RULES = [
    ("{name}", True), ("{name}.a", True), ("{name}@a", True), ("{name}.", False), ("{name}@", False),
    (f"{{name}}{longest('.')}", True), (f"{{name}}{longest('@')}x", False), ("{name}a", False), ("{name}-a", False),
    ("{name}*", False), ("{name}.A", False), ("{name}.{name}", False), ("a{name}", False), ("*{name}", False),
    ("{Name}", False), ("{name", False), ("{}", False), ("{name}.a,{name}.a", False), ("{name}.a,{name}@a,*.a,a", True),
    (",".join(f"{{name}}.{it}a" for it in range(16)), True), (",".join(f"{{name}}.{it}a" for it in range(17)), False),
]
ADMINS = [
    ("{name}", True), ("host-{name}", True), ("-{name}", True), ("x" * 31 + "{name}", True),
    ("x" * 32 + "{name}", False), ("{name}-host", False), ("{name}{name}", False), ("a.{name}", False),
    ("{Name}", False), ("a,{name},a-{name}", True), ("{name},{name}", False),
    (",".join(f"{it}{{name}}" for it in range(16)), True),
    (",".join(f"{it}{{name}}" for it in range(17)), False),
]
TEXTS = [
    *((department(principals=some), None if is_one else 4) for some, is_one in RULES),
    *((department(admins=some), None if is_one else 3) for some, is_one in ADMINS),
    (department(principals="{name}", namespaces="git"), 8), (department(principals="a,{name}", namespaces="git"), 8),
    (department(principals="{name}@a", namespaces="git"), None), (department(principals="{name}"), None),
    (department(principals="{name}", namespaces="git") + "\n", 8), (department(principals="{name}") + "x\n", 9),
]


@pytest.mark.parametrize("place", range(len(TEXTS)))
def test_a_text_is_read_up_to_its_first_bad_line(program, sshstation, room, place):
    text, line = TEXTS[place]
    assert [0 if line is None else 7] == answers_of(program, [("root", text)])
    if line != 9:
        (room / "policy").write_text(text)
        done = run([sshstation, "policy", "policy"])
        assert (b"web\n" if line is None else b"") == done.stdout
        assert ("" if line is None else f"sshstation: BadPolicy {line}\n") == done.stderr.decode()
    try:
        plain_guard.read_message(text.encode())
        read = None
    except plain_guard.BadLine as bad:
        read = bad.args[0]
    assert line == read


# ---- who may, and what

# Who asks, for which key ID and which principals, and the refusal.
ISSUES = [
    # one's own, with and without more behind a second /
    ("alice", "people/alice", "alice@people", 0), ("alice", "people/alice/laptop", "alice@people", 0),
    ("alice", "people/alice", "alice", 0), ("alice", "people/alice", "alice,alice@people", 0),
    # somebody else's
    ("alice", "people/bob", "bob@people", 10), ("alice", "people/bob/alice", "alice@people", 10),
    ("alice", "people//alice", "alice@people", 10), ("bob", "people/alice", "alice@people", 10),
    ("alice", "people/alice2", "alice2@people", 10), ("alice2", "people/alice", "alice@people", 10),
    ("host-alice", "people/alice", "alice@people", 10), ("station", "people/alice", "alice@people", 10),
    # other principals than one's own
    ("alice", "people/alice", "bob@people", 14), ("alice", "people/alice", "@people", 14),
    ("alice", "people/alice", "alice@people,bob@people", 14), ("alice", "people/alice", "alice@peoplex", 14),
    ("alice", "people/alice", "xalice@people", 14), ("alice", "people/alice/laptop", "laptop@people", 14),
    # a rule without {name} doesn't count for whoever may ask by name alone
    ("alice", "people/alice", "shared", 14), ("alice", "people/alice", "alice@people,shared", 14),
    ("registrar", "people/alice", "shared", 0), ("root", "people/alice", "alice@people,shared", 0),
    # also for the others a rule with {name} is met by the key ID's name alone
    ("registrar", "people/alice", "alice@people", 0), ("registrar", "people/alice", "bob@people", 14),
    ("root", "people/bob", "alice", 14), ("root", "people/shared", "shared@people", 0),
    # root is nobody's own name, but a name like others before a suffix
    ("root", "people/root", "root", 14), ("root", "people/root", "root@people", 0),
    # an empty name
    ("root", "people//x", "@people", 0), ("root", "people//x", "x@people", 14),
    # hosts
    ("host-db1", "hosts/db1", "db1.example.org", 0), ("host-db1", "hosts/db2", "db2.example.org", 10),
    ("host-db1", "hosts/db1", "db2.example.org", 14), ("host-db1", "hosts/db1", "db1.example.orgx", 14),
    ("db1", "hosts/db1", "db1.example.org", 10), ("alice", "hosts/alice", "alice.example.org", 10),
    ("host-alice", "people/host-alice", "host-alice@people", 0), ("host-", "hosts//x", ".example.org", 0),
    # a key ID of another department
    ("alice", "other/alice", "alice@people", 10),
]


@pytest.mark.parametrize("place", range(len(ISSUES)))
def test_an_issue_is_for_ones_own_name(program, room, place):
    caller, key_id, principals, refusal = ISSUES[place]
    assert [0, 0, refusal] == answers_of(program, [
        ("root", PEOPLE), ("root", HOSTS), (caller, asked(key_id, principals))])


def test_another_departments_key_id_is_refused_as_ever(program, room):
    assert [0, 13] == answers_of(program, [
        ("root", PEOPLE), ("alice", asked("other/alice", "alice@people", department="people"))])


def test_root_is_met_where_it_is_listed(program, room):
    text = department("people", admins="{name}", principals="{name},root")
    assert [0, 0, 14, 14] == answers_of(program, [
        ("root", text), ("root", asked("people/alice", "root")), ("alice", asked("people/alice", "root")),
        ("root", asked("people/root", "toor"))])


def test_a_principal_over_64_bytes_is_met_by_nothing(program, room):
    """The name has 32 bytes. With a suffix of 32 bytes the principal has 64, and with one of 33 it would have 65."""
    name = "n" * 32
    fits, longer = "@" + "s" * 31, "@" + "s" * 32
    assert [0, 0, 14, 7] == answers_of(program, [
        ("root", department("people", admins="{name}", principals=f"{{name}}{fits},{{name}}{longer}")),
        (name, asked(f"people/{name}", name + fits)), (name, asked(f"people/{name}", name + fits[:-1] + "t")),
        (name, asked(f"people/{name}", name + longer))])


def test_the_longest_prefix_means_a_caller(program, room):
    assert [0, 0, 10] == answers_of(program, [
        ("root", department("people", admins="p" * 31 + "{name}", principals="{name}@people")),
        ("p" * 31 + "a", asked("people/a", "a@people")), ("p" * 32, asked("people/a", "a@people"))])


def signed_office(*more):
    """A signed certificate of alice and one of bob, and then more messages."""
    def digest(serial, name):
        return digest_of(body(serial, ca=key_blob(0x11), key_id=f"people/{name}", principals=(f"{name}@people",),
                              after=NOW, before=NOW + 1000, nonce=bytes([serial]) * 32))
    return [("root", PEOPLE), ("alice", asked("people/alice", "alice@people")),
            ("bob", asked("people/bob", "bob@people")), ("station", deliver(1, digest(1, "alice"))),
            ("station", deliver(2, digest(2, "bob"))), *more]


def renewed(serial):
    return renew(serial, after=NOW, before=NOW + 500)


# What comes after a signed certificate of alice and one of bob, and its refusals.
LATER = [
    ([("alice", renewed(1))], [0]), ([("bob", renewed(1))], [10]), ([("alice", renewed(2))], [10]),
    ([("registrar", renewed(1))], [0]), ([("alice", renewed(9))], [10]), ([("host-alice", renewed(1))], [10]),
    # the certificate was permitted by a rule that doesn't count for whoever renews by name
    ([("root", department("people", admins="{name},registrar", principals="*@people")), ("alice", renewed(1)),
      ("registrar", renewed(1))], [0, 14, 0]),
    ([("root", department("people", admins="registrar", principals="{name}@people")), ("alice", renewed(1))], [0, 10]),
    ([("root", department("people", admins="{name}", principals="{name}@other")), ("alice", renewed(1))], [0, 14]),
    ([("alice", revoke_serial(1))], [0]), ([("alice", revoke_serial(2))], [10]), ([("bob", revoke_serial(1))], [10]),
    ([("alice", revoke_serial(9))], [10]), ([("registrar", revoke_serial(2))], [0]),
    ([("alice", revoke_range(1, 1))], [10]), ([("alice", revoke_keyid("people/alice"))], [10]),
    ([("registrar", revoke_keyid("people/alice")), ("alice", renewed(1))], [0, 16]),
    ([("alice", revoke_serial(1)), ("alice", renewed(1)), ("alice", revoke_serial(1))], [0, 19, 0]),
]


@pytest.mark.parametrize("place", range(len(LATER)))
def test_one_renews_and_revokes_ones_own(program, room, place):
    more, due = LATER[place]
    assert [0] * 5 + due == answers_of(program, signed_office(*more))


# ---- what is published and kept

def test_allowed_signers_have_a_pattern_for_a_suffix(program, room):
    text = department("people", principals="{name}@people,bob,*@example.org", namespaces="git")
    came = applied(program, [exchange(post("root", "k", text), NOW, 1), exchange(get("/v1/signers"), NOW, 1)])[1].body
    # And the one of the trial office's department.
    assert [f'*@people,bob,*@example.org cert-authority,namespaces="git" {CA.split(" x")[0]}'] == [
        it for it in came.decode().splitlines() if "example.org cert-authority,namespaces=\"file" not in it]


def test_a_row_has_the_lists_as_they_stand_in_the_text(program, room):
    (room / "ca.pub").write_text(f"{CA}\n")
    run([program, *init("office.db", "ca.pub")], check=True)
    rows = write_exchanges("some", [
        exchange(post("root", "k", PEOPLE), NOW, 1), exchange(get("/v1/departments"), NOW, 1)])
    came = answers(run([program, "apply", "--db", "office.db", rows], check=True).stdout)
    assert [b"department people\n", PEOPLE.encode()] == [it.body for it in came]
    with sqlite3.connect("office.db") as file:
        assert [("registrar,{name}", "{name}@people,{name},shared")] == file.execute(
            "SELECT admins, rules FROM department").fetchall()


# ---- the guard

def judged(sshstation, policy, *bodies):
    """What the guard answers of bodies by a policy, and what the guard in Python does."""
    with open("policy", "w", encoding="ascii") as file:
        file.write(policy)
    with open("ca.pub", "w", encoding="ascii") as file:
        file.write(f"{CA}\n")
    run([sshstation, "init", "--db", "guard.db", "--ca", "ca.pub", "--first", 1, "--last", 1000], check=True)
    for place, some in enumerate(bodies):
        with open(f"body{place}", "wb") as file:
            file.write(some)
    done = run([sshstation, "judge", "--db", "guard.db", "--policy", "policy",
                *(f"body{place}" for place in range(len(bodies)))], check=True)
    return [line.split()[0] + (b"" if line.startswith(b"sign") else b" " + line.split()[1])
            for line in done.stdout.splitlines()]


@pytest.mark.parametrize("key_id, principals, is_permitted", [
    *((key_id, principals, not refusal) for _, key_id, principals, refusal in dict.fromkeys(
        (None, *it[1:3], it[3] if it[0] in ("root", "registrar") else 0) for it in ISSUES
        if it[1].startswith("people/") and it[0] in ("root", "registrar"))),
    ("people/alice", "alice@people", True), ("people/bob", "alice@people", False),
    ("people/n1", "alice@people", False)], ids=itertools.count())
def test_a_guard_holds_key_id_and_principal_together(sshstation, room, key_id, principals, is_permitted):
    some = body(1, ca=key_blob(0x11), key_id=key_id, principals=principals.split(","))
    assert [b"sign" if is_permitted else b"refuse NotPermitted"] == judged(sshstation, PEOPLE, some)
    permitted = plain_guard.read_policy(PEOPLE.encode())["people"].permits(plain_guard.read_body(some))
    assert is_permitted == permitted


def test_names_in_key_ids():
    for key_id, name in [("people/alice", "alice"), ("people/alice/laptop", "alice"), ("people/alice/", "alice"),
                         ("people//x", ""), ("people/a.b@c", "a.b@c"), ("people/alice/a/b", "alice")]:
        assert name == plain_office.name_of(key_id)
