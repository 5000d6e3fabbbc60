"""Options that certificates must have, and the types of their keys: departments with lines `must` and `key-types`.

What is expected is written here by hand, by docs/FORMATS.md. The office and the guard in Python say the same of each
row, so that random histories over them (`test_registers`, `test_guard`) test these rules too.
"""
import contextlib
import sqlite3

import pytest

import asking
import plain_guard
from asking import CA, body, department, exchange, get, issue, key_blob, post, renew, write_exchanges
from running import answers, init, run, sql
from subject_keys import CERTIFICATES, ED25519, KEYS, LINES, P256, RSA, SK_ED25519, SK_P256
from test_own_names import answers_of, judged

NOW = 3000
TRUE, FALSE, VERIFY = "force-command /bin/true", "force-command /bin/false", "verify-required"


def address(networks):
    return f"source-address {networks}"


# What certificates must have, what is listed, what a certificate has, and whether it is permitted.
OPTIONS = [
    ([], [], [], True), ([], [], [VERIFY], False), ([], [VERIFY], [VERIFY], True),
    # what must be is permitted without being listed, and permits nothing else
    ([VERIFY], [], [VERIFY], True), ([VERIFY], [], [], False), ([VERIFY], [], [VERIFY, TRUE], False),
    ([VERIFY], ["force-command"], [VERIFY, TRUE], True), ([VERIFY], ["force-command"], [TRUE], False),
    ([VERIFY], [VERIFY], [], False),
    # a command with and without a value
    (["force-command"], [], [TRUE], True), (["force-command"], [], [FALSE], True), (["force-command"], [], [], False),
    ([TRUE], [], [TRUE], True), ([TRUE], [], [FALSE], False), ([TRUE], [], [TRUE + " "], False),
    ([TRUE], ["force-command"], [FALSE], False), ([TRUE], [], [TRUE[:-1]], False), ([TRUE + " "], [], [TRUE], False),
    # each network lies in one of those that must be
    (["source-address"], [], [address("0.0.0.0/0")], True), (["source-address"], [], [], False),
    ([address("10.0.0.0/8")], [], [address("10.0.0.0/8")], True),
    ([address("10.0.0.0/8")], [], [address("10.0.0.0/9")], True),
    ([address("10.0.0.0/8")], [], [address("10.128.0.0/9")], True),
    ([address("10.0.0.0/8")], [], [address("10.255.255.255/32")], True),
    ([address("10.0.0.0/8")], [], [address("10.0.0.0/7")], False),
    ([address("10.0.0.0/8")], [], [address("11.0.0.0/8")], False),
    ([address("10.0.0.0/8")], [], [address("9.255.255.255/32")], False),
    ([address("10.0.0.0/8")], [], [address("11.0.0.0/32")], False),
    ([address("10.0.0.0/8")], [], [address("0.0.0.0/0")], False),
    ([address("10.0.0.0/8")], [], [address("10.1.0.0/16,11.0.0.0/8")], False),
    ([address("10.0.0.0/8,192.0.2.0/24")], [], [address("192.0.2.128/25,10.1.0.0/16")], True),
    ([address("10.0.0.0/9,10.128.0.0/9")], [], [address("10.0.0.0/8")], False),
    ([address("0.0.0.0/0")], [], [address("255.255.255.255/32,0.0.0.0/0")], True),
    ([address("192.0.2.1/32")], [], [address("192.0.2.1/32")], True),
    ([address("192.0.2.1/32")], [], [address("192.0.2.0/32")], False),
    # all three
    ([TRUE, address("10.0.0.0/8"), VERIFY], [], [address("10.0.0.0/8"), VERIFY, TRUE], True),
    ([TRUE, address("10.0.0.0/8"), VERIFY], [], [address("10.0.0.0/8"), VERIFY], False),
    ([TRUE, address("10.0.0.0/8"), VERIFY], [], [VERIFY, TRUE], False),
]
# The types that are listed, and those of them all that are permitted.
TYPES = [
    ([], [ED25519]), ([ED25519], [ED25519]), ([SK_ED25519], [SK_ED25519]),
    ([SK_ED25519, SK_P256], [SK_ED25519, SK_P256]), ([RSA, ED25519], [ED25519, RSA]), ([*LINES], [*LINES]),
]


def profile(musts=(), options=(), types=()):
    return department(options=options, musts=musts, key_types=types)


def asked(options=(), key=LINES[ED25519]):
    return issue(key=key, options=options, after=NOW, before=NOW + 1000)


@pytest.mark.parametrize("place", range(len(OPTIONS)))
def test_an_issue_has_the_options_that_must_be(program, room, place):
    musts, listed, options, is_permitted = OPTIONS[place]
    assert [0, 0 if is_permitted else 14] == answers_of(program, [
        ("root", profile(musts, listed)), ("ana", asked(options))])


@pytest.mark.parametrize("place", range(len(OPTIONS)))
def test_a_guard_asks_for_the_options_that_must_be(sshstation, room, place):
    musts, listed, options, is_permitted = OPTIONS[place]
    pairs = sorted((name, value if space else None) for name, space, value in (it.partition(" ") for it in options))
    some = body(1, ca=key_blob(0x11), key_id="web/alice", options=pairs)
    assert [b"sign" if is_permitted else b"refuse NotPermitted"] == judged(sshstation, profile(musts, listed), some)
    web = plain_guard.read_policy(profile(musts, listed).encode())["web"]
    assert is_permitted == web.permits(plain_guard.read_body(some))


@pytest.mark.parametrize("place", range(len(TYPES)))
def test_a_key_has_a_listed_type(program, sshstation, room, place):
    types, permitted = TYPES[place]
    text = profile(types=types)
    due = [kind in permitted for kind in LINES]
    assert [0, *(0 if it else 14 for it in due)] == answers_of(program, [
        ("root", text), *(("ana", asked(key=line)) for line in LINES.values())])
    bodies = [body(serial, ca=key_blob(0x11), key_id="web/alice", key=KEYS[kind],
                   type_name=CERTIFICATES[kind].encode()) for serial, kind in enumerate(LINES, 1)]
    assert [b"sign" if it else b"refuse NotPermitted" for it in due] == judged(sshstation, text, *bodies)


def test_hosts_may_have_keys_of_listed_types(program, room):
    assert [0, 0, 14] == answers_of(program, [
        ("root", department("hosts", kind="host", key_types=[P256])), *(
            ("ana", issue("hosts/a", key=LINES[kind], after=NOW, before=NOW + 1000)) for kind in (P256, ED25519))])


# What is put after a certificate with a command was issued, and what its renewal is answered.
RENEWALS = [
    (profile(options=["force-command"]), 0), (profile([TRUE]), 0), (profile([FALSE]), 14),
    (profile([TRUE, VERIFY]), 14), (profile(options=["force-command"], types=[RSA]), 14),
    (profile(options=["force-command"], types=[RSA, ED25519]), 0)]


@pytest.mark.parametrize("place", range(len(RENEWALS)))
def test_a_renewal_is_judged_by_the_department_as_it_is_then(program, room, place):
    text, refusal = RENEWALS[place]
    first = profile(options=["force-command"])
    given = answers_of(program, [
        ("root", first), ("ana", asked([TRUE])), ("root", text), ("ana", renew(1, after=NOW, before=NOW + 500))])
    # What isn't signed yet is refused last: 21 says that nothing else was.
    assert [0, 0, 0, refusal or 21] == given


def test_what_a_guard_approved_stays_approved(sshstation, room):
    some = body(1, ca=key_blob(0x11), key_id="web/alice")
    assert [b"sign"] == judged(sshstation, profile(), some)
    (room / "policy").write_text(profile([VERIFY]))
    done = run([sshstation, "judge", "--db", "guard.db", "--policy", "policy", "body0"], check=True)
    assert done.stdout.startswith(b"sign ")


TWO = [profile([TRUE, VERIFY], types=[SK_ED25519]), department("plain"), department("db", kind="host", key_types=[RSA])]


def test_a_row_has_the_lines_as_they_stand_in_the_text(program, room):
    (room / "ca.pub").write_text(f"{CA}\n")
    run([program, *init("office.db", "ca.pub")], check=True)
    rows = write_exchanges("some", [
        *(exchange(post("root", f"k{place}", text), NOW, 1) for place, text in enumerate(TWO)),
        exchange(get("/v1/departments"), NOW, 1)])
    came = answers(run([program, "apply", "--db", "office.db", rows], check=True).stdout)
    # By name, as they were put.
    assert "".join([TWO[2], TWO[1], TWO[0]]).encode() == came[-1].body
    with sqlite3.connect("office.db") as file:
        assert [("db", "", "\nkey-types ssh-rsa"), ("plain", "", ""),
                ("web", "\nmust force-command /bin/true\nmust verify-required",
                 "\nkey-types sk-ssh-ed25519@openssh.com")] == file.execute(
                     "SELECT name, options, extensions FROM department ORDER BY name").fetchall()


def test_sqlite3_prints_the_lines_and_an_earlier_form_has_none_of_them(program, room):
    """Before, each of these columns was names with commas between them: so a program of then finds no row in this."""
    (room / "ca.pub").write_text(f"{CA}\n")
    run([program, *init("office.db", "ca.pub")], check=True)
    run([program, "apply", "--db", "office.db", write_exchanges("some", [post("root", "k", TWO[0])])], check=True)
    assert ["text", "", "must force-command /bin/true", "must verify-required"] == sql(
        "office.db", "SELECT typeof(options) || char(10) || options FROM department").split("\n")
    assert ["text", "", "key-types sk-ssh-ed25519@openssh.com"] == sql(
        "office.db", "SELECT typeof(extensions) || char(10) || extensions FROM department").split("\n")
    for column, names in (("options", asking.OPTIONS), ("extensions", asking.EXTENSIONS)):
        value = sql("office.db", f"SELECT {column} FROM department")
        assert value and not {*value.split(",")} & {*names}


# Columns that no department has.
DAMAGED = [
    ("options", "\n"), ("options", "\nmust verify-required\n"),
    ("options", "\nmust verify-required\nmust force-command"),
    ("options", "\nmust permit-pty"), ("options", "\nmust force-command "), ("options", "\nmust verify-required x"),
    ("options", "must verify-required"), ("extensions", "\nkey-types ssh-dss"), ("extensions", "\nkey-types"),
    ("extensions", "\nkey-types ssh-rsa\n"), ("extensions", "\nkey-types ssh-rsa\nkey-types ssh-rsa"),
    ("options", "\nkey-types ssh-rsa"), ("extensions", "\nmust verify-required"),
]


@pytest.mark.parametrize("place", range(len(DAMAGED)))
def test_a_row_with_other_lines_is_damaged(program, room, place):
    column, value = DAMAGED[place]
    (room / "ca.pub").write_text(f"{CA}\n")
    run([program, *init("office.db", "ca.pub")], check=True)
    put = write_exchanges("some", [exchange(post("root", "k", profile()), NOW, 1)])
    run([program, "apply", "--db", "office.db", put], check=True)
    with contextlib.closing(sqlite3.connect("office.db")) as file:
        file.execute(f"UPDATE department SET {column} = ?", [value])
        file.commit()
    asked_for = write_exchanges("other", [exchange(get("/v1/departments"), NOW, 1)])
    done = run([program, "apply", "--db", "office.db", asked_for])
    assert (1, b"fault\n", b"sshoffice: Fault\n") == (done.returncode, done.stdout, done.stderr)


POLICY = f"# first\n\n{TWO[0]}\n{TWO[1]}# between\n{TWO[2]}"


@pytest.mark.parametrize("text, answer", [
    (POLICY, "web\nplain\ndb\n"),
    (POLICY.replace("must verify-required\n", "must verify-required x\n"), "BadPolicy 9"),
    (POLICY.replace("key-types sk", "key-types ssk"), "BadPolicy 11"),
    # A text without its last line goes on to the next, whose first line is the bad one.
    (POLICY.replace("namespaces\n", "", 1), "BadPolicy 13"),
    (POLICY.replace("kind host", "kind hosts"), "BadPolicy 25")])
def test_a_policy_has_texts_of_any_length(sshstation, room, text, answer):
    (room / "policy").write_text(text)
    done = run([sshstation, "policy", "policy"])
    assert (answer if answer.endswith("\n") else f"sshstation: {answer}\n") == (done.stdout + done.stderr).decode()
