"""Departments on their way from a policy to an office: what `vethlumi-office-setup` sends when, what `vethlumi
department` shows, and which line of a policy isn't valid.

The office is the one in Python (`plain_office.py`), at a socket. Nothing that is built is run."""
import argparse
import contextlib
import os
import random
import re
import socketserver
import threading
import time

import pytest

import plain_guard
from asking import CA, OTHER_CA, body, department, key_blob
from plain_office import PlainOffice
from recording import whole_request
from running import TOP, loaded
from subject_keys import CERTIFICATES, KEYS, LINES
from test_vethlumi import Client

A = department("people", principals="alice", admins="admin")
B = department("people", principals="alice,bob", admins="admin")
C = department("people", principals="alice,bob", admins="admin,carol")
HOSTS = department("db-example-org", kind="host", admins="db-example-org", principals="db.example.org")


class TellingOffice(PlainOffice):
    """The office in Python, which says which departments it has, each as root would send it."""

    def report(self, target):
        return ("".join(self.texts()), True) if target == "/v1/departments" else super().report(target)

    def texts(self):
        return [it.text() for _, it in sorted(self.departments.items())]


class Door:
    """An office at a socket. `asked` has the requests that came, and `spoil` says which answers are none, or not whole:
    a function of a request and its answer."""
    daemon_threads = True

    def __init__(self, address, office=None):
        self.office, self.asked, self.lock = office or TellingOffice(key_blob(0x11)), [], threading.Lock()
        self.spoil = lambda request, answer: answer
        super().__init__(address, None)
        threading.Thread(target=self.serve_forever, daemon=True).start()

    def finish_request(self, peer, address):
        request = whole_request(peer)
        with self.lock:
            self.asked.append(request)
            answer = self.office.answer(request, int(time.time()), os.urandom(32))
            answer = self.spoil(request, answer)
        peer.sendall(answer)

    def root_puts(self, text, key="by-hand"):
        assert f"department {text.split()[1]}\n" == self.office.settle("root", key, text.encode(), 1, bytes(32))

    def sent(self):
        """The request IDs and the texts of the messages that came."""
        found = [re.match(rb"POST /v1/callers/(\S+)/requests/(\S+) ", it) for it in self.asked]
        return [(it[2].decode(), it.string.partition(b"\r\n\r\n")[2].decode()) for it in found if it]


class UnixDoor(Door, socketserver.ThreadingUnixStreamServer):
    pass


class Port(Door, socketserver.ThreadingTCPServer):
    allow_reuse_address = True


@contextlib.contextmanager
def opened(door):
    try:
        yield door
    finally:
        door.shutdown()
        door.server_close()


class SetUp:
    """`vethlumi-office-setup` in a room of its own, for an office that is there."""
    ca = CA

    def __init__(self, room, monkeypatch, capsys):
        self.room, self.capsys = room, capsys
        self.script = it = loaded(TOP / "programs/setup/vethlumi-office-setup")
        (room / "etc").mkdir()
        (room / "office.db").touch()
        for name, value in (("ETC", room / "etc"), ("DATABASE", room / "office.db"), ("DOOR", room / "door"),
                            ("LONGEST_START", 5)):
            monkeypatch.setattr(it, name, value)
        monkeypatch.setattr(it.setting_up.Steps, "units", lambda *_: None)
        monkeypatch.setattr(os, "getuid", lambda: 1000)

    def __call__(self, *texts, **given):
        """What is told of a run with these departments."""
        (self.room / "first.office").write_text(f"[ca]\n{self.ca}\n[policy]\n{''.join(texts)}")
        given = argparse.Namespace(**{"yes": True, "file": str(self.room / "first.office"), "root": "root",
                                      "station": "station", "first": None, "last": 9} | given)
        self.script.do(given, self.script.setting_up.Steps(given, "vethlumi-office-setup"))
        return self.told()

    def told(self):
        return self.capsys.readouterr().err

    def fails(self, *texts, **given):
        """What is told of a run that fails, and why it does."""
        with pytest.raises(self.script.Fault) as fault:
            self(*texts, **given)
        return self.told(), str(fault.value)


@pytest.fixture
def door(room):
    with opened(UnixDoor(str(room / "door"))) as made:
        yield made


@pytest.fixture
def set_up(room, door, monkeypatch, capsys):
    made = SetUp(room, monkeypatch, capsys)
    made()
    return made


NOTHING = "everything is as it should be\n"
ADDED = "vethlumi-office-setup will do this:\n  send the office the department people\n" + "".join(
    f"    + {it}\n" for it in A.splitlines())


def changed(*lines):
    return ("vethlumi-office-setup will do this:\n  change the department people of the office\n"
            + "".join(f"    {it}\n" for it in lines))


# ---- what is sent

def test_a_department_that_is_put_back_to_an_earlier_text_is_put(door, set_up):
    """Also a second time: a message that the office accepted before gets the same answer, and changes nothing."""
    narrower = changed("- principals alice,bob", "+ principals alice")
    wider = changed("- principals alice", "+ principals alice,bob")
    for text, told in ((A, ADDED), (B, wider), (A, narrower), (B, wider), (A, narrower), (B, wider), (A, narrower)):
        assert told == set_up(text)
        assert [text] == door.office.texts()


def test_whoever_has_left_is_refused(door, set_up):
    """Carol by the office's own rules: she may neither revoke nor ask."""
    for text in (A, B, C):
        set_up(text)
    revoke = b"revoke-keyid people/nobody\n"
    assert "revoked\nversion 1\n" == door.office.settle("carol", "one", revoke, 1, bytes(32))
    set_up(A)
    with pytest.raises(Exception, match="^10$"):
        door.office.settle("carol", "two", revoke, 1, bytes(32))


def test_a_department_that_the_office_has_is_not_sent(door, set_up):
    set_up(A, HOSTS)
    before = door.sent()
    assert NOTHING == set_up(A, HOSTS) == set_up(HOSTS, "# a comment\n\n", A)
    assert before == door.sent() and [HOSTS, A] == door.office.texts()


def test_without_departments_the_office_is_not_asked_for_them(door, set_up):
    door.root_puts(A)
    assert NOTHING == set_up()
    assert [] == [it for it in door.asked if b"departments" in it] and [A] == door.office.texts()


def test_what_root_put_by_hand_is_shown_before_it_is_changed_back(door, set_up):
    set_up(A)
    door.root_puts(C)
    back = changed("- admins admin,carol", "+ admins admin", "- principals alice,bob", "+ principals alice")
    assert back == set_up(A)
    assert [A] == door.office.texts()
    # Nobody agrees, so nothing changes.
    door.root_puts(C, "by-hand-2")
    told, why = set_up.fails(A, yes=False)
    assert "- admins admin,carol\n" in told and "Not a terminal. Pass --yes to confirm." == why
    assert [C] == door.office.texts()


def test_a_department_that_the_file_does_not_name_stays_and_is_named(door, set_up):
    set_up(A, HOSTS)
    told = set_up(A)
    assert told.startswith("the office has the department db-example-org, which the file doesn't name: it stays\n")
    assert "`principals nobody` and `maxlife 1`" in told and told.endswith(NOTHING)
    assert [HOSTS, A] == door.office.texts()
    # As it says, it is closed by a text of its own.
    closed = department("db-example-org", kind="host", admins="", principals="nobody", maxlife=1)
    assert "which the file doesn't name" not in set_up(A, closed)
    assert [closed, A] == door.office.texts()


def test_lines_of_cas_that_somebody_has_added_stay(room, set_up):
    """One that was taken out is written again, which is shown before."""
    (room / "etc/front").mkdir()
    files = [room / "etc/ca.pub", room / "etc/front/ca-keys"]
    assert f"  write {files[1]} (what servers may fetch)\n" in set_up()
    for it in files:
        it.write_text(f"{CA}\n{OTHER_CA} by hand\n")
    assert NOTHING == set_up()
    assert [f"{CA}\n{OTHER_CA} by hand\n"] * 2 == [it.read_text() for it in files]
    for it in files:
        it.write_text(f"{OTHER_CA} by hand\n")
    told = set_up()
    assert ([True, True], [f"{OTHER_CA} by hand\n{CA}\n"] * 2) == (
        [f"  write {it} (" in told for it in files], [it.read_text() for it in files])


# ---- answers that are lost, and changes in between

def is_post(request):
    return request.startswith(b"POST ")


@pytest.mark.parametrize("kept", [0, 20, -1], ids=["nothing", "some of its head", "all but a byte"])
def test_after_a_lost_answer_the_same_message_goes_out_again(door, set_up, kept):
    """The office has done what it says."""
    lost = []

    def spoil(request, answer):
        if is_post(request) and not lost:
            lost.append(request)
            return answer[:kept]
        return answer
    door.spoil = spoil
    assert ADDED == set_up(A)
    assert 1 == len(lost) == len({*door.sent()}) and 2 == len(door.sent())
    assert [A] == door.office.texts() and 1 == len(door.office.kept)


@pytest.mark.parametrize("is_done", [True, False], ids=["done", "not done"])
def test_a_set_up_that_got_no_answer_goes_on_when_it_is_typed_again(door, set_up, monkeypatch, is_done):
    before = door.office.answer
    with monkeypatch.context() as it:
        it.setattr(set_up.script, "LONGEST_START", 0)
        it.setattr(door.office, "answer", lambda request, *more: (
            b"" if is_post(request) and not is_done else before(request, *more)))
        it.setattr(door, "spoil", lambda request, answer: b"" if is_post(request) else answer)
        _, why = set_up.fails(A)
    assert "send the office the department people: the office doesn't answer (" in why
    assert [A] * is_done == door.office.texts()
    assert (NOTHING if is_done else ADDED) == set_up(A)
    assert [A] == door.office.texts() and 1 == len({*door.sent()}) == len(door.office.kept)


def test_an_answer_that_is_cut_off_is_none(door, set_up, monkeypatch):
    """Departments that it lacks would be sent as new ones."""
    set_up(HOSTS, A)
    before = door.sent()
    monkeypatch.setattr(set_up.script, "LONGEST_START", 0)
    door.spoil = lambda request, answer: answer[:-len(A)]
    _, why = set_up.fails(HOSTS, B)
    assert "the office doesn't answer (" in why and before == door.sent()


def test_what_changes_after_it_was_shown_is_not_changed(door, set_up):
    """Somebody else puts the department while the set-up asks."""
    set_up(A)
    seen = []

    def spoil(request, answer):
        if request.startswith(b"GET /v1/departments"):
            seen.append(request)
            if len(seen) == 1:
                door.root_puts(C)
        return answer
    door.spoil = spoil
    _, why = set_up.fails(B)
    assert "the department people was changed meanwhile: run this again" in why
    assert [C] == door.office.texts()
    assert set_up(B) == changed("- admins admin,carol", "+ admins admin") and [B] == door.office.texts()


def test_two_set_ups_at_once_end_with_what_one_of_them_sent(door, set_up):
    """The other one says so."""
    set_up(A)

    def spoil(request, answer):
        if is_post(request) and not door.office.departments["people"].admins == ["zoe"]:
            door.root_puts(department("people", principals="alice", admins="zoe"))
        return answer
    door.spoil = spoil
    _, why = set_up.fails(B)
    assert "the department people was changed meanwhile" in why


def test_an_office_that_changes_nothing_is_told(door, set_up, monkeypatch):
    """Whatever it answers: what counts is what it has then."""
    set_up(A)
    monkeypatch.setattr(door.office, "settle", lambda *_: "department people\n")
    _, why = set_up.fails(B)
    assert "the office has taken the department people, and still has the one before" in why


def test_a_request_id_that_is_taken_gives_way_to_another(door, set_up):
    """Somebody who was root for a while may have used the one that comes next."""
    set_up(A)
    key, _ = door.sent()[-1]
    door.office = TellingOffice(key_blob(0x11))
    door.office.settle("root", key, HOSTS.encode(), 1, bytes(32))
    set_up(A, HOSTS)
    assert [HOSTS, A] == door.office.texts() and key != door.sent()[-1][0]


# ---- what the office refuses

@pytest.mark.parametrize("text, given, why", [
    (department("people", kind="host", principals="alice", admins="admin"), {},
     "the office refuses the department people: 409 refused 12 KindFixed: it has one of this name for the other kind"),
    (B, {"root": "ana"}, "the office refuses the department people: 403 refused 10 NotAllowed: its root isn't ana"),
], ids=["kind", "root"])
def test_a_department_that_the_office_refuses_is_named(door, set_up, text, given, why):
    set_up(A)
    assert why in set_up.fails(text, **given)[1]
    assert [A] == door.office.texts()


def test_an_office_of_an_earlier_version_has_to_be_upgraded(room, monkeypatch, capsys):
    with opened(UnixDoor(str(room / "door"), PlainOffice(key_blob(0x11)))) as door:
        door.office.report = lambda target, before=door.office.report: before(
            target.replace("/v1/departments", "/v1/nothing"))
        set_up = SetUp(room, monkeypatch, capsys)
        set_up()
        _, why = set_up.fails(A)
        assert "upgrade the package vethlumi-office, run systemctl restart office, and run this again" in why
        assert [] == door.sent() and NOTHING == set_up()


BAD = [
    (A.replace("principals alice", "principal alice"),
     "the department people, line 4, 'principal alice': this has to be the line `principals ..`"),
    (A.replace("alice", "alice, bob"), "line 4, 'principals alice, bob': after `principals` there has to be 1 to 16 "),
    (f"# first\n\n{A}{HOSTS.replace('options', 'options force-command')}",
     "the department db-example-org, line 15, 'options force-command': a department for hosts has no options"),
    (A.replace("maxlife 86400", "maxlife 0"), "line 7, 'maxlife 0': after `maxlife` there has to be a number of sec"),
    (A.replace("kind user\n", "kind user\n\n"), "the department people, line 3, '': this has to be the line `adm"),
    (f"issue people\n{A}", "the policy isn't valid: line 1, 'issue people': this has to be the line `department ..`"),
    (A.replace("namespaces\n", ""), "the department people, line 8, '': the file ends before the line `namespaces ..`"),
    (A + B, "the policy has the department people twice, with different lines"),
]


@pytest.mark.parametrize("text, why", BAD, ids=[why[:60] for _, why in BAD])
def test_of_a_policy_with_a_bad_line_nothing_is_sent(door, set_up, text, why):
    """Told with its department, its line and the reason, before anything is done."""
    told, said = set_up.fails(text)
    assert (True, "") == (why in said, told), said
    assert [] == door.sent()


def test_policies_of_several_keys_may_have_the_same_departments(door, set_up):
    set_up(A, HOSTS, A)
    assert [HOSTS, A] == door.office.texts() and 2 == len(door.sent())


# ---- a new office, and one that is down

def test_a_new_office_begins_with_the_serial_that_is_named(room, door, set_up, monkeypatch):
    """As after a loss. What it has then isn't asked before it is there."""
    made = []
    (room / "office.db").unlink()
    monkeypatch.setattr(set_up.script.setting_up, "put_database", lambda user, path, make: make(f"{path}.new"))
    monkeypatch.setattr(set_up.script.setting_up, "as_user", lambda *words: made.append(words))
    monkeypatch.setattr(set_up.script, "run", lambda words, **how: loaded(TOP / "programs/setup/setting_up.py").run(
        words, **how) if words[0] == "ssh-keygen" else "")
    told = set_up(A, first=7)
    assert f"make an office, with serials from 7 on, in {room}/office.db\n" in told
    assert told.index("make an office") < told.index("send the office the department people")
    assert ("--first", "7", "--last", "9") == made[0][-4:] and [A] == door.office.texts()
    # The next run says what it finds.
    (room / "office.db").touch()
    assert "the office's first serial is 1, and stays so: --first 7 is for a new office\n" in set_up(A, first=7)
    assert NOTHING == set_up(A, first=1) == set_up(A)
    with pytest.raises(set_up.script.BadWords, match="--first 10 is above --last 9"):
        set_up(A, first=10)


def test_an_office_that_is_down_is_started_before_it_is_asked(room, monkeypatch, capsys):
    """What it has is shown then."""
    set_up = SetUp(room, monkeypatch, capsys)
    with contextlib.ExitStack() as kept:
        def start():
            kept.enter_context(opened(UnixDoor(str(room / "door")))).root_puts(B)

        def units(steps, *names):
            if names == ("office",) and not (room / "door").exists():
                steps.add("start office", start)
        monkeypatch.setattr(set_up.script.setting_up.Steps, "units", units)
        told = set_up(A)
        first, _, second = told.partition("  start office\n")
        assert first.startswith("vethlumi-office-setup will do this:\n")
        assert changed("- principals alice,bob", "+ principals alice") == second


def test_a_ca_that_the_office_does_not_have_is_told(set_up):
    assert NOTHING == set_up()
    set_up.ca = OTHER_CA
    assert "isn't a CA of this office: vethlumi rollover makes it one\n" in set_up()


# ---- which line of a policy isn't valid

@pytest.fixture
def policies(monkeypatch):
    monkeypatch.syspath_prepend(str(TOP / "programs/setup"))
    return loaded(TOP / "programs/setup/policies.py")


def line_that_the_guard_refuses(text):
    """The number of the line that a guard of Python doesn't take, or 0."""
    try:
        plain_guard.read_policy(text.encode("latin-1"))
    except plain_guard.Fault as fault:
        return int(str(fault).split()[1])
    return 0


def line_of(policies, text):
    """The number of the line that the set-up doesn't take, or 0."""
    try:
        policies.departments_of(text)
    except policies.Fault as fault:
        return int(re.search(r"line (\d+), ", str(fault))[1])
    return 0


# A value on both sides of each limit: the line with it, and whether it is valid.
LIMITS = [
    ("department", 32 * "a", True), ("department", 33 * "a", False), ("department", "", False),
    ("department", "A", False), ("kind", "host", True), ("kind", "hosts", False), ("kind", "user,host", False),
    ("admins", "", True), ("admins", ",".join(map(str, range(16))), True),
    ("admins", ",".join(map(str, range(17))), False), ("admins", "a,a", False), ("admins", "a,", False),
    ("principals", "", False), ("principals", "*", False), ("principals", "*a", True),
    ("principals", 64 * "a", True), ("principals", 65 * "a", False), ("principals", "*" + 63 * "a", True),
    ("principals", "*" + 64 * "a", False), ("principals", "a*", False), ("principals", "a\u0430", False),
    ("principals", "{name}", True), ("principals", "{name}.", False), ("principals", "{name}@a", True),
    ("principals", "{name}." + 62 * "a", True), ("principals", "{name}." + 63 * "a", False),
    ("principals", "{name}a", False), ("principals", "a{name}", False), ("admins", "{name}", True),
    ("admins", "host-{name}", True), ("admins", 31 * "a" + "{name}", True), ("admins", 32 * "a" + "{name}", False),
    ("admins", "{name}a", False), ("admins", "{name},{name}", False),
    ("principals", ",".join(map(str, range(16))), True), ("principals", ",".join(map(str, range(17))), False),
    ("options", "force-command,source-address,verify-required", True), ("options", "force-commands", False),
    ("extensions", "permit-X11-forwarding,permit-agent-forwarding,permit-port-forwarding,permit-pty,permit-user-rc,"
     "no-touch-required", True), ("extensions", "permit-x11-forwarding", False),
    ("maxlife", "1", True), ("maxlife", "0", False), ("maxlife", "01", False), ("maxlife", "253402300799", True),
    ("maxlife", "253402300800", False), ("maxlife", "9999999999999", False), ("maxlife", "+1", False),
    ("namespaces", ",".join(map(str, range(8))), True), ("namespaces", ",".join(map(str, range(9))), False),
    ("namespaces", 32 * "a", True), ("namespaces", 33 * "a", False),
]


@pytest.mark.parametrize("word, value, is_valid", LIMITS, ids=[f"{it[0]} {it[1][:30]}" for it in LIMITS])
def test_the_limits_of_each_line(policies, word, value, is_valid):
    number, line = [(number, it) for number, it in enumerate(A.splitlines(), 1) if it.startswith(word)][0]
    text = A.replace("extensions permit-pty", "extensions").replace(line, f"{word} {value}".rstrip(" "))
    assert (0 if is_valid else number) == line_of(policies, text)


# What must be, and key types, likewise: what stands behind the word, and whether it is valid.
FURTHER = [
    ("must", "force-command", True), ("must", "force-command ", False), ("must", "force-command  ", True),
    ("must", "force-command " + 200 * "x", True), ("must", "force-command " + 201 * "x", False),
    ("must", "force-command a\tb", False), ("must", "force-command \x7f", False), ("must", "source-address", True),
    ("must", "source-address 10.0.0.0/8", True), ("must", "source-address 10.0.0.1/8", False),
    ("must", "source-address 10.0.0.0/8,", False), ("must", "source-address ,10.0.0.0/8", False),
    ("must", "source-address 10.0.0.0/8 ", False), ("must", "source-address 10.0.0.0/33", False),
    ("must", "source-address 10.0.0.0/08", False), ("must", "source-address 10.0.0.0", False),
    ("must", "source-address 10.0.0.0/255.0.0.0", False), ("must", "source-address 010.0.0.0/8", False),
    ("must", "source-address ::ffff:10.0.0.0/104", False), ("must", "source-address 10.0.0.0/8,10.0.0.0/8", True),
    ("must", "source-address " + ",".join(f"10.{it}.0.0/16" for it in range(8)), True),
    ("must", "source-address " + ",".join(f"10.{it}.0.0/16" for it in range(9)), False),
    ("must", "verify-required", True), ("must", "verify-required ", False), ("must", "verify-required x", False),
    ("must", "permit-pty", False), ("must", "", False),
    ("key-types", ",".join(LINES), True), ("key-types", "ssh-rsa,ssh-rsa", False), ("key-types", "ssh-dss", False),
    ("key-types", "", False), ("key-types", "ssh-rsa,", False), ("key-types", "sk-ssh-ed25519", False),
    ("key-types", "ssh-ed25519@openssh.com", False), ("key-types", CERTIFICATES["ssh-rsa"], False),
]


@pytest.mark.parametrize("word, value, is_valid", FURTHER, ids=[f"{it[0]} {it[1][:40]}" for it in FURTHER])
def test_the_limits_of_what_must_be(policies, word, value, is_valid):
    [number] = [number for number, it in enumerate(A.splitlines(), 1)
                if it.startswith("options" if word == "must" else "extensions")]
    lines = A.splitlines(True)
    text = "".join([*lines[:number], f"{word} {value}\n", *lines[number:]])
    assert [0 if is_valid else number + 1] * 2 == [line_of(policies, text), line_that_the_guard_refuses(text)]


def test_random_policies_have_the_bad_lines_that_the_guard_of_python_finds(policies):
    """But for texts of other messages, of which the line is told that should be the department's, and the second text
    of a name, which may come with the policy of another key."""
    lines, some = (A + HOSTS).splitlines(True), random.Random(8)
    odd = ["\n", "# a comment\n", "kind user\n", "maxlife 0\n", "options \n", "namespaces file", "admins a,b\n", " \n",
           "principals alice,{name}\n", "admins host-{name}\n", "namespaces git\n", "must verify-required\n",
           "must source-address 10.0.0.0/8\n", "must source-address 10.0.0.1/8\n", "must force-command\n",
           "key-types ssh-rsa\n", "key-types ssh-ed25519,ssh-dss\n", "options force-command\n", "extensions\n"]
    bad = 0
    for _ in range(3000):
        text = [*lines]
        for _ in range(some.randrange(4)):
            at = some.randrange(len(text) + 1)
            text[at:at + some.randrange(2)] = some.choices(odd, k=some.randrange(2))
        text = "".join(text)[:some.choice([None, None, some.randrange(200)])]
        assert line_that_the_guard_refuses(text) == line_of(policies, text), text
        bad += line_of(policies, text) != 0
    assert 500 < bad < 2900


def test_what_the_guard_does_not_take_is_explained(policies):
    assert 9 == line_that_the_guard_refuses(A + B)
    assert "line 9, 'department people': another department has this name already" == policies.explain(A + B, 9)
    text = f"issue people\n{A}"
    assert 2 == line_that_the_guard_refuses(text)
    assert "line 1, 'issue people': this has to be the line `department ..`" == policies.explain(text, 2)


# ---- the client

@pytest.fixture
def port(room):
    with opened(Port(("127.0.0.1", 0))) as made:
        made.root_puts(A)
        made.root_puts(HOSTS, "by-hand-2")
        yield made


@pytest.fixture
def root(room, port):
    return Client(room / "home", f"http://127.0.0.1:{port.server_address[1]}", caller="root")


def test_the_client_shows_the_departments_of_the_office(root):
    """Without a policy of its own."""
    assert (0, f"{HOSTS}\n{A}", "") == root("department", "show")
    assert (0, A, "") == root("department", "show", "people")
    shown = root.json("department", "show", "people")
    assert [("people", ["alice"], 86400)] == [(it["name"], it["principals"], it["maxlife"]) for it in shown]
    assert (2, "", "vethlumi: the office has no department zoe\n") == root("department", "show", "zoe")


@pytest.mark.parametrize("musts, types, due", [
    ([], [], ["ssh-ed25519"]), ([], ["ssh-rsa", "ssh-ed25519"], ["ssh-rsa", "ssh-ed25519"]),
    (["force-command /bin/true -x", "source-address 10.0.0.0/8,192.0.2.0/24", "verify-required"],
     ["sk-ssh-ed25519@openssh.com"], ["sk-ssh-ed25519@openssh.com"])], ids=range(3))
def test_all_of_a_department_is_shown_to_programs(room, root, musts, types, due):
    """Without a list of types, plain Ed25519 keys alone are permitted."""
    text = department("people", principals="{name}@people", admins="admin,{name}", options="force-command", musts=musts,
                      extensions="permit-pty", key_types=types, maxlife=60, namespaces="git")
    (room / "policy").write_text(text)
    assert [{"name": "people", "kind": "user", "admins": ["admin", "{name}"], "principals": ["{name}@people"],
             "options": ["force-command"], "must": musts, "extensions": ["permit-pty"], "key-types": due, "maxlife": 60,
             "namespaces": ["git"]}] == root.json("department", "show", "--policy", "policy")


def objections(text, kind="ssh-ed25519"):
    """Why a department wouldn't permit a certificate of `alice@people` whose key ID is `people/alice/laptop`, for a key
    of this type."""
    formats = loaded(TOP / "programs/client/vethlumi/formats.py")
    made = body(ca=key_blob(0x11), key_id="people/alice/laptop", principals=["alice@people"], after=1, before=2,
                key=KEYS[kind], type_name=CERTIFICATES[kind].encode())
    return formats.departments(text)["people"].objections(formats.Certificate.of_bytes(made))


@pytest.mark.parametrize("kind", KEYS)
@pytest.mark.parametrize("types", [[], ["ssh-ed25519"], ["ssh-rsa"], [*KEYS][::2], [*KEYS][1::2], [*KEYS]],
                         ids=range(6))
def test_a_certificate_for_a_key_that_is_not_permitted_is_told(types, kind):
    """A list may come, become shorter, or go: then plain Ed25519 keys alone are permitted."""
    due = [] if kind in (types or ["ssh-ed25519"]) else [f"key type {kind}"]
    assert due == objections(department("people", principals="{name}@people", key_types=types), kind)


def test_the_client_compares_a_policy_with_the_office(room, root):
    assert "no file: name one, or set `policy` in the settings" in root("department", "diff")[2]
    (room / "policy").write_text(f"# people\n{A}\n{HOSTS}")
    assert (0, "no difference\n", "") == root("department", "diff", "policy") == root(
        "--policy", "policy", "department", "diff")
    (room / "wider").write_text(B)
    status, out, _ = root("department", "diff", "wider")
    assert 0 == status and {"-principals alice", "+principals alice,bob"} < {*out.splitlines()}
    assert "the office has the department db-example-org, which wider doesn't name" in out.splitlines()
    assert "db-example-org" not in root("department", "diff", "wider", "people")[1]
    # What isn't permitted any more is told, and a rule with {name} permits the name in the key ID alone.
    assert ["principal alice@people"] == objections(department("people", principals="{name}@other"))
    assert [] == objections(department("people", principals="{name}@people"))
    assert ["principal alice@people"] == objections(department("people", principals="{name}"))
    # Two files, without an office.
    status, out, _ = root("--office", "http://127.0.0.1:1", "department", "show", "--policy", "wider")
    assert (0, B) == (status, out)


def test_the_client_sends_what_differs_from_the_office(room, port, root):
    """Put back to an earlier text, too."""
    for name, text in (("policy", A + HOSTS), ("wider", B)):
        (room / name).write_text(text)
    assert (0, "no difference\n", "") == root("department", "put", "policy")
    status, out, told = root("department", "put", "wider")
    assert (2, True) == (status, "+principals alice,bob" in out.splitlines()), told
    assert "Send 1 department to the office? Not a terminal." in told and [] == port.sent()
    for name, due in (("wider", B), ("policy", A), ("wider", B), ("policy", A)):
        assert 0 == root("department", "put", name, "people", "--yes")[0]
        assert [HOSTS, due] == port.office.texts()


TYPES = ("sk-ssh-ed25519@openssh.com", "ssh-ed25519", "sk-ecdsa-sha2-nistp256@openssh.com", "ssh-rsa")
IGNORED = ("warning: the department web demands verify-required, and permits {}: sshd looks at it for security keys "
           "alone (sk-). Leave the others out of `key-types`\n")


@pytest.mark.parametrize("demands, types, due", [
    (["verify-required"], None, "ssh-ed25519"), (["verify-required"], TYPES, "ssh-ed25519, ssh-rsa"),
    (["verify-required"], TYPES[::2], None), ([], None, None), ([], TYPES, None), (["force-command"], TYPES, None),
    (["force-command /bin/true", "verify-required"], TYPES[1:2], "ssh-ed25519")], ids=range(7))
@pytest.mark.parametrize("words", [["diff"], ["put"], ["put", "--yes"]], ids=" ".join)
def test_a_demand_that_sshd_ignores_is_told(room, root, words, demands, types, due):
    """sshd asks for a PIN by security keys alone. It is a warning: what was typed is done."""
    (room / "policy").write_text(department(principals="alice", musts=demands, key_types=types or ()))
    told = root("department", words[0], "policy", *words[1:])[2]
    assert (bool(due), due is None) == (IGNORED.format(due) in told, "warning" not in told), told


@pytest.mark.parametrize("types, due", [((), "ssh-ed25519"), (TYPES, "ssh-ed25519, ssh-rsa"), (TYPES[::2], None)])
def test_a_demand_that_sshd_ignores_is_told_by_set_up_too(set_up, types, due):
    """Whenever the departments come, also if nothing changes."""
    text = department(principals="alice", musts=["force-command /a,b", "verify-required"], key_types=types)
    for _ in range(2):
        told = set_up(A, text)
        assert (bool(due), due is None) == (IGNORED.format(due) in told, "warning" not in told), told


def test_an_office_or_a_front_of_an_earlier_version_is_told(room, port, root):
    before = b"refused 2 NoRoute\n"
    for text in (before, b"front: no such path\n"):
        port.spoil = lambda request, answer, text=text: (
            b"HTTP/1.1 404 Not Found\r\ncontent-length: %d\r\n\r\n" % len(text) + text)
        status, out, told = root("department", "show")
        assert (1, "", True) == (status, out, "it or its front is an earlier version. Upgrade both" in told), told
    # What the front refuses is told as it says it.
    text = b"front: only a caller may read this\n"
    port.spoil = lambda *_: b"HTTP/1.1 403 Forbidden\r\ncontent-length: %d\r\n\r\n" % len(text) + text
    assert (1, "", True) == (*(it := root("department", "show"))[:2], "only a caller may read this" in it[2])


@pytest.mark.parametrize("text", [A[:-1], "department people\n", A + A, A.replace("alice", "\xe9"), "<html>\n"],
                         ids=["cut", "short", "twice", "letters", "other"])
def test_what_are_no_departments_is_no_answer(port, root, text):
    data = text.encode()
    port.spoil = lambda *_: b"HTTP/1.1 200 OK\r\ncontent-length: %d\r\n\r\n" % len(data) + data
    status, out, told = root("--wait", "1", "department", "show")
    assert (3, "", True) == (status, out, "no answer: /v1/departments: unexpected answer from the office" in told), told


def test_what_a_false_office_says_of_departments_steers_no_terminal(port, root):
    data = A.replace("alice", "\x1b]0;x\x07").encode()
    port.spoil = lambda *_: b"HTTP/1.1 200 OK\r\ncontent-length: %d\r\n\r\n" % len(data) + data
    status, out, _ = root("department", "show")
    assert (0, True, False) == (status, "principals ?]0;x?" in out, "\x1b" in out)
