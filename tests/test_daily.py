"""What comes and goes from day to day: how the policy of a station and the departments of an office change when a user,
a caller or a server comes or goes, and what is revoked then.

The office is the one in Python (`plain_office.py`), at a socket, and the guard too. Nothing that is built is run."""
import argparse
import os
import pwd
import re
import time

import pytest

import plain_guard
from asking import CA, department, issue, key_blob, lasting
from running import PROGRAMS, TOP, loaded
from test_departments import TellingOffice, UnixDoor, opened

PEOPLE = department("people", principals="alice", admins="admin", extensions="permit-pty")
HOST = department("db-example-org", kind="host", admins="host-db-example-org", principals="db.example.org",
                  maxlife=2592000)
CLOSED = department("db-example-org", kind="host", admins="", principals="nobody", maxlife=1)
# Departments for everybody, as vethlumi-station-setup makes them.
ALL = department("people", principals="{name}@people", admins="admin,{name}", extensions="permit-pty")
HOSTS = department("hosts", kind="host", admins="host-{name}", principals="{name}.example.org", maxlife=2592000)
ENROLLED = HOSTS.replace("admins host-{name}", "admins host-{name},registrar")
# A department that lists somebody with too long a name for its {name}; and one of a host whose name gives the same as
# that of a.b.example.org.
LONG = ALL.replace("@people", f"@people,{58 * 'b'}")
NAMESAKE = HOST.replace("db", "a-b")
SIXTEEN = [f"user{it}" for it in range(16)]
# What may stand around a department, and stays as it is.
AROUND = "# people first\n\n{}\n# another's\n" + department("web", principals="alice,*@corp", admins="ana,carol")


def people(principals="alice", admins="admin"):
    return department("people", principals=principals, admins=admins, extensions="permit-pty")


def demanding(principals="alice", admins="admin"):
    """With lines that only some departments have."""
    return department("people", principals=principals, admins=admins, extensions="permit-pty",
                      musts=["source-address 10.0.0.0/8", "verify-required"], key_types="sk-ssh-ed25519@openssh.com")


def typed(text):
    return text.replace("maxlife", "key-types ssh-rsa,ssh-ed25519\nmaxlife")


def permitting(monkeypatch):
    monkeypatch.syspath_prepend(str(PROGRAMS / "setup"))
    import permitting
    return permitting


# A text, the words of a job, and the text after it.
CHANGES = [
    (PEOPLE, "add-user bob", people("alice,bob")), (PEOPLE, "add-user alice", PEOPLE),
    (people("nobody"), "add-user bob", people("bob")), (people("alice,nobody"), "add-user bob",
                                                        people("alice,nobody,bob")),
    (people(SIXTEEN[:15]), "add-user user15", people(SIXTEEN)),
    (people(SIXTEEN), "add-user user15", people(SIXTEEN)),
    (people("alice,bob"), "remove-user bob", PEOPLE), (people("bob,alice"), "remove-user bob", PEOPLE),
    (PEOPLE, "remove-user bob", PEOPLE), (PEOPLE, "remove-user alice", people("nobody")),
    (people("al,alice,ali"), "remove-user ali", people("al,alice")),
    (PEOPLE, "add-caller carol", people(admins="admin,carol")), (people(admins=""), "add-caller carol",
                                                                 people(admins="carol")),
    (PEOPLE, "add-caller admin", PEOPLE), (people(admins="admin,carol"), "remove-caller carol", PEOPLE),
    (PEOPLE, "remove-caller admin", people(admins="")), (PEOPLE, "remove-caller carol", PEOPLE),
    (people(admins=SIXTEEN[:15]), "add-caller user15", people(admins=SIXTEEN)),
    (PEOPLE, "add-server db.example.org", f"{PEOPLE}\n{HOST}"), ("", "add-server DB.example.org", HOST),
    (PEOPLE + HOST, "add-server db.example.org", PEOPLE + HOST), (CLOSED, "add-server db.example.org", HOST),
    (HOST.replace("2592000", "86400"), "add-server db.example.org", HOST.replace("2592000", "86400")),
    (HOST.replace(" db.", " *.").replace("host-db", "ana,host-db"), "add-server db.example.org",
     HOST.replace(" db.", " *.").replace("host-db", "ana,host-db")),
    (HOST + PEOPLE, "remove-server db.example.org", CLOSED + PEOPLE), (CLOSED, "remove-server db.example.org", CLOSED),
    (PEOPLE, "remove-server db.example.org", PEOPLE),
    # Departments that aren't concerned stay, and comments.
    (AROUND.format(PEOPLE), "add-user bob", AROUND.format(people("alice,bob"))),
    (AROUND.format(PEOPLE), "add-user bob --department web", AROUND.format(PEOPLE).replace("*@corp", "*@corp,bob")),
    (AROUND.format(PEOPLE), "remove-user alice", AROUND.format(people("nobody")).replace("alice,*", "*")),
    (AROUND.format(PEOPLE), "remove-user alice --department people", AROUND.format(people("nobody"))),
    (AROUND.format(people(admins="carol")), "remove-caller carol",
     AROUND.format(people(admins="")).replace("ana,carol", "ana")),
    # Departments for everybody permit each user, and each server of their domain.
    *((ALL + HOSTS, words, ALL + HOSTS) for words in (
        "add-user bob", "remove-user bob", "add-server db.example.org", "remove-server db.example.org",
        f"add-server {27 * 'a'}.example.org", "remove-caller bob")),
    (ALL + HOSTS, "add-caller carol", ALL.replace("admin,{name}", "admin,{name},carol") + HOSTS),
    # A caller may be one for hosts: the registrar, by which servers enrol.
    (ALL + HOSTS, "add-caller registrar --department hosts", ALL + ENROLLED),
    (ALL + ENROLLED, "add-caller registrar --department hosts", ALL + ENROLLED),
    (ALL + ENROLLED, "remove-caller registrar --department hosts", ALL + HOSTS),
    (ALL + ENROLLED, "remove-caller registrar --department people", ALL + ENROLLED),
    (ALL + ENROLLED, "remove-caller registrar", ALL + HOSTS),
    (AROUND.format(PEOPLE) + HOSTS, "add-caller registrar --department hosts", AROUND.format(PEOPLE) + ENROLLED),
    (ENROLLED, "add-server db.example.org", ENROLLED),
    # Not of another domain, nor a name that no caller has, nor what isn't exactly a name and the suffix.
    *((HOSTS, f"add-server {it}", f"{HOSTS}\n" + HOST.replace("db-example-org", name).replace("db.example.org", it))
      for it, name in (("db.example.net", "db-example-net"), ("a.b.example.org", "a-b-example-org"), ("db", "db"))),
    # Nor one whose admins don't name hosts, or that permits other users than by their own names.
    *((text, "add-server db.example.org", f"{text}\n{HOST}") for text in (
        HOSTS.replace("host-{name}", "{name}"), HOSTS.replace("host-{name}", "host-db"),
        HOSTS.replace("{name}.", "*."))),
    (ALL.replace("{name}@people", "{name}"), "add-user root", ALL.replace("{name}@people", "{name},root")),
    (ALL.replace("{name}@people", "{name}"), "add-user bob", ALL.replace("{name}@people", "{name}")),
    (ALL, f"add-user {57 * 'b'}", ALL), (LONG, f"add-user {58 * 'b'}", LONG),
    # A name that gives the department of another host: that one stays, and so does one that others share.
    (HOSTS.replace("{name}.", "{name}.b.") + NAMESAKE, "remove-server a.b.example.org",
     HOSTS.replace("{name}.", "{name}.b.") + NAMESAKE),
    (NAMESAKE, "remove-server a-b.example.org", CLOSED.replace("db-", "a-b-")),
    # A department of its own counts as before, and one that was closed stays closed beside one for everybody.
    (HOSTS + HOST, "remove-server db.example.org", HOSTS + CLOSED), (HOSTS + CLOSED, "add-server db.example.org",
                                                                    HOSTS + CLOSED),
    # What certificates must have, and the types of keys, stay. A server that goes takes its types along.
    (demanding() + HOST, "add-user bob", demanding("alice,bob") + HOST),
    (AROUND.format(demanding("alice,bob")), "remove-user bob", AROUND.format(demanding())),
    (demanding(), "add-caller carol", demanding(admins="admin,carol")),
    (demanding(admins="carol"), "remove-caller carol", demanding(admins="")),
    (demanding() + typed(HOST) + demanding().replace("people", "b"), "remove-server db.example.org",
     demanding() + CLOSED + demanding().replace("people", "b")),
    (typed(HOSTS), "add-server db.example.org", typed(HOSTS)),
    # One department for users is meant by itself.
    (department("web") + HOST, "add-user bob", department("web", principals="alice,bob") + HOST),
]


def words_of(text):
    parser = argparse.ArgumentParser()
    parser.add_argument("job")
    parser.add_argument("name")
    parser.add_argument("--department")
    return parser.parse_args(text.split())


@pytest.mark.parametrize("text, words, due", CHANGES, ids=[f"{at} {it[1]}" for at, it in enumerate(CHANGES)])
def test_a_change_of_a_policy_and_no_other(monkeypatch, text, words, due):
    """The guard reads it, and the same change again changes nothing."""
    jobs, given = permitting(monkeypatch).JOBS, words_of(words)
    new, _ = jobs[given.job](text, given.name, given.department)
    assert due == new
    plain_guard.read_policy(new.encode())
    assert (due, due) == (jobs[given.job](new, given.name, given.department)[0], new)


REFUSED = [
    (people(SIXTEEN), "add-user bob", "the department people has 16 principals, and takes no more"),
    (people(admins=SIXTEEN), "add-caller bob", "the department people has 16 admins, and takes no more"),
    (PEOPLE, "add-user Bob", "no name of a user: 'Bob'"), (PEOPLE, "add-user " + 65 * "b", "no name of a user"),
    (PEOPLE, "add-user nobody", "the principal nobody stands for"), (PEOPLE, "add-user bob,eve", "no name of a user"),
    (PEOPLE, "add-user *bob", "no name of a user"), (PEOPLE, "add-caller a.b", "no name of a caller"),
    (PEOPLE, "add-caller " + 33 * "a", "no name of a caller"), (PEOPLE, "add-caller host-a", "no name of a caller"),
    (PEOPLE, "add-caller registrar --department hosts", "there is no department hosts, but people"),
    (HOSTS, "add-caller carol", "choose the department with --department: there is none for users"),
    ("", "add-caller carol --department people", "there is no department people, but none"),
    (PEOPLE, "add-caller root", "root isn't a valid caller name"),
    (PEOPLE, "add-user bob --department web", "there is no department web for users. Departments: people"),
    (HOST, "add-user bob", "choose the department with --department: there is none for users"),
    (HOST, "add-user bob --department db-example-org", "no department db-example-org for users. Departments: none"),
    (department("a") + department("b"), "add-caller bob", "choose the department with --department: a, b"),
    (PEOPLE, "add-server a_b", "no name of a host: 'a_b'"), (PEOPLE, "add-server " + 28 * "a", "gives no name of 1 to"),
    (HOSTS, f"add-server {28 * 'a'}.example.org", "gives no name of 1 to"),
    (PEOPLE, "add-server people", "the department people is there, and isn't one in which people asks for its own"),
    (HOST.replace("host-db", "db"), "add-server db.example.org", "isn't one in which db.example.org asks for its own"),
    (HOST.replace(" db.", " web."), "add-server db.example.org", "isn't one in which db.example.org asks for its own"),
    # What isn't the host's own is closed by nobody who names the host.
    *((text, f"remove-server {host}", f"the department {name} isn't that of {host} alone, so it stays. If it is to")
      for text, host, name in (
        (PEOPLE, "people", "people"), (HOSTS, "hosts", "hosts"), (NAMESAKE, "a.b.example.org", "a-b-example-org"),
        (HOSTS.replace("hosts", "example-org"), "example.org", "example-org"),
        (HOST.replace("host-db", "host-{name},host-db"), "db.example.org", "db-example-org"),
        (HOST.replace("host-db", "ana,host-web"), "db.example.org", "db-example-org"))),
    *((text, f"add-user {name}", f"{name} is too long for the rule {{name}}@people of the department people: a prin")
      for text in (ALL, LONG) for name in (58 * "c", 64 * "c")),
    (PEOPLE[:-1], "add-user bob", "the policy's last line has no line feed"),
    (PEOPLE.replace("principals", "principal"), "add-user bob", "has no line `principals ..` in its place"),
]


@pytest.mark.parametrize("text, words, why", REFUSED, ids=[f"{at} {it[1][:30]}" for at, it in enumerate(REFUSED)])
def test_a_change_that_is_refused(monkeypatch, text, words, why):
    module, given = permitting(monkeypatch), words_of(words)
    with pytest.raises(module.Fault, match=re.escape(why)):
        module.JOBS[given.job](text, given.name, given.department)


@pytest.mark.parametrize("rule, user, note", [
    ("*@corp", "bob@corp", "the department people permits bob@corp by the rule *@corp: nothing is added"),
    ("{name}", "bob", "the department people permits bob by the rule {name}: nothing is added"),
    ("{name}@people", "bob", "the department people permits bob by the rule {name}@people: nothing is added"),
    ("*@corp", "@corp", None), ("*@corp", "bob", None),
])
def test_a_user_whom_a_rule_permits_already(monkeypatch, rule, user, note):
    """Such a department needs no change, and who leaves stays permitted: that is said."""
    module, text = permitting(monkeypatch), people(["alice", rule])
    new, notes = module.add_user(text, user)
    assert ((text, [note]) if note else (people(["alice", rule, user]), [])) == (new, notes)
    new, notes = module.remove_user(new, user)
    assert (text, [f"the department people still permits {user} by the rule {rule}"] * bool(note)) == (new, notes)


@pytest.mark.parametrize("text, host, due", [
    (HOSTS, "db.example.org", ["the department hosts permits db.example.org by a rule with {name}: nothing is added"]),
    (HOSTS + HOST, "db.example.org", ["the department hosts permits db.example.org by a rule with {name}: nothing is "
                                      "added"]),
    (HOST, "db.example.org", []), (PEOPLE, "db.example.org", []),
])
def test_a_server_whom_a_department_for_all_permits_already(monkeypatch, text, host, due):
    module = permitting(monkeypatch)
    assert due == module.add_server(text, host)[1]
    still = "the department hosts still permits db.example.org by a rule with {name}, if somebody gives it a bundle "
    assert [f"{still}again"] * (HOSTS in text) == [it for it in module.remove_server(text, host)[1] if "still" in it]


# ---- at the station

class Keeping:
    """`vethlumi-station-policy` in a room, beside the guard in Python."""

    def __init__(self, room, monkeypatch, capsys):
        self.room, self.capsys = room, capsys
        self.script = it = loaded(PROGRAMS / "setup/vethlumi-station-policy")
        (room / "bin").mkdir()
        (room / "bin/sshstation").symlink_to(TOP / "tests/plain_guard.py")
        (room / "enabled").mkdir()
        (room / "station").mkdir()
        monkeypatch.setenv("PATH", f"{room}/bin:{os.environ['PATH']}")
        monkeypatch.setattr(it, "STATION", room / "station")
        monkeypatch.setattr(it, "ENABLED", room / "enabled")
        monkeypatch.setattr(it, "USER", pwd.getpwuid(os.getuid()).pw_name)
        monkeypatch.setattr(os, "getuid", lambda: 1000)
        monkeypatch.setattr(it.setting_up, "as_user", lambda user, *words: it.setting_up.run(words))

    def key(self, name, policy=PEOPLE, enabled=True):
        files = {it: self.room / f"station/{name}.{it}" for it in ("policy", "pub", "office")}
        files["policy"].write_text(policy)
        files["policy"].chmod(0o600)
        files["pub"].write_text(f"{CA} {name}\n")
        files["office"].write_text(self.script.setting_up.bundle(ca=f"{CA} {name}\n", policy=policy))
        if enabled:
            (self.room / f"enabled/office-station@{name}.service").symlink_to("/nowhere")

    def __call__(self, words):
        parser = argparse.ArgumentParser()
        self.script.options(parser)
        given = parser.parse_args(words.split())
        given.yes = True
        self.script.do(given, self.script.setting_up.Steps(given, "vethlumi-station-policy"))
        return self.capsys.readouterr().err

    def policy(self, name):
        return (self.room / f"station/{name}.policy").read_text()


@pytest.fixture
def keeping(room, monkeypatch, capsys):
    return Keeping(room, monkeypatch, capsys)


def test_a_station_shows_what_it_changes_and_changes_it_once(room, keeping):
    keeping.key("first", f"# ours\n{PEOPLE}")
    told = keeping("add-user bob")
    assert f"vethlumi-station-policy will do this:\n  write {room}/station/first.policy (what may be signed)\n" in told
    assert "    department people\n    - principals alice\n    + principals alice,bob\n" in told
    assert f"# ours\n{people('alice,bob')}" == keeping.policy("first")
    assert 0o600 == (room / "station/first.policy").stat().st_mode & 0o777
    # The office's part follows, so that vethlumi-install office passes on what is in force.
    assert (room / "station/first.office").read_text() == f"[ca]\n{CA} first\n[policy]\n# ours\n{people('alice,bob')}"
    assert "everything is as it should be\n" == keeping("add-user bob")


def test_the_policies_of_all_keys_that_sign_are_changed(keeping):
    for name, enabled in (("first", False), ("second", True), ("third", True)):
        keeping.key(name, enabled=enabled)
    keeping("add-user bob")
    assert [PEOPLE, people("alice,bob"), people("alice,bob")] == [
        keeping.policy(it) for it in ("first", "second", "third")]
    keeping("add-user bob --name first")
    assert people("alice,bob") == keeping.policy("first")


def test_a_station_without_a_key_that_signs_asks_which(keeping):
    with pytest.raises(keeping.script.Fault, match="no policy of a key in "):
        keeping("add-user bob")
    keeping.key("first", enabled=False)
    assert "+ principals alice,bob" in keeping("add-user bob")
    keeping.key("second", enabled=False)
    with pytest.raises(keeping.script.Fault, match="no key's unit is enabled: choose one with --name: first, second"):
        keeping("add-user carol")
    for name in ("third", "../first"):
        with pytest.raises(keeping.script.Fault):
            keeping(f"add-user carol --name {name}")


def test_a_policy_that_the_guard_would_not_take_stays_as_it_is(room, keeping):
    """Another of its departments was spoilt by hand."""
    text = PEOPLE + department("web").replace("kind user", "kind users")
    keeping.key("first", text)
    with pytest.raises(keeping.script.Fault, match="the guard refuses .*first.policy with this change: .*BadPol"):
        keeping("add-user bob")
    assert text == keeping.policy("first") and [] == [*(room / "station").glob(".*")]


# ---- at the office

class Rooted:
    """`vethlumi-office-root` in a room, and the office in Python at its door."""

    def __init__(self, door, monkeypatch, capsys):
        self.door, self.capsys = door, capsys
        self.script = it = loaded(PROGRAMS / "setup/vethlumi-office-root")
        monkeypatch.setattr(it.door, "DOOR", door.server_address)
        monkeypatch.setattr(it.door, "LONGEST_WAIT", 5)

    def __call__(self, *words, yes=True):
        parser = argparse.ArgumentParser()
        self.script.options(parser)
        given = parser.parse_args([*words])
        given.yes = yes
        self.script.do(given, self.script.setting_up.Steps(given, "vethlumi-office-root"))
        said = self.capsys.readouterr()
        self.printed = said.out
        return said.err

    def texts(self):
        return "".join(self.door.office.texts())

    def issue(self, key_id, principals, **more):
        """Issues a certificate, and returns its serial."""
        name = f"i-{len(self.door.office.certificates)}"
        validity = lasting(more.pop("seconds", 3600))
        text = issue(key_id, principals=principals, **validity, **more)
        reply = self.door.office.settle("root", name, text.encode(), validity["after"] + 60, bytes(32))
        return int(reply.split()[1])


@pytest.fixture
def rooted(room, monkeypatch, capsys):
    with opened(UnixDoor(str(room / "door"), TellingOffice(key_blob(0x11)))) as door:
        door.root_puts(PEOPLE)
        door.root_puts(HOST, "by-hand-2")
        yield Rooted(door, monkeypatch, capsys)


def test_an_office_gets_a_user_a_caller_and_a_server(rooted):
    """Each once, and what isn't concerned isn't sent."""
    told = rooted("add-user", "bob")
    assert told == ("vethlumi-office-root will do this:\n  change the department people of the office\n"
                    "    - principals alice\n    + principals alice,bob\n")
    assert HOST + people("alice,bob") == rooted.texts()
    assert [people("alice,bob")] == [it for _, it in rooted.door.sent()]
    rooted("add-caller", "carol")
    rooted("add-server", "web.example.org")
    web = HOST.replace("db", "web")
    assert HOST + people("alice,bob", "admin,carol") + web == rooted.texts()
    for words in (("add-user", "bob"), ("add-caller", "carol"), ("add-server", "web.example.org")):
        assert "everything is as it should be\n" == rooted(*words)
    assert 3 == len(rooted.door.sent())


def test_what_was_put_back_by_hand_is_taken_again(rooted):
    """The same text a second time is another message to the office."""
    for number in range(3):
        rooted("add-user", "bob")
        assert HOST + people("alice,bob") == rooted.texts()
        rooted.door.root_puts(PEOPLE, f"back-{number}")
    assert 3 == len({*rooted.door.sent()})


def test_who_leaves_has_nothing_left(rooted):
    """Whatever the key ID says, and what isn't signed yet; not what has ended, or is revoked already."""
    rooted("add-user", "bob")
    mine = [rooted.issue(key_id, names) for key_id, names in (
        ("people/bob", "bob"), ("people/n1", "bob"), ("people/two", "alice,bob"))]
    others = [rooted.issue("people/bob2", "alice"), rooted.issue("people/bobby", "alice")]
    ended = rooted.issue("people/old", "bob", seconds=1)
    revoked = rooted.issue("people/gone", "bob")
    rooted.door.office.settle("root", "gone", f"revoke-serial {revoked}\n".encode(), 1, bytes(32))
    time.sleep(1.1)
    told = rooted("remove-user", "bob")
    assert "  revoke what can still be used: 3 of the office's certificates\n" in told
    assert f"serial {mine[2]}, people/two, is revoked for alice too, who need another one\n" in told
    assert ({*mine, revoked}, HOST + PEOPLE) == (rooted.door.office.revoked, rooted.texts())
    assert ended not in rooted.door.office.revoked and not {*others} & rooted.door.office.revoked
    before = rooted.door.sent()
    assert "everything is as it should be\n" == rooted("remove-user", "bob") and before == rooted.door.sent()


def test_who_leaves_one_department_keeps_the_rest(rooted):
    rooted.door.root_puts(department("web", principals="bob"), "web")
    rooted("add-user", "bob")
    first, second = rooted.issue("people/bob", "bob"), rooted.issue("web/bob", "bob")
    rooted("remove-user", "bob", "--department", "people")
    assert ({first}, True) == (rooted.door.office.revoked, "principals bob\n" in rooted.texts())
    rooted("remove-user", "bob")
    assert ({first, second}, False) == (rooted.door.office.revoked, "bob" in rooted.texts())


def test_what_is_requested_while_somebody_is_asked_is_revoked_too(rooted, monkeypatch):
    """The department is narrowed first, so nothing comes after that."""
    rooted("add-user", "bob")
    carry_out = rooted.script.setting_up.Steps.carry_out
    late = []

    def asks(steps):
        late.append(rooted.issue("people/late", "bob"))
        carry_out(steps)
    monkeypatch.setattr(rooted.script.setting_up.Steps, "carry_out", asks)
    rooted("remove-user", "bob")
    assert {*late} == rooted.door.office.revoked


def test_a_server_that_goes_has_no_certificate_and_no_department(rooted):
    serial = rooted.issue("db-example-org/db.example.org", "db.example.org", department="db-example-org")
    other = rooted.issue("people/alice", "alice")
    rooted("remove-server", "db.example.org")
    assert ({serial}, CLOSED + PEOPLE) == (rooted.door.office.revoked, rooted.texts())
    assert other not in rooted.door.office.revoked
    rooted("add-server", "db.example.org")
    assert HOST + PEOPLE == rooted.texts()


def test_who_leaves_a_department_for_everybody_has_nothing_left(rooted):
    """By the principals of the name, and no department changes. Others, and names that only begin so, stay."""
    rooted.door.root_puts(ALL, "all")
    rooted.door.root_puts(department("staff", principals="{name}@staff,bob@people", admins="admin"), "staff")
    mine = [rooted.issue(key_id, names, **more) for key_id, names, more in (
        ("people/bob", "bob@people", {}), ("people/bob/laptop", "bob@people", {}),
        ("staff/bob/a1", "bob@staff", {"department": "staff"}), ("staff/n1", "bob@people", {"department": "staff"}))]
    others = [rooted.issue("people/bob2", "bob2@people"), rooted.issue("people/alice/bob", "alice@people"),
              rooted.issue("staff/bob2", "bob2@staff", department="staff")]
    before = rooted.texts()
    told = rooted("remove-user", "bob")
    assert "  revoke what can still be used: 4 of the office's certificates\n" in told
    assert "the department people still permits bob by the rule {name}@people\n" in told
    assert "is revoked for" not in told
    assert ({*mine}, before) == (rooted.door.office.revoked, rooted.texts()) and others
    assert "everything is as it should be\n" in rooted("remove-user", "bob")


def test_a_server_that_goes_from_a_department_of_all_hosts_has_no_certificate(rooted):
    """Those with its name are revoked, in each department. Another host's stay."""
    rooted.door.root_puts(HOSTS, "hosts")
    mine = [rooted.issue("hosts/web", "web.example.org", department="hosts"),
            rooted.issue("hosts/web/2", "web.example.org", department="hosts"),
            rooted.issue("db-example-org/db.example.org", "db.example.org", department="db-example-org")]
    other = rooted.issue("hosts/web2", "web2.example.org", department="hosts")
    before = rooted.texts()
    rooted("remove-server", "web.example.org")
    assert ({*mine[:2]}, before) == (rooted.door.office.revoked, rooted.texts())
    told = rooted("remove-server", "db.example.org")
    assert {*mine} == rooted.door.office.revoked and other
    assert before.replace(HOST, CLOSED) == rooted.texts() and "still permits db.example.org by a rule with" in told


def test_a_server_that_goes_takes_no_certificate_of_another(rooted):
    """Its name may give the department of others: the one of all hosts, or of one whose name has a - for its dot."""
    rooted.door.root_puts(HOSTS.replace("{name}.", "{name}.b."), "hosts")
    rooted.door.root_puts(NAMESAKE, "namesake")
    mine = rooted.issue("hosts/a", "a.b.example.org", department="hosts")
    other = rooted.issue("a-b-example-org/n1", "a-b.example.org", department="a-b-example-org")
    before = rooted.texts()
    with pytest.raises(rooted.script.Fault, match="the department hosts isn't that of hosts alone, so it stays"):
        rooted("remove-server", "hosts")
    assert (set(), before) == (rooted.door.office.revoked, rooted.texts())
    rooted("remove-server", "a.b.example.org")
    assert ({mine}, before) == (rooted.door.office.revoked, rooted.texts())
    rooted("remove-server", "a-b.example.org")
    assert ({mine, other}, before.replace(NAMESAKE, CLOSED.replace("db-", "a-b-"))) == (
        rooted.door.office.revoked, rooted.texts())


def test_who_leaves_has_nothing_left_of_an_earlier_rule(rooted):
    """A department for everybody once gave other principals. There the name in a key ID counts, up to the next /."""
    rooted.door.root_puts(ALL.replace("@people", "@staff"), "before")
    mine = [rooted.issue(it, "bob@staff") for it in ("people/bob", "people/bob/laptop")]
    others = [rooted.issue(it, f"{name}@staff") for it, name in (
        ("people/alice/bob", "alice"), ("people/bob2", "bob2"), ("people/bo", "bo"))]
    rooted.door.root_puts(ALL, "after")
    # In a department that lists its users, a key ID has any name.
    rooted.door.root_puts(department("web", principals="alice"), "web")
    others.append(rooted.issue("web/bob", "alice", department="web"))
    told = rooted("remove-user", "bob")
    assert "revoke what can still be used: 2 of" in told and "is revoked for" not in told and others
    assert {*mine} == rooted.door.office.revoked


def test_a_demand_that_sshd_ignores_is_told(rooted, keeping):
    """As the client tells it, of the station's policy and the office's departments."""
    text = department("people", principals="alice", admins="admin", musts=["verify-required"])
    line = ("warning: the department people demands verify-required, and permits ssh-ed25519: sshd looks at it for "
            "security keys alone (sk-). Leave the others out of `key-types`\n")
    for demands, is_told in ((text, True), (demanding(), False)):
        keeping.key("first", demands, enabled=False)
        rooted.door.root_puts(demands, f"demands-{int(is_told)}")
        told = keeping("add-user bob"), rooted("add-user", "bob")
        assert [is_told, is_told] == [line in it for it in told], told


def test_an_answer_that_is_lost_is_asked_for_again(rooted):
    """The same message goes out, under the same request ID."""
    lost = []

    def spoil(request, answer):
        if request.startswith(b"POST ") and not lost:
            lost.append(request)
            return answer[:20]
        return answer
    rooted.door.spoil = spoil
    rooted("add-user", "bob")
    assert 2 == len(rooted.door.sent()) and 1 == len({*rooted.door.sent()})
    assert HOST + people("alice,bob") == rooted.texts()


def test_a_table_that_is_cut_off_is_none(rooted):
    """Certificates that it lacks would stay valid."""
    rooted("add-user", "bob")
    rooted.issue("people/bob", "bob")

    def cut(request, answer):
        if b"/v1/table" not in request:
            return answer
        row = answer.partition(b"\r\n\r\n")[2].splitlines(True)[0]
        body = answer.partition(b"\r\n\r\n")[2].replace(row, b"")
        return b"HTTP/1.1 200 OK\r\ncontent-length: %d\r\n\r\n" % len(body) + body
    rooted.door.spoil = cut
    with pytest.raises(rooted.script.Fault, match="the office's table was cut off, or is none"):
        rooted("remove-user", "bob")
    assert set() == rooted.door.office.revoked and HOST + people("alice,bob") == rooted.texts()


def test_root_sends_a_message_on_the_machine(room, rooted):
    """As for what only root may do. Nobody is asked twice."""
    (room / "message").write_text("revoke-keyid people/nobody\n")
    told = rooted("send", str(room / "message"))
    assert ("revoked\nversion 1\n", "  send the office, as root: revoke-keyid people/nobody\n" in told) == (
        rooted.printed, True)
    for text, why in (("", "isn't a message"), (16385 * "a", "isn't a message"), ("revoke-serial 7\n",
                                                                            "the office refuses it: refused 17 Unkn")):
        (room / "message").write_text(text)
        with pytest.raises(rooted.script.Fault, match=why):
            rooted("send", str(room / "message"))
    with pytest.raises(rooted.script.Fault, match="can't read .*nothing"):
        rooted("send", str(room / "nothing"))
    (room / "message").write_text("revoke-keyid people/other\n")
    with pytest.raises(rooted.script.BadWords, match="Pass --yes"):
        rooted("send", str(room / "message"), yes=False)
    assert {"people/nobody"} == rooted.door.office.key_ids
