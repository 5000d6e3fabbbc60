"""The daily jobs of `vethlumi-install`: what it has each machine do, in which order, and what it refuses. ssh and scp
are stand-ins, as in test_packages.py."""
import os
import re

import pytest

from running import PROGRAMS, loaded, run
from test_packages import CA, Installing, bundle

OF = ["--office", "o", "--station", "s", "--yes"]
POLICIES = r"\S+ sh -c cat /etc/vethlumi/station/\*\.policy"
# What both sides and servers answer to what comes each day.
DAILY = {r".* vethlumi-(station-policy|office-root) .*": "", r"(?s).* sh -c uid=\$\(getent .*": "",
         r"(?s)\S+ sh -c for it in /etc/systemd.*": ""}


@pytest.fixture
def installing(room):
    made = Installing(room)
    return lambda *words, **answers: made(*words, **{POLICIES: "", **answers, **DAILY})


def told_to(said):
    """The machines and the words of what changes something."""
    return [(it[0].partition("@")[2], *it[1:]) for it in said if not re.search("test -e|dpkg|^cat ", " ".join(it[1:]))]


def both(job, name, *more, front=()):
    """What both sides are told. What the front takes back, it does in between."""
    return [("s", "vethlumi-station-policy", job, name, *more, "--yes"),
            *([("o", "vethlumi-front-setup", *front, "--yes")] if front else []),
            ("o", "vethlumi-office-root", job, name, *more, "--yes")]


def leaving(user, caller, *front):
    (policy, *_, office), (policy_, *_, office_) = both("remove-user", user), both("remove-caller", caller)
    return [policy, policy_, ("o", "vethlumi-front-setup", *front, "--yes"), office, office_]


@pytest.mark.parametrize("words, due", [
    (["add-user", "bob"], both("add-user", "bob")),
    (["remove-user", "bob"], both("remove-user", "bob", front=("--remove-user", "bob"))),
    (["remove-user", "bob@corp"], both("remove-user", "bob@corp")),
    (["remove-user", "admin"], both("remove-user", "admin")),
    (["add-user", "bob@corp", "--department", "web"], both("add-user", "bob@corp", "--department", "web")),
    (["add-caller", "carol"], [*both("add-caller", "carol"),
                               ("o", "vethlumi-front-setup", "--caller", "carol", "--yes")]),
    (["remove-caller", "carol"], both("remove-caller", "carol", front=("--remove", "carol"))),
    (["remove-server", "Web.example.org"],
     both("remove-server", "web.example.org", front=("--remove", "web.example.org"))),
    (["leave", "bob"], leaving("bob", "bob", "--remove", "bob")),
    (["leave", "bob", "--caller", "robert"], leaving("bob", "robert", "--remove-user", "bob", "--remove", "robert")),
], ids=[f"{at}" for at in range(10)])
def test_what_comes_and_goes_is_told_to_both_sides(installing, words, due):
    """The station first: what it doesn't permit is signed by nobody, whatever the office says. Then the front, since
    whom a department for everybody permits could ask again after the office has revoked."""
    status, told, said = installing(*words, *OF)
    assert (0, due) == (status, told_to(said)), told
    # What is done is shown before, and can be typed.
    assert "vethlumi-install will do this:\n  on s: vethlumi-station-policy " in told and told.endswith(": done\n")


def test_a_user_gets_an_account_on_the_servers_that_are_named(installing):
    status, told, said = installing("add-user", "bob", "--server", "c", "--server", "ana@d", *OF)
    assert 0 == status, told
    assert "  on c: create the account bob, without a password, unless it is there\n" in told
    script = [it for it in told_to(said) if it[0] in "cd"]
    assert [("c", "sh", "-c"), ("d", "sudo", "-n", "sh", "-c")] == [it[:-1] for it in script]
    assert {True} == {"  useradd --create-home --shell /bin/bash --password '*' bob\n" in it[-1] for it in script}
    status, told, said = installing("leave", "bob", "--server", "c", *OF)
    assert ["usermod --expiredate 1 bob; pkill -KILL -u bob" in it[-1] for it in told_to(said)] == (
        [False] * 4 + [True, False])


def test_a_server_gets_a_department_and_is_set_up(installing):
    status, told, said = installing("add-server", "ana@Web.example.org", "--account", "alice", *OF)
    assert 0 == status, told
    found = [it for it in told_to(said) if re.search("policy|root|setup", " ".join(it[1:4]))]
    assert [*both("add-server", "web.example.org"),
            ("o", "vethlumi-front-setup", "--server", "web.example.org", "--yes")] == found[:-1]
    assert ("Web.example.org", "sudo", "-n", "vethlumi-server-setup", "--account", "alice", "--yes", "-",
            f"{CA} first\n{bundle('host-web-example-org', 'web.example.org')}") == found[-1]


def test_a_caller_gets_a_bundle_and_a_machine(installing):
    """The policy comes first, so nobody has a bundle that is good for nothing."""
    status, told, said = installing("add-caller", "ana", "--client", "bob@c", "--hosts", "*.org", *OF)
    assert 0 == status, told
    found = told_to(said)
    assert both("add-caller", "ana") == [it for it in found if re.search("policy|root", it[1])]
    assert ("c", "sudo", "-n", "vethlumi-client-setup", "--hosts", "*.org", "--yes", "-", f"{CA} first\n{bundle('ana')}"
            ) == found[-1]


def test_a_user_gets_a_bundle_and_a_machine(installing):
    """Where that is wanted, and by the words of a client's set-up."""
    words = ["add-user", "ana", "--client", "c", "--hosts", "*.org"]
    status, told, said = installing(*words, *OF, **{r".* test -e \S+/ana\.bundle && .*": ""})
    assert 0 == status, told
    found = told_to(said)
    assert [*both("add-user", "ana"), ("o", "vethlumi-front-setup", "--caller", "ana", "--yes")] == [
        it for it in found if re.search("policy|root|front-setup", it[1])]
    assert ("c", "vethlumi-client-setup", "--hosts", "*.org", "--yes", "-", f"{CA} first\n{bundle('ana')}") == found[-1]


@pytest.mark.parametrize("name, admins, is_refused", [
    ("ana", "admin,ana", True), ("ana", "ana", True), ("ana", "admin,{name},bana,ana-b", False), ("ana", "", False)],
    ids=["listed", "alone", "others", "none"])
@pytest.mark.parametrize("kind", ["user", "host"])
def test_no_user_gets_the_bundle_of_an_administrator(installing, name, admins, is_refused, kind):
    """With the private key of the registrar, or of a job that deploys, one would get certificates for others."""
    listing = policy("alice", name="web", kind=kind).replace("admins a", f"admins {admins}".rstrip())
    status, told, said = installing("add-user", name, "--client", "c", *OF, **{POLICIES: OWN + listing})
    due = "ana is an administrator of the department web, whose bundle no user gets: choose another NAME, or for that "
    assert (int(is_refused), is_refused) == (status, due in told), told
    assert is_refused != bool([it for it in told_to(said) if "vethlumi-" in it[1]])


KEYS = '{"keys": [{"kty": "OKP", "kid": "one", "x": "A"}]}'
# What the office's machine lacks at first, and what it answers then.
NO_REGISTRAR = {r".* test -e \S+/registrar\.bundle && .*": ""}


def enrolment_told(department, *front):
    """What both sides are told, and the office's machine in the end."""
    return [*both("add-caller", "registrar", "--department", department),
            *([("o", "vethlumi-front-setup", "--caller", "registrar", "--yes")] if front else []),
            ("o", "vethlumi-registrar-setup", "--enrol-department", department, "--yes", "--enrol-keys", "-", KEYS)]


@pytest.mark.parametrize("more, answers, due", [
    ([], NO_REGISTRAR, enrolment_told("hosts", "front")), ([], {}, enrolment_told("hosts")),
    (["--department", "machines"], {}, enrolment_told("machines")),
], ids=["first", "again", "named"])
def test_servers_enrol_themselves_from_then_on(installing, room, more, answers, due):
    """Both sides have the registrar among those who may request for hosts, and the machine of the front has its
    packages, its bundle and the keys."""
    (room / "enrol.jwks").write_text(KEYS)
    status, told, said = installing("enrolment", "enrol.jwks", *more, *OF, **answers)
    assert 0 == status, told
    found = [it for it in told_to(said) if re.search("^vethlumi-.*(policy|root|setup)$", it[1])]
    assert due == found, told
    copied, = [it for it in said if it[-1] == "root@o:"]
    assert ["vethlumi-client", "vethlumi-common", "vethlumi-registrar"] == sorted(
        it.rpartition("/")[2].partition("_")[0] for it in copied[:-1])
    assert told.endswith("enrolment enrol.jwks: done\n") and "--enrol-keys - <(enrol.jwks)\n" in told


@pytest.mark.parametrize("version, due", [("0.9.0", ["vethlumi-registrar"]), ("1.0.0", []), (None, [])])
def test_a_registrar_is_upgraded_with_the_office(installing, version, due):
    """It has no machine of its own, which somebody would name."""
    there = "".join(f"installed vethlumi-{it} 1.0.0\n" for it in ("common", "office", "front", "client"))
    there += f"installed vethlumi-registrar {version}\n" if version else ""
    status, told, said = installing("office", "o", "--station", "s", "--yes", **{".* dpkg .*": f"amd64\n{there}"})
    assert 0 == status, told
    assert due == [it.rpartition("/")[2].partition("_")[0] for words in said if words[-1] == "root@o:"
                   for it in words[:-1]]


@pytest.mark.parametrize("text, why", [
    (None, "can't read enrol.jwks: "), ("", "enrol.jwks has no public keys such as `vethlumi enrol --new-key` prints"),
    (KEYS.replace('"x"', '"d"'), "enrol.jwks has no public keys"), ('{"keys": []}', "enrol.jwks has no public keys"),
], ids=["none", "empty", "private", "no key"])
def test_what_is_no_public_key_goes_nowhere(installing, room, text, why):
    if text is not None:
        (room / "enrol.jwks").write_text(text)
    status, told, said = installing("enrolment", "enrol.jwks", *OF)
    assert (1, True, []) == (status, why in told, told_to(said)), told


WITNESSED = r"(?s)\S+ sh -c for it in \S+/\*\.witness; .*"


def policy(*rules, name="people", kind="user"):
    return f"department {name}\nkind {kind}\nadmins a\nprincipals {','.join(rules)}\noptions\n"


OWN = policy("{name}@people")
# A policy, further options, and the words by which a new server lets people in.
PEOPLE = [
    (OWN, [], ["--people", "people"]),
    (OWN + policy("{name}.a", name="hosts", kind="host"), [], ["--people", "people"]),
    (policy("ops@group", "{name}@people", "nobody"), [], ["--people", "people"]), (policy("alice"), [], []),
    (policy("{name}"), [], []), (policy("{name}@people", "alice"), [], []), (policy("*@people"), [], []),
    (OWN + policy("alice", name="web"), [], []), (OWN + policy("nobody", name="web"), [], ["--people", "people"]),
    (policy("{name}@staff", name="staff"), [], ["--people", "staff"]), (policy("{name}@people", name="staff"), [], []),
    (policy("{name}@staff", name="staff") + policy("{name}@jobs", name="jobs"), [], []),
    (OWN + policy("{name}@jobs", name="jobs"), [], ["--people", "people"]), ("", [], []),
    (OWN, ["--people", "staff"], ["--people", "staff"]), (policy("{name}@people", kind="host"), [], []),
]


@pytest.mark.parametrize("text, given, due", PEOPLE, ids=range(len(PEOPLE)))
@pytest.mark.parametrize("is_new", [True, False], ids=["new", "there"])
def test_people_log_in_to_a_new_server_as_the_policy_has_it(installing, is_new, text, given, due):
    """One that is set up stays as it is, unless somebody says so."""
    answers = {r".* test -e /etc/ssh/sshd_config\.d/vethlumi\.conf && .*": "" if is_new else "yes\n",
               POLICIES: text, WITNESSED: ""}
    status, told, said = installing("add-server", "web.example.org", *given, *OF, **answers)
    assert 0 == status, told
    words = said[-1][1:-2]
    assert ("vethlumi-server-setup", *(due if is_new or given else []), "--yes") == words, told
    # Whoever expects people to log in as themselves learns that they don't.
    is_left_out = is_new and not due and any(f"{{name}}@{it}\n" in text.replace(",", "\n") for it in (
        "staff", "jobs", "people") if f"department {it}\nkind user" in text)
    assert is_left_out == ("web.example.org is set up without --people: " in told), told


# What a witness looks at, as the station says it, and the departments that open accounts.
BOTH = OWN + policy("{name}@staff", name="staff")
WITNESSES = [("people -\nstaff corp\n", ["staff"]), ("", ["people"]), ("people -\nstaff -\n", ["people"]),
             ("people corp\nstaff corp\n", ["people", "staff"]), ("web corp\n", ["people"])]


@pytest.mark.parametrize("told, due", WITNESSES, ids=range(len(WITNESSES)))
def test_a_new_server_lets_in_those_whose_logins_are_witnessed(installing, told, due):
    """Otherwise a front would open ana's account by a department in which nobody needs a token."""
    answers = {r".* test -e /etc/ssh/sshd_config\.d/vethlumi\.conf && .*": "", WITNESSED: told,
               r"\S+ sh -c cat /etc/vethlumi/station/\*\.policy": BOTH}
    status, shown, said = installing("add-server", "web.example.org", *OF, **answers)
    assert (0, ("vethlumi-server-setup", *[word for it in due for word in ("--people", it)], "--yes")) == (
        status, said[-1][1:-2]), shown


@pytest.mark.parametrize("text, why", [
    (OWN + policy("{name}", name="staff"), "the department staff permits principals without @, so each account opens "
                                           "to its bare name, accounts of the system too. To open accounts of people "
                                           "to NAME@people, and to nothing else, pass --people people\n"),
    (policy("{name}@staff", name="staff") + policy("{name}@jobs", name="jobs"),
     "several departments permit {name}@DEPARTMENT. To open accounts of people to NAME@staff, and to nothing else, "
     "pass --people staff\n"),
], ids=["bare", "several"])
def test_a_new_server_without_people_is_told_of(installing, text, why):
    status, told, _ = installing("server", "c", *OF, **{
        r".* test -e /etc/ssh/sshd_config\.d/vethlumi\.conf && .*": "", WITNESSED: "",
        r"\S+ sh -c cat /etc/vethlumi/station/\*\.policy": text})
    assert (0, True) == (status, f"c is set up without --people: {why}" in told), told


GUARDS = "[guard SHA256:" + 43 * "a" + "]\n7 " + 64 * "0" + " 1700000000 people/alice\n"
RECOVER = {r"(?s)\S+ sh -c set -e\nsystemctl stop .*": GUARDS, r"\S+ sh -c echo '\[list\]'; .*": "[list]\n# KRL ver\n"}


def test_a_restored_office_is_recovered_while_the_station_is_stopped(installing):
    """And the station starts again only if that is done."""
    words = ["recover", "--server", "c", "--server", "d", *OF]
    status, told, said = installing(*words, "--most", "9", **RECOVER)
    assert 0 == status, told
    found = told_to(said)
    assert ["s", "c", "d", "o", "s"] == [it[0] for it in found]
    assert ("o", "vethlumi-office-root", "recover", "--most", "9", "--yes", "-",
            GUARDS + 2 * "[list]\n# KRL ver\n") == found[3]
    assert "stop 'office-station@*'" in found[0][-1] and "systemctl start" in found[4][-1]
    status, told, said = installing(*words, **{r".* vethlumi-office-root recover .*": 1}, **RECOVER)
    assert (1, ["s", "c", "d", "o"]) == (status, [it[0] for it in told_to(said)]), told
    assert "if this is interrupted, the station stays stopped: run it again\n" in told


@pytest.mark.parametrize("text", ["", "7 x\n", GUARDS + "[list]\n", GUARDS.replace("0 17", "\x1b 17")], ids=range(4))
def test_a_station_that_says_something_else_has_nothing_recovered(installing, text):
    status, told, said = installing("recover", "--server", "c", *OF, **{**RECOVER, [*RECOVER][0]: text})
    assert (1, True) == (status, "s has no guard, or its answer isn't a list of what it approved" in told), told
    assert [] == [it for it in told_to(said) if "vethlumi-office-root" in it]


@pytest.mark.parametrize("words, why", [
    (["add-user"], "add-user needs NAME right after it"), (["add-server"], "add-server needs MACHINE right after it"),
    (["add-user", "a b"], "no name of a user"), (["remove-caller", "a.b"], "no name of a caller"),
    (["leave", "bob", "--caller", "a.b"], "no name of a caller: 'a.b'"),
    (["leave", "a.b"], "no name of a caller: 'a.b': for somebody who is none, type remove-user a.b"),
    (["leave", "admin"], "admin is a name that set-up makes"), (["remove-caller", "root"], "root is a name that set"),
    (["add-server", "a b"], "no machine"), (["add-user", "bob", "--server", "a b"], "no machine"),
    (["add-user", "bob@corp", "--server", "c"], "bob@corp isn't a valid account name: leave out --server"),
    (["remove-user", "bob", "--client", "c"], "remove-user takes no --client"), (["add-user", "bob", "--hosts", "x"],
                                                                                "add-user has no option --hosts"),
    (["add-user", "bob@corp", "--client", "c"], "bob@corp isn't a valid caller name: leave out --client"),
    (["add-user", "root", "--client", "c"], "root isn't a valid caller name: leave out --client"),
    *((["add-user", it, "--client", "c"], f"{it} isn't a valid caller name: leave") for it in ("registrar", "station")),
    *((words, "root isn't a person's account, so it stays. For the principal root, type ") for words in (
        ["remove-user", "root", "--server", "c"], ["add-user", "root", "--server", "c"],
        ["leave", "root", "--caller", "bob", "--server", "c"], ["leave", "root", "--caller", "bob"])),
    *(([it, "host-web"], "no name of a user: 'host-web': only servers have names that begin with host-. For a server")
      for it in ("add-user", "remove-user", "leave")),
    (["add-caller", "bob", "--hosts", "x"], "add-caller has no option --hosts"), (["recover"], "recover needs --s"),
    (["recover", "bob", "--server", "c"], "recover takes no name: bob"), (["recover", "--server", "c", "--to", "0"],
                                                                         "--to is a serial: '0'"),
    (["remove-server", "c", "--department", "x"], "remove-server takes no --department"),
    (["add-user", "bob", "--name", "first"], "add-user takes no --name"), (["add-user", "bob", "--ca", "SHA256:x"],
                                                                          "add-user takes no --ca without"),
    (["add-server", "c", "--hosts", "x"], "nor vethlumi-server-setup has an option --hosts"),
    (["add-caller", "a", "--client", "c", "--account", "x"], "nor vethlumi-client-setup has an option --account"),
    (["enrolment"], "enrolment needs FILE right after it"), (["enrolment", "f", "--server", "c"], "takes no --server"),
    (["enrolment", "f", "--client", "c"], "enrolment takes no --client"), (["enrolment", "f", "--caller", "c"],
                                                                          "enrolment takes no --caller"),
    (["enrolment", "f", "--hosts", "x"], "enrolment has no option --hosts"), (["enrolment", "f", "--department", "a.b"],
                                                                             "invalid department name: 'a.b'"),
], ids=range(39))
def test_bad_words_change_nothing(installing, words, why):
    status, told, said = installing(*words, *OF)
    assert (2, True, []) == (status, why in told, said), told


@pytest.mark.parametrize("said, hint", [
    (": root@s: Permission denied (publickey).", ". if you have ended access, put your public key back into"),
    (": No ED25519 key is known for s\nHost key verification failed.", ". ssh here has to know that machine's key"),
    (": ssh: connect to host s port 22: Connection refused", ""), ("", ""),
], ids=["ended", "unknown", "refused", "nothing"])
def test_who_does_not_get_in_is_told_what_helps(said, hint):
    """In the words that OpenSSH 9.2 has for it."""
    told = str(loaded(PROGRAMS / "setup/vethlumi-install").Machine("s").unreached(said))
    assert told.startswith(f"no connection to root@s, so run this again when there is one{said}{hint}")
    assert bool(hint) == (len(told) > 63 + len(said))


@pytest.mark.parametrize("lacks", ["office", "station"])
def test_both_sides_have_to_be_named(installing, lacks):
    words = [it for it in (["--office", "o", "--station", "s"]) if it not in (f"--{lacks}", lacks[0])]
    status, told, said = installing("add-user", "bob", *words)
    assert (2, True, []) == (status, f"give --{lacks} too: add-user changes what that machine has" in told, said), told


def test_options_of_these_names_go_on_to_set_up_commands(installing):
    """As before: those of the front and of the station have the same names."""
    status, told, said = installing("station", "s", "--department", "web", "--principals", "alice", "--yes")
    assert (0, ("s", "vethlumi-station-setup", "--department", "web", "--principals", "alice", "--yes")) == (
        status, told_to(said)[-1]), told
    status, told, said = installing("office", "o", "--station", "s", "--server", "x.org", "--yes")
    assert ("o", "vethlumi-front-setup", "--server", "x.org", "--yes", "o") in told_to(said), told


# Stands for the programs of accounts: one file has a line for each account, with its last day.
ACCOUNTS = """#!/bin/sh
echo "${0##*/} $*" >>said
case "${0##*/} $*" in
  "getent passwd bob") [ -e bob ] && echo bob:x:$UID_OF_BOB: || exit 2 ;;
  "getent shadow bob") echo "bob:*:1:0:99999:7::$(cat bob):" ;;
  useradd*) : >bob ;;
  "usermod --expiredate 1 bob") echo 1 >bob ;;
  "usermod --expiredate  bob") : >bob ;;
  pkill*) exit 1 ;;
esac
"""


def test_an_account_is_made_ended_and_opened_again(room):
    """Its files stay. One that is there is left as it is, also if its last day is another."""
    daily = loaded(PROGRAMS / "setup/vethlumi-install").daily
    (room / "bin").mkdir()
    for it in ("getent", "useradd", "usermod", "pkill"):
        (room / "bin" / it).write_text(ACCOUNTS)
        (room / "bin" / it).chmod(0o755)

    def do(script):
        (room / "said").write_text("")
        environment = os.environ | {"PATH": f"{room}/bin:{os.environ['PATH']}", "UID_OF_BOB": "1000"}
        run(["sh", "-c", script.format("bob")], env=environment, check=True)
        return [it for it in (room / "said").read_text().splitlines() if not it.startswith("getent")]
    made = "useradd --create-home --shell /bin/bash --password * bob"
    ended = ["usermod --expiredate 1 bob", "pkill -KILL -u bob"]
    assert [[], [made], [], ended, ended, ["usermod --expiredate  bob"], []] == [do(it) for it in (
        daily.END_ACCOUNT, daily.ADD_ACCOUNT, daily.ADD_ACCOUNT, daily.END_ACCOUNT, daily.END_ACCOUNT,
        daily.ADD_ACCOUNT, daily.ADD_ACCOUNT)]
    (room / "bob").write_text("20000\n")
    assert [] == do(daily.ADD_ACCOUNT)


@pytest.mark.parametrize("uid", [0, 33, 999, 1000, 1001, 61183, 61184, 65534, 65535, 65536, 4294967293, 4294967294])
def test_only_accounts_of_people_are_ended_and_opened(room, uid):
    """Those that a certificate opens, whatever the account is called: vethlumi-principals says so."""
    daily = loaded(PROGRAMS / "setup/vethlumi-install").daily
    is_person = loaded(PROGRAMS / "server/vethlumi-principals").is_person("bob", uid)
    (room / "bin").mkdir()
    for it in ("getent", "useradd", "usermod", "pkill"):
        (room / "bin" / it).write_text(ACCOUNTS)
        (room / "bin" / it).chmod(0o755)
    environment = os.environ | {"PATH": f"{room}/bin:{os.environ['PATH']}", "UID_OF_BOB": str(uid)}
    for script, last, changes in ((daily.END_ACCOUNT, "", ["usermod", "pkill"]), (daily.ADD_ACCOUNT, "1", ["usermod"])):
        (room / "bob").write_text(last)
        (room / "said").write_text("")
        done = run(["sh", "-c", script.format("bob")], env=environment)
        said = [it.split()[0] for it in (room / "said").read_text().splitlines()]
        assert (0 if is_person else 1, changes if is_person else []) == (
            done.returncode, [it for it in said if it != "getent"]), done.stderr
        assert is_person != (f"the account bob has the user ID {uid}, so it isn't a person's" in done.stderr.decode())
