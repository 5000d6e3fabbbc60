"""Who opens an account of a server where people log in as themselves: what `vethlumi-principals` says of each account,
and the settings by which `vethlumi-server-setup --people` has sshd ask it. test_daily_machines.py logs in."""
import argparse
import os
import pathlib

import pytest

from running import PROGRAMS, free_port, loaded, run

PROGRAM = PROGRAMS / "server/vethlumi-principals"
NOBODY_S = "61184 to 65535 are systemd's dynamic users, nobody and no user"


def principals(*words):
    done = run([PROGRAM, *words])
    assert (0, b"") == (done.returncode, done.stderr), words
    return done.stdout.decode().splitlines()


@pytest.mark.parametrize("uid, is_person", [
    (0, False), (1, False), (33, False), (100, False), (998, False), (999, False), (1000, True), (1001, True),
    (60000, True), (61183, True), (61184, False), (65519, False), (65533, False), (65534, False), (65535, False),
    (65536, True), (1234567890, True), (4294967293, True), (4294967294, False), (4294967295, False),
    (9999999999, False)])
def test_accounts_of_people_have_a_principal(uid, is_person):
    assert ["alice@people"] * is_person == principals("alice", uid, "people"), NOBODY_S


@pytest.mark.parametrize("name, is_person", [
    ("alice", True), ("a", True), ("a.b_c-d", True), ("alice@corp", True), ("host", True), ("hosta", True), ("7", True),
    # What no certificate has, or what sshd would take for an option or a comment of its own.
    ("", False), ("Alice", False), ("al ice", False), ("alice\n", False), ("alice\nroot", False), ("alice,root", False),
    ('command="a"', False), ("#alice", False), ("*", False), ("al\u0131ce", False), ("\u0430lice", False),
    # A server's name as a caller.
    ("host-", False), ("host-db", False),
    # A principal has at most 64 bytes.
    (57 * "a", True), (58 * "a", False), (64 * "a", False)])
def test_a_name_that_no_certificate_has_opens_nothing(name, is_person):
    assert [f"{name}@people"] * is_person == principals(name, 1000, "people")


def test_each_department_has_its_own():
    assert ["bob@people", "bob@staff"] == principals("bob", 1000, "people", "staff") and [] == principals(
        "root", 0, "people", "staff")
    # One whose principal would be too long is left out, and the others aren't.
    assert [f"{57 * 'b'}@people"] == principals(57 * "b", 1000, "peoples", "people")


@pytest.mark.parametrize("words", [
    [], ["alice"], ["alice", "1000"], ["alice", "", "people"], ["alice", "-1", "people"], ["alice", "+1000", "people"],
    ["alice", "01000", "people"], ["alice", "1e3", "people"], ["alice", "\u0661000", "people"],
    ["alice", " 1000", "people"], ["alice", "99999999999", "people"], ["alice", "1000", ""], ["alice", "1000", "a b"],
    ["alice", "1000", "people", "a\nroot"], ["alice", "1000", "-a"], ["alice", "1000", 33 * "a"]], ids=repr)
def test_bad_words_open_nothing(words):
    done = run([PROGRAM, *words])
    assert (2, b"") == (done.returncode, done.stdout) and done.stderr.startswith(b"vethlumi-principals ACCOUNT UID")


# ---- sshd's settings

@pytest.fixture
def settle(room, monkeypatch):
    """What a server's set-up does with sshd's settings, for a sshd_config of its own."""
    server = loaded(PROGRAMS / "setup/vethlumi-server-setup")
    (room / "conf.d").mkdir()
    (room / "sshd_config").write_text(f"Include {room}/conf.d/*.conf\n")
    run(["ssh-keygen", "-q", "-t", "ed25519", "-N", "", "-f", room / "host"], check=True)
    if not os.getuid():
        pathlib.Path("/run/sshd").mkdir(exist_ok=True)

    def stand_in(words):
        if words[0] == "/usr/sbin/sshd":
            return server.setting_up.run([*words, "-f", room / "sshd_config", "-h", room / "host"])
    monkeypatch.setattr(server, "run", stand_in)
    monkeypatch.setattr(server, "SETTINGS", room / "conf.d/vethlumi.conf")
    monkeypatch.setattr(server, "TRUSTED", room / "host.pub")
    monkeypatch.setattr(server, "PRINCIPALS", [room / "not-here", PROGRAM])
    return server


def asked(server, *people):
    """Whom sshd asks, by its own words, after a set-up with these departments."""
    server.settle_sshd(False, people)
    told = server.run(["/usr/sbin/sshd", "-T"]).splitlines()
    return sorted(it for it in told if it.startswith("authorizedprincipalscommand"))


NOT_ASKED = ["authorizedprincipalscommand none", "authorizedprincipalscommanduser none"]


def test_sshd_asks_for_the_departments_that_are_named(settle):
    """Until others are named. A server of before isn't changed, and a run without the option changes nothing back."""
    assert NOT_ASKED == asked(settle)
    user = "authorizedprincipalscommanduser office-principals"
    due = [f"authorizedprincipalscommand {PROGRAM} %u %U people", user]
    assert due == asked(settle, "people") == asked(settle) == asked(settle, "people", "people")
    due[0] += " staff"
    assert due == asked(settle, "people", "staff") == asked(settle)
    assert [f"authorizedprincipalscommand {PROGRAM} %u %U staff", user] == asked(settle, "staff")
    settle.SETTINGS.write_text("\n".join(it for it in settle.SETTINGS.read_text().splitlines() if "Auth" not in it))
    assert NOT_ASKED == asked(settle)


def test_another_command_of_the_administrator_is_told(room, settle):
    """sshd takes the first one. What is written is taken back."""
    (room / "conf.d/00-own.conf").write_text("AuthorizedPrincipalsCommand /bin/own %u\n"
                                             "AuthorizedPrincipalsCommandUser nobody\n")
    with pytest.raises(settle.Fault, match="sshd doesn't apply `AuthorizedPrincipalsCommand.* no file before this one"):
        asked(settle, "people")
    assert not settle.SETTINGS.exists()


def test_without_the_program_nothing_is_written(room, settle, monkeypatch):
    """sshd would refuse everybody."""
    monkeypatch.setattr(settle, "PRINCIPALS", [room / "not-here"])
    with pytest.raises(settle.Fault, match="not-here isn't here: it is in the package vethlumi-client"):
        asked(settle, "people")
    assert not settle.SETTINGS.exists()


@pytest.mark.parametrize("glass, is_told", [(None, False), ("TrustedUserCAKeys a\n", True),
                                            ("AuthorizedPrincipalsCommand /usr/bin/echo emergency\n", False)])
def test_a_break_glass_that_would_open_nothing_is_told(settle, capsys, glass, is_told):
    if glass:
        settle.SETTINGS.with_name("vethlumi-break-glass.conf").write_text(f"Match User emergency\n  {glass}")
    for people in ([], ["people", "staff", "people"]):
        steps = settle.setting_up.Steps(argparse.Namespace(yes=True), "vethlumi-server-setup")
        settle.people_steps(argparse.Namespace(people=people), steps)
        assert bool(people and is_told) == ("lets nobody in any more: after `Match` it " in capsys.readouterr().err)
        shown = "open accounts of people to ACCOUNT@people, ACCOUNT@staff, and to no other principal"
        assert [shown] * bool(people) == [it for it, _ in steps.steps]


@pytest.mark.parametrize("name", ["a b", "-a", "People", "a@b", "", 33 * "a"])
def test_what_is_no_department_of_people(settle, name):
    given = argparse.Namespace(life="30d", account=[], people=["people", name])
    with pytest.raises(settle.BadWords, match="invalid department name"):
        settle.check_words(given)


# ---- logins

# Runs sshd where accounts are that this machine doesn't have: /etc is a copy, for these commands alone. sshd asks no
# program that lies in a folder into which others than root may write.
LOG_IN = """
mount --make-rprivate /
cp -a /etc "$room/etc"
mount --bind "$room/etc" /etc
install -D -m 755 "$program" /etc/asks/vethlumi-principals
id office-principals >/dev/null 2>&1 || useradd --system --shell /usr/sbin/nologin office-principals
while read -r name uid; do useradd -M -d /tmp -s /bin/bash -u "$uid" -o -p '*' "$name"; done <accounts 2>/dev/null
mkdir -p /run/sshd
/usr/sbin/sshd -D -e -f "$room/sshd_config" 2>log &
trap 'kill %1' EXIT
for try in $(seq 300); do grep -q listening log && break; sleep 0.1; done
while read -r key account; do
  ssh -F none -i "$key" -o CertificateFile="$key-cert.pub" -o BatchMode=yes -o IdentitiesOnly=yes -o LogLevel=ERROR \
    -o UserKnownHostsFile=/dev/null -o StrictHostKeyChecking=no -p "$port" "$account@127.0.0.1" 'id -u' </dev/null \
    2>/dev/null || echo refused
done <logins
"""
SSHD = """ListenAddress 127.0.0.1
Port {port}
HostKey {room}/host
TrustedUserCAKeys {room}/ca.pub
AuthorizedPrincipalsCommand /etc/asks/vethlumi-principals %u %U people
AuthorizedPrincipalsCommandUser office-principals
AuthorizedKeysFile none
PasswordAuthentication no
KbdInteractiveAuthentication no
PermitRootLogin yes
StrictModes no
UsePAM no
PidFile none
"""
ACCOUNTS = {"people-a": 1717, "people-b": 1000, "people-c": 999, "people-d": 65534, "people-e": 65536, "host-a": 1718}
# Whose certificate, for which account, and the user ID as whom it lets in.
LOGINS = [("a", "people-a", 1717), ("b", "people-b", 1000), ("a", "people-b", None), ("b", "people-a", None),
          ("own", "people-a", None), ("all", "people-e", 65536), ("all", "people-c", None), ("all", "people-d", None),
          ("all", "host-a", None), ("all", "root", None)]


@pytest.mark.root
@pytest.mark.slow
def test_sshd_lets_people_in_as_themselves_and_nobody_else(room):
    """Beside the name of an account, which is no principal of it any more."""
    names = {"a": "people-a@people", "b": "people-b@people", "own": "people-a",
             "all": ",".join(["root", *(f"{it}@people" for it in ("root", *[*ACCOUNTS][2:]))])}
    for it in ("host", "ca", *names):
        run(["ssh-keygen", "-q", "-t", "ed25519", "-N", "", "-f", it], check=True)
    for key, listed in names.items():
        run(["ssh-keygen", "-q", "-s", "ca", "-I", "people/a", "-n", listed, "-V", "-1h:+1h", f"{key}.pub"], check=True)
    port = free_port()
    (room / "sshd_config").write_text(SSHD.format(port=port, room=room))
    (room / "accounts").write_text("".join(f"{name} {uid}\n" for name, uid in ACCOUNTS.items()))
    (room / "logins").write_text("".join(f"{key} {account}\n" for key, account, _ in LOGINS))
    done = run(["unshare", "--mount", "bash", "-euc", LOG_IN], env=os.environ | {
        "room": str(room), "program": str(PROGRAM), "port": str(port)}, timeout=200)
    due = [str(uid or "refused") for *_, uid in LOGINS]
    assert due == done.stdout.decode().split(), done.stderr.decode() + (room / "log").read_text()


# ---- the host's own certificate

PEM = "".join(f"-----BEGIN {it}-----\nAAAA\n-----END {it}-----\n" for it in ("PRIVATE KEY", "CERTIFICATE"))


@pytest.mark.parametrize("caller, department, key_id", [
    ("host-db", "hosts", "hosts/db"), ("host-db-example-org", None, "db-example-org/db.example.org"),
    ("db-example-org", None, "db-example-org/db.example.org")])
@pytest.mark.parametrize("before", [None, "KEYID=db-example-org/db.example.org\nPRINCIPALS=db.example.org\nLIFE=7d\n",
                                    "KEYID=db-example-org/db.example.org\nPRINCIPALS=web.example.org\nLIFE=7d\n"])
def test_a_host_asks_under_the_key_id_of_its_department(room, settle, monkeypatch, capsys, caller, department, key_id,
                                                        before):
    """One that moves to another department keeps its other settings. Those of another host stay."""
    monkeypatch.setattr(settle, "ETC", room)
    monkeypatch.setattr(settle.setting_up.Steps, "units", lambda *_: None)
    monkeypatch.setattr(settle, "ask_for_certificate", lambda: None)
    monkeypatch.setattr(settle, "check_key", lambda path: None)
    monkeypatch.setattr(os, "getuid", lambda: 1000)
    if before:
        (room / "host.env").write_text(before)
    parts = {"caller": f"{caller}\n", "host": "db.example.org\n", "authority": "a\n", "certificate": PEM}
    parts |= {"department": f"{department}\n"} if department else {}
    (room / "bundle").write_text(settle.setting_up.bundle(office="https://a:8443", **parts))
    given = argparse.Namespace(yes=True, key="key.pub", life="30d")
    steps = settle.setting_up.Steps(given, "vethlumi-server-setup")
    settle.host_steps(given, steps, settle.setting_up.read_bundle(room / "bundle"), "https://a:8443")
    steps.carry_out()
    due = f"KEYID={key_id}\nPRINCIPALS=db.example.org\nLIFE={'7d' if before else '30d'}\n"
    is_another = bool(before) and "web" in before
    assert (before if is_another else due + "KEY=key.pub\n" * (not before)) == (room / "host.env").read_text()
    assert is_another == ("it names another host than db.example.org" in capsys.readouterr().err)
