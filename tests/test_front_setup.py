"""How vethlumi-front-setup names servers, and takes back what it had given them by their earlier names.

What it does with other clients is in test_packages.py, and so are machines that are set up by it."""
import argparse
import collections
import os
import re
import shutil
import time

import pytest

from asking import department, key_blob
from running import PROGRAMS, TOP, loaded, run
from test_departments import TellingOffice, UnixDoor, opened

HOST, BEFORE, NAME = "db.example.org", "db-example-org", "host-db-example-org"


@pytest.fixture
def setting(room, monkeypatch, capsys):
    """The set-up without nginx and units: a function of its words that returns its steps, and what it tells. The steps
    after those numbered `up_to` aren't done, as if it had been killed."""
    monkeypatch.setenv("PATH", f"{TOP}/programs/front:{os.environ['PATH']}")
    front = loaded(TOP / "programs/setup/vethlumi-front-setup")
    changed = []
    monkeypatch.setattr(front, "front_steps", lambda given, steps, folder: changed.append({*steps.changed}) or 8443)

    def do(*words, up_to=None):
        parser = argparse.ArgumentParser()
        front.options(parser)
        given = parser.parse_args([*words, "--authority", str(room / "authority")])
        given.yes = True
        steps = front.setting_up.Steps(given, "vethlumi-front-setup")
        carry_out = steps.carry_out

        def some():
            steps.steps = steps.steps[:up_to]
            carry_out()
        steps.carry_out = some
        front.do(given, steps)
        return [what for what, _ in steps.steps], capsys.readouterr().err
    do("front.example.org")
    do.changed, do.fault, do.folder, do.front = changed, front.Fault, room / "authority", front
    return do


def set_up_before(folder):
    """What an earlier version made for a server: a caller of its name, and a bundle with it."""
    run(["authority", "caller", folder, BEFORE], check=True)
    text = (folder / "admin.bundle").read_text()
    text = re.sub(r"\[caller\]\nadmin\n", f"[caller]\n{BEFORE}\n[host]\n{HOST}\n", text)
    old = (folder / f"{BEFORE}.pem").read_text()
    (folder / f"{HOST}.bundle").write_text(re.sub(r"(?s)\[certificate\]\n.*", f"[certificate]\n{old}", text))
    return old


def revoked_in(folder):
    told = run(["openssl", "crl", "-in", folder / "crl.pem", "-noout", "-text"], check=True).stdout.decode()
    return re.findall("Serial Number: ([0-9A-F]+)", told)


def serial_of(text):
    told = run(["openssl", "x509", "-noout", "-serial"], input=text.encode(), stdin=None, check=True).stdout.decode()
    return told.strip().removeprefix("serial=")


def test_a_server_is_a_caller_of_its_own_kind(setting):
    steps, _ = setting("--server", HOST)
    assert [f"make a certificate for the server {NAME}", f"make the bundles {HOST} in {setting.folder}"] == steps
    text = (setting.folder / f"{HOST}.bundle").read_text()
    assert f"[caller]\n{NAME}\n[host]\n{HOST}\n" in text and (setting.folder / f"{NAME}.pem").read_text() in text
    assert [] == setting("--server", HOST)[0]


def test_nobody_else_reads_a_bundle_or_a_certificate(setting):
    setting("--server", HOST, "--caller", "ana", "--reader", "eye")
    os.umask(0)
    try:
        run(["authority", "renew", setting.folder, "ana"], check=True)
        setting("other.example.org")
    finally:
        os.umask(0o022)
    files = [it for it in setting.folder.iterdir() if it.suffix in (".bundle", ".pem", ".key")]
    assert {".bundle": 8, ".pem": 8, ".key": 2} == collections.Counter(it.suffix for it in files)
    assert {0o600} == {it.stat().st_mode & 0o777 for it in files}


def test_a_server_that_was_a_caller_like_others_gets_its_new_name(setting):
    folder, old = setting.folder, set_up_before(setting.folder)
    steps, told = setting("--server", HOST)
    assert [f"make a certificate for the server {NAME}", f"revoke the certificate that {HOST} has as {BEFORE}",
            f"make the bundles {HOST} in {folder}"] == steps
    assert f"{HOST} asks as {NAME} from now on, and not as {BEFORE}: its department needs " in told
    assert f"the line `admins {NAME}`, in the policy of the station and at the office\n" in told
    assert f"set these clients up again, since their bundles have changed: {HOST}\n" in told
    assert [serial_of(old)] == revoked_in(folder)
    # The front gets the new list in the same run.
    assert "crl.pem" in setting.changed[-1]
    text = (folder / f"{HOST}.bundle").read_text()
    assert f"[caller]\n{NAME}\n[host]\n{HOST}\n" in text and old not in text
    assert not (folder / f"{BEFORE}.pem").exists()
    steps, told = setting("--server", HOST)
    assert ([], False) == (steps, "from now on" in told)
    # A person of the earlier name gets a key of their own.
    setting("--caller", BEFORE)
    assert (folder / f"{BEFORE}.pem").read_text() != old


@pytest.mark.parametrize("steps", [1, 2])
def test_what_was_cut_off_is_finished_by_the_next_run(setting, steps):
    folder, old = setting.folder, set_up_before(setting.folder)
    setting("--server", HOST, up_to=steps)
    assert BEFORE in (folder / f"{HOST}.bundle").read_text()
    setting("--server", HOST)
    assert ([serial_of(old)], False) == (revoked_in(folder), (folder / f"{BEFORE}.pem").exists())
    assert f"[caller]\n{NAME}\n" in (folder / f"{HOST}.bundle").read_text()


def test_a_server_that_is_not_named_keeps_its_earlier_name(setting):
    """Until somebody names it, its bundle follows a renewal as before."""
    folder, _ = setting.folder, set_up_before(setting.folder)
    assert [] == setting()[0] == revoked_in(folder)
    run(["authority", "renew", folder, BEFORE, "--revoke"], check=True)
    assert [f"make the bundles {HOST} in {folder}"] == setting()[0]
    text = (folder / f"{HOST}.bundle").read_text()
    assert f"[caller]\n{BEFORE}\n[host]\n" in text and (folder / f"{BEFORE}.pem").read_text() in text


@pytest.mark.parametrize("words", [["--caller", BEFORE], ["--reader", BEFORE], ["--server", BEFORE]])
def test_nobody_else_gets_the_earlier_name_of_a_server(setting, words):
    old = set_up_before(setting.folder)
    setting("--server", HOST, up_to=1)
    with pytest.raises(setting.fault, match="is already in use by another client"):
        setting(*words)
    assert old == (setting.folder / f"{BEFORE}.pem").read_text()


# ---- departments of all hosts

HOSTS = department("hosts", kind="host", admins="host-{name}", principals="{name}.example.org")
OWN = department("db-example-org", kind="host", admins=NAME, principals=HOST)
PEOPLE = department("people", admins="admin,{name}", principals="{name}@people")


@pytest.fixture
def known(room, setting, monkeypatch):
    """The set-up on the machine of an office: a function that gives this office departments."""
    with opened(UnixDoor(str(room / "door"), TellingOffice(key_blob(0x11)))) as door:
        monkeypatch.setattr(setting.front.door, "DOOR", str(room / "door"))
        monkeypatch.setattr(setting.front.door, "LONGEST_WAIT", 2)
        yield lambda *texts: [door.root_puts(text, f"put-{time.monotonic_ns()}") for text in texts]


def server_of(setting, host=HOST):
    """Caller and department of a server's bundle."""
    parts = setting.front.setting_up.read_bundle(setting.folder / f"{host}.bundle")
    assert (setting.folder / f"{parts['caller'].strip()}.pem").read_text().strip() == parts["certificate"].strip()
    return parts["caller"].strip(), parts.get("department", "").strip()


@pytest.mark.parametrize("texts, words, due", [
    ([HOSTS], [], ("host-db", "hosts")), ([OWN], [], (NAME, "")), ([OWN, HOSTS], [], (NAME, "")),
    ([department("db-example-org", kind="host", admins="", principals="nobody"), HOSTS], [], ("host-db", "hosts")),
    ([HOSTS.replace(".example.org", ".example.net")], [], (NAME, "")), ([], [], (NAME, "")),
    ([], ["--department", "hosts"], ("host-db", "hosts")), ([HOSTS], ["--department", "db-example-org"], (NAME, "")),
])
def test_a_server_asks_in_the_department_that_the_office_has(setting, known, texts, words, due):
    known(PEOPLE, *texts)
    _, told = setting("--server", HOST, *words)
    assert due == server_of(setting)
    missing = f"no department lets {HOST} ask for its own name: vethlumi-install add-server {HOST} changes that\n"
    assert (missing in told) == (not words and not any("host-db" in it or "{name}.example.org" in it for it in texts))
    # It stays so, whether it is named again or not, and whatever comes later.
    known(HOSTS, OWN)
    assert [] == setting("--server", HOST)[0] == setting()[0] and due == server_of(setting)
    run(["authority", "renew", setting.folder, due[0]], check=True)
    assert [f"make the bundles {HOST} in {setting.folder}"] == setting()[0] and due == server_of(setting)


def test_two_hosts_have_no_name_in_common(setting, known):
    """In two domains, and as a person."""
    known(HOSTS.replace(".example.org", ".example.org,{name}.example.net"))
    setting("--server", HOST)
    for words in (["--server", "db.example.net"], ["--server", "db.example.net", "--server", HOST],
                  ["--caller", "host-db"]):
        with pytest.raises(setting.fault, match="is already in use by another client|only servers have names"):
            setting(*words)
    assert ("host-db", "hosts") == server_of(setting)


def test_a_server_moves_to_another_department_if_somebody_says_so(setting, known):
    known(OWN, HOSTS)
    setting("--server", HOST)
    old = (setting.folder / f"{NAME}.pem").read_text()
    _, told = setting("--server", HOST, "--department", "hosts")
    assert ("host-db", "hosts") == server_of(setting) and not (setting.folder / f"{NAME}.pem").exists()
    assert [serial_of(old)] == revoked_in(setting.folder)
    assert f"{HOST} asks as host-db from now on, and not as {NAME}: its department needs " in told
    assert "the line `admins host-{name}`, in the policy of the station and at the office\n" in told
    assert [] == setting("--server", HOST)[0]


def test_an_office_that_does_not_answer_makes_no_server(room, setting, known, monkeypatch):
    """Nobody knows which name it would have. One that is there needs no answer."""
    known(HOSTS)
    setting("--server", HOST)
    monkeypatch.setattr(setting.front.door, "DOOR", str(room))
    assert [] == setting("--server", HOST)[0]
    with pytest.raises(setting.fault, match="the office doesn't answer"):
        setting("--server", "web.example.org")
    assert not (setting.folder / "web.example.org.bundle").exists()


def test_a_server_of_all_hosts_goes_and_no_person_of_its_name(setting, known):
    known(HOSTS, PEOPLE)
    setting("--server", HOST, "--server", "ana.example.org", "--caller", "ana", "--caller", "db")
    for name, gone in (("ana", ["ana.pem", "ana.bundle"]), (HOST, ["host-db.pem", f"{HOST}.bundle"])):
        before = {it.name for it in setting.folder.iterdir()}
        setting("--remove", name)
        assert {*gone} == before - {it.name for it in setting.folder.iterdir()}
    assert [] == setting("--remove", HOST)[0]


@pytest.mark.parametrize("text, is_removed, told", [
    (PEOPLE, True, ""), (PEOPLE.replace("admin,{name}", "admin,{name},ana"), False, "ana administers a department, so"),
    (PEOPLE.replace(",{name}", ""), False, ""), (HOSTS, False, ""), (None, False, "what ana may ask for isn't known"),
], ids=["own", "listed", "nobody", "hosts", "unknown"])
def test_a_user_who_goes_has_no_bundle_for_an_own_name(room, setting, known, text, is_removed, told):
    known(*([text] if text else []))
    setting("--caller", "ana")
    if not text:
        (room / "door").unlink()
    steps, said = setting("--remove-user", "ana", "--remove-user", "admin")
    assert (["revoke the certificate of ana, and remove it and its bundle"] * is_removed, True) == (steps, told in said)
    assert is_removed != (setting.folder / "ana.bundle").exists() and (setting.folder / "admin.bundle").exists()


def test_a_user_who_goes_takes_no_server_along(setting, known):
    """Not the one whose host has the user's name, in a department of its own or of all hosts, nor one by its caller."""
    known(PEOPLE, HOSTS)
    setting("--server", "web", "--server", HOST, "--caller", "ana")
    before = sorted(it.name for it in setting.folder.iterdir())
    assert [] == setting("--remove-user", "web", "--remove-user", "db")[0]
    for name in ("host-web", "host-db", "host-", "HOST-ana"):
        with pytest.raises(setting.front.BadWords, match="only servers have names that begin with host-: host-"):
            setting("--remove-user", "ana", "--remove-user", name)
    assert before == sorted(it.name for it in setting.folder.iterdir())


def test_a_caller_whom_name_means_may_ask(setting, known):
    known(PEOPLE)
    assert "may request no certificate" not in setting("--caller", "carol")[1]


# ---- who goes

@pytest.mark.parametrize("words, name, file", [
    (["--caller", "ana"], "ana", "ana"), (["--reader", "eye"], "eye", "eye"), (["--server", HOST], NAME, HOST),
    (["--server", "db"], "host-db", "db")], ids=["caller", "reader", "server", "short"])
def test_a_client_that_goes_gets_in_no_more(setting, words, name, file):
    """The front gets the new list in the same run. Whoever has the name later has another key."""
    folder = setting.folder
    setting(*words)
    pem, bundle = folder / f"{name}.pem", folder / f"{file}.bundle"
    old = pem.read_text()
    steps, _ = setting("--remove", file)
    assert [f"revoke the certificate of {name}, and remove it and its bundle"] == steps
    assert ([serial_of(old)], False, False) == (revoked_in(folder), pem.exists(), bundle.exists())
    assert "crl.pem" in setting.changed[-1]
    assert [] == setting("--remove", file)[0] == setting()[0]
    setting(*words)
    assert pem.read_text() != old and [serial_of(old)] == revoked_in(folder)


def test_others_stay_when_one_goes(setting):
    setting("--caller", "ana", "--server", HOST, "--server", "ana.example.org")
    kept = {it.name: it.read_text() for it in setting.folder.glob("*.*") if it.suffix in (".pem", ".bundle")
            and not it.name.startswith("ana.") or it.name == "ana.example.org.bundle"}
    setting("--remove", "ana")
    assert [] == [name for name, text in kept.items() if name != "crl.pem" and
                  (setting.folder / name).read_text() != text]
    assert not (setting.folder / "ana.pem").exists() and not (setting.folder / "ana.bundle").exists()


@pytest.mark.parametrize("is_left", ["ana.pem", "ana.bundle"])
def test_a_removal_that_was_cut_off_is_finished(setting, is_left):
    setting("--caller", "ana")
    old = (setting.folder / "ana.pem").read_text()
    if is_left == "ana.bundle":
        (setting.folder / "ana.pem").unlink()
    else:
        run(["authority", "revoke", setting.folder, "ana"], check=True)
    assert 1 == len(setting("--remove", "ana")[0])
    assert [serial_of(old)] == revoked_in(setting.folder) and not [*setting.folder.glob("ana.*")]


@pytest.mark.parametrize("name", ["root", "station", "admin", "watch"])
def test_what_each_run_makes_does_not_go(setting, name):
    """It would be there again at once, by another key, and somebody would think that it is gone."""
    with pytest.raises(setting.fault, match=f"{name} is made again by each run: run authority renew .* {name} --rev"):
        setting("--remove", name)
    assert [] == revoked_in(setting.folder) and (setting.folder / f"{name}.pem").exists()


@pytest.mark.parametrize("admins, told", [
    ("admin", True), ("", True), ("admin,carol", False), ("carol", False), ("carola,acarol", True)])
def test_a_caller_who_administers_nothing_is_told(room, setting, monkeypatch, admins, told):
    """By the command that makes the bundle, each time that it is typed, and not for others."""
    why = "carol isn't an administrator of any department, and may request no certificate: vethlumi-install add-caller"
    with opened(UnixDoor(str(room / "door"))) as door:
        door.root_puts(department("people", admins=admins))
        monkeypatch.setattr(setting.front.door, "DOOR", str(room / "door"))
        assert [told, told, False] == [why in setting(*it)[1] for it in (2 * [["--caller", "carol"]] + [[]])]
    # Without an office on this machine nobody knows.
    (room / "door").unlink()
    assert "carol" not in setting("--caller", "carol")[1]


@pytest.fixture
def copying(room, monkeypatch):
    """Copies what nginx reads of an authority into the folder `front`, after these steps."""
    front = loaded(TOP / "programs/setup/vethlumi-front-setup")
    (room / "front").mkdir()
    monkeypatch.setattr(front, "FRONT", room / "front")
    monkeypatch.setattr(front, "clash", lambda port: "")
    monkeypatch.setattr(front.setting_up.Steps, "units", lambda *_: None)
    # Nobody but root gives files to another user.
    monkeypatch.setattr(os, "getuid", lambda: 1000)
    monkeypatch.setenv("PATH", f"{TOP}/programs/front:{os.environ['PATH']}")
    shutil.copy(PROGRAMS / "front/nginx.conf", room / "front")
    run([PROGRAMS / "front/authority", "new", room / "authority", "front.example.org"], check=True)

    def do(add=lambda front, steps: None):
        given = argparse.Namespace(port=None, yes=True)
        steps = front.setting_up.Steps(given, "vethlumi-front-setup")
        add(front, steps)
        front.front_steps(given, steps, room / "authority")
        steps.carry_out()
        return [what for what, _ in steps.steps]
    return do


def test_what_a_set_up_revokes_reaches_nginx_in_the_same_run(room, copying):
    """Else whoever has the certificate goes on until somebody types the command again."""
    copying()
    assert [] == copying()
    run(["authority", "caller", room / "authority", BEFORE], check=True)
    old = (room / "authority" / f"{BEFORE}.pem").read_text()
    told = copying(lambda front, steps: front.rename_steps(steps, room / "authority", HOST, BEFORE,
                                                               NAME))
    assert 2 == len(told) and told[0].startswith("revoke the certificate ") and told[1].startswith("copy ")
    assert [serial_of(old)] == revoked_in(room / "front") == revoked_in(room / "authority")


@pytest.mark.parametrize("spoil", [lambda it: it.chmod(0o600), lambda it: it.write_text("earlier\n"),
                                   lambda it: it.unlink()], ids=["mode", "text", "gone"])
def test_what_a_backup_has_brought_back_is_as_nginx_needs_it(room, copying, spoil):
    """Files of a machine that is gone, on which the front's user had another number, or a group without a right."""
    copying()
    spoil(room / "front/server.key")
    assert ["copy server.crt, server.key, ca.crt, crl.pem to " + str(room / "front")] == copying()
    assert 0o640 == (room / "front/server.key").stat().st_mode & 0o777
    assert [] == copying()


def test_others_read_no_private_key_of_the_front(room, copying):
    """Of all that it copies for nginx only the user of the front may read anything."""
    copying()
    modes = {it.name: it.stat().st_mode & 0o777 for it in (room / "front").iterdir()}
    assert {"server.key": 0o640, "server.crt": 0o640, "ca.crt": 0o640, "crl.pem": 0o640} == {
        name: mode for name, mode in modes.items() if name != "nginx.conf"}


def test_others_read_no_private_key_of_a_caller(room):
    """However the umask is, and also if a file of another mode is there."""
    common = loaded(TOP / "programs/setup/setting_up.py")
    pem = "".join(f"-----BEGIN {it}-----\nAAAA\n-----END {it}-----\n" for it in ("PRIVATE KEY", "CERTIFICATE"))
    (room / "bundle").write_text(common.bundle(office="https://a:8443", caller="ana", certificate=pem, authority="b\n"))
    words = [PROGRAMS / "setup/vethlumi-client-setup", "--yes", room / "bundle"]
    file = room / "home/.config/vethlumi/ana.pem"
    file.parent.mkdir(parents=True)
    for mode in (None, 0o644):
        if mode:
            file.chmod(mode)
        run(words, check=True, env=os.environ | {"HOME": str(room / "home")}, umask=0)
        assert (pem, 0o600) == (file.read_text(), file.stat().st_mode & 0o777)


# ---- units that have to read what changed

SYSTEMCTL = """#!/bin/sh
case $1 in
is-active) shift; for it; do cat {room}/$it.state; done ;;
is-enabled) shift; for it; do echo enabled; done ;;
*) echo "$@" >>{room}/said; [ ! -e {room}/fails ] ;;
esac
"""


@pytest.fixture
def units(room, monkeypatch):
    """A set-up of one file and these units, with a stand-in for systemctl: what it asks of systemd."""
    (room / "bin").mkdir()
    (room / "bin/systemctl").write_text(SYSTEMCTL.format(room=room))
    (room / "bin/systemctl").chmod(0o755)
    monkeypatch.setenv("PATH", f"{room}/bin:{os.environ['PATH']}")
    monkeypatch.setattr(os, "getuid", lambda: 1000)
    setting_up = loaded(TOP / "programs/setup/vethlumi-front-setup").setting_up
    monkeypatch.setattr(setting_up, "UNREAD", room / "unread")

    def do(text, *names, stopped=(), fails=False):
        for name in names:
            (room / f"{name}.state").write_text("inactive\n" if name in stopped else "active\n")
        (room / "said").write_text("")
        (room / "fails").touch() if fails else (room / "fails").unlink(missing_ok=True)
        steps = setting_up.Steps(argparse.Namespace(yes=True), "set-up")
        steps.file(room / "conf", text)
        steps.units(*names)
        steps.carry_out()
        return (room / "said").read_text().splitlines()
    do.fault = setting_up.Fault
    return do


def test_a_unit_reads_what_changed_and_no_more(units):
    assert ["reload-or-restart a"] == units("1", "a")
    assert [] == units("1", "a")
    assert ["reload-or-restart a b"] == units("2", "a", "b")
    # What is started reads it then. What runs beside it has to be told.
    assert ["enable --now a"] == units("3", "a", stopped="a")
    assert ["enable --now a b", "reload-or-restart a"] == units("4", "a", "b", stopped="b")
    assert [] == units("4", "a", "b")


def test_a_unit_that_could_not_read_what_changed_is_told_again(units):
    """The file is as it should be by then: a client that was revoked would get in until somebody reloads the front."""
    units("1", "a")
    with pytest.raises(units.fault, match="have a read what changed: systemctl reload-or-restart a"):
        units("2", "a", fails=True)
    assert ["reload-or-restart a"] == units("2", "a")
    assert [] == units("2", "a")
