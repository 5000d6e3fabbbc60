"""vethlumi-host, which renews a host's certificate: what it asks for and when, and what keeps the old certificate."""
import itertools
import os
import re
import shutil
import subprocess
import tempfile
import time

import pytest

from asking import department
from running import CLIENT, PROGRAMS, left_out, loaded, run, until
from subject_keys import CERTIFICATES, LINES, P256, SK_ED25519

HOST = PROGRAMS / "server/vethlumi-host"
SETTINGS = "KEYID=db/db.example.org\nPRINCIPALS=db.example.org\nLIFE={life}\nKEY={key}\n"


class Host:
    """A host with its settings, its key, and the folder of its certificate."""

    def __init__(self, room, client, life="30d"):
        self.etc, self.state, self.room = room / "etc", room / "state", room
        for it in (self.etc, self.state, room / "bin"):
            it.mkdir()
        run(["ssh-keygen", "-q", "-t", "ed25519", "-N", "", "-C", "db", "-f", room / "host"], check=True)
        self.settle(life)
        self.present, self.old = self.state / "host-cert.pub", self.state / "host-cert.pub.old"
        shim = room / "bin/vethlumi"
        shim.write_text(client)
        shim.chmod(0o755)

    def settle(self, life):
        (self.etc / "host.env").write_text(SETTINGS.format(life=life, key=self.room / "host.pub"))

    def environment(self):
        return os.environ | {"STATE_DIRECTORY": str(self.state), "VETHLUMI_ETC": str(self.etc), "HOME": str(self.state),
                             "VETHLUMI_CAS": str(self.room / "cas.pub"), "VETHLUMI_READ": str(self.room / "read"),
                             "PATH": f"{self.room}/bin:{os.environ['PATH']}", "PYTHONDONTWRITEBYTECODE": "1"}

    def begin(self, *words, when=()):
        return subprocess.Popen([*when, HOST, *words], env=self.environment(), stdin=subprocess.DEVNULL,
                                stdout=subprocess.PIPE, stderr=subprocess.PIPE, text=True)

    def __call__(self, *words, when=()):
        """The status, and what was told."""
        made = self.begin(*words, when=when)
        _, told = made.communicate(timeout=100)
        return made.returncode, told

    def serial(self, file=None):
        said = run(["ssh-keygen", "-L", "-f", file or self.present]).stdout.decode()
        return int(re.search(r"Serial: (\d+)", said)[1])


# ---- with an office and its station

OF_HOST = {"name": "db", "kind": "host", "admins": "db", "principals": "db.example.org", "maxlife": 2592000}
AS_A_CLIENT = f'#!/bin/sh\nPYTHONPATH={CLIENT} exec /usr/bin/python3 -B -m vethlumi "$@"\n'


@pytest.fixture
def host(served, station, front, room):
    """A host whose department is its own, at an office of which it is a caller."""
    text = department(**OF_HOST)
    assert 200 == served.post("root", "db", text).status
    station.guard.permit(text)
    made = Host(room, AS_A_CLIENT)
    (made.etc / "host.toml").write_text(f'office = "{served.url}"\ncaller = "db"\n')
    return made


def renewed(host, station, due, *words, when=()):
    asking = host.begin(*words, when=when)
    until(lambda: [due] == station.sign(), 60)
    told = asking.communicate(timeout=60)[1]
    assert 0 == asking.returncode, told
    assert due == host.serial()
    return told


@pytest.mark.timeout(900)
def test_a_host_gets_its_certificate_and_renews_it_when_two_thirds_are_over(host, station):
    if not shutil.which("faketime"):
        left_out("faketime isn't installed")
    # As of 19 days ago: 19 of its 30 days are over, and it isn't due.
    assert "" == renewed(host, station, 1, when=["faketime", "-f", "-19d"])
    assert (0, "") == host() and 1 == host.serial()
    # As of 21 days ago it is.
    host.present.unlink()
    renewed(host, station, 2, when=["faketime", "-f", "-21d"])
    assert "" == renewed(host, station, 3)
    assert (3, 2) == (host.serial(), host.serial(host.old))
    said = run(["ssh-keygen", "-L", "-f", host.present]).stdout.decode()
    assert 'Key ID: "db/db.example.org"' in said and "host certificate" in said
    assert (0, "") == host() and [] == station.sign()


def test_what_may_not_be_renewed_is_asked_for_anew(host, station, served):
    renewed(host, station, 1, "--now")
    assert 200 == served.post("root", "revoke", "revoke-serial 1\n").status
    told = renewed(host, station, 2, "--now")
    assert "no renewal: vethlumi: refused 19 Revoked" in told


@pytest.mark.timeout(900)
def test_a_host_has_a_key_of_any_type_that_its_department_lists(host, station, served, room):
    text = department(**OF_HOST, key_types=LINES)
    assert 200 == served.post("root", "typed", text).status
    station.guard.permit(text)
    serials = itertools.count(1)
    for kind, line in LINES.items():
        (room / "host.pub").write_text(f"{line} db\n")
        assert "" == renewed(host, station, next(serials), "--now")
        assert CERTIFICATES[kind] == host.present.read_text().split()[0]
        # A renewal has to end later, by a second at least.
        time.sleep(1.1)
        assert "" == renewed(host, station, next(serials), "--now"), "a renewal"
    assert 200 == served.post("root", "plain", department(**OF_HOST, key_types=[P256, SK_ED25519])).status
    before = host.present.read_bytes()
    status, told = host("--now")
    assert (1, before) == (status, host.present.read_bytes()) and "refused 14 NotPermitted" in told, told


def test_a_host_gets_no_other_name(host, station, served):
    renewed(host, station, 1, "--now")
    before = host.present.read_bytes()
    (host.etc / "host.env").write_text((host.etc / "host.env").read_text().replace("PRINCIPALS=db", "PRINCIPALS=web"))
    status, told = host("--now")
    assert 1 == status and "refused 14 NotPermitted" in told
    assert before == host.present.read_bytes()


# ---- with a client that gives what it is told to give

GIVES = """#!/bin/sh
echo "$@" >>{room}/asked
for it; do [ "$it" != renew ] || exit {renews}; done
while [ $# -gt 1 ]; do [ "$1" != --out ] || cp {room}/given-cert.pub "$2"; shift; done
"""


def certify(room, key, name="given", *words, principals="db.example.org", days="-1d:+10d", host=("-h",), ca="ca"):
    """Signs a certificate for a key, in the file NAME-cert.pub."""
    if not (room / ca).exists():
        run(["ssh-keygen", "-q", "-t", "ed25519", "-N", "", "-f", room / ca], check=True)
    shutil.copy(room / key, room / f"{name}.pub")
    run(["ssh-keygen", "-q", "-s", room / ca, *host, "-I", "db/db.example.org", "-n", principals, "-V", days, "-z", "7",
         room / f"{name}.pub"], check=True)
    return room / f"{name}-cert.pub"


@pytest.fixture
def given(room):
    """A host with an old certificate that is due, and a client that gives another one."""
    made = Host(room, GIVES.format(room=room, renews=1))
    shutil.copy(certify(room, "host.pub", "old", days="-9d:+1d"), made.present)
    (room / "cas.pub").write_bytes((room / "ca.pub").read_bytes())
    run(["ssh-keygen", "-q", "-t", "ed25519", "-N", "", "-f", room / "other"], check=True)
    return made


def test_what_is_as_it_should_be_takes_its_place(given, room):
    new = certify(room, "host.pub").read_bytes()
    old = given.present.read_bytes()
    status, _ = given()
    assert (0, new, old) == (status, given.present.read_bytes(), given.old.read_bytes())
    asked = (room / "asked").read_text().splitlines()
    assert [" renew ", " request "] == [re.search(" (renew|request) ", it)[0] for it in asked]
    assert 0o644 == given.present.stat().st_mode & 0o777


@pytest.mark.parametrize("key, more, why", [
    ("other.pub", {}, "it is for a different key"),
    ("host.pub", {"principals": "web.example.org"}, "it is for web.example.org"),
    ("host.pub", {"host": ()}, "it is for a user"), ("host.pub", {"days": "+1d:+20d"}, "it isn't valid now"),
    ("host.pub", {"days": "-20d:-1d"}, "it isn't valid now"), ("host.pub", {"days": "-1d:+1h"}, "it ends no later"),
    ("host.pub", {"ca": "another"}, "this server doesn't trust its CA"),
])
def test_what_is_not_keeps_the_old_one(given, room, key, more, why):
    certify(room, key, **more)
    old = given.present.read_bytes()
    status, told = given()
    assert 1 == status and f"rejected the new certificate: {why}" in told, told
    assert (old, False) == (given.present.read_bytes(), given.old.exists())


def test_what_is_left_out_is_asked_for_again_after_a_while(given, room):
    certify(room, "other.pub")
    asked = room / "asked"
    assert 1 == given()[0] and 2 == len(asked.read_text().splitlines())
    # A day is left: for a tenth of it nothing is asked, unless somebody says so.
    assert (0, "") == given() and 2 == len(asked.read_text().splitlines())
    assert 1 == given("--now")[0] and 4 == len(asked.read_text().splitlines())
    failed = given.state / "failed"
    os.utime(failed, (time.time() - 9000,) * 2)
    certify(room, "host.pub")
    assert 0 == given()[0] and not failed.exists()


def test_what_cannot_be_put_in_place_costs_few_serials(given, room):
    """As when somebody else's files are there: the timer comes each minute, and each certificate has a serial."""
    certify(room, "host.pub")
    given.old.mkdir()
    old, asked = given.present.read_bytes(), room / "asked"
    status, told = given()
    assert (1, f"vethlumi-host: {given.old}: Is a directory") == (status, told.splitlines()[-1])
    assert (old, 2) == (given.present.read_bytes(), len(asked.read_text().splitlines()))
    assert (0, "") == given() and 2 == len(asked.read_text().splitlines())
    given.old.rmdir()
    assert 0 == given("--now")[0] and old == given.old.read_bytes() != given.present.read_bytes()
    assert 0o644 == given.old.stat().st_mode & 0o777


@pytest.mark.parametrize("amiss, why", [
    (lambda room: (room / "given-cert.pub").write_text("none\n"), "host-cert.new.pub"),
    (lambda room: certify(room, "host.pub", days="always:forever"), "never expires"),
    (lambda room: run(["ssh-keygen", "-q", "-h", "-I", "db/db.example.org", "-V", "-1d:+10d", "-z", "7", "-s",
                       room / "ca", room / "given.pub"], check=True),
     "rejected the new certificate: it is for every host"),
    (lambda room: (room / "cas.pub").write_text(""), "ssh-keygen can't read"),
], ids=["no certificate", "without an end", "without principals", "no file of CAs"])
def test_what_cannot_be_checked_costs_few_serials(given, room, amiss, why):
    """The timer comes each minute."""
    certify(room, "host.pub")
    amiss(room)
    old, asked = given.present.read_bytes(), room / "asked"
    for it in range(2):
        status, told = given()
        assert (int(not it), not it) == (status, why in told), told
        assert (old, 2) == (given.present.read_bytes(), len(asked.read_text().splitlines()))


@pytest.mark.parametrize("left, ago, is_asked", [
    ("5m", 45, False), ("5m", 75, True), ("100m", 570, False), ("100m", 660, True), ("20h", 7000, False),
    ("20h", 7300, True)])
def test_a_tenth_of_what_is_left_but_a_minute_at_least_is_waited(given, room, left, ago, is_asked):
    shutil.copy(certify(room, "host.pub", "old", days=f"-9d:+{left}"), given.present)
    certify(room, "other.pub")
    (given.state / "failed").touch()
    os.utime(given.state / "failed", (time.time() - ago,) * 2)
    assert int(is_asked) == given()[0]
    assert is_asked == (room / "asked").exists()


def test_a_certificate_of_a_ca_that_is_not_trusted_any_more_is_replaced_at_once(given, room):
    """Clients don't believe the host by it. A renewal would be of a certificate that is nothing any more."""
    certify(room, "host.pub", "by-old", days="-1d:+29d", ca="old-ca")
    shutil.copy(room / "by-old-cert.pub", given.present)
    with open(room / "cas.pub", "a") as it:
        it.write((room / "old-ca.pub").read_text())
    assert (0, "") == given() and not (room / "asked").exists(), "it isn't due"
    (room / "cas.pub").write_text((room / "ca.pub").read_text())
    new = certify(room, "host.pub", days="-1d:+10d").read_bytes()
    assert (0, new) == (given()[0], given.present.read_bytes())
    assert [" request "] == re.findall(" (?:renew|request) ", (room / "asked").read_text())


def test_what_is_left_out_costs_few_serials_once_the_old_one_has_ended(given, room):
    shutil.copy(certify(room, "host.pub", "old", days="-9d:-1h"), given.present)
    certify(room, "other.pub")
    assert 1 == given()[0]
    os.utime(given.state / "failed", (time.time() - 600,) * 2)
    assert (0, "") == given() and 2 == len((room / "asked").read_text().splitlines())
    os.utime(given.state / "failed", (time.time() - 3601,) * 2)
    assert 1 == given()[0]


@pytest.mark.root
def test_root_leaves_no_file_of_its_own(given, room):
    """A file of root's in the user's folder would be in the way of the next run by the timer."""
    certify(room, "host.pub")
    for it in (*room.parents, room):
        if str(it).startswith(tempfile.gettempdir() + "/"):
            it.chmod(it.stat().st_mode | 0o011)
    for it in (given.state, *given.state.iterdir(), room / "bin"):
        os.chown(it, 65534, 65534)
    (room / "asked").touch()
    (room / "asked").chmod(0o666)
    assert 0 == given("--now")[0]
    assert {65534} == {it.stat().st_uid for it in given.state.iterdir()}
    assert given.old.exists()


def test_without_a_folder_of_its_own_it_says_so(given):
    shutil.rmtree(given.state)
    assert (1, f"vethlumi-host: {given.state}: No such file or directory\n") == given()


@pytest.mark.parametrize("words, status", [(["--help"], 0), (["-h"], 0), (["--nothing"], 2), (["--now", "--reload"], 2),
                                           (["now"], 2)], ids=str)
def test_words_that_are_none_ask_for_nothing(given, room, words, status):
    done = run([HOST, *words], env=given.environment())
    usage = b"vethlumi-host [--now | --sign | --reload]"
    assert (status, usage) == (done.returncode, (done.stdout + done.stderr).partition(b"\n")[0])
    assert not (room / "asked").exists()


def test_without_an_answer_nothing_is_asked_anew(room, given):
    (room / "bin/vethlumi").write_text(GIVES.format(room=room, renews=3))
    status, _ = given()
    assert 1 == status and 1 == len((room / "asked").read_text().splitlines())


@pytest.mark.parametrize("text", ["", "KEYID=db/db.example.org\n"])
def test_settings_that_lack_something(given, text):
    (given.etc / "host.env").write_text(text)
    status, told = given()
    assert 1 == status and "host.env has no" in told


def test_a_damaged_certificate_is_asked_for_anew(given, room):
    new = certify(room, "host.pub").read_bytes()
    given.present.write_text("damaged")
    assert 0 == given()[0] and new == given.present.read_bytes()


def test_it_waits_until_two_thirds_are_over(given, room):
    begun = time.time()
    shutil.copy(certify(room, "host.pub", "old", days="-5d:+5d"), given.present)
    assert (0, "") == given() and not (room / "asked").exists()
    assert 60 > time.time() - begun


# ---- root's copy, which sshd reads

class Copying:
    """The step of root: the module of the script, with stand-ins for sshd and for systemd."""

    def __init__(self, given, room, monkeypatch):
        for name, value in given.environment().items():
            monkeypatch.setenv(name, value)
        self.script, self.asked, self.says = loaded(HOST), [], {"-t": (0, "", ""), "reload": (0, "", "")}
        self.shown, self.named, real = self.script.SHOWN, self.script.SHOWN, self.script.run

        def stand_in(*words, **how):
            if words[0] not in ("/usr/sbin/sshd", "systemctl"):
                return real(*words, **how)
            self.asked.append(words[1])
            return (0, f"port 22\nhostcertificate {self.named}\n", "") if words[1] == "-T" else self.says[words[1]]
        monkeypatch.setattr(self.script, "run", stand_in)

    def __call__(self):
        """What is said, and what sshd and systemd were asked."""
        self.asked.clear()
        try:
            return self.script.reload() or "", self.asked
        except self.script.Fault as fault:
            return str(fault), self.asked


@pytest.fixture
def copying(given, room, monkeypatch):
    """The host has a copy of the certificate that is in place, and a new one is put in its place."""
    made = Copying(given, room, monkeypatch)
    assert ("", ["-t", "-T", "reload"]) == made()
    assert given.present.read_bytes() == made.shown.read_bytes()
    made.old = made.shown.read_bytes()
    return made


@pytest.mark.parametrize("kind", CERTIFICATES)
def test_a_certificate_for_a_key_of_each_type_is_copied(copying, given, room, kind):
    (room / "host.pub").write_text(f"{LINES[kind]} db\n")
    line = certify(room, "host.pub").read_bytes()
    status, told = given()
    assert (0, line) == (status, given.present.read_bytes()), told
    assert ("", ["-t", "-T", "reload"]) == copying()
    assert (line, CERTIFICATES[kind].encode()) == (copying.shown.read_bytes(), line.split()[0])


def test_a_new_certificate_is_copied_once_and_read(copying, given, room):
    assert ("", []) == copying()
    shutil.copy(certify(room, "host.pub"), given.present)
    assert ("", ["-t", "-T", "reload"]) == copying()
    assert given.present.read_bytes() == copying.shown.read_bytes() != copying.old
    assert (0o644, os.getuid()) == (copying.shown.stat().st_mode & 0o777, copying.shown.stat().st_uid)
    assert ("", []) == copying()
    # A copy that is lost is made again, and read again.
    copying.shown.unlink()
    assert ("", ["-t", "-T", "reload"]) == copying() and copying.shown.exists()
    given.present.unlink()
    assert ("", []) == copying() and copying.shown.exists(), "without one there is nothing to do"


@pytest.mark.parametrize("named, is_read", [("/var/lib/office-host/host-cert.pub", False), ("present", True)])
def test_a_server_that_was_set_up_before_reads_the_certificate_itself(copying, given, room, named, is_read):
    """Until its set-up is typed again."""
    copying.named = given.present if named == "present" else named
    shutil.copy(certify(room, "host.pub"), given.present)
    assert ("", ["-t", "-T", *["reload"] * is_read]) == copying()


def second_line(path, text):
    path.write_bytes(text + text)


def link(path, text):
    path.with_name("elsewhere").write_bytes(text)
    path.symlink_to("elsewhere")


# What the user office-host may put in the place of a certificate, and why root doesn't copy it.
PUT = [
    ("a pipe", lambda path, text: os.mkfifo(path), "not a regular file"),
    ("a folder", lambda path, text: path.mkdir(), "not a regular file"),
    ("a link", link, "Too many levels of symbolic links"),
    ("two lines", second_line, "it isn't a certificate"),
    ("a comment without an end", lambda path, text: path.write_bytes(text[:-1].ljust(16385, b"a")), "it isn't a cert"),
    ("no line", lambda path, text: path.write_bytes(text[:-1]), "it isn't a certificate"),
    ("a public key", lambda path, text: path.write_bytes(text.replace(b"-cert-v01@openssh.com", b"")),
     "it isn't a cert"),
    ("another file", lambda path, text: path.write_bytes(b"\1\2\n"), "it isn't a certificate"),
    ("a type of key that no office takes", lambda path, text: path.write_bytes(text.replace(b"ed25519", b"dss", 1)),
     "no office gives a certificate of the type ssh-dss-cert-v01@openssh.com"),
    ("the name of another type", lambda path, text: path.write_bytes(text.replace(b"ed25519", b"rsa", 1)),
     "ssh-keygen can't read"),
    ("a damaged one", lambda path, text: path.write_bytes(text[:120] + b" a\n"), "ssh-keygen can't read"),
]


@pytest.mark.parametrize("put, why", [it[1:] for it in PUT], ids=[it[0] for it in PUT])
def test_what_is_no_certificate_is_not_copied(copying, given, room, put, why):
    text = certify(room, "host.pub").read_bytes()
    given.present.unlink()
    put(given.present, text)
    told, asked = copying()
    assert (True, []) == (why in told, asked), told
    assert copying.old == copying.shown.read_bytes()
    assert ["host-cert.pub", "host.env"] == sorted(it.name for it in given.etc.iterdir())


@pytest.mark.parametrize("key, more, why", [
    ("other.pub", {}, "it is for a different key"), ("host.pub", {"host": ()}, "it is for a user"),
    ("host.pub", {"principals": "web.example.org"}, "it is for web.example.org"),
    ("host.pub", {"days": "+1d:+20d"}, "it isn't valid now"), ("host.pub", {"days": "-20d:-1d"}, "it isn't valid now"),
    ("host.pub", {"ca": "another"}, "this server doesn't trust its CA"),
    ("host.pub", {"host": ("-h", "-I", "a\"\n        Signing CA: ED25519 SHA256:a (using it)")}, "has a field twice"),
])
def test_a_certificate_that_was_not_asked_for_is_not_copied(copying, given, room, key, more, why):
    if "-I" in more.get("host", ()):
        run(["ssh-keygen", "-q", "-s", room / "ca", *more["host"], "-n", "db.example.org", "-V", "-1d:+10d",
             room / "host.pub"], check=True)
        (room / "host-cert.pub").rename(given.present)
    else:
        shutil.copy(certify(room, key, **more), given.present)
    told, asked = copying()
    assert (True, []) == (why in told, asked), told
    assert copying.old == copying.shown.read_bytes()


def test_a_reload_that_failed_is_tried_again(copying, given, room):
    """Otherwise sshd would go on showing the old one until that ends."""
    shutil.copy(certify(room, "host.pub"), given.present)
    copying.says["reload"] = (1, "", "the unit is busy")
    for _ in range(2):
        assert ("sshd doesn't read the new certificate yet: the unit is busy", ["-t", "-T", "reload"]) == copying()
    copying.says |= {"reload": (0, "", ""), "-t": (255, "", "/etc/ssh/sshd_config: line 1: Bad")}
    assert ("sshd doesn't read the new certificate yet: /etc/ssh/sshd_config: line 1: Bad", ["-t"]) == copying()
    copying.says["-t"] = (0, "", "")
    assert ("", ["-t", "-T", "reload"]) == copying()
    assert ("", []) == copying()


def test_a_copy_that_sshd_cannot_read_gives_way_to_the_old_one(copying, given, room):
    shutil.copy(certify(room, "host.pub"), given.present)
    copying.says["-t"] = (0, "", f'Could not load host certificate "{copying.shown}": invalid format')
    told, asked = copying()
    assert (True, ["-t"], copying.old) == ("the old one is back" in told, asked, copying.shown.read_bytes())
    copying.shown.unlink()
    told, _ = copying()
    assert "the old one is back" in told and not copying.shown.exists()


def test_without_cas_that_are_trusted_nothing_is_copied(copying, given, room):
    """What signed the certificate isn't known then."""
    shutil.copy(certify(room, "host.pub"), given.present)
    (room / "cas.pub").unlink()
    assert (f"{room}/cas.pub isn't there yet: office-ca-keys.service makes it", []) == copying()
    assert copying.old == copying.shown.read_bytes()


def test_no_program_is_waited_for_without_end(given, monkeypatch):
    """sshd waits for ever for a pipe that it is to read."""
    script = loaded(HOST)
    with pytest.raises(script.Fault, match="sleep 100 takes more than 1 seconds"):
        script.run("sleep", "100", longest=1)
    assert (30, 200) == (script.LONGEST_RUN, script.LONGEST_ASKING) and 90 < script.LONGEST_ASKING < 240
