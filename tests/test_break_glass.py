"""Break glass, as docs/DAILY.md has it: what sshd makes of the key from the drawer, its KRL and its limits, if the
office's own KRL is there, is damaged, or is gone. The commands and the settings are those of the page; users are
whoever runs this test, and nobody else. test_daily_machines.py types the page into machines."""
import getpass
import os
import pathlib
import re

import pytest

import pages
from running import TOP, Programs, free_port, is_listening, new_key, run, until

PAGE = pages.section((TOP / "docs/DAILY.md").read_text(), "Break glass")
# The commands that make the drawer, that sign, and that revoke, without those that reach another machine.
MAKE = r"^mkdir -m 700 drawer\n.*?^END$"
SIGN = r"^ssh-keygen -q -t ed25519 -N '' -C alice -f glass\n.*?^ssh-keygen -L .*?$"
REVOKE = r"^echo 'serial: 1' .*?$"


def of_page(form):
    [found] = re.findall(form, PAGE, re.M | re.S)
    return found


class Glass:
    """A server whose office may be gone, and a drawer."""

    def __init__(self, room, programs):
        self.room, self.programs, self.port = room, programs, free_port()
        self.type(of_page(MAKE))
        new_key("host")
        new_key("ca")
        new_key("alice")
        self.krl = room / "office.krl"
        self.krl_of_the_office()
        user = getpass.getuser()
        settings = (room / "drawer/sshd.conf").read_text()
        for name in ("pub", "krl"):
            settings = settings.replace(f"/etc/vethlumi/break-glass.{name}", f"{room}/break-glass.{name}")
        self.settings = settings.replace("User emergency\n", f"User {user}\n").replace("echo emergency", f"echo {user}")
        if os.getuid():
            # Only root's sshd can become another user.
            self.settings = self.settings.replace("CommandUser nobody", f"CommandUser {user}")
        self.take_to_the_server()

    def krl_of_the_office(self):
        run(["ssh-keygen", "-q", "-k", "-f", self.krl, "/dev/null"], check=True)

    def type(self, commands):
        run(["bash", "-euc", commands], check=True)

    def take_to_the_server(self):
        for name, file in (("pub", "ca.pub"), ("krl", "revoked.krl")):
            (self.room / f"break-glass.{name}").write_bytes((self.room / "drawer" / file).read_bytes())

    def begin(self, settings=None, more=""):
        """Starts sshd with the office's settings, and those of the page in a file that it includes."""
        (self.room / "conf.d").mkdir(exist_ok=True)
        (self.room / "conf.d/vethlumi-break-glass.conf").write_text(self.settings if settings is None else settings)
        (self.room / "sshd_config").write_text(
            f"Include {self.room}/conf.d/*.conf\nListenAddress 127.0.0.1\nPort {self.port}\nHostKey {self.room}/host\n"
            f"TrustedUserCAKeys {self.room}/ca.pub\nRevokedKeys {self.krl}\nAuthorizedKeysFile none\nPidFile none\n"
            "PasswordAuthentication no\nKbdInteractiveAuthentication no\nStrictModes no\nUsePAM no\nLogLevel VERBOSE\n"
            f"{more}")
        if not os.getuid():
            pathlib.Path("/run/sshd").mkdir(exist_ok=True)
        with open(self.room / "sshd.log", "ab") as log:
            self.programs.begin(["/usr/sbin/sshd", "-D", "-e", "-f", self.room / "sshd_config"], stderr=log)
        until(lambda: is_listening(self.port))

    def sign(self, commands=None):
        """Types the page's commands for a certificate, whose principal is the one who may be somebody here."""
        commands = commands or of_page(SIGN)
        self.type(f"rm -f glass*\n{commands}")

    def login(self, key="glass"):
        words = ["ssh", "-F", "none", "-i", key, "-o", f"CertificateFile={key}-cert.pub", "-o", "BatchMode=yes", "-o",
                 "IdentitiesOnly=yes", "-o", "UserKnownHostsFile=/dev/null", "-o", "StrictHostKeyChecking=no", "-o",
                 "LogLevel=ERROR", "-p", self.port, f"{getpass.getuser()}@127.0.0.1", "echo granted"]
        done = run(words, env={k: v for k, v in os.environ.items() if k != "SSH_AUTH_SOCK"})
        return done.stdout.decode().strip() or "refused"

    def log(self):
        return (self.room / "sshd.log").read_text()

    def trusts(self, user):
        """Which CAs and which KRL sshd has for a user."""
        told = run(["/usr/sbin/sshd", "-T", "-C", f"user={user},host=a,addr=192.0.2.1", "-f",
                    self.room / "sshd_config"], check=True).stdout.decode()
        return [re.search(rf"^{it} (.*)$", told, re.M)[1] for it in ("trustedusercakeys", "revokedkeys")]


@pytest.fixture
def glass(room):
    programs = Programs()
    yield Glass(room, programs)
    programs.end_all()


def as_here(text):
    """The page's commands, with whoever runs this test in the place of `emergency`."""
    return text.replace("-n emergency", f"-n {getpass.getuser()}")


def test_the_drawer_opens_one_account_for_an_hour(glass):
    """What sshd logs names the key ID, the serial and the CA. Every other account trusts the office's CA alone."""
    glass.begin()
    glass.sign(as_here(of_page(SIGN)))
    assert "granted" == glass.login()
    form = r"Accepted publickey for \S+ .* ID break-glass/alice-1 \(serial 1\) CA ED25519 SHA256:"
    assert re.search(form, glass.log())
    told = (glass.room / "drawer/issued").read_text()
    assert 'Key ID: "break-glass/alice-1"' in told and "Serial: 1" in told and "permit-pty" in told
    assert ["permit-pty"] == re.search(r"Extensions: \n((?: {16}.*\n)+)", told)[1].split()
    times = re.search(r"Valid: from (\S+) to (\S+)", told)
    assert 3660 == abs(seconds(times[2]) - seconds(times[1]))
    here, other = getpass.getuser(), "nobody"
    assert [f"{glass.room}/break-glass.pub", f"{glass.room}/break-glass.krl"] == glass.trusts(here)
    assert [f"{glass.room}/ca.pub", str(glass.krl)] == glass.trusts(other)


@pytest.mark.root
def test_the_drawer_opens_its_account_where_people_log_in_as_themselves(glass):
    """sshd asks a program there which principals open an account, and the account's own name is none of them. In a
    block `Match` it takes no `none` for that, so the page has another program."""
    asks = "AuthorizedPrincipalsCommand {}\nAuthorizedPrincipalsCommandUser nobody\n".format
    glass.begin(more=asks("/usr/bin/echo alice@people"))
    glass.sign(as_here(of_page(SIGN)))
    assert "granted" == glass.login()


def seconds(text):
    hours, minutes, rest = text.partition("T")[2].split(":")
    return (int(hours) * 60 + int(minutes)) * 60 + int(rest)


@pytest.mark.parametrize("what", ["gone", "damaged", "a folder"])
def test_the_drawer_opens_if_the_office_s_krl_is_not_there(glass, what):
    """Which keeps everybody else out, and those with the office's certificates too."""
    glass.krl.unlink()
    if what == "damaged":
        glass.krl.write_bytes(b"SSHKRL\n\0 and no more")
    elif what == "a folder":
        glass.krl.mkdir()
    glass.begin()
    glass.sign(as_here(of_page(SIGN)))
    assert "granted" == glass.login()


def test_the_office_s_certificates_do_not_open_the_account(glass):
    """It trusts the drawer's key alone."""
    glass.begin()
    words = ["-I", "people/alice", "-n", getpass.getuser(), "-V", "-1m:+1h"]
    run(["ssh-keygen", "-q", "-s", "ca", *words, "alice.pub"], check=True)
    assert "refused" == glass.login("alice")


def test_without_the_page_s_settings_the_drawer_opens_nothing(glass):
    glass.begin(settings="")
    glass.sign(as_here(of_page(SIGN)))
    run(["ssh-keygen", "-q", "-s", "ca", "-I", "people/alice", "-n", getpass.getuser(), "-V", "-1m:+1h", "alice.pub"],
        check=True)
    assert ("refused", "granted") == (glass.login(), glass.login("alice"))


@pytest.mark.parametrize("change", [("-n emergency", "-n alice"), ("-V -1m:+1h", "-V -2h:-1h"), ("-n emergency", "")],
                         ids=["another name", "ended", "no name"])
def test_a_certificate_that_says_otherwise_opens_nothing(glass, change):
    """One without a name would be for everybody: sshd takes none such."""
    glass.begin()
    glass.sign(as_here(of_page(SIGN).replace(*change)))
    assert "refused" == glass.login()


def test_what_was_signed_is_revoked_by_the_drawer_s_krl(glass):
    """And by no other: what is signed after that has another serial, and the version counts up."""
    glass.begin()
    glass.sign(as_here(of_page(SIGN)))
    assert "granted" == glass.login()
    glass.type(of_page(REVOKE))
    glass.take_to_the_server()
    told = run(["ssh-keygen", "-Q", "-l", "-f", "drawer/revoked.krl"], check=True).stdout.decode()
    assert "# KRL version 2\n" in told and "serial: 1\n" in told
    assert "refused" == glass.login()
    glass.sign(as_here(of_page(SIGN).replace("alice-1 -z 1", "alice-2 -z 2")))
    assert "granted" == glass.login()


def test_a_drawer_without_its_krl_opens_nothing(glass):
    """sshd lets nobody in by a KRL that it can't read."""
    glass.begin()
    glass.sign(as_here(of_page(SIGN)))
    (glass.room / "break-glass.krl").unlink()
    assert "refused" == glass.login()
