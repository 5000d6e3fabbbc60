"""How `vethlumi-client-setup --provider` has the people of a machine log in: what root writes for all users, and what
one user writes; and that ssh does it.

The steps are done in a room, in the place of /etc, with stand-ins for systemd."""
import os
import pathlib
import stat
import tomllib
import types

import pytest

from running import PROGRAMS, loaded, new_key, run

PROVIDER, OFFICE = "https://login.example.org/realms/corp", "https://office.example.org:8443"
BLOCK = 'Match host *.example.org exec "vethlumi login --if-needed"\n'
CERTIFICATE = "".join(f"-----BEGIN {it}-----\nAAAA\n-----END {it}-----\n" for it in ("PRIVATE KEY", "CERTIFICATE"))


class Machine:
    """A machine on which the set-up is typed, by root or by a user."""

    def __init__(self, room, monkeypatch):
        self.room, self.etc, self.home, self.monkeypatch = room, room / "etc", room / "home", monkeypatch
        for it in (self.etc, self.home, room / "list"):
            it.mkdir()
        self.ca = new_key(room / "ca").rsplit(" ", 1)[0]
        self.setup = loaded(PROGRAMS / "setup/vethlumi-client-setup")
        self.common = self.setup.setting_up
        self.ssh_config = self.etc / "ssh_config"
        for module in (self.common, self.setup):
            monkeypatch.setattr(module, "ETC", self.etc)
            monkeypatch.setattr(module, "LIST", room / "list")
        monkeypatch.setattr(self.common, "fetch_list", (room / "list/revoked.krl").touch)
        monkeypatch.setattr(self.common.Steps, "units", lambda *_: None)
        monkeypatch.setattr(self.setup, "SETTINGS", self.ssh_config)
        monkeypatch.setattr(self.setup, "KNOWN_HOSTS", self.etc / "known_hosts")
        monkeypatch.setattr(self.setup, "is_settled", lambda: self.ssh_config.exists())
        # What root writes here belongs to whoever runs the test.
        monkeypatch.setattr(self.common, "put", lambda path, text, mode, *_: put(pathlib.Path(path), text, mode))
        monkeypatch.setattr(self.common, "is_of", lambda path, mode, *_: mode == stat.S_IMODE(os.lstat(path).st_mode))
        monkeypatch.setenv("HOME", str(self.home))

    def bundle(self, **more):
        text = self.ca + "\n" + self.common.bundle(office=OFFICE, authority="the authority\n", **more)
        (self.room / "bundle").write_text(text)

    def type(self, *words, user=0):
        """Types the command, and returns its status."""
        self.monkeypatch.setattr(self.setup.os, "getuid", lambda: user)
        self.monkeypatch.setattr(self.setup.sys, "argv", ["setup", "--yes", *words, str(self.room / "bundle")])
        return self.common.main("vethlumi-client-setup", self.setup.__doc__, self.setup.options, self.setup.do, False)

    def settings(self, file=".config/vethlumi.toml"):
        return tomllib.loads((self.home / file).read_text())

    def listed(self):
        """Each file with its text, by its name."""
        return {str(it.relative_to(self.room)): it.read_text() for folder in (self.etc, self.home)
                for it in folder.rglob("*") if it.is_file()}


def put(path, text, mode):
    path.write_text(text)
    path.chmod(mode)


@pytest.fixture
def machine(room, monkeypatch):
    made = Machine(room, monkeypatch)
    made.bundle()
    return made


SIGN_ON = ["--hosts", "*.example.org", "--provider", PROVIDER]
VALUES = {"office": OFFICE, "provider": PROVIDER, "client_id": "vethlumi", "department": "people"}


def test_root_has_all_users_log_in(machine, capsys):
    assert 0 == machine.type(*SIGN_ON)
    found = machine.settings(machine.etc / "client.toml")
    assert VALUES | {"cacert": str(machine.etc / "ca.crt")} == found
    assert f"{machine.ca}\n" == (machine.etc / "trusted-cas").read_text()
    # What counts for all hosts comes before the block.
    assert machine.ssh_config.read_text().endswith(f"known_hosts\n{BLOCK}")
    # Nobody becomes a caller by this.
    assert [] == [*machine.home.rglob("*")]
    before = machine.listed()
    assert 0 == machine.type(*SIGN_ON) and before == machine.listed()
    assert "everything is as it should be" in capsys.readouterr().err
    # And it stays so if somebody types the command for another reason.
    machine.bundle(caller="ana", certificate=CERTIFICATE)
    assert 0 == machine.type("--hosts", "*.example.org")
    assert BLOCK in machine.ssh_config.read_text() and found == machine.settings(machine.etc / "client.toml")


def test_root_may_be_a_caller_as_well(machine):
    machine.bundle(caller="ana", certificate=CERTIFICATE)
    assert 0 == machine.type(*SIGN_ON)
    folder = machine.home / ".config/vethlumi"
    assert VALUES | {"certificate": str(folder / "ana.pem"), "cacert": str(folder / "ca.crt")} == machine.settings()
    assert 0o600 == stat.S_IMODE((folder / "ana.pem").stat().st_mode)
    assert "certificate" not in machine.settings(machine.etc / "client.toml")


# Stands for runuser, without another user.
RUNUSER = '#!/bin/sh\n[ "$1 $2 $3" = "-u bob --" ] && shift 3 && exec "$@"\n'


def test_root_sets_up_the_client_of_an_account(machine, capsys):
    """The account does so itself, and root has none of it. Typed again, nothing is done."""
    bob, files = machine.room / "bob", ("bob.pem", "ca.crt")
    bob.mkdir()
    (machine.room / "bin").mkdir()
    put(machine.room / "bin/runuser", RUNUSER, 0o755)
    machine.monkeypatch.setenv("PATH", f"{machine.room}/bin:{os.environ['PATH']}")
    found = {"bob": (1000, bob), "root": (0, machine.home)}
    machine.monkeypatch.setattr(machine.setup.pwd, "getpwnam", lambda name: types.SimpleNamespace(
        pw_name=name, pw_uid=found[name][0], pw_dir=str(found[name][1])))
    machine.bundle(caller="bob", certificate=CERTIFICATE)
    assert 0 == machine.type("--hosts", "*.example.org", "--user", "bob")
    told = capsys.readouterr().err
    assert f"  as bob: write {bob}/.config/vethlumi/bob.pem\n" in told
    folder = bob / ".config/vethlumi"
    assert {"office": OFFICE, "certificate": f"{folder}/bob.pem", "cacert": f"{folder}/ca.crt"} == machine.settings(
        bob / ".config/vethlumi.toml")
    assert (CERTIFICATE, 0o600) == ((folder / "bob.pem").read_text(), stat.S_IMODE((folder / "bob.pem").stat().st_mode))
    assert {*files} == {it.name for it in folder.iterdir()} and [] == [*machine.home.rglob("*")]
    assert machine.ca in (machine.etc / "known_hosts").read_text()
    assert 0 == machine.type("--hosts", "*.example.org", "--user", "bob")
    assert "everything is as it should be\n" == capsys.readouterr().err
    # What the account can't do is said before anything is done.
    put(machine.room / "bin/runuser", "#!/bin/sh\necho no home >&2\nexit 1\n", 0o755)
    before = machine.listed()
    machine.bundle(caller="bob", certificate=CERTIFICATE.replace("AAAA", "BBBB"))
    assert 1 == machine.type("--hosts", "*.example.net", "--user", "bob") and before == machine.listed()
    assert "as bob: no home\n" in capsys.readouterr().err
    # root is nobody else.
    assert 0 == machine.type("--user", "root") and "BBBB" in (machine.home / ".config/vethlumi/bob.pem").read_text()


@pytest.mark.parametrize("words, user, status, why", [
    (["--user", "nobody-of-this-name"], 0, 1, "there is no account nobody-of-this-name on this machine: create it"),
    (["--user", "root"], 1000, 2, "--user is for root"), (["--user", "root", *SIGN_ON], 0, 2, "and --provider for all"),
])
def test_an_account_that_is_none_changes_nothing(machine, capsys, words, user, status, why):
    machine.bundle(caller="bob", certificate=CERTIFICATE)
    before = machine.listed()
    assert status == machine.type(*words, user=user) and before == machine.listed()
    assert why in capsys.readouterr().err


@pytest.fixture
def trusting(machine):
    """A machine on which root has ssh trust the hosts, and nobody log in."""
    machine.bundle(caller="root", certificate=CERTIFICATE)
    machine.monkeypatch.setenv("HOME", str(machine.room / "root"))
    (machine.room / "root").mkdir()
    assert 0 == machine.type("--hosts", "*.example.org")
    machine.monkeypatch.setenv("HOME", str(machine.home))
    machine.bundle()
    return machine


def test_a_user_logs_in(trusting):
    (trusting.home / ".ssh").mkdir(mode=0o700)
    config = trusting.home / ".ssh/config"
    config.write_text("Host a.example.org\n  User ben")
    config.chmod(0o640)
    assert 0 == trusting.type(*SIGN_ON, "--client-id", "cli", "--department", "operators", "--registrar",
                              "https://sign.example.org", user=1000)
    assert {"office": OFFICE, "provider": PROVIDER, "client_id": "cli", "department": "operators",
            "registrar": "https://sign.example.org", "cacert": str(trusting.home / ".config/vethlumi/ca.crt")} \
        == trusting.settings()
    assert "Include vethlumi.conf\nHost a.example.org\n  User ben" == config.read_text()
    assert (0o640, BLOCK) == (stat.S_IMODE(config.stat().st_mode), (trusting.home / ".ssh/vethlumi.conf").read_text())
    assert BLOCK not in trusting.ssh_config.read_text() and not (trusting.etc / "client.toml").exists()
    before = trusting.listed()
    assert 0 == trusting.type(*SIGN_ON, "--client-id", "cli", "--department", "operators", "--registrar",
                              "https://sign.example.org", user=1000)
    assert before == trusting.listed()


def test_a_user_for_whom_root_has_done_it(machine):
    """ssh would otherwise ask twice."""
    assert (0, 0) == (machine.type(*SIGN_ON), machine.type(*SIGN_ON, user=1000))
    assert not (machine.home / ".ssh").exists() and PROVIDER == machine.settings()["provider"]


def test_a_user_s_own_settings_stay(trusting):
    (trusting.home / ".config").mkdir()
    (trusting.home / ".config/vethlumi.toml").write_text('policy = "/home/ana/departments"\noffice = "https://old"')
    assert 0 == trusting.type(*SIGN_ON, user=1000)
    found = trusting.settings()
    assert ("/home/ana/departments", OFFICE, PROVIDER) == tuple(found[it] for it in ("policy", "office", "provider"))


def test_a_configuration_that_is_a_link_stays_one(trusting):
    (trusting.home / ".ssh").mkdir()
    (trusting.home / "dotfiles").write_text("Host a\n")
    (trusting.home / ".ssh/config").symlink_to(trusting.home / "dotfiles")
    assert 0 == trusting.type(*SIGN_ON, user=1000)
    assert (trusting.home / ".ssh/config").is_symlink()
    assert "Include vethlumi.conf\nHost a\n" == (trusting.home / "dotfiles").read_text()


def test_a_user_needs_root_to_trust_the_hosts(machine, capsys):
    assert 1 == machine.type(*SIGN_ON, user=1000)
    assert "first let root run this with --hosts '*.example.org'" in capsys.readouterr().err
    assert {} == machine.listed()


def test_a_bundle_does_not_say_who_the_provider_is(machine, capsys):
    text = f"{machine.ca}\n[office]\n{OFFICE}\n[authority]\na\n[provider]\nhttps://evil.example\n"
    (machine.room / "bundle").write_text(text)
    assert 1 == machine.type(*SIGN_ON)
    assert "it has a part [provider]" in capsys.readouterr().err and {} == machine.listed()


@pytest.mark.parametrize("words, why", [
    (["--provider", PROVIDER], "--provider needs --hosts"),
    (["--hosts", "*", "--provider", "http://login.example.org"], "--provider: no URL of a provider"),
    (["--hosts", "*", "--provider", 'https://a"\ncaller = "root'], "--provider: no URL of a provider"),
    (["--hosts", '*"', "--provider", PROVIDER], "--hosts: no pattern of hosts"),
    (["--hosts", "a exec true", "--provider", PROVIDER], "--hosts: no pattern of hosts"),
    ([*SIGN_ON, "--client-id", "a b"], "--client-id: no client ID"),
    ([*SIGN_ON, "--registrar", "office.example.org"], "--registrar: no URL of a registrar"),
    ([*SIGN_ON, "--department", "people/ana"], "--department: no name of a department")], ids=str)
def test_words_for_sign_on(machine, capsys, words, why):
    assert 2 == machine.type(*words)
    assert why in capsys.readouterr().err and {} == machine.listed()


def test_without_sign_on_a_bundle_needs_a_certificate(machine, capsys):
    assert 1 == machine.type("--hosts", "*.example.org")
    assert "the bundle has no part [caller]" in capsys.readouterr().err and {} == machine.listed()
    machine.bundle(caller="ana")
    assert 1 == machine.type(*SIGN_ON)
    assert "has no part [certificate]" in capsys.readouterr().err and {} == machine.listed()


# What stands before the lines of the set-up in a configuration, and what ssh has to say of hosts.
HOSTS = {"a.example.org": True, "example.org": False, "a.example.com": False}


@pytest.mark.parametrize("who", ["root", "user"])
def test_ssh_logs_in_for_these_hosts_alone(trusting, who):
    """What stands behind the block counts for all hosts, whether the login goes well or not."""
    (trusting.home / ".ssh").mkdir()
    config = trusting.home / ".ssh/config"
    config.write_text("Host *\n  Port 2222\n")
    assert 0 == trusting.type(*SIGN_ON, user=0 if who == "root" else 1000)
    (trusting.room / "vethlumi").write_text(f'#!/bin/sh\necho "$@" >>{trusting.room}/typed\nexit $STATUS\n')
    (trusting.room / "vethlumi").chmod(0o755)
    # A relative path of an Include is below ~/.ssh, which ssh finds by the system's users.
    text = config.read_text().replace("Include vethlumi.conf", f"Include {trusting.home}/.ssh/vethlumi.conf")
    (trusting.room / "config").write_text((f"Include {trusting.ssh_config}\n" if who == "root" else "") + text)
    for status in "01":
        for host, is_asked in HOSTS.items():
            (trusting.room / "typed").write_text("")
            done = run(["ssh", "-G", "-F", trusting.room / "config", host], check=True, env=os.environ | {
                "PATH": f"{trusting.room}:{os.environ['PATH']}", "STATUS": status})
            assert "login --if-needed\n" * is_asked == (trusting.room / "typed").read_text(), host
            assert b"\nport 2222\n" in done.stdout
