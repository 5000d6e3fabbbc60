"""What is taken back is taken back: a CA that isn't named any more opens no server, and no client believes its hosts.

The steps of set-up commands run in a room of their own, with stand-ins for systemd, beside sshds of this machine.
test_packages.py has the same in machines that are booted."""
import argparse
import getpass
import os
import pathlib
import re
import shutil

import pytest

from fetching import Web, response, script
from running import TOP, fingerprint, free_port, is_listening, loaded, run, until

pytestmark = [pytest.mark.root, pytest.mark.early]
USER = getpass.getuser()


def make_key(name):
    run(["ssh-keygen", "-q", "-t", "ed25519", "-N", "", "-C", name, "-f", name], check=True)
    return pathlib.Path(f"{name}.pub").read_text().rsplit(" ", 1)[0]


def certify(ca, key, *words):
    """Has a CA certify a key, in a copy of it, and returns the name of the copy."""
    name = f"{key}-{ca}"
    shutil.copy(key, name)
    shutil.copy(f"{key}.pub", f"{name}.pub")
    run(["ssh-keygen", "-q", "-s", ca, "-I", name, "-n", f"127.0.0.1,{USER}", *words, f"{name}.pub"], check=True)
    return name


class Machine:
    """A machine that is set up: its settings, what its front offers, and sshds that read them."""

    def __init__(self, room, programs, monkeypatch, web):
        self.room, self.etc, self.state, self.programs, self.web = room, room / "etc", room / "state", programs, web
        for it in (self.etc, self.state, room / ".ssh"):
            it.mkdir()
        self.keys = {it: make_key(it) for it in ("old", "new")}
        self.names = {it: fingerprint(f"{it}.pub") for it in self.keys}
        for it in ("user", "host"):
            make_key(it)
        self.users = {it: certify(it, "user") for it in self.keys}
        self.server, self.client = (loaded(TOP / f"programs/setup/vethlumi-{it}-setup") for it in ("server", "client"))
        self.common = self.server.setting_up
        for module in (self.common, self.server, self.client):
            monkeypatch.setattr(module, "ETC", self.etc)
            monkeypatch.setattr(module, "LIST", self.state)
        for name, it in (("start", self.start), ("fetch_list", (self.state / "revoked.krl").touch)):
            monkeypatch.setattr(self.common, name, it)
        monkeypatch.setattr(self.common.Steps, "units", lambda *_: None)
        monkeypatch.setattr(self.client, "SETTINGS", room / "ssh_config")
        monkeypatch.setattr(self.client, "KNOWN_HOSTS", self.etc / "known_hosts")
        monkeypatch.setattr(self.client, "is_settled", lambda: True)
        monkeypatch.setenv("HOME", str(room))
        pathlib.Path("/run/sshd").mkdir(exist_ok=True)

    def start(self, unit):
        """Does what the unit of CAs' keys does."""
        fetched, named = self.state / "cas.pub", self.etc / "ca-fingerprints"
        done = [script("fetch-ca-keys", "--named", named, self.web.url, fetched),
                script("trust-cas", "--named", named, fetched, self.etc / "trusted-cas")]
        if any(status for status, _, _ in done):
            raise self.common.Fault(f"{unit} failed: {[line for it in done for line in it[2]][-1]}")

    def offers(self, *cas):
        self.web.answer = response("".join(f"{self.keys[it]}\n" for it in cas).encode())

    def given(self, named, **more):
        return argparse.Namespace(yes=True, ca=[self.names[it] for it in named], unsigned=False, provider=None, **more)

    def parts(self, before):
        return {"ca": "".join(f"{self.keys[it]} {it}\n" for it in before), "authority": "the authority\n"}

    def set_up_server(self, *named, before=()):
        """Types vethlumi-server-setup with `--ca` for these CAs, and with keys before the bundle. Returns its plan."""
        given = self.given(named)
        steps = self.common.Steps(given, "vethlumi-server-setup")
        self.server.trust_steps(steps, self.server.trust_of(given, self.parts(before)), lambda: None)
        steps.carry_out()
        return [it for it, _ in steps.steps]

    def set_up_client(self, *named, before=()):
        given = self.given(named, hosts="[127.0.0.1]:*")
        steps = self.common.Steps(given, "vethlumi-client-setup")
        self.client.host_steps(given, steps, self.parts(before), "https://a:8443")
        steps.carry_out()
        return [it for it, _ in steps.steps]

    def sshd(self, *lines):
        """Begins an sshd, and returns its port."""
        port = free_port()
        config = self.room / f"sshd-{port}"
        config.write_text(f"ListenAddress 127.0.0.1\nPort {port}\nHostKey {self.room}/host\nAuthorizedKeysFile none\n"
                          "PasswordAuthentication no\nKbdInteractiveAuthentication no\nPidFile none\nStrictModes no\n"
                          "UsePAM no\n" + "".join(f"{it}\n" for it in lines))
        self.programs.begin(["/usr/sbin/sshd", "-D", "-f", config])
        until(lambda: is_listening(port))
        return port

    def login(self, port, *words):
        ssh = ["ssh", "-F", "none", "-o", "BatchMode=yes", "-o", "IdentitiesOnly=yes", *words, "-p", port,
               f"{USER}@127.0.0.1", "echo granted"]
        done = run(ssh, env=os.environ | {"SSH_AUTH_SOCK": ""})
        return done.stdout.decode() + done.stderr.decode()


@pytest.fixture
def machine(room, programs, monkeypatch):
    with Web() as web:
        yield Machine(room, programs, monkeypatch, web)


# ---- a server

@pytest.fixture
def server(machine):
    """A server that trusts the old CA, and who gets in by a certificate of each."""
    machine.offers("old")
    machine.set_up_server(before=["old"])
    port = machine.sshd(f"TrustedUserCAKeys {machine.etc}/trusted-cas")
    words = ["-o", "StrictHostKeyChecking=no", "-o", "UserKnownHostsFile=/dev/null"]

    def who():
        return [it for it, name in machine.users.items() if "granted" in machine.login(
            port, *words, "-i", name, "-o", f"CertificateFile={name}-cert.pub")]
    machine.who = who
    return machine


def texts(machine, *names):
    return [(machine.etc / it).read_text() for it in names]


def trusts(machine, *cas):
    """Whether each file that says which CAs count names exactly these."""
    keys = [machine.keys[it] for it in cas]
    due = ["".join(f"{machine.names[it]}\n" for it in cas), "".join(f"{it}\n" for it in keys),
           "".join(f'krl namespaces="krl@vethlumi" {it}\n' for it in keys)]
    return due == texts(machine, "ca-fingerprints", "trusted-cas", "list-signers")


@pytest.mark.parametrize("offered", [["old"], ["old", "new"], ["new"], None], ids=str)
def test_a_ca_that_is_not_named_any_more_opens_nothing(server, offered):
    """Whatever the front offers, also if it is away: the key of the new CA stands before the bundle."""
    assert ["old"] == server.who() and trusts(server, "old")
    if offered:
        server.offers(*offered)
    else:
        server.web.answer = b""
    plan = server.set_up_server("new", before=["new"])
    assert [f"no longer believe the CA {server.names['old']}", f"believe the CA {server.names['new']}"] == plan[:2]
    assert ["new"] == server.who() and trusts(server, "new")
    # A list goes on naming the certificates of the old one.
    assert [f"{server.keys['old']}\n{server.keys['new']}\n"] == texts(server, "list-cas")
    # It stays so, whoever types it again, and whatever comes.
    plan = server.set_up_server()
    assert [f"believe the CA {server.names['new']}", "fetch the CAs' public keys"] == plan[:2]
    with pytest.raises(server.common.Fault, match="a CA that isn't known"):
        server.set_up_server(before=["old"])
    assert ["new"] == server.who() and trusts(server, "new")


def test_of_two_cas_both_open_a_server_until_one_is_not_named(server):
    server.offers("old", "new")
    server.set_up_server("old", "new", before=["old", "new"])
    assert ["old", "new"] == server.who() and trusts(server, "old", "new")
    server.set_up_server()
    assert trusts(server, "old", "new")
    # The order in which they are named is that of the files.
    server.set_up_server("new", "old")
    assert trusts(server, "new", "old")
    server.set_up_server("new")
    assert ["new"] == server.who() and trusts(server, "new")


def test_a_key_that_has_not_come_is_fetched_or_the_old_one_stays_and_it_is_said(server):
    server.offers("old")
    with pytest.raises(server.common.Fault, match="no key that is named is there, so .*/trusted-cas stays as it is"):
        server.set_up_server("new")
    assert ["old"] == server.who()
    server.offers("old", "new")
    server.set_up_server("new")
    assert ["new"] == server.who() and trusts(server, "new")


def test_a_server_that_was_set_up_before_there_was_one_file(server):
    """It has what it trusts in the folder of the user who fetches it, and as fingerprints."""
    (server.etc / "trusted-cas").unlink()
    (server.etc / "list-cas").unlink()
    server.offers("old", "new")
    server.set_up_server()
    assert ["old"] == server.who() and trusts(server, "old")
    (server.etc / "trusted-cas").unlink()
    server.set_up_server("new", before=["new"])
    assert ["new"] == server.who() and trusts(server, "new")


def test_signers_of_lists_who_are_no_trusted_cas_are_named_first(server):
    """By hand somebody may have let another CA state lists. Nothing of that changes without a word."""
    with open(server.etc / "list-signers", "a") as it:
        it.write(f'krl namespaces="krl@vethlumi" {server.keys["new"]}\n')
    before = texts(server, "list-signers")
    with pytest.raises(server.common.Fault, match="list-signers names a CA that .*/ca-fingerprints doesn't: "):
        server.set_up_server()
    assert before == texts(server, "list-signers")
    server.set_up_server("old")
    assert trusts(server, "old")


@pytest.mark.parametrize("named", ["SHA256:short", "", f"SHA256:{43 * 'A'} ", f"MD5:{43 * 'A'}"])
def test_what_is_no_fingerprint_changes_nothing(server, named):
    with pytest.raises(server.common.BadWords, match="no fingerprint: "):
        server.common.Trust({}, [named])


def test_the_user_who_fetches_becomes_no_ca(server):
    """Whoever takes that user over can write what it has fetched."""
    server.start("office-ca-keys")
    (server.state / "cas.pub").write_text(f"{server.keys['new']}\n{server.keys['old']}\n")
    named = server.etc / "ca-fingerprints"
    status, _, told = script("trust-cas", "--named", named, server.state / "cas.pub", server.etc / "trusted-cas")
    assert (1, True) == (status, f"{server.names['new']} is in " in told[0]), told
    assert ["old"] == server.who() and trusts(server, "old")


# ---- a client

@pytest.fixture
def client(machine):
    """A laptop that was set up before there was one file, with a line in the user's own known hosts; and which hosts it
    believes, of those that show a certificate of each CA."""
    (machine.etc / "list-signers").write_text(f'krl namespaces="krl@vethlumi" {machine.keys["old"]}\n')
    (machine.etc / "list-cas").write_text(f"{machine.keys['old']}\n")
    own = machine.room / ".ssh/known_hosts"
    own.write_text(f"one ssh-ed25519 AAAA\n@cert-authority [127.0.0.1]:* {machine.keys['old']} old\n")
    (machine.room / "other").write_text(own.read_text())
    ports = {it: machine.sshd(f"HostCertificate {machine.room}/{certify(it, 'host', '-h')}-cert.pub")
             for it in machine.keys}

    def believes(file=own):
        words = ["-o", "StrictHostKeyChecking=yes", "-o", f"UserKnownHostsFile={file}",
                 "-o", f"GlobalKnownHostsFile={machine.etc}/known_hosts"]
        return [it for it, port in ports.items() if "Permission denied" in machine.login(port, *words)]
    machine.believes, machine.own = believes, own
    return machine


def test_a_renewed_host_is_believed_after_the_rollover_and_one_of_the_old_ca_no_more_at_its_end(client):
    assert ["old"] == client.believes()
    # The rollover: root types one command, and it counts for all users.
    plan = client.set_up_client("old", "new", before=["old", "new"])
    assert [f"believe the CA {client.names['new']}"] == [it for it in plan if "the CA SHA256:" in it]
    assert ["old", "new"] == client.believes() == client.believes(client.room / "other")
    assert "old" in client.own.read_text()
    assert [] == client.set_up_client(), "nothing more has to be done"
    # The end of the old CA, which another user's known hosts still name.
    plan = client.set_up_client("new")
    assert [f"no longer believe the CA {client.names['old']}"] == [it for it in plan if "the CA SHA256:" in it]
    assert ["new"] == client.believes() == client.believes(client.room / "other")
    assert "one ssh-ed25519 AAAA\n" == client.own.read_text()
    assert [] == client.set_up_client()
    with pytest.raises(client.common.Fault, match="a CA that isn't known"):
        client.set_up_client(before=["old"])
    assert [f'krl namespaces="krl@vethlumi" {client.keys["new"]}\n'] == texts(client, "list-signers")


def test_known_hosts_may_be_a_link_but_no_other_user_s(client):
    """Nobody leads root elsewhere."""
    (client.room / "kept").mkdir()
    client.own.rename(client.room / "kept/hosts")
    client.own.symlink_to(client.room / "kept/hosts")
    os.chown(client.own, 65534, 65534, follow_symlinks=False)
    with pytest.raises(client.common.Fault, match="is a link that belongs to another user"):
        client.set_up_client("new", before=["new"])
    os.chown(client.own, 0, 0, follow_symlinks=False)
    client.set_up_client("new", before=["new"])
    assert client.own.is_symlink()
    assert "one ssh-ed25519 AAAA\n" == (client.room / "kept/hosts").read_text()


def test_an_old_ca_may_be_trusted_again(client):
    client.set_up_client("new", before=["new"])
    assert ["new"] == client.believes()
    client.set_up_client("old")
    assert ["old"] == client.believes()


def test_a_client_s_ca_needs_its_key(client):
    with pytest.raises(client.common.Fault, match=re.escape(f"the key of the CA {client.names['new']} isn't")):
        client.set_up_client("new")
    assert ["old"] == client.believes() and not (client.etc / "trusted-cas").exists()


def test_another_user_asks_root(client, monkeypatch):
    """One user can't have ssh trust a CA: nobody would fetch its list."""
    def by_bob(*named, before=()):
        with monkeypatch.context() as it:
            it.setattr(os, "getuid", lambda: 1000)
            return client.set_up_client(*named, before=before)
    for named, before in (([], ["old"]), (["new"], ["new"])):
        with pytest.raises(client.common.Fault, match="first let root run this with --hosts '"):
            by_bob(*named, before=before)
    client.set_up_client()
    assert [] == by_bob() == by_bob("old", before=["old"])
    with pytest.raises(client.common.Fault, match=f"first let root .* --ca {re.escape(client.names['new'])}$"):
        by_bob("new", before=["new"])
    client.set_up_client("new", before=["new"])
    client.own.write_text((client.room / "other").read_text())
    assert [f"write {client.own} (without a CA of before)"] == by_bob()
    assert "one ssh-ed25519 AAAA\n" == client.own.read_text()


def test_a_server_that_is_a_client_too_trusts_the_same_cas(server):
    server.set_up_client(before=["old"])
    server.set_up_server("new", before=["new"])
    assert [f"@cert-authority [127.0.0.1]:* {server.keys['new']}\n@revoked * {server.keys['old']}\n"] == texts(
        server, "known_hosts")
    server.set_up_client("old")
    assert ["old"] == server.who() and trusts(server, "old")
