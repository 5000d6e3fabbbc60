"""What comes and goes from day to day, by one command each, with the built programs: an office behind nginx, a station
with its guard, and `vethlumi-install`, whose machines are folders of this one. And a restore without the messages."""
import argparse
import os
import pathlib
import pwd
import re
import shutil
import socket
import socketserver
import threading
import types

import pytest

from asking import department, issue, lasting, revoke_keyid, revoke_serial
from recording import whole_request
from running import PROGRAMS, is_revoked, loaded, new_key, run, write_secret
from stations import Guard, Lists, Station
from test_departments import opened

PEOPLE = department("people", principals="alice", admins="admin", extensions="permit-pty")
# Departments for everybody, as vethlumi-station-setup makes them.
ALL = department("people", principals="{name}@people", admins="admin,{name}", extensions="permit-pty")
HOSTS = department("hosts", kind="host", admins="host-{name}", principals="{name}.example.org")


class Door(socketserver.ThreadingUnixStreamServer):
    """The office's door: a socket, and behind it the port of an office that serves."""
    daemon_threads = True

    def __init__(self, path, port):
        self.port = port
        super().__init__(str(path), None)
        threading.Thread(target=self.serve_forever, daemon=True).start()

    def finish_request(self, peer, address):
        with socket.create_connection(("127.0.0.1", self.port)) as office:
            office.sendall(whole_request(peer))
            while piece := office.recv(65536):
                peer.sendall(piece)


class Machines:
    """The machines of `vethlumi-install`: commands are run here, in folders of the room."""

    def __init__(self, room, front, monkeypatch):
        self.room, self.front, self.patch, self.bundles, self.words = room, front, monkeypatch, {}, []
        self.places = {"/etc/vethlumi/station": room / "station", "/var/lib/vethlumi-authority": front.authority}
        monkeypatch.setenv("PATH", f"{PROGRAMS}/front:{room}/bin:{os.environ['PATH']}")
        self.install = it = loaded(PROGRAMS / "setup/vethlumi-install")
        machine = it.Machine
        monkeypatch.setattr(machine, "show", lambda machine, *words, given="": self.show(words, given))
        monkeypatch.setattr(machine, "run", lambda machine, *words, **how: self.run(words))
        monkeypatch.setattr(machine, "packages", lambda machine: (
            "amd64", {"vethlumi-common": "1.0.0", "vethlumi-client": "1.0.0"}, True))

    def __call__(self, *words):
        parser = argparse.ArgumentParser()
        words = [*words, "--office", "office.example.org", "--station", "station.example.org"]
        with self.patch.context() as it:
            it.setattr(self.install.sys, "argv", ["vethlumi-install", *words])
            self.install.options(parser)
        given, given.further = parser.parse_known_args(words)
        given.yes = True
        self.install.do(given, self.install.setting_up.Steps(given, "vethlumi-install"))

    def here(self, path):
        for place, folder in self.places.items():
            path = path.replace(place, str(folder))
        return path

    def run(self, words):
        if words[0] == "cat":
            return pathlib.Path(self.here(words[1])).read_text()
        if "test -e" in words[-1]:
            return "yes\n" if pathlib.Path(self.here(words[-1].split()[2])).exists() else ""
        if words[-1] == self.install.POLICIES:
            return (self.room / "station/first.policy").read_text()
        assert words[-1] == self.install.TRUSTED, words
        return ""

    def show(self, words, given):
        name, *words = words
        if name in ("vethlumi-server-setup", "vethlumi-client-setup"):
            whose = re.search(r"\[host\]\n(.*)\n", given) or re.search(r"\[caller\]\n(.*)\n", given)
            self.bundles[whose[1]], self.words = given, words
        elif name != "sh":
            script = loaded(PROGRAMS / "setup" / name)
            parser = argparse.ArgumentParser()
            script.options(parser)
            said = parser.parse_args([it for it in words if it != "--yes"])
            said.yes = True
            if hasattr(said, "authority"):
                said.authority = str(self.front.authority)
            with self.patch.context() as it:
                self.move(it, script)
                script.do(said, script.setting_up.Steps(said, name))

    def move(self, patch, script):
        """Has a set-up command find its files here."""
        patch.setattr(os, "getuid", lambda: 1000)
        for name, value in (("STATION", self.room / "station"), ("ENABLED", self.room / "enabled"),
                            ("USER", pwd.getpwuid(self.room.stat().st_uid).pw_name)):
            if hasattr(script, name):
                patch.setattr(script, name, value)
        if hasattr(script, "door"):
            patch.setattr(script.door, "DOOR", str(self.room / "door"))
        if hasattr(script, "front_steps"):
            patch.setattr(script, "front_steps", self.front_steps)
        patch.setattr(script.setting_up, "as_user", lambda user, *words: script.setting_up.run(words))

    def front_steps(self, given, steps, folder):
        """The front gets the list of revoked certificates, and reads it."""
        if steps.changed:
            steps.add("copy crl.pem", lambda: (shutil.copy(folder / "crl.pem", self.front.conf), self.front.reload()))
        return self.front.port


class Site:
    """An office behind a front, a station, and the machines."""

    def __init__(self, room, front, sshstation, monkeypatch, *departments):
        (room / "bin").mkdir()
        (room / "bin/sshstation").symlink_to(sshstation)
        for it in ("station", "enabled"):
            (room / it).mkdir()
        self.room, self.front, self.count = room, front, 0
        policy = "".join(departments)
        guard = Guard(sshstation, "first.db", front.office.ca, policy)
        guard.policy = room / "station/first.policy"
        write_secret(guard.policy, policy)
        ca = front.office.ca.read_text()
        for name, text in (("first.pub", ca), ("cas.pub", ca), ("first.office", f"[ca]\n{ca}[policy]\n{policy}")):
            (room / "station" / name).write_text(text)
        self.station = Station(guard, front.url, ["--key", front.office.ca_key],
                               certificate=front.certificate("station"), trusted=front.authority / "ca.crt")
        for number, it in enumerate(departments):
            front.served.post("root", f"department-{number}", it)
        self.machines = Machines(room, front, monkeypatch)
        self.machines.show(["vethlumi-front-setup", "localhost", "127.0.0.1", "--yes"], "")

    def asks(self, name, message):
        """What the front answers to a message of a caller, who has the certificate of their bundle."""
        text = self.machines.bundles.get(name) or (self.front.authority / f"{name}.bundle").read_text()
        write_secret(f"{name}.pem", text.partition("[certificate]\n")[2])
        with self.front.session() as session:
            session.cert = f"{name}.pem"
            self.count += 1
            answer = session.post(f"{self.front.url}/v1/requests/k-{self.count}", message)
        return answer.status_code, answer.text

    def gets(self, name, key_id, principals, **more):
        """Asks for a certificate, has it signed, and returns its serial, or why there is none."""
        key = new_key(f"key-{self.count}")
        status, told = self.asks(name, issue(key_id, key=key, principals=principals, **lasting(3600), **more))
        if status != 200:
            return told.strip()
        serial = int(told.split()[1])
        assert [serial] == self.station.sign()
        (self.room / f"{serial}.pub").write_bytes(self.front.served.get(f"/v1/certs/{serial}").body)
        return serial

    def departments(self):
        """What both sides have."""
        return self.front.served.get("/v1/departments").body, (self.room / "station/first.policy").read_text()

    def is_revoked(self, serial):
        (self.room / "now.krl").write_bytes(self.front.served.get("/v1/krl").body)
        return is_revoked("now.krl", f"{serial}.pub")


@pytest.fixture
def site(room, front, sshstation, monkeypatch):
    with opened(Door(room / "door", front.served.port)):
        yield Site(room, front, sshstation, monkeypatch, PEOPLE)


@pytest.fixture
def everybody(room, front, sshstation, monkeypatch):
    """A site with departments for everybody."""
    with opened(Door(room / "door", front.served.port)):
        yield Site(room, front, sshstation, monkeypatch, ALL, HOSTS)


pytestmark = [pytest.mark.slow]


def test_a_second_user_by_one_command(site):
    assert "refused 14 NotPermitted" == site.gets("admin", "people/bob", "bob")
    site.machines("add-user", "bob")
    first = site.gets("admin", "people/bob", "bob")
    assert isinstance(first, int), first
    told = run(["ssh-keygen", "-L", "-f", f"{first}.pub"], check=True).stdout.decode()
    assert "Principals: \n                bob\n" in told
    # Typed again, nothing is sent.
    before = site.departments()
    site.machines("add-user", "bob")
    assert before == site.departments()


def test_ten_servers_by_one_command_each(site):
    """Each gets a certificate for its own name, and for no other server's."""
    hosts = [f"s{it}.example.org" for it in range(10)]
    for it in hosts:
        site.machines("add-server", it)
    for host in (hosts[0], hosts[1], hosts[9]):
        name = host.replace(".", "-")
        assert isinstance(site.gets(host, f"{name}/{host}", host), int)
        other = hosts[5].replace(".", "-")
        assert "refused 14 NotPermitted" == site.gets(host, f"{name}/{host}", hosts[5])
        assert "refused 10 NotAllowed" == site.gets(host, f"{other}/{hosts[5]}", hosts[5])
    assert 11 == site.front.served.get("/v1/departments").body.count(b"department ")


def test_a_third_person_has_a_bundle_and_leaves(site):
    """Once gone, the front refuses carol's certificate, the office her name, and servers what names her."""
    site.machines("add-caller", "carol")
    site.machines("add-user", "carol")
    hers = site.gets("carol", "people/carol", "carol")
    others = site.gets("carol", "people/alice", "alice")
    assert {int} == {type(hers), type(others)}
    shutil.copy(site.front.authority / "carol.bundle", "kept")
    site.machines("leave", "carol")
    assert (True, False) == (site.is_revoked(hers), site.is_revoked(others))
    assert not [*site.front.authority.glob("carol.*")]
    site.machines.bundles["carol"] = pathlib.Path("kept").read_text()
    status, told = site.asks("carol", revoke_serial(others))
    assert (403, True) == (status, "was revoked" in told), told
    assert "refused 14 NotPermitted" == site.gets("admin", "people/carol-2", "carol")
    assert b"carol" not in site.front.served.get("/v1/departments").body
    # Whoever is there stays.
    assert isinstance(site.gets("admin", "people/alice-2", "alice"), int)


# ---- departments for everybody

def test_a_new_server_changes_no_department_for_everybody(everybody):
    """Each gets a certificate for its own name, and for no other server's. One of another domain has its own."""
    hosts, before = [f"s{it}.example.org" for it in range(3)], everybody.departments()
    for it in hosts:
        everybody.machines("add-server", it)
        assert ["--people", "people", "--yes"] == everybody.machines.words[:3]
    for host, other in zip(hosts, hosts[1:] + hosts[:1]):
        name, others = host.partition(".")[0], other.partition(".")[0]
        assert isinstance(everybody.gets(host, f"hosts/{name}", host), int)
        assert "refused 14 NotPermitted" == everybody.gets(host, f"hosts/{name}", other)
        assert "refused 10 NotAllowed" == everybody.gets(host, f"hosts/{others}", other)
        assert "refused 10 NotAllowed" == everybody.gets(host, f"people/{name}", f"{name}@people")
    assert before == everybody.departments()
    everybody.machines("add-server", "s1.example.net")
    assert department("s1-example-net", kind="host", admins="host-s1-example-net", principals="s1.example.net",
                      maxlife=2592000) in everybody.departments()[1]
    assert isinstance(everybody.gets("s1.example.net", "s1-example-net/s1.example.net", "s1.example.net"), int)
    assert "refused 10 NotAllowed" == everybody.gets("s1.example.net", "hosts/s1", hosts[1])


def test_a_server_that_goes_leaves_others_of_its_department(everybody):
    for it in ("db", "web"):
        everybody.machines("add-server", f"{it}.example.org")
    mine, others = (everybody.gets(f"{it}.example.org", f"hosts/{it}", f"{it}.example.org") for it in ("db", "web"))
    before = everybody.departments()
    everybody.machines("remove-server", "db.example.org")
    assert (True, False) == (everybody.is_revoked(mine), everybody.is_revoked(others))
    status, told = everybody.asks("db.example.org", issue("hosts/db", principals="db.example.org"))
    assert (403, True) == (status, "was revoked" in told), told
    assert isinstance(everybody.gets("web.example.org", "hosts/web", "web.example.org"), int)
    # It comes back, by another key and the same name.
    everybody.machines("add-server", "db.example.org")
    assert isinstance(everybody.gets("db.example.org", "hosts/db", "db.example.org"), int)
    assert before == everybody.departments()


def test_a_user_asks_for_themselves_and_goes(everybody):
    """By a bundle of their own. Nothing is left that could ask again."""
    before = everybody.departments()
    everybody.machines("add-user", "bob", "--client", "laptop.example.org")
    mine = everybody.gets("bob", "people/bob/laptop", "bob@people")
    by_admin = everybody.gets("admin", "people/bob", "bob@people")
    others = everybody.gets("admin", "people/alice", "alice@people")
    assert {int} == {type(mine), type(by_admin), type(others)}
    assert "refused 10 NotAllowed" == everybody.gets("bob", "people/alice", "alice@people")
    assert "refused 14 NotPermitted" == everybody.gets("bob", "people/bob", "alice@people")
    assert "refused 10 NotAllowed" == everybody.gets("bob", "hosts/bob", "bob.example.org")
    everybody.machines("remove-user", "bob")
    assert [True, True, False] == [everybody.is_revoked(it) for it in (mine, by_admin, others)]
    status, told = everybody.asks("bob", issue("people/bob", principals="bob@people"))
    assert (403, True) == (status, "was revoked" in told), told
    assert before == everybody.departments() and isinstance(everybody.gets("admin", "people/al", "al@people"), int)


# ---- a restore

def test_a_restored_office_goes_on_without_the_messages(room, make_office, sshstation, monkeypatch, capsys):
    """By what the guard says that it has approved, and the KRL that the guard of lists approved last. That guard takes
    the next one, and the station signs what comes after it."""
    office = make_office()
    guard, lists = Guard(sshstation, "guard.db", office.ca, PEOPLE), Lists(sshstation, "lists.db", office.ca)
    script = loaded(PROGRAMS / "setup/vethlumi-office-root")
    monkeypatch.setattr(script.recovering, "is_front", lambda state: False)
    monkeypatch.setattr(script.door, "DOOR", str(room / "door"))

    def signed(served, key_id):
        told = served.post("admin", key_id.replace("/", "-"), issue(key_id, key=new_key(key_id.replace("/", "-")),
                                                                     principals="alice", **lasting(3600))).text
        station = Station(guard, served.url, ["--key", office.ca_key])
        return int(told.split()[1]), station.sign()
    with office.serving() as served:
        served.post("root", "people", PEOPLE)
        assert (1, [1]) == signed(served, "people/a")
        (room / "krl").write_bytes(served.get("/v1/krl").body)
        assert lists.state("krl", "--begin").startswith("list ")
    for it in room.glob("office.db*"):
        shutil.copy(it, f"copy-{it.name}")
    with office.serving() as served:
        for number in range(2, 6):
            assert (number, [number]) == signed(served, f"people/b{number}")
        served.post("admin", "r1", revoke_serial(3))
        served.post("admin", "r2", revoke_keyid("people/a"))
        (room / "krl").write_bytes(served.get("/v1/krl").body)
        assert lists.state("krl").startswith("list ")
    known = f"[guard {run(['ssh-keygen', '-l', '-f', office.ca], check=True).stdout.decode().split()[1]}]\n"
    known += guard.must("bodies", "--db", guard.db).decode() + "[list]\n"
    known += run(["ssh-keygen", "-Q", "-l", "-f", "krl"], check=True).stdout.decode()
    (room / "known").write_text(known)
    for it in room.glob("office.db*"):
        it.unlink()
    for it in room.glob("copy-office.db*"):
        it.rename(it.name.removeprefix("copy-"))
    with office.serving() as served, opened(Door(room / "door", served.port)):
        given = types.SimpleNamespace(job="recover", name=str(room / "known"), root="root", to=None, most=100, yes=True)
        script.do(given, script.setting_up.Steps(given, "vethlumi-office-root"))
        assert "".join(f"needs a new one: serial {it}, people/b{it}\n" for it in range(2, 6)) == capsys.readouterr().out
        (room / "new").write_bytes(served.get("/v1/krl").body)
        assert lists.state("new").startswith("list "), "servers get it"
        serial, signatures = signed(served, "people/c")
        assert [serial] == signatures and 6 <= serial
        told = run(["ssh-keygen", "-Q", "-l", "-f", "new"], check=True).stdout.decode()
        assert "serial: 2-" in told and "id: people/a\n" in told
