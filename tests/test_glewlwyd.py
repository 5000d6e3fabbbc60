"""A person types `ssh`, and logs in at a provider as Debian has it, with a password and a one-time code, in headless
Chromium: glewlwyd, the client, the registrar, a front, its office, a station with a witness, ssh-agent and sshd."""
import getpass
import os
import pathlib
import re
import threading
import time

import pytest

from asking import department
from glewlwyd import Browser, Glewlwyd, is_installed, log_in_at_the_pages
from providers import CORP, evidence_name, registrar_behind
from running import left_out, run
from signing_on import Person
from test_station import Sshd
from test_vethlumi import Client

pytestmark = [pytest.mark.slow, pytest.mark.alone]
POLICY = department("people", admins="registrar", principals="*@people,ops@group,dba@group",
                    extensions=("permit-pty",), maxlife=36060)
RULES = CORP + """\
keys = "{issuer}/jwks"

[department.people]
provider = "corp"
life = "10h"
principals = ["{{name}}@people"]
groups = {{ ops = "ops@group", dba = "dba@group" }}
extensions = ["permit-pty"]
"""


@pytest.fixture
def provider(programs, room):
    if not is_installed():
        left_out("glewlwyd isn't installed")
    return Glewlwyd(programs.begin, room / "glewlwyd")


@pytest.fixture
def stack(front, sshstation, provider, room, programs):
    """Everything but the person: the same settings serve the registrar and the witness."""
    made = registrar_behind(front, sshstation, room, provider.issuer, RULES, [POLICY], RULES)
    made.station = made.station.begin(programs)
    (room / "ca.pub").write_text(front.office.ca.read_text())
    made.folder = room
    yield made
    made.end()


class Someone(Person):
    """A person whose browser does what a function does with the address that it is opened with."""

    def __init__(self, folder, provider, registrar, open_page):
        super().__init__(folder, provider, registrar, cacert=registrar.trusted, ports="8400,8401,8402")
        self.browser.write_text(f'#!/bin/sh\necho "$1" >>{self.opened}\n')
        self.is_over, self.faults = threading.Event(), []
        self.thread = threading.Thread(target=self.watch, args=(open_page,), daemon=True)
        self.thread.start()
        shim = self.home / "bin"
        shim.mkdir()
        (shim / "vethlumi").write_text('#!/bin/sh\nexec /usr/bin/python3 -B -m vethlumi "$@"\n')
        (shim / "vethlumi").chmod(0o755)

    def watch(self, open_page):
        seen = 0
        while not self.is_over.wait(0.05):
            for url in self.windows()[seen:]:
                seen += 1
                try:
                    open_page(url)
                except Exception as fault:
                    self.faults.append(fault)

    def ssh(self, sshd):
        """What a person types, and how long it takes."""
        (self.home / "config").write_text(
            f'Match host 127.0.0.1 exec "vethlumi login --if-needed"\nHost 127.0.0.1\n  Port {sshd.port}\n'
            "  StrictHostKeyChecking no\n  UserKnownHostsFile /dev/null\n  BatchMode yes\n")
        begun = time.monotonic()
        done = run(["ssh", "-F", self.home / "config", f"{getpass.getuser()}@127.0.0.1", "echo", "granted"],
                   env=self.environment(PATH=f"{self.home}/bin:{os.environ['PATH']}"))
        return done.stdout.decode(), done.stderr.decode(), time.monotonic() - begun

    def end(self):
        self.is_over.set()
        self.thread.join(60)
        super().end()


@pytest.fixture
def someone(stack, provider, room):
    made = []

    def make(open_page):
        made.append(Someone(room / "home", provider, stack, open_page))
        return made[-1]

    yield make
    for it in made:
        it.end()


@pytest.fixture
def sshd(programs, room, stack):
    made = Sshd(programs, room, [stack.front.office.ca.read_text()])
    (room / "principals").write_text("ana@people\n")
    return made


def files_of(home):
    """The texts of all files of a person, but for those of a browser."""
    return {it: it.read_bytes() for it in pathlib.Path(home).rglob("*") if it.is_file()}


def test_ssh_opens_a_browser_and_is_granted_after_password_and_code(someone, provider, browser, sshd, stack):
    given = []
    person = someone(lambda url: given.extend(log_in_at_the_pages(browser, provider, "ana", url)))
    out, told, seconds = person.ssh(sshd)
    assert ("granted\n", [], 1) == (out, person.faults, len(person.windows())), told
    assert ["password", "code"] == given[:2]
    # The key and the certificate are in the agent alone, and the token is at the front alone.
    [line] = person.agent.keys()
    assert "-cert-v01@openssh.com " in line
    token, = [it.read_bytes() for it in (stack.front.state / "evidence").iterdir()]
    for text in files_of(person.home).values():
        assert b"PRIVATE KEY" not in text and line.split()[1].encode() not in text and token not in text
    assert b"signed 1\n" == stack.station.stdout.readline()
    # Another ssh opens nothing, and neither does the second login of the day ask for anything.
    again = person.ssh(sshd)
    assert ("granted\n", 1) == (again[0], len(person.windows()))
    assert 0 == person("logout")[0]
    second = person.ssh(sshd)
    assert ("granted\n", 2) == (second[0], len(person.windows())), second[1]
    print(f"ssh with password and code in Chromium {seconds:.1f} s, with a certificate {again[2]:.1f} s, second login "
          f"of the day {second[2]:.1f} s")


def test_the_key_is_rotated_and_somebody_leaves(someone, provider, sshd, stack, room):
    at = Browser(provider, "ana")
    assert [200, 200, 200] == at.log_in()
    person = someone(at.open)
    out, told, _ = person.ssh(sshd)
    assert ("granted\n", []) == (out, person.faults), told
    # Nothing is started again for a new key: the registrar and the witness look at the provider once more.
    provider.rotate()
    assert 0 == person("logout")[0]
    out, told, _ = person.ssh(sshd)
    assert "granted\n" == out, told
    header = [it.read_text().partition(".")[0] for it in (stack.front.state / "evidence").iterdir()]
    assert 2 == len({*header})
    root = Client(room / "root", stack.front.url, stack.front.certificate("root"), stack.trusted,
                  provider=provider.issuer)
    provider.disable("ana")
    assert 0 == root("leave", "ana", "--yes")[0]
    assert 0 == person("logout")[0]
    status, out, told = person("login")
    # A provider may go on to let in whoever has a session there. The office doesn't.
    assert 0 != status and [] == person.agent.keys()
    assert "KeyIdRevoked" in told or person.faults
    assert re.match(r"people/ana/[a-z2-7]{16}", root.json("certs")[0]["keyid"])


def test_a_stolen_registrar_is_nobody_at_this_provider(someone, provider, sshd, stack):
    """Also with a real token of somebody else's, which it has seen."""
    at = Browser(provider, "ana")
    at.log_in()
    person = someone(at.open)
    assert "granted\n" == person.ssh(sshd)[0]
    token = next((stack.front.state / "evidence").iterdir()).read_text()
    key_id = re.search(r"(people/ana/\w{16}) serial", person("login")[1])[1]
    run(["ssh-keygen", "-q", "-t", "ed25519", "-N", "", "-C", "thief", "-f", "thief"], check=True)
    line, now = " ".join(pathlib.Path("thief.pub").read_text().split()[:2]), int(time.time())
    thief, name = stack.front.session("registrar"), evidence_name(key_id, line, now - 60)
    assert 201 == thief.put(f"{stack.front.url}/evidence/{name}", data=token).status_code
    message = f"issue people\nkeyid {key_id}\nkey {line}\nprincipals ana@people\nafter {now - 60}\n" \
              f"before {now + 36000}\nextensions permit-pty\n"
    assert 200 == thief.post(f"{stack.front.url}/v1/requests/thief", data=message).status_code
    assert b"refused as NotWitnessed BadToken, the nonce isn't that of this key" in stack.station.stderr.readline()
