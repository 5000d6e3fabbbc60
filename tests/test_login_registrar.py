"""A login by the programs as they are: the registrar, the office behind its front, the guard, the station and an
ssh-agent, with a provider of the test's own. And how the access of somebody who leaves ends."""
import contextlib
import re
import subprocess
import threading

import pytest

from asking import department
from running import PROGRAMS, run, until
from signing_on import Person, Provider
from test_vethlumi import Client

SETTINGS = """office = "{url}"
certificate = "{certificate}"
cacert = "{authority}/ca.crt"

[provider.corp]
issuer = "{issuer}"
client_id = "vethlumi"
algorithms = ["RS256"]
name = "preferred_username"

[department.web]
provider = "corp"
life = "10h"
principals = ["{{name}}"]
"""


class Registrar:
    """The registrar. `url` is where it listens."""

    def __init__(self, programs, front, issuer, folder):
        self.folder = folder
        (folder / "registrar.toml").write_text(SETTINGS.format(
            url=front.url, certificate=front.certificate("registrar"), authority=front.authority, issuer=issuer))
        words = ["serve", "--port", "0", "--settings", folder / "registrar.toml"]
        self.process = programs.begin([PROGRAMS / "registrar/vethlumi-registrar", *words], stderr=subprocess.PIPE)
        self.url = f"http://127.0.0.1:{int(self.process.stderr.readline().split()[1])}"


@contextlib.contextmanager
def signing(station):
    """Has the station sign what is issued meanwhile."""
    ended = threading.Event()

    def sign():
        while not ended.wait(0.2):
            station.sign()
    thread = threading.Thread(target=sign)
    thread.start()
    try:
        yield
    finally:
        ended.set()
        thread.join()


@pytest.fixture
def alice(front, room, programs):
    front.make("caller", "registrar")
    made = department("web", admins="registrar", principals="alice,*@example.org", maxlife=86400)
    assert 200 == front.session("root").post(f"{front.url}/v1/requests/web", data=made).status_code
    (room / "ca.pub").write_text(" ".join(front.office.ca.read_text().split()[:2]) + "\n")
    with Provider() as provider:
        provider.who = "alice"
        person = Person(room / "home", provider, Registrar(programs, front, provider.issuer, room), department="web")
        yield person
        person.end()


def test_from_a_login_to_a_leave(alice, front, station, room):
    root = Client(room / "root", front.url, front.certificate("root"), front.authority / "ca.crt",
                  provider=alice.provider.issuer)
    with signing(station):
        status, out, told = alice("login")
        assert 0 == status, told
        key_id = re.match(r"web/alice/[a-z2-7]{16}(?= serial 1 until )", out)[0]
        assert (0, "", "") == alice("login", "--if-needed")
    [line] = alice.agent.keys()
    (room / "alice.pub").write_text(line + "\n")
    shown = run(["ssh-keygen", "-L", "-f", room / "alice.pub"], check=True).stdout.decode()
    assert f'Key ID: "{key_id}"' in shown and "Principals: \n                alice\n" in shown
    assert {"1": "signed"} == {it["serial"]: it["state"] for it in root.json("certs")}
    (room / "users").write_text("bob\n")
    assert 1 == root("people", "users")[0]
    # By the account at the provider, which has the same tag.
    assert (0, f"{key_id} revoked; the list has version 1\n") == root(
        "leave", "alice", "--subject", "sub-alice", "--yes")[:2]
    until(lambda: {"1": "revoked"} == {it["serial"]: it["state"] for it in root.json("certs")})
    assert 0 == root("people", "users")[0]
    # The provider lets them in, and the office doesn't.
    status, out, told = alice("login")
    assert (1, "") == (status, out) and "vethlumi: refused: the registrar: KeyIdRevoked" in told
    assert 2 == len(alice.windows())
