"""The audit of an hour, on a booted machine with all packages: what callers, people and the station do is in the trail,
and `vethlumi audit` finds it complete; and a row that is gone from the journal, the guard's file or the office's is
named."""
import collections
import contextlib
import json
import shutil

import pytest

import boxes
import providers
from asking import department
from test_events import compared
# With its fixtures, of which `base` sees that this machine boots a box at all.
from test_packages import (ASK, ISSUER, NAMES, OF_SIGN_ON, SIGN_ON, Fleet, base, log_in, marked, of, on_boxes,
                           packages)

POLICY = (department("people", admins="registrar", principals="*@people", maxlife=36060) +
          department("web", admins="admin", principals="alice,bob,carol,lost", maxlife=86400))
# What the office permits, and the guard's policy doesn't.
WIDER = department("web", admins="admin", principals="alice,bob,carol,lost,mallory", maxlife=86400)
JOIN = "cat /etc/vethlumi/ca.pub /var/lib/vethlumi-authority/admin.bundle | vethlumi-client-setup --yes -"
KEYS = "for it in alice bob carol lost dave mallory; do ssh-keygen -q -t ed25519 -N '' -C $it -f $it; done"
# One message, as somebody sends it twice who has lost the answer.
AS_ADMIN = ASK.replace("curl", "curl --cert /var/lib/vethlumi-authority/admin.pem", 1)
SEND = f"{AS_ADMIN}requests/again --data-binary @message"
# docs/OPERATING.md, Who got what, when.
BODIES = "cd /var/lib/office-station && rm -f first.copy && until [ -e first.copy ]; do sleep 0.2; done"
PRINTED = "sshstation bodies --db"
# An office over a copy of the file from which somebody has taken the row of a certificate.
WITHOUT_ROW = """systemctl kill -s STOP office && cp /var/lib/office/office.db* /srv && systemctl kill -s CONT office
sqlite3 /srv/office.db 'DELETE FROM cert WHERE serial = 2'
systemd-run -q --unit false sshoffice serve --db /srv/office.db --port 8099 --connections 1000 --nonces /dev/urandom
until curl -sSf http://127.0.0.1:8099/v1/cas >/dev/null 2>&1; do sleep 0.2; done
"""


class Solo:
    """The machine, and what was done on it."""

    def __init__(self, box):
        self.box, self.key = box, providers.new_key()

    def set_up(self, packages):
        for name in NAMES:
            shutil.copy(of(packages, name), self.box.files / "root")
        self.box.write("srv/provider/.well-known/openid-configuration", json.dumps(
            {"issuer": ISSUER, "jwks_uri": f"{ISSUER}/keys"}))
        self.box.write("srv/provider/keys", json.dumps({"keys": [providers.public(self.key)]}))
        self.box.write("root/policy", POLICY)
        self.box.write("root/settings.toml", OF_SIGN_ON)
        self.box.write("root/wider", WIDER)
        self.box.run(SIGN_ON, timeout=400)
        self.box.run(f"{JOIN}; vethlumi-office-root send --yes wider; {KEYS}")

    def live_an_hour(self):
        """What is done, with the status that each command has to end with."""
        for status, it in (
                (0, request("alice", "alice")), (0, request("bob", "bob")), (0, request("carol", "carol,alice")),
                (0, "vethlumi renew alice-cert.pub"), (1, request("dave", "root")),
                (0, "vethlumi revoke --yes bob-cert.pub"), (0, "vethlumi revoke --yes web/carol"),
                (1, request("bob", "lost", "web/carol"))):
            told = self.box.run(it, False)
            assert status == told.returncode, (it, told.stdout)
        self.send_twice()
        boxes.wait_until(lambda: json.loads(log_in(self.box, self.key)).get("certificate"), "ana has logged in")
        # The office has taken it, and the guard doesn't.
        assert 0 != self.box.run(request("mallory", "mallory").replace("--wait 60", "--wait 5"), False).returncode
        login = json.loads((self.box.files / "root/login.json").read_text())
        self.box.write("root/bad.json", json.dumps(login | {"token": login["token"][:-8] + 8 * "A"}))
        assert "error" in json.loads(self.box.says(f"{ASK}login -d @bad.json"))
        boxes.wait_until(lambda: any(it["outcome"] == "refused" for it in self.lines() if it["event"] == "signature"),
                         "the guard has refused one")

    def send_twice(self):
        line, now = self.box.says("cut -d' ' -f1,2 lost.pub"), int(self.box.says("date +%s"))
        self.box.write("root/message", f"issue web\nkeyid web/lost\nkey {line}\nprincipals lost\nafter {now - 60}\n"
                       f"before {now + 3600}\nextensions\n")
        first = self.box.says(SEND)
        assert first.startswith("issued ") and first == self.box.says(SEND)

    def lines(self):
        return [json.loads(it) for it in self.box.says("vethlumi events --json --repeats").splitlines()]

    def audit(self, *words):
        """The status of the command, and what it names."""
        done = self.box.run(f"vethlumi {' '.join(words)}", False)
        told = [json.loads(it) for it in done.stdout.splitlines() if it.startswith("{")]
        return done.returncode, {it["what"] for it in told}, done.stdout


def request(name, principals, key_id=None):
    return f"vethlumi --wait 60 request {key_id or f'web/{name}'} {name}.pub --principals {principals}"


@pytest.fixture
def solo(base, packages, tmp_path):
    fleet = Fleet(tmp_path, base, packages)
    with contextlib.closing(fleet):
        made = Solo(*fleet.add("solo"))
        made.set_up(packages)
        yield made


@marked(*on_boxes)
def test_an_hour_is_in_the_trail_and_what_was_taken_out_is_named(solo):
    solo.live_an_hour()
    solo.box.run(f"{BODIES}; {PRINTED} first.copy >/root/bodies")
    look_at_the_lines(solo.lines())
    status, found, told = solo.audit("audit --guard bodies")
    assert (0, set()) == (status, found) and told.startswith("nothing differs: 7 certificates, 7 messages "), told
    take_out_of_the_trail(solo)
    take_out_of_the_guard(solo)
    take_out_of_the_office(solo)


def look_at_the_lines(lines):
    """Each thing that was done, and nothing else. The station may have published several lists, and asks the guard
    again about what it has refused."""
    found = collections.Counter(
        (it["source"], it.get("message", it["event"]), it.get("caller", ""), it["outcome"], it.get("repeated", False))
        for it in lines if it["event"] != "list" and it["source"] != "registrar")
    assert found.pop(("station", "signature", "", "refused", False))
    assert {("front", "issue", "admin", "accepted", False): 5, ("front", "issue", "admin", "accepted", True): 1,
            ("front", "issue", "registrar", "accepted", False): 1, ("front", "renew", "admin", "accepted", False): 1,
            ("front", "issue", "admin", "refused", False): 2, ("front", "revoke-serial", "admin", "accepted", False): 1,
            ("front", "revoke-keyid", "admin", "accepted", False): 1,
            ("front", "deliver", "station", "accepted", False): 6,
            ("station", "signature", "", "signed", False): 6} == found
    why = {(it["keyid"], it.get("reason")) for it in lines if it["outcome"] == "refused" and "keyid" in it}
    assert {("web/dave", "NotPermitted"), ("web/carol", "KeyIdRevoked"), ("web/mallory", "NotPermitted")} == why
    logins = collections.Counter(it["outcome"] for it in lines if it["source"] == "registrar")
    assert {"accepted", "refused"} == {*logins}
    assert [it for it in lines if it["outcome"] == "published" and it["digest"]]


def take_out_of_the_trail(solo):
    """Any line of those that say what was done for a certificate; and one by the command, as an exported journal."""
    lines, bodies = solo.lines(), solo.box.says("cat bodies").splitlines()
    table, cas = (solo.box.run(f"{AS_ADMIN}{it}").stdout for it in ("table", "cas"))
    assert set() == compared(lines, bodies, table, cas)
    for line in lines:
        if line["outcome"] == "refused" or line["event"] in ("list", "sign-on") or line.get("repeated") or (
                line.get("request") == "again"):
            continue
        found = compared([it for it in lines if it is not line], bodies, table, cas)
        name = f"serial {line['serial']}" if "serial" in line else f"version {line['version']} of the KRL"
        assert name in found, line
    solo.box.run("journalctl -o json >all; grep -v revoke-serial all >trail")
    status, found, told = solo.audit("audit --json --guard bodies trail")
    assert (1, {"serial 2", "version 1 of the KRL"}) == (status, found), told
    assert (0, set()) == solo.audit("audit --json --guard bodies all")[:2]


def take_out_of_the_guard(solo):
    """By sqlite3, out of a copy of its file."""
    solo.box.run("cp /var/lib/office-station/first.copy copy.db; "
                 f"sqlite3 copy.db 'DELETE FROM approved WHERE serial = 3'; {PRINTED} copy.db >fewer")
    status, found, told = solo.audit("audit --json --guard fewer all")
    assert (1, {"serial 3"}) == (status, found), told


def take_out_of_the_office(solo):
    """By sqlite3, out of a copy of its file, over which an office then serves."""
    solo.box.run(WITHOUT_ROW)
    status, found, told = solo.audit("--office http://127.0.0.1:8099 audit --json --guard bodies all")
    assert (1, {"serial 2"}) == (status, found), told
