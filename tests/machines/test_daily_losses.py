"""docs/DAILY.md typed into machines that are booted: what is lost, and what ends: a key, a machine with a bundle, TLS
certificates, a CA, and the office's machine with its disk."""
import contextlib
import re

import pytest

import boxes
import pages
from test_daily_machines import PAGE, SECOND, Days, days, version_on
# With its fixtures, which boot the machines as INSTALLING leaves them.
from test_packages import ADMIN, MACHINES, base, certificates, installed, is_up, marked, on_boxes, packages, request

AUTHORITY = "/var/lib/vethlumi-authority"
# The status that the front gives whoever has this certificate.
STATUS = ("curl -s -o /dev/null -w '%{{http_code}}' --cacert {0}/ca.crt --cert {0}/{1} "
          "https://office.example.org:8443/v1/table")
# Whether the certificate that the front shows is valid for so many days.
SHOWN = ("openssl s_client -connect office.example.org:8443 </dev/null 2>/dev/null | "
         "openssl x509 -noout -checkend $((86400 * {})) >/dev/null && echo longer || echo shorter")
# Bare machines, which get the names of those that are lost.
NEW = {"office": "spare", "station": "another"}


def ask(days, *names):
    """Certificates for new keys of alice's."""
    for it in names:
        days.boxes["client"].run(f"ssh-keygen -q -t ed25519 -N '' -f {it}; {request(it)}", timeout=120)


def granted(days, *names):
    return [it for it in names if ["granted"] == days.login(it, "alice@server")]


def is_refused(days, name):
    boxes.wait_until(lambda: [] == granted(days, name), f"the server refuses {name}")


@marked(*on_boxes)
def test_lost_keys_certificates_that_end_and_new_cas_are_typed(days):
    """One test, since the machines of each step are those that the one before has left."""
    a_key_is_lost(days)
    a_bundle_is_lost(days)
    the_front_s_certificate_renews_itself(days)
    a_server_s_certificate_is_renewed(days)
    a_new_ca(days)
    a_lost_ca(days)


def a_key_is_lost(days):
    ask(days, "lost")
    assert ["lost"] == granted(days, "lost")
    before = days.state()
    told = days.section("A key is lost", 0, 1)
    assert "granted" in told and before == days.state()
    # No key ID has ended: the same one gets another certificate.
    assert ["revoked"] == [it["state"] for it in certificates(days, "people/alice/lost")]
    is_refused(days, "lost")
    assert ["granted"] == days.login("alice-new", "alice@server")
    days.boxes["client"].run(f"rm lost lost.pub lost-cert.pub; ssh-keygen -q -t ed25519 -N '' -f lost; "
                             f"{request('lost')}", timeout=120)
    assert ["lost"] == granted(days, "lost")


def a_bundle_is_lost(days):
    """Whoever has it is refused, and admin's machine goes on with another."""
    office, client = days.boxes["office"], days.boxes["client"]
    office.run(f"cp {AUTHORITY}/admin.pem {AUTHORITY}/thief.old")
    assert "200" == office.says(STATUS.format(AUTHORITY, "thief.old"))
    told = days.section("A key is lost", 2)
    assert any('"message": "issue"' in it and '"keyid": "people/alice/lost"' in it for it in told), told
    # nginx lets its processes of before end.
    boxes.wait_until(lambda: "403" == office.says(STATUS.format(AUTHORITY, "thief.old")), "the front refuses the thief")
    assert 0 != client.run("vethlumi status", False).returncode
    days.section("A key is lost", 3)
    assert 0 == client.run("vethlumi status", False).returncode
    ask(days, "after")
    assert ["after"] == granted(days, "after")


def the_front_s_certificate_renews_itself(days):
    """By its timer's unit, before it ends; whoever asks meanwhile notices nothing."""
    office = days.boxes["office"]
    assert "active enabled" == " ".join(office.says(
        "systemctl is-active office-front-tls.timer; systemctl is-enabled office-front-tls.timer").split())
    office.run(f"DAYS=10 authority server {AUTHORITY}; vethlumi-front-setup --yes")
    boxes.wait_until(lambda: "shorter" == office.says(SHOWN.format(30)), "the front shows one that ends")
    polled = "for it in $(seq 30); do curl -s --cacert /etc/vethlumi/ca.crt https://office.example.org:8443/v1/cas " \
             ">>polled || echo lost >>polled; sleep 0.2; done"
    days.boxes["client"].run(f"systemd-run -q --unit=polling --working-directory=/root bash -c '{polled}'")
    office.run("systemctl start office-front-tls.service")
    boxes.wait_until(lambda: "longer" == office.says(SHOWN.format(300)), "the front shows the new certificate")
    boxes.wait_until(lambda: "active" != days.boxes["client"].run("systemctl is-active polling", False).stdout.strip(),
                     "the polling has ended")
    assert "0" == days.on("client", "grep -c lost polled || true")
    assert 0 == days.boxes["client"].run("vethlumi status", False).returncode
    ends = dict(it.rsplit(" ", 1) for it in days.on("office", "grep -v '^#' /var/lib/vethlumi-front-tls/tls.prom"
                                                    ).splitlines())
    now = int(days.on("office", "date +%s"))
    assert 300 * 86400 < int(ends['office_issued_tls_ends_timestamp_seconds{of="server.crt"}']) - now
    assert 'office_issued_tls_ends_timestamp_seconds{of="host-server.pem"}' in ends


def a_server_s_certificate_is_renewed(days):
    serial = "openssl x509 -noout -serial -in /etc/vethlumi/host.pem"
    before = days.on("server", serial)
    days.section("TLS certificates")
    assert before != days.on("server", serial)
    days.boxes["server"].run("vethlumi-host --now")


def a_new_ca(days):
    """alice's certificate of before opens the server until the end of the old CA."""
    ask(days, "before")
    days.section("A new CA", 0, 1, 2)
    assert ["before"] == granted(days, "before"), "both CAs count"
    assert "granted" in days.section("A new CA", 3)
    old, new = (days.on("station", f"ssh-keygen -l -f /etc/vethlumi/station/{it}.pub").split()[1]
                for it in ("first", "second"))
    signer = "ssh-keygen -L -f {}-cert.pub | sed -n 's/^ *Signing CA: [^ ]* \\([^ ]*\\).*/\\1/p'"
    assert [old, new] == [days.on("client", signer.format(it)) for it in ("before", "later")]
    assert ["before"] == granted(days, "before")
    told = days.section("A new CA", 4, 5)
    assert 2 == sum(f"no longer believe the CA {old}" in it for it in told), told
    assert ["later"] == granted(days, "before", "later")
    # The new station publishes, and servers take its list.
    version = version_on(days, "server")
    days.boxes["client"].run("vethlumi revoke --yes later-cert.pub")
    boxes.wait_until(lambda: version_on(days, "server") > version, "the server takes the new station's list")
    assert [] == granted(days, "later")
    assert [new] == [it.split()[1] for it in days.on(
        "server", "systemctl restart office-ca-keys; ssh-keygen -l -f /etc/vethlumi/trusted-cas").splitlines()]


def a_lost_ca(days):
    """That of the section before, in whose place a third one comes."""
    assert "old=first new=second\n" == pages.blocks(pages.section(PAGE, "A lost CA"))[0].commands
    days.shell(ADMIN).run("old=second new=third\n")
    ask(days, "trusting")
    assert ["trusting"] == granted(days, "trusting")
    print_ = "ssh-keygen -l -f /etc/vethlumi/station/{}.pub | cut -d ' ' -f 2"
    told = days.section("A lost CA", 1, 2)
    second, third = (days.on("station", print_.format(it)) for it in ("second", "third"))
    assert 2 == sum(f"no longer believe the CA {second}" in it for it in told), told
    assert third == days.on("server", "ssh-keygen -l -f /etc/vethlumi/trusted-cas | cut -d ' ' -f 2")
    assert "granted" in days.section("A lost CA", 3, 4)
    assert [] == granted(days, "trusting")
    days.boxes["client"].run("vethlumi revoke --yes again-cert.pub")
    boxes.wait_until(lambda: [] == granted(days, "again"), "the server takes the third station's list")


class Lost(Days):
    """The machines, some of which are lost, and bare ones that get their names."""
    FURTHER = (SECOND, *NEW.values())

    def __init__(self, *words):
        super().__init__(*words)
        self.names = {}

    def lose(self, name):
        self.unplug(name)
        self.names[self.boxes[name].address] = self.boxes[NEW[name]].address
        text = self.hosts()
        for old, new in self.names.items():
            text = text.replace(f"{old} ", f"{new} ")
        for it in self.boxes.values():
            it.write("etc/hosts", text)
        self.boxes[f"gone {name}"], self.boxes[name] = self.boxes[name], self.boxes.pop(NEW[name])


@pytest.fixture
def lost(base, installed, packages, tmp_path):
    made = Lost(tmp_path, base, packages, installed)
    with contextlib.closing(made):
        made.add(ADMIN, *MACHINES, *NEW.values())
        boxes.wait_until(lambda: is_up(made), "the office answers")
        made.type(pages.blocks(PAGE.partition("\n## ")[0]))
        yield made


@marked(*on_boxes)
def test_lost_machines_come_back(lost):
    """The office from its backup, and without one; and the station."""
    from_a_backup(lost)
    without_a_backup(lost)
    a_lost_station(lost)


def from_a_backup(lost):
    """After the backup there are two certificates more, one of which is revoked. The callers keep their bundles, and
    nobody has to set their machines up again."""
    ask(lost, "kept")
    # By hand, and then to another machine.
    lost.section("Backups", 1, 2, 0)
    ask(lost, "late", "gone")
    lost.boxes["client"].run("vethlumi revoke --yes gone-cert.pub")
    boxes.wait_until(lambda: [] == granted(lost, "gone"), "the server has the revocation")
    version = version_on(lost, "server")
    lost.lose("office")
    assert ["kept", "late"] == granted(lost, "kept", "late")
    told = lost.section("A lost office", 0)
    assert [True, False] == [any(it.startswith("needs a new one: ") and it.endswith(f"/{name}") for it in told)
                             for name in ("late", "kept")], told
    boxes.wait_until(lambda: version_on(lost, "server") > version, "the server takes the new list")
    assert ["kept"] == granted(lost, "kept", "late", "gone")
    ask(lost, "new")
    assert ["new"] == granted(lost, "new")
    lost.boxes["server"].run("vethlumi-host --now")


def without_a_backup(lost):
    """The same machine loses all of it. Nothing of the old CA opens anything afterwards."""
    office = lost.boxes["office"]
    lost.end_shells()
    lost.type(pages.blocks(PAGE.partition("\n## ")[0]))
    office.run("apt-get purge -y -qq 'vethlumi-*' >/dev/null; rm -rf /var/lib/office /var/lib/vethlumi-authority "
               "/var/lib/office-front /etc/vethlumi", timeout=300)
    told = lost.section("A lost office", *range(1, 6))
    assert any(re.fullmatch(r"\d+ [0-9a-f]{64} \d+ \S+", it) for it in told), "the guard has what is out"
    assert [] == granted(lost, "kept", "new")
    ask(lost, "begun")
    assert ["begun"] == granted(lost, "begun")
    serial = int(lost.on("client", "ssh-keygen -L -f begun-cert.pub | sed -n 's/^ *Serial: //p'"))
    assert 1_000_000 <= serial < 1_000_010
    assert 0 == version_on(lost, "server")


def a_lost_station(lost):
    """Its key has the second name by now. What it has signed stays valid, and what was revoked is known."""
    ask(lost, "before", "taken")
    lost.section("Backups", 1, 2, 0)
    lost.boxes["client"].run("vethlumi revoke --yes taken-cert.pub")
    boxes.wait_until(lambda: [] == granted(lost, "taken"), "the server has the revocation")
    version = version_on(lost, "server")
    lost.lose("station")
    assert "old=first new=second\n" == pages.blocks(pages.section(PAGE, "A lost station"))[0].commands
    lost.shell(ADMIN).run("old=second new=third\n")
    lost.section("A lost station", 1, 2, 3)
    ask(lost, "again", "last")
    assert ["before", "again", "last"] == granted(lost, "before", "taken", "again", "last")
    lost.boxes["client"].run("vethlumi revoke --yes last-cert.pub")
    boxes.wait_until(lambda: [] == granted(lost, "last"), "the server takes the new station's list")
    assert version_on(lost, "server") > version and [] == granted(lost, "taken")
