"""docs/DAILY.md typed into machines that are booted, as INSTALLING leaves them: who comes and goes, a backup, a restore
of which the messages since are gone, and a login while office and station are off."""
import contextlib

import pytest

import boxes
import pages
# With its fixtures, which boot the machines as the page leaves them.
from test_packages import (ADMIN, ARCHIVES, MACHINES, Fleet, base, index, installed, is_up, marked, on_boxes, packages,
                           request)
from running import TOP

PAGE = (TOP / "docs/DAILY.md").read_text()
POLICY = "/etc/vethlumi/station/first.policy"
DEPARTMENTS = "curl -sSf --unix-socket /run/office-door.sock http://office/v1/departments"
SECOND = "second"


class Days(Fleet):
    """The machines of the page, and a further one that is bare."""
    FURTHER = (SECOND,)

    def section(self, heading, *numbers):
        """Types a section's blocks, or those of these numbers, and returns what was printed."""
        found = pages.blocks(pages.section(PAGE, heading))
        return self.type([found[it] for it in numbers] if numbers else found)

    def on(self, machine, command):
        return self.boxes[machine].says(command)

    def restarted(self, *names):
        """Starts machines again that were switched off as by pulling the plug."""
        for it in names:
            self.boxes[it].start()
        for it in names:
            self.boxes[it].wait_until_up()
        boxes.wait_until(lambda: is_up(self), "the office answers")

    def unplug(self, *names):
        for it in names:
            if it in self.shells:
                self.shells.pop(it).end()
            self.boxes[it].pull_the_plug()

    def login(self, key, where, machine="client"):
        ssh = f"ssh -o BatchMode=yes -o IdentitiesOnly=yes -i {key} {where}.example.org echo granted"
        return self.boxes[machine].run(ssh, False).stdout.strip().splitlines()[-1:]

    def state(self):
        """What both sides have."""
        return self.on("station", f"cat {POLICY}"), self.on("office", DEPARTMENTS)


@pytest.fixture
def days(base, installed, packages, tmp_path):
    made = Days(tmp_path, base, packages, installed)
    with contextlib.closing(made):
        made.add(ADMIN, *MACHINES, SECOND)
        boxes.wait_until(lambda: is_up(made), "the office answers")
        made.type(pages.blocks(PAGE.partition("\n## ")[0]))
        yield made


def typed_again(days, heading):
    """Types the first block of a section again: nothing changes."""
    before = days.state()
    told = days.section(heading, 0)
    assert before == days.state() and 2 <= sum("everything is as it should be" in it for it in told), told


@marked(*on_boxes)
def test_who_comes_and_goes_a_restore_and_break_glass_are_typed(days):
    """One test, since each of its steps needs what those before have left."""
    who_comes(days)
    three_hosts_and_two_people(days)
    who_goes(days)
    a_backup_and_a_restore(days)
    break_glass(days)


def who_comes(days):
    assert "granted" in days.section("A second user")
    typed_again(days, "A second user")
    assert "granted" in days.section("Another server")
    typed_again(days, "Another server")
    assert "granted" in days.section("Another caller")
    typed_again(days, "Another caller")
    for text in days.state():
        assert OF_ALL in text and 2 == text.count("department ")


# No user and no server has changed these departments, but carol has, who requests for others.
OF_ALL = "admins admin,{name},carol\nprincipals {name}@people\n"
HOSTS = ("server", SECOND, "client")


def three_hosts_and_two_people(days):
    """Each person logs in to all three hosts as himself and as nobody else, and each host gets its own certificate and
    no other host's."""
    before = days.state()
    days.shell(ADMIN).run("programs/setup/vethlumi-install add-server client.example.org --account alice --account bob "
                          "$both\n")
    assert before == days.state()
    days.boxes["client"].run(f"rm alice-cert.pub; {request('alice')}")
    for host in HOSTS:
        for name, other in (("alice", "bob"), ("bob", "alice")):
            boxes.wait_until(lambda: ["granted"] == days.login(name, f"{name}@{host}"), f"{name} logs in to {host}")
            assert [] == [it for it in (other, "root", "office-host", "nobody")
                          if ["granted"] == days.login(name, f"{it}@{host}")], (name, host)
    for host, other in zip(HOSTS, (*HOSTS[1:], HOSTS[0])):
        first = serial_on(days, host)
        days.boxes[host].run("vethlumi-host --now")
        assert serial_on(days, host) > first
        days.boxes[host].write("root/theirs.pub", days.on(other, "cat /etc/vethlumi/host-cert.pub") + "\n")
        for words, why in ((f"request hosts/{other} {HOST_KEY} --principals {other}.example.org", "10 NotAllowed"),
                           (f"request hosts/{host} {HOST_KEY} --principals {other}.example.org", "14 NotPermitted"),
                           (f"request people/{host} {HOST_KEY} --principals {host}@people", "10 NotAllowed"),
                           ("renew theirs.pub", "10 NotAllowed")):
            told = days.boxes[host].run(f"vethlumi --config /etc/vethlumi/host.toml {words} --out /root/others", False)
            assert 1 == told.returncode and f"refused {why}" in told.stdout, (words, told.stdout)


HOST_KEY = "/etc/ssh/ssh_host_ed25519_key.pub"


def serial_on(days, machine):
    return int(days.on(machine, "ssh-keygen -L -f /var/lib/office-host/host-cert.pub | sed -n 's/^ *Serial: //p'"))


def who_goes(days):
    told = days.section("Somebody leaves")
    assert any("revoke what can still be used: 1 of the office's certificates" in it for it in told), told
    assert [True, True] == [OF_ALL in text for text in days.state()]
    for server in ("server", SECOND):
        boxes.wait_until(lambda server=server: days.login("bob", f"bob@{server}") != ["granted"], "bob is refused")
        assert "1" == days.on(server, "getent shadow bob | cut -d : -f 8")
    # A server's next certificate comes by its own key ID, and no person has its department.
    asked = days.boxes["client"].run("vethlumi --wait 60 request hosts/bob bob.pub --principals bob.example.org", False)
    assert 1 == asked.returncode and "refused 10 NotAllowed" in asked.stdout
    assert "revoked" in "".join(days.section("Root of the office"))


def a_backup_and_a_restore(days):
    """After the copy there are two certificates more, one of which is revoked, and a key ID is."""
    office, client = days.boxes["office"], days.boxes["client"]
    for machine, timer, unit in (("office", "office-backup", "office"),
                                 ("station", "office-station-backup", "office-station@first")):
        assert "active" == days.on(machine, f"systemctl is-active {timer}.timer")
        days.boxes[machine].run(f"systemctl start {timer}.service")
        assert "active" == days.on(machine, f"systemctl is-active {unit}")
        assert "1" == days.on(machine, "ls -d /var/backups/vethlumi/*-2* | wc -l")
    office.run("sleep 1")
    days.section("Backups")
    client.run("ssh-keygen -q -t ed25519 -N '' -f late; ssh-keygen -q -t ed25519 -N '' -f later")
    for it in ("late", "later"):
        client.run(request(it))
    client.run("vethlumi revoke --yes late-cert.pub; vethlumi revoke --yes people/gone")
    boxes.wait_until(lambda: "id: people/gone" in days.on("server", LIST), "the server has the revocations")
    version = version_on(days, "server")
    serials = {it: int(days.on("client", f"ssh-keygen -L -f {it}-cert.pub | sed -n 's/^ *Serial: //p'"))
               for it in ("late", "later")}
    office.run("truncate -s 8192 /var/lib/office/office.db")
    told = days.section("A restore")
    assert any(it == f"needs a new one: serial {serials['later']}, people/alice/later" for it in told), told
    boxes.wait_until(lambda: version_on(days, "server") > version, "the server takes the new list")
    assert days.login("later", "alice@server") != ["granted"]
    assert "id: people/gone" in days.on("server", LIST)
    client.run(f"rm later-cert.pub; {request('later').replace('vethlumi', 'vethlumi --wait 120')}")
    assert ["granted"] == days.login("later", "alice@server")
    assert "active" == days.on("office", "systemctl is-active office-front")


LIST = "ssh-keygen -Q -l -f /var/lib/office-list/revoked.krl"


def version_on(days, machine):
    return int(days.on(machine, f"{LIST} | sed -n 's/^# KRL version //p'"))


def break_glass(days):
    days.section("Break glass", 0)
    days.unplug("office", "station")
    assert "emergency" in days.section("Break glass", 1)
    told = days.section("Break glass", 2)
    assert "refused" in told, told
    assert ["granted"] != days.login("vethlumi/glass", "alice@server", ADMIN)
    days.restarted("office", "station")
    told = days.section("Break glass", 3, 4)
    assert any(it.startswith("revoked") for it in told), told
    assert any("publickey for emergency" in it and "ID break-glass/alice-1 (serial 1)" in it for it in told), told
    assert ["granted"] == days.login("later", "alice@server")
