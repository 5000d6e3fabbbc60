"""A department that is put back to an earlier text, on machines that are booted: by the two commands of
`docs/INSTALLING.md`, and whoever has left is refused from then on.

The office's program has to have the route `GET /v1/departments`, and the front has to give it to root and callers."""
import boxes
import pytest

# With its fixtures, which boot the machines as the page leaves them.
from test_packages import ADMIN, base, fleet, installed, marked, on_boxes, packages

POLICY = "/etc/vethlumi/station/first.policy"
STATION = "programs/setup/vethlumi-install station station.example.org --yes"
OFFICE = "programs/setup/vethlumi-install office office.example.org --station station.example.org --yes"
CLIENT = ("programs/setup/vethlumi-install client client.example.org --office office.example.org "
          "--station station.example.org --caller carol --yes")


class Policies:
    """The policy of the station, and the commands that pass it on."""

    def __init__(self, fleet):
        fleet.add(ADMIN)
        self.station, self.office, self.client = (fleet.boxes[it] for it in ("station", "office", "client"))
        self.admin = fleet.shell(ADMIN)
        # As a site has it that lists its users.
        made = f"{self.station.says(f'cat {POLICY}')}\n"
        self.first = made.replace("admin,{name}\n", "admin\n").replace("{name}@people\n", "alice\n")
        self.wider = self.first.replace("admins admin\n", "admins admin,carol\n").replace("principals alice\n",
                                                                                         "principals alice,bob\n")
        assert 2 == sum(old != new for old, new in zip(self.first.splitlines(), self.wider.splitlines()))

    def write(self, text, owner="office-station"):
        self.station.write(POLICY.lstrip("/"), text)
        self.station.run(f"chown {owner}: {POLICY} && chmod 600 {POLICY}")

    def put(self, text):
        """What is told when this policy is written and passed on."""
        self.write(text)
        self.admin.run(f"{STATION}\n")
        return self.admin.run(f"{OFFICE}\n")

    def ask(self, name, words):
        """What `vethlumi` says to a caller."""
        return self.client.run(f"vethlumi --wait 60 --certificate .config/vethlumi/{name}.pem {words}", False).stdout


@pytest.fixture
def policies(fleet):
    made = Policies(fleet)
    made.client.run("ssh-keygen -q -t ed25519 -N '' -f bob")
    made.admin.run(f"{CLIENT}\n")
    return made


@marked(*on_boxes)
def test_whoever_has_left_is_refused_once_the_policy_is_put_back(policies):
    """Twice, since the office has accepted each text before."""
    names = policies.office.says("curl -sSf --unix-socket /run/office-door.sock http://office/v1/departments | "
                                 "sed -n 's/^department //p'").split()
    assert ["hosts", "people"] == names
    policies.put(policies.first)
    for number in (1, 2):
        told = policies.put(policies.wider)
        for it in ("change the department people of the office", "- admins admin", "+ admins admin,carol",
                   "- principals alice", "+ principals alice,bob"):
            assert f" {it}\n" in told, told
        assert "revoked; the list has version" in policies.ask("carol", f"revoke --yes people/nobody-{number}")
        key_id = f"people/bob-{number}"
        assert "bob-cert.pub serial " in policies.ask("carol", f"request {key_id} bob.pub --principals bob")
        # The two documented commands, with the first text.
        told = policies.put(policies.first)
        assert " + principals alice\n" in told, told
        for name, words, why in (
                ("carol", f"revoke --yes people/somebody-{number}", "refused 10 NotAllowed"),
                ("carol", f"request people/carol-{number} bob.pub --principals alice", "refused 10 NotAllowed"),
                ("admin", f"request people/zoe-{number} bob.pub --principals bob", "refused 14 NotPermitted")):
            assert why in policies.ask(name, words), (name, words)
    told = policies.put(policies.first)
    assert "everything is as it should be" in told and "the department people" not in told, told
    assert "no difference" in policies.ask("admin", f"department diff {copied(policies)}")
    assert "admins admin\n" in policies.ask("admin", "department show people")


def copied(policies):
    policies.client.write("root/policy", policies.first)
    return "/root/policy"


@marked(*on_boxes)
def test_a_policy_that_cannot_be_used_fails_the_command(policies):
    """With the line and the reason, and with the office as it was."""
    bad = policies.wider.replace("principals alice,bob\n", "principal alice,bob\n")
    for text, owner, why in (
            (bad, "office-station", "the department people, line 4, 'principal alice,bob': this has to be the line "),
            (policies.wider, "root", f"{POLICY} can't be read by office-station: it belongs to root, with mode 600")):
        policies.write(text, owner)
        for command in (STATION, OFFICE):
            told = policies.admin.run(f"{command} || echo status $?\n")
            assert why in told and "status 1" in told.splitlines(), told
        assert "refused 10 NotAllowed" in policies.ask("carol", "revoke --yes people/nobody")
    policies.put(policies.wider)
    ask = "request people/bob bob.pub --principals bob"
    boxes.wait_until(lambda: "bob-cert.pub serial " in policies.ask("carol", ask), "the station has the new policy")
