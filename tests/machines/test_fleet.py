"""docs/FLEET.md typed into machines that are booted: the Ansible collection of programs/fleet, by Debian's
ansible-core, over SSH, with packages from a signed apt repository.

The machines start with what our packages depend on, and with nothing of ours. `--fleet N` says how many there are
beside the one on which Ansible runs."""
import base64
import contextlib
import re
import shutil

import pytest

import boxes
import pages
from releasing import COLLECTION
from running import TOP, left_out, run
# With its fixtures, of which `base` sees that this machine boots a box at all.
from test_packages import ADMIN, NAMES, OFTEN, base, marked, of, on_boxes, packages
from test_repository import REPOSITORY, keys

PAGE = (TOP / "docs/FLEET.md").read_text()
BUILD = "build"
FIXED = ("station", "office", "client", BUILD)
RECAP = re.compile(r"^(\w+)\.example\.org +: ok=\d+ +changed=(\d+) +unreachable=(\d+) +failed=(\d+) ", re.M)
# What a run may change: settings, units, packages, bundles. Databases, and what timers fetch, aren't among it.
STATE = ("{ find /etc /home /var/lib/vethlumi-authority /usr/share/vethlumi-* -xdev ! -name '*cache*' ! -name '*.lock' "
         "-printf '%p %y %m %u %g %l\\n' 2>/dev/null || true; "
         "find /etc /var/lib/vethlumi-authority /usr/share/vethlumi-* -xdev -type f ! -name '*cache*' "
         "-exec sha256sum {} + 2>/dev/null || true; dpkg-query -W; "
         "systemctl list-units --plain --no-legend --state=active 'office*' 'vethlumi*' | cut -d ' ' -f 1; } | sort")
PRIVATE = ("grep -rlE '^-----BEGIN .*PRIVATE KEY' /etc/vethlumi /home /root /srv /tmp /var --exclude-dir=.ssh "
           "2>/dev/null || true")


@pytest.fixture(scope="module")
def equipped(base, packages, keys, tmp_path_factory):
    """What every machine lies over: a Debian with what ours depend on, and a repository of our packages."""
    try:
        root = boxes.prepare(*boxes.OF_FLEET)
    except boxes.CannotBoot as reason:
        left_out(reason)
    layer = tmp_path_factory.mktemp("layer")
    (layer / "srv").mkdir()
    words = [REPOSITORY, "--out", layer / "srv/apt", "--key", keys.first, *[of(packages, it) for it in NAMES]]
    made = run(words, env=keys.environment)
    assert 0 == made.returncode, made.stderr.decode()
    # Nothing else is to be had: everything else is there.
    (layer / "etc/apt").mkdir(parents=True)
    (layer / "etc/apt/sources.list").touch()
    return f"{layer}:{root}"


class Site(boxes.Rack):
    """The machines of the page, and the one on which it is typed."""

    def __init__(self, room, base, packages, number):
        super().__init__(room, base)
        self.packages = packages
        self.hosts_ = [f"server{it + 1}" for it in range(number - len(FIXED))]
        self.machines = [*FIXED, *self.hosts_]
        self.add(ADMIN, *self.machines)
        self.shell = boxes.Shell(self.boxes[ADMIN])
        self.shell.run("cd vethlumi\nexport ANSIBLE_FORKS=20 ANSIBLE_VERBOSITY=3 ANSIBLE_LOG_PATH=/root/ansible.log\n")

    def furnish(self, box):
        box.write("etc/systemd/system/office-list.timer.d/often.conf", OFTEN)
        if box.name != ADMIN:
            return
        clone = box.files / "root/vethlumi"
        (clone / "out/apt").mkdir(parents=True)
        shutil.copy(self.packages / COLLECTION, clone / "out")
        shutil.copy(box.files / "srv/apt/vethlumi.asc", clone / "out/apt")
        box.write("root/.ssh/id_ed25519", self.key, 0o600)
        key = (box.files / "etc/ssh/ssh_host_ed25519_key.pub").read_text()
        names = ",".join(f"{it}.{boxes.DOMAIN}" for it in self.machines)
        box.write("root/.ssh/known_hosts", f"{names} {key}", 0o600)

    def type(self, heading, *numbers, more=""):
        """Types a section's blocks, or those of these numbers, each with more words behind, and returns what was
        printed."""
        found = pages.blocks(pages.section(PAGE, heading))
        texts = [found[it].commands for it in numbers] if numbers else [it.commands for it in found]
        return "".join(self.shell.run(it.rstrip("\n") + more + "\n") for it in texts)

    def edit(self):
        """What the page has somebody change in the example: the machines that there are, and the repository."""
        files = self.boxes[ADMIN].files / "root/fleet"
        text = (files / "inventory.yml").read_text()
        for old, new in (("server[1:5]", f"server[1:{len(self.hosts_)}]"),
                         ("https://packages.example.org", "file:/srv/apt")):
            assert 1 == text.count(old)
            text = text.replace(old, new)
        (files / "inventory.yml").write_text(text)

    def state(self):
        return {name: self.boxes[name].says(STATE).splitlines() for name in self.machines}

    def login(self, host):
        """What a login says that alice tries with her certificate. The host shows a certificate, unless it has none."""
        known = "accept-new" if host == BUILD else "yes"
        ssh = (f"ssh -o BatchMode=yes -o IdentitiesOnly=yes -o StrictHostKeyChecking={known} -i alice "
               f"alice@{host}.example.org hostname")
        return self.boxes["client"].run(ssh, False).stdout.strip().splitlines()[-1]

    def close(self):
        self.shell.end()
        self.end()


def changed(printed):
    """What the last lines of a run say: how much it has changed on each machine. Everything went well."""
    found = RECAP.findall(printed)
    assert found and {("0", "0")} == {it[2:] for it in found}, printed[-4000:]
    return {name: int(number) for name, number, *_ in found}


def differences(before, after):
    """The lines by which two states differ, for each machine on which they do."""
    return {name: sorted({*before[name]} ^ {*after[name]}) for name in before if before[name] != after[name]}


@pytest.fixture
def site(equipped, packages, tmp_path, pytestconfig):
    made = Site(tmp_path, equipped, packages, pytestconfig.getoption("--fleet"))
    with contextlib.closing(made):
        yield made


@marked(*on_boxes)
def test_a_fleet_is_set_up_once_and_mended(site):
    """One test, since each run needs what those before have left."""
    site.type("Inventory")
    site.edit()
    first = site.type("The first run")
    assert {*site.machines} == {name for name, number in changed(first).items() if number}
    look_at_secrets(site, first)
    log_in(site)
    state = site.state()
    second = changed(site.type("The first run"))
    assert dict.fromkeys(site.machines, 0) == second
    assert {} == differences(state, site.state())
    mend(site, state)


def log_in(site):
    """alice asks for a certificate on the client's machine, and logs in to each server as herself alone."""
    client = site.boxes["client"]
    client.run("[ -e alice ] || ssh-keygen -q -t ed25519 -N '' -C alice -f alice")
    client.run("vethlumi --wait 120 request people/alice alice.pub --principals alice@people")
    for host in (*site.hosts_, BUILD):
        assert host == site.login(host)
    refused = client.run(f"ssh -o BatchMode=yes -o IdentitiesOnly=yes -i alice root@{BUILD}.example.org true", False)
    assert 255 == refused.returncode and "Permission denied" in refused.stdout


def look_at_secrets(site, printed):
    """Neither Ansible nor its log nor a journal has a bundle's private key, also not in base64, and each machine has
    its own alone. The log has what was printed, at the third level of -v."""
    admin, office = site.boxes[ADMIN], site.boxes["office"]
    assert "ESTABLISH SSH CONNECTION" in printed and "VALUE_SPECIFIED_IN_NO_LOG_PARAMETER" in printed
    names = [*(f"{it}.example.org" for it in site.hosts_), "admin", "station"]
    bundles = [office.says(f"cat /var/lib/vethlumi-authority/{it}.bundle") + "\n" for it in names]
    hidden = [part for it in bundles for part in parts_of_key(it)]
    assert 2 * len(names) == len({*hidden})
    log = (admin.files / "root/ansible.log").read_text()
    journals = "".join(site.boxes[it].says("journalctl -o cat") for it in site.machines)
    assert "Invoked with" in journals
    assert [] == [it for it in hidden if it in printed + log + journals]
    due = {it: ["/etc/vethlumi/host.pem"] for it in site.hosts_} | {ADMIN: [], BUILD: [], "client": [
        "/root/.config/vethlumi/admin.pem"]}
    assert due == {it: sorted(site.boxes[it].says(PRIVATE).split()) for it in due}


def parts_of_key(bundle):
    """A line of a bundle's private key, and a part of what it is in base64, as Ansible reads a file."""
    start = bundle.index("PRIVATE KEY-----\n") + 20
    place = 4 * (start // 3 + 1)
    return bundle[start:].splitlines()[1], base64.b64encode(bundle.encode()).decode()[place:place + 60]


def mend(site, state):
    """A file of one server and a package of another are gone. A check says so and changes nothing; a run mends them and
    changes nothing else, without the station."""
    spoiled = site.hosts_[0]
    site.type("Another host", 1)
    site.boxes["station"].pull_the_plug()
    site.boxes[spoiled].run("rm /etc/vethlumi/list-signers; : >/etc/ssh/sshd_config.d/vethlumi.conf")
    site.boxes[BUILD].run("apt-get remove -qq -y vethlumi-client >/dev/null 2>&1")
    site.machines.remove("station")
    before, limit = site.state(), ",vethlumi_servers,vethlumi_clients"
    due = {it for it in site.machines if it != "office"}
    found = changed(site.type("Another host", 0, more=f"{limit} --check"))
    assert (due, {spoiled, BUILD}) == ({*found}, {it for it in found if found[it]})
    assert {} == differences(before, site.state())
    found = changed(site.type("Another host", 0, more=limit))
    assert {spoiled, BUILD} == {it for it in found if found[it]}
    assert {} == differences({it: state[it] for it in site.machines}, site.state())
    for host in (spoiled, BUILD):
        assert host == site.login(host)
