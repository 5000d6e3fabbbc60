"""docs/DAILY.md, "An upgrade": all machines get a new version of the packages while people work, and the earlier one
again. The programs are the same under a higher version; with `--earlier-packages=FOLDER` the machines begin with the
packages in that folder, by their own set-up, and nothing is put back.

No login is refused meanwhile that should be granted, and no request is lost: each has its certificate, and no second
one."""
import collections
import concurrent.futures
import contextlib
import itertools
import json
import re
import shutil
import threading

import pytest

import boxes
import pages
from running import run
from test_daily_machines import PAGE, Days
# With its fixtures, which boot the machines as INSTALLING leaves them.
from test_packages import ADMIN, MACHINES, NAMES, base, installed, is_up, marked, of, on_boxes, packages, with_version

HEADING = "An upgrade"
NEWER = "1.0.1"
VERSIONS = "dpkg-query -W -f '${db:Status-Status} ${Version}\\n' 'vethlumi-*' | sed -n 's/^installed //p' | sort -u"
# The processes that have to be others afterwards.
SERVING = {"station": ["office-station@first"], "office": ["office", "office-front", "office-front-events"]}
# What an administrator types for packages of before, as their own page had it. On a server, ssh connects again: while
# sshd reads its files, nobody listens for a moment.
BEFORE = """earlier/setup/vethlumi-install station station.example.org --principals alice --host server.example.org {0}
earlier/setup/vethlumi-install office office.example.org --station station.example.org {0}
earlier/setup/vethlumi-install server server.example.org {1} --account alice {0}
earlier/setup/vethlumi-install client client.example.org {1} --hosts '*.example.org' {0}
"""
LOGIN = ("ssh -o BatchMode=yes -o IdentitiesOnly=yes -o ConnectionAttempts=3 -i {} alice@server.example.org "
         "echo granted")
# docs/OPERATING.md, Servers of earlier versions.
BOTH_NAMES = "sed -i 's/^admins server-example-org$/admins host-server-example-org,server-example-org/' {}"
# docs/OPERATING.md, Who got what, when.
BODIES = ("cd /var/lib/office-station && rm -f first.copy && until [ -e first.copy ]; do sleep 0.2; done; "
          "sshstation bodies --db first.copy")


class Site(Days):
    """The machines of the page, and the packages of both versions on the one that administers them."""
    FURTHER = ()

    def begin(self, newer, earlier=None):
        """Boots the machines, and puts the packages where the page says."""
        self.earlier = earlier
        self.add(ADMIN, *MACHINES)
        clone = self.boxes[ADMIN].files / "root/vethlumi"
        shutil.copytree(clone / "out", clone / "earlier")
        for it in [*(clone / "out").iterdir()]:
            it.unlink()
        shutil.copytree(newer, clone / "out", dirs_exist_ok=True)
        if earlier:
            self.set_up_earlier(clone / "earlier", earlier)
        boxes.wait_until(lambda: is_up(self), "the office answers")
        self.type(pages.blocks(PAGE.partition("\n## ")[0]))

    def set_up_earlier(self, folder, packages):
        """Sets the machines up by packages of before, and by the command in them."""
        for it in [*folder.glob("*.deb")]:
            it.unlink()
        for it in packages.glob("vethlumi-*.deb"):
            shutil.copy(it, folder)
        [client] = packages.glob("vethlumi-client_*.deb")
        run(["dpkg-deb", "-x", client, folder / "unpacked"], check=True)
        shutil.copytree(folder / "unpacked/usr/share/vethlumi-client", folder / "setup")
        others = "--office office.example.org --station station.example.org"
        self.shell(ADMIN).run(BEFORE.format("--packages earlier --yes", others))

    def versions(self):
        return {it: self.on(it, VERSIONS).split() for it in MACHINES}

    def processes(self):
        return {it: int(self.on(machine, f"systemctl show -P MainPID '{it}'"))
                for machine, units in SERVING.items() for it in units}

    def upgrade(self):
        block = pages.blocks(pages.section(PAGE, HEADING))[0]
        commands = block.commands.splitlines(True)
        assert ["station", "office", "server", "client"] == [it.split()[1] for it in commands]
        if self.earlier:
            policy = "/etc/vethlumi/station/first.policy"
            commands[2:2] = [f"ssh root@station.example.org {BOTH_NAMES.format(policy)!r}\n".replace("\\'", "'\\''"),
                             commands[0], commands[1]]
        self.shell(ADMIN).run("".join(commands))

    def request(self, name):
        principal = "alice" if self.earlier else "alice@people"
        return (f"ssh-keygen -q -t ed25519 -N '' -f {name}; "
                f"vethlumi --wait 120 request {self.key_id(name)} {name}.pub --principals {principal}")

    def key_id(self, name):
        return f"people/{name}" if self.earlier else f"people/alice/{name}"


class Load:
    """What goes on on the client's machine: logins by one certificate; and requests, each for a new key, some of which
    are renewed or revoked then."""

    def __init__(self, site):
        self.site, self.client, self.is_over = site, site.boxes["client"], threading.Event()
        self.logins, self.done, self.failed = [], [], []

    @contextlib.contextmanager
    def going_on(self):
        with concurrent.futures.ThreadPoolExecutor(3) as pool:
            running = [pool.submit(self.log_in), *(pool.submit(self.ask, it) for it in "ab")]
            try:
                yield self
            finally:
                self.is_over.set()
            for it in running:
                it.result()

    def log_in(self):
        while not self.is_over.wait(0.3):
            self.logins.append(self.client.run(LOGIN.format("steady"), False).stdout.strip())

    def ask(self, who):
        """Each third certificate is renewed, and each third one revoked."""
        for number in itertools.count():
            name = f"load-{who}{number}"
            words = {1: f"vethlumi --wait 120 renew {name}-cert.pub",
                     2: f"vethlumi --wait 120 revoke --yes {name}-cert.pub"}.get(number % 3, "")
            for it in filter(None, (self.site.request(name), words)):
                told = self.client.run(it, False)
                if told.returncode:
                    self.failed.append((it, told.stdout))
            self.done.append((name, number % 3))
            if self.is_over.is_set():
                return

    def wait(self, more=4):
        """Waits until so many more of each have come to an end."""
        logins, done = len(self.logins), len(self.done)
        boxes.wait_until(lambda: len(self.logins) >= logins + more and len(self.done) >= done + more or self.failed,
                         "people work")

    def names(self, kind):
        return [name for name, it in self.done if it == kind]


@pytest.fixture
def site(request, base, packages, tmp_path):
    newer, earlier = tmp_path / "newer", request.config.getoption("--earlier-packages")
    for it in (newer, tmp_path / "rack"):
        it.mkdir()
    for name in NAMES:
        with_version(of(packages, name), NEWER, newer)
    made = Site(tmp_path / "rack", base, packages, None if earlier else request.getfixturevalue("installed"))
    with contextlib.closing(made):
        made.begin(newer, earlier)
        yield made


@marked(*on_boxes)
def test_all_machines_are_upgraded_while_people_work_and_go_back(site):
    before, processes = site.versions(), site.processes()
    site.boxes["client"].run(site.request("steady"), timeout=120)
    boxes.wait_until(lambda: "granted" == site.boxes["client"].run(LOGIN.format("steady"), False).stdout.strip(),
                     "alice logs in")
    with Load(site).going_on() as load:
        load.wait()
        site.upgrade()
        assert dict.fromkeys(MACHINES, [NEWER]) == site.versions()
        load.wait()
        if not site.earlier:
            assert {} == {it: pid for it, pid in site.processes().items() if pid == processes[it]}
            site.section(HEADING, 1)
            assert before == site.versions()
            load.wait()
    look(site, load)
    for machine in MACHINES:
        units = "'office*' 'vethlumi*' 'ssh*'"
        assert "" == site.on(machine, f"systemctl list-units --failed --no-legend --plain {units}"), machine
    print(f"figure: {len(load.logins)} logins and {len(load.done)} requests during an upgrade, none refused or lost")


def look(site, load):
    """Whether each login was granted and each request has what was asked for, once; and the trail has it all."""
    assert [] == load.failed
    assert {"granted": len(load.logins)} == collections.Counter(load.logins)
    told = site.boxes["client"].says("vethlumi certs --json").splitlines()
    rows = [it for it in map(json.loads, told) if "/load-" in it["keyid"]]
    due = {site.key_id(name): 2 if kind == 1 else 1 for name, kind in load.done}
    assert due == collections.Counter(it["keyid"] for it in rows)
    revoked = {site.key_id(name) for name in load.names(2)}
    states = {(it["keyid"] in revoked, it["state"]) for it in rows}
    assert {(True, "revoked"), (False, "signed")} == states
    serials = [int(it["serial"]) for it in rows]
    assert len(serials) == len({*serials})
    shown = site.on("client", "for it in load-*-cert.pub; do ssh-keygen -L -f $it | sed -n 's/^ *Serial: //p'; done")
    assert {*map(int, shown.split())} <= {*serials} and len(load.done) == len(shown.split())
    # What was revoked meanwhile reaches the server, and nothing else is refused there.
    version = json.loads(site.on("client", "vethlumi status --json"))["list version"]
    boxes.wait_until(lambda: version == site.on("server", "ssh-keygen -Q -l -f /var/lib/office-list/revoked.krl | "
                                                "sed -n 's/^# KRL version //p'"), "the server has the last list")
    for kind, due in ((0, "granted"), (1, "granted"), (2, "")):
        said = site.boxes["client"].run(LOGIN.format(load.names(kind)[-1]), False).stdout.strip()
        assert ("granted" if due else True) == (said if due else "Permission denied" in said), said
    if not site.earlier:
        compare(site, min(serials))


def compare(site, first):
    """The audit trail lacks nothing since the machines were booted: while the programs that write it are replaced, no
    line is lost."""
    lines = "".join(site.on(it, "journalctl -o json") + "\n" for it in ("office", "station"))
    client = site.boxes["client"]
    client.write("root/trail", lines)
    client.write("root/bodies", site.on("station", BODIES) + "\n")
    told = client.run(f"vethlumi audit --guard bodies --from {first} trail", False)
    assert 0 == told.returncode and re.match("nothing differs: ", told.stdout), told.stdout
