"""The units of programs/units under a systemd of their own, and the pages that say how to run an office with them.

Machines are boxes (boxes.py), set up by the commands of docs/OPERATING.md, "In service"."""
import contextlib
import fcntl
import os
import pathlib
import re
import shutil
import subprocess
import sys
import time

import pytest

import boxes
import pages
from running import TOP, left_out

# The first test may have to make the folder that every box starts from.
pytestmark = [pytest.mark.boxes, pytest.mark.root, pytest.mark.slow, pytest.mark.timeout(1800)]
IN_SERVICE = "In service"
DRILLS = (TOP / "docs/DRILLS.md").read_text()
MACHINES = ["admin", "office", "station", "server"]
# The programs that are built on a machine.
PROGRAMS = {"office": ["sshoffice"], "spare": ["sshoffice"], "station": ["sshstation"]}
# What stays in a shell when its commands have ended.
NAMES = re.compile(r"^(?:export |front=|\w+\(\)).*$", re.M)
# The office, for curl as root on its machine.
DOOR = "--unix-socket /run/office-door.sock http://office"
# The CAs that a server trusts.
CAS = "/etc/vethlumi/trusted-cas"
UNITS = "office office-door.socket office-front"
# What a caller is answered by the front, for a route of which the front keeps no answer.
ASK = ("curl -s -o /dev/null -w '%{{http_code}}' --cacert authority/ca.crt --cert authority/{}.pem "
       "https://office.example.org:8443/v1/certs/1")


@pytest.fixture(scope="session")
def base(tmp_path_factory):
    """The folder that every box starts from. A machine that boots no box at all is left out; if it boots one, every box
    has to boot."""
    try:
        rack = boxes.Rack(tmp_path_factory.mktemp("probe"))
        try:
            rack.add("probe")
        finally:
            rack.end()
    except boxes.CannotBoot as reason:
        left_out(reason)
    return rack.base


class Site(boxes.Rack):
    """Machines on which the commands of pages are typed, one shell for each."""

    def __init__(self, room, base, programs, kept=None):
        super().__init__(room, base, kept)
        self.programs, self.shells, self.printed = programs, {}, {}

    def add(self, *names):
        made = super().add(*names)
        for box in made:
            if box.name == "admin":
                box.may_log_in()
            place = box.files / "root/vethlumi"
            if not place.exists():
                for it in ("examples", "programs"):
                    shutil.copytree(TOP / it, place / it)
                for name in PROGRAMS.get(box.name, ()):
                    out = place / f"crates/{name}/out"
                    out.mkdir(parents=True)
                    shutil.copy2(self.programs[name], out / name)
        return made

    def shell(self, name):
        if name not in self.shells:
            self.shells[name] = boxes.Shell(self.boxes[name])
        return self.shells[name]

    def type(self, text):
        """Types the blocks of a text, each on its machine, and returns the lines that were printed."""
        printed = []
        for block in pages.blocks(text):
            if block.machine not in self.boxes:
                self.add(block.machine)
            printed += self.shell(block.machine).run(block.commands).splitlines()
        return printed

    def end_shells(self):
        for it in self.shells.values():
            it.end()

    def close(self):
        self.end_shells()
        self.end()


def set_up():
    return pages.section((TOP / "docs/OPERATING.md").read_text(), IN_SERVICE)


def of(printed, *lines):
    """Those of the printed lines that are among these."""
    return [it for it in printed if it in lines]


def install(room, base, built_programs, kept):
    """Types the page's commands into machines, and keeps the machines."""
    made = Site(room, base, built_programs)
    with contextlib.closing(made):
        made.add(*MACHINES)
        printed = made.type(set_up())
        lines = "alice-cert.pub serial 1", "granted"
        assert [*lines] == of(printed, *lines), printed
        made.end_shells()
        made.keep(kept)


@pytest.fixture(scope="session")
def built_programs(program, sshstation):
    return {"sshoffice": program, "sshstation": sshstation}


@pytest.fixture(scope="session")
def installed(base, built_programs, tmp_path_factory):
    """A folder with the machines as the page leaves them. Tests that run side by side share it."""
    common = tmp_path_factory.getbasetemp()
    common = common.parent if os.environ.get("PYTEST_XDIST_WORKER") else common
    kept = common / "machines"
    with open(common / "machines.lock", "w") as lock:
        fcntl.flock(lock, fcntl.LOCK_EX)
        if not kept.exists():
            new = tmp_path_factory.mktemp("machines")
            install(tmp_path_factory.mktemp("rack"), base, built_programs, new)
            new.rename(kept)
    return kept


@pytest.fixture
def make_site(base, installed, built_programs, tmp_path):
    """Switches machines of the page on. Their shells have the page's names."""
    made = Site(tmp_path, base, built_programs, installed)

    def switch_on(*names):
        made.add(*names)
        [names] = pages.blocks(DRILLS.partition("\n## ")[0])
        assert NAMES.findall(set_up()) == names.commands.splitlines()
        made.type(DRILLS.partition("\n## ")[0])
        wait_until_up(made.boxes["office"])
        return made
    with contextlib.closing(made):
        yield switch_on


@pytest.fixture
def site(make_site):
    """The administrator's machine and the office's. The others aren't needed to ask the office."""
    return make_site("admin", "office")


@pytest.fixture
def whole_site(make_site):
    """All machines of the page."""
    return make_site(*MACHINES)


@pytest.fixture
def office(site):
    return site.boxes["office"]


def states(box, units=UNITS):
    return box.run(f"systemctl is-active {units}", False).stdout.split()


def answer(box, caller="ana"):
    """The status with which the front answers a caller on the administrator's machine."""
    return box.rack.boxes["admin"].run(ASK.format(caller), False).stdout


def is_up(box):
    return ["active"] * 3 == states(box) and "200" == answer(box)


def wait_until_up(box):
    boxes.wait_until(lambda: is_up(box), f"the office on {box.name} answers")


def table(site):
    return site.boxes["admin"].says(
        "curl -sSf --cacert authority/ca.crt --cert authority/watch.pem https://office.example.org:8443/v1/table")


# ---- boxes

MAKER = """
import pathlib, sys, time
sys.path.insert(0, sys.argv[1])
import boxes
rack = boxes.Rack(sys.argv[2], pathlib.Path(sys.argv[3]))
box, = rack.add("lonely")
print(box.init, flush=True)
time.sleep(600)
"""


def test_no_box_outlives_its_maker(base, tmp_path):
    """Not even if its maker is killed. What it leaves is a folder of a control group, which the next one removes."""
    words = [sys.executable, "-c", MAKER, TOP / "tests/machines", tmp_path, base]
    with subprocess.Popen(words, stdout=subprocess.PIPE) as maker:
        init = pathlib.Path("/proc", maker.stdout.readline().decode().strip())
        assert init.exists()
        maker.kill()
    boxes.wait_until(lambda: not init.exists(), "the box has ended")
    assert [] == list(tmp_path.iterdir())
    # The kernel lets go of the last of them within a moment.
    boxes.wait_until(lambda: not (boxes.remove_old_groups() or left_of(maker.pid)), "nothing is left")


def left_of(pid):
    return [it for place in boxes.group_folders() for it in place.glob(f"sshoffice-box-{pid}-*")]


# ---- units

def test_an_office_comes_back_after_a_kill_a_reboot_and_a_power_cut(site, office):
    before = table(site)
    assert "1  user  signed" in before
    for name in ("sshoffice", "nginx", "systemd-socket-"):
        office.run(f"kill -9 $(pgrep -o -x {name} || pgrep -o {name})")
        time.sleep(0.2)
        wait_until_up(office)
    office.reboot()
    wait_until_up(office)
    office.pull_the_plug()
    office.start()
    office.wait_until_up()
    wait_until_up(office)
    time.sleep(2.1)
    assert before == table(site)
    assert "" == office.says("systemctl list-units --failed --no-legend --plain 'office*' 'nginx*' 'ssh*'")


def test_a_stopped_office_stays_stopped(office):
    # Requests come while it is stopped, and after.
    ask = f"while :; do curl -s --max-time 2 {DOOR}/v1/cas || sleep 0.01; done"
    office.run(f"for it in 1 2 3 4; do systemd-run -q --unit=asking-$it bash -c '{ask}'; done; sleep 0.5")
    office.run("systemctl stop office")
    answers = set()
    for _ in range(20):
        answers.add(answer(office))
        time.sleep(0.1)
    assert {"502"} == answers
    office.run("systemctl restart office-front")
    assert "502" == boxes.wait_until(lambda: (it := answer(office)) != "000" and it, "the front answers")
    assert ["inactive", "inactive", "active"] == states(office)
    assert "inactive" == office.run("systemctl is-active office-door.service", False).stdout.strip()
    office.run("systemctl start office")
    wait_until_up(office)
    assert "4" == office.says("systemctl list-units --no-legend 'asking-*' | wc -l")


def test_an_office_that_cannot_serve_ends_failed_and_raises_the_alert(office):
    office.write("etc/vethlumi/alert", "#!/bin/sh\necho \"called for $1 by $(id -un)\"\n", 0o755)
    begun = time.monotonic()
    office.run("chown root: /var/lib/office/office.db && systemctl kill -s KILL office")
    boxes.wait_until(lambda: ["failed"] == states(office, "office"), "the office has failed", 240)
    starts = int(office.says("systemctl show -P NRestarts office"))
    assert 5 <= starts <= 10
    # Two seconds lie between a failure and the next start.
    assert 2 * (starts - 1) <= time.monotonic() - begun
    said = boxes.wait_until(lambda: "called for" in (it := office.says("journalctl -b -t office-alert -o cat")) and it,
                            "the alert is raised")
    boxes.wait_until(lambda: "office.service has failed and stays down" in office.says("journalctl -b -p alert -o cat"),
                     "the alert is in the journal")
    assert "called for office.service by " in said and "by root" not in said
    # No request starts it again.
    assert ["502"] * 3 == [answer(office) for _ in range(3)]
    time.sleep(3)
    # systemd calls a door failed that it had to close while it was still being opened.
    assert states(office) in (["failed", "inactive", "active"], ["failed", "failed", "active"])
    office.run("chown office: /var/lib/office/office.db && systemctl reset-failed office && systemctl start office")
    wait_until_up(office)


def test_the_end_after_its_connections_is_no_failure(office):
    office.write("etc/vethlumi/office.env", "OFFICE_CONNECTIONS=2\n")
    office.run("systemctl restart office")
    wait_until_up(office)
    begun = "journalctl -b -u office -o cat | grep -c listening"
    ask = f"for it in 1 2 3 4 5 6; do curl -s {DOOR}/v1/cas || true; done"
    # Twice as often as a unit may start that fails.
    boxes.wait_until(lambda: office.run(ask) and 20 < int(office.says(begun)), "the program has ended often")
    wait_until_up(office)
    assert "0" == office.says("systemctl show -P NRestarts office")


def test_a_broken_list_of_revoked_certificates_makes_the_reload_fail(site, office):
    good = office.says("cat /etc/vethlumi/front/crl.pem")
    office.run("echo broken >/etc/vethlumi/front/crl.pem")
    reload = office.run("systemctl reload office-front", False)
    assert 0 != reload.returncode
    # The journal has a line a moment after it was said.
    boxes.wait_until(lambda: "crl.pem" in office.says("journalctl -b -u office-front -o cat -n 20"), "nginx says why")
    assert is_up(office)
    # A front that is started with it is started until the file is good.
    office.run("systemctl restart office-front", False)
    time.sleep(12)
    assert "activating" == states(office, "office-front")[0]
    office.write("etc/vethlumi/front/crl.pem", good + "\n")
    wait_until_up(office)
    site.type("""
```sh admin
authority revoke authority authority/watch.pem
scp authority/crl.pem root@office.example.org:/etc/vethlumi/front
```
```sh office
systemctl reload office-front
```
""")
    boxes.wait_until(lambda: "403" == answer(office, "watch"), "the certificate is refused")
    assert "200" == answer(office)


def test_the_front_may_have_a_low_port_and_no_other_right(office):
    office.run("sed -i 's/:8443 ssl/:443 ssl/; s/ 8443 ssl/ 443 ssl/' /etc/vethlumi/front/nginx.conf")
    office.run("systemctl restart office-front")
    said = boxes.wait_until(lambda: office.run("curl -sk https://127.0.0.1/v1/cas", False).stdout, "port 443 answers")
    assert said.startswith("1 1 SHA256:")
    # CAP_NET_BIND_SERVICE is the tenth of capability.h, counted from 0.
    status = office.says("cat /proc/$(systemctl show -P MainPID office-front)/status")
    rights = [line.split()[1] for line in status.splitlines() if line.startswith(("CapPrm", "CapEff", "CapBnd"))]
    assert [f"{1 << 10:016x}"] * 3 == rights
    assert "" == office.says("ss -Hltn 'sport = :80'")


def test_the_log_is_rotated(site, office):
    """By the unit of Debian's logrotate, which runs once a day, and here because the log is larger than it may be."""
    folder = "/var/lib/office-front"
    office.run(f"cat {folder}/asked.log; truncate -s 101M {folder}/asked.log")
    # Its timer may be starting it, and that run may have seen the log as it was before.
    office.run("systemctl restart logrotate")
    boxes.wait_until(lambda: ["asked.log", "asked.log.1"] == office.says(f"cd {folder} && ls asked.log*").split(),
                     "nginx has made a new log")
    assert "office-front" == office.says(f"stat -c %U {folder}/asked.log")
    # A process of nginx may take a request before it has opened the new log.
    boxes.wait_until(lambda: "200" == answer(office) and "/v1/certs/1 " in office.says(f"cat {folder}/asked.log"),
                     "nginx writes the new log")
    # What nginx itself reports goes to the journal, also when it is in the background.
    assert "front.log" not in office.says(f"ls {folder}")
    assert office.says("readlink /proc/$(systemctl show -P MainPID office-front)/fd/2").startswith("socket:")


def test_the_units_are_limited(office):
    """Memory and addresses, as systemd has understood them; no image of the memory is written."""
    shown = dict(it.split("=", 1) for it in office.says("systemctl show office").splitlines())
    assert ("0", str(1 << 30)) == (shown["LimitCORE"], shown["MemoryMax"])
    assert {"0.0.0.0/0", "::/0"} == set(shown["IPAddressDeny"].split())
    limits = office.says("cat /proc/$(pgrep -x sshoffice)/limits")
    assert ["0", "0"] == next(it for it in limits.splitlines() if it.startswith("Max core")).split()[4:6]


def test_the_memory_of_the_units_is_limited(office):
    """As the kernel sees it, in control groups of version 1 or 2."""
    office.limit_memory()
    office.run("systemctl restart office office-front")
    wait_until_up(office)
    limit = ("cd /sys/fs/cgroup; cat memory/system.slice/{0}.service/memory.limit_in_bytes "
             "system.slice/{0}.service/memory.max 2>/dev/null || true")
    found = [office.says(limit.format(it)) for it in ("office", "office-door", "office-front")]
    if found == [""] * 3:
        left_out("this machine gives a box no control group that limits memory")
    assert [str(it << 20) for it in (1024, 512, 1024)] == found


# ---- a restore

KEEP_A_COPY = """
```sh office
mkdir -p copies
systemctl kill -s STOP office
cp /var/lib/office/office.db /var/lib/office/office.db-wal copies
systemctl kill -s CONT office
```
"""


def test_a_copy_is_restored(site, office):
    site.type(KEEP_A_COPY)
    before = table(site)
    site.type("""
```sh admin
echo 'revoke-serial 1' | send ana revoke-1
```
""")
    digest = office.says("sha256sum copies/*")
    said = office.says("office-restore copies/office.db")
    assert said.splitlines()[-1] == f"office-restore: the office serves copies/office.db: {before.splitlines()[-1]}"
    wait_until_up(office)
    boxes.wait_until(lambda: before == table(site), "the table is that of the copy")
    assert "office:office 600" == office.says("stat -c '%U:%G %a' /var/lib/office/office.db")
    assert digest == office.says("sha256sum copies/*")
    # The file that was there is kept with its log, and has the revocation.
    kept = office.says("ls -d /var/lib/office/replaced-*")
    assert "total 1 version 1" == office.says(f"sshoffice table --db {kept}/office.db | tail -n 1")
    assert [] == office.says("find /var/lib/office -maxdepth 1 -name 'restore*'").split()
    assert 0 == int(office.says("systemctl show -P NRestarts office"))


def test_a_failed_office_is_restored(site, office):
    site.type(KEEP_A_COPY)
    office.run("chown root: /var/lib/office/office.db && systemctl kill -s KILL office")
    boxes.wait_until(lambda: ["failed"] == states(office, "office"), "the office has failed", 240)
    office.run("office-restore copies/office.db")
    wait_until_up(office)


def test_a_restore_that_loses_its_terminal_leaves_an_office(site, office):
    """It is given up before anything was changed, or it goes on to its end."""
    site.type(KEEP_A_COPY)
    ends = set()
    for delay in (0.05, 0.2, 0.3, 0.4, 0.5, 0.7):
        # Its output goes into a pipe that nobody reads any more.
        restore = f"office-restore copies/office.db > >(sleep {delay}) & sleep {delay}; kill -HUP $! || true; wait $!"
        ended = office.run(restore, False)
        ends.add(ended.returncode)
        wait_until_up(office)
    # The next one removes what was left.
    office.run("office-restore copies/office.db")
    assert [] == office.says("find /var/lib/office -maxdepth 1 -name 'restore*'").split()
    # 129 is the end by the signal.
    assert ends <= {0, 129}


# Stands for a program: as the user office it puts links in the place of a restore's folders, and then runs the program.
PUTTING_LINKS = """#!/bin/bash
setpriv --reuid=office --regid=office --clear-groups -- bash -c '
cd /var/lib/office && for it in restore.* replaced-*; do
  [ ! -d "$it" ] || [ -L "$it" ] || { /usr/bin/mv "$it" "was-$it" && ln -s /srv/precious "$it"; }; done'
exec "/usr/bin/${0##*/}" "$@"
"""


def test_a_restore_changes_nothing_elsewhere(site, office):
    """Not even if somebody else has become the user office, and puts links in its way at the worst moment."""
    site.type(KEEP_A_COPY)
    office.run("mkdir /srv/precious && echo precious >/srv/precious/office.db")
    look = "cd /srv && stat -c '%n %U %a' precious precious/* && cat precious/office.db"
    before = office.says(look)
    for program in ("cp", "dd", "chown", "chmod", "mv"):
        office.write(f"usr/local/sbin/{program}", PUTTING_LINKS, 0o755)
        office.run("office-restore copies/office.db", False)
        office.run(f"rm -rf /usr/local/sbin/{program} /var/lib/office/{{was,restore,replaced}}*")
        assert before == office.says(look), program


@pytest.mark.parametrize("spoil, why", [
    ("truncate -s 8192 bad.db", "is not sound"),
    ("head -c 9000 /dev/urandom >bad.db", "is not sound: "),
    ("rm bad.db && sqlite3 bad.db 'CREATE TABLE other (x)'", "isn't a database that this sshoffice can serve"),
    (": >bad.db", "can't read bad.db, or it is empty"),
], ids=["cut off", "noise", "another database", "empty"])
def test_a_bad_copy_is_not_restored(site, office, spoil, why):
    site.type(KEEP_A_COPY)
    before = office.says("sha256sum /var/lib/office/office.db; systemctl show -P MainPID office")
    office.run(f"cp copies/office.db bad.db; {spoil}")
    ended = office.run("office-restore bad.db", False)
    assert (1, True) == (ended.returncode, why in ended.stdout), ended.stdout
    assert before == office.says("sha256sum /var/lib/office/office.db; systemctl show -P MainPID office")
    assert ["office.db", "office.db-wal"] == [it for it in office.says("ls /var/lib/office").split() if "shm" not in it]
    assert is_up(office)


# ---- drills

def drill(site, heading):
    """Types a drill's commands, and returns what they print. The time is printed too."""
    begun = time.monotonic()
    printed = site.type(pages.section(DRILLS, heading))
    print(f"figure: the drill '{heading}' was done after {time.monotonic() - begun:.0f} s")
    return printed


def test_drill_backup_and_restore(whole_site):
    printed = drill(whole_site, "Backup and restore")
    assert ["revoked", "failed", "revoked", "revoked", "refused"] \
        == of(printed, "revoked", "failed", "granted", "refused")
    assert any("office.service has failed and stays down" in it for it in printed)


def test_drill_a_new_ca(whole_site):
    printed = drill(whole_site, "A new CA")
    assert ["granted", "granted", "refused", "granted"] == of(printed, "granted", "refused")
    signer = next(it for it in printed if "Signing CA" in it)
    assert whole_site.boxes["station"].says("ssh-keygen -l -f second.pub").split()[1] in signer


def test_drill_a_lost_ca(whole_site):
    printed = drill(whole_site, "A lost CA")
    assert ["refused", "granted"] == of(printed, "granted", "refused")


def test_drill_a_taken_front_and_then_a_lost_ca(whole_site):
    """The front may have had the station sign what is in no table, so a lost CA may follow."""
    printed = drill(whole_site, "A taken front")
    assert ["granted", "amiss", "refused", "granted"] == of(printed, "granted", "refused", "amiss")
    # What the office says of its departments: the foreign one, and the administrator's own.
    told = "\n".join(printed)
    assert "department other\nkind user\nadmins eve\nprincipals *e\n" in told
    assert "department web\nkind user\nadmins ana\nprincipals alice\n" in told
    assert [] == [it for it in printed if it.startswith("foreign: ")]
    assert ["1 web/alice", "2 web/other"] == [f"{it[0]} {it[3]}" for it in map(str.split, printed)
                                              if len(it) == 4 and len(it[1]) == 64]
    key = whole_site.boxes["station"].says("ssh-keygen -l -f first.pub").split()[1]
    assert [key] == [it.split()[1] for it in whole_site.boxes["server"].says(f"ssh-keygen -l -f {CAS}").splitlines()]
    assert any(it.startswith("front: the certificate is another authority's") for it in printed)
    printed = drill(whole_site, "A lost CA")
    assert ["refused", "granted"] == of(printed, "granted", "refused")


def test_drill_a_lost_office(whole_site):
    printed = drill(whole_site, "A lost office")
    assert ["refused", "granted"] == of(printed, "granted", "refused")
    assert "alice-cert.pub serial 1000000" in printed
    assert any(it.startswith("1 ") and it.endswith(" web/alice") for it in printed), "the guard knows what is out"


def test_drill_another_machine(whole_site):
    printed = drill(whole_site, "Another machine")
    assert ["inactive"] * 3 + ["same", "granted"] == of(printed, "active", "inactive", "same", "granted")
    # The first machine stays out of it, also after it was switched on again.
    first = whole_site.boxes["office"]
    whole_site.shells.pop("office").end()
    first.reboot()
    assert ["inactive"] * 3 == states(first)
    assert ["active"] * 3 == states(whole_site.boxes["spare"])
