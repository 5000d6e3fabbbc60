"""An office on a volume of three machines, as docs/GROWING.md sets it up: callers ask without pause while programs,
mounts, disks, links and machines fail, and every answer is written down.

That no answer is lost or changed, no serial has two digests, no old server answers, and all heals, is asserted always.
That a takeover takes no longer than docs/GROWING.md says is asserted as it stands there if these tests run by
themselves. `./check --machines` runs them while other work takes what it gets of the processors, and says with
`--patience 3` that a takeover may take three times as long."""
import bisect
import collections
import contextlib
import hashlib
import json
import os
import pathlib
import queue
import random
import re
import shutil
import signal
import sqlite3
import statistics
import subprocess
import sys
import tempfile
import threading
import time
from concurrent.futures import ThreadPoolExecutor

import pytest

import boxes
import pages
from asking import department
from running import TOP, left_out, until

pytestmark = [pytest.mark.boxes, pytest.mark.root, pytest.mark.slow, pytest.mark.alone, pytest.mark.volume]
VOLUME = ["one", "two", "three"]
MACHINES = [*VOLUME, "admin", "station"]
# Sets of machines may have their faults side by side, since a round mostly waits. Each takes so much memory. Linux
# gives root 128 instances of inotify, of which a box takes seven: so at most two sets are made at once, with five boxes
# each.
# Later each has three.
MEMORY_OF_SITE, AT_ONCE = 6_000_000_000, 2
DOOR = "unix:/run/office-door.sock"
LOG = "/run/office-way/way.log"
# A line of it: the moment of the answer, its status, the request, the doors that were asked, and the seconds of each.
# 499 stands for a client that didn't wait.
LINE = re.compile(r'(\d+\.\d+) (?:200|4[0-8]\d) "(\w+) [^"]*" "(?:[^"]*, )?' + DOOR
                  + r'" "(?:[^"]*, )?(\d+\.\d+)"')
LISTENING = re.compile(r"^(\d+\.\d+) \S+ office-waiting\[\d+\]: listening 8022$", re.M)
# For how many seconds after a sign the office of a machine is asked (programs/volume/office-volume).
LEASE = 5
# The journal has the line of a server that began to listen a moment later, on a busy machine some seconds.
LAG = 10
Answer = collections.namedtuple("Answer", "asked answered machine method")
Reign = collections.namedtuple("Reign", "begun machine")


class Site(boxes.Rack):
    """The machines of the page, with what was seen of them. `disk` is a folder for the bricks; without it they are in
    memory."""

    def __init__(self, room, base, program, disk=None):
        super().__init__(room, base)
        self.program, self.disk, self.shells = program, disk, {}
        self.answers, self.reigns, self.read = set(), [], {}
        # The callers are on the same network.
        assert not self.enter("ip", "address", "add", "10.80.0.1/24", "dev", "rack").wait()

    def furnish(self, box):
        if box.name not in VOLUME:
            return
        box.disks.append("--bind=/dev/fuse")
        if self.disk:
            os.mkdir(f"{self.disk}/{box.name}")
            box.disks.append(f"--bind={self.disk}/{box.name}:/srv/office-brick")
        else:
            box.add_disk("/srv/office-brick", "1200m")

    def hosts(self):
        """`office` has two addresses."""
        pair = [self.boxes[it].address for it in ("one", "two") if it in self.boxes]
        return super().hosts() + "".join(f"{it} office.{boxes.DOMAIN}\n" for it in pair)

    def prepare_box(self, box):
        if box.name == "admin":
            box.may_log_in()
        # The packages are in the folder that every box starts from.
        box.write("usr/local/bin/apt-get", "#!/bin/sh\nexit 0\n", 0o755)
        place = box.files / "root/vethlumi"
        for it in ("examples", "programs"):
            shutil.copytree(TOP / it, place / it)
        if box.name in ("one", "two"):
            out = place / "crates/sshoffice/out"
            out.mkdir(parents=True)
            shutil.copy2(self.program, out / "sshoffice")

    def type(self, heading, names=None, has=""):
        """Types the commands below a heading of the page: all blocks, or those that have a text. `names` has machines
        that are meant, by the machines of the page, of which some are left out if their name is None."""
        names = {it: it for it in MACHINES} | (names or {})
        for block in pages.blocks(pages.section((TOP / "docs/GROWING.md").read_text(), heading)):
            name = names[block.machine]
            if not name or has not in block.commands:
                continue
            if name not in self.shells:
                self.shells[name] = boxes.Shell(self.boxes[name])
            commands = re.sub(rf"\b({'|'.join(VOLUME)})(?=\.example\.org)", lambda it: names[it[1]], block.commands)
            self.shells[name].run(commands)

    def leave_shells(self):
        for it in self.shells.values():
            it.end()
        self.shells.clear()

    def set_up(self):
        """Types the page's commands, and has root put a department."""
        self.add(*MACHINES)
        for box in self.boxes.values():
            self.prepare_box(box)
        self.type("Three machines")
        root = ("curl -sSf --retry 20 --retry-all-errors --cacert authority/ca.crt --cert authority/root.pem "
                "--data-binary @- https://office.example.org:8443/v1/requests/web-1")
        assert "department web" == self.boxes["admin"].says(f"{root} <<'END'\n{department()}END")
        self.leave_shells()
        for it in ("admin", "station"):
            self.boxes[it].pull_the_plug()
        for it in self.pair():
            self.have_answers_written(it)
        until(self.serving, seconds=180)

    def have_answers_written(self, box):
        """The callers of these tests are more than a front lets through, and the answers are written down."""
        box.run("sed -i 's/rate=20r/rate=2000r/' /etc/vethlumi/front/nginx.conf; systemctl reload office-front")
        box.run(f"sed -i 's#access_log off;#access_log {LOG} way; log_subrequest on;#' /etc/vethlumi/way/way.conf; "
                "systemctl reload office-way")

    def pair(self):
        return [self.boxes[it] for it in ("one", "two")]

    def other(self, box):
        return next(it for it in self.pair() if it is not box)

    # ---- what is seen

    def listening(self):
        """The machines whose offices listen."""
        look = "grep -q '0100007F:1F56 [0-9A-F:]* 0A' /proc/$(pgrep -u office -x sshoffice | head -n 1)/net/tcp"
        return [it for it in self.pair() if it.init and it.run(look, check=False).returncode == 0]

    def serving(self):
        """The machine whose office serves, or None. One that has lost its file listens until it is ended."""
        found = self.listening()
        self.collect()
        if len(found) < 2:
            return found[0] if found else None
        return next((it for it in found if it.name == self.reigns[-1].machine), None)

    def collect(self):
        """Writes down which machine's office answered when, and when each began to serve."""
        for box in self.pair():
            if not box.init:
                continue
            self.answers |= {Answer(float(moment) - float(took), float(moment), box.name, method)
                             for moment, method, took in LINE.findall(self.new_text(box))}
            text = box.run("journalctl -u office -o short-unix --no-pager", check=False).stdout
            self.reigns = sorted({*self.reigns, *[Reign(float(it), box.name) for it in LISTENING.findall(text)]})

    def new_text(self, box):
        """The whole lines that came to a box's log since the last call. The log begins again with its machine, and with
        the unit of its way, which has a folder of its own."""
        with contextlib.suppress(OSError), open(f"/proc/{box.init}/root{LOG}", "rb") as it:
            log = box.name, box.init, os.fstat(it.fileno()).st_ino
            it.seek(self.read.get(log, 0))
            text = it.read()
            text = text[:text.rfind(b"\n") + 1]
            self.read[log] = self.read.get(log, 0) + len(text)
            return text.decode(errors="replace")
        return ""

    def intruders(self):
        """Answers of a machine to what it was asked after the other one had begun to serve."""
        found, begun = [], [it.begun for it in self.reigns]
        for it in self.answers:
            first = bisect.bisect_left(begun, it.asked)
            last = bisect.bisect_right(begun, it.answered + LAG)
            if it.machine not in {reign.machine for reign in self.reigns[max(0, first - 1):last]}:
                found.append(it)
        return found

    # ---- faults

    def mount_of(self, box):
        return box.says("pgrep -x ceph-fuse | head -n 1")

    def kill_server(self, box):
        box.run("pkill -KILL -u office -x sshoffice")

    def kill_mount(self, box):
        box.run(f"kill -KILL {self.mount_of(box)}")

    def freeze_mount(self, box):
        pid = self.mount_of(box)
        box.run(f"kill -STOP {pid}")
        # It may have been ended meanwhile, and another one begun.
        return lambda: box.run("pkill -CONT -x ceph-fuse || true")

    def freeze_machine(self, box):
        """Has a machine stand still, as a virtual one does that its host doesn't let run: its kernel doesn't answer."""
        stopped = set()
        while more := {box.init, *boxes.descendants(box.init)} - stopped:
            self.signal(signal.SIGSTOP, more)
            stopped |= more
        back = self.cut_link(box)
        return lambda: (back(), self.signal(signal.SIGCONT, stopped))

    def signal(self, number, pids):
        for pid in pids:
            with contextlib.suppress(ProcessLookupError):
                os.kill(pid, number)

    def kill_brick(self, box):
        box.run("systemctl kill -s KILL ceph-osd@*; systemctl stop ceph-osd@*")
        return lambda: box.run(f"systemctl start ceph-osd@{VOLUME.index(box.name)}")

    def fill_disk(self, box):
        box.run("dd if=/dev/zero of=/srv/office-brick/full bs=1M 2>/dev/null || true")
        return lambda: box.run("rm -f /srv/office-brick/full")

    def kill_metadata_server(self, box):
        """Kills the metadata server that is active, on whichever machine it is."""
        said = self.boxes["three"].says("ceph mds stat 2>/dev/null")
        self.boxes[re.search(r"=(\w+)=up:active", said)[1]].run("pkill -KILL -x ceph-mds")

    def cut_link(self, box):
        """Takes the box off the bridge, as a pulled cable does."""
        assert not self.enter("ip", "link", "set", f"vb-{box.name}", "nomaster").wait()
        return lambda: self.enter("ip", "link", "set", f"vb-{box.name}", "master", "rack").wait()

    def part(self, _):
        """Has the two machines with offices not reach each other, while both reach the third one and the callers."""
        def isolate(how):
            for it in self.pair():
                words = ["ip", "link", "set", f"vb-{it.name}", "type", "bridge_slave", "isolated", how]
                assert not self.enter(*words).wait()

        isolate("on")
        return lambda: isolate("off")

    def renew(self, box):
        """Puts a new machine in the place of one, under its name and address."""
        box.pull_the_plug()
        place = self.files / box.name
        assert not self.enter("umount", self.room / box.name / "root").wait()
        for it in ("over", "work", "root"):
            shutil.rmtree(place / it)
        for it in place.glob("disk*/*"):
            shutil.rmtree(it) if it.is_dir() else it.unlink()
        box.make_files()
        box.write("etc/hosts", self.hosts())
        self.prepare_box(box)
        box.start()
        box.wait_until_up()

    def reboot(self, box):
        box.pull_the_plug()
        box.start()
        box.wait_until_up()

    # ---- after a fault

    def is_healed(self):
        """Whether all copies are there, and whole, and all monitors and metadata servers."""
        self.ill = self.boxes["three"].run("timeout 30 ceph -s -f json 2>/dev/null", check=False).stdout
        try:
            found = json.loads(self.ill)
        except ValueError:
            return False
        servers, states = found["fsmap"], [it["state_name"] for it in found["pgmap"]["pgs_by_state"]]
        return ([3, 3, 1, 2] == [len(found["quorum"]), found["osdmap"]["num_up_osds"], servers["up"],
                                 servers["up:standby"]] and all(it.startswith("active+clean") for it in states))

    def compare_copies(self):
        """Has the volume compare the bytes of all its copies."""
        three = self.boxes["three"]

        def looked():
            found = json.loads(three.run("ceph pg ls -f json 2>/dev/null").stdout)["pg_stats"]
            return {it["pgid"]: (it["last_deep_scrub_stamp"], it["state"]) for it in found}

        before = looked()
        for it in before:
            three.run(f"ceph pg deep-scrub {it}")
        until(lambda: all(stamp != before[it][0] for it, (stamp, _) in looked().items()), seconds=300, pause=1)
        states = {state for _, state in looked().values()}
        assert not any("inconsistent" in it for it in states), f"the copies differ: {states}"

    def is_well(self):
        """Whether one office serves, and each machine has its mount."""
        self.ill = "nobody serves, or two do"
        if not self.serving() or len(self.listening()) > 1:
            return False
        with ThreadPoolExecutor(2) as pool:
            said = [*pool.map(lambda it: it.run("office-volume check", check=False, timeout=240), self.pair())]
        self.ill = "\n".join(it.stdout for it in said)
        return not any(it.returncode for it in said)

    def keep_evidence(self):
        """Writes down what the machines have after a round that failed, and returns where."""
        place = self.room / "evidence"
        place.mkdir(exist_ok=True)
        (place / "seen.json").write_text(json.dumps([self.reigns, sorted(self.answers)]))
        for name in VOLUME:
            box, kept = self.boxes[name], place / name
            shutil.copytree(box.files / "var/log/ceph", kept / "log", dirs_exist_ok=True)
            if box.init:
                said = box.run("journalctl -o short-precise --no-pager; timeout 20 ceph -s", check=False, timeout=120)
                (kept / "journal").write_text(said.stdout)
                box.run("timeout -s KILL 20 cp /var/lib/office/office.db* /root", check=False)
                shutil.copytree(box.files / "root", kept / "root", dirs_exist_ok=True)
        return place

    def copied(self):
        """Copies the office's file and its log, as both are at one moment, and returns where they are."""
        box = self.serving()
        return self.copied_from(box) if box else None

    def copied_from(self, box):
        said = box.run("rm -rf copy; mkdir copy; server=$(pgrep -u office -x sshoffice | head -n 1) || true; "
                       "kill -STOP $server || true; cp /var/lib/office/office.db* copy || true; "
                       "kill -CONT $server || true; ls copy/office.db", check=False)
        return None if said.returncode else box.files / "root/copy"


@contextlib.contextmanager
def opened(copy):
    """A connection to the tables of such a copy."""
    with tempfile.TemporaryDirectory() as room:
        shutil.copytree(copy, room, dirs_exist_ok=True)
        with contextlib.closing(sqlite3.connect(f"{room}/office.db")) as connection:
            yield connection


class Calling:
    """The callers, and what they wrote down."""

    def __init__(self, site):
        folder = site.room / "admin/root/root/authority"
        self.site, self.records, self.faults, self.lock = site, [], [], threading.Lock()
        self.done, self.looked_at, self.digests = [], 0, {}
        self.said = open(site.room / "callers", "wb")
        self.process = site.enter(sys.executable, "-B", TOP / "tests/calling.py", folder,
                                  *[it.address for it in site.pair()], stdin=-1, stdout=-1, stderr=self.said)
        threading.Thread(target=self.read, daemon=True).start()

    def read(self):
        for line in self.process.stdout:
            record = json.loads(line)
            with self.lock:
                if "was" in record:
                    self.faults.append(record)
                elif "done" in record:
                    self.done.append(record)
                else:
                    self.records.append(record)

    def since(self, moment):
        with self.lock:
            return [it for it in self.records if it["ended"] >= moment]

    def tell(self, line):
        """Tells the callers to `rest`, to `go` on, or to ask `again`, and waits until they did."""
        before = len(self.done)
        self.process.stdin.write(f"{line}\n".encode())
        self.process.stdin.flush()
        with contextlib.suppress(AssertionError):
            return until(lambda: self.done[before:], seconds=300)[0]
        said = pathlib.Path(self.said.name).read_text()[-3000:]
        raise AssertionError(f"the callers don't {line} after 300 seconds: {self.process.poll()}\n{said}")

    def look(self, some):
        """Sends some of what was answered since the last look once more, and of what was answered before. Returns where
        the answer is another one."""
        with self.lock:
            last, self.looked_at = len(self.records) - self.looked_at, len(self.records)
        done = self.tell(f"again {last} {some}")
        assert done["asked"] == min(some, last) + min(some, self.looked_at - last)
        return [f"{it['was']} is answered now by {it['status']} {it['reply']}" for it in self.faults]

    def accepted(self):
        """What was accepted, and the digests of each serial, in all answers that were ever given."""
        found, accepted = collections.defaultdict(set), [it for it in self.since(0) if it["status"] == 200]
        for it in accepted:
            if it["reply"].startswith("issued "):
                _, serial, _, digest = it["reply"].split()
                found[int(serial)].add(digest)
        return accepted, found

    def end(self):
        with contextlib.suppress(OSError):
            self.process.stdin.close()
        with contextlib.suppress(subprocess.TimeoutExpired):
            self.process.wait(5)
        self.process.kill()
        self.process.wait(30)
        self.said.close()


@pytest.fixture(scope="module")
def base(tmp_path_factory, request):
    """The folder that these boxes start from. A machine that boots no box at all is left out; if it boots one, every
    box has to boot."""
    if not request.config.getoption("--rounds"):
        left_out("--rounds N says how many faults there are to be")
    free = int(re.search(r"^MemAvailable: +(\d+) kB$", pathlib.Path("/proc/meminfo").read_text(), re.M)[1]) * 1024
    wanted = request.config.getoption("--sites") * MEMORY_OF_SITE
    if free < wanted:
        left_out(f"{free / 1e9:.1f} GB of memory are free, and the machines take {wanted / 1e9:.0f}")
    try:
        folder = boxes.prepare(*boxes.OF_VOLUME)
        rack = boxes.Rack(tmp_path_factory.mktemp("probe"), folder)
        try:
            rack.add("probe")
        finally:
            rack.end()
    except boxes.CannotBoot as reason:
        left_out(reason)
    return folder


@pytest.fixture(scope="module")
def sites(base, program, tmp_path_factory, request):
    made = []
    try:
        for _ in range(min(request.config.getoption("--sites"), request.config.getoption("--rounds"))):
            made.append(Site(tmp_path_factory.mktemp("site"), base, program))
        with ThreadPoolExecutor(AT_ONCE) as pool:
            [*pool.map(Site.set_up, made)]
        yield made
    finally:
        for it in made:
            it.end()


@pytest.fixture
def site(sites):
    return sites[0]


# By name: what fails, of the machine that serves (False: of any machine), and the seconds until it is brought back, or
# from which to which these are drawn. What is frozen briefly is back while the other machine takes over.
FAULTS = {
    "server killed": (Site.kill_server, True, 0),
    "mount killed": (Site.kill_mount, True, 0),
    "mount frozen": (Site.freeze_mount, True, 45),
    "machine frozen": (Site.freeze_machine, True, 60),
    "mount frozen briefly": (Site.freeze_mount, True, (20, 30)),
    "machine frozen briefly": (Site.freeze_machine, True, (20, 30)),
    "brick killed": (Site.kill_brick, False, 4),
    "disk full": (Site.fill_disk, False, 4),
    "metadata server killed": (Site.kill_metadata_server, False, 0),
    "link cut": (Site.cut_link, True, 0),
    "offices parted": (Site.part, False, 30),
    "rebooted": (Site.reboot, True, 0),
}
# How many of sixty rounds: those that take longer come less often. "Link cut, brick killed" leaves one copy alone.
WEIGHTS = {"server killed": 8, "mount killed": 8, "mount frozen": 3, "machine frozen": 3, "mount frozen briefly": 2,
           "machine frozen briefly": 4, "brick killed": 5, "disk full": 5, "metadata server killed": 5, "link cut": 6,
           "offices parted": 3, "rebooted": 5, "link cut, brick killed": 3}
# The longest takeover, in seconds, after a fault of the machine that serves. With `--patience N` it may take N times as
# long.
LONGEST = {"server killed": 10, "mount killed": 10, "mount frozen": 40, "machine frozen": 40, "link cut": 40,
           "rebooted": 40}
# What fails stays so for these seconds after the other machine took over, or after it failed.
STAYS = 3
# For how many seconds the way asks the offices for a caller (programs/volume/way.js).
LONGEST_WAIT = 120


def drawn(draw, rounds):
    """The names of so many faults: one of each kind, and then more of those that take less time."""
    kinds = draw.sample([*WEIGHTS], len(WEIGHTS))
    every = [name for name, count in WEIGHTS.items() for _ in range(count - 1)]
    more = max(0, rounds - len(kinds))
    return [*kinds, *draw.sample(every * -(-more // len(every)), more)][:rounds]


def begin_fault(site, name):
    """Has something fail, and returns what brings it back, after how many seconds, and when it failed."""
    serving = until(site.serving, seconds=180)
    backs, wait, moment = [], 0, time.time()
    for it in name.split(", "):
        act, of_server, seconds = FAULTS[it]
        # Two faults at once are of two machines.
        any_box = site.other(serving) if ", " in name else site.boxes[random.choice(("one", "two", "three"))]
        backs.append(act(site, serving if of_server else any_box))
        wait = max(wait, random.uniform(*seconds) if isinstance(seconds, tuple) else seconds)
    return [it for it in backs if callable(it)], 30 if ", " in name else wait, moment


def takeover(site, moment):
    """The seconds from a fault to the first answer of an office that began to serve after it, and its machine."""
    end = time.monotonic() + 180
    while time.monotonic() < end:
        site.collect()
        begun = [it for it in site.reigns if it.begun > moment]
        first = min((it.answered for it in site.answers if begun and it.answered >= begun[0].begun), default=None)
        if first:
            return first - moment, begun[0].machine
        time.sleep(0.3)
    raise AssertionError("nobody took over")


def one_round(site, calling, name, patience=1):
    """Has something fail, waits until all is well again, looks at every answer, and returns the seconds of a
    takeover."""
    backs, wait, moment = begin_fault(site, name)
    took, machine = takeover(site, moment) if name in LONGEST else (None, None)
    time.sleep(max(STAYS if backs else 0, wait - (time.time() - moment)))
    for it in backs:
        it()
    until_well(site, site.is_well)
    time.sleep(0.5)
    calling.tell("rest")
    seen = calling.since(moment)
    assert seen, "nobody got an answer"
    differ = calling.look(60)
    until_well(site, site.is_healed)
    site.collect()
    found = wrong(site, calling, differ)
    assert not found, f"{found}; {site.reigns[-6:]}"
    found = errors(seen, patience)
    assert not found, f"callers saw errors: {found[:5]}"
    calling.tell("go")
    waited = max(it["ended"] - it["begun"] for it in seen)
    begun = next((it for it in site.reigns if it.begun > moment), None)
    how = (f"{machine} answered after {took:.1f} s" if machine else "nobody had to take over" if not begun else
           f"{begun.machine} began to serve after {begun.begun - moment:.1f} s")
    print(f"{name}: {how}; {len(seen)} answers, the longest took {waited:.1f} s; {time.time() - moment:.0f} s in all")
    return took


def until_well(site, is_so):
    with contextlib.suppress(AssertionError):
        return until(is_so, seconds=300, pause=0.5)
    commands = ("journalctl --no-pager -u 'office*' | tail -40; "
                "ps aux | grep -E 'ceph|sshoffice|waiting' | cut -c1-150; timeout 10 ceph -s")
    said = [it.run(commands, check=False).stdout for it in site.pair() if it.init]
    raise AssertionError("\n\n".join([site.ill, *said]))


def wrong(site, calling, differ, copy=None):
    """What is wrong with the answers that were ever given, with the tables, and with who gave the answers."""
    accepted, digests = calling.accepted()
    found = {"an answer isn't given again": differ,
             "a serial has two digests": [serial for serial, it in digests.items() if len(it) > 1],
             "an old server answered": site.intruders()}
    with opened(copy or until(site.copied, seconds=60, pause=0.5)) as tables:
        found["the tables aren't sound"] = [it for it in tables.execute("PRAGMA integrity_check") if it != ("ok",)]
        bodies = dict(tables.execute("SELECT serial, body FROM cert"))
        kept = {(caller, key): (bytes(message), reply)
                for caller, key, message, reply in tables.execute("SELECT caller, key, message, reply FROM request")}
    found["an answer isn't in the tables"] = [
        it for it in accepted if kept.get((it["caller"], it["key"])) != (it["message"].encode(), it["reply"])]
    found["a certificate isn't in the tables"] = [
        it for it in digests if digests[it] != {hashlib.sha256(bodies.get(it, b"")).hexdigest()}]
    return {what: some[:5] for what, some in found.items() if some}


def errors(records, patience):
    """What callers got from a front in the place of an answer. That an address isn't reached is none: a client asks the
    other one. Beside other work a takeover may take longer than a front waits."""
    given = [instead for it in records for instead in it["instead"] if isinstance(instead[1], int)]
    return [it for it in given if patience == 1 or it[2] < LONGEST_WAIT]


class Rounds:
    """Faults that happen to several sites side by side, until there are no more, or these minutes are over, or one has
    found something."""

    def __init__(self, names, minutes, patience):
        self.waiting, self.times, self.answers = queue.SimpleQueue(), collections.defaultdict(list), []
        self.end, self.patience = time.monotonic() + 60 * minutes if minutes else None, patience
        self.held, self.is_over = [], threading.Event()
        for it in names:
            self.waiting.put(it)

    def next(self):
        """The name of the next fault, or None."""
        if self.is_over.is_set() or self.end and time.monotonic() > self.end:
            return None
        with contextlib.suppress(queue.Empty):
            return self.waiting.get_nowait()

    def on(self, site):
        calling, name = Calling(site), "before the first fault"
        try:
            until(lambda: calling.since(0), seconds=180)
            while following := self.next():
                name = following
                took = one_round(site, calling, name, self.patience)
                self.held.append(name)
                if took is not None:
                    self.times[name].append(took)
            calling.tell("rest")
            until_well(site, site.is_healed)
            site.compare_copies()
            found = wrong(site, calling, calling.look(300))
            assert not found, f"{found}; {site.reigns[-6:]}"
            self.answers.append(len(calling.since(0)))
        except Exception as fault:
            self.is_over.set()
            raise AssertionError(f"{name}: {fault!r}\nwhat the machines have: {site.keep_evidence()}") from fault
        finally:
            calling.end()


def test_faults_at_random(sites, request):
    """So many faults, or as many as begin within `--minutes`: at least one of each kind, if more are asked for."""
    rounds, minutes, patience = (request.config.getoption(it) for it in ("--rounds", "--minutes", "--patience"))
    seed = request.config.option.hypothesis_seed
    print(f"--hypothesis-seed={seed}")
    names = drawn(random.Random(seed), rounds)
    done = Rounds(names, minutes, patience)
    with ThreadPoolExecutor(len(sites)) as pool:
        try:
            for it in [pool.submit(done.on, site) for site in sites]:
                it.result()
        finally:
            # Also if the time of this test is over.
            done.is_over.set()
    print(f"{sum(done.answers)} answers in {len(done.held)} rounds")
    for name, took in done.times.items():
        median = statistics.median(took)
        print(f"takeover, {name}: {median:.1f} s by the median of {len(took)}, {max(took):.1f} at most")
    late = {name: took for name, took in done.times.items() if max(took) > patience * LONGEST[name]}
    assert not late, f"takeovers that took too long: {late}"
    assert {*names[:len(WEIGHTS)]} <= {*done.held}, f"after {minutes} minutes only {len(done.held)} rounds: {done.held}"


@pytest.mark.parametrize("wrong, said, right", [
    ("ceph osd pool set office_data min_size 1", "min_size of office_data isn't 2",
     "ceph osd pool set office_data min_size 2"),
    ("sed -i 's/^client_reconnect_stale = .*/client_reconnect_stale = true/' /etc/ceph/ceph.conf",
     "client_reconnect_stale is true in /etc/ceph/ceph.conf, and has to be false",
     "sed -i 's/^client_reconnect_stale = .*/client_reconnect_stale = false/' /etc/ceph/ceph.conf"),
    ("sed -i '/^mds_session_blocklist_on_evict/d' /etc/ceph/ceph.conf",
     "mds_session_blocklist_on_evict is not set in /etc/ceph/ceph.conf, and has to be true",
     "sed -i '/^.global/a mds_session_blocklist_on_evict = true' /etc/ceph/ceph.conf"),
    # The files say what is right, and what runs was told otherwise.
    ("ceph tell mds.three config set mds_session_blocklist_on_evict false",
     "mds_session_blocklist_on_evict of the running mds.three is false, and has to be true",
     "ceph tell mds.three config set mds_session_blocklist_on_evict true"),
    ("ceph daemon mon.$(hostname -s) config set mon_osd_blocklist_default_expire 3600",
     "mon_osd_blocklist_default_expire of the running mon.",
     "ceph daemon mon.$(hostname -s) config set mon_osd_blocklist_default_expire 315360000"),
    ("ceph daemon /run/ceph/ceph-client.office.$(pgrep -x ceph-fuse).*.asok config set client_reconnect_stale true",
     "client_reconnect_stale of the running client.office.", "true"),
])
def test_each_setting_is_looked_at(site, wrong, said, right):
    """An office whose volume lacks a setting is ended, and none starts, until the setting is back."""
    until_well(site, site.is_well)
    box = until(site.serving, seconds=60)
    box.run(wrong)
    found = box.run("office-volume check", check=False)
    assert 1 == found.returncode and said in found.stdout
    until(lambda: box not in site.listening(), seconds=150)
    assert said in box.run("journalctl -u office -u office-volume -u office-watch --no-pager").stdout
    box.run(right)
    until_well(site, site.is_well)


def gives_page(box, socket):
    """Whether a page comes from a socket of a box."""
    how = f"--max-time 2 --unix-socket {socket} http://office/v1/cas"
    return "200" == box.run(f"curl -s -o /dev/null -w '%{{http_code}}' {how}", check=False).stdout


def stop_watch(_, box):
    box.run("systemctl stop office-watch")
    return lambda: box.run("systemctl start office-watch")


@pytest.mark.parametrize("silence", [Site.freeze_mount, stop_watch])
def test_who_gives_no_sign_answers_nobody(site, silence):
    """An office whose machine gives no sign goes on giving pages from its memory. But the way leads nobody to it, also
    before the other one serves."""
    until_well(site, site.is_well)
    box = until(site.serving, seconds=60)
    other = site.other(box)
    assert gives_page(box, "/run/office-way/way.sock")
    back = silence(site, box)
    moment, itself, led = time.time(), [], []
    while other not in site.listening() and time.time() < moment + 60:
        itself.append((time.time(), gives_page(box, DOOR.removeprefix("unix:"))))
        led.append((time.time(), gives_page(box, "/run/office-way/way.sock")))
        time.sleep(0.5)
    over = time.time()
    print(f"the other one serves after {over - moment:.1f} s")
    until(lambda: gives_page(box, "/run/office-way/way.sock"), seconds=60)
    if silence is stop_watch:
        assert "this machine has no lease" in box.run("office-volume check", check=False).stdout
    back()
    late = moment + LEASE
    assert any(given for when, given in itself if when > late), "no page in memory"
    assert not any(given for when, given in led[:-1] if when > late)
    until_well(site, site.is_well)
    assert not [it for it in site.answers if it.machine == box.name and late < it.asked < over]
    assert not site.intruders()


def test_the_machine_that_waits_hangs(site, request):
    """The one that serves has its lease all the time, until it evicts the other one and later."""
    until_well(site, site.is_well)
    box = until(site.serving, seconds=60)
    back = site.freeze_mount(site.other(box))
    begun, longest = time.time(), 0
    while time.time() < begun + 40:
        asked = time.time()
        until(lambda: gives_page(box, "/run/office-way/way.sock"), seconds=60, pause=0.2)
        longest = max(longest, time.time() - asked)
        time.sleep(0.2)
    back()
    print(f"the longest that a page took: {longest:.1f} s")
    assert longest < 3 * request.config.getoption("--patience")
    until_well(site, site.is_well)
    assert not site.intruders()


# Ceph's own command, for a machine's name.
EVICT = """ceph tell mds.office:0 session ls 2>/dev/null | python3 -c '
import json, sys
print(*[it["id"] for it in json.load(sys.stdin) if it["client_metadata"].get("hostname") == sys.argv[1]])' %s |
xargs -n 1 sh -c 'ceph tell mds.office:0 client evict id=$0'"""


@pytest.mark.parametrize("where, command", [("other", "office-volume evict %s"), ("three", EVICT)])
def test_who_gets_the_lock_waits_for_the_lease_of_the_other(site, where, command):
    """A machine whose other one is evicted has the lock at once. Nobody is led to its office before the other's lease
    is certainly over, whoever evicted that one."""
    until_well(site, site.is_well)
    box = until(site.serving, seconds=60)
    other = site.other(box)
    # The office that is evicted gives no answer meanwhile, also none that it may.
    box.run("systemctl stop office-way")
    moment = time.time()
    (other if where == "other" else site.boxes[where]).run(command % box.name)
    until(lambda: gives_page(other, "/run/office-way/way.sock"), seconds=60, pause=0.1)
    asked, begun = time.time(), float(other.says("stat -c %.Y /run/office-waiting/listening"))
    print(f"the other one serves after {begun - moment:.1f} s, and is asked after {asked - moment:.1f} s")
    assert asked - begun > LEASE
    box.run("systemctl start office-way")
    until_well(site, site.is_well)
    assert not site.intruders()


def test_a_machine_that_does_not_notice_that_its_lock_is_gone(site):
    """It has its lease for some seconds more, and its office gives pages. The other office has the lock, and gives none
    until that is over."""
    until_well(site, site.is_well)
    box = until(site.serving, seconds=60)
    other = site.other(box)
    box.run("systemctl kill -s STOP office-watch")
    moment = time.time()
    site.boxes["three"].run(EVICT % box.name)
    evicted = time.time()

    def of(it):
        return [answer for answer in site.answers if answer.machine == it.name and answer.asked > moment]

    def both_asked():
        for it in (box, other):
            gives_page(it, "/run/office-way/way.sock")
        site.collect()
        return of(other)

    try:
        until(both_asked, seconds=60, pause=0.05)
    finally:
        box.run("systemctl kill -s CONT office-watch")
    first = min(it.answered for it in of(other))
    last = max((it.asked for it in of(box)), default=moment)
    print(f"evicted after {evicted - moment:.1f} s: the old one was asked until {last - moment:.1f} s after the fault, "
          f"and the new one answers after {first - moment:.1f} s")
    assert last < first
    # So nobody had an answer of the new one yet when these were asked for.
    site.answers -= {it for it in of(box) if it.asked < first}
    until_well(site, site.is_well)
    assert not site.intruders()


# How long it takes until a page comes again: the way is asked ten times, and the door 45 times.
@pytest.mark.parametrize("unit, longest", [("office-way", 40), ("office-door.socket", 90)])
def test_an_office_that_nobody_reaches_is_ended(site, unit, longest, request):
    """By its own machine: its lock would keep the other one from serving. None begins there before the way is back."""
    until_well(site, site.is_well)
    box = until(site.serving, seconds=60)
    other = site.other(box)
    moment = time.time()
    box.run(f"systemctl stop {unit}")
    until(lambda: not gives_page(other, "/run/office-way/way.sock"), seconds=10)
    longest *= request.config.getoption("--patience")
    until(lambda: gives_page(other, "/run/office-way/way.sock"), seconds=longest)
    print(f"{unit} was stopped: a page comes after {time.time() - moment:.1f} s")
    if unit == "office-way":
        assert [other] == site.listening()
        assert "the way here gives no answer" in box.run("office-volume check", check=False).stdout
        assert "the way here gives no answer" in box.says("journalctl -u office-watch -o cat --no-pager")
        time.sleep(5)
        assert [other] == site.listening()
    box.run(f"systemctl start {unit}")
    until_well(site, site.is_well)
    assert not site.intruders()


def test_the_ways_are_looked_at(site):
    """One that is stopped, and one with another key. No office waits for that, and none is ended."""
    until_well(site, site.is_well)
    box = until(site.serving, seconds=60)
    other, before = site.other(box), [*site.reigns]

    def said(it):
        return it.run("office-volume check", check=False).stdout

    other.run("systemctl stop office-way")
    assert f"the way of {other.name} gives no answer" in said(box) and "the way here gives no answer" in said(other)
    other.run("systemctl start office-way")
    until_well(site, site.is_well)
    place = "install -m 640 -g office-way {0}way.key {0}way.crt /etc/vethlumi/way; systemctl restart office-way"
    other.run("mkdir kept; cp /etc/vethlumi/way/way.* kept; office-volume key; " + place.format(""))
    found = said(other)
    assert f"the way of {other.name} gives no answer" in said(box)
    assert f"the way of {box.name} gives no answer" in found and "no office answers by the way here" in found
    other.run(place.format("kept/"))
    until_well(site, site.is_well)
    site.collect()
    assert before == site.reigns


def test_a_copy_that_is_lost_ends_no_office(site):
    """Nor does it keep a mount from beginning. Its own machine says that it is lost, too."""
    until_well(site, site.is_well)
    until_well(site, site.is_healed)
    box = until(site.serving, seconds=60)
    before, number = [*site.reigns], VOLUME.index(box.name)
    box.run(f"systemctl stop ceph-osd@{number}; mv /srv/office-brick/block /srv/office-brick/away")
    found = box.run("office-volume check", check=False).stdout
    assert f"osd.{number} gives no answer" in found and "the copy here gives no answer" in found
    # The watch has looked meanwhile.
    time.sleep(75)
    assert box is site.serving() and before == site.reigns
    pid = site.mount_of(box)
    site.kill_mount(box)
    until(lambda: box.run("systemctl is-active office-volume", check=False).stdout.strip() == "active"
          and site.mount_of(box) != pid, seconds=120, pause=0.5)
    box.run(f"mv /srv/office-brick/away /srv/office-brick/block; systemctl start ceph-osd@{number}")
    until_well(site, site.is_healed)
    until_well(site, site.is_well)


def test_the_alert_is_raised(site):
    """The office goes on without a copy, so somebody has to be told."""
    until_well(site, site.is_well)
    until_well(site, site.is_healed)
    one = site.boxes["one"]
    assert "active" == one.says("systemctl is-active office-volume-check.timer")
    look = "systemctl restart office-volume-check"
    one.run(look, timeout=400)
    back = site.kill_brick(site.boxes["three"])
    assert one.run(look, check=False, timeout=400).returncode
    alert = "office-volume-check.service has failed"
    until(lambda: alert in one.says("journalctl -b -p alert -o cat --no-pager"), seconds=60)
    found = one.says("journalctl -u office-volume-check -o cat --no-pager")
    assert "osd.2 gives no answer" in found and "Ceph reports OSD_DOWN" in found
    back()
    until_well(site, site.is_healed)
    one.run(look, timeout=400)


@contextlib.contextmanager
def asked(site):
    """Callers that ask meanwhile. At the end nothing may be wrong with what was answered."""
    calling = Calling(site)
    try:
        until(lambda: calling.since(0), seconds=180)
        yield calling
        until_well(site, site.is_well)
        calling.tell("rest")
        until_well(site, site.is_healed)
        site.collect()
        found = wrong(site, calling, calling.look(60))
        assert not found, f"{found}; {site.reigns[-6:]}"
    finally:
        calling.end()


def leave(site, box):
    """Has a machine leave the volume."""
    box.run("vethlumi/programs/volume/office-volume leave")
    assert not box.says("find /srv/office-brick /var/lib/ceph/mon /etc/ceph -mindepth 1 ! -name rbdmap")


@pytest.mark.parametrize("become_new", [Site.renew, leave])
def test_a_machine_is_replaced(site, become_new, request):
    """The page's commands bring a new machine into the volume, or one that has left it, while callers ask."""
    until_well(site, site.is_well)
    until_well(site, site.is_healed)
    with asked(site) as calling:
        become_new(site, site.boxes["three"])
        site.boxes["admin"].start()
        site.boxes["admin"].wait_until_up()
        site.type("A new machine")
        site.leave_shells()
        site.boxes["admin"].pull_the_plug()
        until_well(site, site.is_healed)
        site.compare_copies()
    assert not errors(calling.since(0), request.config.getoption("--patience"))


def test_a_machine_with_an_office_is_replaced(site, request):
    """The same for the machine that serves, in whose place a new one comes."""
    until_well(site, site.is_well)
    until_well(site, site.is_healed)
    with asked(site) as calling:
        box = until(site.serving, seconds=60)
        other, admin = site.other(box), site.boxes["admin"]
        site.renew(box)
        admin.start()
        admin.wait_until_up()
        names = {"three": box.name, "one": other.name}
        site.type("A new machine", names)
        site.type("Three machines", {it: None for it in MACHINES} | {box.name: box.name}, has="nginx-light")
        site.type("A new machine with an office", {"two": box.name, "one": other.name})
        site.leave_shells()
        admin.pull_the_plug()
        site.have_answers_written(box)
        until_well(site, site.is_healed)
        until_well(site, site.is_well)
        site.compare_copies()
    assert not errors(calling.since(0), request.config.getoption("--patience"))


def test_the_program_is_updated(site, request):
    """The page's commands, first on the machine that waits and then on the one that serves. The other takes over, or
    the one that is updated begins again before that."""
    until_well(site, site.is_well)
    programs = "crates/sshoffice/out/sshoffice programs/volume/office-{volume,waiting}"
    with asked(site) as calling:
        serving = until(site.serving, seconds=60)
        for box in (site.other(serving), serving):
            moment = time.time()
            box.run(f"cd vethlumi; install -m 755 {programs} /usr/local/bin; systemctl daemon-reload; "
                    "systemctl reload office-way; systemctl restart office office-watch")
            until_well(site, site.is_well)
        assert site.reigns[-1].begun > moment
    assert not errors(calling.since(0), request.config.getoption("--patience"))


def test_the_two_offices_are_parted(site, request):
    """The office goes on, on one of the two machines. Callers who come to the front of the other one wait, until it is
    stopped, as the page says."""
    until_well(site, site.is_well)
    until_well(site, site.is_healed)
    with asked(site) as calling:
        back = site.part(None)
        # The other machine may take over, if the metadata server is there.
        time.sleep(60)
        [serving] = until(lambda: len(site.listening()) == 1 and site.listening(), seconds=120)
        waiting = site.other(serving)
        waiting.run("systemctl stop office-front")
        moment = time.time()
        until(lambda: len(calling.since(moment + 10)) > 20, seconds=180)
        assert [serving] == site.listening()
        back()
        waiting.run("systemctl start office-front")
    assert not errors(calling.since(0), request.config.getoption("--patience"))


def rows(copy):
    """What is wrong with the tables of a copy, its accepted messages with their answers, and its certificates."""
    with opened(copy) as tables:
        faults = [it for it in tables.execute("PRAGMA integrity_check") if it != ("ok",)]
        requests = tables.execute("SELECT caller, key, message, reply FROM request")
        messages = {(caller, key): (bytes(message).decode(), reply) for caller, key, message, reply in requests}
        return faults, messages, sorted(tables.execute("SELECT serial, body FROM cert"))


def test_a_copy_is_made_and_restored(site):
    """It is made while callers ask, and has what was answered before. It is restored once no office runs on either
    machine, by the commands of the page."""
    until_well(site, site.is_well)
    with asked(site) as calling:
        until(lambda: len(calling.since(0)) > 30, seconds=120)
        box = until(site.serving, seconds=60)
        other, moment = site.other(box), time.time()
        assert "no office serves here" in other.run("office-volume copy today", check=False).stdout
        box.run("office-volume copy today")
        until(lambda: len(calling.since(moment)) > 30, seconds=120)
        before = [it for it in calling.accepted()[0] if it["ended"] < moment]
    copy = box.files / "root/today"
    faults, messages, certificates = rows(copy)
    assert not faults and before
    assert not [it for it in before if messages.get((it["caller"], it["key"])) != (it["message"], it["reply"])]

    def refused(why):
        said = box.run("office-restore today/office.db", check=False)
        assert 1 == said.returncode and why in said.stdout and "nothing was changed" in said.stdout

    refused("an office runs here")
    box.run("systemctl stop office")
    refused(f"an office runs on {other.name}")
    other.run("systemctl stop office")
    box.run("cp /var/lib/office/office.db* /root; office-restore today/office.db")
    assert box is site.serving()
    other.run("systemctl start office")
    until_well(site, site.is_well)
    found = rows(until(site.copied, seconds=60, pause=0.5))
    assert ([], messages, certificates) == found
    [kept] = box.says("ls -d /var/lib/office/replaced-*").split()
    box.run(f"cmp {kept}/office.db office.db")
