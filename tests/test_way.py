"""The way of programs/volume, on two machines: whose office it asks, by the lease that each machine has, and what
waiting takes. And what office-volume does without a volume."""
import contextlib
import fcntl
import http.client
import http.server
import json
import os
import pathlib
import pwd
import re
import shutil
import signal
import socket
import socketserver
import ssl
import subprocess
import threading
import time
import uuid
from concurrent.futures import ThreadPoolExecutor

import pytest

from asking import Response, department, issue, string
from recording import posting
from running import PROGRAMS, free_port, is_listening, left_out, rest, until

MODULE = pathlib.Path("/usr/lib/nginx/modules/ngx_http_js_module.so")
PAGE, MESSAGE = ("GET", "/v1/krl"), ("POST", "/v1/callers/ana/requests/k-1")
# How many messages may wait, in place of 500.
MOST = 40


class Door(socketserver.ThreadingUnixStreamServer):
    """An office behind its door, which answers whatever it is asked by its machine's name, after some seconds, or once
    an event is set."""
    daemon_threads = True

    def __init__(self, path, name, late):
        class Handler(http.server.BaseHTTPRequestHandler):
            def do_GET(self):
                self.rfile.read(int(self.headers.get("Content-Length", 0)))
                self.server.asked += 1
                late.wait(60) if isinstance(late, threading.Event) else time.sleep(late)
                self.send_response(200)
                self.send_header("Content-Length", str(len(name)))
                self.end_headers()
                self.wfile.write(name.encode())

            do_POST = do_GET

            def log_message(self, *_):
                pass

        super().__init__(str(path), Handler)
        self.asked = 0
        threading.Thread(target=self.serve_forever, daemon=True).start()


class Machine:
    """What a machine has of the way: nginx, what office-watch writes down, and the door of an office."""

    def __init__(self, folder, name, port):
        self.folder, self.name, self.port, self.door = folder / name, name, port, None
        for it in ("run", "waiting"):
            (self.folder / it).mkdir(parents=True)

    def begin(self, programs, other, most, door):
        """Starts nginx with the files of programs/volume, in this machine's folder. So many messages may wait. The door
        of its office is in that folder, or at a port."""
        door = f"127.0.0.1:{door}" if door else f"unix:{self.folder}/door.sock"
        edits = {"way.conf": [("/etc/vethlumi/way", self.folder), ("/run/office-way", self.folder),
                              ("unix:/run/office-door.sock", door), ("OTHER:8444", f"127.0.0.1:{other.port}"),
                              ("limit_conn waiting 500", f"limit_conn waiting {most}"),
                              ("listen 8444", f"listen 127.0.0.1:{self.port}")],
                 "way.js": [("/run/office-volume", self.folder / "run"),
                            ("/run/office-waiting", self.folder / "waiting")]}
        for file, changes in edits.items():
            text = (PROGRAMS / "volume" / file).read_text()
            for old, new in changes:
                assert old in text, f"{file} doesn't have {old}"
                text = text.replace(old, str(new))
            (self.folder / file).write_text(text)
        user = pwd.getpwuid(os.getuid()).pw_name
        words = ["nginx", "-p", self.folder, "-c", self.folder / "way.conf", "-g", f"user {user}; daemon off;"]
        self.nginx = programs.begin(words)
        until(lambda: is_listening(self.port))

    def memory(self):
        """The bytes that the workers of nginx have of their own."""
        first = self.nginx.pid
        workers = pathlib.Path(f"/proc/{first}/task/{first}/children").read_text().split()
        texts = [pathlib.Path(f"/proc/{it}/status").read_text() for it in workers]
        return sum(int(re.search(r"^RssAnon:\s*(\d+) kB$", it, re.M)[1]) * 1024 for it in texts)

    def hold(self, file, text):
        (self.folder / "run" / file).write_text(text)

    def name_office(self, listening, asked):
        """Writes down the name of the office that listens here, and of the one that may be asked."""
        for file, name in (("waiting/listening", listening), ("run/asked", asked)):
            (self.folder / file).unlink(missing_ok=True)
            if name is not None:
                (self.folder / file).write_text(name)

    def serve(self, late=0, named=("7\n", "7\n")):
        self.door = Door(self.folder / "door.sock", self.name, late)
        self.name_office(*named)

    def end(self):
        if self.door:
            self.door.shutdown()
            self.door.server_close()

    def ask(self, method, path, to="way.sock"):
        """The answer to this machine's front: the name of an office, or the status."""
        plain = socket.socket(socket.AF_UNIX)
        plain.settimeout(60)
        plain.connect(str(self.folder / to))
        asking = http.client.HTTPConnection("office")
        asking.sock = plain
        with contextlib.closing(asking):
            asking.request(method, path)
            try:
                answer = asking.getresponse()
            except http.client.RemoteDisconnected:
                # A front answers by 502, too.
                return 502
            return answer.read().decode() if answer.status == 200 else answer.status


def from_now(seconds):
    """What is written down for something that holds for some seconds."""
    now, _ = pathlib.Path("/proc/uptime").read_text().split()
    return f"{float(now) + seconds:.2f}\n"


@pytest.fixture
def make_machines(tmp_path, programs):
    """Makes two machines: see Machine.begin."""
    if not MODULE.exists():
        left_out(f"{MODULE} isn't there: the package libnginx-mod-http-js has it")
    made = [Machine(tmp_path, "one", free_port()), Machine(tmp_path, "two", free_port())]
    subprocess.run([PROGRAMS / "volume/office-volume", "key"], check=True, capture_output=True, cwd=tmp_path)

    def make(most=500, door=None):
        for it, other in zip(made, reversed(made)):
            for file in ("way.key", "way.crt"):
                shutil.copy(tmp_path / file, it.folder)
            it.begin(programs, other, most, door)
        return made

    yield make
    for it in made:
        it.end()


@pytest.fixture
def machines(make_machines):
    return make_machines(MOST)


# Whether each machine has a lease, whose office answers, and what comes to the fronts of both. An office that answers
# without a lease may have lost its file.
@pytest.mark.parametrize("leases, serving, comes", [
    ((60, 60), ["one"], ["one", "one"]),
    ((60, 60), ["two"], ["two", "two"]),
    ((60, 60), [], [502, 502]),
    ((-1, 60), ["one"], [502, 502]),
    ((None, 60), ["one"], [502, 502]),
    ((60, -1), ["two"], [502, 502]),
    ((-1, -1), ["one", "two"], [502, 502]),
    ((-1, 60), ["one", "two"], ["two", "two"]),
    ((60, None), ["one", "two"], ["one", "one"]),
])
def test_whose_office_is_asked(machines, leases, serving, comes):
    for it, lease in zip(machines, leases):
        if lease is not None:
            it.hold("lease", from_now(lease))
        if it.name in serving:
            it.serve()
    assert comes == [it.ask(*PAGE) for it in machines]
    if 502 not in comes:
        assert comes == [it.ask(*MESSAGE) for it in machines]


@pytest.mark.parametrize("lease", ["", "\n", "soon\n", "-5\n"])
def test_what_is_no_lease(machines, lease):
    machines[0].serve()
    machines[0].hold("lease", lease)
    assert 502 == machines[0].ask(*PAGE)


# The name of the office that listens, and of the one that may be asked.
@pytest.mark.parametrize("named", [
    ("7\n", None), ("7\n", ""), ("7\n", "6\n"), (None, "7\n"), ("", ""), ("\n", "\n"), (None, None),
])
def test_an_office_that_is_not_asked_yet(machines, named):
    """Its machine has a lease. But the other one's may last for some seconds yet."""
    one, two = machines
    one.hold("lease", from_now(60))
    one.serve(named=named)
    assert [502, 502] == [one.ask(*PAGE), two.ask(*PAGE)]
    one.name_office("8\n", "8\n")
    assert ["one", "one"] == [one.ask(*PAGE), two.ask(*PAGE)]


# What comes about while an office gets its answer ready: it has ended, and another one that began isn't asked yet, or
# it is withheld.
@pytest.mark.parametrize("comes_about", [
    lambda one: one.name_office("8\n", "7\n"),
    lambda one: one.hold("withheld", from_now(60)),
], ids=["another began", "withheld"])
def test_an_answer_of_an_office_that_may_not_answer_any_more(machines, comes_about):
    one, _ = machines
    is_ready = threading.Event()
    one.serve(late=is_ready)
    one.hold("lease", from_now(60))
    with ThreadPoolExecutor(1) as pool:
        asked = pool.submit(one.ask, *PAGE)
        until(lambda: one.door.asked)
        comes_about(one)
        is_ready.set()
        assert 502 == asked.result()


def test_what_a_machine_says_of_its_office(machines):
    """Only a file that isn't there says that none listens: a folder in its place says nothing."""
    one, two = machines
    file = two.folder / "waiting/listening"

    def said():
        return one.ask("GET", "/listening", to="other.sock")

    assert "none\n" == said()
    file.write_text("7\n")
    assert "one\n" == said()
    file.write_text("")
    assert "unknown\n" == said()
    file.unlink()
    file.mkdir()
    assert "unknown\n" == said()
    file.rmdir()
    file.parent.rmdir()
    assert "none\n" == said()


def test_what_a_machine_says_of_itself(machines):
    """To office-watch: that there is a way to its office. It asks nobody for that."""
    one, _ = machines
    assert "none\n" == one.ask("GET", "/listening")
    one.serve()
    assert "one\n" == one.ask("GET", "/listening") and 0 == one.door.asked


def test_a_machine_whose_office_waits_says_that_one_runs(machines):
    """For a restore. The folder is the unit's, and is there before its office listens."""
    one, two = machines
    assert "one\n" == one.ask("GET", "/running", to="other.sock")
    (two.folder / "waiting").rmdir()
    assert "none\n" == one.ask("GET", "/running", to="other.sock")


def test_a_lease_that_is_withheld(machines):
    """A machine that has evicted the other has a lease, and isn't asked for some seconds."""
    one, two = machines
    one.serve()
    one.hold("lease", from_now(60))
    one.hold("withheld", from_now(5))
    assert [502, 502] == [one.ask(*PAGE), two.ask(*PAGE)]
    until(lambda: one.ask(*PAGE) == "one")
    assert "one" == two.ask(*PAGE)


def test_a_lease_ends(machines):
    one, two = machines
    one.serve()
    begun = time.monotonic()
    one.hold("lease", from_now(6))
    assert ["one", "one"] == [one.ask(*PAGE), two.ask(*PAGE)]
    until(lambda: one.ask(*PAGE) == 502)
    assert 5.9 < time.monotonic() - begun
    assert 502 == two.ask(*PAGE)


def test_a_message_waits_for_a_lease(machines):
    """What was asked before is asked again, at whichever machine has a lease then."""
    for it in machines:
        it.serve()
    with ThreadPoolExecutor(2) as pool:
        waiting = [pool.submit(it.ask, *MESSAGE) for it in machines]
        time.sleep(1)
        assert not any(it.done() for it in waiting)
        machines[1].hold("lease", from_now(60))
        assert ["two", "two"] == [it.result(90) for it in waiting]


def wait_together(machine, count):
    """Has so many messages wait, and returns what they will get."""
    pool = ThreadPoolExecutor(count)
    waiting = [pool.submit(machine.ask, *MESSAGE) for _ in range(count)]
    pool.shutdown(wait=False)
    return waiting


def test_messages_that_wait_take_little_memory(machines):
    """Each had 310 kB a try before, and four tries a second."""
    one, _ = machines
    before = one.memory()
    waiting = wait_together(one, 30)
    time.sleep(6)
    each = (one.memory() - before) / 30
    print(f"{each / 1000:.0f} kB for each message that has waited for 6 seconds")
    one.hold("lease", from_now(60))
    one.serve()
    assert ["one"] * 30 == [it.result(90) for it in waiting]
    assert each < 1_000_000


def test_so_many_messages_wait_and_no_more(machines):
    """A further one gets 502 at once, and is sent again. A page, and what office-watch asks, aren't counted."""
    one, _ = machines
    sent = wait_together(one, MOST + 5)
    # Once so many have their answer, the others wait.
    until(lambda: 5 <= sum(it.done() for it in sent))
    begun = time.monotonic()
    assert (502, 502, "none\n") == (one.ask(*MESSAGE), one.ask(*PAGE), one.ask("GET", "/listening"))
    assert time.monotonic() - begun < 5
    assert [502] * 5 == [it.result() for it in sent if it.done()]
    one.hold("lease", from_now(60))
    one.serve()
    assert MOST == [it.result(90) for it in sent].count("one")
    assert "one" == one.ask(*MESSAGE)


class Caller(threading.Thread):
    """Sends a message to the front of a machine, says that it `has_sent` it, and keeps all that comes back until the
    connection ends, and when that was."""

    def __init__(self, machine, key, message):
        super().__init__(daemon=True)
        self.machine, self.key, self.message = machine, key, message
        self.has_sent, self.answer, self.ended = threading.Event(), Response(), None
        self.start()

    def run(self):
        with socket.socket(socket.AF_UNIX) as peer:
            peer.connect(str(self.machine.folder / "way.sock"))
            peer.sendall(posting(f"/v1/callers/ana/requests/{self.key}", self.message.encode()))
            self.has_sent.set()
            self.answer = rest(peer)
        self.ended = time.monotonic()


@pytest.mark.timeout(1200)
@pytest.mark.parametrize("where", ["one", "two"])
def test_what_waits_is_answered_once_when_an_office_serves(make_machines, make_office, request, where):
    """By the office of the machine to whose front it came, or of the other one. docs/GROWING.md has what it takes."""
    count, seconds = (request.config.getoption(it) for it in ("--waiting", "--waiting-seconds"))
    office, port = make_office(), free_port()
    machines = {it.name: it for it in make_machines(door=port)}
    with office.serving() as served:
        assert 200 == served.post("root", "web", department()).status
    before = machines["one"].memory()
    callers = [Caller(machines["one"], f"k-{it}", issue(f"web/{it}")) for it in range(count)]
    assert all(it.has_sent.wait(60) for it in callers)
    time.sleep(seconds)
    assert [] == [it.answer for it in callers if it.ended]
    each = (machines["one"].memory() - before) / count
    with office.serving(port=port) as served:
        machines[where].name_office("7\n", "7\n")
        begun = time.monotonic()
        machines[where].hold("lease", from_now(600))
        for it in callers:
            it.join(120)
        assert [] == [it.key for it in callers if not it.ended]
        took = sorted(it.ended - begun for it in callers)
        print(f"{count} messages waited for {seconds} s and took {each / 1e6:.2f} MB each. When the office of {where} "
              f"served, half had their answers after {took[count // 2]:.1f} s, and all after {took[-1]:.1f} s, on "
              f"{os.cpu_count()} processors at a load of {os.getloadavg()[0]:.1f}")
        # One response to each, which is the one that the office has kept, about a certificate of this caller.
        assert [1] * count == [it.answer.count(b"HTTP/1.1 ") for it in callers]
        assert {200} == {it.answer.status for it in callers}
        kept = [served.post("ana", it.key, it.message).text for it in callers]
        assert kept == [it.answer.text for it in callers]
        serials = [int(it.split()[1]) for it in kept]
        assert [*range(1, count + 1)] == sorted(serials)
        bodies = [served.get(f"/v1/certs/{it}/body").body for it in serials]
        assert [] == [it for it, body in enumerate(bodies) if string(f"web/{it}".encode()) not in body]
    # What the page promises, with which the unit's memory suffices.
    assert each < 1_500_000


@pytest.mark.slow
def test_a_reload_cuts_nothing_off_that_waits(machines):
    """Also not after ten seconds, as it did."""
    one, _ = machines
    [waiting] = wait_together(one, 1)
    time.sleep(0.5)
    one.nginx.send_signal(signal.SIGHUP)
    time.sleep(12)
    assert not waiting.done()
    one.hold("lease", from_now(60))
    one.serve()
    assert "one" == waiting.result(90)


def test_an_answer_that_comes_after_the_lease(machines):
    """What an office answers later than its machine's lease isn't passed on: its file may be the other machine's."""
    one, two = machines
    one.serve(late=1.5)
    one.hold("lease", from_now(1))
    with ThreadPoolExecutor(2) as pool:
        assert [502, 502] == [*pool.map(lambda it: it.ask(*PAGE), machines)]
    one.hold("lease", from_now(60))
    assert ["one", "one"] == [it.ask(*PAGE) for it in machines]


def test_a_message_whose_answer_comes_after_the_lease(machines):
    """It is sent again, to the other machine's office, which has a lease."""
    one, two = machines
    one.serve(late=1.5)
    one.hold("lease", from_now(1))
    two.serve()
    two.hold("lease", from_now(60))
    assert "two" == one.ask(*MESSAGE)


def test_a_message_whose_end_comes_after_the_lease(machines):
    """The other machine's way has sent its head before. The office isn't even asked."""
    one, _ = machines
    one.serve()
    one.hold("lease", from_now(1))
    context = ssl.create_default_context(cafile=one.folder / "way.crt")
    context.load_cert_chain(one.folder / "way.crt", one.folder / "way.key")
    with socket.create_connection(("127.0.0.1", one.port)) as plain, \
            context.wrap_socket(plain, server_hostname="way") as peer:
        peer.sendall(b"POST /v1/callers/ana/requests/k-1 HTTP/1.1\r\nHost: office\r\nContent-Length: 4\r\n\r\n12")
        time.sleep(1.5)
        peer.sendall(b"34")
        assert peer.recv(1000).startswith(b"HTTP/1.1 502 ")
    assert 0 == one.door.asked


@pytest.fixture
def volume(tmp_path):
    """Runs a command of office-volume with a mount in memory, and programs in place of those of the machine. Returns
    what is written down, and the programs that were called."""
    run, programs, called, named = (tmp_path / it for it in ("run", "programs", "called", "listening"))
    for it in (run, programs):
        it.mkdir()
    called.touch()
    # Tests side by side have one /dev/shm, in which a machine's files have its name.
    name = f"machine-{uuid.uuid4().hex}"
    (programs / "hostname").write_text(f"#!/bin/sh\necho {name}\n")
    (programs / "hostname").chmod(0o755)
    text = (PROGRAMS / "volume/office-volume").read_text()
    functions, last = text.rsplit("\ncase ", 1)
    for old, new in [("mount=/var/lib/office", "mount=/dev/shm"), ("run=/run/office-volume", f"run={run}"),
                     ("named=/run/office-waiting/listening", f"named={named}")]:
        assert f"\n{old}\n" in functions
        functions = functions.replace(f"\n{old}\n", f"\n{new}\n")

    def command(words, **bodies):
        for name, body in bodies.items():
            (programs / name).write_text(f'#!/bin/bash\necho {name} "$@" >>{called}\n{body}\n')
            (programs / name).chmod(0o755)
        subprocess.run(["bash", "-c", f"PATH={programs}:$PATH\n{functions}\n{words}"], check=True, timeout=200)
        return {it.name: it.read_text() for it in run.iterdir()}, called.read_text().splitlines()

    yield command
    pathlib.Path(f"/dev/shm/.lease-of-{name}").unlink(missing_ok=True)


# Has a program write down when it comes to this, beside what holds.
NOTE = 'cut -d " " -f 1 /proc/uptime >"${{0%/*}}/../run/{}"'


def test_a_lease_begins_with_its_sign(volume):
    """Not once the copies have it. The sign is a write that ends after that: of data, synced in the same program."""
    now = float(from_now(0))
    held, [called] = volume("renew_lease", dd=f'{NOTE.format("sign")}; sleep 0.5; exec /usr/bin/dd "$@"')
    assert now <= float(held["lease"]) - 5 <= float(held["sign"])
    assert {"lease", "sign"} == {*held}
    assert re.search(r" of=\.lease-of-\S+ .*\bfsync\b", called)


def test_a_sign_that_is_refused_ends_the_lease(volume):
    held, called = volume("hold lease 5; renew_lease", dd="exit 1")
    assert {} == held and 1 == len(called)


def test_a_sign_that_ends_well_because_of_an_eviction_ends_the_lease(volume):
    """Then the file can't be looked at any more."""
    look = 'case "$*" in *-t*) exit 1 ;; esac; exec /usr/bin/stat "$@"'
    held, called = volume("hold lease 5; renew_lease", dd="", stat=look)
    assert {} == held and called[-1].startswith("stat -t .lease-of-")


def test_who_is_evicted_by_his_own_machine_answers_nobody_first(volume):
    """The office is killed, and the lease is over, before its lock is released."""
    held, called = volume("hold lease 5; evict_sessions $(hostname -s) 11 12", pkill="", ceph="")
    assert {} == held
    assert ["pkill -KILL -u office -x sshoffice", "ceph tell mds.office:0 client evict id=11",
            "ceph tell mds.office:0 client evict id=12"] == called


def test_a_machine_that_evicts_the_other_is_withheld(volume):
    """Before the other one's lock is released, and for six seconds after."""
    released = f'cp "${{0%/*}}/../run/withheld" "${{0%/*}}/../run/before"; sleep 0.5; {NOTE.format("released")}'
    held, called = volume("evict_sessions elsewhere 11", pgrep="exit 1", ceph=released)
    assert float(held["released"]) < float(held["before"])
    assert float(held["released"]) <= float(held["withheld"]) - 6 <= float(from_now(0))
    assert "ceph tell mds.office:0 client evict id=11" in called and not any(it.startswith("pkill") for it in called)


# What has the office that listens be asked, by a sign that begins after that.
RENEW = "look_at_listening; renew_lease"
# Has the clock that nobody sets stand still at a moment, such as `at 100.05`.
AT = 'at() { eval "tick() { clock=$1 seconds=${1%.*} hundredths=${1/./}; }"; };'


def test_a_new_office_waits_for_six_seconds(volume):
    """The other machine says nothing, or that one listens there: its lease may last for five."""
    words = (f"{AT} office='' since=0 may=''; echo 7 >$named; at 100.05; {RENEW}; at 106.04; {RENEW}; "
             f"cp $run/asked $run/early || true; at 106.05; {RENEW}")
    held, called = volume(words, curl="echo one")
    assert {"lease", "asked"} == {*held} and "7\n" == held["asked"]
    assert 2 == sum(it.startswith("curl ") for it in called)


@pytest.mark.parametrize("said, asked", [("echo none", True), ("echo one", False), ("echo unknown", False),
                                         ("exit 22", False), ("echo none; echo one", False)])
def test_a_new_office_is_asked_at_once_if_the_other_machine_has_none(volume, said, asked):
    held, _ = volume(f"office='' since=0 may=''; echo 7 >$named; {RENEW}", curl=said)
    assert asked == ("7\n" == held.get("asked")) and "lease" in held


def test_the_next_office_waits_too(volume):
    """The one before was asked, which says nothing of who had the lock in between."""
    held, _ = volume(f"office=7 since=0 may=7; echo 8 >$named; {RENEW}", curl="echo one")
    assert {"lease"} == {*held}


def test_an_office_that_lost_its_file_before_it_was_asked_never_is(volume):
    """The other machine says that none listens there, and then the volume refuses this one's sign."""
    held, _ = volume(f"office='' since=0 may=''; echo 7 >$named; {RENEW}", curl="echo none", dd="exit 1")
    assert {} == held


def test_an_office_that_is_asked_stays_so_if_the_watch_begins_again(volume):
    held, called = volume(f"office='' since=0 may=''; echo 7 >$named; put asked 7; {RENEW}", curl="echo one")
    assert "7\n" == held["asked"] and not any(it.startswith("curl ") for it in called)


def test_nobody_is_asked_where_no_office_listens(volume):
    held, called = volume(f"office='' since=0 may=''; {RENEW}", curl="echo none")
    assert {"lease"} == {*held} and not any(it.startswith("curl ") for it in called)


def test_a_second_watch_gives_up(volume, tmp_path):
    """It renews no lease, and gives no sign, while the first one may."""
    with open(tmp_path / "run/watching", "w") as lock:
        fcntl.flock(lock, fcntl.LOCK_EX)
        with pytest.raises(subprocess.CalledProcessError):
            volume("watch", dd="exit 1", touch="exit 1")
    assert not (tmp_path / "called").read_text() and not (tmp_path / "run/lease").exists()


# ---- the name of an office

# A program that finds the file locked, then one that serves until a line comes, and so on.
PROGRAM = '''#!/bin/bash
echo . >>"$RUN/begun"
(( $(wc -l <"$RUN/begun") % 2 )) && { echo 'sshoffice: Device' >&2; exit 1; }
[ ! -e "$RUNTIME_DIRECTORY/listening" ] || echo 'an office was named before this one' >&2
echo 'listening 8022'
read -r status <"$RUN/go"
exit "$status"
'''


@pytest.fixture
def waiting(tmp_path):
    """office-waiting with such a program, and the file with its name. A line to `go` ends the program."""
    for it in ("bin", "named"):
        (tmp_path / it).mkdir()
    os.mkfifo(tmp_path / "go")
    (tmp_path / "db").touch()
    (tmp_path / "named/listening").write_text("of before\n")
    (tmp_path / "bin/sshoffice").write_text(PROGRAM)
    (tmp_path / "bin/sshoffice").chmod(0o755)
    environment = os.environ | {"PATH": f"{tmp_path / 'bin'}:{os.environ['PATH']}", "RUN": str(tmp_path),
                                "RUNTIME_DIRECTORY": str(tmp_path / "named")}
    with open(tmp_path / "said", "wb") as said:
        process = subprocess.Popen([PROGRAMS / "volume/office-waiting", tmp_path / "db", "8022"], env=environment,
                                   stdout=said, stderr=subprocess.STDOUT, start_new_session=True)
    yield process, tmp_path / "named/listening"
    with contextlib.suppress(ProcessLookupError):
        os.killpg(process.pid, signal.SIGKILL)
    process.wait()


def test_each_program_that_listens_has_a_name_of_its_own(waiting, tmp_path):
    _, name = waiting
    names = ["of before\n"]

    def named():
        with contextlib.suppress(FileNotFoundError):
            return name.read_text()

    for status in ("0", "137", "0"):
        names.append(until(lambda: named() not in (*names, None) and named()))
        assert re.fullmatch(r"\d{8,}\n", names[-1]) and 0o644 == name.stat().st_mode & 0o777
        (tmp_path / "go").write_text(f"{status}\n")
        until(lambda: named() != names[-1])
    assert 4 == len({*names})
    # A name ends with its program, before the next one begins.
    said = (tmp_path / "said").read_text()
    assert "named before" not in said and "Device" not in said and 3 == said.count("listening 8022\n")


# ---- a mount

# What `mounted` asks of a mount that is there.
MOUNTED = """is_mounted() { :; }; answers() { :; }; evict() { :; }; status() { echo '    "id": 7,'; }
missing_of_conf() { :; }; missing_of_data() { :; }; missing_of_running() { echo 'mds.two gives no answer'; }; """
TREE = "".join(f"-{number}  1  host {name}\n" for number, name in ((3, "one"), (5, "two"), (7, "three")))
POOLS = "".join(f"pool {number} 'office_{name}' replicated size 3 min_size 2 crush_rule 0\n"
                for number, name in ((1, "metadata"), (2, "data")))


def monitors(away, pools=POOLS):
    """A `ceph` whose monitors elect for so many questions."""
    return (f'[ "$(wc -l <"${{0%/*}}/../called")" -gt {away} ] || exit 1\n'
            f'case $2 in tree) echo "{TREE}" ;; dump) echo "{pools}" ;; esac')


def test_a_mount_waits_while_the_monitors_elect(volume):
    """And not for what gives no answer on other machines."""
    _, called = volume(f"{MOUNTED} mounted $$", ceph=monitors(3))
    assert ["ceph osd tree"] * 4 + ["ceph osd dump"] == called


@pytest.mark.parametrize("words, said", [
    ("", "min_size of office_data isn't 2"),
    ("missing_of_running() { echo 'mon_lease of mon.two is 5, and has to be 2'; };", "mon_lease of mon.two is 5"),
])
def test_a_mount_of_a_volume_that_is_not_safe_is_refused_after_that(volume, capfd, words, said):
    pools = POOLS if words else POOLS.replace("min_size 2 crush_rule 0\n", "min_size 1 crush_rule 0\n")
    with pytest.raises(subprocess.CalledProcessError):
        volume(f"{MOUNTED} {words} mounted $$", ceph=monitors(2, pools))
    assert said in capfd.readouterr().err


def test_a_mount_that_ends_waits_for_no_monitors(volume, capfd):
    with pytest.raises(subprocess.CalledProcessError):
        volume(f"{MOUNTED} mounted 999999999", ceph="exit 1")
    assert "the mount ended" in capfd.readouterr().err


# ---- what is looked at

# An office serves, as which this shell stands.
SERVES = "server() { echo $$; }; listens() { :; }; "
KILLED = "systemctl kill -s KILL office"


def times(status, count, then=0):
    """A curl that ends with a status so many times, and then with another one."""
    return f'[ "$(grep -c ^curl "${{0%/*}}/../called")" -gt {count} ] && exit {then}; exit {status}'


@pytest.mark.parametrize("curl, asked, is_killed", [
    ("exit 7", 10, True), ("exit 28", 10, True), (times(7, 9), 10, False), ("exit 0", 1, False),
    # A way that says something else, and a machine without curl.
    ("exit 22", 1, False), ("exit 127", 1, False),
])
def test_an_office_without_a_way_is_killed(volume, curl, asked, is_killed):
    """It would keep its lock from the other machine's office, and nobody could ask it."""
    _, called = volume(f"{SERVES} look_at_way", curl=curl, sleep="", systemctl="")
    assert (asked, is_killed) == (sum(it.startswith("curl ") for it in called), KILLED in called)


def test_a_way_is_not_asked_where_no_office_listens(volume):
    _, called = volume("server() { echo $$; }; listens() { false; }; look_at_way", curl="exit 7", systemctl="")
    assert [] == called


@pytest.mark.parametrize("curl, asked, is_killed", [
    ("exit 28", 1, True), ("exit 52", 1, True), ("exit 0", 1, False),
    # The door is shut.
    ("exit 7", 45, True), (times(7, 44), 45, False), ("exit 127", 1, False),
])
def test_an_office_that_gives_no_answer_is_killed(volume, curl, asked, is_killed):
    _, called = volume(f"{SERVES} look_at_office", curl=curl, sleep="", systemctl="")
    assert (asked, is_killed) == (sum(it.startswith("curl ") for it in called), KILLED in called)


def test_no_office_begins_before_there_is_a_way(volume):
    _, called = volume("way", curl=times(7, 3), sleep="")
    assert 4 == sum(it.startswith("curl ") for it in called)


def test_no_office_begins_without_the_programs_of_its_watch(volume, tmp_path, capfd):
    """The watch would do without them in silence."""
    others = {it: "" for it in ("ceph", "ceph-fuse", "flock", "pgrep", "pkill", "python3")}
    there = f"command() {{ [ -x {tmp_path}/programs/$2 ]; }}; is_mounted() {{ :; }}; answers() {{ :; }}; "
    with pytest.raises(subprocess.CalledProcessError):
        volume(f"{there} missing_of_conf() {{ :; }}; ready", **others)
    assert "office-volume: curl isn't installed\n" == capfd.readouterr().err


# What curl does that asks the way here, the way of the other machine, and for a page.
@pytest.mark.parametrize("here, other, page, said", [
    ("exit 0", "echo one", "exit 0", []),
    ("exit 7", "echo one", "exit 0", ["the way here gives no answer"]),
    # The port is closed, or the keys differ.
    ("exit 0", "exit 22", "exit 0", ["the way of two gives no answer: look at its office-way"]),
    ("exit 0", "echo none", "exit 22", ["no office answers by the way here"]),
    ("exit 0", "exit 22", "exit 22", ["the way of two gives no answer", "no office answers by the way here"]),
])
def test_the_ways_are_looked_at(volume, capfd, here, other, page, said):
    curl = f'case "$*" in */way.sock*listening) {here} ;; */other.sock*listening) {other} ;; *cas) {page} ;; esac'
    volume("other_machine() { echo two; }; sleep() { SECONDS=$((SECONDS + 5)); }; missing_of_way", curl=curl)
    found = capfd.readouterr().out.splitlines()
    assert len(said) == len(found) and all(line.startswith(it) for it, line in zip(said, found))


def test_a_lost_copy_ends_no_office(volume, tmp_path, capfd):
    """It is said, and the minute's look goes on."""
    volume(f"brick={tmp_path}/none; sleep() {{ :; }}; is_mounted() {{ :; }}; end_both() {{ echo ended; }}; "
           "missing_of_volume() { missing_of_data; }; missing_of_data; look_at_settings")
    assert f"{tmp_path}/none has no data that can be read: the copy here gives no answer\n" == capfd.readouterr().out


class Part(socketserver.ThreadingUnixStreamServer):
    """A part of the volume that runs, behind its socket, and says with which settings."""
    daemon_threads = True

    def __init__(self, path, settings):
        class Handler(socketserver.StreamRequestHandler):
            def handle(self):
                while self.rfile.read(1) not in (b"\0", b""):
                    pass
                said = json.dumps(settings).encode()
                self.wfile.write(len(said).to_bytes(4, "big") + said)

        super().__init__(str(path), Handler)
        threading.Thread(target=self.serve_forever, daemon=True).start()


# Ceph's modules, for a machine whose parts are asked by their sockets.
MODULES = {"rados": "class Rados:\n    def __init__(self, **_): pass\n    def connect(self): pass\n", "cephfs": ""}


@pytest.fixture
def running(tmp_path):
    """What is said of the parts of a machine, of which some run with these settings, and some have ended. The socket of
    one that has ended stays, or is gone."""
    text = (PROGRAMS / "volume/office-volume").read_text()
    asking = re.search(r"^ask_running='\n(.*?)^'$", text, re.M | re.S)[1]
    assert "/var/run/ceph" in asking
    for name, body in MODULES.items():
        (tmp_path / f"{name}.py").write_text(body)
    begun = []

    def said(settings, dead=(), here="mon.one osd.0 mds.one client.office"):
        begun.extend(Part(tmp_path / f"ceph-{name}.asok", found) for name, found in settings.items())
        for name in dead:
            with socket.socket(socket.AF_UNIX) as it:
                it.bind(str(tmp_path / f"ceph-{name}.asok"))
        words = ["/usr/bin/python3", "-c", asking.replace("/var/run/ceph", str(tmp_path)), "size = 3", here]
        done = subprocess.run(words, env=os.environ | {"PYTHONPATH": str(tmp_path)}, check=True, capture_output=True,
                              text=True, timeout=100)
        return done.stdout.splitlines()

    yield said
    for it in begun:
        it.shutdown()
        it.server_close()


RIGHT = {"size": "3"}


def test_each_part_of_a_machine_is_asked_by_its_name(running):
    """One whose socket is left, or gone, has ended. Of a mount that has ended the socket stays, and says nothing."""
    found = running({"mon.one": {"size": "2"}, "client.office.12": RIGHT}, ["osd.0", "client.office.11"])
    assert ["size of the running mon.one is 2, and has to be 3: restart it", "osd.0 gives no answer",
            "mds.one gives no answer"] == found


@pytest.mark.parametrize("dead", [[], ["client.office.11"]])
def test_a_mount_that_is_wanted_has_to_answer(running, dead):
    assert ["client.office gives no answer"] == running({it: RIGHT for it in ("mon.one", "osd.0", "mds.one")}, dead)


def test_a_machine_without_a_mount_needs_none(running):
    assert [] == running({it: RIGHT for it in ("mon.one", "osd.0", "mds.one")}, here="mon.one osd.0 mds.one")


NOOUT = '"OSDMAP_FLAGS": {"summary": {"message": "noout flag(s) set"}}'
LOST = '"OSD_DOWN": {"summary": {"message": "1 osds down"}}'


@pytest.mark.parametrize("missing, checks, said", [
    ("", NOOUT, None), ("", f"{NOOUT}, {LOST}", "Ceph reports OSD_DOWN: 1 osds down"),
    ("", '"OSDMAP_FLAGS": {"summary": {"message": "noout,norecover flag(s) set"}}', "norecover"),
    ("echo osd.0 gives no answer", NOOUT, "osd.0 gives no answer"),
])
def test_what_is_reported(volume, capfd, missing, checks, said):
    words = f"patience_of_report=0; missing_of_all() {{ {missing or ':'}; }}; report"
    health = f"echo '{{\"checks\": {{{checks}}}}}'"
    if said is None:
        volume(words, ceph=health)
    else:
        with pytest.raises(subprocess.CalledProcessError):
            volume(words, ceph=health)
        assert said in capfd.readouterr().err


# ---- copies

@pytest.fixture
def standing(tmp_path):
    """A process that stands for the office, the words by which it serves, and its two files."""
    files = tmp_path / "files"
    files.mkdir()
    for name in ("office.db", "office.db-wal"):
        (files / name).write_text(name)
    process = subprocess.Popen(["sleep", "100"])
    yield process, f"server() {{ echo {process.pid}; }}; listens() {{ :; }}; mount={files}; "
    process.kill()
    process.wait()


def state(process):
    return re.search(r"^State:\t(.)", pathlib.Path(f"/proc/{process.pid}/status").read_text(), re.M)[1]


def test_an_office_stands_still_while_it_is_copied(volume, standing, tmp_path, capfd):
    process, serves = standing
    copying = f'grep ^State: /proc/{process.pid}/status >>{tmp_path}/seen; exec /usr/bin/cp "$@"'
    volume(f"{serves} copy {tmp_path}/copy", cp=copying)
    assert {"office.db", "office.db-wal"} == {it.name for it in (tmp_path / "copy").iterdir()}
    assert 0o700 == (tmp_path / "copy").stat().st_mode & 0o777 and f"{tmp_path}/copy\n" == capfd.readouterr().out
    assert "State:\tT (stopped)\n" == (tmp_path / "seen").read_text()
    until(lambda: state(process) == "S")


@pytest.mark.parametrize("copying", ["exit 1", "sleep 3", "kill -KILL $office"],
                         ids=["fails", "hangs", "the office ends"])
def test_a_copy_that_is_not_whole_is_none(volume, standing, tmp_path, capfd, copying):
    process, serves = standing
    with pytest.raises(subprocess.CalledProcessError):
        volume(f"{serves} export office={process.pid}; patience_of_copy=1; copy {tmp_path}/copy",
               cp=f"{copying}\n/usr/bin/cp \"$@\"")
    assert "isn't whole" in capfd.readouterr().err
    until(lambda: state(process) == ("Z" if "KILL" in copying else "S"))


def test_where_no_office_serves_there_is_nothing_to_copy(volume, tmp_path, capfd):
    with pytest.raises(subprocess.CalledProcessError):
        volume(f"server() {{ :; }}; copy {tmp_path}/copy")
    assert "no office serves here" in capfd.readouterr().err and not (tmp_path / "copy").exists()


SESSION = '[{"id": 4, "client_metadata": {"hostname": "two"}}]'
STOPPED = "other_machine() { echo two; }; stopped"
STUBS = {"systemctl": "echo inactive", "pgrep": "exit 1", "sleep": ""}


@pytest.mark.parametrize("unit, of_other, sessions, why", [
    ("inactive", "echo none", SESSION, None), ("failed", "echo none", SESSION, None),
    # A machine that is off has no mount.
    ("inactive", "exit 22", "[]", None),
    ("active", "echo none", "[]", "an office runs here"), ("activating", "echo none", "[]", "an office runs here"),
    ("inactive", "echo one", "[]", "an office runs on two"),
    ("inactive", "exit 22", SESSION, "two doesn't say"), ("inactive", "echo unknown", SESSION, "two doesn't say"),
    # Nobody says whether it has a mount.
    ("inactive", "exit 22", "no JSON", "two doesn't say"),
])
def test_whether_no_office_runs(volume, capfd, unit, of_other, sessions, why):
    stubs = STUBS | {"systemctl": f"echo {unit}", "curl": of_other, "ceph": f"echo '{sessions}'"}
    if why is None:
        volume(STOPPED, **stubs)
    else:
        with pytest.raises(subprocess.CalledProcessError):
            volume(STOPPED, **stubs)
        assert why in capfd.readouterr().err


def test_an_office_of_the_other_machine_that_begins_again_and_again_is_seen(volume, capfd):
    """Its unit is away for a second after each try."""
    later = '[ "$(grep -c ^curl "${0%/*}/../called")" -lt 6 ] && echo none || echo one'
    with pytest.raises(subprocess.CalledProcessError):
        volume(STOPPED, **STUBS, curl=later)
    assert "an office runs on two" in capfd.readouterr().err
