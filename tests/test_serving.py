"""Connections: in what order they are met, at which moment, and how long a peer is waited for.

`serve` and `selftest` run on this system, and on one that isn't as it should be: preload/strange_system.c has clocks
that stand still or run, connections that can't be accepted, and sockets that wait a hundredth of the time. The requests
and the responses are those of tests/rows. A server stands still until all of its clients have connected and written.
"""
import contextlib
import json
import os
import pathlib
import select
import shutil
import signal
import socket
import subprocess
import time

import pytest

from asking import LATEST, department, get, issue, key_line, post, rollover
from running import ROWS, Office, listening, preloaded, run, said, until, worked


def row(name):
    """The requests of a row, each with the response that is due to it."""
    exchanges, due = worked(name)
    return list(zip([it.request for it in exchanges], due, strict=True))


# The list of an office where nothing is revoked.
LIST, NO_LIST = row("a-revoked-serial-is-listed")[0]
DEPARTMENT, FOUNDED = row("the-department-of-the-trial-office")[0]
# A key id is revoked at the moment 3000.
REVOCATION, REVOKED = row("a-revoked-key-id-is-not-issued")[0]
_, REVOKED_LIST = row("a-revoked-key-id-is-not-issued")[1]
CUT, CUT_REFUSED = row("a-cut-request-is-refused")[40]
HALF = LIST[:11]

# The response to a body of more than 16384 bytes, as the tables of docs/FORMATS.md have it.
TOO_LONG = (b"HTTP/1.1 413 Payload Too Large\r\ncontent-type: text/plain\r\ncontent-length: 18\r\n"
            b"connection: close\r\n\r\nrefused 5 TooLong\n")

# A read and a write wait ten seconds at most, and a connection a minute in all, in microseconds.
STEP, WHOLE = 10_000_000, 60_000_000
# How many times sooner a wait ends on a hurried system.
PART = 100
RESET = b" and a reset"


# ---- offices, servers and clients

CAS = range(17, 25)
RULES = {"web": "alice,*@example.org"} | {
    f"d{number}": ",".join(f"{number}{place}".ljust(64, "x") for place in range(10, 26)) for number in range(8)}


@pytest.fixture(scope="module")
def offices(program, tmp_path_factory):
    """The library and three offices: `new`, where nothing has happened, `web`, with the department of the rows, and
    `long`, with all that the page of signers tells of."""
    folder = tmp_path_factory.mktemp("offices")
    first, last = (ROWS / "the-department-of-the-trial-office.office").read_text().split()[1::2]
    office = Office(program, folder / "new.db", ca=key_line(CAS[0]), first=first, last=last)
    shutil.copy(office.db, folder / "web.db")
    office.db = folder / "web.db"
    assert [FOUNDED] == office.apply([DEPARTMENT])
    shutil.copy(office.db, folder / "long.db")
    office.db = folder / "long.db"
    more = [(name, department(name, admins="", principals=rules, maxlife=1, namespaces="file,git"))
            for name, rules in RULES.items() if name != "web"]
    more += [(f"ca{number}", rollover(key_line(number))) for number in CAS[1:]]
    assert [200] * 15 == [it.status for it in office.apply([post("root", *it) for it in more])]
    preloaded("strange_system.c", folder)
    return folder


class Server:
    """A server that listens, and stands still until it is told to go on."""

    def __init__(self, process, line):
        self.process, self.line, self.port = process, line, int(line.removeprefix(b"listening "))
        self.stop()

    def stop(self):
        self.process.send_signal(signal.SIGSTOP)
        # A server that had ended before is nobody's child any more.
        if self.process.returncode is None:
            os.waitid(os.P_PID, self.process.pid, os.WSTOPPED | os.WEXITED | os.WNOWAIT)

    def go_on(self):
        self.process.send_signal(signal.SIGCONT)

    def client(self, request, is_small=False):
        """A client that has connected and written this."""
        peer = socket.socket()
        peer.settimeout(60)
        if is_small:
            peer.setsockopt(socket.SOL_SOCKET, socket.SO_RCVBUF, 1)
        peer.connect(("127.0.0.1", self.port))
        peer.sendall(request)
        return peer

    def ended(self):
        """Its status, what it printed behind the port, and its errors."""
        out, err = self.process.communicate(timeout=60)
        return self.process.returncode, out, err


class System:
    """A system that may be strange, on which servers run over copies of the offices."""

    def __init__(self, program, offices):
        self.program, self.offices = program, offices

    def environment(self, strange):
        library = {"LD_PRELOAD": str(self.offices / "strange_system.so")} if strange else {}
        return os.environ | {name: str(value) for name, value in strange.items()} | library

    @contextlib.contextmanager
    def serving(self, connections, office="web.db", nonces="/dev/zero", **strange):
        """A server of so many connections, over a copy of an office. It stands still."""
        shutil.copy(self.offices / office, "copy.db")
        words = f"serve --db copy.db --port 0 --connections {connections} --nonces {nonces}".split()
        with listening([self.program, *words], env=self.environment(strange)) as begun:
            yield Server(*begun)
        for file in pathlib.Path().glob("copy.db*"):
            file.unlink()

    def met(self, *requests, connections=None, **how):
        """What clients are given that send these requests, and how the server ends."""
        with self.serving(connections or len(requests), **how) as server:
            peers = [server.client(request) for request in requests]
            server.go_on()
            return [given(peer) for peer in peers], server.ended()

    def dripped(self, request, **strange):
        """The same of a client that sends each byte alone, once the server waits for it."""
        def waits():
            return server.process.poll() is not None or sum(it.startswith("read") for it in lines("dripped.waits"))

        with self.serving(1, WAITS="dripped.waits", **strange) as server:
            peer = server.client(b"")
            server.go_on()
            for number in range(len(request)):
                until(lambda: waits() is True or waits() > number)
                with contextlib.suppress(BrokenPipeError, ConnectionResetError):
                    peer.sendall(request[number:number + 1])
            return [given(peer)], server.ended()

    def selftest(self, **strange):
        return said([self.program, "selftest"], env=self.environment(strange))


@pytest.fixture
def system(program, offices, room):
    return System(program, offices)


def given(peer):
    """All that a client is given. A reset behind a response is told."""
    got = b""
    with peer:
        try:
            while piece := peer.recv(65536):
                got += piece
        except ConnectionResetError:
            return got and got + RESET
    return got


def ends(*faults):
    """How a server ends with these faults of connections."""
    return 0, b"", b"".join(b"sshoffice: connection %s\n" % fault for fault in faults)


def timed(server, peer):
    """What a client is given, and for how long a server goes on until then."""
    begun = time.monotonic()
    server.go_on()
    return given(peer), time.monotonic() - begun


def is_about(wait, seconds):
    """Whether it took as long as such a wait on a hurried system, and not as long as on another one, or how long."""
    return True if 0.9 * wait / PART <= 1e6 * seconds < wait else f"{seconds:.3f} s"


def lines(name):
    file = pathlib.Path(name)
    return file.read_text().splitlines() if file.exists() else []


# ---- connections, one after the other

def test_hundreds_are_served_in_turn(system, room):
    """Each takes 32 bytes of the nonces."""
    (room / "many.nonces").write_bytes(bytes(300 * 32))
    with system.serving(301, nonces="many.nonces") as server:
        for _ in range(3):
            peers = [server.client(LIST) for _ in range(100)]
            server.go_on()
            assert [NO_LIST] * 100 == [given(peer) for peer in peers]
            server.stop()
        peer = server.client(LIST)
        server.go_on()
        assert (b"", ends(b"301 Nonces")) == (given(peer), server.ended())


def test_forty_nonce_bytes_serve_one_of_two(system, room):
    (room / "forty.nonces").write_bytes(b"\x33" * 40)
    assert ([NO_LIST, b""], ends(b"2 Nonces")) == system.met(LIST, LIST, nonces="forty.nonces")


def test_a_fault_is_printed_before_the_next_connection_comes(system, room):
    """The server goes on serving, and its errors are a pipe."""
    (room / "forty.nonces").write_bytes(b"\x33" * 40)
    with system.serving(3, nonces="forty.nonces") as server:
        peers = [server.client(LIST), server.client(LIST)]
        server.go_on()
        assert [NO_LIST, b""] == [given(peer) for peer in peers]
        told, _, _ = select.select([server.process.stderr], [], [], 30)
        assert [b"sshoffice: connection 2 Nonces\n"] == [file.readline() for file in told]
        assert server.process.poll() is None
        assert (b"", ends(b"3 Nonces")) == (given(server.client(LIST)), server.ended())


def test_a_peer_that_has_hung_up_is_no_fault(system):
    """One that ended too soon is refused, and the next is served."""
    with system.serving(3) as server:
        server.client(LIST).close()
        cut, last = server.client(CUT), server.client(LIST)
        cut.shutdown(socket.SHUT_WR)
        server.go_on()
        assert (CUT_REFUSED, NO_LIST, ends()) == (given(cut), given(last), server.ended())


@pytest.mark.parametrize("size", [20000, 40000])
def test_a_response_comes_whole_before_a_body_that_is_not_read(system, size):
    """And the connection isn't reset behind it."""
    with system.serving(2) as server:
        peer, other = server.client(post("ana", "i1", b"a" * size)), server.client(LIST)
        with peer.dup() as kept:
            server.go_on()
            assert (TOO_LONG, NO_LIST, ends()) == (given(peer), given(other), server.ended())
            assert 0 == kept.getsockopt(socket.SOL_SOCKET, socket.SO_ERROR)


def test_a_peer_that_stays_behind_its_response_is_not_waited_for(system):
    """The next is served at once, and not after ten seconds."""
    with system.serving(2) as server:
        peer, other = server.client(LIST), server.client(LIST)
        with peer.dup():
            server.go_on()
            assert NO_LIST == given(peer)
            begun = time.monotonic()
            assert NO_LIST == given(other)
            assert time.monotonic() - begun < STEP / 2e6
        assert ends() == server.ended()


def test_what_a_peer_sends_behind_its_request_is_not_read_without_end(system):
    assert ([NO_LIST] * 2, ends()) == system.met(LIST, LIST, ENDLESS="yes")


@pytest.mark.parametrize(("requests", "faults"), [((LIST,), [b"1 Socket"]), ((), [b"1 Socket", b"2 Socket"])])
def test_an_accept_that_fails_counts_as_a_connection(system, requests, faults):
    assert ([NO_LIST] * len(requests), ends(*faults)) == system.met(*requests, connections=2, UNACCEPTED=len(faults))


# ---- ports

def test_a_port_is_printed_and_taken(system, program, offices):
    """Nobody else can listen there. A client is served, and nothing more is printed."""
    with system.serving(1) as server:
        assert b"listening %d\n" % server.port == server.line
        peer = server.client(LIST)
        shutil.copy(offices / "web.db", "beside.db")
        words = f"serve --db beside.db --port {server.port} --connections 1 --nonces /dev/zero"
        assert (1, b"", b"sshoffice: Socket\n") == said([program, *words.split()])
        server.go_on()
        assert (NO_LIST, ends()) == (given(peer), server.ended())


def test_a_port_that_can_not_be_printed_is_a_fault(program, offices, room):
    shutil.copy(offices / "web.db", "beside.db")
    words = "serve --db beside.db --port 0 --connections 1 --nonces /dev/zero".split()
    with open("/dev/full", "wb") as full:
        done = run([program, *words], capture_output=False, stdout=full, stderr=subprocess.PIPE)
    assert (1, b"sshoffice: Write\n") == (done.returncode, done.stderr)


def test_it_listens_on_loopback_alone(system):
    """What Linux says of the sockets that listen: the address is 127.0.0.1, and there is none of IPv6."""
    with system.serving(1) as server:
        def listening(family):
            lines = pathlib.Path(f"/proc/{server.process.pid}/net/{family}").read_text().splitlines()[1:]
            return [line.split()[1] for line in lines
                    if line.split()[3] == "0A" and line.split()[1].endswith(f":{server.port:04X}")]

        assert [f"0100007F:{server.port:04X}"] == listening("tcp")
        assert [] == listening("tcp6")


def addresses():
    """The addresses of this machine but 127.0.0.1, as Linux has them. All that begin with 127 are its own."""
    told = json.loads(run(["ip", "-json", "address"], check=True).stdout)
    own = [it["local"] for interface in told for it in interface.get("addr_info", ()) if it.get("scope") != "link"]
    return ["127.0.0.2", *(it for it in own if it != "127.0.0.1")]


def test_at_another_address_of_the_machine_nobody_listens(system):
    with system.serving(1) as server:
        for address in addresses():
            with pytest.raises(ConnectionRefusedError):
                socket.create_connection((address, server.port), timeout=10)
        peer = server.client(LIST)
        server.go_on()
        assert (NO_LIST, ends()) == (given(peer), server.ended())


def test_a_longest_body_is_served(system):
    """It is read whole, and is no message."""
    longest = post("ana", "i1", b"a" * 16384)
    (refused, other), end = system.met(longest, LIST)
    assert (b"refused 7 BadMessage\n", NO_LIST, ends()) == (refused.partition(b"\r\n\r\n")[2], other, end)


def nonces_of(office, places, **how):
    """The nonces of certificates that are issued by one server, in a department that it makes. A connection each. In a
    certificate's body the nonce is a string behind the name of the format."""
    with office.serving(**how) as served:
        asked = [served.post("root", f"web{places[0]}", department())]
        asked += [served.post("ana", f"k{it}", issue(f"web/{it}")) for it in places]
        assert [200] * len(asked) == [it.status for it in asked]
        return [served.get(f"/v1/certs/{it}/body").body[40:72] for it in places]


def test_each_certificate_has_a_nonce_of_its_own(office):
    """Also after another start."""
    nonces = nonces_of(office, range(1, 21)) + nonces_of(office, range(21, 41))
    assert (40, False) == (len({*nonces}), bytes(32) in nonces)


def test_nonces_are_the_bytes_of_the_file_one_after_the_other(office, room):
    """The department's connection takes the first 32 bytes."""
    file = bytes(number % 251 for number in range(32 * 20))
    (room / "known.nonces").write_bytes(file)
    assert [file[32 * it:32 * it + 32] for it in (1, 2, 3)] == nonces_of(office, [1, 2, 3], nonces="known.nonces")


def test_of_zeros_the_nonces_are_zeros(office):
    assert [bytes(32)] * 3 == nonces_of(office, [1, 2, 3], nonces="/dev/zero")


# ---- clocks

def test_at_the_latest_moment_a_client_is_served(system):
    assert ([NO_LIST], ends()) == system.met(LIST, MOMENT=LATEST)


@pytest.mark.parametrize("strange", [
    {"MOMENT": LATEST + 1}, {"MOMENT": 2 ** 63 - 1}, {"EARLY_CLOCK": "yes"}, {"MOMENT": "none"}, {"TICK": "none"}],
    ids=["a second past the latest moment", "at the last second of a clock", "before 1970", "the time can't be told",
         "the clock of waits fails"])
def test_at_no_moment_none_is_served(system, strange):
    assert ([b"", b""], ends(b"1 Clock", b"2 Clock")) == system.met(LIST, LIST, **strange)


def test_messages_come_at_the_moment_of_the_clock(system):
    wanted = [FOUNDED, REVOKED, REVOKED_LIST], ends()
    assert wanted == system.met(DEPARTMENT, REVOCATION, LIST, office="new.db", MOMENT=3000)


def test_messages_come_at_the_moment_of_this_systems_clock(system):
    then = (3000).to_bytes(8, "big")
    place = REVOKED_LIST.index(then)
    before = int(time.time())
    (_, listed), _ = system.met(REVOCATION, LIST)
    date = listed[place:place + 8]
    assert before <= int.from_bytes(date, "big") <= time.time()
    assert REVOKED_LIST.replace(then, date) == listed


def test_a_server_that_has_waited_has_the_moment_of_the_connection(system):
    """And not that at which it began to wait."""
    then = (3000).to_bytes(8, "big")
    place = REVOKED_LIST.index(then)
    with system.serving(2) as server:
        server.go_on()
        time.sleep(2)
        before = int(time.time())
        peer = server.client(REVOCATION)
        assert REVOKED == given(peer)
        listed = given(server.client(LIST))
        assert before <= int.from_bytes(listed[place:place + 8], "big") <= time.time()


# The clock is read when the connection is accepted, before the request is read, and before the response is written.
@pytest.mark.parametrize(("tick", "fault"), [
    (1, None), (29_999, None), (30_000, b"Write"), (59_999, b"Write"), (60_000, b"Read"), (70_000, b"Read")])
def test_a_connection_has_a_minute(system, tick, fault):
    """A reading of the clock takes so many milliseconds."""
    wanted = ([b""], ends(b"1 " + fault)) if fault else ([NO_LIST], ends())
    assert wanted == system.met(LIST, TICK=tick)


# Before each of the 24 bytes of the request, if each comes alone. So a byte is read after its number of ticks, and the
# response is written after 25.
@pytest.mark.parametrize(("tick", "fault"), [
    (1, None), (2399, None), (2400, b"Write"), (2499, b"Write"), (2500, b"Read"), (2600, b"Read")])
def test_a_connection_whose_bytes_come_alone_has_a_minute(system, tick, fault):
    wanted = ([b""], ends(b"1 " + fault)) if fault else ([NO_LIST], ends())
    assert wanted == system.dripped(LIST, TICK=tick)


def left(tick, readings):
    """The waits that are due to so many readings of a clock with this tick."""
    return [min(STEP, WHOLE - number * tick * 1000) for number in range(1, readings + 1)]


def test_each_wait_is_ten_seconds_or_what_is_left_of_the_minute(system):
    assert ([NO_LIST], ends()) == system.dripped(LIST, TICK=2200)
    *reads, write = left(2200, 25)
    assert [*(f"read {wait}" for wait in reads), f"write {write}"] == lines("dripped.waits")


@pytest.mark.parametrize(("asked", "count"), [(DEPARTMENT, 1), (post("ana", "i1", b"a" * 16384), 2)],
                         ids=["a short request", "the longest body"])
def test_a_request_that_came_whole_is_read_at_once(system, asked, count):
    """So is what is missing of a body behind the first 4096 bytes."""
    system.met(asked, WAITS="served.waits")
    assert [f"read {STEP}"] * count + [f"write {STEP}"] == lines("served.waits")


def test_a_silent_peer_is_waited_for_ten_seconds(system):
    with system.serving(2, HURRIED=PART) as server:
        silent, other = server.client(HALF), server.client(LIST)
        got, seconds = timed(server, silent)
        assert (b"", True, NO_LIST, ends(b"1 Read")) == (got, is_about(STEP, seconds), given(other), server.ended())


def test_at_the_end_of_its_minute_a_silent_peer_is_waited_for_what_is_left(system):
    with system.serving(1, HURRIED=PART, TICK=27_600, WAITS="silent.waits") as server:
        got, seconds = timed(server, server.client(HALF))
        due = left(27_600, 2)
        assert (b"", True, ends(b"1 Read")) == (got, is_about(due[-1], seconds), server.ended())
        assert [f"read {wait}" for wait in due] == lines("silent.waits")


# ---- a page that is longer than what sockets hold

SIGNERS = get("/v1/signers")


def long_page():
    """The response with the signers of nine departments and eight CAs: 72 lines, most of over a thousand bytes."""
    page = "".join(f'{RULES[name]} cert-authority,namespaces="file,git" {key_line(number)}\n'
                   for name in sorted(RULES) for number in CAS)
    return ("HTTP/1.1 200 OK\r\ncontent-type: text/plain\r\n"
            f"content-length: {len(page)}\r\nconnection: close\r\n\r\n{page}").encode()


def test_small_sockets_carry_a_long_page_whole(system):
    assert ([long_page(), NO_LIST], ends()) == system.met(SIGNERS, LIST, office="long.db", SMALL_SOCKETS="yes")


def test_a_peer_that_does_not_read_is_waited_for_ten_seconds(system):
    """Ten seconds are set for each try, and the peer is given a beginning of the page."""
    page = long_page()
    with system.serving(2, office="long.db", SMALL_SOCKETS="yes", HURRIED=PART, WAITS="unread.waits") as server:
        peer, other = server.client(SIGNERS, is_small=True), server.client(LIST)
        got, seconds = timed(server, other)
        assert (NO_LIST, True, ends(b"1 Write")) == (got, is_about(STEP, seconds), server.ended())
        assert {f"write {STEP}"} == {line for line in lines("unread.waits") if line.startswith("write")}
        got = given(peer).removesuffix(RESET)
        assert (True, True) == (page.startswith(got), len(got) < len(page))


# ---- signals

def interrupted(server, file, what, count):
    """Stops a server that waits, and lets it go on, until it has set so many waits. Answers whether it has."""
    for _ in range(500):
        if sum(line.startswith(what) for line in lines(file)) >= count:
            return True
        server.stop()
        server.go_on()
        time.sleep(0.01)
    return False


def test_a_read_and_a_write_that_are_interrupted_are_made_again(system):
    with system.serving(2, office="long.db", SMALL_SOCKETS="yes", WAITS="interrupted.waits") as server:
        halting, late = server.client(HALF), server.client(SIGNERS, is_small=True)
        server.go_on()
        reads = interrupted(server, "interrupted.waits", "read", 5)
        halting.sendall(LIST[len(HALF):])
        assert (True, NO_LIST) == (reads, given(halting))
        writes = interrupted(server, "interrupted.waits", "write", 5)
        assert (True, long_page(), ends()) == (writes, given(late), server.ended())


def test_nonces_are_read_however_often_signals_interrupt(system):
    assert ([NO_LIST], ends()) == system.met(LIST, INTERRUPTED=100)


# ---- the program as its own client

def test_the_program_answers_itself(system):
    assert (0, b"selftest ok\n", b"") == system.selftest()


@pytest.mark.parametrize(("strange", "fault"), [
    ({"EARLY_CLOCK": "yes"}, b"Clock"), ({"TURNED_BYTES": "yes"}, b"Mismatch"), ({"TURNED_END": "yes"}, b"Mismatch"),
    ({"LATE_BYTE": "yes"}, b"Mismatch"), ({"UNACCEPTED": 1}, b"Socket")],
    ids=["a time before 1970", "a socket that turns the first byte", "a list whose last byte is another",
         "a list with a byte more", "nobody can be accepted"])
def test_the_selftest_ends_with_a_fault(system, strange, fault):
    assert (1, b"", b"sshoffice: %s\n" % fault) == system.selftest(**strange)
