"""Lists on their way from the office to servers. The station publishes what its guard states, by the front, and servers
take nothing else: what a false front, a false office and a station that is killed can do to a list."""
import base64
import contextlib
import getpass
import os
import pathlib
import random
import re
import signal
import socket
import sys
import threading
import time

import pytest

from asking import department
from fetching import Web, response, script, silent, small_disk
from fronts import has_ipv6
from publishing import HIGHEST, OTHER_CA, Signer, bitmaps, is_signed, key_line, krl, parted, statement
from recording import getting, statuses, whole_request
from running import PROGRAMS, free_port, is_listening, left_out, preloaded, run, until, write_secret
from stations import Lists, Station, begin_agent, locked, new_guard, stopped

pytestmark = [pytest.mark.front, pytest.mark.xdist_group("published")]


class FalseOffice(Web):
    """An office of which nothing is known but its list. Nothing is pending."""

    def __init__(self, data, **how):
        super().__init__(**how)
        self.list = data

    def finish_request(self, peer, address):
        came = whole_request(peer)
        self.requests.append(came)
        peer.settimeout(60)
        if came:
            peer.sendall(response({b"/v1/krl": self.list, b"/v1/pending": b""}.get(came.split(b" ")[1], b"")))


class FalseFront(FalseOffice):
    """A front of which nothing is known but its list, and what it answers if another is put. `taken` has what was put.
    It waits for `holds`, if that is an event, before it says so, and for `hangs` before it reads anything."""
    holds = hangs = None

    def __init__(self, data, status="204 No Content", **how):
        super().__init__(data, **how)
        self.status, self.taken = status, []

    def finish_request(self, peer, address):
        if self.hangs:
            self.hangs.wait()
            return None
        if peer.recv(4, socket.MSG_PEEK) != b"PUT ":
            return super().finish_request(peer, address)
        self.taken.append(whole_request(peer).partition(b"\r\n\r\n")[2])
        if self.holds:
            self.holds.wait()
        peer.sendall(response(b"", self.status))


class Site:
    """A front before a false office, a station that publishes lists, and a server.

    `key` are the words for the CA's key, `ca` the file of its line. `blob` is the CA, by which lists are made."""

    def __init__(self, room, make_front, sshstation, key, ca, **environment):
        self.room, self.key, self.ca, self.environment = room, key, pathlib.Path(ca), environment
        self.blob = blob_in(self.ca)
        self.old = self.krl(3, [1, 2, 9])
        self.office = FalseOffice(self.old)
        self.front = make_front(self.office.port, edits=FRESH)
        self.allowed = room / "signers"
        self.allowed.write_text(f'krl namespaces="krl@vethlumi" {self.ca.read_text()}')
        self.guard = new_guard(sshstation, self, policy=department())
        self.lists = Lists(sshstation, "lists.db", self.ca)
        self.file = self.front.state / "published"

    def krl(self, version, revoked=(), **how):
        return krl(version, revoked, **{"ca": self.blob} | how)

    def gives(self, data):
        """Has the office give this list, and waits until the front does, which keeps pages for two seconds."""
        self.office.list = data
        until(lambda: self.front.session().get(f"{self.front.url}/v1/krl").content == data)

    def begin_with(self, data):
        (self.room / "first").write_bytes(data)
        assert self.lists.state("first", "--begin").startswith("list ")

    def station(self, *addresses):
        """A station for which the front's name has these addresses, if any are given."""
        made = Station(self.guard, self.front.url, self.key, certificate=self.front.certificate("station"),
                       trusted=self.front.authority / "ca.crt", lists=self.lists)
        made.environment |= self.environment
        if addresses:
            made.resolve(*addresses)
        return made

    def station_of(self, front, *addresses):
        """A station for false fronts, without TLS, at the port of one of them."""
        made = Station(self.guard, f"http://localhost:{front.port}", self.key, lists=self.lists)
        made.resolve(*addresses)
        return made

    def fetch(self, *options):
        """fetch-list of a server: its status, and what it says but for curl's own lines."""
        words = ["--cacert", self.front.authority / "ca.crt", "--signers", self.allowed, *options]
        status, _, errors = script("fetch-list", *words, self.front.url, "list")
        return status, [it.removeprefix("fetch-list: ") for it in errors if not it.startswith("curl: ")]

    def got(self):
        return (self.room / "list").read_bytes()


# No page is kept, so that a list that has changed is there at once.
FRESH = [("proxy_cache_valid 200 2s;", "proxy_cache_valid 200 1s;")]


def blob_in(file):
    return base64.b64decode(file.read_text().split()[1])


def new_pem(name="ca"):
    """A CA's private key as openssl makes it, and the file of its line."""
    run(["openssl", "genpkey", "-algorithm", "ed25519", "-out", f"{name}.pem"], check=True)
    pathlib.Path(f"{name}.pub").write_bytes(run([PROGRAMS / "station/ca-line", f"{name}.pem"], check=True).stdout)
    return pathlib.Path(f"{name}.pem").absolute(), pathlib.Path(f"{name}.pub").absolute()


@pytest.fixture
def make_site(room, make_front, sshstation):
    sites = []

    def make(key=None, ca=None, **environment):
        if key is None:
            pem, ca = new_pem()
            key = ["--key", pem]
        sites.append(Site(room, make_front, sshstation, key, ca, **environment))
        return sites[-1]

    yield make
    for it in sites:
        it.office.__exit__()


@pytest.fixture
def site(make_site):
    """A site of which the first list is published, and fetched."""
    made = make_site()
    made.begin_with(made.old)
    assert (0, ["published 3"], []) == made.station().once()
    assert (0, []) == made.fetch()
    return made


# ---- what is published

def test_a_list_comes_from_the_office_to_a_server(site, room):
    published = site.file.read_bytes()
    text, signature, data = parted(published)
    assert site.old == data == site.got()
    assert is_signed(text, signature, site.allowed)
    moment = int(text.split()[-1])
    assert statement(site.old, moment=moment) == text
    assert 0 <= time.time() - moment < 100
    lines = signature.decode().splitlines()
    assert ({70}, True) == ({len(it) for it in lines[1:-2]}, len(lines[-2]) <= 70)
    assert published == site.front.session().get(f"{site.front.url}/published").content
    site.gives(site.krl(4, [1, 2, 5, 9]))
    assert (0, ["published 4"], []) == site.station().once()
    assert (0, []) == site.fetch()
    assert site.office.list == site.got()


def new_openssh_key(name):
    run(["ssh-keygen", "-q", "-t", "ed25519", "-N", "", "-C", name, "-f", name], check=True)
    return pathlib.Path(name).absolute(), pathlib.Path(f"{name}.pub").absolute()


@pytest.fixture
def agent(programs, room):
    """An agent that has a key of OpenSSH, which stays in a file for comparison."""
    key, line = new_openssh_key("ca")
    socket = begin_agent(programs, room / "agent")
    run(["ssh-add", "-q", "ca"], env=os.environ | socket, check=True)
    return key, line, socket


def test_a_signature_is_byte_for_byte_that_of_ssh_keygen(make_site, agent):
    """Signatures of Ed25519 have one value, so one by an agent is that of ssh-keygen."""
    key, line, socket = agent
    site = make_site(["--agent", line], line, **socket)
    site.begin_with(site.old)
    assert (0, ["published 3"], []) == site.station().once()
    text, signature, data = parted(site.file.read_bytes())
    words = ["ssh-keygen", "-q", "-Y", "sign", "-f", key, "-n", "krl@vethlumi"]
    assert run(words, input=text, stdin=None, check=True).stdout == signature
    assert (0, []) == site.fetch()


MODULE = "/usr/lib/softhsm/libsofthsm2.so"


def test_a_key_in_a_token_signs_lists(make_site, room):
    (room / "tokens").mkdir()
    (room / "softhsm2.conf").write_text(f"directories.tokendir = {room}/tokens\nobjectstore.backend = file\n")
    environment = {"SOFTHSM2_CONF": str(room / "softhsm2.conf")}
    how = {"env": os.environ | environment, "check": True}
    pins = ["--so-pin", "87654321", "--pin", "12345678"]
    run(["softhsm2-util", "--init-token", "--free", "--label", "ca", *pins], **how)
    pkcs11 = ["pkcs11-tool", "--module", MODULE, "--login", "--pin", "12345678"]
    run([*pkcs11, "--keypairgen", "--key-type", "EC:edwards25519", "--label", "ca", "--id", "01"], **how)
    shown = run([*pkcs11, "--list-objects", "--type", "pubkey"], **how).stdout.decode()
    point = bytes.fromhex(re.search(r"EC_POINT:\s+0420([0-9a-f]{64})", shown)[1])
    (room / "ca.pub").write_text(key_line(b"\0\0\0\x0bssh-ed25519\0\0\0\x20" + point))
    write_secret("pin", "12345678\n")
    key = ["--pkcs11", MODULE, "--id", "01", "--pin-file", room / "pin"]
    site = make_site(key, room / "ca.pub", **environment)
    site.begin_with(site.old)
    assert (0, ["published 3"], []) == site.station().once()
    assert (0, []) == site.fetch()
    assert site.old == site.got()


@pytest.mark.slow
def test_it_is_published_again_and_again(site, programs):
    """With a new moment each time, and said once for each version."""
    def moment():
        return int(parted(site.file.read_bytes())[0].split()[-1])

    process = site.station().begin(programs, "--publish-every", "1")
    first = moment()
    until(lambda: moment() > first + 1, seconds=60)
    site.office.list = site.krl(4, [1, 2, 5, 9])
    until(lambda: parted(site.file.read_bytes())[2] == site.office.list, seconds=60)
    second = moment()
    until(lambda: moment() > second + 1, seconds=60)
    assert (0, ["published 3", "published 4"], []) == stopped(process)


@pytest.mark.parametrize("every, is_taken", [(1, True), (3600, False)], ids=["published", "not taken"])
def test_it_is_published_in_time_between_two_rounds(site, programs, every, is_taken):
    """However long a station waits until it looks for certificates again: else statements would grow old, and a front
    that was away for a moment would have none."""
    with FalseFront(site.old, "204 No Content" if is_taken else "503 Away") as front:
        station = site.station_of(front, "127.0.0.1")
        station.change("PAUSE_OF_LISTS = 60, 10", "PAUSE_OF_LISTS = 60, 1")
        process = station.begin(programs, "--publish-every", every, "--interval", 3600)
        until(lambda: len(front.taken) > 2, seconds=60)
        assert 1 == sum(it.startswith(b"GET /v1/pending ") for it in front.requests)
        assert 0 == stopped(process)[0]


# ---- several fronts of one name

ONE, TWO, THREE = "127.0.0.1", "127.0.0.2", "127.0.0.3"
DOWN = "station: the list isn't published at {}: [Errno 111] Connection refused"


@pytest.fixture
def another(site, make_front):
    """Makes a front at another address of the first one's name."""
    def make(address=TWO):
        made = make_front(site.office.port, edits=FRESH, address=address, beside=site.front)
        made.file = made.state / "published"
        return made

    return make


def test_each_front_of_a_name_gets_the_list(site, another):
    """Also one that has none yet. The certificate of both is for the name, and not for the second address."""
    second = another()
    site.gives(site.krl(4, [1, 2, 5, 9]))
    station = site.station(ONE, TWO)
    assert (0, ["published 4"], []) == station.once()
    text, signature, data = parted(second.file.read_bytes())
    assert site.office.list == data and is_signed(text, signature, site.allowed)
    assert site.file.read_bytes() == second.file.read_bytes()
    # The same list again, with another statement.
    until(lambda: int(time.time()) > int(text.split()[-1]))
    assert (0, ["published 4"], []) == station.once()
    assert text != parted(second.file.read_bytes())[0]
    assert site.file.read_bytes() == second.file.read_bytes()


def test_a_front_that_is_down_is_named_and_gets_the_list_later(site, another, programs):
    second = another()
    second.end()
    station = site.station(ONE, TWO)
    assert (1, ["published 3"], [DOWN.format(TWO)]) == station.once()
    process = station.begin(programs, "--publish-every", "1")
    assert b"published 3\n" == process.stdout.readline()
    assert f"{DOWN.format(TWO)}\n" == process.stderr.readline().decode()
    site.office.list = site.krl(4, [1, 2, 5, 9])
    assert b"published 4\n" == process.stdout.readline()
    assert site.office.list == parted(site.file.read_bytes())[2]
    second.begin()
    until(second.file.exists, seconds=60)
    assert site.office.list == parted(second.file.read_bytes())[2]
    # It was said once.
    assert (0, [], []) == stopped(process)


def test_the_first_front_is_down(site, another):
    """What the station asks goes to the second."""
    second = another()
    site.front.end()
    assert (1, ["published 3"], [DOWN.format(ONE)]) == site.station(ONE, TWO).once()
    assert site.old == parted(second.file.read_bytes())[2]


def test_no_front_takes_the_list(site):
    with FalseFront(site.old, "507 Insufficient Storage") as first, \
            FalseFront(site.old, "507 Insufficient Storage", port=first.port, address=TWO):
        said = [f"station: the list isn't published at {it}: 507" for it in (ONE, TWO)]
        assert (1, [], said) == site.station_of(first, ONE, TWO).once()


@pytest.mark.parametrize("status", ["409 Conflict", "412 Precondition Failed", "200 OK", "302 Found"])
def test_a_front_that_refuses_the_list_keeps_it_from_no_other(site, status):
    """One that has a newer list, for example. No front of this repository does that."""
    with FalseFront(site.old, status) as first, FalseFront(site.old, port=first.port, address=TWO) as second:
        said = [f"station: the list isn't published at {ONE}: {status[:3]}"]
        assert (1, ["published 3"], said) == site.station_of(first, ONE, TWO).once()
        assert 1 == len(first.taken) and first.taken == second.taken
        assert site.old == parted(second.taken[0])[2]


def test_a_front_that_takes_one_list_at_a_time_is_asked_again(site):
    """As the front of this repository does, which may not be done yet with what it got at its other address."""
    with FalseFront(site.old, "429 Too Many Requests") as front:
        said = ["station: the list isn't published: 429"]
        assert (1, [], said) == site.station_of(front, ONE).once()
        assert [site.old] * 2 == [parted(it)[2] for it in front.taken], front.taken


def begin_with(site, programs, front, request, publishing):
    """A station that publishes each second to the fronts at ONE and TWO, with so many seconds for a request and for
    publishing in place of 20 and 60. It has published once."""
    station = site.station_of(front, ONE, TWO)
    station.change("= 20, 60, 30, 120, 60", f"= {request}, {publishing}, 30, 120, 60")
    process = station.begin(programs, "--publish-every", "1")
    assert b"published 3\n" == process.stdout.readline()
    return process


def test_a_slow_front_keeps_the_list_from_no_other(site, programs):
    """Each gets its part of the time."""
    with FalseFront(site.old) as first, FalseFront(site.old, port=first.port, address=TWO) as second:
        first.holds = threading.Event()
        process = begin_with(site, programs, first, 20, 8)
        said = f"station: the list isn't published at {ONE}: not within 4 seconds\n"
        assert said == process.stderr.readline().decode()
        first.list = second.list = site.krl(4, [1, 2, 5, 9])
        assert b"published 4\n" == process.stdout.readline()
        assert second.list == parted(second.taken[-1])[2]
        first.holds.set()
        first.holds = None
        count = len(first.taken)
        until(lambda: len(first.taken) > count, seconds=60)
        assert (0, [], []) == stopped(process)


def test_a_front_that_hangs_keeps_the_list_from_no_other(site, programs):
    """Its machine takes connections, and answers nothing: after the first request the other front is asked."""
    with FalseFront(site.old) as first, FalseFront(site.old, port=first.port, address=TWO) as second:
        first.hangs = threading.Event()
        process = begin_with(site, programs, first, 2, 4)
        assert second.list == parted(second.taken[0])[2]
        first.hangs.set()
        first.hangs = None
        until(lambda: first.taken, seconds=60)
        assert 0 == stopped(process)[0]


def test_a_front_that_takes_no_connection_is_given_up_soon(site):
    """As if its machine were off."""
    with FalseFront(site.old) as second, silent((TWO, second.port)):
        said = [f"station: the list isn't published at {TWO}: timed out"]
        assert (1, ["published 3"], said) == site.station_of(second, ONE, TWO).once()


def test_a_name_whose_addresses_change(site, another, programs):
    station = site.station(ONE, TWO)
    process = station.begin(programs, "--publish-every", "1")
    assert b"published 3\n" == process.stdout.readline()
    assert f"{DOWN.format(TWO)}\n" == process.stderr.readline().decode()
    third = another(THREE)
    station.resolve(ONE, THREE)
    until(third.file.exists, seconds=60)
    assert site.old == parted(third.file.read_bytes())[2]
    assert (0, [], []) == stopped(process)


def test_of_many_addresses_the_first_get_the_list(site):
    many = [f"127.0.0.{it}" for it in range(1, 101)]
    with FalseFront(site.old) as front:
        down = ["127.0.0.10", "127.0.0.100", *(f"127.0.0.{it}" for it in range(11, 16))]
        more = "station: the list isn't published at 92 of the 100 addresses of localhost: it goes to 8"
        assert (1, ["published 3"], [*map(DOWN.format, down), more]) == site.station_of(front, *many).once()
        assert 1 == len(front.taken)


def test_a_front_with_addresses_of_both_kinds_gets_the_list_by_each(site):
    if not has_ipv6():
        left_out("this machine has no IPv6")
    log = site.front.state / "asked.log"

    def by(address):
        return log.read_text().count(f' {address} "CN=station,OU=office" "station" "PUT /published HTTP/1.1" 20')

    until(lambda: by(ONE) == 1)
    assert (0, ["published 3"], []) == site.station("::1", ONE).once()
    until(lambda: (by("::1"), by(ONE)) == (1, 2))


def test_an_address_of_a_kind_that_this_machine_does_not_have_is_left_out(site, room):
    """A machine without IPv6 reaches a front that has both by the other."""
    hindered = {"LD_PRELOAD": str(preloaded("strange_library.c", room)), "NO_IPV6": "1"}
    station = site.station("2001:db8::1", ONE)
    assert (0, ["published 3"], []) == station.once(**hindered)


# ---- what a false office gives the station

# Lists that the guard would approve after the one of version 3, although no server takes them: the station's refusal,
# and what the guard says of the next list of the office if it was asked nevertheless.
UNREADABLE = [
    ("serial 0", lambda site: site.krl(4, [9], ranges=[(0, 2)]), "NotAList", "Forgets"),
    ("a zero byte inside a key id", lambda site: site.krl(4, [1, 2, 9], key_ids=["web/a\0b"]), "NotAList", "Forgets"),
    ("a version that no office gives", lambda site: site.krl(2 ** 63, ranges=[(1, 2 ** 63)]), "BadVersion",
     "OlderVersion"),
]
# Lists of a false office while the true one has version 3 with the serials 1, 2 and 9; and the refusal.
FALSE_LISTS = [
    ("an empty one of this version", lambda site: site.krl(3), "OtherBytes"),
    ("an empty one of the next version", lambda site: site.krl(4), "Forgets"),
    ("one that forgets a serial", lambda site: site.krl(4, [1, 9]), "Forgets"),
    ("another CA's", lambda site: site.krl(4, [1, 2, 9, 11], ca=OTHER_CA), "OtherCa"),
    ("an older one", lambda site: site.krl(2, [1, 2]), "OlderVersion"),
    ("one more, and the same version", lambda site: site.krl(3, [1, 2, 9, 11]), "OtherBytes"),
    ("the highest version", lambda site: site.krl(HIGHEST, [1, 2, 9]), "VersionJumps"),
    ("a higher version than any", lambda site: site.krl(2 ** 64 - 1, [1, 2, 9]), "BadVersion"),
    ("one more, and two versions", lambda site: site.krl(5, [1, 2, 9, 11]), "VersionJumps"),
    ("half a list", lambda site: site.old[:60], "NotAList"),
    ("another page", lambda site: b"<html>sign in to the network</html>\n", "NotAList"),
    ("nothing", lambda site: b"", "NotAList"),
    ("sections without an end", lambda site: site.krl(4, [1, 2, 9]) + b"\1\xff\xff\xff\xff\0\0\0\0", "NotAList"),
    *[(what, made, name) for what, made, name, _ in UNREADABLE],
]


@pytest.mark.slow
def test_no_list_of_a_false_office_is_published(site, programs):
    """A station that goes on says why it doesn't publish it. What is published stays, and so does the server's list."""
    station = site.station()
    process = station.begin(programs, "--publish-every", "1")
    assert b"published 3\n" == process.stdout.readline()
    for what, made, name in FALSE_LISTS:
        site.office.list = made(site)
        line = process.stderr.readline().decode()
        assert line.startswith(f"station: the list isn't published: refused as {name}"), (what, line)
        published = site.file.read_bytes()
        time.sleep(1.1)
        assert published == site.file.read_bytes() and site.old == parted(published)[2], what
        assert (0, []) == site.fetch(), what
        assert site.old == site.got(), what
        # The true one is published again, so that the next line is said.
        site.office.list = site.old
        until(lambda: site.file.read_bytes() != published, seconds=60)
    site.office.list = site.krl(4, [1, 2, 5, 9])
    until(lambda: parted(site.file.read_bytes())[2] == site.office.list, seconds=60)
    assert 0 == stopped(process)[0]


@pytest.mark.parametrize("made, name, later", [it[1:] for it in UNREADABLE], ids=[it[0] for it in UNREADABLE])
def test_a_list_that_no_server_takes_was_approved_without_the_station(site, room, made, name, later):
    """Servers keep theirs, also where it is stated. A new file for lists that begins with a server's list ends it, and
    no server needs force."""
    (room / "false").write_bytes(made(site))
    assert site.lists.state("false").startswith("list "), "the guard alone approves it"
    hand = Signer("hand")
    site.allowed.write_text(site.allowed.read_text() + hand.allowed.read_text())
    site.file.write_bytes(hand.published(made(site)))
    status, why = site.fetch()
    assert (1, True) == (status, why[0].startswith(f"refused as {name}: ")), why
    assert site.old == site.got()
    site.gives(site.krl(5, [1, 2, 5, 9, 11]))
    assert (1, [], [f"station: the list isn't published: refused as {later}"]) == site.station().once()
    site.lists.db.rename("replaced.db")
    site.lists = Lists(site.lists.program, site.lists.db, site.ca)
    (room / "false").write_bytes(site.krl(5, [1, 9]))
    assert site.lists.state("list", "--begin").startswith("list ")
    assert "refuse Forgets" == site.lists.state("false"), "it knows what servers have"
    assert (0, ["published 5"], []) == site.station().once()
    assert (0, []) == site.fetch()
    assert site.office.list == site.got()


@pytest.mark.slow
@pytest.mark.alone
def test_a_list_that_takes_too_much_memory_to_read_is_not_published(site):
    """The unit's limit would end the station, or its guard, in the place of ssh-keygen. On a slow machine it would
    meet the limit of time before that of memory, so that one is a higher one here."""
    site.gives(bitmaps(4, site.blob))
    station = site.station()
    station.change("MOST_READING = 5\n", "MOST_READING = 500\n")
    said = ["station: the list isn't published: ssh-keygen was killed, or needs too much memory for it"]
    assert (1, [], said) == station.once()
    assert site.old == parted(site.file.read_bytes())[2]


@pytest.mark.slow
def test_a_list_that_takes_too_long_to_read_is_not_published(site):
    station = site.station()
    station.runs_in_place_of("ssh-keygen", "exec sleep 1000")
    said = ["station: the list isn't published: ssh-keygen reads it for more than 60 seconds"]
    assert (1, [], said) == station.once()


@pytest.mark.parametrize("seconds, is_read", [(3, True), (8, False)])
def test_a_list_that_would_make_logins_slow_is_not_published(site, seconds, is_read):
    """sshd reads the whole list at each login. What counts is the time of a processor, so that a busy machine refuses
    no list."""
    station = site.station()
    station.runs_in_place_of("ssh-keygen", f"exec {sys.executable} -c 'import time\n"
                                           f"while time.process_time() < {seconds}: pass'")
    said = ["station: the list isn't published: ssh-keygen reads it for more than 5 seconds of a processor, and sshd "
            "would at each login"]
    assert ((0, []) if is_read else (1, said)) == station.once()[::2]


def test_a_limit_of_memory_that_cannot_be_set_is_said(site, room):
    """No list is read without one, and the station goes on."""
    hindered = {"LD_PRELOAD": str(preloaded("strange_library.c", room)), "NO_LIMITS": "1"}
    said = ["station: the list isn't published: prlimit: failed to set the AS resource limit: Operation not permitted"]
    assert (1, [], said) == site.station().once(**hindered)


def test_a_guard_that_was_not_begun_publishes_nothing(make_site):
    site = make_site()
    said = ["station: the list isn't published: refused as NotBegun"]
    assert (1, [], said) == site.station().once()
    assert not site.file.exists()
    status, why = site.fetch()
    assert (1, f"no list from {site.front.url}; list is as it was") == (status, why[0])


def test_what_the_guard_meets_is_said(site):
    """The guard names its fault, and the station its file."""
    with locked(site.lists.db) as why:
        assert (1, [], [f"station: the list isn't published: sshstation: Device: {why}"]) == site.station().once()
    site.lists.db.rename("elsewhere")
    said = [f"station: the list isn't published: sshstation: NotAGuard: {site.lists.db}: No such file or directory"]
    assert (1, [], said) == site.station().once()


def test_the_key_is_one_of_the_cas(site, room):
    """Another key's statement would be believed by no server, so it isn't published."""
    before = site.file.read_bytes()
    site.key = ["--key", new_pem("other")[0]]
    said = ["station: the list isn't published: the key is none of --list-ca: its signature doesn't verify"]
    assert (1, [], said) == site.station().once()
    assert before == site.file.read_bytes()


def test_a_list_that_is_not_published_keeps_no_certificate_from_being_signed(site, programs):
    """And the other way round: see the guards' own tests. Here an office whose list is bad answers what is pending."""
    site.gives(b"no list")
    status, out, said = site.station().once()
    assert (1, [], ["station: the list isn't published: refused as NotAList"]) == (status, out, said)
    assert any(it.startswith(b"GET /v1/pending ") for it in site.office.requests)


# ---- what a false front gives servers

def with_head_of(old, data):
    text, signature, _ = parted(old)
    return text + signature + data


@pytest.mark.slow
def test_no_list_of_a_false_front_is_taken(site, room):
    """Each of the false lists with the true statement, with one of another signer, and with none. The true list stays,
    and its statement."""
    true, other = site.file.read_bytes(), Signer("other")
    kept = (room / "list.statement").read_bytes()
    for what, made, _ in FALSE_LISTS:
        data = made(site)
        for false, name in ((with_head_of(true, data), None), (other.published(data, version=4), "NotSigned"),
                            (data, "NotStated")):
            site.file.write_bytes(false)
            status, why = site.fetch()
            # A list that is in place isn't fetched: its statement is all that is looked at.
            if name is None and status == 0:
                assert parted(false)[0] == parted(true)[0]
            else:
                assert (1, True) == (status, why[0].startswith(f"refused as {name or 'OtherDigest'}: ")), (what, why)
            assert (site.old, kept) == (site.got(), (room / "list.statement").read_bytes()), what


@pytest.mark.slow
def test_a_new_server_takes_no_list_of_a_false_front(site, room):
    true, other = site.file.read_bytes(), Signer("other")
    for it in ("list", "list.statement"):
        (room / it).unlink()
    for what, made, _ in FALSE_LISTS:
        data = made(site)
        for false, name in ((with_head_of(true, data), "OtherDigest"), (other.published(data, version=4), "NotSigned"),
                            (data, "NotStated")):
            site.file.write_bytes(false)
            status, why = site.fetch()
            assert (1, True) == (status, why[0].startswith(f"refused as {name}: ")), (what, why)
            assert not (room / "list").exists(), what
    site.file.write_bytes(true)
    assert (0, []) == site.fetch()


def test_an_old_file_of_the_front_is_not_taken_again(site, room):
    """What the front had published before, with its true statement."""
    old = site.file.read_bytes()
    time.sleep(1.1)
    site.gives(site.krl(4, [1, 2, 5, 9]))
    assert 0 == site.station().once()[0]
    assert (0, []) == site.fetch()
    site.file.write_bytes(old)
    assert (1, ["refused as OlderVersion: got version 3, and 4 is in place; list is as it was"]) == site.fetch()
    assert site.office.list == site.got()


def test_it_takes_the_stations_machine_to_take_a_revocation_back(site, room):
    """With the CA's key, and with nothing less: such a list is taken if the front gives it."""
    forger = Signer("forger")
    false = site.krl(4)
    site.file.write_bytes(forger.published(false))
    assert 1 == site.fetch()[0]
    text = statement(false)
    site.allowed.write_text(forger.allowed.read_text())
    site.file.write_bytes(text + forger.sign(text) + false)
    assert (0, []) == site.fetch()
    assert false == site.got()


def test_a_list_that_a_front_keeps_back_is_seen_within_the_hour(site):
    """The station publishes, and the front gives what it had."""
    words = ["--cacert", site.front.authority / "ca.crt", "--signers", site.allowed, "--metrics", "metrics"]
    done = run(["faketime", "-f", "+61m", PROGRAMS / "server/fetch-list", *words, site.front.url, "list"])
    assert 3 == done.returncode
    assert re.fullmatch(rb"fetch-list: list is stale: its statement is 3\d\d\d seconds old\n", done.stderr), done.stderr
    assert "office_list_fresh 0\n" in pathlib.Path("metrics").read_text()
    assert site.old == site.got()


# ---- who may publish, and what

def putting(body, *lines, target="/published", method="PUT"):
    head = [f"{method} {target} HTTP/1.1".encode(), b"Host: localhost", b"Connection: close", *lines]
    if not any(it.lower().startswith((b"content-length", b"transfer-encoding")) for it in lines):
        head.append(b"Content-Length: %d" % len(body))
    return b"\r\n".join(head) + b"\r\n\r\n" + body


def folder_of(front):
    """The files below the front's state, with their bytes, but not its log, and not the pages that it keeps, which it
    removes some time after they were last asked for."""
    found = {}
    for it in front.state.rglob("*"):
        # nginx may be removing what it has of a body.
        with contextlib.suppress(FileNotFoundError):
            if it.is_file() and it.suffix not in (".log", ".pid", ".faults") and it.parent.name != "cache":
                found[str(it.relative_to(front.state))] = it.read_bytes()
    return found


NO_RIGHT, NO_METHOD = (403, "only the station may publish"), (405, "what is published is read by GET")
# What is sent, by whom, and the status with the front's words.
TRIED = [
    ("no certificate", None, putting(b"false"), *NO_RIGHT),
    *[(it, it, putting(b"false"), *NO_RIGHT) for it in ("ana", "root", "watch")],
    *[(f"{method}, the station", "station", putting(b"", method=method), *NO_METHOD)
      for method in ("POST", "DELETE", "MKCOL", "PROPFIND", "HEAD", "PATCH", "OPTIONS")],
    *[(f"{method}, the station", "station", putting(b"", b"Destination: https://localhost/other", method=method),
       *NO_METHOD) for method in ("COPY", "MOVE")],
    *[(f"the path {target}", "station", putting(b"false", target=target), 404, "no such path")
      for target in ("/published/", "//published", "/published?a", "/%70ublished", "/published/../asked.log", "/other",
                     "/front.pid", "/Published")],
    ("another page", "station", putting(b"false", target="/v1/krl"), 405, "a page is read by GET"),
    ("the CAs' keys", "station", putting(b"false", target="/ca-keys"), 405, "a page is read by GET"),
    ("a part of a file", "station", putting(b"false", b"Content-Range: bytes 0-4/100"), 501, None),
    ("more than a list", "station", putting(b"false", b"Content-Length: 33562625"), 413, None),
    ("more than a list, by nobody", None, putting(b"false", b"Content-Length: 33562625"), 413, None),
    ("no length", "station", putting(b"false", b"Content-Length: -1"), 400, None),
]


def test_who_may_publish(site):
    before = folder_of(site.front)
    for what, name, request, status, words in TRIED:
        answer = site.front.ask(request, name)
        assert status == answer.status, (what, answer.bytes)
        assert words is None or what.startswith("HEAD") or f"front: {words}\n" == answer.text, (what, answer.text)
        until(lambda: before == folder_of(site.front))
    # The log says who has published, and who has tried to.
    log = site.front.state / "asked.log"
    until(lambda: '"PUT /published HTTP/1.1" 403' in log.read_text())
    assert '"CN=station,OU=office" "station" "PUT /published HTTP/1.1" 201' in log.read_text()


@pytest.mark.parametrize("body, lines", [
    (b"new", []), (b"3\r\nnew\r\n0\r\n\r\n", [b"Transfer-Encoding: chunked"]), (b"new", [b"Expect: 100-continue"])],
    ids=["with a length", "in chunks", "after a question"])
def test_the_station_may_publish(site, body, lines):
    assert 204 in statuses(site.front.ask(putting(body, *lines), "station").bytes)
    assert b"new" == site.file.read_bytes()
    answer = site.front.session().get(f"{site.front.url}/published")
    assert (200, b"new", "nosniff", "no-cache") == (answer.status_code, answer.content, *(
        answer.headers[it] for it in ("X-Content-Type-Options", "Cache-Control")))
    # A part of it is no list, so none is given.
    part = site.front.session().get(f"{site.front.url}/published", headers={"Range": "bytes=1-1"})
    assert (200, b"new") == (part.status_code, part.content)


def test_the_longest_file_may_be_published(site):
    """As docs/FORMATS.md has it: 8192 bytes, and a list. The station takes no longer list from the office, and a server
    none from the front: see also its own tests."""
    longest = 33554432
    assert 204 == site.front.ask(putting(bytes(longest + 8192)), "station").status
    assert longest + 8192 == site.file.stat().st_size
    site.gives(bytes(longest + 1))
    said = [f"station: the list isn't published: an answer of more than {longest} bytes"]
    assert (1, [], said) == site.station().once()


def test_one_file_at_a_time(site):
    """So whoever has the station's certificate can't fill the front's disk with files that are under way."""
    before = site.file.read_bytes()
    first = site.front.connect("station")
    whole = putting(bytes(1 << 20))
    first.sendall(whole[:1 << 19])
    # The front counts a request before it has the first of its body in a file.
    until(lambda: any(it.is_file() for it in (site.front.state / "body").rglob("*")))
    assert 429 == site.front.ask(putting(b"second"), "station").status
    assert before == site.file.read_bytes()
    first.sendall(whole[1 << 19:])
    assert b" 204 " in first.recv(65536)
    first.close()
    until(lambda: 204 == site.front.ask(putting(b"third"), "station").status)


def test_before_the_first_list_there_is_nothing(make_site):
    site = make_site()
    answer = site.front.session().get(f"{site.front.url}/published")
    assert (404, "front: no such path\n") == (answer.status_code, answer.text)
    assert 201 == site.front.ask(putting(b"first"), "station").status


def test_a_front_before_the_front_gives_the_same(site, make_front):
    """By what docs/GROWING.md puts in the place of the line that lets the station publish."""
    settings = ("proxy_pass https://office_pages/published; proxy_ssl_verify on; proxy_ssl_trusted_certificate "
                f"{site.front.authority}/ca.crt; proxy_ssl_name localhost; proxy_cache pages; proxy_method GET; "
                'proxy_pass_request_body off; proxy_set_header Content-Length "";')
    near = site.front
    behind = "\n            max_ranges"
    site.front = make_front(near.port, edits=[(f"dav_methods PUT;{behind}", settings + behind)])
    assert site.file.read_bytes() == site.front.session().get(f"{site.front.url}/published").content
    assert (0, []) == site.fetch()
    site.front.ask(putting(b"false"), "station")
    assert site.old == parted(site.file.read_bytes())[2]


# ---- half a file

def test_a_request_that_is_cut_off_changes_nothing(site):
    before = folder_of(site.front)
    whole = putting(bytes(1 << 20))
    for length in (len(whole) - 1, len(whole) // 2, 200):
        peer = site.front.connect("station")
        peer.sendall(whole[:length])
        time.sleep(0.2)
        peer.close()
        until(lambda: before == folder_of(site.front))


@pytest.mark.root
@pytest.mark.slow
def test_a_full_disk_keeps_the_old_file(make_site, make_front, room):
    site = make_site()
    site.begin_with(site.old)
    with small_disk(room / "disk", kilobytes=256) as fill:
        (room / "disk/body").mkdir()
        front = make_front(site.office.port, edits=[(
            "33562624;\n            root .;", f"33562624;\n            root {room}/disk;"), (
            "client_body_temp_path body;", f"client_body_temp_path {room}/disk/body;")])
        site.front, site.file = front, room / "disk/published"
        try:
            assert (0, ["published 3"], []) == site.station().once()
            old = site.file.read_bytes()
            site.gives(site.krl(5000, [1, 2, *range(5, 10001, 2)]))
            for left in (0, 1, 5):
                fill(left)
                status, out, said = site.station().once()
                assert (1, []) == (status, out)
                assert said[0].startswith("station: the list isn't published: 500 "), said
                assert old == site.file.read_bytes()
                until(lambda: [] == [it for it in (room / "disk/body").rglob("*") if it.is_file()])
                assert (0, []) == site.fetch()
            (room / "disk/filling").unlink()
            assert (0, ["published 5000"], []) == site.station().once()
            assert (0, []) == site.fetch()
            assert site.office.list == site.got()
        finally:
            front.end()


@pytest.mark.slow
@pytest.mark.once
def test_a_station_that_is_killed_leaves_a_whole_file(site, programs):
    """At any moment of publishing lists of a megabyte: what the front gives is always a list with its statement."""
    begun = time.monotonic()
    assert 0 == site.station().once()[0]
    usual, versions = time.monotonic() - begun, []
    for number in range(30):
        # Serials that are no neighbours, so that each takes eight bytes.
        revoked = {1, 2, 9, *range(21, 200_021 + 4 * number, 4)}
        site.office.list = site.krl(4 + number, sorted(revoked))
        process = site.station().begin(programs, "--publish-every", "1")
        time.sleep(random.uniform(usual / 10, 2 * usual))
        with contextlib.suppress(ProcessLookupError):
            os.killpg(process.pid, signal.SIGKILL)
        process.wait()
        text, signature, data = parted(site.front.session().get(f"{site.front.url}/published").content)
        assert statement(data, moment=int(text.split()[-1])) == text
        assert is_signed(text, signature, site.allowed)
        versions.append(int(text.split()[2]))
    assert sorted(versions) == versions
    assert len(set(versions)) > 2, "some were killed before they had published, and some after it"
    site.gives(site.office.list)
    # The last guard may end a moment after its station, and has its file up to then.
    until(lambda: 0 == site.station().once()[0])
    assert (0, []) == site.fetch()
    assert site.office.list == site.got()


# ---- as fast as the list alone

FETCHES = 10_000
UNLIMITED = [("zone=addresses:10m rate=100r/s", "zone=addresses:10m rate=100000r/s")]


def seconds_of(front, target, wanted, count):
    """How long so many fetches take, over a connection that stays open."""
    request = getting(target).replace(b"Connection: close\r\n", b"")
    with front.connect() as peer:
        begun = time.monotonic()
        for _ in range(count):
            peer.sendall(request)
            came = b""
            while b"\r\n\r\n" not in came:
                came += peer.recv(1 << 18)
            head, _, body = came.partition(b"\r\n\r\n")
            length = int(re.search(rb"(?i)content-length: (\d+)", head)[1])
            pieces = [body]
            got = len(body)
            while got < length:
                pieces.append(peer.recv(1 << 18))
                got += len(pieces[-1])
            assert length == wanted
        return time.monotonic() - begun


@pytest.mark.slow
@pytest.mark.alone
def test_list_and_statement_are_as_fast_as_the_list_alone(make_site, make_front):
    """In turns of 500 fetches, so that the machine's load is the same for both. Both are of two records of TLS, which
    have 16 KiB."""
    site = make_site()
    site.old = site.office.list = site.krl(2500, range(1, 5001, 2))
    site.begin_with(site.old)
    site.front = make_front(site.office.port, edits=UNLIMITED)
    assert 0 == site.station().once()[0]
    published = len((site.front.state / "published").read_bytes())
    turns = [(seconds_of(site.front, "/v1/krl", len(site.old), 500),
              seconds_of(site.front, "/published", published, 500)) for _ in range(FETCHES // 500)]
    alone, together = (sum(it) for it in zip(*turns))
    ratio = sorted(two / one for one, two in turns)[len(turns) // 2]
    print(f"{FETCHES} fetches of a list of {len(site.old)} bytes took {alone:.1f} s, and with its statement "
          f"{together:.1f} s: {ratio:.2f} times, by the median of turns")
    assert ratio < 1.2


# ---- hosts

@pytest.fixture
def host(agent, programs, room):
    """An sshd whose host certificate has the serial 11, and what a client says that asks it for a login."""
    port = free_port()
    run(["ssh-keygen", "-q", "-t", "ed25519", "-N", "", "-f", "host"], check=True)
    run(["ssh-keygen", "-q", "-s", "ca", "-h", "-I", "hosts/loopback", "-n", "127.0.0.1", "-z", "11", "host.pub"],
        check=True)
    (room / "sshd_config").write_text(
        f"ListenAddress 127.0.0.1\nPort {port}\nHostKey {room}/host\nHostCertificate {room}/host-cert.pub\n"
        "AuthorizedKeysFile none\nPasswordAuthentication no\nKbdInteractiveAuthentication no\nPidFile none\n"
        "StrictModes no\nUsePAM no\n")
    (room / "known_hosts").write_text(f"@cert-authority [127.0.0.1]:{port} {(room / 'ca.pub').read_text()}")
    if not os.getuid():
        pathlib.Path("/run/sshd").mkdir(exist_ok=True)
    programs.begin(["/usr/sbin/sshd", "-D", "-f", room / "sshd_config", "-E", room / "sshd.log"])
    until(lambda: is_listening(port))
    words = ["ssh", "-F", "none", "-o", "UserKnownHostsFile=known_hosts", "-o", "StrictHostKeyChecking=yes", "-o",
             "BatchMode=yes", "-p", port, f"{getpass.getuser()}@127.0.0.1", "true"]
    environment = os.environ | {"SSH_AUTH_SOCK": ""}
    return lambda *more: run([*words[:1], *more, *words[1:]], env=environment).stderr.decode()


def test_a_client_refuses_a_host_whose_certificate_is_revoked(make_site, agent, host, room):
    """By RevokedHostKeys of ssh_config, with the list that fetch-list puts on the client."""
    _, line, socket = agent
    site = make_site(["--agent", line], line, **socket)
    site.begin_with(site.old)
    by_the_list = ["-o", f"RevokedHostKeys={room}/list"]
    assert "Could not" not in host() and "Permission denied" in host(), "the host is known, and the user isn't"
    assert 0 == site.station().once()[0] and (0, []) == site.fetch()
    assert "Permission denied" in host(*by_the_list)
    site.gives(site.krl(4, [1, 2, 9, 11]))
    assert 0 == site.station().once()[0] and (0, []) == site.fetch()
    said = host(*by_the_list)
    assert "revoked by file" in said and "Host key verification failed" in said, said
    assert "Permission denied" in host(), "a client without the list goes on"
    # As a server's list, one that is missing opens nothing.
    (room / "list").unlink()
    assert "Host key verification failed" in host(*by_the_list)
