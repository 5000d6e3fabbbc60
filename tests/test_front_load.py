"""What the front of programs/front does under load: many requests of one client, a slow office, and full logs.

The office behind it is one that records what it is sent."""
import concurrent.futures
import contextlib
import os
import pathlib
import pwd
import re
import shutil
import socket
import ssl
import tempfile
import time

import pytest

from fronts import MOST_OF_A_CONNECTION
from recording import Recorder, getting, posting, staying, statuses
from running import PROGRAMS, free_port, rest, run, until

pytestmark = [pytest.mark.front, pytest.mark.xdist_group("front_load")]
MESSAGE = "/v1/requests/k-1"
CHUNKED = b"Transfer-Encoding: chunked"


@pytest.fixture
def recorder():
    with Recorder() as made:
        yield made


def side_by_side(jobs, count=32):
    """What these functions return, called at the same time."""
    with concurrent.futures.ThreadPoolExecutor(count) as pool:
        return list(pool.map(lambda job: job(), jobs))


# ---- one client's pace

@pytest.mark.alone
def test_a_client_that_sends_too_much_waits_alone(make_front, recorder):
    """Ana sends 300 requests at once, and in the two seconds after that root sends one."""
    front = make_front(recorder.port)
    peers = side_by_side([lambda: front.connect("ana")] * 300)
    begun = time.monotonic()
    for peer in peers:
        peer.sendall(posting(MESSAGE))
    answer = front.ask(posting(MESSAGE), "root")
    waited = time.monotonic() - begun
    time.sleep(max(0, 2 - waited))
    passed = sum(it.startswith(b"POST /v1/callers/ana/") for it in recorder.requests)
    took = time.monotonic() - begun
    refused = sum(answer_so_far(peer) == [429] for peer in peers)
    for peer in peers:
        peer.close()
    print(f"of 300 messages that one client sent at once, {passed} had reached the office after {took:.1f} s, "
          f"{refused} were answered 429")
    assert 20 <= passed <= 22 + 20 * took
    assert 1 <= refused <= 99
    # What ana sends then would wait for ten seconds.
    assert ([200], True) == (statuses(answer), waited < 5)


def answer_so_far(peer):
    peer.settimeout(0.001)
    with contextlib.suppress(OSError):
        return statuses(peer.recv(65536))
    return []


@pytest.mark.alone
def test_the_station_waits_for_no_limit(make_front, recorder):
    front = make_front(recorder.port)
    begun = time.monotonic()
    answers = sent_on_each(front, posting(MESSAGE), 30, 10, "station")
    assert (300, 300) == (answers, len(recorder.requests))
    # At the pace of callers, 20 a second, the last one of them would have waited for 14 seconds.
    assert time.monotonic() - begun < 13


# ---- slow limits

def each(front, count, request, name):
    """The statuses of so many requests, one after the other."""
    return [front.ask(request, name).status for _ in range(count)]


def test_a_server_sends_30_messages_and_fetches_30_certificates(make_front, recorder):
    """And then one of each in a minute, which the test doesn't wait for."""
    front = make_front(recorder.port)
    for name in ("web", "db"):
        front.make("host", name)
    for request in (posting(MESSAGE), getting("/v1/certs/1")):
        assert [200] * 30 + [429] * 3 == each(front, 33, request, "host-web")
        assert [200] == each(front, 1, request, "host-db")
    assert 62 == len(recorder.requests)


@pytest.mark.slow
def test_a_caller_sends_2000_messages_at_once(make_front, recorder):
    """And then one in each six seconds. The limit that slows a caller down to 20 a second is out of the way."""
    front = make_front(recorder.port, edits=[
        ("zone=senders:1m rate=20r/s", "zone=senders:1m rate=10000r/s"),
        ("limit_req zone=senders burst=200 delay=20;", "limit_req zone=senders burst=10000 nodelay;")])
    begun = time.monotonic()
    with concurrent.futures.ThreadPoolExecutor(8) as pool:
        came = [*pool.map(lambda _: statuses_on_one(front, posting(MESSAGE), 250, "ana"), range(8))]
    later = statuses_on_one(front, posting(MESSAGE), 250, "ana")
    took = time.monotonic() - begun
    accepted = sum(it.count(200) for it in [*came, later])
    print(f"2,250 messages in {took:.1f} s, of which {accepted} were accepted")
    assert [[200] * 250] * 8 == came
    assert 2000 <= accepted <= 2001 + took / 6
    assert ({200, 429}, 2000 + later.count(200)) == ({200, *later}, len(recorder.requests))


def statuses_on_one(front, request, count, name):
    """The statuses of so many requests on one connection, which aren't waited for."""
    with front.connect(name) as peer:
        peer.sendall((count - 1) * staying(request) + request)
        return statuses(rest(peer))


def test_who_has_a_slow_limit(make_front, recorder):
    """Callers and root, and neither the station nor a caller whom the settings leave out."""
    front = make_front(recorder.port, edits=[
        ("zone=slow_callers burst=1999", "zone=slow_callers burst=4"),
        ("        # A caller who sends for many others has no slow limit,", "        registrar \"\";\n        #")])
    front.make("caller", "registrar")
    found = {name: each(front, 8, posting(MESSAGE), name) for name in ("ana", "root", "station", "registrar")}
    assert {"ana": [200] * 5 + [429] * 3, "root": [200] * 5 + [429] * 3, "station": [200] * 8,
            "registrar": [200] * 8} == found


@pytest.mark.parametrize("path, zone, at_once", [("/v1/settings", "sign_on", 2000), ("/v1/login", "logins", 400)])
def test_how_often_a_stranger_asks_the_registrar(make_front, recorder, path, zone, at_once):
    """Of an address so many at once, and then some a second: here none, so that it doesn't matter how long this takes.
    There is no registrar, and the front says so."""
    rate = {"sign_on": "50r/s", "logins": "5r/s"}[zone]
    front = make_front(recorder.port, edits=[(f"zone={zone}:10m rate={rate}", f"zone={zone}:10m rate=1r/m"), (
        "server unix:/run/vethlumi-registrar.sock max_conns=64;", f"server unix:/nonexistent/registrar.sock max_conns=64;")])
    request = posting(path) if path == "/v1/login" else getting(path)
    found = side_by_side([lambda: statuses_on_one(front, request, 100, None)] * (at_once // 100), 4)
    more = statuses_on_one(front, request, 100, None)
    assert [[502] * 100] * (at_once // 100) == found
    # nginx counts what comes in addition to the first one, and a minute or two may be over.
    assert {429, 502} >= {*more} and 1 <= more.count(502) <= 10, more


def test_what_a_slow_limit_refuses_uses_up_no_other(make_front, recorder):
    """A client that goes on asking meets the limit alone: once the minute is over it is answered at once."""
    front = make_front(recorder.port, edits=[("zone=slow_hosts:4m rate=1r/m", "zone=slow_hosts:4m rate=60r/m"),
                                             ("zone=slow_hosts burst=29", "zone=slow_hosts burst=1")])
    front.make("host", "web")
    statuses_on_one(front, posting(MESSAGE), 300, "host-web")
    time.sleep(1.1)
    begun = time.monotonic()
    assert 200 == front.ask(posting(MESSAGE), "host-web").status
    assert time.monotonic() - begun < 5


# ---- a slow office

def asked_together(front, path, count, name=None, patience=90):
    """The statuses of so many fetches that begin together, each on a connection of its own."""
    def begun():
        peer = front.connect(name)
        peer.settimeout(patience)
        peer.sendall(getting(path))
        return peer

    peers = side_by_side([begun] * count)
    got = [statuses(rest(peer)) for peer in peers]
    for peer in peers:
        peer.close()
    return got


@pytest.mark.alone
@pytest.mark.slow
@pytest.mark.parametrize("path, name", [("/v1/krl", None), ("/v1/pending", "watch")])
def test_a_slow_office_is_asked_once_for_each_ten_seconds(make_front, path, name):
    no_limits = [("zone=reports:1m rate=1r/s", "zone=reports:1m rate=1000r/s"),
                 ("limit_req zone=reports burst=20 delay=2;", "limit_req zone=reports burst=1000 nodelay;"),
                 ("limit_conn reports_under_way 8;", "")]
    with Recorder(seconds=7) as recorder:
        front = make_front(recorder.port, edits=no_limits)
        begun = time.monotonic()
        got = asked_together(front, path, 400, name)
        # Once for each ten seconds, and once more for each answer that was kept for two seconds.
        most = 2 + (time.monotonic() - begun) / 10 + (time.monotonic() - begun) / 9
        print(f"the office was asked {len(recorder.requests)} times for 400 fetches of {path}")
        assert [[200]] * 400 == got
        assert 1 <= len(recorder.requests) <= most


@pytest.mark.alone
@pytest.mark.slow
def test_an_office_that_stands_still_is_not_asked_by_all_who_have_waited(make_front):
    """After a minute, here six seconds, those who wait ask the office themselves: eight may, and the others are
    told."""
    edits = [(f"{it} 60s;", f"{it} 6s;") for it in ("proxy_read_timeout", "cache_lock_timeout", "cache_lock_age")]
    with Recorder(seconds=30) as recorder:
        got = asked_together(make_front(recorder.port, edits=edits), "/v1/krl", 100)
        print(f"the office was asked {len(recorder.requests)} times")
        # One for each ten seconds, and then eight more.
        assert ({502, 504}, True) == ({status for one in got for status in one}, 1 <= len(recorder.requests) <= 10)


@pytest.mark.alone
def test_a_reader_has_eight_tables_under_way(make_front):
    with Recorder(seconds=10) as recorder:
        edits = [("limit_req zone=reports burst=20 delay=2;", "limit_req zone=reports burst=100 nodelay;")]
        got = asked_together(make_front(recorder.port, edits=edits), "/v1/table", 60, "watch")
        assert {200: 8, 429: 52} == {status: got.count([status]) for status in (200, 429)}


def test_a_caller_has_the_departments_read_four_times_at_once(make_front):
    """The front keeps no page of them, so the office is asked each time. Another caller isn't held up."""
    edits = [("limit_req zone=reports burst=10 delay=2;", "limit_req zone=reports burst=100 nodelay;")]
    with Recorder(seconds=300) as recorder, contextlib.ExitStack() as peers:
        front = make_front(recorder.port, edits=edits)
        for count in range(1, 5):
            peers.enter_context(front.connect("ana")).sendall(getting("/v1/departments"))
            until(lambda count=count: count == len(recorder.requests))
        assert [429] == each(front, 1, getting("/v1/departments"), "ana")
        peers.enter_context(front.connect("root")).sendall(getting("/v1/departments"))
        until(lambda: 5 == len(recorder.requests))


# ---- memory

def memory_of(front):
    """The bytes of memory that nginx's processes have for themselves."""
    texts = (pathlib.Path(f"/proc/{it}/smaps_rollup").read_text() for it in front.workers())
    return sum(1024 * int(re.search(r"^Private_Dirty: +(\d+) kB$", it, re.M)[1]) for it in texts)


def slow_reader(front, request):
    """A connection on which a long answer has begun, of which its client takes little."""
    plain = socket.socket()
    plain.setsockopt(socket.SOL_SOCKET, socket.SO_RCVBUF, 4096)
    plain.settimeout(60)
    plain.connect(("127.0.0.1", front.port))
    of = ssl.create_default_context(cafile=front.authority / "ca.crt")
    peer = of.wrap_socket(plain, server_hostname="localhost")
    peer.sendall(request)
    peer.recv(15)
    return peer


# What a client that takes much memory asks: a long head, a body of the greatest length, and a long answer.
LONG_HEAD = [b"X: " + 7900 * b"x"]
HEAVY = [
    ("a file", getting("/published", "GET", *LONG_HEAD)),
    ("a page from the cache", posting("/v1/krl", 16384 * b"x", *LONG_HEAD).replace(b"POST", b"GET", 1)),
]


@pytest.mark.slow
@pytest.mark.parametrize("request_bytes", [it[1] for it in HEAVY], ids=[it[0] for it in HEAVY])
def test_a_connection_takes_no_more_memory_than_there_is_for_it(make_front, request_bytes):
    long = b"HTTP/1.1 200 OK\r\nContent-Length: 4000000\r\nConnection: close\r\n\r\n" + 4_000_000 * b"k"
    with Recorder(answer=long) as recorder, contextlib.ExitStack() as ending:
        front = make_front(recorder.port, edits=[("    send_timeout 10s;", "    send_timeout 100s;")])
        (front.state / "published").write_bytes(4_000_000 * b"k")
        assert 200 == front.ask(getting("/v1/krl")).status
        before, count = memory_of(front), 150
        peers = [ending.enter_context(slow_reader(front, request_bytes)) for _ in range(count)]
        each_takes = (memory_of(front) - before) / count
        print(f"a connection takes {each_takes:.0f} bytes")
        assert all(is_open_still(it) for it in peers)
        assert 20_000 < each_takes <= MOST_OF_A_CONNECTION


def is_open_still(peer):
    """Whether more of the answer comes."""
    return bool(peer.recv(1))


# ---- logs

def sent_on_each(front, request, count, connections, name=None):
    """Sends a request so many times on each of so many connections without waiting, and takes the answers."""
    def many():
        with front.connect(name) as peer, contextlib.suppress(OSError):
            peer.sendall((count - 1) * staying(request) + request)
            return len(statuses(rest(peer)))
        return 0

    return sum(side_by_side([many] * connections, 8))


def logged(front):
    """The bytes of the front's logs. The front ends, and writes what it has left."""
    front.end()
    return sum(file.stat().st_size for pattern in ("*.log", "nginx.faults") for file in front.state.glob(pattern))


LONG = "/" + 8000 * "a"
# What a stranger sends, the request, how often on each of how many connections, and how many bytes of log it may make.
FLOODS = [
    ("targets of 8,000 bytes", getting(LONG), 1000, 4, 0),
    ("encoded targets of letters that a log writes as four", getting("/" + 2500 * "%ff"), 1000, 4, 0),
    ("requests that aren't HTTP", getting(LONG).replace(b"HTTP/1.1", b"HTTP/x"), 1, 100, 0),
    ("headers that aren't HTTP", getting(LONG, "GET", b"Host: twice"), 1, 100, 0),
    ("an unknown coding", posting(MESSAGE, b"", b"Transfer-Encoding: x" + 7000 * b"x"), 1, 100, 0),
    # 1,000 refusals at once and one in each second are written.
    ("messages without a certificate", posting(MESSAGE, b""), 1000, 4, 200_000),
    ("wrong methods", getting("http://" + 7000 * "a" + "/v1/krl", "PUT"), 1000, 4, 300_000),
    ("bodies that are too long", posting(MESSAGE, b"", b"Content-Length: 99999", b"Referer: " + 7000 * b"a"), 1, 8,
     3_000),
    # These are given a page. The few for which the office was asked are written.
    ("the list from a host of a long name", getting("http://" + 8000 * "a" + "/v1/krl"), 1000, 4, 12_000),
    ("the CAs' key lines", getting("http://" + 8000 * "a" + "/ca-keys"), 1000, 4, 0),
    ("wrong methods for the CAs' key lines", getting("/ca-keys", "PUT"), 1000, 4, 0),
    # The length shows once the front reads the body, when it has counted the request as one for a page.
    ("bodies in chunks that are too long", posting("/v1/krl", b"5000\r\n" + 0x5000 * b"x", CHUNKED).replace(
        b"POST", b"GET", 1), 1, 100, 0),
]


@pytest.mark.parametrize("request_bytes, count, connections, most", [it[1:] for it in FLOODS],
                         ids=[it[0] for it in FLOODS])
def test_a_stranger_fills_no_disk_by_the_logs(make_front, recorder, request_bytes, count, connections, most):
    front = make_front(recorder.port)
    (front.conf / "ca-keys").write_text("ssh-ed25519 AAAA a\n")
    answers = sent_on_each(front, request_bytes, count, connections)
    came = logged(front)
    print(f"{answers} answers, {came} bytes of log")
    assert (True, True) == (answers >= connections, came <= most), f"{answers} answers, {came} bytes of log"


# nginx.conf with what lets a test be any address.
ANY_ADDRESS = ("server_tokens off;", "server_tokens off; set_real_ip_from 127.0.0.1; real_ip_header X-Address;")


def refused_from(front, network, count, name=None):
    """The statuses of so many messages from an IPv6 network, which the front refuses."""
    address = b"X-Address: 2001:db8:0:%x::1" % network
    with front.connect(name) as peer, contextlib.suppress(OSError):
        request = posting(MESSAGE, b"", address, b"Origin: null")
        peer.sendall((count - 1) * staying(request) + request)
        return statuses(rest(peer))


@pytest.mark.parametrize("name", [None, "watch"], ids=["without a certificate", "with a reader's"])
def test_twenty_networks_write_as_much_as_three(make_front, recorder, name):
    """Each may be refused 1,000 times at once, and all together 3,000 times, then twice a second."""
    front = make_front(recorder.port, edits=[ANY_ADDRESS])
    begun = time.monotonic()
    came = side_by_side([lambda it=it: refused_from(front, it, 1000, name) for it in range(20)], 20)
    # Others are answered as ever: a stranger reads the list, and a caller is told why.
    assert [200] == statuses(front.ask(getting("/v1/krl")))
    assert [403] == refused_from(front, 30, 1, "ana")
    took = time.monotonic() - begun
    refused, bytes_of_log = sum(it.count(403) for it in came), logged(front)
    lines = (front.state / "asked.log").read_text().count('"POST ')
    print(f"{refused} of 20,000 were refused with 403 within {took:.1f} s, {bytes_of_log} bytes of log")
    assert (20_000, refused + 1) == (sum(map(len, came)), lines)
    assert 3000 <= refused <= 3001 + 2 * took
    assert bytes_of_log <= 200 * lines + 1000


# The longest that a client can make a line: with an IPv6 address, and a subject and a request of escaped bytes.
LONGEST_LINE = 1060


def test_the_longest_line_that_a_stranger_can_have_written(make_front, recorder):
    front = make_front(recorder.port, edits=[ANY_ADDRESS])
    run(["openssl", "req", "-x509", "-new", "-newkey", "ec", "-pkeyopt", "ec_paramgen_curve:P-256", "-nodes", "-keyout",
         "wide.key", "-out", "wide.crt", "-subj", "/CN=" + 60 * "\\\\"], check=True)
    made = front.authority / "wide.pem"
    made.write_bytes(b"".join(pathlib.Path(f"wide.{it}").read_bytes() for it in ("key", "crt")))
    address = b"X-Address: 2001:db8:1111:2222:3333:4444:5555:6666"
    for name, line in (("wide", "/" + 200 * "\""), (None, "/v1/requests/" + 200 * "\""), ("wide", "/v1/krl")):
        front.ask(posting(line, b"", address), name)
    assert [403] == statuses(front.ask(posting(MESSAGE, b"", address)))
    lines = until(lambda: (it := (front.state / "asked.log").read_text().splitlines())[2:] and it)
    longest = max(map(len, lines))
    print(f"the longest line has {longest} bytes")
    assert 700 < longest <= LONGEST_LINE, lines


def test_while_the_office_is_away_strangers_write_nothing(make_front):
    front = make_front(free_port())
    for name, path, due in ((None, "/v1/krl", 0), ("ana", "/v1/krl", 0), ("ana", "/v1/table", 1)):
        before = (front.state / "asked.log").read_text().count("\n")
        assert [[502]] * 20 == side_by_side([lambda: statuses(front.ask(getting(path), name))] * 20)
        time.sleep(1.5)
        assert (due > 0) == ((front.state / "asked.log").read_text().count("\n") > before), (name, path)


def test_a_station_that_looks_often_writes_nothing(make_front, recorder):
    """It looks up to 50 times a second. What a reader gets, what the station fetches besides, and that the office doesn't
    answer is written."""
    front, away = make_front(recorder.port), make_front(free_port())
    for it, name, path, due in ((front, "station", "/v1/pending", 0), (front, "watch", "/v1/pending", 1),
                                (front, "station", "/v1/messages", 0),
                                (front, "station", "/v1/table", 1), (front, "station", "/v1/certs/1/body", 1),
                                (away, "station", "/v1/pending", 1)):
        before, asked = (it.state / "asked.log").read_text().count("\n"), getting(path)
        asked = asked.replace(b"GET ", b"HEAD ", 1) if path == "/v1/messages" else asked
        assert [200 if it is front else 502] == statuses(it.ask(asked, name))
        time.sleep(1.5)
        assert due == (it.state / "asked.log").read_text().count("\n") - before, (name, path)


def test_a_certificate_of_ones_own_fills_no_disk_by_its_subject(make_front, recorder):
    front = make_front(recorder.port)
    subject = "".join(f"/OU={number:060}" for number in range(700))
    run(["openssl", "req", "-x509", "-new", "-newkey", "ec", "-pkeyopt", "ec_paramgen_curve:P-256", "-nodes", "-keyout",
         "wide.key", "-out", "wide.crt", "-subj", subject], check=True)
    made = front.authority / "wide.pem"
    with open(made, "wb") as file:
        for half in ("wide.key", "wide.crt"):
            with open(half, "rb") as it:
                file.write(it.read())
    assert 20 == sent_on_each(front, getting("/v1/krl"), 1, 20, "wide")
    assert 0 < logged(front) <= 20 * 300


def test_a_flood_of_paths_that_do_not_exist_is_refused(make_front, recorder):
    """nginx answers `return` before it counts, so such a limit is easily without effect."""
    front = make_front(recorder.port)
    with front.connect() as peer:
        peer.sendall(999 * staying(getting("/none")) + getting("/none"))
        first = statuses(rest(peer))
    with front.connect() as peer:
        peer.sendall(499 * staying(getting("/none")) + getting("/none"))
        second = statuses(rest(peer))
    with front.connect(address="127.0.0.2") as peer:
        peer.sendall(getting("/none"))
        other = statuses(rest(peer))
    assert ([404] * 1000, True, [404], [200]) == (first, second.count(429) >= 450, other,
                                                  statuses(front.ask(getting("/v1/krl"))))


def test_an_ipv6_address_counts_as_its_network_of_64_bits(make_front, recorder):
    """Whoever has such a network has all of its addresses. The byte 10, a line feed, is one like others."""
    front = make_front(recorder.port, edits=[
        ("server_tokens off;", "server_tokens off; set_real_ip_from 127.0.0.1; real_ip_header X-Address;"),
        ("zone=refused:10m rate=1r/s", "zone=refused:10m rate=1r/m")])

    def nothing_there(address, count=1):
        request = getting("/none", "GET", b"X-Address: " + address.encode())
        with front.connect() as peer:
            peer.sendall((count - 1) * staying(request) + request)
            return statuses(rest(peer))

    for network, addresses, others in (("2001:db8:0:a::/64", ["2001:db8:0:a::1", "2001:db8:0:a:a0a::ffff"],
                                        ["2001:db8:0:b::1", "2001:db8:a::1", "2001:db8:0:0:a::1"]),
                                       ("192.0.2.10/32", ["192.0.2.10"], ["192.0.2.11"])):
        assert {404} == set(nothing_there(addresses[0], 1000)), network
        assert 10 >= nothing_there(addresses[0], 20).count(404), network
        assert [[429]] * len(addresses) == [nothing_there(it) for it in addresses], network
        assert [[404]] * len(others) == [nothing_there(it) for it in others], network


def test_a_line_of_the_log(make_front, recorder):
    front = make_front(recorder.port)
    (front.conf / "ca-keys").write_text("ssh-ed25519 AAAA a\n")
    front.ask(posting(MESSAGE), "ana")
    front.ask(getting("http://" + 200 * "a" + "/v1/krl"), "watch")
    front.ask(getting("/page/page.css"), "ana")
    front.ask(getting("/v1/table"))
    # Of the pages for everyone only what the office is asked for is written, and here the first ones have no line.
    front.ask(getting("/ca-keys"), "ana")
    for path in ("/none", "/v1/krl?x", "/ca-keys", "/v1/cas"):
        front.ask(getting(path))
    lines = until(lambda: (it := (front.state / "asked.log").read_text().splitlines())[4:] and it)
    time_and_address = r"20\d\d-\d\d-\d\dT\d\d:\d\d:\d\d\+00:00 127\.0\.0\.1 "
    rests = sorted(re.fullmatch(time_and_address + r"(.*) \d+\.\d{3}", line)[1] for line in lines)
    assert ['"" "" "GET /v1/cas HTTP/1.1" 200 office=200 kept=MISS',
            '"" "" "GET /v1/table HTTP/1.1" 403 office=- kept=-',
            '"CN=ana" "ana" "GET /page/page.css HTTP/1.1" 200 office=- kept=-',
            '"CN=ana" "ana" "POST /v1/requests/k-1 HTTP/1.1" 200 office=200 kept=-',
            f'"CN=watch,OU=reader" "" "GET http://{109 * "a"}" 200 office=200 kept=MISS'] == rests


def test_a_kept_page_has_a_line_if_it_is_not_for_everyone(make_front, recorder):
    front = make_front(recorder.port, edits=[("proxy_cache_valid 200 2s;", "proxy_cache_valid 200 10s;")])
    # Several clients in the same ten seconds, so that the office is asked once for each page.
    until(lambda: time.time() % 10 < 1)
    for name, path in ((None, "krl"), (None, "krl"), ("watch", "krl"), ("watch", "table"), ("ana", "table")):
        assert [200] == statuses(front.ask(getting(f"/v1/{path}"), name))
    lines = until(lambda: (it := (front.state / "asked.log").read_text().splitlines())[2:] and it)
    # Each of nginx's processes writes its own lines, all at once.
    assert [("", "kept=MISS"), ("CN=ana", "kept=HIT"), ("CN=watch,OU=reader", "kept=MISS")] == sorted(
        (line.split('"')[1], line.split()[-2]) for line in lines)


def has_open(front, name):
    """Whether one of nginx's processes has a file of this name open."""
    links = [it for process in front.workers() for it in pathlib.Path(f"/proc/{process}/fd").iterdir()]
    found = set()
    for it in links:
        with contextlib.suppress(FileNotFoundError):
            found.add(pathlib.Path(os.readlink(it)).name)
    return name in found


@pytest.mark.root
def test_logs_are_rotated_and_no_line_is_lost(make_front, recorder, room):
    front = make_front(recorder.port)
    user = pwd.getpwuid(os.getuid()).pw_name
    text = (PROGRAMS / "front/logrotate").read_text().replace("/var/lib/office-front", str(front.state))
    (room / "logrotate").write_text(text.replace("su office-front office-front", f"su {user} {user}")
                                    .replace("=office-front", f"={user}"))
    for turn in range(3):
        assert [200] == statuses(front.ask(posting(f"/v1/requests/turn-{turn}"), "ana"))
        until(lambda: (front.state / "asked.log").exists() and (front.state / "asked.log").stat().st_size)
        run(["logrotate", "--force", "--state", room / "logrotate.state", room / "logrotate"], check=True)
        until(lambda: (front.state / "asked.log").exists() and not has_open(front, "asked.log.1"))
    files = {it.name: it for it in front.state.glob("asked.log*")}
    assert {"asked.log", "asked.log.1", "asked.log.2.gz", "asked.log.3.gz"} == set(files)
    assert "turn-2" in files["asked.log.1"].read_text()
    assert b"turn-1" in run(["gzip", "-dc", files["asked.log.2.gz"]], check=True).stdout
    assert b"turn-0" in run(["gzip", "-dc", files["asked.log.3.gz"]], check=True).stdout


@pytest.mark.root
@pytest.mark.parametrize("days, kilobytes, is_rotated", [
    (2, 1, True), (0, 1, False), (0, 104_000, False), (0, 105_000, True)])
def test_a_log_is_rotated_each_day_and_when_it_is_large(room, days, kilobytes, is_rotated):
    """As logrotate runs by its timer, so many days after it has rotated last. A log has addresses of clients."""
    user = pwd.getpwuid(os.getuid()).pw_name
    state = room / "state"
    state.mkdir()
    (state / "asked.log").touch()
    os.truncate(state / "asked.log", 1000 * kilobytes)
    text = (PROGRAMS / "front/logrotate").read_text().replace("/var/lib/office-front", str(state))
    (room / "logrotate").write_text(text.replace("su office-front office-front", f"su {user} {user}")
                                    .replace("=office-front", f"={user}"))
    last = time.strftime("%Y-%-m-%-d-%-H:%-M:%-S", time.localtime(time.time() - 86400 * days))
    (room / "done").write_text(f'logrotate state -- version 2\n"{state}/asked.log" {last}\n')
    run(["logrotate", "--state", room / "done", room / "logrotate"], check=True)
    assert ["asked.log.1" if is_rotated else "asked.log"] == [it.name for it in state.iterdir()]


@pytest.mark.root
def test_the_rotation_reaches_no_process_of_another_user(programs):
    """Though the front's user writes front.pid. nobody stands for that user."""
    other = programs.begin(["sleep", "60"])
    with tempfile.TemporaryDirectory(dir="/var/tmp") as name:
        state = pathlib.Path(name, "state")
        state.mkdir()
        (state / "asked.log").write_text("a line\n")
        (state / "front.pid").write_text(f"{other.pid}\n")
        os.chmod(name, 0o755)
        for path in (state, *state.iterdir()):
            shutil.chown(path, "nobody", "nogroup")
        text = (PROGRAMS / "front/logrotate").read_text().replace("/var/lib/office-front", str(state))
        text = text.replace("su office-front office-front", "su nobody nogroup")
        settings = pathlib.Path(name, "logrotate")
        settings.write_text(text.replace("reuid=office-front", "reuid=nobody").replace("=office-front", "=nogroup"))
        run(["logrotate", "--force", "--state", f"{name}/done", settings], check=True)
        assert ["asked.log.1", "front.pid"] == sorted(it.name for it in state.iterdir())
    time.sleep(0.2)
    assert None is other.poll()
