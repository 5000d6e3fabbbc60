"""How an office fares behind the front while others read: slow clients, many servers, and tables of many rows.

Times are compared with each other in one run, and printed with the number of processors."""
import concurrent.futures
import contextlib
import hashlib
import multiprocessing
import os
import resource
import select
import sqlite3
import statistics
import struct
import threading
import time

import pytest

from asking import department, issue, lasting, post, revoke_serial
from fronts import WORKERS
from recording import getting, posting, staying, statuses
from running import left_out, rest

pytestmark = [pytest.mark.front, pytest.mark.xdist_group("front_readers"), pytest.mark.alone]
PROCESSORS = len(os.sched_getaffinity(0))
FORK = multiprocessing.get_context("fork")


@pytest.fixture
def put(front):
    """The front before an office with the department web."""
    answer = front.session("root").post(f"{front.url}/v1/requests/web-1", data=department())
    assert "department web\n" == answer.text
    return front


def issued(front, name):
    """How many milliseconds an issue of ana takes on a connection of its own."""
    begun = time.monotonic()
    answer = front.ask(posting(f"/v1/requests/{name}", issue(f"web/{name}", **lasting(3600)).encode()), "ana")
    assert (200, True) == (answer.status, answer.text.startswith("issued ")), answer
    return 1000 * (time.monotonic() - begun)


def paced(front, name, count):
    """Milliseconds of so many issues, with pauses that keep the front's pace."""
    took = []
    for number in range(count):
        took.append(issued(front, f"{name}-{number}"))
        time.sleep(0.06)
    return took


# ---- clients that are silent or slow

@pytest.fixture
def patient(put):
    """That front with more patience, so that a busy machine may take its time: after ten seconds it would give silent
    clients up, as test_front shows."""
    put.configure(*[(f"client_{it}_timeout 10s;", f"client_{it}_timeout 100s;") for it in ("header", "body")])
    put.reload()
    return put


def is_open(peer):
    """Whether the front has kept a connection on which it has nothing to say."""
    peer.settimeout(0.001)
    try:
        return peer.recv(1) != b""
    except TimeoutError:
        return True
    except OSError as fault:
        return "want read" in str(fault).lower()


@contextlib.contextmanager
def four_hundred_slow(front):
    """100 clients that say nothing at all, 100 that say nothing by TLS, and 200 that send a byte every half second:
    half of them of a head, and half of a body."""
    head = posting("/v1/requests/drip", b"", b"Content-Length: 16384")
    silent = [front.connect_plainly() for _ in range(100)] + [front.connect("ana") for _ in range(100)]
    dripping = [front.connect(f"other-{number % 5}") for number in range(200)]
    for peer in dripping[100:]:
        peer.sendall(head)
    done = threading.Event()

    def drip():
        sent = 0
        while not done.wait(0.5):
            for number, peer in enumerate(dripping):
                peer.sendall(head[sent:sent + 1] if number < 100 else b"x")
            sent += 1

    thread = threading.Thread(target=drip)
    thread.start()
    yield silent + dripping
    done.set()
    thread.join()
    for peer in silent + dripping:
        peer.close()


def test_beside_slow_clients_issues_are_answered_at_once(patient):
    for number in range(5):
        patient.make("caller", f"other-{number}")
    alone = paced(patient, "alone", 20)
    with four_hundred_slow(patient) as peers:
        time.sleep(1)
        beside = paced(patient, "beside", 20)
        held = sum(map(is_open, peers))
    print(f"{PROCESSORS} processors: an issue takes {statistics.median(alone):.1f} ms alone, and beside 200 silent and "
          f"200 dripping clients {statistics.median(beside):.1f} ms, {max(beside):.1f} ms at most")
    assert (400, True) == (held, max(beside) < max(1000, 10 * max(alone)))


def test_more_silent_clients_than_nginx_has_room_for_by_itself_are_kept(patient):
    """By itself it keeps 512 for each of its processes, and ends others for those that come."""
    count = 600 * WORKERS
    if count + 500 > resource.getrlimit(resource.RLIMIT_NOFILE)[0]:
        left_out("a process may have too few files open here")
    with contextlib.ExitStack() as ending:
        silent = select.poll()
        for _ in range(count):
            silent.register(ending.enter_context(patient.connect_plainly()), select.POLLIN)
        issued(patient, "beside")
        assert [] == silent.poll(0)


# ---- many servers that fetch the list

def five_fetches(front, number, wanted):
    """How many of five fetches on one connection, from an address of its own, gave this list."""
    address = f"127.{1 + number // 62500}.{number // 250 % 250}.{1 + number % 250}"
    with front.connect(address=address) as peer:
        peer.sendall(4 * staying(getting("/v1/krl")) + getting("/v1/krl"))
        return rest(peer).count(b"\r\n\r\n" + wanted)


def fetch_some(front, numbers, wanted):
    with concurrent.futures.ThreadPoolExecutor(16) as pool:
        return sum(pool.map(lambda number: five_fetches(front, number, wanted), numbers))


def times_asked(front, path):
    """How often the office was asked for a page, by the front's log, which nginx writes once a second."""
    time.sleep(1.5)
    lines = (front.state / "asked.log").read_text().splitlines()
    return sum(f'"GET {path} HTTP' in line and "office=200" in line for line in lines)


@pytest.mark.slow
def test_the_list_is_given_10000_times_while_issues_go_on(put):
    """From 2,000 addresses, on 2,000 connections, by four processes."""
    wanted = put.served.get("/v1/krl").body
    done, beside = threading.Event(), []

    def issue_on():
        while not done.is_set():
            beside.append(issued(put, f"beside-{len(beside)}"))
            time.sleep(0.06)

    issuing = threading.Thread(target=issue_on)
    issuing.start()
    begun = time.monotonic()
    with FORK.Pool(4) as pool:
        parts = [(put, range(500 * part, 500 * part + 500), wanted) for part in range(4)]
        right = sum(pool.starmap(fetch_some, parts))
    took = time.monotonic() - begun
    done.set()
    issuing.join()
    asked = times_asked(put, "/v1/krl")
    print(f"{PROCESSORS} processors: the list of {len(wanted)} bytes 10,000 times in {took:.1f} s, for which the "
          f"office was asked {asked} times; meanwhile {len(beside)} issues, {statistics.median(beside):.0f} ms by the "
          f"median, {max(beside):.0f} ms at most")
    assert 10000 == right
    assert 1 <= asked <= took / 2 + took / 10 + 3
    assert len(beside) >= 10


def test_one_address_is_given_the_list_10000_times_at_once(put):
    """Twelve connections send 1,000 requests each, without waiting for an answer."""
    def thousand(_):
        with put.connect(address="127.200.0.1") as peer:
            peer.sendall(999 * staying(getting("/v1/krl")) + getting("/v1/krl"))
            # A list has no line feed at its end, so not every response begins a line.
            came = rest(peer)
            return came.count(b"HTTP/1.1 200 "), came.count(b"HTTP/1.1 429 ")

    begun = time.monotonic()
    with concurrent.futures.ThreadPoolExecutor(12) as pool:
        given, refused = map(sum, zip(*pool.map(thousand, range(12))))
    took = time.monotonic() - begun
    print(f"{PROCESSORS} processors: of 12,000 requests of one address in {took:.1f} s, {given} were given the list, "
          f"{refused} were answered 429")
    assert 10000 <= given <= 10001 + 100 * (took + 1)
    assert 12000 == given + refused
    assert [200] == statuses(put.ask(getting("/v1/krl")))


# ---- tables of many rows

COUNT = 200_000


def named(serial, number):
    """What the body of a user's certificate says of its serial, its kind and its key id."""
    keyid = f"web/{number}".encode()
    return struct.pack(f">QII{len(keyid)}s", serial, 1, len(keyid), keyid)


def rows_of(body):
    """The rows of a certificate and of its request, for each serial behind the first."""
    for serial in range(2, COUNT + 1):
        its = body.replace(named(1, 1), named(serial, serial))
        reply = f"issued {serial}\ndigest {hashlib.sha256(its).hexdigest()}\n"
        yield (serial, "web", f"web/{serial}", its), ("ana", f"k{serial}", issue(f"web/{serial}").encode(), reply)


@pytest.fixture
def large_office(make_office):
    """An office of 200,000 certificates, whose rows sqlite3 has written as so many issues leave them."""
    office = make_office()
    office.apply([post("root", "web", department()), post("ana", "k1", issue("web/1"))])
    with contextlib.closing(sqlite3.connect(office.db)) as database:
        body, = database.execute("SELECT body FROM cert WHERE serial = 1").fetchone()
        certificates, requests = zip(*rows_of(body))
        database.executemany("INSERT INTO cert VALUES (?, ?, ?, ?, NULL)", certificates)
        database.executemany("INSERT INTO request VALUES (?, ?, ?, ?)", requests)
        database.execute("UPDATE office SET last = ?, next = ?", (2 * COUNT, COUNT + 1))
        database.commit()
    return office


class Readers:
    """So many connections of one reader, each of which asks for the table again and again until the block ends. They
    are a process of their own, so that they take no time from the client that is measured."""
    def __init__(self, front, count):
        self.front, self.count, self.ended = front, count, FORK.Event()
        self.statuses = {200: FORK.Value("i"), 429: FORK.Value("i")}

    def __enter__(self):
        self.process = FORK.Process(target=self.read_by_all)
        self.process.start()
        return self

    def __exit__(self, *_):
        self.ended.set()
        self.process.join()

    def read_by_all(self):
        threads = [threading.Thread(target=self.read) for _ in range(self.count)]
        for thread in threads:
            thread.start()
        for thread in threads:
            thread.join()

    def read(self):
        session = self.front.session("watch")
        while not self.ended.is_set():
            with session.get(f"{self.front.url}/v1/table", stream=True, timeout=100) as answer:
                for _ in answer.iter_content(1 << 20):
                    pass
            with self.statuses[answer.status_code].get_lock():
                self.statuses[answer.status_code].value += 1
            if answer.status_code == 429:
                self.ended.wait(0.2)

    def said(self):
        return ", ".join(f"{count.value} times {status}" for status, count in self.statuses.items())


def revocations(front, first, count):
    """Milliseconds of so many revocations by root, or of those of one minute, with pauses unlike the readers' pace."""
    took = []
    end = time.monotonic() + 60
    while len(took) < count and time.monotonic() < end:
        serial = first + len(took)
        begun = time.monotonic()
        answer = front.ask(posting(f"/v1/requests/revoke-{serial}", revoke_serial(serial).encode()), "root")
        took.append(1000 * (time.monotonic() - begun))
        assert (200, "revoked") == (answer.status, answer.text.splitlines()[0])
        time.sleep(0.11)
    return took


@pytest.mark.slow
def test_beside_60_readers_of_tables_root_revokes_as_fast_as_beside_one(large_office, make_front):
    with large_office.serving() as served:
        front = make_front(served.port)
        begun = time.monotonic()
        assert f"total {COUNT} version 0" == served.get("/v1/table").text.splitlines()[-1]
        table = 1000 * (time.monotonic() - begun)
        took = {1: [], 60: []}
        # In turns, so that other work of the machine comes to both.
        for turn, count in enumerate((1, 60, 1, 60)):
            with Readers(front, count) as readers:
                time.sleep(3)
                its = revocations(front, 1 + 1000 * turn, 60)
            took[count] += its
            print(f"{PROCESSORS} processors: beside {count} readers of tables of {COUNT} certificates, of which the "
                  f"first took the office {table:.0f} ms, {len(its)} revocations take {statistics.mean(its):.1f} ms on "
                  f"average, {statistics.median(its):.1f} ms by the median and {max(its):.0f} ms at most; the readers "
                  f"were answered {readers.said()}")
        for average in (statistics.mean, statistics.median):
            print(f"beside 60 readers {average(took[60]) / average(took[1]):.2f} times as long as beside one, by the "
                  f"{average.__name__}")
            assert average(took[60]) <= 2 * average(took[1])
