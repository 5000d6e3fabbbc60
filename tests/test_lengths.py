"""With ample memory nothing that the formats allow is too long: each length of every field, each length of a body and
of a head, and lists of each length are answered, and meet no fault.

The answers that are due are those of the office in Python, and the lists are written here by PROTOCOL.krl. What is
asked is put into few files, so that each test takes seconds.
"""
import contextlib
import itertools
import sqlite3

import pytest

from asking import (CA, KEY, LATEST, answers, department, exchange, get, issue, key_blob, post, renew, revoke_keyid,
                    revoke_range, string, write_exchanges)
from lists import header, numbers, ranged, section
from plain_office import PlainOffice
from running import run
from test_registers import DEPARTMENT

MOST_EXCHANGES, MOST_BODY, MOST_HEAD = 10_000, 16_384, 8_192
NAMES = ["a" * size for size in range(1, 33)]
LONG = ["a" * size for size in range(1, 65)]


def in_memory(program, requests, moment=1000):
    """What the trial office answers. It is asked so many requests at a time as a file may have."""
    requests, given = [*requests], []
    for place in range(0, len(requests), MOST_EXCHANGES):
        file = write_exchanges("some.exchange", [exchange(it, moment, 0x33)
                                                 for it in requests[place:place + MOST_EXCHANGES]])
        given += answers(run([program, "apply", file]).stdout)
    return given


def due(requests, moment=1000):
    """What the office in Python answers, after the department of the trial office."""
    office = PlainOffice(key_blob(0x11))
    for it in DEPARTMENT:
        office.answer(*it)
    return [office.answer(it, moment, b"\x33" * 32) for it in requests]


# ---- the fields of messages

def numbers_of(most):
    """Numbers of each length, up to the greatest."""
    return [10 ** size for size in range(len(str(most)))] + [most]


def lists_of(most, *, least=0):
    """Lists of each length, of distinct elements of some lengths."""
    return [[f"{place:02}{'x' * (place % 30)}" for place in range(count)] for count in range(least, most + 1)]


# Each length of every field: who asks, and the message.
FIELDS = {
    "a department's name": [("root", department(name)) for name in NAMES],
    "an administrator": [("root", department(admins=[name])) for name in NAMES],
    "an administrator by name": [("root", department(admins=[name + "{name}"])) for name in ["", *NAMES]],
    "administrators": [("root", department(admins=it)) for it in lists_of(16)],
    "a principal of a department": [("root", department(principals=[it])) for it in LONG],
    "a rule": [("root", department(principals=[f"*{it[1:]}"])) for it in LONG[1:]],
    "a rule for names": [("root", department(principals=[f"{{name}}@{it[1:]}"])) for it in LONG[1:]],
    "rules": [("root", department(principals=it)) for it in lists_of(16, least=1)],
    "a namespace": [("root", department(namespaces=[name])) for name in NAMES],
    "namespaces": [("root", department(namespaces=it)) for it in lists_of(8)],
    "a longest life": [("root", department(maxlife=it)) for it in numbers_of(LATEST)],
    "a key id": [("root", issue(f"web/{it}", after=1000, before=2000)) for it in LONG],
    "a key id that is revoked": [("root", revoke_keyid(f"web/{it}")) for it in LONG],
    "a comment": [("ana", issue(f"web/c{size}", key=f"{KEY} {'c' * size}", after=1000, before=2000))
                  for size in range(1025)],
    "a principal": [("root", department("p", principals="*a")),
                    *[("root", issue(f"p/{len(it)}", principals=it, after=1000, before=2000)) for it in LONG]],
    "principals": [("root", department("q", principals="*x,*0")),
                   *[("root", issue(f"q/{len(it)}", principals=it, after=1000, before=2000))
                     for it in lists_of(16, least=1)]],
    "a command": [("ana", issue(f"web/f{size}", after=1000, before=2000, options=[f"force-command {'f' * size}"]))
                  for size in range(1, 201)],
    "a serial": [("root", renew(it)) for it in numbers_of(2 ** 63 - 2)],
    "an end": [("ana", issue("web/e", after=0, before=it)) for it in numbers_of(LATEST)],
}


@pytest.mark.parametrize("what", FIELDS)
def test_each_length_of_a_field_is_answered(program, room, what):
    requests = [post(caller, f"r{place}", message) for place, (caller, message) in enumerate(FIELDS[what])]
    assert due(requests) == in_memory(program, requests)


def test_each_length_of_a_caller_and_of_a_request_key_is_answered(program, room):
    requests = [post(name, "k", issue("web/x")) for name in NAMES] + [
        post("ana", key, issue(f"web/k{len(key)}", after=1000, before=2000)) for key in NAMES]
    assert due(requests) == in_memory(program, requests)


@pytest.mark.parametrize("count", range(1, 9))
def test_networks_of_each_count_are_answered(program, room, count):
    """Each with numbers of one to three digits, and a size of one or two."""
    networks = ",".join(f"{10 ** (place % 3)}.0.0.0/{8 + place}" for place in range(count))
    message = issue("n/x", after=1000, before=2000, options=[f"source-address {networks}"])
    given = in_memory(program, [
        post("root", "n", department("n", options=["source-address"])), post("ana", "x", message)])
    assert [200, 200] == [it.status for it in given]


# ---- requests

@pytest.mark.parametrize("fill", [b"a", b"\n"])
def test_each_length_of_a_body_is_answered(program, room, fill):
    """None of these is a message. Of one that is a byte too long the body isn't looked at."""
    given = in_memory(program, (post("ana", "k", fill * size) for size in range(MOST_BODY + 2)))
    assert [b"refused 7 BadMessage\n"] * (MOST_BODY + 1) + [b"refused 5 TooLong\n"] == [it and it.body for it in given]


def test_each_length_of_a_head_is_answered(program, room):
    def asked(size):
        start = b"GET /v1/signers HTTP/1.1\r\nx: "
        return start + b"a" * (size - len(start) - 4) + b"\r\n\r\n"

    given = in_memory(program, map(asked, range(40, MOST_HEAD + 2)))
    assert [200] * (MOST_HEAD - 39) + [400] == [it and it.status for it in given]


# ---- lists

def key_ids(count):
    """The list of so many key ids, which were revoked one after the other, as a response has it."""
    texts = sorted(f"web/{place}".encode() for place in range(count))
    part = b"\x23" + string(b"".join(map(string, texts)))
    return header(count, 1000) + section(0x11, part) if count else header(0, 0)


def test_lists_of_up_to_two_thousand_key_ids_are_served(program, room):
    requests = [[post("root", f"r{count}", revoke_keyid(f"web/{count - 1}"))] * bool(count) + [get("/v1/krl")]
                for count in range(2001)]
    given = in_memory(program, itertools.chain(*requests))
    assert [key_ids(count) for count in range(2001)] == [it.body for it in given[::2]]


# Runs by their numbers: of three serials, and of one.
def three(place):
    return 4 * place + 1, 4 * place + 3


def one(place):
    return 2 * place + 1, 2 * place + 1


def of_runs(count, ends=three, date=3000):
    """The list of so many runs, under the first CA."""
    runs = [ends(place) for place in range(count)]
    parts = [ranged(*it) for it in runs] if ends is three else [b"\x20" + string(numbers(*(low for low, _ in runs)))]
    return header(count, date) + section(0x11, *parts) if count else header(0, 0)


@pytest.fixture
def full(make_office):
    """An office in a file with eight thousand certificates, which SQLite has put there: copies of the first."""
    office = make_office(ca=CA)
    given = office.apply([post("root", "web", department()), post("root", "one", issue(after=1000, before=2000))])
    assert [200, 200] == [it.status for it in given]
    with contextlib.closing(sqlite3.connect(office.db)) as file, file:
        (body,), = file.execute("SELECT body FROM cert")
        file.executemany("INSERT INTO cert VALUES (?, 'web', 'web/alice', ?, NULL)", (
            (serial, body[:108] + serial.to_bytes(8, "big") + body[116:]) for serial in range(2, 8001)))
        file.execute("UPDATE office SET next = 8001")
    return office


@pytest.mark.slow
@pytest.mark.parametrize("ends", [three, one])
def test_lists_of_up_to_two_thousand_runs_are_served(full, ends):
    requests = [[post("root", f"r{count}", revoke_range(*ends(count - 1)))] * bool(count) + [get("/v1/krl")]
                for count in range(2001)]
    given = full.apply((it, 3000, 0) for it in itertools.chain(*requests))
    assert [of_runs(count, ends) for count in range(2001)] == [it.body for it in given[::2]]


# Counts of ranges of which the list has about 64 KiB and about a megabyte.
AROUND = [(size - 103) // 21 + more for size in (2 ** 16, 10 ** 6, 2 ** 20) for more in range(-1, 3)]


@pytest.mark.slow
def test_long_lists_are_printed(make_office):
    """SQLite puts the runs into the file, as that many revocations leave them."""
    office, before = make_office(ca=CA, last=10 ** 6), 0
    for count in AROUND:
        with contextlib.closing(sqlite3.connect(office.db)) as file, file:
            file.executemany("INSERT INTO run VALUES (?, ?)", map(three, range(before, count)))
            file.execute("UPDATE office SET version = ?, date = 3000, next = ?", [count, 4 * count + 1])
        before = count
        assert of_runs(count) == office.krl(), count


@pytest.mark.slow
def test_lists_of_each_length_are_read(program, room):
    """Of up to two thousand runs, of about 64 KiB and of about a megabyte: the last serial is revoked."""
    (room / "ca.pub").write_text(CA)
    for count in [*range(1, 2001), *AROUND]:
        (room / "list.krl").write_bytes(of_runs(count))
        _, serial = three(count - 1)
        done = run([program, "check", "--ca", "ca.pub", "list.krl", serial, "web/x"])
        assert (0, b"revoked\n", b"") == (done.returncode, done.stdout, done.stderr), count
