"""A server that is asked for its pending certificates between messages gives what the plain office in Python gives.

A server keeps in memory what was pending at the last ask. So messages of all kinds come between the asks: issues and
renewals add to what is pending, deliveries and revocations take away, also by key id and in ranges, and refused and
repeated messages change nothing. The clock stands still and the nonces are all alike, so that both make the same
bodies.
"""
import contextlib
import os
import random
import sqlite3
import statistics

from asking import CA, deliver, department, get, issue, key_blob, post, renew, revoke_keyid, revoke_range, revoke_serial
from plain_office import PlainOffice
from running import preloaded

MOMENT, NONCE = 1500, bytes(32)
PENDING = get("/v1/pending")


def message(chance, office):
    """A caller and a message, as they come to an office: of few key ids, and of serials that are mostly there."""
    serial = chance.randrange(1, len(office.certificates) + 3)
    known = office.certificates.get(serial)
    digest = known.digest() if known else "0" * 64
    asked = dict(after=1000, before=2000)
    return chance.choice(
        [("ana", issue(f"web/{chance.randrange(1, 30)}", **asked))] * 6
        + [("station", deliver(serial, digest, chance.choice([0x44, 0x45])))] * 4
        + [("root", renew(serial, **asked)), ("root", revoke_serial(serial)),
           ("root", revoke_range(serial, serial + 1)), ("root", revoke_keyid(f"web/{chance.randrange(1, 300)}")),
           ("zoe", issue("web/1", **asked))])


def test_pending_between_messages(make_office, room):
    chance = random.Random("pending")
    office, plain = make_office(ca=CA, last=10_000), PlainOffice(key_blob(0x11), 1, 10_000)
    environment = os.environ | {"LD_PRELOAD": str(preloaded("strange_system.c", room)), "MOMENT": str(MOMENT)}
    with office.serving(nonces="/dev/zero", env=environment) as server:
        def same(request):
            """Both answer alike."""
            due = plain.answer(request, MOMENT, NONCE)
            assert (request, due) == (request, server.ask(request).bytes)

        same(post("root", "web", department(maxlife=86400)))
        asks, seen = 0, set()
        for number in range(1500):
            caller, text = message(chance, plain)
            # Now and then it is a repeat, or another message under the same request key.
            same(post(caller, f"k{chance.choice([number, number, number, chance.randrange(number + 1)])}", text))
            if chance.random() < 0.5:
                same(PENDING)
                asks, seen = asks + 1, seen | {plain.pending()}
        # What was pending changed, and came and went.
        assert (asks > 500, len(seen) > 100, any(plain.revoked), any(plain.key_ids)) == (True, True, True, True)


def test_pending_over_a_restart_and_many_at_once(make_office):
    """More than one batch of certificates is issued between two asks, and a new server knows what waits too."""
    office = make_office(last=10_000)
    first = [post("root", "web", department()),
             *(post("ana", f"i{number}", issue(f"web/{number}")) for number in range(2500))]
    given = office.apply(first)
    digests = [it.text.split()[3] for it in given[1:]]
    due = "".join(f"{serial} {digest}\n" for serial, digest in enumerate(digests, 1))
    with office.serving() as server:
        assert due == server.get("/v1/pending").text
        more = [server.post("ana", f"j{number}", issue(f"web/j{number}")).text.split()[3] for number in range(3)]
        due += "".join(f"{serial} {digest}\n" for serial, digest in enumerate(more, 2501))
        assert due == server.get("/v1/pending").text
    with office.serving() as server:
        server.post("station", "d1", deliver(1, digests[0]))
        server.post("root", "r", revoke_range(2, 2500))
        due = "".join(f"{serial} {digest}\n" for serial, digest in enumerate(more, 2501))
        assert due == server.get("/v1/pending").text
        server.post("root", "k", revoke_keyid("web/j1"))
        assert due.replace(f"2502 {more[1]}\n", "") == server.get("/v1/pending").text


def fill(db, count):
    """Puts so many certificates into an office with one, of which the last three aren't signed. Every second serial and
    some key ids are revoked."""
    with contextlib.closing(sqlite3.connect(db)) as file:
        department, key_id, body = file.execute("SELECT department, keyid, body FROM cert").fetchone()
        file.executemany("INSERT OR REPLACE INTO cert VALUES (?, ?, ?, ?, ?)", (
            (serial, department, key_id, body[:108] + serial.to_bytes(8, "big") + body[116:],
             None if serial > count - 3 else bytes(64)) for serial in range(1, count + 1)))
        file.executemany("INSERT INTO run VALUES (?, ?)", ((serial, serial) for serial in range(1, count - 3, 2)))
        file.executemany("INSERT INTO revoked_keyid VALUES (?)", ((f"web/x{number:05}",) for number in range(1000)))
        file.execute("UPDATE office SET next = ?, version = ?", (count + 1, count))
        file.commit()


def test_only_the_first_ask_looks_at_all(make_office):
    """Also after messages that revoke nothing, a later ask takes a small part of its time."""
    office = make_office(last=1_000_000)
    office.apply([post("root", "web", department()), post("ana", "i1", issue("web/1"))])
    fill(office.db, 40_000)
    with office.serving() as server:
        def asked():
            assert server.get("/v1/pending").body.count(b"\n") == waiting

        waiting, later = 3, []
        first = server.work_of(asked)
        for number in range(9):
            digest = server.post("ana", f"j{number}", issue(f"web/j{number}")).text.split()[3]
            if number % 2:
                server.post("station", f"d{number}", deliver(40_001 + number, digest))
            waiting += 1 - number % 2
            later.append(server.work_of(asked))
    assert (True, first, later) == (30 * statistics.median(later) < first, first, later)
