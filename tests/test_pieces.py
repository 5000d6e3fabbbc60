"""Random requests over sockets, cut into pieces at random, get the bytes that `apply` gives to the same requests.

Half of them are as `asking` writes them, and half are changed at random places. The server's clock stands still, and
its nonces are all alike, so that each request has the same moment and nonce in both. `--pieces 200000` sends more than
the thousand requests of the check, and `--hypothesis-seed` the same ones as before.
"""
import contextlib
import os
import random
import socket

from asking import CA, department, exchange, get, issue, post, renew, revoke_keyid, revoke_range, revoke_serial
from running import preloaded, run

# The moment of all requests, and how many of them an office gets: as many as `apply` takes from a file.
MOMENT = 1500
MOST = 10_000
# What is put into requests: what ends names, values and lines, and what may stand nowhere or in few places.
BYTES = [b"\r", b"\n", b"\r\n", b"\r\n\r\n", b" ", b"\t", b":", b",", b"0", b"a", b"/", b"\0", b"\x7f", b"\x80",
         b"\xff", b"\xc3\xa9", b"HTTP/1.0", b"content-length: 3\r\n", b"transfer-encoding: chunked\r\n",
         b"a: b\r\n" * 31]
PAGES = ["pending", "krl", "signers", "table", "cas", "nothing", "certs/0", "certs/01", "callers/ana/requests/i1"]


def message(chance):
    """A caller, a request key and a message."""
    number = chance.randrange(1, 200)
    texts = [issue(f"web/{number}", after=1000, before=2000)] * 4 + [
        renew(number, after=1000, before=2000), revoke_serial(number), revoke_range(number, number + 3),
        revoke_keyid(f"web/{number}"), "issue web\n", ""]
    return post(chance.choice(["ana", "root", "station", "zoe"]), f"k{chance.randrange(5000)}", chance.choice(texts))


def page(chance):
    number = chance.randrange(1, 200)
    usual = [f"certs/{number}", f"certs/{number}/body"] * 20
    return get("/v1/" + chance.choice(usual + PAGES), method=chance.choice(["GET"] * 9 + ["PUT"]))


def changed(request, chance):
    """A request with something put in, left out or doubled, or cut off."""
    for _ in range(chance.choice([1, 1, 1, 2, 3])):
        at, until = sorted(chance.randrange(len(request) + 1) for _ in range(2))
        piece = chance.choice(BYTES)
        request = chance.choice([
            request[:at] + piece + request[at:], request[:at] + piece + request[at + 1:],
            request[:at] + request[at + 1:], request[:at], request[:until] + request[at:],
            request.replace(b"\r\n", b"\n", chance.randrange(4))])
    return request


def requests(count, chance):
    for _ in range(count):
        request = chance.choice([message, message, page])(chance)
        yield request if chance.random() < 0.5 else changed(request, chance)


def pieces(request, chance):
    """A request cut at some places, or at each."""
    cuts = chance.choice([0, 1, 2, 5, len(request)])
    places = range(1, len(request)) if cuts == len(request) else sorted(chance.choices(range(len(request) + 1), k=cuts))
    first = 0
    for place in [*places, len(request)]:
        yield request[first:place]
        first = place


def given(port, request, chance):
    """What a client is given that sends the pieces and then nothing more, or None where the connection was reset."""
    with socket.create_connection(("127.0.0.1", port), timeout=30) as peer:
        peer.setsockopt(socket.IPPROTO_TCP, socket.TCP_NODELAY, 1)
        # A server that has answered doesn't wait for what follows.
        with contextlib.suppress(BrokenPipeError, ConnectionResetError):
            for piece in pieces(request, chance):
                peer.sendall(piece)
                os.sched_yield()
        with contextlib.suppress(OSError):
            peer.shutdown(socket.SHUT_WR)
        came = b""
        try:
            while piece := peer.recv(65536):
                came += piece
        except ConnectionResetError:
            return None
        return came


def served(port, request, chance):
    """The response. What a reset cost a client is asked again: the answer is the same."""
    for _ in range(1000):
        came = given(port, request, chance)
        if came is not None:
            return came
    raise AssertionError(f"the connection is reset again and again: {request!r}")


def test_pieces_are_answered_as_the_whole(make_office, request, room):
    count, seed = request.config.getoption("--pieces"), request.config.option.hypothesis_seed
    chance = random.Random(f"pieces {seed}")
    environment = os.environ | {"LD_PRELOAD": str(preloaded("strange_system.c", room)), "MOMENT": str(MOMENT)}
    while count:
        some = [post("root", "web", department(maxlife=86400)), *requests(min(count, MOST - 1), chance)]
        count -= len(some) - 1
        for name in ("served", "applied"):
            (room / f"{name}.db").unlink(missing_ok=True)
        office, other = make_office("served.db", ca=CA), make_office("applied.db", ca=CA)
        due = other.apply([exchange(it, MOMENT, 0) for it in some])
        with office.serving(nonces="/dev/zero", env=environment) as server:
            for one, wanted in zip(some, due, strict=True):
                assert (one, wanted) == (one, served(server.port, one, chance))
        run(["rm", "-f", *room.glob("*.db*")], check=True)
