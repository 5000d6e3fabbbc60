"""Keys of small order: 14 encodings of points of Ed25519 that need no private key. The client and `request` send none.

What is due comes from the curve's equation and its addition (RFC 8032, section 5.1), in plain integers.
"""
import base64
import itertools
import random
import sys

import pytest

from fetching import Web, response, script
from running import CLIENT, run
from test_vethlumi import Client

sys.path[:0] = CLIENT.split(":")
from vethlumi_common import subjects  # noqa: E402

P = 2 ** 255 - 19
D = -121665 * pow(121666, -1, P) % P
# The order of the base point.
ORDER = 2 ** 252 + 27742317777372353535851937790883648493
NEUTRAL = 0, 1
WHY = "everybody has a valid signature for this key"


def add(one, other):
    """The sum of two points: the addition law of the curve, which is complete."""
    (x, y), (u, v) = one, other
    product = D * x * y * u * v
    return (x * v + y * u) * pow(1 + product, -1, P) % P, (y * v + x * u) * pow(1 - product, -1, P) % P


def times(number, point):
    total = NEUTRAL
    for bit in f"{number:b}":
        total = add(total, total)
        total = add(total, point) if bit == "1" else total
    return total


def points_of(y):
    """The points of the curve with this second coordinate: -x^2 + y^2 = 1 + d x^2 y^2."""
    square = (y * y - 1) * pow(D * y * y + 1, -1, P) % P
    root = pow(square, (P + 3) // 8, P)
    found = [it for it in (root, root * pow(2, (P - 1) // 4, P) % P) if it * it % P == square]
    return {(x, y % P) for it in found for x in (it, -it % P)}


def torsion():
    """All points whose order divides 8: what is left of a point that is multiplied by the order of the base point. The
    curve has 8 times as many points."""
    found, numbers = {NEUTRAL}, random.Random(1)
    while len(found) < 8:
        for point in points_of(numbers.randrange(P)):
            found.add(times(ORDER, point))
    return found


def encodings(points):
    """All 32 bytes that have the second coordinate of one of these points, below 2^255, with either sign."""
    return {(value | sign << 255).to_bytes(32, "little") for _, y in points for value in (y, y + P) if value < 1 << 255
            for sign in (0, 1)}


SMALL = encodings(torsion())
# Beside them: what decodes to no point, or to one of another order.
OTHERS = [(y | sign << 255).to_bytes(32, "little") for y in (2, P - 2, P + 2, (1 << 255) - 1, 3, P + 3, 9, *[
    random.Random(it).randrange(P) for it in range(50)]) for sign in (0, 1)]


def string(data):
    """A string of RFC 4251."""
    return len(data).to_bytes(4) + data


PLAIN, TOUCHED = "ssh-ed25519", "sk-ssh-ed25519@openssh.com"


def line(point, kind=PLAIN):
    """A public-key line, of a plain key or of one in a security key."""
    blob = string(kind.encode()) + string(point) + string(b"ssh:") * (kind == TOUCHED)
    return f"{kind} {base64.b64encode(blob).decode()} x\n"


def test_the_points_are_those_whose_order_divides_8():
    points = torsion()
    assert {NEUTRAL} == {times(8, it) for it in points} and 8 == len(points)
    assert points == {add(one, other) for one, other in itertools.product(points, points)}
    assert 14 == len(SMALL)


def test_the_client_knows_these_encodings_and_no_others():
    assert [True] * 14 == [subjects.is_of_small_order(it) for it in SMALL]
    assert [] == [it.hex() for it in OTHERS if it in SMALL or subjects.is_of_small_order(it)]
    # Those that are points have other orders.
    assert all(times(8, point) != NEUTRAL for it in OTHERS
               for point in points_of(int.from_bytes(it, "little") & (1 << 255) - 1))


@pytest.mark.parametrize("text", [b"", b"any text", bytes(1000)], ids=len)
def test_openssh_takes_a_signature_that_nobody_made_with_a_private_key(room, text):
    """PROTOCOL.sshsig. The key is the neutral point, and the signature is the base point with the number 1, whatever
    the text: 1 * B = B + h * 0."""
    neutral = next(it for it in SMALL if int.from_bytes(it, "little") == 1)
    key = string(b"ssh-ed25519") + string(neutral)
    base = b"\x58" + 31 * b"\x66"
    blob = b"SSHSIG" + (1).to_bytes(4) + string(key) + string(b"file") + string(b"") + string(b"sha512") + string(
        string(b"ssh-ed25519") + string(base + (1).to_bytes(32, "little")))
    armour = "-----{} SSH SIGNATURE-----\n"
    (room / "sig").write_text(armour.format("BEGIN") + base64.encodebytes(blob).decode() + armour.format("END"))
    (room / "allowed").write_text(f"x {line(neutral)}")
    words = ["ssh-keygen", "-Y", "verify", "-f", "allowed", "-I", "x", "-n", "file", "-s", "sig"]
    done = run(words, input=text, stdin=None)
    assert (0, True) == (done.returncode, done.stdout.startswith(b'Good "file" signature')), done.stderr


@pytest.mark.parametrize("kind", [PLAIN, TOUCHED])
@pytest.mark.parametrize("point", sorted(SMALL), ids=bytes.hex)
def test_a_key_of_small_order_is_not_sent(room, point, kind):
    (room / "small.pub").write_text(line(point, kind))
    with Web(response(b"no", "404 Not Found")) as web:
        status, out, errors = script("request", "--caller", "ana", "--wait", "1", web.url, "web", "web/a", "small.pub",
                                     "alice", "1h")
        assert (2, "", [f"request: small.pub is a key of small order: {WHY}"]) == (status, out, errors)
        assert [] == web.requests and not (room / "small.request").exists()


def test_the_client_sends_none(room):
    with Web(response(b"no", "404 Not Found")) as web:
        client = Client(room / "home", web.url, caller="ana")
        for number, point in enumerate(sorted(SMALL)[::5]):
            (room / f"{number}.pub").write_text(line(point))
            (room / f"sk{number}.pub").write_text(line(point, TOUCHED))
            for words in (["request", "web/a", f"{number}.pub"], ["rollover", f"{number}.pub", "--yes"],
                          ["request", "web/a", f"sk{number}.pub"]):
                status, out, told = client("--wait", "1", *words)
                assert (2, "", f"vethlumi: the public key is of small order: {WHY}\n") == (status, out, told)
        assert [] == web.requests and [] == client.kept()


@pytest.mark.parametrize("kind", [PLAIN, TOUCHED])
@pytest.mark.parametrize("point", OTHERS[:4], ids=bytes.hex)
def test_other_keys_are_sent(room, point, kind):
    (room / "other.pub").write_text(line(point, kind))
    with Web(response(b"no", "404 Not Found")) as web:
        status, _, errors = script("request", "--caller", "ana", "--wait", "1", web.url, "web", "web/a", "other.pub",
                                   "alice", "1h")
        assert (1, ["request: no (status 404)"]) == (status, errors)
        assert 1 == Client(room / "home", web.url, caller="ana")("request", "web/a", "other.pub")[0]
        assert [True, True] == [line(point, kind).strip().encode() in it for it in web.requests]


def test_a_certificate_for_such_a_key_is_not_renewed(room):
    body = (string(b"ssh-ed25519-cert-v01@openssh.com") + string(bytes(32)) + string(min(SMALL)) + (7).to_bytes(8) +
            (1).to_bytes(4) + string(b"web/a") + string(string(b"alice")) + bytes(8) + b"\x7f" + bytes(7) +
            3 * string(b"") + string(b"ca"))
    (room / "old-cert.pub").write_text(
        f"ssh-ed25519-cert-v01@openssh.com {base64.b64encode(body).decode()} web/a\n")
    with Web(response(b"no", "404 Not Found")) as web:
        status, _, told = Client(room / "home", web.url, caller="ana")("--wait", "1", "renew", "old-cert.pub")
        assert (2, [], True) == (status, web.requests, WHY in told)
