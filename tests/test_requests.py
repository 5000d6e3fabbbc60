"""What is refused of requests by their bytes alone, and by which refusal: paths, methods, lengths, limits of heads.

All requests are the exchanges of one file, which is applied to the trial office in memory. A refusal's number and
status are those of the table in docs/FORMATS.md.
"""
import pytest

from asking import DIGEST, department, exchange, get, issue
from asking import post as posted
from running import applied, refusals, rows

pytestmark = pytest.mark.rows

MESSAGE = issue("web/alice", after=1000, before=2000).encode()
HEAD = posted("ana", "i1", MESSAGE).removesuffix(MESSAGE)
LONGEST_NAME = b"abcdefghijklmnopqrstuvwxyz012345"

# Each row is a request, and the name of its refusal, or what the response's head and body begin with.
ISSUED = b"HTTP/1.1 200 OK\r\n", f"issued 1\ndigest {DIGEST}\n".encode()
OK = b"HTTP/1.1 200 OK\r\n", b""


def post(lines, body=b""):
    return b"POST /v1/callers/ana/requests/i1 HTTP/1.1\r\n" + lines + b"\r\n" + body


# A message is posted, and what stands behind its length is left.
POSTS = [
    (HEAD + MESSAGE, ISSUED),
    (HEAD + MESSAGE + get(b"/v1/certs/1/body"), ISSUED),
    (post(b"Content-Length: 0000000000000000000000000000162\r\n", MESSAGE), ISSUED),
    (post(b"content-length: 0\r\n", b"more"), "BadMessage"),
    *[(HEAD[:size], "BadHead") for size in range(66)],
    *[(HEAD + MESSAGE[:size], "ShortBody") for size in range(162)],
]

# Rows of the header lines of a POST with no body, and of methods and targets.
GIVEN = rows("requests")
LENGTHS = [(post(lines.encode()), refusal) for lines, refusal in GIVEN["lengths"]]

# A line is found behind so many others: one that asks for more than is there, and one that smuggles a body.
BEHIND = [row for count in range(1, 32) for row in [
    (post(b"a: b\r\n" * count + b"content-length: 16385\r\n"), "TooLong"),
    (post(b"content-length: 0\r\n" + b"a: b\r\n" * (count - 1) + b"Transfer-Encoding: gzip\r\n"), "LengthRequired"),
    (post(b"content-length: 0\r\n" + b"a: b\r\n" * (count - 1) + b"content-length: 0\r\n"), "BadHead"),
]]

# A head has at most 32 header lines and 8192 bytes.
LIMITS = [(b"GET /v1/krl HTTP/1.1\r\n" + lines + b"\r\n", wanted) for lines, wanted in [
    (b"a: b\r\n" * 32, OK),
    (b"a: b\r\n" * 33, "BadHead"),
    (b"x: " + b"a" * (8192 - 29) + b"\r\n", OK),
    (b"x: " + b"a" * (8193 - 29) + b"\r\n", "BadHead"),
]]

# What each resource begins with in the trial office once `POSTS` were sent.
RESOURCES = [
    (b"/v1/pending", f"1 {DIGEST}\n".encode()),
    (b"/v1/certs/1/body", b"\0\0\0\x20ssh-ed25519-cert-v01@openssh.com"),
    (b"/v1/krl", b"SSHKRL\n\0"),
    (b"/v1/signers", b""),
    (b"/v1/table", b"                  1  user  pending          1000          2000  web/alice\ntotal 1 version 0\n"),
    (b"/v1/cas", b"1 1 SHA256:SQfC+vTbLURn9cTkVxIS8fGQ3FKNAJWeB0o139+gV4M\n"),
    (b"/v1/departments", department(
        "web", principals="alice,*@example.org", options="force-command", namespaces="file,git",
        extensions="permit-X11-forwarding,permit-agent-forwarding,permit-pty").encode()),
]
AROUND = [row for path in [it for it, _ in RESOURCES] + [b"/v1/certs/1", b"/v1/certs/9223372036854775806"] for row in [
    (get(path, b"POST"), "WrongMethod"),
    (get(path, b"HEAD"), "WrongMethod"),
    (get(path + b"/"), "NoRoute"),
    (get(path + b"?x"), "NoRoute"),
    (get(path + b"x"), "NoRoute"),
    (get(b"/" + path), "NoRoute"),
]]

PATHS = [(get(path, method), refusal) for method, path, refusal in GIVEN["paths"]]

TABLES = {
    "posted": POSTS,
    "length": LENGTHS,
    "behind": BEHIND,
    "limit": LIMITS,
    "resource": [(get(path), (OK[0], body)) for path, body in RESOURCES],
    "around": AROUND,
    "path": PATHS,
}


def shown(request):
    """The request, or its ends, as one line."""
    text = repr(request)[2:-1]
    return text if len(text) <= 90 else f"{text[:40]}..{text[-40:]} of {len(request)} bytes"


ROWS = [(what, request, wanted) for what, rows in TABLES.items() for request, wanted in rows]


def name_of(row):
    what, request, wanted = row
    return f"{what}: {shown(request)}: {wanted if isinstance(wanted, str) else 'answered'}"


@pytest.fixture(scope="module")
def given(program, tmp_path_factory):
    """The responses to all requests, for which the trial office is asked one after the other."""
    exchanges = [exchange(request, 1000, 0x33) for _, request, _ in ROWS]
    return applied(program, exchanges, tmp_path_factory.mktemp("requests"))


# The status line and the body of each refusal, by its name.
REFUSED = {name: (b"HTTP/1.1 %d " % status, f"refused {number} {name}\n".encode())
           for number, (name, status) in refusals().items()}


def test_each_request_is_answered(given):
    assert len(ROWS) == len(given)


@pytest.mark.parametrize("place", range(len(ROWS)), ids=map(name_of, ROWS))
def test_a_request_is_judged_by_its_bytes(given, place):
    wanted, response = ROWS[place][2], given[place]
    line, start = REFUSED[wanted] if isinstance(wanted, str) else wanted
    is_whole = isinstance(wanted, str) or wanted is ISSUED
    end = len(response.body) if is_whole else len(start)
    assert line + start == response[:len(line)] + response.body[:end]
