"""vethlumi, the client, before an office or a front that answers what it likes: each command ends within its time and
within 200 MB of memory, says what was amiss, steers no terminal, and keeps the messages that got no answer.

Each case has one route answered with something hostile, and all others as an office does.
"""
import base64
import contextlib
import gzip
import json
import os
import pathlib
import pty
import re
import shutil
import struct
import subprocess
import threading
import time

import pytest

from fetching import Web, response
from recording import whole_request
from running import CLIENT, TOP, preloaded, run
from test_vethlumi import POLICY, SIGNERS, Client

# Bytes of memory, and seconds for a command that may wait for two: far above what it takes on a machine that does other
# work, and far below an answer that drips.
MEMORY, PATIENCE = 200 << 20, 30
CAS, TABLE, KRL, LINE, BODY, POST = "/v1/cas", "/v1/table", "/v1/krl", "/v1/certs/1", "/v1/certs/1/body", "POST"
DEPARTMENTS = "/v1/departments"
EMPTY_KRL = b"SSHKRL\n\0\0\0\0\1" + bytes(32)
# What steers a terminal, or the direction in which it writes.
STEERS = re.compile("[\x00-\x09\x0b-\x1f\x7f-\x9f\u061c\u200e\u200f\u2028-\u202e\u2066-\u2069]")
STEERING = "\x1b]0;taken\x07\x1b[2J\x9b2J\u202e[/x][link=https://evil.example/]a[/link]"


def row(serial=1, after=0, state="signed ", key_id="web/alice"):
    return f"{serial:19d}  user  {state}  {after:>12}  {253402300799:12d}  {key_id}\n"


def table(*rows):
    return f"{''.join(rows)}total {len(rows)} version 0\n".encode()


class Office(Web):
    """Gives the pages of an office with one certificate, and answers one route otherwise: by bytes, or by a function
    that gets the connection."""

    def __init__(self, line, path="", hostile=b""):
        self.path, self.hostile, self.paths = path, hostile, []
        digest = "0" * 64
        self.pages = {
            CAS: f"1 1 SHA256:{'A' * 43}\n".encode(), TABLE: table(row()), KRL: EMPTY_KRL,
            "/v1/signers": SIGNERS.encode(), DEPARTMENTS: POLICY.encode(), LINE: line,
            BODY: base64.b64decode(line.split()[1]),
            "issue": f"issued 1\ndigest {digest}\n".encode(), "renew": f"issued 1\ndigest {digest}\n".encode(),
            "revoke-serial": b"revoked\nversion 1\n", "department": b"department web\n",
            "rollover": b"rollover 2\nsince 1\n",
        }
        super().__init__(None)

    def finish_request(self, peer, address):
        request = whole_request(peer)
        method, path, *_ = request.decode("latin-1").split(" ")
        if method == "POST":
            path, page = POST, request.partition(b"\r\n\r\n")[2].split()[0].decode()
        else:
            page = path
        self.paths.append(path)
        peer.settimeout(60)
        # A client that has gone is what is wanted.
        with contextlib.suppress(OSError):
            if path != self.path:
                peer.sendall(response(self.pages[page]))
            elif callable(self.hostile):
                self.hostile(peer)
            else:
                peer.sendall(self.hostile)


# ---- what is answered

def endless(head, piece):
    """An answer that goes on for ever."""
    def answer(peer):
        peer.sendall(head)
        while True:
            peer.sendall(piece)
    return answer


def dripping(beginning):
    """An answer whose bytes come one each half second, once it has begun."""
    def answer(peer):
        peer.sendall(beginning)
        for _ in range(200):
            peer.sendall(b"x")
            time.sleep(0.5)
    return answer


def silent(peer):
    time.sleep(100)


def headed(status, fields="", body=b""):
    return f"HTTP/1.1 {status}\r\n{fields}connection: close\r\n\r\n".encode("latin-1") + body


def page(status, text):
    return response(text.encode(), status)


HTML = "<html>\r\n<head><title>502 Bad Gateway</title></head>\r\n</html>\r\n"
BOMB = gzip.compress(bytes(1 << 20), 9)


def bomb(status):
    """Over a gigabyte, once it is decompressed: members of gzip one after the other."""
    return endless(headed(status, "content-encoding: gzip\r\n"), 64 * BOMB)


# What is answered, and the status with which commands end that need the answer: 1 refused, 3 no answer.
ANSWERS = {
    "redirect without end": (endless(headed("302 Found", "location: http://127.0.0.1:1/\r\n"), bytes(1 << 16)), 1),
    "permanent redirect": (headed("308 Permanent Redirect", "location: file:///etc/passwd\r\n", b"gone\n"), 1),
    "redirect of gzip": (bomb("301 Moved"), 1), "page of gzip": (bomb("200 OK"), 3),
    "fault of gzip": (bomb("500 Fault"), 3), "refusal of gzip": (bomb("404 Not Found"), 1),
    "page without end": (endless(headed("200 OK"), bytes(1 << 16)), 3),
    "refusal without end": (endless(headed("403 Forbidden"), b"no " * 4096), 1),
    "head without end": (endless(b"HTTP/1.1 200 OK\r\n", b"x: y\r\n" * 1000), 3),
    "field without end": (endless(b"HTTP/1.1 200 OK\r\nx: ", b"y" * 65536), 3),
    "continue without end": (endless(b"", b"HTTP/1.1 100 Continue\r\n\r\n" * 1000), 3),
    "dripping page": (dripping(headed("200 OK", "content-length: 1000\r\n")), 3),
    "dripping refusal": (dripping(headed("404 Not Found", "content-length: 1000\r\n")), 3),
    "dripping redirect": (dripping(headed("302 Found", "location: /\r\n")), 3),
    "dripping head": (dripping(b"HTTP/1.1 200 OK\r\nx: "), 3), "silence": (silent, 3),
    "nothing": (b"", 3), "empty page": (page("200 OK", ""), 3), "no content": (headed("204 No Content"), 1),
    "HTML as a page": (page("200 OK", HTML), 3), "HTML 502": (page("502 Bad Gateway", HTML), 3),
    "HTML 503": (page("503 Away", HTML), 3), "HTML 403": (page("403 Forbidden", HTML), 1),
    "HTML 404": (page("404 Not Found", HTML), 1), "too many": (page("429 Too Many", "front: too many requests\n"), 3),
    "later": (headed("429 Too Many", "retry-after: 99999999999\r\n", b"later"), 3),
    "never": (headed("503 Away", f"retry-after: {'9' * 400}\r\n", b"later"), 3),
    "steering page": (page("200 OK", f"{STEERING}\n"), 3), "steering fault": (page("503 Away", f"{STEERING}\n"), 3),
    "steering refusal": (page("403 Forbidden", f"{STEERING}\n"), 1),
    "steering reason": (headed(f"409 {STEERING}".encode().decode("latin-1"), "", b"\n"), 1),
    "steering status line": (f"{STEERING}\r\n\r\n".encode(), 3),
    "refusal of a number of 400 digits": (page("409 Conflict", f"refused {'9' * 400} NotPermitted\n"), 1),
    "other name of a refusal": (page("409 Conflict", "refused 14 NotAllowed\n"), 1),
    "refusal as a page": (page("200 OK", "refused 14 NotPermitted\n"), 3),
    "number of 400 digits": (page("200 OK", f"{'9' * 400} {'9' * 400} SHA256:{'A' * 43}\n"), 3),
    "serial of 400 digits": (page("200 OK", f"issued {'9' * 400}\ndigest {'0' * 64}\n"), 3),
    "length that is none": (headed("200 OK", "content-length: -5\r\n", b"hello\n"), 3),
    "two lengths": (headed("200 OK", "content-length: 5\r\ncontent-length: 6\r\n", b"hello\n"), 3),
    "chunk that is none": (headed("200 OK", "transfer-encoding: chunked\r\n", b"-1\r\nhello\r\n"), 3),
    "chunk of terabytes": (headed("200 OK", "transfer-encoding: chunked\r\n", b"fffffffffff\r\nhello\r\n"), 3),
    "cut off": (headed("200 OK", "content-length: 1000\r\n", b"1 1"), 3), "no HTTP": (b"nothing\r\n\r\n", 3),
}
# Those whose bytes differ by route.
OF_ROUTE = {
    "no CA": (CAS, page("200 OK", "")), "CA twice": (CAS, page("200 OK", 2 * f"1 1 SHA256:{'A' * 43}\n")),
    "nine CAs": (CAS, page("200 OK", "".join(f"{it} 1 SHA256:{'A' * 43}\n" for it in range(1, 10)))),
    "validity of 400 digits": (TABLE, page("200 OK", table(row(after="9" * 400)).decode())),
    "pending for 10^20": (TABLE, page("200 OK", table(row(after="9" * 21, state="pending")).decode())),
    "key ID that steers": (TABLE, page("200 OK", table(row(key_id=f"web/{STEERING}")).decode())),
    "table that lacks a row": (TABLE, page("200 OK", f"{row()}total 2 version 0\n")),
    "table with a tail": (TABLE, response(table(row()) + b"total 1 version 0\n")),
    "table of one line": (TABLE, endless(headed("200 OK"), b"total" * 10000)),
    "list of another kind": (KRL, response(b"SSHKRL\n\0\0\0\0\2" + bytes(32))),
    "list that is cut": (KRL, response(EMPTY_KRL[:-1])),
    "list with a length of 4 GB": (KRL, response(EMPTY_KRL + b"\1\xff\xff\xff\xff")),
    "body of another serial": (BODY, None), "line of another serial": (LINE, None),
}

# The words of a command, the status with which it ends before a good office, and the routes that it asks.
COMMANDS = {
    "status": (0, CAS), "list --json": (0, KRL), "signers": (0, "/v1/signers"), "certs --json": (0, TABLE),
    "show 1": (0, BODY, TABLE), "get 1 --out got": (0, LINE), "figures": (0, CAS, TABLE, KRL),
    "doctor --krl empty.krl --json": (0, CAS, TABLE, KRL), "revoke 1": (2, TABLE), "revoke 1 --yes": (0, POST),
    "request web/alice alice.pub": (0, POST, LINE), "renew 1 --out renewed": (0, BODY),
    "outbox --send": (0, POST), "department diff policy": (0, DEPARTMENTS, TABLE),
    "department put policy web --yes": (0, POST),
    "rollover next.pub --yes": (0, POST),
}
PAIRS = [(words, path) for words, (_, *paths) in COMMANDS.items() for path in paths]
AT_ONCE = 8


@pytest.fixture(scope="module")
def line(tmp_path_factory):
    """The line of a certificate for alice.pub with serial 1, beside which there are the files that commands name."""
    folder = tmp_path_factory.mktemp("files")
    for name in ("ca", "alice", "next"):
        run(["ssh-keygen", "-q", "-t", "ed25519", "-N", "", "-C", "", "-f", folder / name], check=True)
    run(["ssh-keygen", "-q", "-s", folder / "ca", "-I", "web/alice", "-n", "alice", "-z", "1", folder / "alice.pub"],
        check=True)
    (folder / "policy").write_text(POLICY)
    (folder / "empty.krl").write_bytes(EMPTY_KRL)
    # The comment of a line is the key ID.
    certificate = folder / "alice-cert.pub"
    certificate.write_text(f"{' '.join(certificate.read_text().split()[:2])} web/alice\n")
    return certificate


@pytest.fixture(scope="module")
def often():
    """Does commands as `often.py` does: gives the status, seconds and bytes of memory of each."""
    words = ["/usr/bin/python3", "-B", TOP / "tests/often.py", 30 * PATIENCE]
    with subprocess.Popen([str(it) for it in words], env=os.environ | {"PYTHONPATH": CLIENT},
                          stdin=subprocess.PIPE, stdout=subprocess.PIPE, text=True) as process:
        def do(commands):
            process.stdin.write(json.dumps(commands) + "\n")
            process.stdin.flush()
            return json.loads(process.stdout.readline())
        yield do
        process.stdin.close()


class Case:
    """A command of a client in a folder of its own, before an office that answers one route in a hostile way."""

    def __init__(self, folder, line, words, path="", hostile=b""):
        self.words, self.path, self.folder, self.wait = words.split(), path, folder, "2"
        folder.mkdir()
        for it in ("alice.pub", "next.pub", "policy", "empty.krl"):
            (folder / it).write_bytes((line.parent / it).read_bytes())
        self.office = Office(line.read_bytes(), path, hostile)
        self.client = Client(folder / "home", self.office.url, caller="ana", policy=folder / "policy")
        if self.words[0] == "outbox":
            self.client.outbox.mkdir(parents=True)
            (self.client.outbox / "a").write_text("a\nrevoke-serial 1\n")
        # The sshd of this machine isn't looked at.
        (self.client.home / "bin").mkdir()
        (self.client.home / "bin/sshd").symlink_to("/bin/false")
        self.before = {*os.listdir(folder)}

    def command(self):
        return {"words": ["--wait", self.wait, *self.words], "environment": self.client.environment(),
                "folder": str(self.folder)}

    def take(self, ended, patience):
        """Looks at what has to hold however the command ended."""
        print(f"{self.words}, {self.path}: {ended}")
        self.status, self.seconds, self.memory = ended["status"], ended["seconds"], ended["memory"]
        out, told = ((self.folder / it).read_bytes() for it in ("out", "told"))
        assert ended["seconds"] < patience and ended["memory"] < MEMORY, (ended, out[:300], told[:300])
        self.out, self.told = out.decode(), told.decode()
        assert "Traceback" not in self.told, self.told
        assert not STEERS.search(self.out + self.told), self.out + self.told
        self.new = {*os.listdir(self.folder)} - self.before - {"out", "told"}

    def is_harmless(self, due):
        """Looks at how the command ended, for want of an answer that it needed, and at what it left."""
        print(f"{self.words}, {self.path}: {self.told}")
        assert self.path in self.office.paths and set() == self.new
        if self.words[0] == "doctor":
            found = {it["what"]: it["state"] for it in map(json.loads, self.out.splitlines())}
            assert (self.path == CAS, "bad" if self.path == CAS else "ok") == (self.status, found["office"])
            assert self.path != TABLE or "warn" == found["table"]
            return
        if self.words[0] == "figures":
            assert ["office_up 0"] == [it for it in self.out.splitlines() if not it.startswith("#")]
        else:
            assert "" == self.out
        assert due == self.status, self.told
        assert self.told.startswith("vethlumi: ") and self.told.endswith("\n")
        # A message that was sent may have been accepted, and a certificate that was issued nobody has yet.
        is_kept = self.path == POST or (self.words[0], self.path) == ("request", LINE)
        assert is_kept == len(self.client.kept()), self.told


def done(often, cases, patience=PATIENCE):
    """Cases whose commands have ended, some side by side."""
    for at in range(0, len(cases), AT_ONCE):
        some = cases[at:at + AT_ONCE]
        for it, ended in zip(some, often([it.command() for it in some]), strict=True):
            threading.Thread(target=it.office.__exit__).start()
            it.take(ended, patience)
    return cases


def test_a_good_office_is_asked_what_the_table_says(room, line, often):
    cases = done(often, [Case(room / str(number), line, words) for number, words in enumerate(COMMANDS)])
    for it, (due, *paths) in zip(cases, COMMANDS.values()):
        assert (due, []) == (it.status, it.client.kept()), (it.words, it.told)
        assert {*paths} <= {*it.office.paths}, it.words


@pytest.mark.parametrize("name", ANSWERS)
def test_a_hostile_answer_does_no_harm(room, line, often, name):
    hostile, due = ANSWERS[name]
    # An office without namespaces has no signers, and a new one has no departments.
    pairs = [it for it in PAIRS if name != "empty page" or it[1] not in ("/v1/signers", DEPARTMENTS)]
    for it in done(often, [Case(room / str(number), line, *pair, hostile) for number, pair in enumerate(pairs)]):
        it.is_harmless(due)


def other_certificate(line, ending):
    """Another serial under the same CA: the bytes of a body, or the line."""
    words = ["ssh-keygen", "-q", "-s", line.parent / "ca", "-I", "web/alice", "-n", "alice", "-z", "2", "other.pub"]
    run(words, check=True)
    words = pathlib.Path("other-cert.pub").read_text().split()
    return base64.b64decode(words[1]) if ending == BODY else f"{words[0]} {words[1]} web/alice\n".encode()


@pytest.mark.parametrize("name", OF_ROUTE)
def test_a_page_that_no_office_gives_does_no_harm(room, line, often, name):
    path, hostile = OF_ROUTE[name]
    if hostile is None:
        shutil.copy(line.parent / "alice.pub", "other.pub")
        hostile = response(other_certificate(line, path))
    pairs = [it for it in PAIRS if it[1] == path]
    assert pairs
    for it in done(often, [Case(room / str(number), line, *pair, hostile) for number, pair in enumerate(pairs)]):
        it.is_harmless(3)


@pytest.mark.slow
def test_a_silent_name_server_is_given_up(room, line):
    """The C library waits for one that takes a connection and sends nothing, also after a signal."""
    client = Client(room / "home", "https://front.test")
    silent_name = {"LD_PRELOAD": str(preloaded("strange_library.c", room)), "SILENT_NAME": "front.test"}
    for words in ("status", "doctor --krl none", "revoke 1 --yes"):
        done = run(client.words("--wait", "2", *words.split()), env=client.environment() | silent_name, timeout=100)
        assert b"no complete answer within " in done.stdout + done.stderr and done.returncode in (1, 3), done
    assert 1 == len(client.kept())


def test_a_name_is_looked_up(room, line):
    with Office(line.read_bytes()) as office:
        client = Client(room / "home", f"http://localhost:{office.port}")
        assert 0 == client("status")[0]
        status, _, told = client("--wait", "1", "--office", "https://name.invalid", "status")
    assert 3 == status and "the name name.invalid has no address" in told


# ---- pages that an office may give, as long as they may be

def krl(section):
    return EMPTY_KRL + b"\1" + string(string(b"ca") + string(b"") + section)


def string(data):
    return struct.pack(">I", len(data)) + data


MOST = (1 << 25) - 100
LONG = {
    "serials": lambda: krl(b"\x20" + string(struct.pack(">Q", 7) * (MOST // 8))),
    "ranges": lambda: krl((b"\x21" + string(struct.pack(">QQ", 7, 9))) * (MOST // 21)),
    "key IDs": lambda: krl(b"\x23" + string(string(b"a/\x9b") * (MOST // 7))),
}


@pytest.mark.parametrize("name", LONG)
@pytest.mark.slow
def test_the_longest_list_fits_into_memory(room, line, often, name):
    """32 MiB, as servers take it. The list with key IDs has one that steers."""
    cases = [Case(room / it, line, f"list --{it}", KRL, response(LONG[name]())) for it in ("json", "check alice.pub")]
    for it in cases:
        (it.folder / "alice.pub").write_bytes(line.read_bytes())
    as_json, checked = done(often, cases, 20 * PATIENCE)
    assert (0, 0, "clear\n") == (as_json.status, checked.status, checked.out), as_json.told
    [record] = map(json.loads, as_json.out.splitlines())
    [section] = record["cas"]
    found = section["keyids" if name == "key IDs" else "serials"]
    assert {{"serials": "7", "ranges": "7-9", "key IDs": "a/\x9b"}[name]} == {*found}
    assert MOST // {"serials": 8, "ranges": 21, "key IDs": 7}[name] == len(found)


def test_a_list_is_shown_and_steers_no_terminal(room, line, often):
    hostile = response(krl(b"\x20" + string(struct.pack(">QQ", 2, 7)) + b"\x21" + string(struct.pack(">QQ", 4, 6))
                           + b"\x23" + string(string(b"web/a") + string("web/\x1b[2J\x9b".encode("latin-1")))))
    cases = [Case(room / f"case {it}", line, f"list {it}", KRL, hostile) for it in ("--json", "--out list", "")]
    as_json, out, shown = done(often, cases)
    [section] = json.loads(as_json.out)["cas"]
    assert (["2", "4-6", "7"], ["web/a", "web/\x1b[2J\x9b"]) == (section["serials"], section["keyids"])
    assert re.search("^keyids +web/a, web/\\?\\[2J\\?$", shown.out, re.M), shown.out
    assert re.search("^serials +2, 4-6, 7$", shown.out, re.M) and hostile.endswith((out.folder / "list").read_bytes())


@pytest.mark.parametrize("page, path, words", [
    (lambda: LONG["serials"]() + bytes(200), KRL, "list"),
    (lambda: SIGNERS.encode() * (MOST // 50), "/v1/signers", "signers"),
    (lambda: bytes(1 << 16) + b"\n", CAS, "status"),
], ids=["list", "signers", "CAs"])
def test_a_page_that_is_too_long_is_none(room, line, often, page, path, words):
    [it] = done(often, [Case(room / "case", line, words, path, response(page()))])
    assert "the answer is longer than" in it.told
    it.is_harmless(3)


@pytest.mark.slow
def test_a_long_table_fits_into_memory(room, line, often):
    """No command has all rows in memory: with what belongs to each, 150,000 would take over 100 MB."""
    rows = 150_000
    hostile = response(table(*map(row, range(1, rows + 1))))
    words = ["status", "certs", "certs --json", "figures", "revoke 1-9223372036854775806", "show 1"]
    cases = [Case(room / str(number), line, text, TABLE, hostile) for number, text in enumerate(words)]
    for it, text, due in zip(done(often, cases, 20 * PATIENCE), words, (0, 0, 0, 0, 2, 0)):
        assert due == it.status, (text, it.told)
        assert it.memory < 100 << 20, (text, it.memory >> 20)
        assert len(it.out.splitlines()) == {"certs": rows + 1, "certs --json": rows, "show 1": 10}.get(
            text, len(it.out.splitlines()))
        if text.startswith("revoke"):
            assert f"Revoke {rows} certificates, {rows} of which can still be used?" in it.told


# ---- what the front says by itself

def test_a_redirect_is_not_followed(room, line, often):
    with Web(response(b"issued 1\ndigest " + b"0" * 64 + b"\n")) as other:
        for number, pair in enumerate(PAIRS):
            hostile = headed("302 Found", f"location: {other.url}/v1/cas\r\ncontent-length: 0\r\n")
            [it] = done(often, [Case(room / str(number), line, *pair, hostile)])
            it.is_harmless(1)
            assert it.words[0] == "doctor" or "302 Found: this is a redirect, which isn't followed" in it.told
        assert [] == other.requests


def test_a_redirect_is_not_read_either(room, line, often):
    """400 MB, once they are decompressed, in less than the time that there is."""
    body = 400 * BOMB
    fields = f"location: /\r\ncontent-encoding: gzip\r\ncontent-length: {len(body)}\r\n"
    case = Case(room / "case", line, "status", CAS, headed("302 Found", fields, body))
    case.wait = "20"
    done(often, [case])
    case.is_harmless(1)


class Then(Office):
    """Answers the messages one after the other in these ways, and then as an office does."""

    def __init__(self, line, answers):
        super().__init__(line, POST, self.next)
        self.answers, self.at = iter(answers), []

    def next(self, peer):
        self.at.append(time.monotonic())
        peer.sendall(next(self.answers, response(self.pages["revoke-serial"])))


@pytest.mark.parametrize("answers, pauses", [
    ([page("429 Too Many", "front: too many requests\n")], [1]), ([page("502 Bad Gateway", HTML)], [1]),
    ([headed("429 Too Many", "retry-after: 3\r\n", b"later")], [3]),
    ([headed("503 Away", "retry-after: 2\r\n"), headed("503 Away", f"retry-after: -1{'9' * 400}\r\n")], [2, 1]),
    ([headed("503 Away", "retry-after: Fri, 31 Dec 2100 23:59:59 GMT\r\n")], [1]), ([b"", b"nothing"], [1, 1]),
], ids=["429", "502", "a pause", "two", "a date", "cut"])
def test_a_front_that_is_asked_again_answers_at_last(room, line, answers, pauses):
    with Then(line.read_bytes(), answers) as office:
        client = Client(room / "home", office.url, caller="ana")
        status, out, told = client("--wait", "60", "revoke", "1", "--yes")
    assert (0, "revoked; the list has version 1\n") == (status, out), told
    # The same message under the same request ID.
    assert len(answers) + 1 == len(office.at) and [] == client.kept()
    between = [after - before for before, after in zip(office.at, office.at[1:])]
    assert all(pause <= seconds + 0.01 for pause, seconds in zip(pauses, between, strict=True)), between


def test_the_front_may_not_have_a_client_wait_for_longer_than_it_was_told(room, line):
    with Then(line.read_bytes(), 9 * [headed("429 Too Many", "retry-after: 100000\r\n", b"later")]) as office:
        begun = time.monotonic()
        status, _, told = Client(room / "home", office.url, caller="ana")("--wait", "3", "revoke", "1", "--yes")
    assert 3 == status and "later" in told and time.monotonic() - begun < PATIENCE
    assert 2 == len(office.at)


# ---- terminals and times

def test_what_a_front_says_meanwhile_steers_no_terminal(room, line):
    """A client that waits shows why, on a line that it draws again and again."""
    with Then(line.read_bytes(), 3 * [page("503 Away", f"{STEERING}\n")]) as office:
        client = Client(room / "home", office.url, caller="ana")
        terminal, end = pty.openpty()
        process = subprocess.Popen(client.words("--wait", "60", "revoke", "1", "--yes"), env=client.environment() | {
            "TERM": "xterm-256color", "COLUMNS": "200"}, stdin=subprocess.DEVNULL, stdout=subprocess.PIPE, stderr=end)
        os.close(end)
        shown = b""
        with contextlib.suppress(OSError):
            while piece := os.read(terminal, 65536):
                shown += piece
        os.close(terminal)
        assert b"revoked; the list has version 1\n" == process.communicate(timeout=60)[0], shown
    text = shown.decode()
    assert 0 == process.returncode and "[/x][link=https://evil.example/]a[/link]" in text
    # rich draws by these: of the cursor, of lines and of colours.
    rest = re.sub(r"\x1b\[(\?25[lh]|1A|2K|[0-9;]*m)|\r", "", text)
    assert not STEERS.search(rest), rest


def dripping_handshake(peer):
    """The beginning of a record of TLS, and then a byte each half second."""
    dripping(b"\x16\x03\x03\x40\x00")(peer)


@pytest.mark.alone
@pytest.mark.parametrize("words", ["status", "revoke 1 --yes", "outbox --send", "doctor"])
@pytest.mark.parametrize("drip", [dripping(headed("200 OK", "content-length: 1000\r\n")), dripping(b""), silent,
                                  endless(headed("200 OK"), b"x")], ids=["body", "head", "silence", "endless"])
def test_a_wait_is_kept(room, line, often, words, drip):
    """doctor asks up to four times, and gets at least a second for each."""
    case = Case(room / "case", line, words, {"status": CAS, "doctor": CAS}.get(words, POST), drip)
    [it] = done(often, [case])
    assert it.seconds < 2 + (8 if words == "doctor" else 3), it.seconds


@pytest.mark.parametrize("words", ["status", "doctor --json", "revoke 1 --yes"])
def test_a_handshake_that_drips_ends(room, line, often, words):
    case = Case(room / "case", line, words)
    (case.client.home / ".config/vethlumi.toml").write_text(f'office = "https://127.0.0.1:{case.office.port}"\n')
    case.office.finish_request = lambda peer, address: dripping_handshake(peer)
    [it] = done(often, [case])
    assert (1 if words == "doctor --json" else 3) == it.status
