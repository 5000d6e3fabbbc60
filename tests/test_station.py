"""The station and the guard beside the CA's key: a false office, an old backup, keys in a token and in an agent, a
rollover, and a guard that is killed. What is signed is tried with ssh-keygen and sshd."""
import base64
import concurrent.futures
import contextlib
import getpass
import math
import multiprocessing
import os
import pathlib
import random
import re
import select
import shutil
import signal
import socket
import stat
import subprocess
import sys
import threading
import time
import types

import pytest

from asking import (LAST_SERIAL, LATEST, blob_of, body, department, digest_of, issue, key_blob, lasting, revoke_keyid,
                    revoke_range, rollover, string)
from fetching import Web, folder_of_nobody, response, silent
from publishing import krl, section
from recording import posting, whole_request
from running import PROGRAMS, free_port, is_listening, preloaded, run, until, write_secret
from stations import (EVERY_EXTENSION, EVERY_OPTION, Guard, Lists, Station, begin_agent, children, locked, new_guard,
                      new_station, part, stopped)
from subject_keys import CERTIFICATES, KEYS

WEB = department("web", principals="alice", extensions="permit-pty")


def new_key(name):
    """A key of OpenSSH, and its 32 bytes."""
    run(["ssh-keygen", "-q", "-t", "ed25519", "-N", "", "-C", name, "-f", name], check=True)
    return blob_of(pathlib.Path(f"{name}.pub").read_text())[-32:]


@pytest.fixture
def asked(served, sshstation):
    """An office that serves, with the department web, and its signing station. Both have the same text of it."""
    assert 200 == served.post("root", "web", WEB).status
    served.station = new_station(sshstation, served.office, served.url, policy=WEB, ahead=3600)
    served.guard = served.station.guard
    served.blob = blob_of(served.office.ca.read_text())
    return served


def issued(served, name, *, key=None, **fields):
    """Asks for a certificate for an hour, and returns its serial."""
    line = pathlib.Path(f"{name}.pub").read_text().strip() if key is None else key
    message = issue(f"web/{name}", key=line, **lasting(3600) | fields)
    return int(served.post("ana", f"issue-{name}-{random.randrange(1 << 32)}", message).text.split()[1])


def certificate_of(served, serial, name):
    pathlib.Path(f"{name}-cert.pub").write_bytes(served.get(f"/v1/certs/{serial}").body)


# ---- logins

class Sshd:
    """An sshd that trusts CAs, by a file of their lines, and lets in whoever has a certificate for the principal alice
    or root. It may have more lines of settings."""

    def __init__(self, programs, room, cas, *more):
        self.port = free_port()
        self.log = room / "sshd.log"
        run(["ssh-keygen", "-q", "-t", "ed25519", "-N", "", "-f", room / "host"], check=True)
        (room / "principals").write_text("alice\nroot\n")
        (room / "trusted").write_text("".join(cas))
        (room / "sshd_config").write_text(
            f"ListenAddress 127.0.0.1\nPort {self.port}\nHostKey {room}/host\nTrustedUserCAKeys {room}/trusted\n"
            f"AuthorizedPrincipalsFile {room}/principals\nAuthorizedKeysFile none\nPasswordAuthentication no\n"
            f"KbdInteractiveAuthentication no\nPidFile none\nStrictModes no\nUsePAM no\nLogLevel VERBOSE\n"
            + "".join(f"{it}\n" for it in more))
        if not os.getuid():
            pathlib.Path("/run/sshd").mkdir(exist_ok=True)
        programs.begin(["/usr/sbin/sshd", "-D", "-f", room / "sshd_config", "-E", self.log])
        until(lambda: is_listening(self.port))

    def login(self, key, certificate, *more, **environment):
        """What comes of a login with this key and this certificate, and with more words of ssh."""
        words = ["ssh", "-F", "none", *more, "-i", key, "-o", f"CertificateFile={certificate}", "-o", "BatchMode=yes",
                 "-o", "IdentitiesOnly=yes", "-o", "StrictHostKeyChecking=no", "-o", "UserKnownHostsFile=/dev/null",
                 "-p", self.port, f"{getpass.getuser()}@127.0.0.1", "echo", "granted"]
        return run(words, env=os.environ | {"SSH_AUTH_SOCK": ""} | environment)

    def grants(self, name):
        """Whether it lets in whoever has this key and the certificate beside it."""
        return self.login(name, f"{name}-cert.pub").stdout == b"granted\n"


@pytest.fixture
def sshd(programs, room):
    return lambda *cas: Sshd(programs, room, [it.read_text() for it in cas])


def write_certificate(name, text, signature):
    """A certificate of a body and of the 64 bytes of a signature."""
    whole = text + string(string(b"ssh-ed25519") + string(signature))
    line = f"ssh-ed25519-cert-v01@openssh.com {base64.b64encode(whole).decode()} {name}\n"
    pathlib.Path(f"{name}-cert.pub").write_text(line)


def signature_of(key, text):
    """A signature by a private key in a file."""
    pathlib.Path("text").write_bytes(text)
    return run(["openssl", "pkeyutl", "-sign", "-rawin", "-inkey", key, "-in", "text"], check=True).stdout


# ---- false offices

class FalseOffice(Web):
    """A server that gives these bodies by their serials, and says of them what is pending: without rows, the serial of
    each and its digest. It keeps what is delivered. For the body of a serial in `broken` it gives these bytes."""

    def __init__(self, bodies, rows=None, broken=()):
        super().__init__()
        self.bodies, self.broken, self.delivered = bodies, dict(broken), []
        rows = [(serial, digest_of(it)) for serial, it in bodies.items()] if rows is None else rows
        self.rows = "".join(f"{serial} {digest}\n" for serial, digest in rows)

    def finish_request(self, peer, address):
        came = whole_request(peer)
        self.requests.append(came)
        peer.settimeout(60)
        target = came.split(b" ")[1].decode()
        found = re.fullmatch(r"/v1/certs/(\d+)/body", target)
        if came.startswith(b"POST "):
            self.delivered.append(came.partition(b"\r\n\r\n")[2].decode())
            peer.sendall(self.answer_to(self.delivered[-1]))
        elif target == "/v1/pending":
            peer.sendall(response(self.rows.encode()))
        elif found and int(found[1]) in self.broken:
            peer.sendall(self.broken[int(found[1])])
        elif found and int(found[1]) in self.bodies:
            peer.sendall(response(self.bodies[int(found[1])]))
        else:
            peer.sendall(response(b"refused 17 UnknownSerial\n", "404 Not Found"))

    def answer_to(self, delivery):
        return response(delivery.splitlines()[0].replace("deliver", "signed").encode() + b"\n")

    def begins_rounds(self, more, seconds=90):
        """Waits until the station has begun so many more rounds. Those before the last one are over."""
        def count():
            return sum(it.startswith(b"GET /v1/pending ") for it in self.requests)
        until(lambda before=count(): count() >= before + more, seconds)

    def shows(self, serials):
        """These are pending from now on."""
        self.rows = "".join(f"{serial} {digest_of(self.bodies[serial])}\n" for serial in serials)


class RefusingOffice(FalseOffice):
    """One that takes no signature, and has them all the same."""

    def answer_to(self, delivery):
        return response(b"refused 19 Revoked\n", "409 Conflict")


class WaitingOffice(FalseOffice):
    """One that answers requests with this beginning only when it may."""

    def __init__(self, beginning, bodies):
        super().__init__(bodies)
        self.beginning, self.was_asked, self.may_answer = beginning, threading.Event(), threading.Event()

    def finish_request(self, peer, address):
        if self.beginning == peer.recv(len(self.beginning), socket.MSG_PEEK):
            self.was_asked.set()
            self.may_answer.wait(60)
        super().finish_request(peer, address)


class ListingOffice(FalseOffice):
    """One that has a list of what is revoked, and takes what is published. At requests with the beginning `hangs_at` it
    hangs."""

    def __init__(self, bodies, data, hangs_at=None):
        super().__init__(bodies)
        self.list, self.hangs_at, self.hangs, self.published = data, hangs_at, False, []

    def finish_request(self, peer, address):
        begun = peer.recv(16, socket.MSG_PEEK)
        if self.hangs_at and begun.startswith(self.hangs_at):
            self.hangs = True
            time.sleep(600)
        if begun.startswith(b"PUT "):
            self.published.append(whole_request(peer))
            peer.sendall(response(b"", "204 No Content"))
        elif begun.startswith(b"GET /v1/krl "):
            whole_request(peer)
            peer.sendall(response(self.list))
        else:
            super().finish_request(peer, address)


class KeepingOffice(FalseOffice):
    """One that keeps each connection for so many requests. It reads one more, and closes without an answer."""

    def __init__(self, bodies, most):
        super().__init__(bodies)
        self.most, self.connections = most, 0

    def finish_request(self, peer, address):
        self.connections += 1
        for _ in range(self.most):
            if not peer.recv(1, socket.MSG_PEEK):
                return
            super().finish_request(Through(peer, lambda peer, text: peer.sendall(
                text.replace(b"connection: close\r\n", b"", 1))), address)
            peer.settimeout(60)
        whole_request(peer)


class Through:
    """A connection over which a function sends what is answered."""

    def __init__(self, peer, send):
        self.recv, self.settimeout, self.sendall = peer.recv, peer.settimeout, lambda text: send(peer, text)


def drip(peer, text):
    """Sends a text for 18 seconds, so that no single wait is long."""
    size = -(-len(text) // 18)
    with contextlib.suppress(OSError):
        for place in range(0, len(text), size):
            time.sleep(1)
            peer.sendall(text[place:place + size])


def next_line(stream, seconds=60):
    """The next line of a pipe, or nothing if none comes within this time."""
    return stream.readline() if select.select([stream], [], [], seconds)[0] else b""


@pytest.fixture
def alone(sshstation, make_office):
    """A guard and the words of its key, for the CA of an office that nobody asks."""
    office = make_office()
    guard = new_guard(sshstation, office, policy=WEB)
    guard.key, guard.blob, guard.key_file = ["--key", office.ca_key], blob_of(office.ca.read_text()), office.ca_key
    return guard


def shown(guard, bodies, rows=None, broken=(), **how):
    """What a station signs of the bodies of a false office, and what it says."""
    with FalseOffice(bodies, rows, broken) as false:
        station = Station(guard, false.url, guard.key, **{"ahead": 3600} | how)
        station.speaks_at_the_end_of_a_round()
        status, out, errors = station.once()
        return status, out, errors, false.delivered


def auth_blob(key, ca):
    """What a client of SSH signs to log in as root with the CA's own key (RFC 4252 section 7)."""
    return (string(bytes(32)) + bytes([50]) + string(b"root") + string(b"ssh-connection") + string(b"publickey")
            + b"\1" + string(b"ssh-ed25519") + string(ca))


ROOT = {"principals": ["root"], "before": LATEST}
NOBODY = "0" * 64
# What a false office gives, with the digest of what is pending if it isn't that of the bytes, and why it isn't signed.
ATTACKS = [
    ("root until 9999, with another digest", lambda ca, at: body(at, ca=ca, **ROOT), NOBODY,
     "its body has another digest than the one that is pending"),
    ("root until 9999", lambda ca, at: body(at, ca=ca, **ROOT), None, "refused as NotPermitted"),
    ("alice until 9999", lambda ca, at: body(at, ca=ca, before=LATEST), None, "refused as NotPermitted"),
    ("alice and root", lambda ca, at: body(at, ca=ca, principals=["alice", "root"]), None, "refused as NotPermitted"),
    ("alice with a command", lambda ca, at: body(at, ca=ca, options=[("force-command", "/bin/sh")]), None,
     "refused as NotPermitted"),
    ("alice with a forwarded port", lambda ca, at: body(at, ca=ca, extensions=["permit-port-forwarding"]), None,
     "refused as NotPermitted"),
    ("alice with a key of small order", lambda ca, at: body(at, ca=ca, key=b"\1" + bytes(31)), None,
     "refused as NotPermitted"),
    ("a host", lambda ca, at: body(at, ca=ca, kind=2), None, "refused as OtherKind"),
    ("another department", lambda ca, at: body(at, ca=ca, key_id="other/alice"), None, "refused as NoDepartment"),
    ("alice in two hours",
     lambda ca, at: body(at, ca=ca, after=int(time.time()) + 7200, before=int(time.time()) + 7300), None,
     "refused as TooFarAhead"),
    ("alice yesterday", lambda ca, at: body(at, ca=ca, after=1000, before=2000), None, "refused as AlreadyEnded"),
    ("a login with the CA's own key", lambda ca, at: auth_blob(0, ca), None, "refused as NotABody WrongType"),
    ("a text", lambda ca, at: b"I owe you 1000 euros\n" + ca[-32:], None, "refused as NotABody Truncated"),
    ("a body with more behind it", lambda ca, at: body(at, ca=ca) + b"\0", None, "refused as NotABody TrailingBytes"),
    ("a long body", lambda ca, at: body(at, ca=ca) + bytes(20000), None, "refused as NotABody TooLong"),
    ("nothing", lambda ca, at: b"", None, "refused as NotABody Truncated"),
    ("another serial", lambda ca, at: body(at + 1, ca=ca), None, "its body has another serial"),
]


@pytest.mark.parametrize("made, digest, why", [it[1:] for it in ATTACKS], ids=[it[0] for it in ATTACKS])
def test_what_a_false_office_composes_is_not_signed(alone, made, digest, why):
    text = made(alone.blob, 1)
    rows = [(1, digest or digest_of(text))]
    assert (1, [], [f"station: not signed: 1, {why}: 1"], []) == shown(alone, {1: text}, rows)


def test_what_is_permitted_is_signed_beside_all_that_is_not(alone):
    """One row of a false office starves no other."""
    bodies = {serial: made(alone.blob, serial) for serial, (_, made, _, _) in enumerate(ATTACKS, 1)}
    bodies[100] = body(100, ca=alone.blob)
    status, out, errors, delivered = shown(alone, bodies)
    assert (1, ["signed 100"], 1) == (status, out, len(delivered))
    assert ["station: not signed: 7, refused as NotPermitted: 1-7"] == [it for it in errors if "NotPermitted" in it]


def test_a_body_under_another_serial_uses_none_up(alone):
    """The guard isn't asked about it: it would keep it under its own serial, and nothing that is shown names that."""
    said = ["station: not signed: 1, its body has another serial: 1"]
    for serial in (2, LAST_SERIAL):
        text = body(serial, ca=alone.blob)
        assert (1, [], said, []) == shown(alone, {1: text}, [(1, digest_of(text))])
    assert [] == alone.bodies()


def test_a_body_of_another_digest_uses_no_serial_up(alone):
    """The guard isn't asked about it, although it would approve it."""
    said = ["station: not signed: 1, its body has another digest than the one that is pending: 1"]
    assert (1, [], said, []) == shown(alone, {1: body(ca=alone.blob)}, [(1, NOBODY)])
    assert [] == alone.bodies()


def test_a_validity_may_begin_no_later_than_the_station_is_told(alone):
    text = body(ca=alone.blob, after=int(time.time()) + 600, before=int(time.time()) + 1200)
    said = ["station: not signed: 1, refused as TooFarAhead: 1"]
    assert (1, [], said, []) == shown(alone, {1: text}, ahead=0)
    assert (0, ["signed 1"], []) == shown(alone, {1: text}, ahead=3600)[:3]


@pytest.mark.parametrize("kind", KEYS)
def test_a_body_says_its_serial_if_it_is_long_enough(kind):
    serial_of = part("guard").serial_of
    text = body(7, ca=key_blob(0x11), key=KEYS[kind], type_name=CERTIFICATES[kind].encode())
    whole = text.index((7).to_bytes(8, "big")) + 8
    assert {None} == {serial_of(text[:size]) for size in range(whole)}
    assert {7} == {serial_of(text[:size]) for size in range(whole, len(text) + 1)}


def test_a_signature_of_sshd_is_wanted(alone, sshd, room):
    """The certificate for root that the guard refuses would open the door: sshd lets in whoever has it signed, and
    nobody who has it with any other signature."""
    key = new_key("eve")
    text = body(ca=alone.blob, key=key, **ROOT)
    assert [] == shown(alone, {1: text})[3]
    server = sshd(alone.ca)
    write_certificate("eve", text, signature_of(alone.key_file, text))
    assert server.grants("eve"), "signed, it opens the door"
    run(["openssl", "genpkey", "-algorithm", "ed25519", "-out", "own.pem"], check=True)
    for other in (bytes(64), signature_of("own.pem", text), signature_of(alone.key_file, text)[::-1]):
        write_certificate("eve", text, other)
        assert not server.grants("eve")
    own = blob_of(run([PROGRAMS / "station/ca-line", "own.pem"]).stdout.decode())
    text = body(ca=own, key=key, **ROOT)
    write_certificate("eve", text, signature_of("own.pem", text))
    assert not server.grants("eve"), "another CA's is none of this server's"


def test_a_permitted_body_that_the_office_never_made_is_found_and_revoked(asked, sshd):
    """Nothing keeps a false office from a body that the policy permits. The guard's file has it, and the office
    revokes its key id."""
    text = body(1000, ca=asked.blob, key=new_key("mallory"), key_id="web/mallory")
    asked.guard.key = ["--key", asked.office.ca_key]
    status, out, errors, delivered = shown(asked.guard, {1000: text})
    assert (0, ["signed 1000"], []) == (status, out, errors)
    write_certificate("mallory", text, base64.b64decode(delivered[0].split()[-1])[-64:])
    assert sshd(asked.office.ca).grants("mallory")
    found = [it for it in asked.guard.bodies() if digest_of(asked.get(f"/v1/certs/{it[0]}/body").body) != it[1]]
    assert [("1000", "web/mallory")] == [(it[0], it[3]) for it in found]
    assert 200 == asked.post("ana", "gone", revoke_keyid("web/mallory")).status
    pathlib.Path("krl").write_bytes(asked.get("/v1/krl").body)
    assert 1 == run(["ssh-keygen", "-Q", "-f", "krl", "mallory-cert.pub"]).returncode


def test_a_serial_has_one_body_whatever_the_office_says(alone):
    """Each of several bodies of one serial comes from an office that has forgotten the others."""
    texts = [body(ca=alone.blob, nonce=bytes([place]) * 32) for place in range(5)]
    delivered = [shown(alone, {1: text})[3] for text in texts + texts]
    assert 2 == sum(map(len, delivered)) and delivered[0] == delivered[5] != []
    assert ["1"] == [it[0] for it in alone.bodies()]
    assert texts[0] == alone.body(1)


# ---- what is said, and how often

PENDING = [
    ("a serial with a path", b"1/../2 " + 64 * b"a" + b"\n"),
    ("a serial that is an option", b"--output " + 64 * b"a" + b"\n"),
    ("no digest", b"1\n"),
    ("half a line", b"1 " + 64 * b"a"),
    ("another page", b"<html>sign in to the network</html>\n"),
]


@pytest.mark.parametrize("rows", [it[1] for it in PENDING], ids=[it[0] for it in PENDING])
def test_what_is_no_list_of_pending_certificates_is_not_followed(alone, rows):
    with Web(response(rows)) as web:
        said = f"station: {web.url} doesn't answer: the answer isn't a list of pending certificates"
        assert (1, [], [said]) == Station(alone, web.url, alone.key).once()
        assert 1 == len(web.requests)


def test_short_lines_take_no_more_memory_than_long_ones(alone):
    """There are 22 million of them, which as texts of Python would take 1.3 GiB."""
    with Web(response(b"ab\n" * ((1 << 26) // 3))) as web:
        station = Station(alone, web.url, alone.key)
        station.words = ["prlimit", f"--as={1 << 30}", "--", *station.words]
        said = f"station: {web.url} doesn't answer: the answer isn't a list of pending certificates"
        assert (1, [], [said]) == station.once()


@pytest.mark.slow
@pytest.mark.timeout(1500)
def test_the_memory_of_the_unit_suffices_for_as_many_rows_as_are_read(alone, programs):
    """Each has a reason of its own, of which a false office makes up as many as it likes: that takes the most. Here
    they are made up without asking it, which would take twice as long. Beside the station there is room for a
    guard with a million certificates, of which docs/GROWING.md has the size, and for ssh-keygen."""
    with FalseOffice({}) as web:
        web.rows = "".join(f"{place % 9 + 1} {place:064x}\n" for place in range(1_001_625))
        station = Station(alone, web.url, alone.key)
        station.change("self.fetching.do(future, self.fetch, row, body)\n",
                       'future.set_exception(OSError(3 * " ".join(row[it:it + 8] for it in range(2, 66, 8))))\n')
        process = station.begin(programs, stderr=subprocess.DEVNULL)
        web.begins_rounds(3, seconds=1400)
        [peak] = re.findall(r"^VmHWM:\s+(\d+) kB$", pathlib.Path(f"/proc/{process.pid}/status").read_text(), re.M)
    unit = (PROGRAMS / "units/office-station@.service").read_text()
    [limit] = re.findall(r"^MemoryMax=(\d+)G$", unit, re.M)
    assert (int(peak) << 10) + 372_000_000 + part("limits").MOST_MEMORY < int(limit) << 30


def test_a_report_that_takes_long_is_made_less_often(monkeypatch):
    """That of a million rows takes seconds. It gets a tenth of a round's time, however slow the machine is."""
    rounds, clock = part("rounds"), [0.0]
    monkeypatch.setattr(rounds, "time", types.SimpleNamespace(monotonic=lambda: clock[0]))
    for taken, pause in ((0, 5), (0.5, 5), (0.75, 7.5), (2, 20)):
        def left():
            clock[0] += taken
            return {}
        station = types.SimpleNamespace(left_by_reason=left, is_whole=True, left={},
                                        said=types.SimpleNamespace(say=lambda *_: True))
        rounds.Station.report(station)
        assert pause == station.silent_until - clock[0]


# An answer with a chunk of fewer than no bytes, at which Python's http.client raises a ValueError.
NEGATIVE_CHUNK = b"HTTP/1.1 200 OK\r\ntransfer-encoding: chunked\r\n\r\n-5\r\nabc"


@pytest.mark.parametrize("answer, why", [
    (response(b"", "302 Found\r\nlocation: http://127.0.0.1:1/"), "302"),
    (response(b"", "302 Found\r\nlocation: http://["), "302"),
    (response(b"1 " + 64 * b"a" + b"\n", length=500), "incomplete answer"),
    (response(b"\x1b[2Jrefused\n", "502 Bad Gateway"), "502 ?[2Jrefused"),
    (b"no answer of HTTP\r\n\r\n", None),
    (b"HTTP/1.1 200 OK\r\ntransfer-encoding: chunked\r\n\r\nfff\r\n1 ", None),
    (b"HTTP/1.1 200 OK\r\ntransfer-encoding: chunked\r\n\r\nx\r\n", None),
    (NEGATIVE_CHUNK, None),
    (b"", None),
], ids=["a redirect", "a redirect to no address", "half an answer", "letters that move the cursor", "another protocol",
        "half a chunk", "no chunk", "a negative chunk", "nothing"])
def test_an_answer_that_is_none_is_said(alone, answer, why):
    with Web(answer) as web:
        status, out, errors = Station(alone, web.url, alone.key).once()
        assert (1, [], 1) == (status, out, len(errors))
        start = f"station: {web.url} doesn't answer: "
        assert errors[0] == start + why if why else errors[0].startswith(start)
        assert 1 == len(web.requests)


def test_an_endless_answer_is_cut_off(alone):
    class Endless(FalseOffice):
        def finish_request(self, peer, address):
            if b"/body " not in (came := whole_request(peer)):
                return peer.sendall(response(self.rows.encode()) if b"pending" in came else b"")
            with contextlib.suppress(OSError):
                peer.sendall(response(b"", length=""))
                while True:
                    peer.sendall(bytes(1 << 16))

    with Endless({1: b""}) as web:
        said = ["station: not signed: 1, an answer of more than 65536 bytes: 1"]
        assert (1, [], said) == Station(alone, web.url, alone.key).once()


def test_an_endless_redirect_is_cut_off(alone):
    """The library would read all of it, even where the redirect isn't followed."""
    with Web(response(b"", "302 Found\r\nlocation: http://127.0.0.1:1/", length="")) as web:
        web.endless = b"a" * (1 << 16)
        said = f"station: {web.url} doesn't answer: {('302 ' + 200 * 'a')[:200]}"
        assert (1, [], [said]) == Station(alone, web.url, alone.key).once()


def test_no_cookie_is_kept(alone):
    class Baking(FalseOffice):
        def finish_request(self, peer, address):
            super().finish_request(Through(peer, bake), address)

    def bake(peer, text):
        peer.sendall(text.replace(b"\r\n", b"\r\nset-cookie: a=b\r\n", 1))

    with Baking({1: body(ca=alone.blob)}) as web:
        assert (0, ["signed 1"], []) == Station(alone, web.url, alone.key, ahead=3600).once()
        assert [3, 0] == [len(web.requests), sum(b"\r\ncookie:" in it.lower() for it in web.requests)]


def test_an_office_that_has_many_reasons_is_not_quoted_without_end(alone):
    class Inventive(FalseOffice):
        def finish_request(self, peer, address):
            if found := re.match(rb"GET /v1/certs/(\d+)/", came := whole_request(peer)):
                return peer.sendall(response(b"reason %s" % found[1], "500 Broken"))
            peer.sendall(response(self.rows.encode()) if b"/pending " in came else b"")

    with Inventive({serial: b"" for serial in range(1, 31)}) as web:
        station = Station(alone, web.url, alone.key)
        station.speaks_at_the_end_of_a_round()
        status, out, errors = station.once()
        assert (1, [], 21) == (status, out, len(errors))
        assert ["station: not signed: 1, 500 reason 20: 20", "station: not signed: 10, for other reasons: 21-30"
                ] == errors[19:]


def test_what_an_office_makes_up_takes_no_place_of_the_guards_reasons(alone):
    """Twenty texts and twenty CAs are shown, and what the guard refuses behind them is, too."""
    texts = {serial: response(b"reason %d" % serial, "500 Broken") for serial in range(1, 31)}
    cas = {serial: body(serial, ca=key_blob(serial)) for serial in range(31, 61)}
    bodies = {serial: b"" for serial in texts} | cas | {61: body(61, ca=alone.blob, **ROOT), 62: b""}
    status, out, errors, _ = shown(alone, bodies, broken=texts)
    assert (1, [], 20 + 1 + 20 + 1 + 2) == (status, out, len(errors))
    assert "station: not signed: 10, for other reasons: 21-30" == errors[20]
    assert "station: not signed: 10, refused as OtherCa, of other CAs: 51-60" == errors[41]
    assert ["station: not signed: 1, refused as NotPermitted: 61",
            "station: not signed: 1, refused as NotABody Truncated: 62"] == errors[42:]


@pytest.fixture
def saying(monkeypatch, capsys):
    """The station's code by a clock that the test moves, and what was said since the last call."""
    station, clock = part("journal"), [0.0]
    monkeypatch.setattr(station, "time", types.SimpleNamespace(monotonic=lambda: clock[0]))

    def move(seconds):
        clock[0] += seconds
    return station, move, lambda: capsys.readouterr().err.splitlines()


def test_a_front_cannot_fill_the_journal(saying):
    """Twenty reasons and twenty CAs that it makes up, and the guard's own, each with a list of serials that changes in
    each round of a day. All of it is said once, and then as much as there is room for."""
    station, move, said = saying
    room = station.Room()
    report = station.Said(room)
    kinds = {f"refused as {it}" for it in ("NotPermitted", "OtherKind", "NoDepartment", "SerialTaken")}
    count = 0
    for second in range(86400 // 60):
        reasons = [*kinds, *(f"500 reason {place} {second}" for place in range(40))]
        report.say({why: f"not signed: {second}, {why}: {second}{'9' * 1000}" for why in reasons}, kinds)
        count += sum(len(it.removeprefix("station: ")) for it in said())
        move(60)
    assert count <= station.SAID_AT_ONCE + 86400 * station.SAID_A_SECOND + 4 * 1100
    assert count > 5_000_000, "what there is room for is said"


def test_the_first_refusal_of_a_kind_is_always_said(saying):
    station, _, said = saying
    room = station.Room()
    report = station.Said(room)
    report.say({f"reason {place}": "x" * 1000 for place in range(100)})
    assert station.SAID_AT_ONCE - 1000 < sum(map(len, said())) - 65 * len("station: ") <= station.SAID_AT_ONCE
    report.say({"refused as NotPermitted": "not signed: 1, refused as NotPermitted: 7"}, {"refused as NotPermitted"})
    assert ["station: not signed: 1, refused as NotPermitted: 7"] == said()
    report.say({"refused as NotPermitted": "not signed: 2, refused as NotPermitted: 7-8" + "9" * 1000},
               {"refused as NotPermitted"})
    assert [] == said(), "the second one waits for room"


def test_what_had_no_room_is_said_later(saying):
    station, move, said = saying
    report = station.Said(station.Room())
    report.say({"reason": "x" * station.SAID_AT_ONCE})
    assert 1 == len(said())
    assert False is report.say({"other": "not signed: 1"})
    assert [] == said()
    move(1)
    report.say({"other": "not signed: 1"})
    assert ["station: not signed: 1"] == said()
    report.say({"other": "not signed: 1"})
    assert [] == said(), "what hasn't changed isn't said again"
    assert report.say({})


def test_a_serial_is_said_to_be_signed_once_and_then_as_there_is_room(saying):
    """A false front may have the same body signed as often as it likes."""
    station, move, _ = saying
    signed = station.Serials(station.Room())
    assert all(signed.may_say(serial, f"signed {serial}") for serial in range(10_000))
    again = sum(signed.may_say(7, "signed 7") for _ in range(100_000))
    assert station.SAID_AT_ONCE // len("signed 7") == again
    assert signed.may_say(10_001, "signed 10001"), "the first of another serial always is"
    move(1)
    assert 8 == sum(signed.may_say(7, "signed 7") for _ in range(100))


@pytest.mark.slow
def test_a_long_round_says_what_was_refused(alone, programs):
    """Each body behind one that is refused drips, for 20 seconds."""
    class Slow(FalseOffice):
        def finish_request(self, peer, address):
            if not re.match(rb"GET /v1/certs/[2-9]/", came := whole_request(peer)):
                return peer.sendall(response((self.rows if b"/pending " in came else "").encode())
                                    if b"/1/" not in came else response(self.bodies[1]))
            with contextlib.suppress(OSError):
                for it in response(bytes(100)):
                    peer.sendall(bytes([it]))
                    time.sleep(1)

    with Slow({1: body(ca=alone.blob, **ROOT)} | {serial: b"" for serial in range(2, 10)}) as web:
        begun = time.monotonic()
        process = Station(alone, web.url, alone.key).begin(programs)
        assert b"station: not signed: 1, refused as NotPermitted: 1\n" == process.stderr.readline()
        assert time.monotonic() - begun < 60


@pytest.mark.slow
def test_a_long_signature_says_what_was_refused(alone, programs):
    """The body after one that is refused takes nearly as long as a request may take, and so does its delivery."""
    class Slow(FalseOffice):
        def finish_request(self, peer, address):
            begun = peer.recv(len(b"GET /v1/certs/2/body"), socket.MSG_PEEK)
            is_slow = begun == b"GET /v1/certs/2/body" or begun.startswith(b"POST")
            super().finish_request(Through(peer, drip) if is_slow else peer, address)

    with Slow({1: body(ca=alone.blob, **ROOT), 2: body(2, ca=alone.blob)}) as web:
        process = Station(alone, web.url, alone.key).begin(programs)
        web.begins_rounds(1)
        assert b"station: not signed: 1, refused as NotPermitted: 1\n" == next_line(process.stderr, 30)


@pytest.mark.slow
def test_what_was_refused_is_said_while_a_list_is_published(alone, programs, sshstation):
    """A front may make that last for minutes. The first list comes at once, and the second body while the next list is
    not due yet."""
    class Slow(FalseOffice):
        was_asked = False

        def finish_request(self, peer, address):
            begun = peer.recv(len(b"GET /v1/certs/2/body"), socket.MSG_PEEK)
            if begun == b"GET /v1/certs/2/body":
                time.sleep(2)
            if begun.startswith(b"GET /v1/krl ") and self.was_asked:
                time.sleep(60)
            self.was_asked = self.was_asked or begun.startswith(b"GET /v1/krl ")
            super().finish_request(peer, address)

    with Slow({serial: body(serial, ca=alone.blob, **ROOT) for serial in (1, 2, 3)}) as web:
        station = Station(alone, web.url, alone.key, lists=Lists(sshstation, "lists.db", alone.ca))
        process = station.begin(programs, "--publish-every", "1")
        said = b"station: the list isn't published: 404 refused 17 UnknownSerial\n"
        assert said == next_line(process.stderr)
        assert re.match(rb"station: not signed: [1-3], refused as NotPermitted: 1", next_line(process.stderr, 30))


class Dripping(Web):
    """A server that gives so many bytes of its answer at once, and then one a second, so that no single wait is
    long."""

    def __init__(self, at_once=0):
        super().__init__(response(64 * (b"1 " + 64 * b"a" + b"\n")))
        self.at_once = at_once

    def finish_request(self, peer, address):
        self.requests.append(whole_request(peer))
        with contextlib.suppress(OSError):
            peer.sendall(self.answer[:self.at_once])
            for it in self.answer[self.at_once:]:
                peer.sendall(bytes([it]))
                time.sleep(1)


@pytest.mark.slow
@pytest.mark.parametrize("at_once", [0, 200], ids=["from its head on", "from its body on"])
def test_an_answer_that_drips_is_given_up(alone, at_once):
    with Dripping(at_once) as web:
        begun = time.monotonic()
        status, out, errors = Station(alone, web.url, alone.key).once()
        assert (1, [], 1) == (status, out, len(errors)) and "not within 20 seconds" in errors[0]
        assert 19 < time.monotonic() - begun < 60


@pytest.mark.slow
def test_the_time_of_a_request_is_that_of_all_addresses(alone):
    """Each of the first five would take five seconds, so the time is over before the last one begins to drip. The
    library goes on to the next address after each OSError."""
    with Dripping() as web, contextlib.ExitStack() as kept:
        off = [f"127.0.0.{it}" for it in range(2, 7)]
        for it in off:
            kept.enter_context(silent((it, web.port)))
        begun = time.monotonic()
        station = Station(alone, f"http://localhost:{web.port}", alone.key)
        station.resolve(*off, "127.0.0.1")
        said = f"station: {station.url} doesn't answer: not within 20 seconds"
        assert (1, [], [said]) == station.once()
        assert 19 < time.monotonic() - begun < 60 and [] == web.requests


@pytest.mark.slow
def test_a_machine_that_is_off_leaves_time_for_the_next_address(alone):
    with FalseOffice({1: body(ca=alone.blob)}) as web, silent(("127.0.0.2", web.port)):
        station = Station(alone, f"http://localhost:{web.port}", alone.key)
        station.resolve("127.0.0.2", "127.0.0.1")
        assert (0, ["signed 1"], []) == station.once()


@pytest.mark.slow
def test_a_silent_name_server_is_given_up(alone, programs, room):
    """The C library waits for one that takes a connection and sends nothing, also after a signal. The station says that
    no answer comes, and it ends when it is told to."""
    silent_name = {"LD_PRELOAD": str(preloaded("strange_library.c", room)), "SILENT_NAME": "front.test"}
    station = Station(alone, "https://front.test", alone.key)
    process = station.begin(programs, env=station.environment | silent_name)
    assert b"station: https://front.test doesn't answer: not within 20 seconds\n" == next_line(process.stderr)
    # The next round waits for the name too.
    time.sleep(3)
    process.send_signal(signal.SIGTERM)
    assert 0 == process.wait(60)


def test_a_name_is_looked_up(alone):
    with FalseOffice({1: body(ca=alone.blob)}) as web:
        assert (0, ["signed 1"], []) == Station(alone, f"http://localhost:{web.port}", alone.key).once()


OFTEN_AT_THE_END = """
import random, signal, sys, time
sys.path.insert(0, sys.argv[1])
from vethlumi_common import deadlines
ends = [0, 0]
for _ in range(5000):
    end = time.perf_counter() + 0.0003 + random.uniform(-5e-6, 20e-6)
    try:
        deadlines.at_most(0.0003, lambda: [None for _ in iter(lambda: time.perf_counter() < end, False)])
        ends[0] += 1
    except OSError:
        ends[1] += 1
    assert (0, 0) == signal.getitimer(signal.ITIMER_REAL)
print(*(it > 0 for it in ends))
"""


def test_an_alarm_at_the_end_of_what_is_limited_is_no_other_fault():
    """In a process of its own, where no test has an alarm. Those that come as the work ends come at each of its steps.
    """
    done = run([sys.executable, "-c", OFTEN_AT_THE_END, PROGRAMS / "common"])
    assert (0, b"True True\n", b"") == (done.returncode, done.stdout, done.stderr)


LOST_ALARM = """
import sys, time
sys.path.insert(0, sys.argv[1])
from vethlumi_common import deadlines

class Deleted:
    def __del__(self):
        time.sleep(2)

def work():
    Deleted()
    time.sleep(60)

begun = time.monotonic()
try:
    deadlines.at_most(0.1, work)
except OSError as fault:
    print(fault, time.monotonic() - begun < 30)
"""


def test_an_alarm_that_is_lost_comes_again():
    """Python loses what it raises while it deletes an object."""
    done = run([sys.executable, "-c", LOST_ALARM, PROGRAMS / "common"])
    assert (0, b"not within 0.1 seconds True\n") == (done.returncode, done.stdout)
    assert b"Overdue" in done.stderr


def test_what_is_another_text_each_time_is_left_out():
    """So that a reason is reported once: an object's place in memory."""
    printable = part("journal").printable
    for said, due in {"<Connection object at 0x7f00ab> failed": "<Connection> failed",
                      "/etc/station-key is \x1b[2J": "/etc/station-key is ?[2J"}.items():
        assert due == printable(said)


def test_the_url_is_taken_as_it_is(alone):
    with Web(response(b"no", "404 Not Found")) as web:
        Station(alone, f"{web.url}/{{a,b}}[1-3]", alone.key).once()
        assert [b"GET /%7Ba,b%7D%5B1-3%5D/v1/pending HTTP/1.1"] == [it.split(b"\r\n")[0] for it in web.requests]


def test_a_proxy_of_the_environment_is_not_asked(alone):
    with Web(response(b"")) as web, Web(response(b"")) as proxy:
        assert (0, [], []) == Station(alone, web.url, alone.key).once(http_proxy=proxy.url, HTTP_PROXY=proxy.url)
        assert ([], 1) == (proxy.requests, len(web.requests))


@pytest.mark.parametrize("broken, why", [
    ({}, "404 refused 17 UnknownSerial"), ({2: NEGATIVE_CHUNK}, ".+"), ({2: b""}, ".+"),
], ids=["none", "a negative chunk", "nothing"])
def test_a_body_that_cannot_be_had_starves_no_other(alone, broken, why):
    bodies = {serial: body(serial, ca=alone.blob) for serial in (1, 3)}
    rows = [(1, digest_of(bodies[1])), (2, NOBODY), (3, digest_of(bodies[3]))]
    status, out, errors, _ = shown(alone, bodies, rows, broken)
    assert (1, ["signed 1", "signed 3"], 1) == (status, out, len(errors))
    assert re.fullmatch(f"station: not signed: 1, {why}: 2", errors[0])


@pytest.fixture
def one_by_one(alone):
    """Makes a station that fetches by one connection, and delivers by one."""
    def make(web):
        station = Station(alone, web.url, alone.key, ahead=3600)
        station.change("CONNECTIONS = 64, 128, 4", "CONNECTIONS = 64, 128, 1")
        return station

    return make


def test_a_connection_stays_open(alone, one_by_one):
    """One for the list, one for bodies and one for signatures."""
    with KeepingOffice({serial: body(serial, ca=alone.blob) for serial in range(1, 9)}, 100) as web:
        assert (0, [f"signed {it}" for it in range(1, 9)], []) == one_by_one(web).once()
        assert (3, 17) == (web.connections, len(web.requests))


def test_a_request_whose_connection_is_closed_is_sent_again(alone, one_by_one):
    """A front closes one that was kept as the next request is on its way. That isn't the fault of what is asked."""
    with KeepingOffice({serial: body(serial, ca=alone.blob) for serial in range(1, 9)}, 1) as web:
        assert (0, [f"signed {it}" for it in range(1, 9)], []) == one_by_one(web).once()
        assert 17 == len(web.requests)


def test_bodies_are_fetched_together_and_signed_in_their_order(alone):
    """While the first one is on its way, the next ones are asked for."""
    with WaitingOffice(b"GET /v1/certs/1/", {serial: body(serial, ca=alone.blob) for serial in range(1, 7)}) as web:
        process = subprocess.Popen([str(it) for it in Station(alone, web.url, alone.key).words] + ["--once", web.url],
                                   stdout=subprocess.PIPE, env=Station(alone, web.url, alone.key).environment)
        until(lambda: sum(b"/body " in it for it in web.requests) == 5)
        assert [] == web.delivered
        web.may_answer.set()
        assert [f"signed {it}" for it in range(1, 7)] == process.communicate(timeout=60)[0].decode().splitlines()


def test_a_list_that_takes_long_is_asked_for_less_often(alone, programs):
    """Each answer takes 0.3 seconds, after which the station waits three times as long, and at most a second."""
    class Slow(FalseOffice):
        def finish_request(self, peer, address):
            moments.append(time.monotonic())
            time.sleep(0.3)
            super().finish_request(peer, address)

    moments = []
    with Slow({}) as web:
        Station(alone, web.url, alone.key).begin(programs)
        until(lambda: len(moments) > 3)
    assert 1.15 < min(later - earlier for earlier, later in zip(moments, moments[1:]))


@pytest.mark.alone
def test_a_station_looks_often(alone, programs):
    """20 times a second, 50 times in the minute after something new came, and once a second if nobody answers."""
    def counted(web):
        before = len(web.requests)
        time.sleep(3)
        return len(web.requests) - before

    with FalseOffice({1: body(ca=alone.blob)}, []) as web:
        process = Station(alone, web.url, alone.key).begin(programs)
        web.begins_rounds(3)
        assert 20 < (idle := counted(web)) <= 61
        web.shows([1])
        assert b"signed 1\n" == process.stdout.readline()
        web.shows([])
        assert max(60, idle) < counted(web) <= 151


def test_the_first_of_more_than_fit_are_signed(alone):
    """A row has 67 bytes, so 200 bytes are two rows and a piece of the third."""
    with FalseOffice({serial: body(serial, ca=alone.blob) for serial in (1, 2, 3)}) as web:
        station = Station(alone, web.url, alone.key, ahead=3600)
        station.change("LONGEST_PENDING, LONGEST_BODY, LONGEST_REPLY, LONGEST_LIST = 1 << 26,",
                       "LONGEST_PENDING, LONGEST_BODY, LONGEST_REPLY, LONGEST_LIST = 200,")
        said = "station: of what is pending only the first 200 bytes are looked at"
        assert (1, ["signed 1", "signed 2"], [said]) == station.once()


def test_what_was_refused_holds_up_nothing_new(alone, programs):
    """A station that keeps no bodies fetches each that it tries to sign: the requests show which, and in which order.
    What was refused comes after what is new, and after pauses of 1, 2, 4 .. seconds, unless the policy has changed."""
    bodies = {serial: body(serial, ca=alone.blob, **ROOT if serial < 3 else {}) for serial in (1, 2, 3)}
    with FalseOffice(bodies, [(serial, digest_of(bodies[serial])) for serial in (1, 2)]) as web:
        station = Station(alone, web.url, alone.key, ahead=3600)
        station.change("MOST_KEPT = 1 << 24", "MOST_KEPT = 0")

        def asked():
            return [it.split()[1].decode().removeprefix("/v1/") for it in web.requests]

        def rounds(more):
            until(lambda count=asked().count("pending"): asked().count("pending") >= count + more, seconds=90)

        begun = time.monotonic()
        process = station.begin(programs)
        until(lambda: asked().count("certs/1/body") > 1, seconds=90)
        tries, passed = asked().count("certs/1/body"), time.monotonic() - begun
        assert tries <= 1 + math.log2(1 + passed)
        web.rows += f"3 {digest_of(bodies[3])}\n"
        until(lambda: web.delivered, seconds=60)
        assert "pending" == asked()[asked().index("certs/3/body") - 1]
        tries = asked().count("certs/1/body")
        alone.permit(WEB)
        rounds(3)
        assert asked().count("certs/1/body") > tries
        status, out, errors = stopped(process, lines=1)
        assert (0, {"signed 3"}) == (status, {*out})
        assert ["station: not signed: 2, refused as NotPermitted: 1-2"] == errors


def test_the_pause_before_a_next_try_grows_to_a_minute(monkeypatch):
    rounds = part("rounds")
    monkeypatch.setattr(rounds, "time", types.SimpleNamespace(monotonic=lambda: 100))
    for tries, pause in ((0, 1), (1, 2), (5, 32), (6, 60), (9, 60), (10 ** 6, 60)):
        station = types.SimpleNamespace(left={}, tries=lambda row: tries)
        rounds.Station.leave(station, "7 row", "a reason", None)
        assert {"7 row": (tries + 1, 100 + pause, "a reason", None)} == station.left


def test_an_address_whose_way_is_gone_is_not_left_out(monkeypatch):
    """Only one of a kind to which this machine never had a way."""
    module, ways = part("addresses"), {"127.0.0.1"}
    monkeypatch.setattr(module, "has_route", lambda address: address in ways)
    found, routed = module.numeric("127.0.0.1", 9) + module.numeric("::1", 9), set()
    assert ["127.0.0.1"] == module.fronts_at(found, routed)
    ways.add("::1")
    assert ["127.0.0.1", "::1"] == module.fronts_at(found, routed)
    ways.remove("::1")
    assert ["127.0.0.1", "::1"] == module.fronts_at(found, routed)
    ways.clear()
    assert ["127.0.0.1", "::1"] == module.fronts_at(found, set()), "without any way all are tried"


def test_a_body_of_another_ca_is_left_alone(alone, room):
    other = key_blob(0x12)
    (room / "others.pub").write_text(
        f"# of other stations\nssh-ed25519 {base64.b64encode(other).decode()} the other CA\n")
    bodies = {1: body(ca=other), 2: body(2, ca=alone.blob)}
    found = run(["ssh-keygen", "-l", "-f", "others.pub"], check=True).stdout.split()[1].decode()
    status, out, errors, _ = shown(alone, bodies)
    said = f"station: not signed: 1, refused as OtherCa, {found}: 1"
    assert (1, ["signed 2"], [said]) == (status, out, errors)
    status, out, errors, _ = shown(alone, bodies, other_cas=["others.pub"])
    assert (0, ["signed 2"], []) == (status, out, errors)


def test_many_are_counted_in_a_line(alone):
    bodies = {serial: body(serial, ca=alone.blob, **ROOT) for serial in (2, 3, 4, 7, 9, 10)}
    said = "station: not signed: 6, refused as NotPermitted: 2-4, 7, 9-10"
    assert [said] == shown(alone, bodies)[2]


def test_the_office_says_why_a_delivery_is_refused(alone):
    with RefusingOffice({1: body(ca=alone.blob)}) as web:
        said = ["station: the signature of 1 isn't accepted: 409 refused 19 Revoked",
                "station: not signed: 1, its signature isn't accepted: 409 refused 19 Revoked: 1"]
        assert (1, [], said) == Station(alone, web.url, alone.key).once()


@pytest.mark.parametrize("answer", ["", "signed 2\n", "signed 1", "signed 1\n\n", "signed 10\n"])
def test_another_answer_to_a_delivery_than_its_own_is_none(alone, answer):
    class Answering(FalseOffice):
        def answer_to(self, delivery):
            return response(answer.encode())

    with Answering({1: body(ca=alone.blob)}) as web:
        why = f"the answer to the delivery is {answer}".replace("\n", "?")
        said = [f"station: the signature of 1 isn't accepted: {why}",
                f"station: not signed: 1, its signature isn't accepted: {why}: 1"]
        assert (1, [], said) == Station(alone, web.url, alone.key).once()


# Serials that are no neighbours, so that a list of them is longer than what is shown.
FAR = [10 ** 18 + 2 * place for place in range(60)]


def test_each_signature_that_is_not_taken_has_a_line(alone, programs):
    """Also if the list of serials is cut before it, and another row has taken the place of its own: neither the number
    nor what is shown changes then."""
    later = FAR[-1] + 2
    with RefusingOffice({serial: body(serial, ca=alone.blob) for serial in [*FAR, later]}) as web:
        web.shows(FAR)
        process = Station(alone, web.url, alone.key).begin(programs)
        until(lambda: len(web.delivered) >= len(FAR), seconds=60)
        web.begins_rounds(2)
        web.shows([*FAR[:-1], later])
        until(lambda: any(it.startswith(f"deliver {later}\n") for it in web.delivered), seconds=60)
        web.begins_rounds(2)
        status, out, errors = stopped(process)
    assert (0, []) == (status, out)
    said = [f"station: the signature of {it} isn't accepted: 409 refused 19 Revoked" for it in [*FAR, later]]
    assert said == [it for it in errors if "the signature of" in it and it.endswith(": 409 refused 19 Revoked")]


def test_what_is_refused_in_the_place_of_another_is_said(alone, programs):
    """Also if the line is the same, since the list of serials is cut before both."""
    later = FAR[-1] + 2
    with FalseOffice({serial: body(serial, ca=alone.blob, **ROOT) for serial in [*FAR, later]}) as web:
        web.shows(FAR)
        station = Station(alone, web.url, alone.key)
        station.speaks_at_the_end_of_a_round()
        process = station.begin(programs)
        begins = b"station: not signed: 60, refused as NotPermitted: %d, %d, " % (*FAR[:2],)
        until(lambda: next_line(process.stderr).startswith(begins), seconds=60)
        web.shows([*FAR[:-1], later])
        assert next_line(process.stderr).startswith(begins)


def test_a_long_list_of_serials_is_cut_between_two():
    joined = part("journal").joined
    assert ["", "4, 7-9"] == [joined([]), joined([4, 7, 8, 8, 9])]
    shown_serials = joined(range(10 ** 18, 10 ** 18 + 10 ** 9, 2))
    assert shown_serials.endswith(" ..") and 900 < len(shown_serials) <= 1003
    numbers = [int(it) for it in shown_serials.removesuffix(" ..").split(", ")]
    assert [10 ** 18 + 2 * it for it in range(len(numbers))] == numbers


def test_a_signature_that_is_not_taken_is_shown_apart(alone):
    """A false office has it all the same. Whatever reasons it makes up, the serial isn't among those of others."""
    class Hiding(FalseOffice):
        def finish_request(self, peer, address):
            target = whole_request(peer).split(b" ")[1].decode()
            if target == "/v1/pending":
                return peer.sendall(response(self.rows.encode()))
            if (found := re.fullmatch(r"/v1/certs/(\d+)/body", target)) and self.bodies[int(found[1])]:
                return peer.sendall(response(self.bodies[int(found[1])]))
            serial = int(re.search(r"\d+(?=/body$)|\d+$", target)[0])
            peer.sendall(response(b"reason %d" % (serial if serial < 100 else serial - 78), "500 Broken"))

    bodies = {serial: b"" for serial in range(1, 23)} | {it: body(it, ca=alone.blob) for it in range(101, 123)}
    with Hiding(bodies) as web:
        station = Station(alone, web.url, alone.key)
        station.speaks_at_the_end_of_a_round()
        status, out, errors = station.once()
    assert (1, []) == (status, out)
    assert [f"station: not signed: 1, 500 reason {it}: {it}" for it in range(1, 21)] + [
        "station: not signed: 2, for other reasons: 21-22"
    ] + [f"station: not signed: 1, its signature isn't accepted: 500 reason {it}: {it + 78}"
         for it in range(23, 43)] + [
        "station: not signed: 2, its signature isn't accepted, for other reasons: 121-122"] == errors[-42:]


def test_another_key_than_the_cas_delivers_nothing(alone):
    run(["openssl", "genpkey", "-algorithm", "ed25519", "-out", "other.pem"], check=True)
    alone.key = ["--key", "other.pem"]
    said = "station: not signed: 1, the key isn't the CA's: its signature doesn't verify: 1"
    assert (1, [], [said], []) == shown(alone, {1: body(ca=alone.blob)})


# What a guard prints that isn't an approval of the body that it was given: only the comparison with the row tells.
FALSE_APPROVALS = {"another serial": lambda digest: f"sign 2 {digest}",
                   "another digest": lambda digest: f"sign 1 {NOBODY}",
                   "a word more": lambda digest: f"sign 1 {digest} x", "no digest": lambda digest: "sign 1"}


def answering(line):
    """Lines of the shell that answer each batch of one body with this line, and keep the body as `judged`."""
    return ("while read -r word count && [ \"$word $count\" = 'judge 1' ] && read -r length\n"
            f"do head -c \"$length\" >judged; echo '{line}'; done")


@pytest.mark.parametrize("line", FALSE_APPROVALS.values(), ids=FALSE_APPROVALS)
def test_an_approval_of_another_body_signs_nothing(alone, line):
    """A guard that lost its place would answer so. The key is the CA's, and the body one that the policy permits."""
    made = body(ca=alone.blob)
    with FalseOffice({1: made}) as web:
        station = Station(alone, web.url, alone.key)
        station.runs_in_place_of("sshstation", answering(line(digest_of(made))))
        assert (1, [], ["station: not signed: 1, its body has another serial: 1"]) == station.once()
        assert [] == web.delivered
        station.runs_in_place_of("sshstation", answering(f"sign 1 {digest_of(made)}"))
        assert (0, ["signed 1"], []) == station.once(), "it takes the right line"


def test_half_an_answer_of_a_guard_signs_nothing(alone):
    """One that was killed may have printed it before its commit."""
    made = body(ca=alone.blob)
    with FalseOffice({1: made}) as web:
        station = Station(alone, web.url, alone.key)
        station.runs_in_place_of("sshstation", f"read -r line; printf 'sign 1 {digest_of(made)}'")
        assert (1, [], ["station: the guard has ended with status 0"]) == station.once()
        assert [] == web.delivered


def test_a_guard_judges_what_is_signed(alone):
    """The guard is given the bytes that are pending, on its input."""
    made = body(ca=alone.blob)
    with FalseOffice({1: made}) as web:
        station = Station(alone, web.url, alone.key)
        station.runs_in_place_of("sshstation", answering(f"sign 1 {digest_of(made)}"))
        assert (0, ["signed 1"], []) == station.once()
    assert made == pathlib.Path("judged").read_bytes()


# A guard that answers each batch of the bodies of two serials, after others of one body, with the lines in this order.
SWAPPING = """#!/usr/bin/python3 -I
import hashlib, sys
for line in sys.stdin.buffer:
    bodies = [sys.stdin.buffer.read(int(sys.stdin.buffer.readline())) for _ in range(int(line.split()[1]))]
    with open("judged", "a") as judged:
        judged.write(f"{len(bodies)}\\n")
    digests = [hashlib.sha256(it).hexdigest() for it in bodies]
    serials = [SERIALS[it] for it in digests]
    rows = list(zip(serials, digests))
    for serial, digest in reversed(rows) if SWAPS else rows:
        print("sign", serial, digest, flush=True)
"""


@pytest.mark.parametrize("swaps", [False, True])
def test_bodies_are_judged_together_and_each_has_its_own_answer(alone, swaps):
    """The first one is waited for, and the others are there by then. If the guard answers in another order, each has
    the answer of another, and none is signed."""
    bodies = {serial: body(serial, ca=alone.blob) for serial in range(1, 65)}
    with WaitingOffice(b"GET /v1/certs/1/", bodies) as web:
        station = Station(alone, web.url, alone.key)
        station.runs_in_place_of("sshstation", "exec ./guard")
        serials = {digest_of(it): serial for serial, it in bodies.items()}
        pathlib.Path("guard").write_text(SWAPPING.replace("SERIALS", repr(serials)).replace("SWAPS", repr(swaps)))
        os.chmod("guard", 0o755)
        process = subprocess.Popen([*map(str, station.words), "--once", web.url], stdout=subprocess.PIPE,
                                   stderr=subprocess.DEVNULL, env=station.environment)
        until(lambda: sum(b"/body " in it for it in web.requests) == 63)
        time.sleep(0.5)
        web.may_answer.set()
        out = process.communicate(timeout=60)[0].decode().splitlines()
    assert "64\n" == pathlib.Path("judged").read_text()
    assert (1, [], []) if swaps else (0, [f"signed {it}" for it in bodies], 64 * [0]) == (
        process.returncode, out, [0 for _ in web.delivered])


KEYS_THAT_ARE_NONE = [
    (lambda: b"no key\n", "no-key.pem has no private key in PKCS #8 without a passphrase"),
    (lambda: run(["openssl", "genpkey", "-algorithm", "ed25519", "-aes256", "-pass", "pass:1234"]).stdout,
     "no-key.pem has no private key in PKCS #8 without a passphrase"),
    (lambda: run(["openssl", "genpkey", "-algorithm", "ed448"]).stdout,
     "no-key.pem has a private key that isn't Ed25519"),
    (lambda: run(["openssl", "genpkey", "-algorithm", "rsa"]).stdout,
     "no-key.pem has a private key that isn't Ed25519"),
]


@pytest.mark.parametrize("key, why", KEYS_THAT_ARE_NONE, ids=["a text", "a passphrase", "Ed448", "RSA"])
def test_a_file_without_a_key_is_named_before_anything_is_asked(alone, key, why):
    write_secret("no-key.pem", key())
    with FalseOffice({1: body(ca=alone.blob)}) as web:
        assert (1, [], [f"station: {why}"]) == Station(alone, web.url, ["--key", "no-key.pem"]).once()
        assert [] == web.requests


def test_a_key_that_is_exchanged_is_read_again(alone, programs):
    """Whoever renews a key puts it there in one step. The station doesn't go on with the one of before."""
    run(["openssl", "genpkey", "-algorithm", "ed25519", "-out", "other.pem"], check=True)
    write_secret("key.pem", alone.key_file.read_bytes())
    with FalseOffice({serial: body(serial, ca=alone.blob) for serial in (1, 2)}) as web:
        web.shows([1])
        process = Station(alone, web.url, ["--key", "key.pem"]).begin(programs)
        assert b"signed 1\n" == process.stdout.readline()
        os.rename("other.pem", "key.pem")
        web.shows([2])
        said = b"station: not signed: 1, the key isn't the CA's: its signature doesn't verify: 2\n"
        assert said == next_line(process.stderr)
        write_secret("again.pem", alone.key_file.read_bytes())
        os.rename("again.pem", "key.pem")
        assert b"signed 2\n" == process.stdout.readline()


# ---- words

BAD_WORDS = [
    ([], "--db is missing"), (["--db", "d"], "--policy is missing"),
    (["--db", "d", "--policy", "p"], "OFFICE is missing"),
    (["--db", "d", "--policy", "p", "http://a"], "one of --key, --agent and --pkcs11 is wanted"),
    (["--db", "d", "--policy", "p", "--key", "k", "--agent", "a", "http://a"],
     "one of --key, --agent and --pkcs11 is wanted"),
    (["--db", "d", "--policy", "p", "--pkcs11", "m", "http://a"], "--pkcs11 needs --id and --pin-file"),
    (["--db", "d", "--policy", "p", "--pkcs11", "m", "--id", "1", "--pin-file", "f", "http://a"],
     "--id is hexadecimal: 1"),
    (["--db", "d", "--policy", "p", "--key", "k", "--token", "t", "http://a"], "--token and --slot are for --pkcs11"),
    (["--db", "d", "--policy", "p", "--key", "k", "--slot", "0", "http://a"], "--token and --slot are for --pkcs11"),
    (["--db", "d", "--policy", "p", "--key", "k", "file:///etc/passwd"], "no URL: file:///etc/passwd"),
    *[(["--db", "d", "--policy", "p", "--key", "k", it], f"http is only for an office on this machine: {it}")
      for it in ("http://office.example.org", "http://10.0.0.1:8022", "http://[fe80::1]/", "http://localhost.a",
                 "http://127.0.0.1.a/", "http://127.0.0.1@a", "http://127.0.0.1:80@a/", "http://a/127.0.0.1")],
    (["--db", "d", "--policy", "p", "--key", "k", "--caller", "a/../b", "https://a"], "no caller's name: a/../b"),
    (["--db", "d", "--policy", "p", "--key", "k", "--interval", "0", "https://a"],
     "--interval is 0.01 to 86400, and --ahead at least 0"),
    (["--db", "d", "--policy", "p", "--key", "k", "--interval", "86401", "https://a"],
     "--interval is 0.01 to 86400, and --ahead at least 0"),
    (["--db", "d", "--policy", "p", "--key", "k", "--lists", "l", "https://a"],
     "--lists needs --list-ca, and --list-ca needs --lists"),
    (["--db", "d", "--policy", "p", "--key", "k", "--list-ca", "c", "https://a"],
     "--lists needs --list-ca, and --list-ca needs --lists"),
    (["--db", "d", "--policy", "p", "--key", "k", "--publish-every", "0", "https://a"],
     "--publish-every is at least 1"),
    (["--no-such-word", "http://a"], "unrecognized arguments: --no-such-word"),
]


@pytest.mark.parametrize("words, why", BAD_WORDS, ids=[" ".join(it[0]) or "nothing" for it in BAD_WORDS])
def test_bad_words(room, words, why):
    done = run([PROGRAMS / "station/station", *words])
    assert (2, b"", f"station: error: {why}") == (done.returncode, done.stdout, done.stderr.decode().splitlines()[-1])


@pytest.mark.parametrize("url", ["http://localhost", "http://127.0.0.1:8022", "http://127.1.2.3/office",
                                 "http://[::1]:8022/", "https://office.example.org"])
def test_urls_of_this_machine_and_of_fronts_are_taken(alone, url):
    assert (1, [], ["station: can't read none"]) == Station(alone, url, ["--key", "none"]).once()


def test_help(room):
    done = run([PROGRAMS / "station/station", "--help"])
    assert (0, b"") == (done.returncode, done.stderr)
    assert "station [OPTION..] --db FILE --policy FILE --key PEM OFFICE" in done.stdout.decode().splitlines()


@pytest.mark.parametrize("key, why", [
    (["--key", "none"], "can't read none"),
    (["--agent", "none"], "can't read none: No such file or directory"),
    (["--agent", "no-key"], "no-key has another line than those of Ed25519 public keys"),
    (["--pkcs11", "m", "--id", "01", "--pin-file", "none"], "can't read none"),
    (["--pkcs11", "m", "--id", "01", "--pin-file", "no-pin"], "the first line of no-pin is no PIN"),
    (["--key", "no-key", "--other-ca", "no-blob"], "no-blob has another line than those of Ed25519 public keys"),
    (["--key", "no-key", "--cacert", "none"], "can't read none"),
    (["--key", "no-key", "--other-ca", "no-key"], "no-key has another line than those of Ed25519 public keys"),
    (["--key", "no-key", "--lists", "lists.db", "--list-ca", "no-key"],
     "no-key has another line than those of Ed25519 public keys"),
], ids=lambda it: " ".join(it) if isinstance(it, list) else "")
def test_a_file_that_cannot_be_read_is_named(alone, room, key, why):
    write_secret("no-key", "no key\n")
    write_secret("no-pin", b"\xff\0\n")
    (room / "no-blob").write_text(f"ssh-ed25519 {'A' * 68}\n")
    environment = {"SSH_AUTH_SOCK": "nobody"}
    assert (1, [], [f"station: {why}"]) == Station(alone, "http://127.0.0.1:1", key).once(**environment)


SECRETS = {"--key": ["--key", "secret"], "--pin-file": ["--pkcs11", "m", "--id", "01", "--pin-file", "secret"],
           "--cert": ["--key", "no-key", "--cert", "secret"]}


@pytest.mark.parametrize("key", SECRETS.values(), ids=SECRETS)
@pytest.mark.parametrize("mode", ["640", "604", "620", "644", "400"])
def test_a_secret_that_others_can_use_is_refused(alone, room, key, mode):
    write_secret("no-key", "no key\n")
    write_secret("secret", b"\0\n")
    (room / "secret").chmod(int(mode, 8))
    with Web(response(b"")) as web:
        status, out, errors = Station(alone, web.url, key).once()
    said = [f"station: secret has mode {mode}, which lets others use it: chmod 600 secret"]
    assert (status, out, errors == said) == ((1, [], True) if mode != "400" else (status, [], False))


@pytest.mark.parametrize("owner, mode, user, is_taken", [
    (1000, 0o600, 1000, True), (1000, 0o440, 1000, False), (1000, 0o404, 1000, False), (0, 0o600, 0, True),
    (0, 0o440, 0, False), (0, 0o440, 1000, True), (0, 0o660, 1000, False), (0, 0o444, 1000, False),
    (1001, 0o440, 1000, False),
])
def test_root_may_give_a_service_a_secret_by_its_group(room, monkeypatch, owner, mode, user, is_taken):
    """So systemd does with a credential, by an access list, which shows as the group's mode."""
    station = part("files")
    write_secret("secret", "")
    found = os.stat_result([stat.S_IFREG | mode, 0, 0, 1, owner, owner, *[0] * 4])
    # Only this module's own: pytest asks for files too.
    monkeypatch.setattr(station, "os", types.SimpleNamespace(**vars(os) | {
        "stat": lambda path: found, "getuid": lambda: user}))
    with contextlib.nullcontext() if is_taken else pytest.raises(station.Fault, match="lets others use it"):
        station.check_secret("secret")


@pytest.mark.parametrize("secret", ["--key", "--cert"])
def test_a_secret_that_others_can_use_later_is_refused(alone, programs, room, secret):
    """It is opened again for each signature, or for each connection."""
    write_secret("secret", alone.key_file.read_bytes())
    with FalseOffice({serial: body(serial, ca=alone.blob) for serial in (1, 2)}) as web:
        web.shows([1])
        key = ["--key", "secret"] if secret == "--key" else [*alone.key, "--cert", "secret"]
        process = Station(alone, web.url, key).begin(programs)
        assert b"signed 1\n" == process.stdout.readline()
        (room / "secret").chmod(0o644)
        web.shows([2])
        assert 1 == process.wait(60)
        said = b"station: secret has mode 644, which lets others use it: chmod 600 secret\n"
        assert (b"", said, 1) == (process.stdout.read(), process.stderr.read(), len(web.delivered))


@pytest.mark.parametrize("file", ["policy", "guard.db", "guard.db-wal", "cas", "lists.db", "lists.db-wal", "list-ca",
                                  "authority"])
def test_a_file_that_others_can_change_is_refused(alone, programs, sshstation, file):
    """At the start, before anything is signed, and in each round. What others can only read is taken."""
    path = alone.policy if file == "policy" else alone.db.with_name(file)
    for name in ("cas", "list-ca", "authority"):
        shutil.copy(alone.ca, alone.db.with_name(name))
    lists = Lists(sshstation, alone.db.with_name("lists.db"), alone.db.with_name("list-ca"))
    for name in ("guard.db-wal", "lists.db-wal"):
        alone.db.with_name(name).touch()
    with FalseOffice({1: body(ca=alone.blob)}) as web:
        key = [*alone.key, "--cacert", alone.db.with_name("authority"), "--publish-every", "1000"]
        station = Station(alone, web.url, key, other_cas=[alone.db.with_name("cas")], lists=lists)
        for mode in (0o664, 0o646):
            path.chmod(mode)
            said = [f"station: {path} has mode {mode:o}, which lets others change it: chmod go-w {path}"]
            assert (1, [], said, []) == (*station.once(), web.requests)
        path.chmod(0o644)
        process = station.begin(programs)
        assert b"signed 1\n" == process.stdout.readline()
        path.chmod(0o664)
        assert (1, b"") == (process.wait(60), process.stdout.read())
        assert [b"664"] == re.findall(rb" has mode (\d+), which lets others change it", process.stderr.read())


def test_a_log_that_others_can_change_is_refused_while_the_guard_writes_it(alone, programs):
    log = alone.db.with_name("guard.db-wal")
    with FalseOffice({1: body(ca=alone.blob)}) as web:
        process = Station(alone, web.url, alone.key).begin(programs)
        assert b"signed 1\n" == process.stdout.readline()
        log.chmod(0o646)
        assert 1 == process.wait(60)
        said = f"station: {log} has mode 646, which lets others change it: chmod go-w {log}\n"
        assert said == process.stderr.read().decode()


@pytest.mark.parametrize("owner, mode, user, is_taken", [
    (1000, 0o600, 1000, True), (0, 0o644, 1000, True), (0, 0o640, 1000, True), (0, 0o644, 0, True),
    (0, 0o664, 1000, False), (1000, 0o602, 1000, False), (1001, 0o644, 1000, False), (1000, 0o644, 0, False),
])
def test_root_and_the_stations_user_may_change_its_files(monkeypatch, owner, mode, user, is_taken):
    station = part("files")
    found = os.stat_result([stat.S_IFREG | mode, 0, 0, 1, owner, owner, *[0] * 4])
    monkeypatch.setattr(station, "os", types.SimpleNamespace(stat=lambda path: found, getuid=lambda: user))
    with contextlib.nullcontext() if is_taken else pytest.raises(station.Fault, match="change it"):
        station.check_kept("policy")


NEEDED = ["sshstation", "getent", "ssh-keygen", "prlimit"]


@pytest.mark.parametrize("missing", NEEDED)
def test_a_program_that_is_missing_is_named(alone, room, missing):
    for program in {*NEEDED} - {missing}:
        (room / "bin").mkdir(exist_ok=True)
        (room / "bin" / program).symlink_to("/bin/true")
    made = Station(alone, "http://127.0.0.1:1", [*alone.key, "--lists", "lists.db", "--list-ca", alone.ca])
    assert (1, [], [f"station: {missing} is missing"]) == made.once(PATH=str(room / "bin"))


@pytest.mark.parametrize("spoil, why", [
    (lambda guard: guard.permit("department web\n"), "BadPolicy 2"),
    (lambda guard: guard.policy.unlink(), "File"),
    (lambda guard: guard.db.rename("elsewhere"), "NotAGuard"),
], ids=["a bad policy", "no policy", "no guard"])
def test_a_guard_that_cannot_judge_ends_the_station(alone, spoil, why):
    spoil(alone)
    with Web(response(b"")) as web:
        status, out, errors = Station(alone, web.url, alone.key).once()
    assert (1, [], f"sshstation: {why}") == (status, out, errors[0])


def in_place_of(path, put):
    path.unlink()
    put(path)


@pytest.mark.parametrize("spoil, fault, why", [
    (lambda guard: guard.policy.unlink(), "File", "{guard.policy}: No such file or directory"),
    (lambda guard: in_place_of(guard.policy, lambda it: it.mkdir()), "File", "{guard.policy} isn't a regular file"),
    (lambda guard: in_place_of(guard.policy, lambda it: it.symlink_to("gone")), "File",
     "{guard.policy} is a link to gone: No such file or directory"),
    (lambda guard: guard.permit(f"{'#' * 1023}\n" * 1024 + "\n"), "File",
     "{guard.policy} has 1048577 bytes, and a policy at most 1048576"),
    (lambda guard: guard.permit("department web\n"), "BadPolicy 2", None),
    (lambda guard: guard.db.rename("elsewhere"), "NotAGuard", "{guard.db}: No such file or directory"),
    (lambda guard: os.link(guard.db, "another"), "Device", "{guard.db} has 2 names, and a guard's file only one"),
    (lambda guard: in_place_of(pathlib.Path(f"{guard.db}-wal"), lambda it: it.mkdir()), "Device",
     "{guard.db}-wal isn't a regular file"),
], ids=["no policy", "a folder", "a link", "a long policy", "a bad policy", "no guard", "two names", "no log"])
def test_it_is_said_which_file_a_guard_cannot_use(alone, programs, spoil, fault, why):
    """The guard names its fault, and the station the file, once: with --once, and if it would go on."""
    spoil(alone)
    said = [f"sshstation: {fault}", *([f"station: {why.format(guard=alone)}"] if why else [])]
    with Web(response(b"")) as web:
        station = Station(alone, web.url, alone.key)
        assert (1, [], said) == station.once()
        process = station.begin(programs)
        assert 1 == process.wait(60)
    assert [*said, "station: the guard has ended with status 1"] == process.stderr.read().decode().splitlines()


def test_the_longest_policy_is_one_that_a_guard_reads(alone):
    alone.permit(WEB + "\n" + "#" * (1048574 - len(WEB)) + "\n")
    assert 1048576 == alone.policy.stat().st_size
    with Web(response(b"")) as web:
        assert (0, [], []) == Station(alone, web.url, alone.key).once()


def test_it_is_said_who_has_locked_the_guard_s_file(alone):
    with Web(response(b"")) as web, locked(alone.db) as why:
        assert (1, [], ["sshstation: Device", f"station: {why}"]) == Station(alone, web.url, alone.key).once()


def seen_by_nobody(look, *words):
    """What a function of the station says to a user without rights."""
    def become_nobody():
        os.setgroups([])
        os.setresgid(65534, 65534, 65534)
        os.setresuid(65534, 65534, 65534)
    with concurrent.futures.ProcessPoolExecutor(1, multiprocessing.get_context("fork"), become_nobody) as pool:
        return pool.submit(look, *words).result(60)


@pytest.mark.root
@pytest.mark.parametrize("is_database, can", [(False, "read"), (True, "read and write")])
def test_it_is_said_whose_file_the_station_s_user_cannot_use(is_database, can):
    """A file that root has edited may be root's afterwards. Set-up gives the unit's files the mode 600."""
    look = part("files").unusable_database if is_database else part("files").unusable
    rest = () if is_database else (False,)
    with folder_of_nobody() as folder:
        file = pathlib.Path(folder, "file")
        file.touch(0o600)
        assert f"nobody can't {can} {file}: it belongs to root, and has mode 600" == seen_by_nobody(look, file, *rest)
        shutil.chown(file, "nobody")
        assert "" == seen_by_nobody(look, file, *rest)
        shutil.chown(folder, "root")
        said = seen_by_nobody(look, file, *rest)
        assert (f"nobody can't write in {folder}, where {file} needs a log" if is_database else "") == said
        os.chmod(folder, 0o700)
        said = seen_by_nobody(look, file, *rest)
        assert f"{file} can't be reached: nobody may not enter {folder}" == said


def test_a_guard_that_hangs_ends_the_station(alone, programs):
    with FalseOffice({1: body(ca=alone.blob)}, []) as web:
        station = Station(alone, web.url, alone.key)
        station.change("LONGEST_ENDING = 600, 60", "LONGEST_ENDING = 2, 60")
        process = station.begin(programs)
        until(lambda: web.requests, seconds=60)
        [guard] = children(process.pid)
        os.kill(guard, signal.SIGSTOP)
        web.rows = f"1 {digest_of(web.bodies[1])}\n"
        assert 1 == process.wait(60)
        assert b"station: the guard doesn't answer: not within 2 seconds\n" == process.stderr.read()


@pytest.mark.parametrize("ends, status, more", [
    (lambda process, guard: process.send_signal(signal.SIGTERM), 0, []),
    (lambda process, guard: guard.permit("department web\n"), 1,
     ["sshstation: BadPolicy 2", "station: the guard has ended with status 1"]),
], ids=["it is told to", "a bad policy"])
def test_a_station_that_ends_says_what_it_has_refused(alone, programs, ends, status, more):
    """In the middle of a round, while a body after the one that it has refused is on its way."""
    bodies = {1: body(ca=alone.blob, **ROOT), 2: body(2, ca=alone.blob), 3: body(3, ca=alone.blob)}
    with WaitingOffice(b"GET /v1/certs/3/", bodies) as web:
        process = Station(alone, web.url, alone.key).begin(programs)
        assert web.was_asked.wait(60)
        assert b"signed 2\n" == process.stdout.readline()
        ends(process, alone)
        if status:
            web.may_answer.set()
        out, errors = process.communicate(timeout=60)
        web.may_answer.set()
    needless = "station: the signature of 2 may have been sent, and the station ends"
    said = ["station: not signed: 1, refused as NotPermitted: 1", *more]
    errors = sorted(it for it in errors.decode().splitlines() if it != needless)
    assert (status, b"", sorted(said)) == (process.returncode, out, errors)


def test_a_station_that_ends_says_which_signature_it_has_sent(alone, programs):
    """A false front has it, and may never list it as pending again."""
    with WaitingOffice(b"POST ", {1: body(ca=alone.blob)}) as web:
        process = Station(alone, web.url, alone.key).begin(programs)
        assert web.was_asked.wait(60)
        said = ["station: the signature of 1 may have been sent, and the station ends"]
        assert (0, [], said) == stopped(process)
        web.may_answer.set()


@pytest.mark.parametrize("name, said", [
    ("stdout", b"station: the signature of 1 may have been sent, and the station ends\n"
               b"station: can't print 'signed 1': No space left on device\n"), ("stderr", b"")])
def test_a_station_that_cannot_print_ends(alone, programs, name, said):
    """Nobody would see what it signs. What was delivered isn't said to be unsigned."""
    bodies = {1: body(ca=alone.blob), 2: body(2, ca=alone.blob, **ROOT)}
    with FalseOffice(bodies) as web, open("/dev/full", "wb") as full:
        web.shows([1] if name == "stdout" else [2])
        process = Station(alone, web.url, alone.key).begin(programs, **{name: full})
        assert 1 == process.wait(60)
        assert said == (process.stderr.read() if process.stderr else b"")


# ---- a station that goes on

def test_a_station_goes_on(asked, programs, room):
    """It signs what comes, takes a policy that was changed, says what it doesn't sign once, and ends when it is told
    to."""
    new_key("alice")
    process = asked.station.begin(programs)
    assert 1 == issued(asked, "alice")
    until(lambda: asked.get("/v1/certs/1").status == 200)
    # The office permits bob, and the guard doesn't yet.
    asked.post("root", "web-2", department("web", principals="alice,bob", extensions="permit-pty"))
    assert 2 == issued(asked, "alice", principals="bob")
    assert 3 == issued(asked, "alice")
    until(lambda: asked.get("/v1/certs/3").status == 200)
    time.sleep(2.5)
    assert 409 == asked.get("/v1/certs/2").status
    asked.guard.permit(department("web", principals="alice,bob", extensions="permit-pty"))
    assert [b"signed 1\n", b"signed 3\n", b"signed 2\n"] == [process.stdout.readline() for _ in range(3)]
    assert 200 == asked.get("/v1/certs/2").status
    # Between its line and its note that nothing is under way it would rather say that a signature may have been sent.
    time.sleep(1)
    said = ["station: not signed: 1, refused as NotPermitted: 2"]
    assert (0, [], said) == stopped(process)


def test_a_station_makes_no_file(alone, room):
    """Not even a temporary one: there is no name by which anybody could exchange what is judged, signed or verified."""
    with FalseOffice({1: body(ca=alone.blob)}) as web:
        station = Station(alone, web.url, alone.key)
        station.words = ["strace", "-f", "-o", room / "calls", "-e", "trace=open,openat,creat,link,linkat,symlinkat,"
                         "rename,renameat2,mkdir,mkdirat,mknodat", *station.words]
        assert (0, ["signed 1"], []) == station.once(TMPDIR=str(room / "none"))
    calls = [it for it in (room / "calls").read_text().splitlines() if " = -1 " not in it]
    made = [it for it in calls if re.search(r"O_CREAT|O_TMPFILE|\b(creat|link|symlink|rename|mkdir|mknod)\w*\(", it)]
    assert any("sshstation" in it or "guard.db" in it for it in calls), "it has seen the guard"
    assert [] == [it for it in made if f'"{alone.db}' not in it]


def test_a_station_waits_for_an_office_that_is_away(sshstation, office, programs):
    port = free_port()
    made = new_station(sshstation, office, f"http://127.0.0.1:{port}", policy=WEB)
    process = made.begin(programs)
    away = f"station: http://127.0.0.1:{port} doesn't answer: "
    assert next_line(process.stderr).decode().startswith(away)
    with office.serving(port=port) as served:
        served.post("root", "web", WEB)
        new_key("alice")
        issued(served, "alice")
        until(lambda: served.get("/v1/certs/1").status == 200)
    status, out, errors = stopped(process, lines=1)
    assert (0, ["signed 1"]) == (status, out)
    assert all(it.startswith(away) for it in errors) and len(errors) <= 3


@pytest.mark.front
def test_a_front_of_another_authority_gets_nothing(front, sshstation, room):
    """Whoever is on the way to the front has no certificate of its authority."""
    run(["openssl", "req", "-x509", "-newkey", "ed25519", "-nodes", "-subj", "/CN=other", "-days", "2", "-keyout",
         "other.key", "-out", "other.crt"], check=True)
    guard = new_guard(sshstation, front.office, policy=WEB)
    how = {"certificate": front.certificate("station")}
    key = ["--key", front.office.ca_key]
    status, out, errors = Station(guard, front.url, key, trusted="other.crt", **how).once()
    assert (1, [], 1) == (status, out, len(errors))
    assert errors[0].startswith(f"station: {front.url} doesn't answer: ") and "CERTIFICATE_VERIFY_FAILED" in errors[0]
    assert (0, [], []) == Station(guard, front.url, key, trusted=front.authority / "ca.crt", **how).once()


@pytest.mark.front
def test_a_front_of_another_name_gets_nothing(alone, make_front):
    """Its certificate is by the authority, for the name of another machine."""
    with FalseOffice({1: body(ca=alone.blob)}) as web:
        front = make_front(web.port, address="127.0.0.2")
        station = Station(alone, f"https://127.0.0.2:{front.port}", alone.key,
                          certificate=front.certificate("station"), trusted=front.authority / "ca.crt")
        status, out, errors = station.once()
        assert (1, [], 1, []) == (status, out, len(errors), web.requests)
        assert "CERTIFICATE_VERIFY_FAILED" in errors[0] and "IP address mismatch" in errors[0]


def test_a_station_ends_with_its_guard(asked, programs):
    def is_guard(pid):
        with contextlib.suppress(OSError):
            return b"judge" in pathlib.Path(f"/proc/{pid}/cmdline").read_bytes().split(b"\0")

    process = asked.station.begin(programs)
    [guard] = until(lambda: [it for it in children(process.pid) if is_guard(it)])
    os.kill(guard, signal.SIGKILL)
    assert 1 == process.wait(60)
    assert b"station: the guard has ended with status -9\n" == process.stderr.read()


@pytest.mark.slow
@pytest.mark.once
def test_a_station_that_is_killed_signs_all_the_same(asked, programs):
    """Station and guard are killed together, at any moment of a round. A certificate that was approved and not
    delivered is signed in a later round."""
    new_key("alice")
    digests = {}
    for number in range(20):
        serial = issued(asked, "alice")
        digests[str(serial)] = digest_of(asked.get(f"/v1/certs/{serial}/body").body)
        process = asked.station.begin(programs, stdout=subprocess.DEVNULL, stderr=subprocess.DEVNULL)
        time.sleep(random.uniform(0, 1))
        os.killpg(process.pid, signal.SIGKILL)
        process.wait()
    # The last guard may end a moment after its station, and has its file up to then.
    until(lambda: 0 == asked.guard.run("bodies", "--db", asked.guard.db)[0])
    asked.station.sign()
    assert b"" == asked.get("/v1/pending").body
    assert digests == {serial: digest for serial, digest, *_ in asked.guard.bodies()}


@pytest.fixture
def listening(front, sshstation, programs):
    """A station that looks for certificates when a front says so, and else after a day. It has looked once."""
    def begin(*addresses):
        station = new_station(sshstation, front.office, front.url, policy=WEB, ahead=3600,
                              certificate=front.certificate("station"), trusted=front.authority / "ca.crt")
        if addresses:
            station.resolve(*addresses)
        # Nor does it look often in the minute after one has come.
        station.change("FOR_A_WHILE, LONG_ANSWER, TIMES_AS_LONG, LONGEST_INTERVAL = 0.02, 60,",
                       "FOR_A_WHILE, LONG_ANSWER, TIMES_AS_LONG, LONGEST_INTERVAL = 0.02, 0,")
        process = station.begin(programs, "--interval", "86400")
        until(lambda: children(process.pid))
        time.sleep(2)
        return process

    assert 200 == front.served.post("root", "web", WEB).status
    new_key("alice")
    return begin


def asks_by(front, process, number):
    """Somebody asks by a front, and the station signs."""
    message = issue("web/alice", key=pathlib.Path("alice.pub").read_text().strip(), **lasting(3600))
    assert 200 == front.ask(posting(f"/v1/requests/r{number}", message.encode()), "ana").status
    assert f"signed {number}\n".encode() == next_line(process.stdout)


@pytest.mark.front
def test_a_front_says_when_to_look(front, listening):
    """However long the station would wait otherwise."""
    process = listening()
    for number in range(1, 4):
        asks_by(front, process, number)
    assert 0 == stopped(process)[0]


@pytest.mark.front
def test_each_front_of_a_name_says_when_to_look(front, make_front, listening):
    """Each knows of its own messages alone. One that is away keeps nobody from hearing of the other's."""
    second = make_front(front.served.port, address="127.0.0.2", beside=front)
    process = listening("127.0.0.1", "127.0.0.2")
    for number, it in enumerate((front, second, second, front), 1):
        asks_by(it, process, number)
    second.end()
    asks_by(front, process, 5)
    second.begin()
    asks_by(second, process, 6)
    assert 0 == stopped(process)[0]


@pytest.mark.front
@pytest.mark.alone
@pytest.mark.parametrize("edits, is_often", [
    ([], False), ([("location = /v1/messages {", "location = /v1/nothing {")], True),
], ids=["both say it", "one doesn't"])
def test_the_office_is_asked_often_unless_each_front_says_when_to_look(alone, make_front, programs, edits, is_often):
    """20 times a second, and once a second otherwise."""
    with FalseOffice({}) as web:
        first = make_front(web.port)
        make_front(web.port, address="127.0.0.2", beside=first, edits=edits)
        station = Station(alone, first.url, alone.key, certificate=first.certificate("station"),
                          trusted=first.authority / "ca.crt")
        station.resolve("127.0.0.1", "127.0.0.2")
        station.begin(programs)
        web.begins_rounds(5)
        time.sleep(2)
        before = len(web.requests)
        time.sleep(4)
        assert is_often == (len(web.requests) - before > 20)


@pytest.fixture
def listing(alone, sshstation, room):
    """The guard of a station that publishes lists, with the office's list, which is approved."""
    alone.list, alone.lists = krl(3, [1, 2, 9], ca=alone.blob), Lists(sshstation, "lists.db", alone.ca)
    (room / "first").write_bytes(alone.list)
    assert alone.lists.state("first", "--begin").startswith("list ")
    return alone


def hanging(name, program):
    """Lines of the shell that hang in the place of ssh-keygen, or of the guard of lists."""
    others = f'[ "$1" = list ] || exec {program} "$@"\n' if name == "sshstation" else ""
    return f"{others}echo $$ >hangs\nexec sleep 600"


@pytest.mark.alone
@pytest.mark.parametrize("where", ["ssh-keygen", "sshstation", "GET /v1/krl ", "PUT /published "])
def test_certificates_are_signed_beside_a_list_that_hangs(listing, programs, room, where):
    """Whatever is slow about it: each new one has been delivered within a second."""
    is_program = "/" not in where
    with ListingOffice({serial: body(serial, ca=listing.blob) for serial in range(1, 21)}, listing.list,
                       None if is_program else where.encode()) as web:
        web.shows([])
        station = Station(listing, web.url, listing.key, lists=listing.lists)
        if is_program:
            station.runs_in_place_of(where, hanging(where, listing.program))
        process = station.begin(programs, "--publish-every", "1")
        until(lambda: web.hangs or (room / "hangs").exists())
        for serial in web.bodies:
            begun = time.monotonic()
            web.shows([serial])
            until(lambda: len(web.delivered) >= serial)
            assert time.monotonic() - begun < 1
        os.killpg(process.pid, signal.SIGKILL)
        assert b"published" not in process.stdout.read()


# What a guard of lists states that isn't of the list that it was given: only the comparison with that tells.
FALSE_STATEMENTS = {"another digest": lambda digest: f"list {NOBODY} 3 1000",
                    "another version": lambda digest: f"list {digest} 4 1000",
                    "a line more": lambda digest: f"list {digest} 3 1000\nlist {digest} 3 1000",
                    "no moment": lambda digest: f"list {digest} 3"}


@pytest.mark.parametrize("text", FALSE_STATEMENTS.values(), ids=FALSE_STATEMENTS)
def test_a_statement_of_another_list_is_not_signed(listing, room, text):
    def states(text):
        station.runs_in_place_of("sshstation", f'[ "$1" = list ] || exec {listing.program} "$@"\ncat {room}/stated')
        (room / "stated").write_text(f"{text}\n")

    with ListingOffice({}, listing.list) as web:
        station = Station(listing, web.url, listing.key, lists=listing.lists)
        states(text(digest_of(listing.list)))
        said = ["station: the list isn't published: sshstation's output isn't a statement of this list"]
        assert (1, [], said, []) == (*station.once(), web.published)
        states(f"list {digest_of(listing.list)} 3 1000")
        assert (0, ["published 3"], [], 1) == (*station.once(), len(web.published)), "it takes the right one"


def test_a_guard_of_lists_that_hangs_is_given_up(listing):
    with ListingOffice({}, listing.list) as web:
        station = Station(listing, web.url, listing.key, lists=listing.lists)
        station.change("LONGEST_READING = 20, 60, 30, 120, 60", "LONGEST_READING = 20, 60, 30, 2, 60")
        station.runs_in_place_of("sshstation", hanging("sshstation", listing.program))
        status, out, errors = station.once()
        assert (1, [], 1, []) == (status, out, len(errors), web.published)
        assert errors[0].startswith("station: the list isn't published: Command '['sshstation', 'list'")


def test_a_ca_of_lists_that_is_named_later_counts(listing, programs, room):
    other, cas = key_blob(0x12), room / "cas.pub"
    cas.write_text(listing.ca.read_text())
    listing.lists.cas = [cas]
    with ListingOffice({}, krl(4, [1, 2, 9], ca=listing.blob, more=section(other, [7]))) as web:
        process = Station(listing, web.url, listing.key, lists=listing.lists).begin(programs, "--publish-every", "1")
        assert b"station: the list isn't published: refused as OtherCa\n" == next_line(process.stderr)
        (room / "new.pub").write_text(listing.ca.read_text() + f"ssh-ed25519 {base64.b64encode(other).decode()} new\n")
        (room / "new.pub").rename(cas)
        assert b"published 4\n" == next_line(process.stdout)
        assert 0 == stopped(process)[0]


def test_a_station_that_ends_lets_the_guard_of_lists_end(listing, programs, room):
    """Which is in the middle of its file, also if the signal is sent to it as well, and a second time."""
    with ListingOffice({}, listing.list) as web:
        station = Station(listing, web.url, listing.key, lists=listing.lists)
        station.notes_the_end_of_a_guard("import time; time.sleep(3 * (sys.argv[1] == 'list'))")
        process = station.begin(programs)
        until(lambda: is_begun(process, b"list"))
        for _ in range(2):
            os.killpg(process.pid, signal.SIGTERM)
        assert (0, b"", b"") == (process.wait(60), process.stdout.read(), process.stderr.read())
    assert ["0", "0"] == station.ended.read_text().split()


def is_begun(process, word):
    """Whether a thread of a station has begun a program with this word."""
    begun = [it for task in pathlib.Path(f"/proc/{process.pid}/task").iterdir()
             for it in contents(task / "children").decode().split()]
    return any(word in contents(pathlib.Path(f"/proc/{it}/cmdline")).split(b"\0") for it in begun)


def test_a_station_that_ends_kills_ssh_keygen(listing, programs, room):
    with ListingOffice({}, listing.list) as web:
        station = Station(listing, web.url, listing.key, lists=listing.lists)
        station.runs_in_place_of("ssh-keygen", hanging("ssh-keygen", None))
        process = station.begin(programs)
        until(lambda: (room / "hangs").exists() and (room / "hangs").read_text().endswith("\n"))
        process.send_signal(signal.SIGTERM)
        assert (0, b"", b"") == (process.wait(20), process.stdout.read(), process.stderr.read())
    until(lambda: not is_running(int((room / "hangs").read_text())))


def is_running(pid):
    """Whether there is a process of this number that hasn't ended. Nobody may wait for it yet."""
    return contents(pathlib.Path(f"/proc/{pid}/stat")).rpartition(b")")[2].split()[:1] not in ([], [b"Z"])


@pytest.mark.parametrize("sign, status, to_all", [
    (signal.SIGTERM, 0, False), (signal.SIGTERM, 0, True), (signal.SIGINT, 130, True), (signal.SIGQUIT, 131, True),
    (signal.SIGHUP, 129, True)],
    ids=["a stop", "a stop of all processes", "the interrupt of a terminal", "its quit", "its end"])
def test_a_station_that_is_told_to_end_lets_its_guard_end(alone, programs, sign, status, to_all):
    """It closes its file and copies the log, also if the signal is sent to it as well, and a second time."""
    page = 4096
    with FalseOffice({1: body(ca=alone.blob)}) as web:
        station = Station(alone, web.url, alone.key)
        station.notes_the_end_of_a_guard()
        process = station.begin(programs)
        assert b"signed 1\n" == process.stdout.readline()
        web.shows([])
        web.begins_rounds(2)
        log = alone.db.with_name("guard.db-wal")
        assert page < log.stat().st_size
        for _ in range(2):
            with contextlib.suppress(ProcessLookupError):
                (os.killpg if to_all else os.kill)(process.pid, sign)
        assert status == process.wait(60)
        assert "0\n" == station.ended.read_text()
        assert not log.exists() or log.stat().st_size < page
        assert b"" == process.stderr.read()


def test_a_station_that_is_told_to_end_lets_its_guard_judge_to_the_end(alone, programs):
    """The body is there until then. A guard that doesn't end is killed, and that is said. A second signal changes
    nothing, and neither does a third of another kind."""
    with FalseOffice({1: body(ca=alone.blob)}, []) as web:
        station = Station(alone, web.url, alone.key)
        station.change("LONGEST_ENDING = 600, 60", "LONGEST_ENDING = 600, 2")
        process = station.begin(programs)
        until(lambda: web.requests, seconds=60)
        [guard] = children(process.pid)
        os.kill(guard, signal.SIGSTOP)
        web.shows([1])
        until(lambda: any(b"/body " in it for it in web.requests), seconds=60)
        time.sleep(1)
        process.send_signal(signal.SIGTERM)
        time.sleep(0.5)
        process.send_signal(signal.SIGINT)
        status, out, errors = stopped(process)
    assert (0, []) == (status, out)
    assert ["station: the guard is killed: not within 2 seconds"] == errors


# What a signal raises while Python deletes an object is lost.
LOST = """
import signal, sys
sys.path.insert(0, sys.argv[1])
from vethlumi_station import ending as station

class Deleted:
    def __del__(self):
        station.end_once(signal.SIGQUIT, None)

Deleted()
print("it goes on", {*station.ENDINGS} <= signal.pthread_sigmask(signal.SIG_BLOCK, []), flush=True)
station.end_if_told()
print("it hangs")
"""


def test_a_signal_that_is_lost_ends_the_station_at_the_next_round():
    done = run([sys.executable, "-c", LOST, PROGRAMS / "station"])
    assert (131, b"it goes on True\n") == (done.returncode, done.stdout)
    assert b"SystemExit" in done.stderr


def test_what_is_ignored_at_the_start_stays_so(alone, programs):
    """`nohup station` goes on when its terminal is closed."""
    with FalseOffice({1: body(ca=alone.blob)}, []) as web:
        station = Station(alone, web.url, alone.key)
        station.words = ["env", "--ignore-signal=HUP", *station.words]
        process = station.begin(programs)
        web.begins_rounds(1)
        process.send_signal(signal.SIGHUP)
        web.shows([1])
        assert b"signed 1\n" == process.stdout.readline()
        assert 0 == stopped(process)[0]


def test_two_stations_of_one_guard_are_one_too_many(asked, programs):
    """While a station runs, nothing else opens the guard's file: neither another station nor `bodies`."""
    process = asked.station.begin(programs)
    new_key("alice")
    issued(asked, "alice")
    until(lambda: asked.get("/v1/certs/1").status == 200)
    status, out, errors = asked.station.once()
    assert (1, [], "sshstation: Device") == (status, out, errors[0])
    assert (1, b"", b"sshstation: Device\n") == asked.guard.run("bodies", "--db", asked.guard.db)
    assert 0 == stopped(process)[0]
    assert ["1"] == [it[0] for it in asked.guard.bodies()]


# ---- offices that are restored or lost

def test_an_old_backup_gets_no_second_body_signed(asked, sshd, room, program, sshstation):
    """Serials that are out are refused until an administrator revokes them, and with them their first certificates."""
    office = asked.office
    for name in ("first", "second", "third"):
        new_key(name)
    issued(asked, "first")
    assert [1] == asked.station.sign()
    # A copy as it may be taken while the office serves.
    asked.process.send_signal(signal.SIGSTOP)
    for end in ("", "-wal"):
        shutil.copy(f"{office.db}{end}", room / f"old.db{end}")
    asked.process.send_signal(signal.SIGCONT)
    assert [2, 3] == [issued(asked, "second"), issued(asked, "third")]
    assert [2, 3] == asked.station.sign()
    certificate_of(asked, 2, "second")
    server = sshd(office.ca)
    assert server.grants("second")
    office.db = room / "old.db"
    with office.serving() as served:
        station = Station(asked.guard, served.url, ["--key", office.ca_key], ahead=3600)
        new_key("eve")
        assert [2, 3, 4] == [issued(served, "eve"), issued(served, "third"), issued(served, "eve")]
        said = ["station: not signed: 2, refused as SerialTaken: 2-3"]
        assert (1, ["signed 4"], said) == station.once()
        assert [409, 409] == [served.get(f"/v1/certs/{it}").status for it in (2, 3)]
        # The way past them.
        assert 200 == served.post("root", "past", revoke_range(2, 3)).status
        assert (0, [], []) == station.once()
        (room / "krl").write_bytes(served.get("/v1/krl").body)
    assert 1 == run(["ssh-keygen", "-Q", "-f", "krl", "second-cert.pub"]).returncode
    assert ["1", "2", "3", "4"] == [it[0] for it in asked.guard.bodies()]


def test_serials_that_are_used_up_before_the_office_assigns_them(asked):
    """A false office brings permitted bodies under them. The office's own come later, and are never signed."""
    asked.guard.key = ["--key", asked.office.ca_key]
    bodies = {serial: body(serial, ca=asked.blob) for serial in (2, 3, LAST_SERIAL)}
    assert (0, [f"signed {it}" for it in bodies], []) == shown(asked.guard, bodies)[:3]
    new_key("alice")
    assert [1, 2, 3, 4] == [issued(asked, "alice") for _ in range(4)]
    said = ["station: not signed: 2, refused as SerialTaken: 2-3"]
    assert (1, ["signed 1", "signed 4"], said) == asked.station.once()
    retired = asked.guard.run("retire", "--db", asked.guard.db, "--last", 4)
    assert (1, b"", b"sshstation: SerialApproved\n") == retired


def test_the_guard_knows_what_is_out_when_the_office_is_lost(asked):
    new_key("alice")
    for _ in range(3):
        issued(asked, "alice")
    before = int(time.time())
    assert [1, 2, 3] == asked.station.sign()
    texts = [asked.get(f"/v1/certs/{it}/body").body for it in (1, 2, 3)]
    certificate_of(asked, 2, "alice")
    asked.process.kill()
    asked.office.db.unlink()
    rows = asked.guard.bodies()
    assert [(str(it), digest_of(text), "web/alice") for it, text in enumerate(texts, 1)] \
        == [(serial, digest, key_id) for serial, digest, _, key_id in rows]
    assert all(before <= int(moment) <= time.time() for _, _, moment, _ in rows)
    assert texts == [asked.guard.body(it) for it in (1, 2, 3)]
    # A body and its signature are the certificate that was given out.
    text = asked.guard.body(2)
    given = pathlib.Path("alice-cert.pub").read_text()
    write_certificate("alice", text, signature_of(asked.office.ca_key, text))
    assert given.split()[1] == pathlib.Path("alice-cert.pub").read_text().split()[1]
    assert (1, b"", b"sshstation: UnknownSerial\n") == asked.guard.run("body", "--db", asked.guard.db, 4)


def test_a_guard_from_an_old_copy_may_approve_a_second_body(alone, room, sshstation):
    """So its file is never put back to go on with: the page says what to do in its place."""
    texts = [body(ca=alone.blob, nonce=bytes([place]) * 32) for place in (1, 2)]
    for place, text in enumerate(texts):
        (room / str(place)).write_bytes(text)
    shutil.copy(alone.db, room / "old.db")
    assert [f"sign 1 {digest_of(texts[0])}", "refuse SerialTaken"] == alone.judge("0", "1")
    alone.db = room / "old.db"
    assert [f"sign 1 {digest_of(texts[1])}", "refuse SerialTaken"] == alone.judge("1", "0")
    # A new file above the highest serial that is known approves neither.
    new = Guard(sshstation, "new.db", alone.ca, WEB, first=2)
    assert ["refuse OtherSerial"] * 2 == new.judge("0", "1")


@pytest.mark.slow
def test_an_approval_without_a_signature_outlives_the_policy(alone):
    """The right key is away, a false office has bodies approved, and the key comes back after the policy was narrowed,
    or after a body has ended. `bodies` shows both."""
    before = int(time.time()) + 30
    bodies = {1: body(ca=alone.blob), 2: body(2, ca=alone.blob, before=before)}
    run(["openssl", "genpkey", "-algorithm", "ed25519", "-out", "other.pem"], check=True)
    alone.key = ["--key", "other.pem"]
    said = "station: not signed: 2, the key isn't the CA's: its signature doesn't verify: 1-2"
    assert (1, [], [said], []) == shown(alone, bodies)
    alone.permit(department("web", principals="bob", extensions="permit-pty"))
    until(lambda: time.time() > before + 1)
    assert ["1", "2"] == [it[0] for it in alone.bodies()]
    alone.key = ["--key", alone.key_file]
    assert (0, ["signed 1", "signed 2"], []) == shown(alone, bodies)[:3]


# ---- where the key may lie

def served_with(make_office, sshstation, line, key, room, **environment):
    """An office of a CA, whose station signs a certificate for alice with this key."""
    office = make_office(ca=line)
    with office.serving() as served:
        served.post("root", "web", WEB)
        new_key("alice")
        issued(served, "alice")
        made = Station(new_guard(sshstation, office, policy=WEB), served.url, key, ahead=3600)
        assert [1] == made.sign(**environment)
        certificate_of(served, 1, "alice")
    return office


def test_a_key_in_an_agent_signs(make_office, sshstation, sshd, programs, room):
    new_key("ca")
    agent = begin_agent(programs, room / "agent")
    run(["ssh-add", "-q", "ca"], env=os.environ | agent, check=True)
    # The agent has the key, and no file has it any more.
    (room / "ca").unlink()
    line = (room / "ca.pub").read_text()
    office = served_with(make_office, sshstation, line, ["--agent", "ca.pub"], room, **agent)
    assert sshd(office.ca).grants("alice")


def test_an_agent_without_the_key_signs_nothing(alone, programs, room):
    agent = begin_agent(programs, room / "agent")
    alone.key = ["--agent", alone.ca]
    with FalseOffice({1: body(ca=alone.blob)}) as false:
        said = ["station: not signed: 1, the agent refused to sign with this key: 1"]
        made = Station(alone, false.url, alone.key)
        assert (1, [], said) == made.once(**agent)
        status, _, errors = made.once(SSH_AUTH_SOCK=str(room / "nobody"))
        assert (1, True) == (status, "No such file" in errors[0])


def test_an_agent_that_is_started_again_is_asked_again(make_office, sshstation, programs, room):
    """The connection stays open from one signature to the next, and is made anew when the agent has gone."""
    new_key("ca")
    guard = new_guard(sshstation, make_office(ca=(room / "ca.pub").read_text()), policy=WEB)
    blob = blob_of((room / "ca.pub").read_text())
    agent = begin_agent(programs, room / "agent")
    run(["ssh-add", "-q", "ca"], env=os.environ | agent, check=True)
    with FalseOffice({serial: body(serial, ca=blob) for serial in (1, 2, 3)}) as web:
        web.shows([1])
        station = Station(guard, web.url, ["--agent", "ca.pub"])
        process = station.begin(programs, env=station.environment | agent)
        assert b"signed 1\n" == process.stdout.readline()
        [running] = [it for it in pathlib.Path("/proc").glob("[0-9]*")
                     if f"ssh-agent\0-D\0-a\0{room}/agent\0".encode() == contents(it / "cmdline")]
        os.kill(int(running.name), signal.SIGTERM)
        until(lambda: not running.exists() or b"" == contents(running / "cmdline"))
        (room / "agent").unlink(missing_ok=True)
        web.shows([2])
        assert re.match(rb"station: not signed: 1, .*No such file", next_line(process.stderr))
        begin_agent(programs, room / "agent")
        run(["ssh-add", "-q", "ca"], env=os.environ | agent, check=True)
        # A round that had begun when the pending rows changed signs the first once more.
        assert any(b"signed 2\n" == process.stdout.readline() for _ in range(2))
        assert 0 == stopped(process)[0]


def contents(path):
    with contextlib.suppress(OSError):
        return path.read_bytes()
    return b""


def test_an_agent_that_hangs_delays_and_loses_nothing(make_office, sshstation, programs, room):
    new_key("ca")
    guard = new_guard(sshstation, make_office(ca=(room / "ca.pub").read_text()), policy=WEB)
    blob = blob_of((room / "ca.pub").read_text())
    bodies = {serial: body(serial, ca=blob) for serial in range(1, 6)}
    with FalseOffice(bodies) as web, socket.socket(socket.AF_UNIX) as hung:
        hung.bind(str(room / "agent"))
        hung.listen(8)
        station = Station(guard, web.url, ["--agent", "ca.pub"])
        station.change("LONGEST_READING = 20, 60, 30, 120, 60", "LONGEST_READING = 20, 60, 2, 120, 60")
        process = station.begin(programs, env=station.environment | {"SSH_AUTH_SOCK": str(room / "agent")})
        # It hangs once in a round, however many wait for it.
        assert re.match(rb"station: not signed: [1-5], not within 2 seconds: 1", next_line(process.stderr))
        (room / "agent").unlink()
        agent = begin_agent(programs, room / "agent")
        run(["ssh-add", "-q", "ca"], env=os.environ | agent, check=True)
        # The office goes on listing what it has.
        lines = {process.stdout.readline() for _ in bodies}
        while lines != {f"signed {serial}\n".encode() for serial in bodies}:
            lines.add(process.stdout.readline())
        assert 0 == stopped(process)[0]


MODULE = "/usr/lib/softhsm/libsofthsm2.so"


@pytest.fixture
def token(room):
    """A token of softhsm2 in which an Ed25519 key was made, the CA's line, and the environment."""
    (room / "tokens").mkdir()
    (room / "softhsm2.conf").write_text(f"directories.tokendir = {room}/tokens\nobjectstore.backend = file\n")
    environment = {"SOFTHSM2_CONF": str(room / "softhsm2.conf")}
    how = {"env": os.environ | environment, "check": True}
    pins = ["--so-pin", "87654321", "--pin", "12345678"]
    run(["softhsm2-util", "--init-token", "--free", "--label", "ca", *pins], **how)
    pkcs11 = ["pkcs11-tool", "--module", MODULE, "--login", "--pin", "12345678"]
    run([*pkcs11, "--keypairgen", "--key-type", "EC:edwards25519", "--label", "ca", "--id", "01"], **how)
    shown_key = run([*pkcs11, "--list-objects", "--type", "pubkey"], **how).stdout.decode()
    # The point is the 32 bytes of the key, as a string of ASN.1.
    point = re.search(r"EC_POINT:\s+0420([0-9a-f]{64})", shown_key)[1]
    blob = string(b"ssh-ed25519") + string(bytes.fromhex(point))
    write_secret("pin", "12345678\n")
    return f"ssh-ed25519 {base64.b64encode(blob).decode()} in a token\n", environment


def test_a_key_in_a_token_signs(make_office, sshstation, sshd, token, room):
    line, environment = token
    key = ["--pkcs11", MODULE, "--id", "01", "--pin-file", "pin"]
    office = served_with(make_office, sshstation, line, key, room, **environment)
    assert sshd(office.ca).grants("alice")


TOKENS_THAT_DO_NOT_SIGN = [
    ("no such key", ["--pkcs11", MODULE, "--id", "02"], "the token has no private keys with the ID 02"),
    ("no such token", ["--pkcs11", MODULE, "--id", "01", "--token", "no"],
     r"no such token: 'ca' in slot \d+"),
    ("no such slot", ["--pkcs11", MODULE, "--id", "01", "--slot", "7"], r"no such token: 'ca' in slot \d+"),
    ("no such module", ["--pkcs11", "none.so", "--id", "01"], r"Load \(none\.so\)"),
]


@pytest.mark.parametrize("key, why", [it[1:] for it in TOKENS_THAT_DO_NOT_SIGN],
                         ids=[it[0] for it in TOKENS_THAT_DO_NOT_SIGN])
def test_a_token_that_does_not_sign_is_said(sshstation, make_office, token, key, why):
    line, environment = token
    guard = new_guard(sshstation, make_office(ca=line), policy=WEB)
    with FalseOffice({1: body(ca=blob_of(line))}) as false:
        status, out, errors = Station(guard, false.url, [*key, "--pin-file", "pin"]).once(**environment)
    assert (1, [], 1) == (status, out, len(errors))
    assert re.fullmatch(f"station: not signed: 1, {why}: 1", errors[0]), errors


def test_a_pin_that_is_refused_ends_the_station(sshstation, make_office, token):
    """At the first try, whatever is pending: a token locks after a few. The unit doesn't start it again then."""
    line, environment = token
    write_secret("pin", "11111111\n")
    guard = new_guard(sshstation, make_office(ca=line), policy=WEB)
    with FalseOffice({serial: body(serial, ca=blob_of(line)) for serial in (1, 2, 3)}) as false:
        made = Station(guard, false.url, ["--pkcs11", MODULE, "--id", "01", "--pin-file", "pin"])
        said = ["station: the token refuses the PIN: CKR_PIN_INCORRECT (0x000000A0)"]
        assert (3, [], said, []) == (*made.once(**environment), false.requests)
    unit = (PROGRAMS / "units/office-station@.service").read_text()
    assert "RestartPreventExitStatus=3" in unit.splitlines()


def test_the_pin_is_tried_at_no_other_token(sshstation, make_office, token, room):
    """Of several tokens one has to be named. The PIN of the second one is another."""
    line, environment = token
    how = {"env": os.environ | environment, "check": True}
    pins = ["--so-pin", "87654321", "--pin", "22222222"]
    run(["softhsm2-util", "--init-token", "--free", "--label", "other", *pins], **how)
    guard = new_guard(sshstation, make_office(ca=line), policy=WEB)
    key = ["--pkcs11", MODULE, "--id", "01", "--pin-file", "pin"]
    with FalseOffice({1: body(ca=blob_of(line))}) as false:
        status, out, errors = Station(guard, false.url, key).once(**environment)
        assert (1, [], 1) == (status, out, len(errors))
        named = re.fullmatch(r"station: not signed: 1, several tokens: choose one with --token or --slot: "
                             r"'(\w+)' in slot (\d+), '(\w+)' in slot (\d+): 1", errors[0])
        assert {"ca", "other"} == {named[1], named[3]}
        slot = {named[1]: named[2], named[3]: named[4]}["ca"]
        for word in (["--token", "ca"], ["--slot", slot]):
            assert (0, ["signed 1"], []) == Station(guard, false.url, [*key, *word]).once(**environment)
        said = ["station: the token refuses the PIN: CKR_PIN_INCORRECT (0x000000A0)"]
        assert (3, [], said) == Station(guard, false.url, [*key, "--token", "other"]).once(**environment)


def test_a_token_that_hangs_or_crashes_delays_and_loses_nothing(sshstation, make_office, token, programs):
    """What asks it is a process of its own, which the station ends if it doesn't answer, and begins again."""
    line, environment = token
    guard = new_guard(sshstation, make_office(ca=line), policy=WEB)
    with FalseOffice({serial: body(serial, ca=blob_of(line)) for serial in (1, 2, 3)}) as web:
        web.shows([1])
        station = Station(guard, web.url, ["--pkcs11", MODULE, "--id", "01", "--pin-file", "pin"])
        station.change("LONGEST_READING = 20, 60, 30, 120, 60", "LONGEST_READING = 20, 60, 5, 120, 60")
        process = station.begin(programs, env=station.environment | environment)
        assert b"signed 1\n" == process.stdout.readline()

        def asks():
            [found] = [it for it in children(process.pid) if b"--asks-a-token" in contents(
                pathlib.Path(f"/proc/{it}/cmdline"))]
            return found
        os.kill(asks(), signal.SIGSTOP)
        web.shows([2])
        assert b"station: not signed: 1, not within 5 seconds: 2\n" == next_line(process.stderr)
        assert b"signed 2\n" == process.stdout.readline()
        os.kill(asks(), signal.SIGKILL)
        web.shows([3])
        assert b"station: not signed: 1, the token's module has crashed: 3\n" == next_line(process.stderr)
        assert b"signed 3\n" == process.stdout.readline()
        assert 0 == stopped(process)[0]


def test_no_secret_is_an_argument(sshstation, make_office, token, programs):
    """Other users of the machine see each program's arguments. The PIN isn't in the environment, either."""
    line, environment = token
    guard = new_guard(sshstation, make_office(ca=line), policy=WEB)
    with FalseOffice({1: body(ca=blob_of(line))}) as false:
        made = Station(guard, false.url, ["--pkcs11", MODULE, "--id", "01", "--pin-file", "pin"])
        process = made.begin(programs, env=made.environment | environment)
        assert b"signed 1\n" == process.stdout.readline()
        seen = [contents(pathlib.Path(f"/proc/{pid}/{name}")) for pid in (process.pid, *children(process.pid))
                for name in ("cmdline", "environ")]
        assert 6 == len(seen) and all(seen) and not any(b"12345678" in it for it in seen)
        assert 0 == stopped(process)[0]


LONG_NAMES = [f"{letter * 52}@example.org" for letter in "abcdefghijklmnop"]
LONG_DEPARTMENT = "d" * 32
LONG_POLICY = department(LONG_DEPARTMENT, principals=",".join(LONG_NAMES), options=EVERY_OPTION,
                         extensions=EVERY_EXTENSION, maxlife=7200)


def longest_body(ca):
    """The longest body of all: each of its fields is as long as the formats allow. Some programs sign 1,024 bytes at
    most."""
    networks = ",".join(f"100.100.{place}.128/25" for place in range(100, 108))
    options = [("force-command", "/" + "x" * 199), ("source-address", networks), ("verify-required", "")]
    made = body(ca=ca, key_id=f"{LONG_DEPARTMENT}/{'k' * 64}", principals=LONG_NAMES, options=options,
                extensions=EVERY_EXTENSION)
    assert 1976 == len(made)
    return made


@pytest.mark.parametrize("kind", ["file", "agent", "token"])
def test_the_longest_body_is_signed_with_each_kind_of_key(sshstation, make_office, request, programs, room, kind):
    environment = {}
    if kind == "token":
        line, environment = request.getfixturevalue("token")
        key = ["--pkcs11", MODULE, "--id", "01", "--pin-file", "pin"]
    else:
        run(["openssl", "genpkey", "-algorithm", "ed25519", "-out", "ca.pem"], check=True)
        line = run([PROGRAMS / "station/ca-line", "ca.pem"], check=True).stdout.decode()
        key = ["--key", "ca.pem"]
    if kind == "agent":
        new_key("ca")
        line = (room / "ca.pub").read_text()
        environment = begin_agent(programs, room / "agent")
        run(["ssh-add", "-q", "ca"], env=os.environ | environment, check=True)
        key = ["--agent", "ca.pub"]
    guard = new_guard(sshstation, make_office(ca=line), policy=LONG_POLICY)
    made = longest_body(blob_of(line))
    with FalseOffice({1: made}) as false:
        assert (0, ["signed 1"], []) == Station(guard, false.url, key, ahead=3600).once(**environment)
    signature = base64.b64decode(false.delivered[0].split()[-1])[-64:]
    write_certificate("long", made, signature)
    # ssh-keygen reads it, and names the CA that has signed it.
    told = run(["ssh-keygen", "-L", "-f", "long-cert.pub"], check=True).stdout.decode()
    assert all(it in told for it in LONG_NAMES)
    public = ["-pubin", "-keyform", "DER", "-inkey", "key.der", "-rawin", "-in", "body", "-sigfile", "signature"]
    pathlib.Path("key.der").write_bytes(bytes.fromhex("302a300506032b6570032100") + blob_of(line)[-32:])
    pathlib.Path("body").write_bytes(made)
    pathlib.Path("signature").write_bytes(signature)
    assert 0 == run(["openssl", "pkeyutl", "-verify", *public]).returncode


# ---- a rollover

def test_a_rollover_with_two_stations(asked, make_office, sshstation, programs, room, sshd):
    """Each station signs for its CA and leaves the other's alone. The ranges of their guards are disjoint, so no serial
    has two signed certificates."""
    new = make_office("new.db")
    for name in ("old", "later"):
        new_key(name)
    cas = room / "cas.pub"
    cas.write_text(asked.office.ca.read_text())
    issued(asked, "old")
    assert [1] == asked.station.sign()
    certificate_of(asked, 1, "old")
    since = int(asked.post("root", "roll", rollover(new.ca.read_text().strip())).text.split()[-1])
    assert 2 == since
    guard = asked.guard
    assert f"retired 1 {since - 1}\n".encode() == guard.must("retire", "--db", guard.db, "--last", since - 1)
    guards = [guard, Guard(sshstation, "new-guard.db", new.ca, WEB, first=since)]
    cas.write_text(asked.office.ca.read_text() + new.ca.read_text())
    keys = [asked.office.ca_key, new.ca_key]
    stations = [Station(it, asked.url, ["--key", key], other_cas=[cas], ahead=3600) for it, key in zip(guards, keys)]
    running = [it.begin(programs) for it in stations]
    assert [2, 3] == [issued(asked, "later"), issued(asked, "later")]
    until(lambda: asked.get("/v1/pending").body == b"")
    certificate_of(asked, 3, "later")
    until(lambda: all(children(it.pid) for it in running), seconds=60)
    ended = [stopped(running[0]), stopped(running[1], lines=2)]
    assert [(0, [], []), (0, ["signed 2", "signed 3"], [])] == ended
    assert [["1"], ["2", "3"]] == [[row[0] for row in it.bodies()] for it in guards]
    # The old CA can't be had for a serial of the new one, nor the new one for an old serial.
    for it, office, serial in ((guards[0], asked.office, 2), (guards[1], new, 1)):
        (room / "text").write_bytes(body(serial, ca=blob_of(office.ca.read_text()), nonce=bytes(32)))
        assert ["refuse OtherSerial"] == it.judge("text")
    assert (1, b"", b"sshstation: SerialApproved\n") == guards[1].run("retire", "--db", guards[1].db, "--last", 2)
    server = sshd(asked.office.ca, new.ca)
    assert server.grants("old") and server.grants("later")


# ---- a guard that is killed

ROUNDS = 200


@pytest.mark.slow
@pytest.mark.once
def test_a_guard_that_is_killed_approves_one_body_for_a_serial(alone, room):
    """Each of these commands judges two bodies of one serial, and is killed at some moment of its run, every other one
    after its first line. A line that was printed holds for ever."""
    def files(serial):
        texts = [body(serial, ca=alone.blob, nonce=bytes([place]) * 32) for place in (1, 2)]
        for place, text in enumerate(texts):
            (room / f"body-{place}").write_bytes(text)
        return [f"sign {serial} {digest_of(text)}" for text in texts]

    begun = time.monotonic()
    for serial in (ROUNDS + 1, ROUNDS + 2):
        signs = files(serial)
        assert [signs[0], "refuse SerialTaken"] == alone.judge("body-0", "body-1")
    usual = (time.monotonic() - begun) / 2
    printed = []
    for serial in range(1, ROUNDS + 1):
        signs = files(serial)
        words = [alone.program, "judge", "--db", alone.db, "--policy", alone.policy, "--ahead", str(LATEST)]
        process = subprocess.Popen([*words, "body-0", "body-1"], stdout=subprocess.PIPE, stderr=subprocess.DEVNULL)
        first = process.stdout.readline() if serial % 2 else b""
        time.sleep(random.uniform(0, usual / 10 if first else 1.2 * usual))
        process.send_signal(signal.SIGKILL)
        lines = (first + process.communicate()[0]).decode().splitlines()
        printed.append(len(lines))
        # The second body comes first now. It is approved only if the first one wasn't.
        again = alone.judge("body-1", "body-0")
        assert sorted(again) in (["refuse SerialTaken", signs[0]], ["refuse SerialTaken", signs[1]])
        assert not lines or lines[0] in again, f"{serial}: {lines} was printed before the kill, and then {again}"
    assert min(printed) == 0 < max(printed), "some were killed before their first line, and some after it"
    rows = alone.bodies()
    assert [str(it) for it in range(1, ROUNDS + 3)] == [it[0] for it in rows]
    assert b"ok\n" == run(["sqlite3", alone.db, "PRAGMA integrity_check"], check=True).stdout
