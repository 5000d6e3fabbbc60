"""What the front of programs/front sends on to the office, and for whom, and what it answers itself.

The office behind it is one that records what it is sent."""
import collections
import ssl
import subprocess
import time

import pytest

from fronts import Front, has_ipv6
from recording import Recorder, composed, getting, posting, statuses, staying
from running import Programs, left_out, rest, run, until

pytestmark = [pytest.mark.front, pytest.mark.xdist_group("front")]


# ---- a front before a recorder, and certificates that nobody should take

def made_by_openssl(folder, name, subject, ca, days=()):
    """A client's key and certificate in one file, which programs/front/authority would not make."""
    file = folder / name
    run(["openssl", "req", "-new", "-newkey", "ec", "-pkeyopt", "ec_paramgen_curve:P-256", "-nodes", "-utf8", "-keyout",
         f"{file}.key", "-subj", subject, "-out", f"{file}.csr"], check=True)
    file.with_suffix(".ext").write_text("extendedKeyUsage = clientAuth\n")
    run(["openssl", "x509", "-req", "-in", f"{file}.csr", "-CA", f"{ca}.crt", "-CAkey", f"{ca}.key", "-extfile",
         f"{file}.ext", "-out", f"{file}.crt", *days], check=True)
    file.with_suffix(".pem").write_bytes(file.with_suffix(".key").read_bytes() + file.with_suffix(".crt").read_bytes())


SUBJECTS = {
    "as-station": "/CN=station", "as-root": "/CN=root", "as-capitals": "/OU=Office/CN=Station",
    "as-more": "/O=example/CN=ana", "as-two": "/CN=ana/CN=root", "as-joined": "/CN=ana+CN=root",
    "as-slash": "/CN=ana\\/requests\\/k-1", "as-comma": "/CN=root,OU=office", "as-line": "/CN=ana\n",
    "as-ana": "/CN=Ana", "as-long": "/CN=" + 33 * "a", "as-wide": "/CN=anä", "as-empty": "/",
    "as-reading-host": "/OU=reader/CN=host-web", "as-long-host": "/CN=host-" + 28 * "a",
}

SETTINGS_OF_ENDED = """
[ca]
default_ca = ended
[ended]
database = ended.index
new_certs_dir = .
certificate = ca.crt
private_key = ca.key
default_md = sha256
rand_serial = yes
policy = any
x509_extensions = client
[any]
commonName = supplied
[client]
extendedKeyUsage = clientAuth
"""


def odd_certificates(folder):
    for name, subject in SUBJECTS.items():
        made_by_openssl(folder, name, subject, folder / "ca")
    # Another authority of the same name, and ana as one.
    run(["openssl", "req", "-x509", "-new", "-newkey", "ec", "-pkeyopt", "ec_paramgen_curve:P-256", "-nodes", "-keyout",
         folder / "other-ca.key", "-out", folder / "other-ca.crt", "-subj", "/CN=the authority of the front"],
        check=True)
    made_by_openssl(folder, "other", "/CN=ana", folder / "other-ca")
    ana = (folder / "ana.pem").read_text()
    (folder / "ana.crt").write_text(ana[ana.index("-----BEGIN CERT"):])
    (folder / "ana.key").write_text(ana[:ana.index("-----BEGIN CERT")])
    made_by_openssl(folder, "self", "/CN=ana", folder / "ana")
    # One that ended in 2020, for which `openssl ca` takes a date.
    run(["openssl", "req", "-new", "-key", folder / "ana.key", "-subj", "/CN=ana", "-out", folder / "ana.csr"],
        check=True)
    (folder / "ended.index").touch()
    (folder / "ended.conf").write_text(SETTINGS_OF_ENDED)
    run(["openssl", "ca", "-batch", "-notext", "-config", "ended.conf", "-startdate", "200101000000Z", "-enddate",
         "200102000000Z", "-in", "ana.csr", "-out", "ended.crt"], check=True, cwd=folder)
    (folder / "ended.pem").write_text((folder / "ana.key").read_text() + (folder / "ended.crt").read_text())
    (folder / "server.pem").write_bytes((folder / "server.key").read_bytes() + (folder / "server.crt").read_bytes())


@pytest.fixture(scope="module")
def recorded(authority, tmp_path_factory):
    """A front before an office that records; ana's friend bob had a certificate, which was taken back."""
    programs = Programs()
    with Recorder() as recorder:
        front = Front(programs, tmp_path_factory.mktemp("recorded") / "front", authority, recorder.port)
        front.recorder = recorder
        (front.conf / "ca-keys").write_text("ssh-ed25519 AAAA a\nssh-ed25519 BBBB b\n")
        (front.state / "published").write_text("published\n")
        front.make("host", "web")
        odd_certificates(front.authority)
        front.make("caller", "bob")
        take_back(front, "bob")
        front.reload()
        yield front
        programs.end_all()


def take_back(front, name):
    front.make("revoke", front.certificate(name))
    (front.conf / "crl.pem").write_bytes((front.authority / "crl.pem").read_bytes())


# ---- what each request makes the front send on

WHOLE = "/v1/callers/root/requests/k-1"
ANA = "POST /v1/callers/ana/requests/k-1"
MESSAGE = "/v1/requests/k-1"
CHUNKED = b"Transfer-Encoding: chunked"
SMUGGLED = b"0\r\n\r\n" + posting(WHOLE)
HELLO = [composed(ANA, b"hello")]
LIST = [composed("GET /v1/krl", length=False)]
FORGED = [b"X-Forwarded-User: root", b"X-Remote-User: root", b"X-Original-URL: " + WHOLE.encode(),
          b"X-HTTP-Method-Override: GET", b"X-SSL-Client-S-DN: CN=root,OU=office", b"Caller: root", b"Upgrade: h2c",
          b"Connection: Upgrade, HTTP2-Settings", b"HTTP2-Settings: AAMAAABkAARAAAAAAAIAAAAA"]

# What, the request of ana's client, the statuses, and what the office is sent.
GUISES = [
    ("a message", posting(MESSAGE), [200], HELLO),
    ("another caller's path, given whole", posting(WHOLE), [404], []),
    ("the own path, given whole", posting("/v1/callers/ana/requests/k-1"), [404], []),
    ("a path with ..", posting("/v1/requests/../callers/root/requests/k-1"), [404], []),
    ("a path with .. that leads back", posting("/v1/callers/../requests/k-1"), [404], []),
    ("a path with %2e%2e%2f", posting("/v1/requests/%2e%2e%2fcallers%2froot%2frequests%2fk-1"), [404], []),
    ("a path with %2f", posting("/v1/requests/k-1%2f..%2f..%2fcallers%2froot%2frequests%2fk-1"), [404], []),
    ("a letter that is encoded", posting("/v1/%72equests/k-1"), [404], []),
    ("a key that is encoded", posting("/v1/requests/%6b-1"), [404], []),
    ("an encoded line feed", posting("/v1/requests/k-1%0d%0aHost:%20root"), [404], []),
    ("an encoded space", posting("/v1/requests/k-1%20HTTP/1.1"), [404], []),
    ("an encoded NUL", posting("/v1/requests/k-1%00"), [400], []),
    ("a space in the path", posting("/v1/requests/k-1 /v1/krl"), [400], []),
    ("doubled slashes before the path", posting("//v1/requests/k-1"), [404], []),
    ("doubled slashes in the path", posting("/v1//callers//root//requests//k-1"), [404], []),
    ("a slash behind the path", posting("/v1/requests/k-1/"), [404], []),
    ("a query", posting("/v1/requests/k-1?caller=root"), [404], []),
    ("a query that is empty", posting("/v1/requests/k-1?"), [404], []),
    ("a fragment", posting("/v1/requests/k-1#/../../callers/root"), [404], []),
    ("a semicolon", posting("/v1/requests/k-1;caller=root"), [404], []),
    ("a backslash", posting("/v1/requests\\..\\callers\\root"), [404], []),
    ("no key", posting("/v1/requests/"), [404], []),
    ("a key of 33 letters", posting("/v1/requests/" + 33 * "k"), [404], []),
    ("a key of 32 letters", posting("/v1/requests/" + 32 * "k"), [200],
     [composed("POST /v1/callers/ana/requests/" + 32 * "k", b"hello")]),
    ("a key with a capital letter", posting("/v1/requests/K-1"), [404], []),
    ("a path in capital letters", posting("/V1/REQUESTS/k-1"), [404], []),
    ("a target of 8,100 bytes", getting("/" + 8099 * "a"), [404], []),
    ("a target of 9,000 bytes", getting("/" + 8999 * "a"), [414], []),
    ("an absolute target", posting("http://localhost/v1/requests/k-1"), [200], HELLO),
    ("an absolute target of another host", posting("https://root/v1/requests/k-1"), [200], HELLO),
    ("an absolute target with a path given whole", posting(f"http://localhost{WHOLE}"), [404], []),
    ("an absolute target without a path", posting("http://localhost?/v1/requests/k-1"), [404], []),
    ("a target that is a star", getting("*", "OPTIONS"), [400], []),
    ("the target of CONNECT", getting("root:443", "CONNECT"), [400], []),
    ("the front's own names of locations", getting("/@say_unknown"), [404], []),
    ("other header lines", posting(MESSAGE, b"hello", *FORGED), [200], HELLO),
    ("header lines with _ and a dot", posting(MESSAGE, b"hello", b"content_length: 0", b"Transfer.Encoding: chunked"),
     [200], HELLO),
    ("a header line of 9,000 bytes", posting(MESSAGE, b"hello", b"X: " + 8997 * b"x"), [400], []),
    ("five header lines of 8,000 bytes", posting(MESSAGE, b"hello", *5 * [b"X: " + 7997 * b"x"]), [400], []),
    ("two lines Host", posting(MESSAGE, b"hello", b"Host: root"), [400], []),
    ("a line with a NUL", posting(MESSAGE, b"hello", b"X: a\0b"), [400], []),
    ("lines that end with LF alone", posting(MESSAGE).replace(b"\r\n", b"\n"), [200], HELLO),
    ("a chunked body", posting(MESSAGE, b"2\r\nhe\r\n3\r\nllo\r\n0\r\n\r\n", CHUNKED), [200], HELLO),
    ("a chunk with an extension", posting(MESSAGE, b"5;a=\"b\"\r\nhello\r\n0\r\n\r\n", CHUNKED), [200], HELLO),
    ("chunks with a line behind them", posting(MESSAGE, b"5\r\nhello\r\n0\r\nHost: root\r\n\r\n", CHUNKED), [200],
     HELLO),
    ("a request behind a chunked body", staying(posting(MESSAGE, SMUGGLED, CHUNKED)), [200, 404], [composed(ANA)]),
    ("a request behind a body", staying(posting(MESSAGE, b"hello" + posting(WHOLE), b"Content-Length: 5")), [200, 404],
     HELLO),
    ("a length and chunks", posting(MESSAGE, SMUGGLED, CHUNKED, b"Content-Length: 5"), [400], []),
    ("chunks and a length", posting(MESSAGE, SMUGGLED, b"Content-Length: 5", CHUNKED), [400], []),
    ("a length, and chunks with a space before the colon",
     posting(MESSAGE, b"hello", b"Content-Length: 5", b"Transfer-Encoding : chunked"), [400], []),
    ("two lengths", posting(MESSAGE, b"hello", b"Content-Length: 5", b"Content-Length: 0"), [400], []),
    ("two lengths that are alike", posting(MESSAGE, b"hello", b"Content-Length: 5", b"Content-Length: 5"), [400], []),
    ("two lengths in one line", posting(MESSAGE, b"hello", b"Content-Length: 5, 5"), [400], []),
    ("a length with a sign", posting(MESSAGE, b"hello", b"Content-Length: +5"), [400], []),
    ("a length below nothing", posting(MESSAGE, b"hello", b"Content-Length: -5"), [400], []),
    ("a length in base 16", posting(MESSAGE, b"hello", b"Content-Length: 0x5"), [400], []),
    ("a length of 2^64 + 5", posting(MESSAGE, b"hello", b"Content-Length: %d" % (2 ** 64 + 5)), [400], []),
    ("chunks by another name", posting(MESSAGE, SMUGGLED, b"Transfer-Encoding: xchunked"), [501], []),
    ("chunks named twice", posting(MESSAGE, SMUGGLED, CHUNKED, CHUNKED), [400], []),
    ("chunks that are packed", posting(MESSAGE, SMUGGLED, b"Transfer-Encoding: gzip, chunked"), [501], []),
    ("a chunk of no size", posting(MESSAGE, b"zz\r\nhello\r\n0\r\n\r\n", CHUNKED), [400], []),
    ("a chunk of a size below nothing", posting(MESSAGE, b"-5\r\nhello\r\n0\r\n\r\n", CHUNKED), [400], []),
    ("a chunk of 2^64 + 5 bytes", posting(MESSAGE, b"10000000000000005\r\nhello\r\n0\r\n\r\n", CHUNKED), [400], []),
    ("no length", posting(MESSAGE, b"", b"Content-Length: x").replace(b"Content-Length: x\r\n", b""), [200],
     [composed(ANA, length=False)]),
    ("a body of 16384 bytes", posting(MESSAGE, 16384 * b"x"), [200], [composed(ANA, 16384 * b"x")]),
    ("a body of 16385 bytes", posting(MESSAGE, 16385 * b"x"), [413], []),
    ("chunks of 16385 bytes", posting(MESSAGE, b"4001\r\n" + 16385 * b"x" + b"\r\n0\r\n\r\n", CHUNKED), [413], []),
    ("a page's script of another site", posting(MESSAGE, b"hello", b"Origin: https://evil.example"), [403], []),
    ("a page without an origin", posting(MESSAGE, b"hello", b"Origin: null"), [403], []),
    ("a page of the front itself", posting(MESSAGE, b"hello", b"Origin: https://localhost"), [403], []),
    *[(f"a browser's fetch, {site}", posting(MESSAGE, b"hello", b"Sec-Fetch-Site: " + site.encode()), [403], [])
      for site in ("cross-site", "same-site", "same-origin", "none")],
    ("a page's script with both lines", posting(MESSAGE, b"hello", b"origin: null", b"SEC-FETCH-SITE: cross-site"),
     [403], []),
    ("what a browser asks before it posts", getting(MESSAGE, "OPTIONS", b"Origin: https://evil.example",
                                                   b"Access-Control-Request-Method: POST"), [405], []),
    *[(f"the method {method} for a message", getting(MESSAGE, method), [405], [])
      for method in ("GET", "HEAD", "PUT", "DELETE", "PATCH", "OPTIONS", "TRACE", "PROPFIND")],
    ("a method in small letters", posting(MESSAGE).replace(b"POST", b"post", 1), [400], []),
    *[(f"the method {method} for the list", posting("/v1/krl").replace(b"POST", method.encode(), 1), [405], [])
      for method in ("POST", "HEAD", "DELETE")],
    ("the list with a body", posting("/v1/krl").replace(b"POST", b"GET", 1), [200], LIST),
    ("a part of the list", getting("/v1/krl", "GET", b"Range: bytes=0-0"), [200], LIST),
    ("the list, unless it is as old", getting("/v1/krl", "GET", b"If-Modified-Since: Fri, 01 Jan 2100 00:00:00 GMT",
                                              b"If-None-Match: *"), [200], LIST),
    ("the list with a query", getting("/v1/krl?x"), [404], []),
    ("the list as an encoded path", getting("/v1/%6brl"), [404], []),
    ("the list in capital letters", getting("/v1/KRL"), [404], []),
    ("the table", getting("/v1/table"), [200], [composed("GET /v1/table", length=False)]),
    ("the table, asked by a page of another site", getting("/v1/table", "GET", b"Origin: https://evil.example"), [200],
     [composed("GET /v1/table", length=False)]),
    ("what waits", getting("/v1/pending"), [200], [composed("GET /v1/pending", length=False)]),
    ("a certificate", getting("/v1/certs/12"), [200], [composed("GET /v1/certs/12", length=False)]),
    ("a body", getting("/v1/certs/12/body"), [200], [composed("GET /v1/certs/12/body", length=False)]),
    ("a serial with a zero before it", getting("/v1/certs/012"), [404], []),
    ("a serial of twenty digits", getting("/v1/certs/" + 20 * "1"), [404], []),
    ("a path that is none", getting("/"), [404], []),
    ("a path of nginx's own folders", getting("/index.html"), [404], []),
    ("the CAs' key lines", getting("/ca-keys"), [200], []),
    ("a file beside them", getting("/server.key"), [404], []),
    ("a file beside them, by ..", getting("/ca-keys/../server.key"), [404], []),
    ("the key lines with a query", getting("/ca-keys?x"), [404], []),
    ("the key lines as a folder", getting("/ca-keys/"), [404], []),
    ("a message for the key lines", posting("/ca-keys"), [405], []),
    ("HTTP/1.0 without a host", posting(MESSAGE).replace(b"1.1", b"1.0", 1).replace(b"Host: localhost\r\n", b""), [200],
     HELLO),
    ("HTTP/1.0 with chunks", posting(MESSAGE, SMUGGLED, CHUNKED).replace(b"1.1", b"1.0", 1), [400], []),
    ("HTTP/1.1 without a host", posting(MESSAGE).replace(b"Host: localhost\r\n", b""), [400], []),
    ("HTTP/2.0 in the first line", posting(MESSAGE).replace(b"1.1", b"2.0", 1), [505], []),
    ("tabs in the first line", posting(MESSAGE).replace(b" ", b"\t", 2), [400], []),
    ("empty lines before the first", b"\r\n\r\n" + posting(MESSAGE), [200], HELLO),
    ("a line that is folded", posting(MESSAGE, b"hello", b"X: a\r\n b: c"), [400], []),
    ("a coding that is folded", posting(MESSAGE, b"hello", b"Content-Length: 5", b"Transfer-Encoding:\r\n chunked"),
     [400], []),
    ("a line with a carriage return in it", posting(MESSAGE, b"hello", b"X: a\rTransfer-Encoding: chunked"), [400], []),
    ("a coding behind a tab", posting(MESSAGE, SMUGGLED, b"Transfer-Encoding:\tchunked"), [501], []),
    ("a coding behind a vertical tab",
     posting(MESSAGE, b"hello", b"Content-Length: 5", b"Transfer-Encoding: \vchunked"), [501], []),
    ("a chunk of size 0x5", posting(MESSAGE, b"0x5\r\nhello\r\n0\r\n\r\n", CHUNKED), [400], []),
    ("a client that wants to be asked for the body", posting(MESSAGE, b"hello", b"Expect: 100-continue"), [100, 200],
     HELLO),
    ("a user in an absolute target", posting("http://root@office/v1/requests/k-1"), [400], []),
    ("2,000 header lines", posting(MESSAGE, b"hello", *[b"X-%d: y" % number for number in range(2000)]), [400], []),
    ("a page with a body, and another request behind it",
     staying(getting("/v1/table", "GET", b"Content-Length: 5")) + b"hello" + getting("/v1/certs/1"), [200, 200],
     [composed("GET /v1/table", length=False), composed("GET /v1/certs/1", length=False)]),
    ("HTTP/2 without more ado", b"PRI * HTTP/2.0\r\n\r\nSM\r\n\r\n", [400], []),
]


@pytest.mark.parametrize("request_bytes, wanted, sent", [it[1:] for it in GUISES], ids=[it[0] for it in GUISES])
def test_a_request_in_another_form(recorded, request_bytes, wanted, sent):
    forget(recorded)
    answer = recorded.ask(request_bytes, "ana")
    assert (wanted, sent) == (statuses(answer), recorded.recorder.requests)


def forget(front):
    """Has the front keep no page, and the recorder no request."""
    for file in (front.state / "cache").iterdir():
        # nginx may have removed it meanwhile.
        file.unlink(missing_ok=True)
    front.recorder.requests.clear()


def test_what_a_client_that_leaves_has_asked_is_finished(recorded, monkeypatch):
    """The office has the message by then, and no answer of its is cut off."""
    forget(recorded)
    monkeypatch.setattr(recorded.recorder, "seconds", 1)
    with recorded.connect("ana") as peer:
        peer.sendall(posting("/v1/requests/leaves"))
        until(lambda: recorded.recorder.requests)
    line = '"POST /v1/requests/leaves HTTP/1.1" 200 office=200 '
    until(lambda: line in (recorded.state / "asked.log").read_text(errors="replace"))


def test_a_body_that_ends_early(recorded):
    forget(recorded)
    with recorded.connect("ana") as peer:
        peer.sendall(posting(MESSAGE, b"hell", b"Content-Length: 5"))
    time.sleep(0.2)
    assert [] == recorded.recorder.requests


# ---- who may send and read what

# What, the client's name, the status and the caller of a message, the status of the table, and that of the list.
NOBODY = (403, None, 200, 200)
REFUSED = (403, None, 403, 403)
CLIENTS = [
    ("no certificate", None, (403, None, 403, 200)),
    ("ana's certificate", "ana", (200, "ana", 200, 200)),
    ("root's", "root", (200, "root", 200, 200)),
    ("the station's", "station", (200, "station", 200, 200)),
    ("a reader's", "watch", NOBODY),
    ("a server's", "host-web", (200, "host-web", 200, 200)),
    ("a reader's of a server's name", "as-reading-host", NOBODY),
    ("a server's of 33 letters", "as-long-host", NOBODY),
    ("a caller's of the name station", "as-station", NOBODY),
    ("a caller's of the name root", "as-root", NOBODY),
    ("the station's subject in capital letters", "as-capitals", NOBODY),
    ("a subject with an organisation", "as-more", NOBODY),
    ("a subject with two names", "as-two", NOBODY),
    ("a subject with two names in one part", "as-joined", NOBODY),
    ("a name with a slash", "as-slash", NOBODY),
    ("a name with a comma", "as-comma", NOBODY),
    ("a name with a line feed", "as-line", NOBODY),
    ("a name with a capital letter", "as-ana", NOBODY),
    ("a name of 33 letters", "as-long", NOBODY),
    ("a name of letters beyond ASCII", "as-wide", NOBODY),
    ("an empty subject", "as-empty", (403, None, 403, 200)),
    ("another authority's certificate for ana", "other", REFUSED),
    ("a certificate for ana that ana signed", "self", REFUSED),
    ("a certificate that has ended", "ended", REFUSED),
    ("one that was taken back", "bob", REFUSED),
    ("the front's own", "server", REFUSED),
]


@pytest.mark.parametrize("name, wanted", [it[1:] for it in CLIENTS], ids=[it[0] for it in CLIENTS])
def test_which_certificates_of_clients_are_taken(recorded, name, wanted):
    forget(recorded)
    status, = statuses(recorded.ask(posting(MESSAGE), name))
    sent = [it.split(b" HTTP")[0].decode() for it in recorded.recorder.requests]
    table, = statuses(recorded.ask(getting("/v1/certs/1"), name))
    page, = statuses(recorded.ask(getting("/v1/signers"), name))
    assert wanted == (status, sent[0].split("/")[3] if sent else None, table, page)
    assert sent in ([], [f"POST /v1/callers/{wanted[1]}/requests/k-1"])


FOR_EVERYONE = ("/v1/krl", "/v1/signers", "/v1/cas", "/ca-keys", "/published")
REPORTS = ("/v1/table", "/v1/pending", "/v1/certs/1/body", "/page/", "/page/page.css", "/page/page.js")
SERVER, PRIVATE = "a server may not read this", "only a client with a certificate may read this"
DEPARTMENTS = "only root and callers may read the departments"
# What the front says to each client about each page; None is the page.
READ = [(name, path, None) for name in (None, "host-web", "watch", "ana", "root", "station") for path in FOR_EVERYONE]
READ += [(name, path, why) for name, why in ((None, PRIVATE), ("host-web", SERVER), ("watch", None), ("ana", None),
                                             ("root", None), ("station", None)) for path in REPORTS]
READ += [(name, "/v1/departments", why) for name, why in (
    (None, DEPARTMENTS), ("host-web", DEPARTMENTS), ("watch", DEPARTMENTS), ("station", DEPARTMENTS),
    ("as-more", DEPARTMENTS), ("ana", None), ("root", None))]
READ += [(None, "/v1/certs/1", PRIVATE), ("host-web", "/v1/certs/1", None), ("watch", "/v1/certs/1", None)]


@pytest.mark.parametrize("name, path, why", READ, ids=[f"{name or 'nobody'} {path}" for name, path, _ in READ])
def test_who_reads_what(recorded, name, path, why):
    answer = until(lambda: (it := recorded.ask(getting(path), name)).status != 429 and it)
    if why:
        assert (403, f"front: {why}\n") == (answer.status, answer.text)
    else:
        assert 200 == answer.status


def test_the_departments_come_from_the_office_each_time(recorded):
    """Whoever has just changed one reads what is in effect."""
    forget(recorded)
    for _ in range(3):
        assert [200] == statuses(recorded.ask(getting("/v1/departments"), "root"))
    assert [composed("GET /v1/departments", length=False)] * 3 == recorded.recorder.requests


@pytest.mark.parametrize("target, method, status", [
    ("/v1/departments?x", "GET", 404), ("/v1/departments/", "GET", 404), ("/v1/%64epartments", "GET", 404),
    ("/v1/departments", "HEAD", 405), ("/v1/departments", "POST", 405), ("/v1/departments", "DELETE", 405)])
def test_the_departments_have_one_path(recorded, target, method, status):
    forget(recorded)
    answer = recorded.ask(getting(target, method), "root")
    assert (status, []) == (answer.status, recorded.recorder.requests)


def accepted(recorded):
    """How many messages the front says that the office has accepted, and its ETag."""
    head = recorded.ask(getting("/v1/messages", "HEAD"), "station").head.decode().lower()
    found = dict(line.split(": ", 1) for line in head.split("\r\n")[1:] if line)
    return int(found["content-length"]), found["etag"]


def test_the_station_learns_that_a_message_was_accepted(recorded, monkeypatch):
    """One of a caller or root, and by which of nginx's processes doesn't matter. What is refused, what is read and what
    the station itself sends changes nothing."""
    until(lambda: accepted(recorded) == (time.sleep(0.2), accepted(recorded))[1])
    count, tag = accepted(recorded)
    for number in range(1, 9):
        assert [200] == statuses(recorded.ask(posting(MESSAGE), "root" if number % 2 else "ana"))
        until(lambda: accepted(recorded)[0] == count + number)
        before, tag = tag, accepted(recorded)[1]
        assert before != tag
    assert [200] == statuses(recorded.ask(posting(MESSAGE), "station"))
    assert [200] == statuses(recorded.ask(getting("/v1/certs/1"), "ana"))
    refusal = b"HTTP/1.1 409 Conflict\r\ncontent-length: 0\r\nconnection: close\r\n\r\n"
    monkeypatch.setattr(recorded.recorder, "answer", refusal)
    assert [409] == statuses(recorded.ask(posting(MESSAGE), "ana"))
    time.sleep(0.5)
    assert (count + 8, tag) == accepted(recorded)


@pytest.mark.parametrize("name, target, method, status", [
    ("station", "/v1/messages", "GET", 405), ("station", "/v1/messages", "POST", 405),
    ("station", "/v1/messages?x", "HEAD", 404), ("station", "/v1/messages/", "HEAD", 404),
    *((it, "/v1/messages", "HEAD", 403) for it in (None, "ana", "root", "watch", "host-web", "as-station"))])
def test_nobody_else_learns_it(recorded, name, target, method, status):
    assert [status] == statuses(recorded.ask(getting(target, method), name))


# What a browser says of a request: of whose page it is, for what, and as what; and whether the front answers it.
BROWSED = [
    ("cross-site", "no-cors", "image", False), ("cross-site", "no-cors", "script", False),
    ("cross-site", "cors", "empty", False), ("cross-site", "navigate", "iframe", False),
    ("same-site", "no-cors", "empty", False), ("same-site", "navigate", "frame", False), ("other", "", "", False),
    ("same-origin", "cors", "empty", True), ("same-origin", "no-cors", "style", True),
    ("none", "navigate", "document", True), ("cross-site", "navigate", "document", True),
]


@pytest.mark.parametrize("path", [*FOR_EVERYONE, "/v1/table", "/v1/certs/1", "/v1/departments", "/page/"])
def test_a_page_of_another_site_uses_up_nothing(make_front, recorded, path):
    front = make_front(recorded.recorder.port, edits=[("zone=reports:1m rate=1r/s", "zone=reports:1m rate=1000r/s")])
    (front.conf / "ca-keys").write_text("ssh-ed25519 AAAA a\n")
    (front.state / "published").write_text("published\n")
    for site, mode, kind, is_answered in BROWSED:
        lines = [f"Sec-Fetch-{name}: {value}".encode() for name, value in (
            ("Site", site), ("Mode", mode), ("Dest", kind)) if value]
        answer = front.ask(getting(path, "GET", *lines), "ana")
        due = (200, True) if is_answered else (403, False)
        assert due == (answer.status, "another site" not in answer.text), (site, mode, kind)


@pytest.mark.slow
@pytest.mark.parametrize("begun", [b"", getting("/v1/krl")[:-2], posting(MESSAGE, b"hello")[:-2]],
                         ids=["at once", "in a head", "in a body"])
def test_who_falls_silent_is_given_up_after_ten_seconds(recorded, begun):
    with recorded.connect("ana") as peer:
        peer.settimeout(30)
        since = time.monotonic()
        peer.sendall(begun)
        assert [] == [it for it in statuses(rest(peer)) if it != 408]
        assert 8 < time.monotonic() - since < 25


def test_an_office_may_have_other_names_for_root_and_the_station(make_front, recorded):
    forget(recorded)
    front = make_front(recorded.recorder.port, edits=[('OU=office\\z"                root;', 'OU=office\\z" chief;'),
                                                      ('OU=office\\z"             station;', 'OU=office\\z" signer;')])
    for name in ("root", "station"):
        assert [200] == statuses(front.ask(posting(MESSAGE), name))
    for _ in range(2):
        assert [200] == statuses(front.ask(getting("/v1/pending"), "station"))
    assert ["POST /v1/callers/chief/requests/k-1", "POST /v1/callers/signer/requests/k-1", "GET /v1/pending",
            "GET /v1/pending"] == [it.split(b" HTTP")[0].decode() for it in recorded.recorder.requests]


REFUSALS = [
    ("a message without a certificate", None, posting(MESSAGE), "the certificate names no caller, or there is none"),
    ("a page without a certificate", None, getting("/v1/table"), "only a client with a certificate may read this"),
    ("a message by a browser", "ana", posting(MESSAGE, b"hello", b"Origin: null"), "a browser may not send messages"),
    ("a message by GET", "ana", getting(MESSAGE), "a message is sent by POST"),
    ("the list by POST", None, posting("/v1/krl"), "a page is read by GET"),
    ("a table for a page of another site", "ana", getting("/v1/table", "GET", b"Sec-Fetch-Site: cross-site"),
     "a page of another site may not read this"),
    ("no path", None, getting("/favicon.ico"), "no such path"),
    ("a body of 16385 bytes", "ana", posting(MESSAGE, 16385 * b"x"), "a message has at most 16384 bytes"),
    ("a certificate that was taken back", "bob", getting("/v1/krl"),
     "the certificate is another authority's, has expired or was revoked"),
]


@pytest.mark.parametrize("name, request_bytes, text", [it[1:] for it in REFUSALS], ids=[it[0] for it in REFUSALS])
def test_a_refusal_says_why(recorded, name, request_bytes, text):
    assert f"front: {text}\n" == recorded.ask(request_bytes, name).text


ANSWERED = [("a message", "ana", posting(MESSAGE)), ("the list", None, getting("/v1/krl")),
            ("a table", "ana", getting("/v1/table")), ("a certificate", "ana", getting("/v1/certs/1")),
            ("the departments", "ana", getting("/v1/departments")), ("the page", "ana", getting("/page/")),
            ("its script", "ana", getting("/page/page.js")), ("the CAs' keys", None, getting("/ca-keys")),
            ("what is published", None, getting("/published"))]
# What a browser is told of each: a page of another site may neither have it nor take it for a script.
TOLD = b"X-Content-Type-Options: nosniff", b"Cross-Origin-Resource-Policy: same-origin"


@pytest.mark.parametrize("what, name, request_bytes", [it[:3] for it in [*ANSWERED, *REFUSALS]], ids=lambda it: (
    it if isinstance(it, str) else ""))
def test_a_browser_is_told_that_an_answer_is_of_this_site_alone(recorded, what, name, request_bytes):
    head = recorded.ask(request_bytes, name).head.split(b"\r\n")
    assert [] == [it for it in TOLD if it not in head]


# ---- pages that are kept

KEPT = ("/v1/krl", "/v1/signers", "/v1/cas", "/v1/table", "/v1/pending")


@pytest.fixture(scope="module")
def keeping(authority, tmp_path_factory):
    """A front that doesn't count what a reader asks for, so that nobody waits while a page gets old."""
    programs = Programs()
    with Recorder() as recorder:
        front = Front(programs, tmp_path_factory.mktemp("keeping") / "front", authority, recorder.port,
                      edits=[("zone=reports:1m rate=1r/s", "zone=reports:1m rate=1000r/s")])
        front.recorder = recorder
        yield front
        programs.end_all()


def asked_for(front, *names_and_paths):
    """How often the office is asked when these clients ask for these pages within two seconds, and within ten of the
    clock. On a busy machine that may take more than one try."""
    def tried():
        until(lambda: time.time() % 10 < 7)
        forget(front)
        begun = time.monotonic()
        for name, path in names_and_paths:
            assert [200] == statuses(front.ask(getting(path), name))
        return time.monotonic() - begun < 2

    until(tried)
    return len(front.recorder.requests)


def test_a_page_is_kept_for_two_seconds(keeping):
    forget(keeping)
    begun, rounds = time.monotonic(), 0
    while time.monotonic() < begun + 7 or rounds < 2:
        for path in KEPT:
            assert [200] == statuses(keeping.ask(getting(path), "watch"))
        rounds += 1
    took = time.monotonic() - begun
    # nginx counts whole seconds: a page is asked for again after two to three, and when ten of the clock have ended.
    asked = collections.Counter(it.split()[1].decode() for it in keeping.recorder.requests)
    assert dict.fromkeys(KEPT, True) == {path: 2 <= asked[path] <= took / 2 + took / 10 + 2 for path in KEPT}, asked


def test_what_a_caller_reads_is_kept_for_each_page_alone(keeping):
    assert 2 == asked_for(keeping, ("ana", "/v1/table"), ("watch", "/v1/table"), ("watch", "/v1/pending"))
    assert 3 == asked_for(keeping, *3 * [("ana", "/v1/certs/1")])


def test_a_kept_page_is_given_to_no_stranger(recorded):
    forget(recorded)
    assert [200] == statuses(recorded.ask(getting("/v1/table"), "ana"))
    assert [403] == statuses(recorded.ask(getting("/v1/table")))
    assert [403] == statuses(recorded.ask(getting("/v1/table"), "bob"))


def test_the_station_is_given_no_kept_page(keeping):
    assert 4 == asked_for(keeping, ("ana", "/v1/pending"), *3 * [("station", "/v1/pending")])


def test_what_the_station_is_given_is_not_kept(keeping):
    assert 2 == asked_for(keeping, ("station", "/v1/pending"), ("ana", "/v1/pending"), ("ana", "/v1/pending"))


def test_a_reader_is_given_one_table_a_second_and_the_station_any_number(make_front, recorded):
    front, took = make_front(recorded.recorder.port), {}
    for name, count in (("station", 20), ("watch", 6)):
        begun = time.monotonic()
        for _ in range(count):
            assert [200] == statuses(front.ask(getting("/v1/table"), name))
        took[name] = time.monotonic() - begun
    # Three at once, and one more in each second.
    assert took["watch"] > 2.5
    assert took["station"] < 16


def test_no_error_is_kept(make_front):
    with Recorder(answer=b"HTTP/1.1 404 Not Found\r\ncontent-length: 0\r\n\r\n") as recorder:
        front = make_front(recorder.port)
        for _ in range(3):
            assert [404] == statuses(front.ask(getting("/v1/krl")))
        assert 3 == len(recorder.requests)


# ---- the CAs' keys

def test_the_key_lines_are_those_of_the_file(recorded):
    answer = recorded.session().get(f"{recorded.url}/ca-keys")
    assert ("ssh-ed25519 AAAA a\nssh-ed25519 BBBB b\n", "text/plain", "max-age=60") == (
        answer.text, answer.headers["Content-Type"], answer.headers["Cache-Control"])


def test_without_the_file_the_front_says_so(make_front, recorded):
    answer = make_front(recorded.recorder.port).ask(getting("/ca-keys"))
    assert (404, "front: there is no file ca-keys next to the front's nginx.conf\n") == (answer.status, answer.text)


# ---- what TLS permits

AEAD = {"ECDHE-ECDSA-AES256-GCM-SHA384", "ECDHE-ECDSA-AES128-GCM-SHA256", "ECDHE-ECDSA-CHACHA20-POLY1305"}
# Words of s_client, and whether the handshake ends well.
HANDSHAKES = [
    ("TLS 1.3", ["-tls1_3"], True),
    ("TLS 1.2", ["-tls1_2"], True),
    ("TLS 1.1", ["-tls1_1", "-cipher", "ALL:@SECLEVEL=0"], False),
    ("TLS 1.0", ["-tls1", "-cipher", "ALL:@SECLEVEL=0"], False),
    ("TLS 1.2 with AES-GCM", ["-tls1_2", "-cipher", "ECDHE-ECDSA-AES128-GCM-SHA256"], True),
    ("TLS 1.2 with ChaCha20", ["-tls1_2", "-cipher", "ECDHE-ECDSA-CHACHA20-POLY1305"], True),
    ("TLS 1.2 with CBC and SHA-1", ["-tls1_2", "-cipher", "ECDHE-ECDSA-AES256-SHA"], False),
    ("TLS 1.2 with CBC and SHA-2", ["-tls1_2", "-cipher", "ECDHE-ECDSA-AES256-SHA384"], False),
    ("TLS 1.2 with any suite that isn't authenticated encryption",
     ["-tls1_2", "-cipher", "ALL:!AESGCM:!CHACHA20:!AESCCM:@SECLEVEL=0"], False),
    ("TLS 1.2 with CCM of a short tag", ["-tls1_2", "-cipher", "ECDHE-ECDSA-AES128-CCM8"], False),
]


@pytest.mark.parametrize("words, succeeds", [it[1:] for it in HANDSHAKES], ids=[it[0] for it in HANDSHAKES])
def test_which_handshakes_of_tls_succeed(recorded, words, succeeds):
    done = run(["openssl", "s_client", "-connect", f"127.0.0.1:{recorded.port}", "-CAfile",
                recorded.authority / "ca.crt", "-verify_return_error", "-servername", "localhost", *words],
               input=b"", stdin=None)
    assert (succeeds, succeeds) == (done.returncode == 0, b"Verify return code: 0 (ok)" in done.stdout
                                    and b"Cipher is (NONE)" not in done.stdout)


@pytest.mark.parametrize("version", [ssl.TLSVersion.TLSv1_2, ssl.TLSVersion.TLSv1_3], ids=["TLS 1.2", "TLS 1.3"])
def test_no_session_is_resumed(recorded, version):
    """So a client's certificate is looked at for each connection: it may be revoked since the last one."""
    of, session = ssl.create_default_context(cafile=recorded.authority / "ca.crt"), None
    of.load_cert_chain(recorded.certificate("ana"))
    of.minimum_version = of.maximum_version = version
    for _ in range(2):
        with of.wrap_socket(recorded.connect_plainly(), server_hostname="localhost", session=session) as peer:
            assert not peer.session_reused
            # By TLS 1.3 a session comes with what is answered.
            peer.sendall(getting("/v1/cas"))
            assert [200] == statuses(rest(peer))
            session = peer.session


def test_the_front_listens_on_ipv6_as_well(recorded):
    if not has_ipv6():
        left_out("this machine has no IPv6")
    done = run(["curl", "-sSf", "--cacert", recorded.authority / "ca.crt", "--resolve",
                f"localhost:{recorded.port}:[::1]", f"{recorded.url}/v1/cas"], check=True)
    assert b"heard\n" == done.stdout


# ---- a certificate that is taken back

def nginx(front, *words):
    """The status of nginx's own program for this front, as an administrator types it."""
    return subprocess.run(["nginx", "-p", front.state, "-c", front.conf / "nginx.conf", *words], capture_output=True,
                          check=False).returncode


@pytest.mark.parametrize("broken", [b"", b"-----BEGIN X509 CRL-----\nAAAA\n-----END X509 CRL-----\n"],
                         ids=["empty", "cut"])
def test_a_broken_list_of_certificates_is_reported_before_nginx_reads_it(recorded, broken):
    good = (recorded.conf / "crl.pem").read_bytes()
    try:
        assert 0 == nginx(recorded, "-t", "-q")
        (recorded.conf / "crl.pem").write_bytes(broken)
        assert 1 == nginx(recorded, "-t", "-q")
        assert 1 == nginx(recorded, "-s", "reload")
    finally:
        (recorded.conf / "crl.pem").write_bytes(good)


@pytest.mark.slow
def test_a_request_that_began_before_its_certificate_was_taken_back_does_not_end_long_after(make_front, recorded):
    front = make_front(recorded.recorder.port)
    front.make("caller", "carl")
    recorded.recorder.requests.clear()
    with front.connect("carl") as peer:
        request = posting(MESSAGE, 40 * b"x")
        peer.sendall(request[:-40])
        time.sleep(0.2)
        take_back(front, "carl")
        old = front.workers()
        nginx(front, "-s", "reload")
        begun = time.monotonic()
        with pytest.raises(OSError):
            # A letter every half second keeps the front's patience, which ends with the processes of before.
            for number in range(40):
                peer.sendall(b"x")
                time.sleep(0.5)
            raise AssertionError(f"after {time.monotonic() - begun:.0f} s the front still reads the message")
    until(lambda: not set(old) & set(front.workers()))
    assert [] == recorded.recorder.requests
    assert [403] == statuses(front.ask(posting(MESSAGE), "carl"))


# ---- a front before a front

def test_a_front_before_the_front(make_front, recorded):
    settings = ("proxy_pass https://office_pages/v1/$public_page; proxy_ssl_verify on; "
                "proxy_ssl_trusted_certificate ca.crt; proxy_ssl_name localhost;")
    far = make_front(recorded.port, edits=[("proxy_pass http://office_pages/v1/$public_page;", settings)])
    assert "heard\n" == far.ask(getting("/v1/krl")).text
    far.configure(("proxy_ssl_name localhost", "proxy_ssl_name elsewhere"))
    far.reload()
    assert [502] == statuses(far.ask(getting("/v1/cas")))
