"""request and list-of-table: what they ask is bounded, names no secret, and what fails is said."""
import base64
import concurrent.futures
import contextlib
import os
import pathlib
import shutil
import signal
import subprocess
import time

import pytest

from asking import KEY, department
from fetching import Web, response, script, small_disk
from recording import whole_request
from running import EXAMPLES, new_key, run, until
from stations import new_station
from subject_keys import CERTIFICATES, ED25519, KEYS, LINES, MISCOUNTED, MORE, P256, RSA, line_of
from test_vethlumi import Client

CALLS = "calls"


@pytest.fixture
def watched(room, monkeypatch):
    """Programs that write their arguments into the file `calls` before they do their work."""
    (room / "bin").mkdir()
    for name in ("curl", "openssl", "ssh-keygen"):
        file = room / "bin" / name
        file.write_text(f'#!/bin/sh\nprintf "%s\\n" "{name} $*" >>{room}/{CALLS}\nexec {shutil.which(name)} "$@"\n')
        file.chmod(0o755)
    monkeypatch.setenv("PATH", f"{room}/bin:{os.environ['PATH']}")
    return room / CALLS


@pytest.fixture
def asked(served, sshstation):
    """An office that serves, with the department web, and its signing station."""
    assert 200 == served.post("root", "web", department()).status
    served.station = new_station(sshstation, served.office, served.url)
    return served


def request(office, name="alice", *more, keyid="web/alice", wait=1):
    return script("request", "--caller", "ana", "--wait", wait, *more, office.url, "web", keyid, f"{name}.pub", "alice",
                  "1h")


def calls_of(watched, name):
    return [it for it in watched.read_text().splitlines() if it.startswith(f"{name} ")]


# ---- what programs are told

def test_each_request_has_a_time_limit_and_its_url_is_taken_as_it_is(asked, watched):
    new_key("alice")
    assert 1 == request(asked)[0]
    assert [1] == asked.station.sign(PATH=f"{asked.station.folder}:{os.environ['PATH']}")
    assert 0 == request(asked)[0]
    for name in ("fetch-list", "fetch-ca-keys"):
        is_list = name == "fetch-list"
        trusted = ["--unsigned", "--ca", asked.office.ca] if is_list else ["--fingerprint", "SHA256:" + 43 * "A"]
        script(name, *trusted, asked.url, "fetched")
    calls = calls_of(watched, "curl")
    assert len(calls) >= 5
    assert [] == [it for it in calls if "--max-time " not in it or "--globoff" not in it or " --url http" not in it]


def test_no_secret_is_an_argument(asked, watched):
    new_key("alice")
    assert 1 == request(asked)[0]
    assert [1] == asked.station.sign(PATH=f"{asked.station.folder}:{os.environ['PATH']}")
    text = watched.read_text()
    signature = asked.get("/v1/certs/1").text.split()[1][-20:-4]
    for secret in (*asked.office.ca_key.read_text().splitlines(), *(pathlib.Path("alice").read_text().splitlines())):
        assert secret not in text
    assert signature not in text and "keyid" not in text


@pytest.mark.parametrize("name, words", [
    ("fetch-list", ["--signers", "alice.pub", "{url}/{{a,b}}[1-3]", "list"]),
    ("request", ["--caller", "ana", "--wait", "1", "{url}/{{a,b}}[1-3]", "web", "web/a", "alice.pub", "alice", "1h"]),
], ids=lambda it: it if isinstance(it, str) else "")
def test_braces_of_a_url_are_no_pattern(room, name, words):
    new_key("alice")
    with Web(response(b"no", "404 Not Found")) as web:
        script(name, *[it.format(url=web.url) for it in words])
        assert 1 == len(web.requests)
        assert b" /{a,b}[1-3]/" in web.requests[0].split(b"\r\n")[0]


# ---- request

def test_two_at_once_get_one_certificate(asked):
    new_key("alice")
    with concurrent.futures.ThreadPoolExecutor(4) as threads:
        done = list(threads.map(lambda _: request(asked, wait=2), range(4)))
    assert {1} == {it[0] for it in done}
    assert b"total 1 version 0\n" in asked.get("/v1/table").body
    asked.station.sign()
    assert (0, "alice-cert.pub serial 1\n", []) == request(asked)


def test_a_command_that_was_killed_may_be_run_again_at_once(asked):
    new_key("alice")
    words = [EXAMPLES / "request", "--caller", "ana", asked.url, "web", "web/alice", "alice.pub", "alice", "1h"]
    with subprocess.Popen(words, stderr=subprocess.DEVNULL, start_new_session=True) as process:
        until(lambda: b"total 1 " in asked.get("/v1/table").body)
        os.killpg(process.pid, signal.SIGKILL)
    asked.station.sign()
    assert (0, "alice-cert.pub serial 1\n", []) == request(asked)


@pytest.mark.parametrize("name", ["with space", "-dash", "a$b`c", "a*[b]"])
def test_a_key_may_have_any_name(asked, name, room):
    new_key("alice")
    for end in ("", ".pub"):
        (room / f"alice{end}").rename(room / f"{name}{end}")
    assert 1 == request(asked, name)[0]
    asked.station.sign()
    status, out, errors = request(asked, name)
    assert (0, []) == (status, errors)
    assert f"{name}-cert.pub serial 1\n" == out.removeprefix("./")
    assert b"-cert-v01" in (room / f"{name}-cert.pub").read_bytes()


@pytest.mark.parametrize("name", ["a:b.pem", "a\\b.pem", "with space.pem"])
def test_a_clients_certificate_may_have_any_name(front, name, room):
    front.session("root").post(f"{front.url}/v1/requests/web", data=department())
    new_key("alice")
    shutil.copy(front.certificate("ana"), room / name)
    words = ["--cert", name, "--cacert", front.authority / "ca.crt", "--wait", 1, front.url, "web", "web/alice"]
    status, _, errors = script("request", *words, "alice.pub", "alice", "1h")
    assert (1, "request: serial 1 has no signature yet; alice.request is kept: run the same command again") \
        == (status, errors[-1])


def test_half_an_answer_is_none(room):
    new_key("alice")
    with Web(response(b"issued 1", length=500)) as web:
        status, out, errors = request(web)
    assert (1, "") == (status, out)
    assert errors[-1].startswith("request: no answer: ") and errors[-1].endswith("run the same command again")
    assert (room / "alice.request").exists()


def test_an_endless_answer_ends(room):
    new_key("alice")
    with Web(response(b"", length="")) as web:
        web.endless = bytes(1 << 16)
        status, _, errors = request(web)
    assert (1, True) == (status, errors[-1].startswith("request: no answer: "))


# ---- request: what the front says by itself

HTML = b"<html>\r\n<head><title>502 Bad Gateway</title></head>\r\n</html>\r\n"
ESCAPES = b"\x1b]0;taken\x07\x1b[2J \xc2\x9b2J \xe2\x80\xae"


class Office(Web):
    """Answers each POST by the next of these answers, and a GET by the line of a certificate."""

    def __init__(self, line, *answers):
        self.line, self.answers, self.at = line, iter(answers), []
        super().__init__(None)

    def finish_request(self, peer, address):
        request = whole_request(peer)
        peer.settimeout(60)
        is_post = request.startswith(b"POST")
        if is_post:
            self.requests.append(request)
            self.at.append(time.monotonic())
        with contextlib.suppress(OSError):
            peer.sendall(next(self.answers) if is_post else response(self.line))


def certificate(room, serial=1, key="alice"):
    """The line of a certificate for a key, as an office gives it, by ssh-keygen."""
    for name in {"ca", "alice", key}:
        if not (room / f"{name}.pub").exists():
            new_key(name)
    run(["ssh-keygen", "-q", "-s", "ca", "-I", "web/alice", "-n", "alice", "-z", serial, f"{key}.pub"], check=True)
    words = (room / f"{key}-cert.pub").read_text().split()
    (room / f"{key}-cert.pub").unlink()
    return f"{words[0]} {words[1]} web/alice\n".encode()


ISSUED = response(b"issued 1\ndigest " + 64 * b"0" + b"\n")


def later(status, *fields):
    return "\r\n".join([f"HTTP/1.1 {status}", *fields, "content-length: 5", "connection: close", "", "later"]).encode()


@pytest.mark.parametrize("answers, pauses", [
    ([later("429 Too Many Requests")], [1]), ([later("429 Too Many Requests", "Retry-After: 3")], [3]),
    ([later("503 Away", "retry-after: 2"), later("502 Away", f"retry-after: {'9' * 400}")], [2, 1]),
    ([response(HTML, "502 Bad Gateway")], [1]), ([response(b"x", length=99)], [1]),
], ids=["429", "a pause", "two", "HTML", "cut"])
def test_a_front_that_is_asked_again_answers_at_last(room, answers, pauses):
    line = certificate(room)
    with Office(line, *answers, ISSUED) as office:
        status, out, errors = request(office, wait=60)
    assert (0, "alice-cert.pub serial 1\n", []) == (status, out, errors)
    assert line == (room / "alice-cert.pub").read_bytes() and not (room / "alice.request").exists()
    assert 1 == len({it.split()[1] for it in office.requests})
    between = [after - before for before, after in zip(office.at, office.at[1:])]
    assert all(pause <= seconds + 0.01 for pause, seconds in zip(pauses, between, strict=True)), between


def test_a_pause_is_no_longer_than_there_is_time(room):
    line = certificate(room)
    with Office(line, *9 * [later("429 Too Many Requests", "retry-after: 100000")]) as office:
        begun = time.monotonic()
        status, _, errors = request(office, wait=3)
    assert (1, 1) == (status, len(errors)) and time.monotonic() - begun < 30
    assert "later; alice.request is kept: run the same command again" in errors[0]


@pytest.mark.parametrize("answer, why", [
    (response(b"", "302 Found\r\nlocation: {other}"), "the front redirects (status 302), which isn't followed"),
    (response(HTML, "403 Forbidden"), "unexpected answer from the office (status 403)"),
    (response(b"front: no such path\n", "404 Not Found"), "front: no such path (status 404)"),
    (response(HTML), "an answer that no office gives: <html>"), (response(b""), "an answer that no office gives: "),
    (response(b"issued 0\n"), "an answer that no office gives: "),
    (response(b"issued 99999999999999999999\n"), "an answer that no office gives: "),
    (response(ESCAPES, "403 Forbidden"), "?]0;taken??[2J ??2J ??? (status 403)"),
    (response(b"issued " + ESCAPES), "an answer that no office gives: issued ?]0;taken"),
    (response(b"refused 14 NotPermitted\n"), "an answer that no office gives: refused 14 NotPermitted"),
], ids=["redirect", "HTML 403", "404", "HTML", "empty", "serial 0", "20 digits", "escapes", "escapes 200", "refusal"])
def test_what_no_office_answers_keeps_the_message(room, answer, why):
    new_key("alice")
    with Web(response(b"stolen")) as other, Web(None) as web:
        web.answer = answer.replace(b"{other}", other.url.encode())
        status, out, errors = request(web)
        assert [] == other.requests
    assert (1, "", 1) == (status, out, len(errors)) and why in errors[0], errors
    assert errors[0].isprintable() and (room / "alice.request").exists() and not (room / "alice-cert.pub").exists()


@pytest.mark.parametrize("line, why", [
    (lambda room: certificate(room, 2), "serial 1 is not for alice.pub"),
    (lambda room: certificate(room, 1, "bob"), "serial 1 is not for alice.pub"),
    (lambda room: certificate(room)[:-1] + b"\x1b[2J\n", "the answer for serial 1 isn't a certificate"),
    (lambda room: 2 * certificate(room), "the answer for serial 1 isn't a certificate"),
    (lambda room: certificate(room) + b"\0", "the answer for serial 1 isn't a certificate"),
    (lambda room: HTML, "the answer for serial 1 isn't a certificate"),
    (lambda room: b"", "the answer for serial 1 isn't"),
], ids=["serial", "key", "escape", "two", "zero", "HTML", "empty"])
def test_another_certificate_is_not_taken(room, line, why):
    line = line(room)
    certificate(room)
    with Office(line, ISSUED) as office:
        status, out, errors = request(office)
    assert (1, "") == (status, out) and why in errors[0] and errors[0].isprintable()
    assert (room / "alice.request").exists() and not (room / "alice-cert.pub").exists()


@pytest.mark.parametrize("kind", CERTIFICATES)
def test_a_key_of_each_type_gets_its_certificate(room, kind):
    """And neither that of another key of its type nor that of another type."""
    (room / "bob.pub").write_text(f"{LINES[kind]} bob\n")
    other = line_of(*next(it for it in MORE if it[0] == kind)) if kind in {it[0] for it in MORE} else KEY
    (room / "carol.pub").write_text(f"{other} carol\n")
    line = certificate(room, 1, "bob")
    with Office(line, ISSUED) as office:
        assert (0, "bob-cert.pub serial 1\n", []) == request(office, "bob")
        assert f"\nkey {LINES[kind]} bob\nprincipals ".encode() in office.requests[0]
    assert CERTIFICATES[kind].encode() == line.split()[0] and line == (room / "bob-cert.pub").read_bytes()
    with Office(line, ISSUED) as office:
        assert (1, "", ["request: serial 1 is not for carol.pub"]) == request(office, "carol")


# A public key's line of one type each that no office takes, and what both programs say of it.
NO_TYPE, NO_KEY = "no public key of a supported type: ", "has no key of the type "
NO_SUBJECTS = [
    ("ssh-dss", line_of("ssh-dss", [b"\1", b"\2", b"\3", b"\4"]), NO_TYPE),
    ("a certificate", f"{CERTIFICATES[ED25519]} {LINES[ED25519].split()[1]}", NO_TYPE),
    ("another name", line_of("rsa-sha2-512", KEYS[RSA]), NO_TYPE),
    ("capitals", line_of(ED25519.upper(), KEYS[ED25519]), NO_TYPE), ("no line", "@", NO_TYPE), ("nothing", "", NO_TYPE),
    ("options before it", f"restrict {LINES[ED25519]}", NO_TYPE),
    ("a blob of another type", f"{RSA} {LINES[ED25519].split()[1]}", NO_KEY),
    ("a long one", f"{RSA} {base64.b64encode(bytes(12000)).decode()}", NO_KEY),
    ("damaged base64", f"{LINES[P256][:-9]}!{LINES[P256][-8:]}", NO_KEY), ("half of it", LINES[RSA][:80], NO_KEY),
    *((f"{len(strings)} strings of {kind}", line_of(kind, strings), NO_KEY) for kind, strings in MISCOUNTED),
]


@pytest.mark.parametrize("line, why", [it[1:] for it in NO_SUBJECTS], ids=[it[0] for it in NO_SUBJECTS])
def test_what_is_no_key_of_these_types_is_not_sent(room, line, why):
    (room / "bob.pub").write_text(f"{line}\n")
    with Web(response(b"no", "404 Not Found")) as web:
        status, out, errors = request(web, "bob")
        assert (1, "", 1) == (status, out, len(errors)) and why in errors[0], errors
        status, out, told = Client(room / "home", web.url, caller="ana")("request", "web/bob", "bob.pub")
        assert (2, "", True) == (status, out, f"vethlumi: the file has {NO_TYPE}" in told), told
        assert [] == web.requests
    assert not (room / "bob.request").exists()


@pytest.mark.alone
@pytest.mark.parametrize("is_endless", [False, True], ids=["drip", "endless"])
def test_the_wait_is_kept_by_answers_that_last(room, is_endless):
    class Dripping(Web):
        def finish_request(self, peer, address):
            whole_request(peer)
            peer.settimeout(60)
            with contextlib.suppress(OSError):
                peer.sendall(response(b"", length=1000))
                for _ in range(100):
                    peer.sendall(b"x")
                    time.sleep(0 if is_endless else 0.5)
    new_key("alice")
    with Dripping(None) as web:
        begun = time.monotonic()
        status, _, errors = request(web)
    assert 1 == status and time.monotonic() - begun < 8, errors


def test_the_same_command_ends_with_the_same_serial_after_a_step_that_failed(asked, room):
    """What fails after the answer came keeps the message, and no second certificate is issued."""
    new_key("alice")
    (room / "alice-cert.pub").mkdir()
    assert 1 == request(asked)[0]
    assert [1] == asked.station.sign()
    why = "request: can't write alice-cert.pub; alice.request is kept: run the same command again"
    assert (1, "", [why]) == request(asked)
    (room / "alice-cert.pub").rmdir()
    assert (0, "alice-cert.pub serial 1\n", []) == request(asked)
    assert b"total 1 version 0\n" in asked.get("/v1/table").body


def test_a_folder_in_place_of_the_certificate(asked, room):
    new_key("alice")
    (room / "alice-cert.pub").mkdir()
    request(asked)
    asked.station.sign()
    why = "request: can't write alice-cert.pub; alice.request is kept: run the same command again"
    assert (1, "", [why]) == request(asked)
    assert [] == os.listdir("alice-cert.pub")
    assert (room / "alice.request").exists()


def test_what_is_kept_is_the_users_alone(asked, room):
    new_key("alice")
    (room / "alice.request.new").write_text("left of a kill\n")
    (room / "alice.request.new").chmod(0o666)
    done = run([EXAMPLES / "request", "--caller", "ana", "--wait", "1", asked.url, "web", "web/alice", "alice.pub",
                "alice", "1h"], umask=0)
    assert 1 == done.returncode
    assert 0o600 == (room / "alice.request").stat().st_mode & 0o777


@pytest.mark.root
@pytest.mark.parametrize("blocks", range(3))
def test_a_full_disk_keeps_what_was_asked(asked, room, blocks):
    with small_disk(room / "disk") as fill:
        new_key("disk/alice")
        fill(blocks)
        status, _, errors = request(asked, "disk/alice")
        assert 1 == status
        assert blocks or errors == ["request: can't write disk/alice.request"]
        asked.station.sign()
        request(asked, "disk/alice")
        (room / "disk/filling").unlink()
        request(asked, "disk/alice")
        asked.station.sign()
        assert 0 == request(asked, "disk/alice")[0] or (room / "disk/alice-cert.pub").exists()
        assert b"-cert-v01" in (room / "disk/alice-cert.pub").read_bytes()


BAD_WORDS = [
    (["--caller", "a b"], "http://127.0.0.1:1", "no caller's name: a b"),
    (["--caller", "a/../b"], "http://127.0.0.1:1", "no caller's name: a/../b"),
    ([], "file:///etc/passwd", "no URL: file:///etc/passwd"),
    ([], "-o", "no such option: -o"),
    ([], "http://a b", "no URL: http://a b"),
    (["--wait", "0"], "http://127.0.0.1:1", "no number of seconds: 0"),
    (["--cert", "none"], "http://127.0.0.1:1", "can't read none"),
]


@pytest.mark.parametrize("words, url, why", BAD_WORDS, ids=str)
def test_bad_words_send_nothing(room, words, url, why):
    new_key("alice")
    status, out, errors = script("request", *words, url, "web", "web/alice", "alice.pub", "alice", "1h")
    assert (True, "", [f"request: {why}"]) == (status in (1, 2), out, errors)
    assert not (room / "alice.request").exists()


def test_a_program_that_is_missing_is_named(room):
    new_key("alice")
    (room / "bin").mkdir()
    for program in ("env", "bash"):
        (room / "bin" / program).symlink_to(f"/usr/bin/{program}")
    words = ["http://127.0.0.1:1", "web", "web/alice", "alice.pub", "alice", "1h"]
    assert (1, "", ["request: curl is missing"]) == script("request", *words, env={"PATH": str(room / "bin")})


# ---- list-of-table

def test_output_that_cannot_be_written_is_said(room):
    (room / "table").write_text(f"{1:19d}  user  signed   {0:12d}  {1:12d}  web/a\ntotal 1 version 0\n")
    with open("/dev/full", "wb") as full:
        done = subprocess.run([EXAMPLES / "list-of-table", "table"], stdout=full, stderr=subprocess.PIPE, timeout=60)
    assert (1, "list-of-table: [Errno 28] No space left on device") \
        == (done.returncode, done.stderr.decode().splitlines()[-1])
