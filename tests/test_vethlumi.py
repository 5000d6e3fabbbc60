"""vethlumi, the client: each of its commands, by an office behind the front, and what an answer that is lost leaves."""
import base64
import hashlib
import json
import os
import pathlib
import pty
import re
import shutil
import signal
import subprocess
import time

import pytest

from asking import department, issue
from fetching import Web, response
from running import CLIENT, PROGRAMS, free_port, loaded, new_key, run, until

POLICY = """# people
department web
kind user
admins ana
principals alice,*@example.org
options force-command
extensions permit-X11-forwarding,permit-agent-forwarding,permit-pty
maxlife 86400
namespaces file,git

# servers
department web-hosts
kind host
admins ana
principals *.example.org
options
extensions
maxlife 604800
namespaces
"""


class Client:
    """The client of one caller, with its settings and its outbox in a folder."""

    def __init__(self, folder, url, certificate=None, cacert=None, **more):
        self.home = pathlib.Path(folder)
        self.home.mkdir(exist_ok=True)
        settings = {"office": url, "certificate": certificate, "cacert": cacert} | more
        (self.home / ".config").mkdir()
        (self.home / ".config/vethlumi.toml").write_text(
            "".join(f'{name} = "{value}"\n' for name, value in settings.items() if value))
        self.outbox = self.home / ".local/state/vethlumi"

    def words(self, *words):
        return ["/usr/bin/python3", "-B", "-m", "vethlumi", *map(str, words)]

    def environment(self):
        kept = {name: value for name, value in os.environ.items() if not name.startswith(("VETHLUMI", "XDG"))}
        return kept | {"HOME": str(self.home), "PYTHONPATH": CLIENT, "COLUMNS": "100",
                       "PATH": f"{self.home}/bin:{os.environ['PATH']}"}

    def __call__(self, *words, given=b""):
        """The status, the output and what was told. Programs in the folder `bin` come before the system's."""
        done = run(self.words(*words), env=self.environment(), stdin=None, input=given)
        return done.returncode, done.stdout.decode(), done.stderr.decode()

    def json(self, *words):
        status, out, told = self(*words, "--json")
        assert (0, "") == (status, told)
        return [json.loads(line) for line in out.splitlines()]

    def begin(self, *words):
        return subprocess.Popen(self.words(*words), env=self.environment(), stdin=subprocess.DEVNULL,
                                stdout=subprocess.PIPE, stderr=subprocess.PIPE, text=True)

    def kept(self):
        """The files of the messages that are kept."""
        return sorted(it for it in self.outbox.iterdir() if "." not in it.name) if self.outbox.exists() else []


@pytest.fixture
def policy(room):
    file = room / "policy"
    file.write_text(POLICY)
    return file


@pytest.fixture
def clients(front, room, policy):
    """Clients of the front by their names, of an office with the departments of the policy."""
    made = {name: Client(room / f"home-{name}", front.url, front.certificate(name), front.authority / "ca.crt",
                         policy=policy) for name in ("root", "ana", "watch")}
    assert (0, "department web\ndepartment web-hosts\n", "") == made["root"]("department", "put", policy, "--yes")
    return made


@pytest.fixture
def alice(room):
    run(["ssh-keygen", "-q", "-t", "ed25519", "-N", "", "-C", "alice", "-f", "alice"], check=True)
    return room / "alice.pub"


@pytest.fixture
def signed(clients, station, alice):
    """alice's certificate, which is signed: its file."""
    asking = clients["ana"].begin("request", "web/alice", alice, "--life", "1h")
    until(lambda: [1] == station.sign())
    assert ("alice-cert.pub serial 1\n", 0) == (pathlib.Path(asking.communicate()[0]).name, asking.returncode)
    return alice.with_name("alice-cert.pub")


def shown(certificate):
    """What ssh-keygen says of a certificate, by its headings."""
    text = run(["ssh-keygen", "-L", "-f", certificate], check=True).stdout.decode()
    found = re.findall(r"^ {8}([A-Z][\w ]*):(.*(?:\n {16}.*)*)", text, re.M)
    return {name: value.split("\n")[0].strip() or [it.strip() for it in value.split("\n")[1:]] for name, value in found}


# ---- from a request to a revocation

def test_a_certificate_is_asked_for_shown_renewed_and_revoked(clients, station, signed, room):
    ana = clients["ana"]
    said = shown(signed)
    assert ["alice"] == said["Principals"] and '"web/alice"' == said["Key ID"] and "1" == said["Serial"]
    assert ["permit-X11-forwarding", "permit-agent-forwarding", "permit-pty"] == said["Extensions"]
    assert [] == ana.kept()
    [record] = ana.json("show", 1)
    assert ("1", "user", "web/alice", ["alice"], "signed") == tuple(
        record[it] for it in ("serial", "kind", "keyid", "principals", "state"))
    assert record["ca"] in said["Signing CA"]
    assert record == ana.json("show", signed)[0]
    assert (0, signed.read_text(), "") == ana("get", 1)
    assert "REVOKED" not in run(["ssh-keygen", "-Q", "-f", "list", signed]).stdout.decode()

    renewing = ana.begin("renew", signed, "--life", "30m")
    until(lambda: [2] == station.sign())
    assert (f"{signed} serial 2\n", 0) == (renewing.communicate()[0], renewing.returncode)
    assert "2" == shown(signed)["Serial"]

    assert 0 == ana("list", "--out", "list")[0]
    assert (0, "clear\n", "") == ana("list", "--check", signed)
    assert (0, "revoked; the list has version 1\n", "") == ana("revoke", signed, "--yes")
    # The front gives a page that it has kept for two seconds.
    until(lambda: (0, "revoked\n", "") == ana("list", "--check", signed))
    assert (0, "list version 1\n", "") == ana("list", "--out", "list")
    assert b"REVOKED" in run(["ssh-keygen", "-Q", "-f", "list", signed]).stdout
    states = {it["serial"]: it["state"] for it in ana.json("certs")}
    assert {"1": "signed", "2": "revoked"} == states


@pytest.mark.parametrize("words, due", [
    ([], ["permit-X11-forwarding", "permit-agent-forwarding", "permit-pty"]),
    (["--extensions", "permit-pty"], ["permit-pty"]), (["--extensions", ""], []),
], ids=["all of the department", "one", "none"])
def test_which_extensions_a_certificate_gets(clients, alice, words, due):
    """Whoever says that there are none gets none, and not those of the department."""
    assert 4 == clients["ana"]("--wait", "1", "request", "web/alice", alice, *words)[0]
    assert due == clients["ana"].json("show", 1)[0]["extensions"]


@pytest.mark.parametrize("what, hit", [("1", ["1"]), ("1-2", ["1", "2"]), ("web/alice", ["1"])])
def test_what_is_revoked(clients, alice, what, hit):
    for key_id in ("web/alice", "web/ally"):
        assert 4 == clients["ana"]("--wait", "1", "request", key_id, alice, "--principals", "alice")[0]
    assert 0 == clients["root"]("revoke", what, "--yes")[0]
    assert hit == [it["serial"] for it in clients["ana"].json("certs", "--state", "revoked")]


def test_it_asks_before_it_revokes(clients, alice):
    assert 4 == clients["ana"]("--wait", "1", "request", "web/alice", alice)[0]
    root = clients["root"]
    status, out, told = root("revoke", "1")
    assert 2 == status and "Pass --yes" in told and "web/alice" in out
    for answer, due in ((b"n\n", 1), (b"y\n", 0)):
        main, of_client = pty.openpty()
        asking = subprocess.Popen(root.words("revoke", "1"), env=root.environment(), stdin=of_client,
                                  stdout=subprocess.PIPE, stderr=subprocess.PIPE)
        os.write(main, answer)
        out, told = asking.communicate(timeout=60)
        os.close(of_client)
        os.close(main)
        assert due == asking.returncode
        assert b"Revoke 1 certificate, 1 of which can still be used?" in told
    until(lambda: "revoked" == root.json("certs")[0]["state"])


def test_it_says_that_a_key_id_ends_before_it_asks(clients, served, alice):
    """What can't be used any more, and what has another key ID, is named by no command."""
    for name, life in (("web/alice", "1h"), ("web/ally", "1h"), ("web/alice", "2h")):
        assert 4 == clients["ana"]("--wait", "1", "request", name, alice, "--principals", "alice", "--life", life)[0]
    key = " ".join(alice.read_text().split()[:2])
    for name, message in (("issue", issue("web/alice", key=key)), ("revoke", "revoke-serial 4\n")):
        assert 200 == served.post("ana", name, message).status
    root = clients["root"]
    until(lambda: "revoked" == root.json("certs")[-1]["state"])
    status, _, told = root("revoke", "web/alice")
    assert 2 == status and told.index("web/alice can never be used again") < told.index("Not a terminal")
    assert ["1", "3"] == re.findall(r"^    vethlumi revoke (\S+)$", told, re.M)
    for other in ("1", "1-3"):
        assert "never" not in root("revoke", other)[2]
    assert "answer n" not in root("revoke", "web/zoe")[2] and "web/zoe can never be" in root("revoke", "web/zoe")[2]


def test_it_counts_what_can_still_be_used(clients, served, alice):
    key = " ".join(alice.read_text().split()[:2])
    for name, message in (("one", issue("web/alice", key=key)), ("two", issue("web/alice", key=key)),
                          ("revoke", "revoke-serial 2\n")):
        assert 200 == served.post("ana", name, message).status
    for what, counts in (("1-2", "2 certificates, 1 of"), ("2", "1 certificate, 0 of"), ("3", "0 certificates, 0 of")):
        assert f"Revoke {counts} which can still be used?" in clients["root"]("revoke", what)[2]


def test_what_a_revoked_certificate_leaves_and_a_revoked_key_id_does_not(clients, alice):
    """The office's own answers: what the command says is so."""
    root, ana = clients["root"], clients["ana"]
    words = "--wait", "1", "request", "web/alice", alice, "--principals", "alice"
    assert 4 == ana(*words)[0] and 0 == root("revoke", "1", "--yes")[0]
    assert 4 == ana(*words, "--life", "1h")[0] and 0 == root("revoke", "web/alice", "--yes")[0]
    status, _, told = ana(*words, "--life", "2h")
    assert 1 == status and "refused 16 KeyIdRevoked" in told


@pytest.mark.parametrize("count, more", [(10, None), (11, "1"), (12, "2")])
def test_of_many_certificates_ten_are_named(clients, served, alice, count, more):
    key = " ".join(alice.read_text().split()[:2])
    for number in range(count):
        assert served.post("ana", f"k{number}", issue("web/alice", key=key)).text.startswith("issued")
    told = clients["root"]("revoke", "web/alice")[2]
    assert [*map(str, range(1, 11))] == re.findall(r"^    vethlumi revoke (\S+)$", told, re.M)
    found = re.search(r"and the same for (\d+) more", told)
    assert more == (found and found[1])


def test_commands_of_two_names(clients, signed):
    """They do the same, and say which name is the other's."""
    root = clients["root"]
    assert root("list", "--json") == root("krl", "--json")
    names = [{*re.findall(r"^# TYPE (\w+)", root(it, "--last", "9")[1], re.M)} for it in ("figures", "metrics")]
    assert names[0] == names[1] != set()
    for other, name in (("list", "krl"), ("figures", "metrics")):
        assert f"The same as vethlumi {name}." in root(other, "--help")[1]


def test_a_certificate_of_another_ca_is_not_revoked(clients, alice, room):
    run(["ssh-keygen", "-q", "-t", "ed25519", "-N", "", "-f", "other"], check=True)
    run(["ssh-keygen", "-q", "-s", "other", "-I", "web/alice", "-z", "1", alice], check=True)
    status, _, told = clients["root"]("revoke", "alice-cert.pub", "--yes")
    assert 2 == status and "isn't one of this office's" in told


# ---- answers that are lost

def test_the_same_command_sends_what_got_no_answer(clients, front, served, station, alice):
    ana = clients["ana"]
    os.kill(served.process.pid, signal.SIGSTOP)
    asking = ana.begin("request", "web/alice", alice, "--life", "1h")
    [kept] = until(ana.kept, 60)
    time.sleep(1)
    asking.kill()
    asking.communicate()
    os.kill(served.process.pid, signal.SIGCONT)
    key, message = kept.read_text().split("\n", 1)
    assert kept.name == key and message.startswith("issue web\nkeyid web/alice\nkey ssh-ed25519 ")
    # A second later: the message would have other moments, and is that of before.
    asking = ana.begin("request", "web/alice", alice, "--life", "1h")
    until(lambda: [1] == station.sign())
    asking.communicate()
    assert 0 == asking.returncode and [] == ana.kept()
    assert ["1"] == [it["serial"] for it in ana.json("certs")]
    assert f"after {int(re.search(r'^after ([0-9]+)$', message, re.M)[1])}" in message


def test_no_answer_keeps_the_message(clients, front, alice):
    ana = clients["ana"]
    front.end()
    status, out, told = ana("--wait", "1", "revoke", "web/alice", "--yes")
    assert (3, "") == (status, out) and "the message is kept" in told
    [kept] = ana.kept()
    assert f"{kept.name}\nrevoke-keyid web/alice\n" == kept.read_text()
    assert 0o600 == kept.stat().st_mode & 0o777
    front.begin()
    assert [{"id": kept.name, "message": "revoke-keyid web/alice\n", "reply": ""}] == ana.json("outbox")
    assert (0, f"{kept.name}  revoke-keyid web/alice  revoked version 1\n", "") == ana("outbox", "--send")
    assert [] == ana.kept() and (0, "the outbox is empty\n", "") == ana("outbox")


def test_another_lifetime_is_another_message(clients, front, alice):
    """Whoever asks for two hours isn't sent the hour that got no answer before."""
    ana = clients["ana"]
    front.end()
    for life in ("1h", "2h", "1h"):
        assert 3 == ana("--wait", "1", "request", "web/alice", alice, "--life", life)[0]
    moments = [re.findall(r"^(?:after|before) (\d+)$", it.read_text(), re.M) for it in ana.kept()]
    assert [3600, 7200] == sorted(int(before) - int(after) for after, before in moments)


def test_everybody_may_read_a_certificate(clients, signed, room):
    """sshd, another user, and a host's own programs: whatever the umask of whoever asks for it."""
    assert 0 == clients["ana"]("get", "1", "--out", "got")[0]
    assert [0o644] * 2 == [it.stat().st_mode & 0o777 for it in (room / "got", signed)]


def test_a_message_can_be_given_up(clients, front, alice):
    ana = clients["ana"]
    front.end()
    assert 3 == ana("--wait", "1", "revoke", "1", "--yes")[0]
    [kept] = ana.kept()
    assert 2 == ana("outbox", "--drop", "none")[0]
    assert 0 == ana("outbox", "--drop", kept.name)[0]
    assert [] == ana.kept()


def test_a_message_is_kept_however_old_it_is(room):
    """What a kill has left half written goes after a day, and no message does before it has its answer."""
    ana = Client(room / "home", f"http://127.0.0.1:{free_port()}", caller="ana")
    words = ["--wait", "1", "revoke", "--yes"]
    assert 3 == ana(*words, "1")[0]
    [kept] = ana.kept()
    for name, age in ((kept.name, 40 * 86400), (".vethlumi-old", 86400 + 60), (".vethlumi-new", 86400 - 600)):
        (ana.outbox / name).touch()
        os.utime(ana.outbox / name, (time.time() - age,) * 2)
    assert 3 == ana(*words, "2")[0]
    names = {it.name for it in ana.outbox.iterdir()}
    assert {kept.name, ".vethlumi-new"} < names and (3, False) == (len(names), ".vethlumi-old" in names)
    # The same command sends the message of before.
    assert (3, 2) == (ana(*words, "1")[0], len({it.name for it in ana.outbox.iterdir()} - {".vethlumi-new"}))


@pytest.mark.parametrize("out", ["none/cert.pub", "folder", "/dev/full/cert.pub"])
def test_a_step_that_fails_after_the_answer_keeps_the_message(clients, station, alice, room, out):
    """The same command then ends with the same serial, and the office has issued one certificate."""
    ana = clients["ana"]
    (room / "folder").mkdir()
    assert 4 == ana("--wait", "1", "request", "web/alice", alice)[0]
    assert [1] == station.sign()
    status, printed, told = ana("request", "web/alice", alice, "--out", out)
    assert (2, "", 1) == (status, printed, len(ana.kept())) and f"vethlumi: {out}" in told, told
    assert [] == [*(room / "folder").iterdir()]
    assert (0, "cert serial 1\n", "") == ana("request", "web/alice", alice, "--out", "cert")
    assert ([], ["1"]) == (ana.kept(), [it["serial"] for it in ana.json("certs")])


def test_an_issue_stays_in_the_outbox_until_somebody_has_the_certificate(clients, front, station, alice):
    ana = clients["ana"]
    front.end()
    assert 3 == ana("--wait", "1", "request", "web/alice", alice)[0]
    front.begin()
    [kept] = ana.kept()
    for state in ("pending", "signed"):
        status, out, told = ana("outbox", "--send")
        assert (0, "", [kept]) == (status, told, ana.kept())
        assert re.fullmatch(f"{kept.name}  issue web  issued 1 digest [0-9a-f]{{64}}\n", out), out
        assert state != "pending" or [1] == station.sign()
    assert (0, f"{alice.with_name('alice-cert.pub')} serial 1\n", "") == ana("request", "web/alice", alice)
    assert ([], ["1"]) == (ana.kept(), [it["serial"] for it in ana.json("certs")])


def test_what_the_office_refuses_leaves_the_outbox(clients, front, alice):
    """And holds up none of the other messages."""
    ana = clients["ana"]
    front.end()
    for what in ("other/zoe", "web/zoe"):
        assert 3 == ana("--wait", "1", "revoke", what, "--yes")[0]
    first, second = sorted((it.name for it in ana.kept()), key=lambda it: (ana.outbox / it).stat().st_mtime_ns)
    front.begin()
    assert (0, f"{first}  revoke-keyid other/zoe  refused 10 NotAllowed\n"
               f"{second}  revoke-keyid web/zoe  revoked version 1\n", "") == ana("outbox", "--send")
    assert [] == ana.kept()


def test_what_is_not_signed_yet_is_asked_for_again(clients, station, alice):
    ana = clients["ana"]
    status, _, told = ana("--wait", "1", "request", "web/alice", alice)
    assert 4 == status and "no signature yet" in told and 1 == len(ana.kept())
    assert 4 == ana("get", 1)[0]
    assert [1] == station.sign()
    status, out, _ = ana("request", "web/alice", alice)
    assert (0, f"{alice.with_name('alice-cert.pub')} serial 1\n") == (status, out)


def test_a_refusal_is_said_in_words_and_forgotten(clients, alice):
    status, out, told = clients["ana"]("request", "web/bob", alice, "--principals", "bob")
    assert (1, "") == (status, out)
    assert "refused 14 NotPermitted: the department's rules don't permit this certificate" in told
    assert [] == clients["ana"].kept()


def test_a_refusal_of_the_front_is_said(clients, alice):
    status, _, told = clients["watch"]("revoke", "1", "--yes")
    assert 1 == status and "front: the certificate names no caller, or there is none" in told


def test_an_interrupt_keeps_the_message(clients, served, alice):
    ana = clients["ana"]
    os.kill(served.process.pid, signal.SIGSTOP)
    asking = ana.begin("revoke", "web/alice", "--yes")
    [kept] = until(ana.kept, 60)
    time.sleep(0.5)
    asking.send_signal(signal.SIGINT)
    out, told = asking.communicate(timeout=60)
    os.kill(served.process.pid, signal.SIGCONT)
    assert (3, "", "vethlumi: interrupted; a message that was sent is kept: run this again\n") == (
        asking.returncode, out, told)
    assert [kept] == ana.kept()


# Answers that break off or are none.
BROKEN = {
    "empty": response(b""), "cut off": response(b"issued 1\n")[:-3], "no HTTP": b"nothing",
    "too long": b"HTTP/1.1 200 OK\r\ncontent-length: 70000\r\n\r\n" + 70000 * b"x",
    "broken chunks": b"HTTP/1.1 200 OK\r\ntransfer-encoding: chunked\r\n\r\nzz\r\n",
    "another page": response(b"hello\n"),
}


@pytest.mark.parametrize("answer", [*BROKEN.values(), response(b"issued one\ndigest x\n")], ids=[*BROKEN, "no number"])
def test_what_no_office_answers_is_no_answer(room, alice, answer):
    with Web(answer) as web:
        status, out, told = Client(room / "home", web.url, caller="ana")(
            "--wait", "1", "request", "web/alice", alice)
    assert (3, "") == (status, out) and "the message is kept" in told
    assert 1 == len(list((room / "home/.local/state/vethlumi").iterdir())), told


def test_a_refusal_that_no_office_gives_keeps_the_message(room, alice):
    with Web(response(b"refused 99 Nothing \x1b[2J\n", "409 Conflict")) as web:
        status, _, told = Client(room / "home", web.url, caller="ana")("request", "web/alice", alice)
    # What came can't steer the terminal.
    assert (1, "vethlumi: refused: refused 99 Nothing ?[2J\n") == (status, told)
    assert 1 == len(list((room / "home/.local/state/vethlumi").iterdir())), told


def on_terminal(client, *words):
    """What a command of the client prints to a terminal, which ends each line with a carriage return."""
    terminal, end = pty.openpty()
    done = subprocess.run(client.words(*words), env=client.environment(), stdin=subprocess.DEVNULL, stdout=end,
                          stderr=subprocess.PIPE, timeout=60)
    os.close(end)
    assert b"" == done.stderr
    # What it wrote is there at once, and is short.
    printed = os.read(terminal, 65536)
    os.close(terminal)
    return printed.decode()


KEY = "ssh-ed25519 AAAAC3NzaC1lZDI1NTE5AAAAIBERERERERERERERERERERERERERERERERERERERERER"
SIGNERS = f'alice,*@example.org cert-authority,namespaces="file,git" {KEY}\n'


@pytest.mark.parametrize("signers, status", [
    ("", 0), (SIGNERS, 0), (2 * SIGNERS, 0), (f"{SIGNERS}\x1b]0;taken\x07 \x9b2J\n", 3), (SIGNERS[:-1], 3), ("\n", 3),
    (f"alice {KEY}\n", 3),
], ids=["none", "one", "two", "escape", "cut", "empty line", "a key that is no authority's"])
def test_signers_are_those_that_an_office_gives(room, signers, status):
    with Web(response(signers.encode())) as web:
        client = Client(room / "home", web.url, caller="ana")
        found, out, told = client("signers")
        assert (status, signers * (status == 0)) == (found, out)
        assert ("" == told) == (status == 0)
        if status == 0 and signers:
            assert signers.replace("\n", "\r\n") == on_terminal(client, "signers")


def test_a_reply_that_no_office_gives_is_no_answer(room):
    with Web(response("revoked version \x1b[2J\n".encode())) as web:
        status, out, told = Client(room / "home", web.url, caller="ana")("revoke", "web/zoe", "--yes")
        assert 1 == len(web.requests)
    assert (3, "") == (status, out)
    assert "isn't a reply to `revoke-keyid`\n  the message is kept" in told and "\x1b" not in told


@pytest.mark.parametrize("answer", BROKEN.values(), ids=BROKEN)
@pytest.mark.parametrize("words", ["status", "list", "certs", "show 1", "figures", "revoke 1"])
def test_a_page_that_no_office_gives_is_no_answer(room, words, answer):
    with Web(answer) as web:
        status, out, told = Client(room / "home", web.url, caller="ana")(*words.split())
    assert (3, "office_up 0" in out if words == "figures" else "" == out) == (status, True), told
    assert told.startswith("vethlumi: ")


def test_a_certificate_for_another_key_is_not_taken(clients, station, signed, room):
    """A front that was taken gives a certificate of somebody else."""
    line = signed.read_bytes()
    run(["ssh-keygen", "-q", "-t", "ed25519", "-N", "", "-f", "bob"], check=True)

    class Other(Web):
        def finish_request(self, peer, address):
            is_post = peer.recv(65536).startswith(b"POST")
            peer.sendall(response(b"issued 1\ndigest " + 64 * b"0" + b"\n" if is_post else line))
    with Other(None) as web:
        status, out, told = Client(room / "home", web.url, caller="ana")("request", "web/alice", "bob.pub")
    assert 3 == status and "a different key" in told and not pathlib.Path("bob-cert.pub").exists()


# ---- reports

def test_only_certificates_that_are_valid_now_are_valid(room):
    """On both sides of each limit. A server takes a certificate from its first second on, and not at its end."""
    now = int(time.time())
    rows = [("signed ", now - 60, now + 60), ("signed ", now + 60, now + 120), ("signed ", now - 60, now),
            ("pending", now - 60, now + 60), ("revoked", now - 60, now + 60), ("signed ", 0, 253402300799)]
    page = "".join(f"{number:19d}  user  {state}  {after:12d}  {before:12d}  web/a\n"
                   for number, (state, after, before) in enumerate(rows, 1)) + f"total {len(rows)} version 0\n"
    with Web(response(page.encode())) as web:
        client = Client(room / "home", web.url, caller="ana")
        assert ["1", "6"] == [it["serial"] for it in client.json("certs", "--valid")]
        assert ["1"] == [it["serial"] for it in client.json("certs", "--ends-within", "1h")]


def test_certificates_are_listed_with_filters(clients, station, signed, alice):
    ana = clients["ana"]
    assert 4 == ana("--wait", "1", "request", "web-hosts/db.example.org", alice, "--life", "2h", "--out", "db")[0]
    for words, due in {
        (): ["1", "2"], ("--state", "signed"): ["1"], ("--kind", "host"): ["2"], ("--department", "web"): ["1"],
        ("--keyid", "*/db*"): ["2"], ("--valid",): ["1"], ("--ends-within", "2h"): ["1"], ("--ends-within", "1m"): [],
    }.items():
        assert due == [it["serial"] for it in ana.json("certs", *words)], words
    out = ana("certs")[1]
    assert re.search(r"^ *1  user  signed   \S+Z  \S+Z  web/alice *$", out, re.M), out
    assert "\x1b" not in out


def test_status_list_and_signers(clients, station, signed, front):
    root = clients["root"]
    assert 0 == root("revoke", "web/zoe", "--yes")[0]
    [status] = root.json("status")
    assert (1, 1, 0, 1) == tuple(status[it] for it in ("certificates", "signed", "outbox", "valid"))
    assert [shown(signed)["Signing CA"].split()[1]] == [it["fingerprint"] for it in status["cas"]]
    [listed] = root.json("list")
    assert ("1", ["web/zoe"]) == (listed["version"], listed["cas"][0]["keyids"])
    assert "web/zoe" in root("list")[1] and status["office"] in root("status")[1]
    assert front.session().get(f"{front.url}/v1/signers").text == root("signers")[1]


# A line of Prometheus' text format.
FIGURE = re.compile(r'# (HELP|TYPE) [a-z_]+ .+|[a-z_]+(\{[a-z]+="[a-z]+"(,[a-z]+="[a-z]+")*\})? [0-9.e-]+')


def test_figures_of_an_office(clients, station, signed, alice, front):
    """By a reader's certificate. One certificate is signed, one waits, and one is revoked."""
    ana, watch = clients["ana"], clients["watch"]
    for name in ("web/zoe", "web/late"):
        assert 4 == ana("--wait", "1", "request", name, alice, "--principals", "alice")[0]
    assert 0 == ana("revoke", "web/zoe", "--yes")[0]
    until(lambda: " revoked " in watch("certs")[1] and "version 1" in watch("list", "--out", "list")[1], pause=1)
    status, out, told = watch("figures", "--last", "100000")
    assert [] == [line for line in out.splitlines() if not FIGURE.fullmatch(line)]
    got = dict(line.split(" ") for line in out.splitlines() if not line.startswith("#"))
    assert (0, "", "1") == (status, told, got["office_up"])
    assert {"pending": "1", "signed": "1", "revoked": "1"} == {
        state: got[f'office_certificates{{kind="user",state="{state}"}}'] for state in ("pending", "signed", "revoked")}
    assert ("1", "1", str(100000 - 3), str(2 ** 63 - 3)) == tuple(got[f"office_{it}"] for it in (
        'certificates_valid{kind="user"}', "list_version", "serials_left", "list_versions_left"))
    assert abs(time.time() - float(got["office_list_changed_timestamp_seconds"])) < 120
    for of, file in {"front": front.authority / "server.crt", "client": front.certificate("watch")}.items():
        ends = run(["openssl", "x509", "-noout", "-enddate", "-in", file], check=True).stdout.decode().strip()
        moment = run(["date", "-d", ends.partition("=")[2], "+%s"], check=True).stdout.decode().strip()
        assert moment == got[f'office_tls_ends_timestamp_seconds{{of="{of}"}}']
    # Since its first second, which is a minute before the request.
    assert 60 <= int(got["office_pending_since_seconds"]) < 180


def test_figures_without_an_office(clients, front):
    front.end()
    status, out, _ = clients["root"]("figures")
    assert (3, ["office_up 0"]) == (status, [it for it in out.splitlines() if not it.startswith("#")])


@pytest.mark.parametrize("words", [["--certificate", "/none"], ["--office", "ftp://127.0.0.1"]])
def test_figures_say_that_the_office_is_away_if_nobody_can_be_asked(clients, words):
    status, out, _ = clients["root"](*words, "figures")
    assert (2, ["office_up 0"]) == (status, [it for it in out.splitlines() if not it.startswith("#")])


# ---- departments

def test_a_department_is_compared_and_sent(clients, station, signed, room):
    root = clients["root"]
    narrower = POLICY.replace("principals alice,", "principals zoe,").replace("maxlife 86400", "maxlife 60")
    pathlib.Path("narrower").write_text(narrower)
    status, out, _ = root("department", "diff", "narrower", "web")
    assert 0 == status
    assert {"-principals alice,*@example.org", "+principals zoe,*@example.org", "+maxlife 60"} <= {*out.splitlines()}
    assert "1 certificate that can still be used wouldn't be permitted:" in out
    assert "principal alice, lifetime of 3600 s" in out
    # A list of types that leaves out the key of a certificate: it could be used, and not be renewed.
    pathlib.Path("types").write_text(POLICY.replace("maxlife 86400", "key-types ssh-rsa\nmaxlife 86400"))
    status, out, _ = root("department", "diff", "types", "web")
    assert (0, True, True) == (status, "+key-types ssh-rsa" in out.splitlines(), "key type ssh-ed25519" in out), out
    assert (0, "no difference\n", "") == root("department", "diff", room / "policy")
    assert 2 == root("department", "put", "narrower", "web")[0]
    assert (0, "department web\n", "") == root("department", "put", "narrower", "web", "--yes")
    assert (0, POLICY.split("# servers\n")[1], "") == root("department", "show", "web-hosts")
    assert ["web", "web-hosts"] == [it["name"] for it in root.json("department", "show")]


@pytest.mark.parametrize("text, fault", [
    ("department web\n", "line 1: the department ends before its line `kind ..`"),
    (POLICY + POLICY, "a second department of the name web"),
    (POLICY.replace("kind user", "kin user"), "'kin user' isn't a line `kind ..`"), (POLICY[:-1], "no line feed"),
    ("# nothing\n", "has no department"),
], ids=["short", "twice", "word", "cut", "empty"])
def test_a_file_that_has_no_departments(clients, text, fault):
    pathlib.Path("bad").write_text(text)
    status, _, told = clients["root"]("department", "put", "bad", "--yes")
    assert 2 == status and fault in told


def test_a_department_that_the_office_refuses(clients):
    pathlib.Path("host").write_text(department(kind="host", options="", extensions="", namespaces=""))
    status, _, told = clients["root"]("department", "put", "host", "--yes")
    assert 1 == status and "refused 12 KindFixed" in told


# ---- rollover

def test_a_rollover(clients, room):
    run(["ssh-keygen", "-q", "-t", "ed25519", "-N", "", "-f", "next"], check=True)
    fingerprint = run(["ssh-keygen", "-l", "-f", "next.pub"], check=True).stdout.decode().split()[1]
    assert 2 == clients["root"]("rollover", "next.pub")[0]
    assert (0, f"CA 2 is {fingerprint}, from serial 1 on\n", "") == clients["root"]("rollover", "next.pub", "--yes")
    status, _, told = clients["root"]("rollover", "next.pub", "--yes")
    # The same message again would be the same rollover; a new one is refused.
    assert 1 == status and "refused 23 CaInUse" in told


# ---- doctor

def test_doctor_looks_at_the_host_certificate_that_sshd_shows(room, monkeypatch):
    """The one that set-up has sshd show, which vethlumi-host renews."""
    monkeypatch.syspath_prepend(CLIENT.split(":")[1])
    monkeypatch.syspath_prepend(CLIENT.split(":")[0])
    from vethlumi import doctor
    assert str(loaded(PROGRAMS / "setup/vethlumi-server-setup").HOST_CERTIFICATE) == doctor.OF_THIS_HOST
    new_key(room / "ca")
    new_key(room / "host")
    run(["ssh-keygen", "-q", "-s", room / "ca", "-h", "-I", "hosts/a", "-n", "a.example.org", "-V", "-1h:+10m",
         room / "host.pub"], check=True)
    monkeypatch.setattr(doctor, "CERTIFICATES", (str(room / "*-cert.pub"),))
    for shown, advice in ((room / "host-cert.pub", "journalctl -u vethlumi-host says why"), ("", "vethlumi renew ")):
        monkeypatch.setattr(doctor, "OF_THIS_HOST", str(shown))
        [found] = doctor.local_findings(3600)
        assert "ok" != found.state and found.advice.startswith(advice)


def test_doctor_finds_what_is_well_and_what_is_not(clients, signed, front, served):
    root = clients["root"]
    assert 0 == root("list", "--out", "list")[0]
    settle(root, "sshd", TrustedUserCAKeys=signed, RevokedKeys=pathlib.Path("list").absolute())
    found = {it["what"]: it for it in root.json("doctor")}
    for what in ("front's certificate", "client's certificate", "clock", "office", "list here", "signing station",
                 "sshd TrustedUserCAKeys", "sshd RevokedKeys"):
        assert "ok" == found[what]["state"], found[what]
    os.utime("list", (0, 0))
    front.end()
    status, out, _ = root("doctor", "--krl", "list", "--json")
    found = {it["what"]: it["state"] for it in map(json.loads, out.splitlines())}
    assert 1 == status
    assert {"front's certificate": "bad", "office": "bad", "list here": "bad", "client's certificate": "ok"} == {
        name: found[name] for name in ("front's certificate", "office", "list here", "client's certificate")}


@pytest.mark.parametrize("digest, age, state, found", [
    (None, 0, "warn", "there is none"), ("0" * 64, 0, "bad", "is of another list"), ("", 60, "ok", "made 6"),
    ("", 7200, "bad", "made 72"),
])
def test_doctor_looks_at_the_statement_of_the_list(clients, digest, age, state, found):
    root = clients["root"]
    assert 0 == root("list", "--out", "list")[0]
    if digest is not None:
        digest = digest or hashlib.sha256(pathlib.Path("list").read_bytes()).hexdigest()
        pathlib.Path("list.statement").write_text(f"list {digest} 0 {int(time.time()) - age}\n-----BEGIN ..")
    told = [json.loads(it) for it in root("doctor", "--krl", "list", "--json")[1].splitlines()]
    it = next(it for it in told if it["what"] == "list's statement")
    assert state == it["state"] and it["found"].startswith(found)


def settle(client, program, **settings):
    """Has `sshd -T` or `ssh -G` print these settings."""
    file = client.home / "bin" / program
    file.parent.mkdir(exist_ok=True)
    lines = "".join(f"echo {name.lower()} {value}\n" for name, value in settings.items())
    file.write_text(f"#!/bin/sh\n{lines}")
    file.chmod(0o755)


@pytest.mark.parametrize("settings, due", [
    ({}, {"sshd": "ok"}),
    ({"TrustedUserCAKeys": "none", "RevokedKeys": "none"}, {"sshd": "ok"}),
    ({"TrustedUserCAKeys": "/none/cas.pub", "RevokedKeys": "none"},
     {"sshd TrustedUserCAKeys": "bad", "sshd RevokedKeys": "bad"}),
])
def test_doctor_looks_at_the_settings_of_sshd(clients, settings, due):
    settle(clients["root"], "sshd", **settings)
    _, out, _ = clients["root"]("doctor", "--json")
    found = {it["what"]: it["state"] for it in map(json.loads, out.splitlines())}
    assert due == {name: state for name, state in found.items() if name.startswith("sshd")}


@pytest.mark.parametrize("file, age, due", [(None, 0, None), ("none", 0, None), ("list", 60, "ok"),
                                            ("list", 7200, "bad"), ("missing", 0, "bad")])
def test_doctor_looks_at_the_list_by_which_ssh_refuses_hosts(clients, file, age, due):
    """On a machine without a server, too. Once nothing fetches it any more it grows old."""
    root = clients["root"]
    settle(root, "sshd")
    settle(root, "ssh", **{} if file is None else {
        "RevokedHostKeys": file if file == "none" else pathlib.Path(file).absolute()})
    assert 0 == root("list", "--out", "list")[0]
    os.utime("list", (time.time() - age,) * 2)
    told = [json.loads(it) for it in root("doctor", "--json")[1].splitlines()]
    assert [due] * bool(due) == [it["state"] for it in told if it["what"] == "list here"]


@pytest.mark.parametrize("what", ["list", "list.statement"])
@pytest.mark.parametrize("put", ["mkfifo {0}", "mkdir {0}", "truncate -s 33554433 {0}", "ln -s /dev/zero {0}"])
def test_doctor_waits_for_no_list_that_the_user_who_fetches_has_spoilt(clients, what, put):
    """Root may be the one who types it."""
    root = clients["root"]
    assert 0 == root("list", "--out", "list")[0]
    run(["sh", "-c", f"rm -f {what}; {put.format(what)}"], check=True)
    told = {it["what"]: it for it in map(json.loads, root("doctor", "--krl", "list", "--json")[1].splitlines())}
    found = told["list here" if what == "list" else "list's statement"]
    assert "bad" == found["state"] and "isn't a regular file, or is over " in found["found"]


def test_a_list_that_ssh_and_sshd_read_is_looked_at_once(clients):
    root = clients["root"]
    assert 0 == root("list", "--out", "list")[0]
    settle(root, "sshd", TrustedUserCAKeys="list", RevokedKeys=pathlib.Path("list").absolute())
    settle(root, "ssh", RevokedHostKeys=pathlib.Path("list").absolute())
    assert 1 == root("doctor", "--json")[1].count('"list here"')


# ---- whose settings and whose outbox

@pytest.mark.root
@pytest.mark.parametrize("what, told", [
    ("home/.local/state/vethlumi", "the outbox can't be used: {} belongs to nobody, and root runs this"),
    ("home/.config/vethlumi.toml", "the settings can't be used: {} belongs to nobody, and root runs this"),
])
def test_what_belongs_to_another_user_is_not_used(room, what, told):
    """As with `sudo -E`: root, with the HOME of somebody else."""
    with Web(response(b"revoked\nversion 1\n")) as web:
        client = Client(room / "home", web.url, caller="ana")
        client.outbox.mkdir(parents=True)
        client.outbox.joinpath("a").write_text("a\nrevoke-keyid web/zoe\n")
        shutil.chown(room / what, "nobody")
        for words in (["outbox", "--send"], ["revoke", "web/zoe", "--yes"]):
            status, out, said = client(*words)
            assert (2, "", f"vethlumi: {told.format(room / what)}") == (status, out, said.partition(". ")[0])
        assert [] == web.requests and "a" == client.kept()[0].name


@pytest.mark.root
def test_an_outbox_is_not_made_in_a_folder_of_another_user(room):
    with Web(response(b"revoked\nversion 1\n")) as web:
        client = Client(room / "home", web.url, caller="ana")
        (room / "home/.local").mkdir()
        shutil.chown(room / "home/.local", "nobody")
        status, _, told = client("revoke", "web/zoe", "--yes")
        assert (2, []) == (status, web.requests) and f"{room / 'home/.local'} belongs to nobody" in told
        assert [] == os.listdir(room / "home/.local")


@pytest.mark.parametrize("mode, status", [(0o700, 0), (0o755, 0), (0o775, 2), (0o757, 2), (0o1777, 0)], ids=oct)
def test_an_outbox_in_a_folder_that_others_can_write(room, monkeypatch, mode, status):
    """In a folder like /tmp nobody can rename what is another's, so a folder is made there."""
    (room / "shared").mkdir()
    (room / "shared").chmod(mode)
    with Web(response(b"revoked\nversion 1\n")) as web:
        client = Client(room / "home", web.url, caller="ana")
        monkeypatch.setattr(client, "environment", lambda found=client.environment(): found | {
            "XDG_STATE_HOME": str(room / "shared")})
        found, _, told = client("revoke", "web/zoe", "--yes")
    assert status == found and ("others than its owner can write" in told) == (status == 2), told
    if status == 0:
        assert 0o700 == (room / "shared/vethlumi").stat().st_mode & 0o777


def test_an_outbox_that_others_can_write_is_not_used(room):
    with Web(response(b"revoked\nversion 1\n")) as web:
        client = Client(room / "home", web.url, caller="ana")
        client.outbox.mkdir(parents=True)
        client.outbox.chmod(0o777)
        status, _, told = client("outbox", "--send")
        assert (2, []) == (status, web.requests) and "others than its owner can write" in told


# ---- words and settings

@pytest.mark.parametrize("words, told", [
    (["nothing"], "No such command"), (["request", "alice", "alice.pub"], "expected DEPARTMENT/NAME"),
    (["request", "web/alice", "none.pub"], "does not exist"),
    (["request", "web/alice", "alice"], "has to end with .pub"),
    (["request", "web/alice", "policy", "--out", "cert"], "no public key of a supported type"),
    (["rollover", "damaged.pub", "--yes"], "no Ed25519 public key"),
    (["request", "web/alice", "alice.pub", "--life", "1y"], "isn't a valid duration"),
    (["get", "0"], "not in the range"),
    (["revoke", "alice", "--yes"], "the file has no certificate"), (["revoke", "zoe", "--yes"], "isn't a serial"),
    (["--wait", "soon", "status"], "isn't a valid duration"), (["show", "none"], "No such file"),
])
def test_bad_words_end_with_2(clients, alice, words, told):
    pathlib.Path("damaged.pub").write_text("ssh-ed25519 AAAAC3NzaC1lZDI1NTE5AAAAIA alice\n")
    status, out, said = clients["ana"](*words)
    assert (2, "") == (status, out) and told in said
    assert [] == clients["ana"].kept()


@pytest.mark.parametrize("settings, told", [
    ("", "no office: set `office`"), ('office = "office.example.org"\n', "isn't a URL"),
    ("office = 1\n", "isn't a setting"),
    ('port = "1"\n', "isn't a setting"), ("office\n", "vethlumi.toml"),
    ('office = "http://127.0.0.1:1"\ncertificate = "/none"\n', "can't read /none"),
    ('office = "http://127.0.0.1:65536"\n', "isn't a URL with"), ('office = "http://:1"\n', "isn't a URL with"),
    ('office = "http://127.0.0.1:a"\n', "isn't a URL with"), ('office = "http://[::1"\n', "isn't a URL with"),
    ('office = "http://a b"\n', "isn't a URL with"), ('office = "http://a\\u001bb"\n', "isn't a URL with"),
    *((f'office = "http://{it}"\n', "http is only for an office on this machine") for it in (
        "office.example.org", "127.0.0.1.example.org:80", "localhost.example.org", "[::2]:1", "128.0.0.1")),
])
def test_bad_settings_end_with_2(room, settings, told):
    client = Client(room / "home", "")
    (room / "home/.config/vethlumi.toml").write_text(settings)
    status, out, said = client("status")
    assert (2, "") == (status, out) and told in said


def test_options_override_settings(clients, front):
    ana = clients["ana"]
    assert 3 == ana("--wait", "1", "--office", "https://localhost:1", "status")[0]
    assert 0 == ana("--certificate", front.certificate("watch"), "status")[0]


def test_a_caller_without_a_front(served, room, alice):
    root, ana = (Client(room / name, served.url, caller=name) for name in ("root", "ana"))
    pathlib.Path("policy").write_text(POLICY)
    assert 0 == root("department", "put", "policy", "--yes")[0]
    assert 4 == ana("--wait", "1", "request", "web/alice", alice)[0]
    assert ["web/alice"] == [it["keyid"] for it in ana.json("certs")]


def test_what_ssh_keygen_makes_is_read_as_ssh_keygen_shows_it(room, alice):
    run(["ssh-keygen", "-q", "-t", "ed25519", "-N", "", "-f", "ca"], check=True)
    run(["ssh-keygen", "-q", "-s", "ca", "-I", "web/alice", "-n", "alice,bob", "-z", "7", "-V", "20300101:20310101",
         "-O", "clear", "-O", "force-command=/bin/true", "-O", "permit-pty", alice], check=True)
    script = ("import sys; from vethlumi.formats import Certificate; import json; "
              "print(json.dumps(Certificate.of_line(open(sys.argv[1]).read()).as_record()))")
    record = json.loads(run(["/usr/bin/python3", "-B", "-c", script, "alice-cert.pub"], check=True,
                            env=os.environ | {"PYTHONPATH": CLIENT}).stdout)
    said = shown("alice-cert.pub")
    assert said["Principals"] == record["principals"] and said["Extensions"] == record["extensions"]
    assert {"force-command": "/bin/true"} == record["options"] and said["Serial"] == record["serial"]
    assert said["Signing CA"].split()[1] == record["ca"]
    assert "2030-01-01T00:00:00Z" == record["after"] and "2031-01-01T00:00:00Z" == record["before"]
    assert base64.b64decode(pathlib.Path("ca.pub").read_text().split()[1])
