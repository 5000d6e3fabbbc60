"""The scripts that callers, servers and those who watch type: ca-line, request, fetch-list and
list-of-table. test_authority.py has those of the front's authority."""
import functools
import http.server
import json
import os
import re
import shutil
import threading

import pytest

from asking import department, post, revoke_serial
from running import PROGRAMS, TOP, command, is_revoked, new_key, run, until

pytestmark = pytest.mark.xdist_group("scripts")


def script(name, *words, **environment):
    """Status, output, and the last line of errors of a command of programs/ or examples/."""
    done = run([command(name), *words], env=os.environ | environment)
    errors = done.stderr.decode().splitlines()
    return done.returncode, done.stdout.decode(), errors[-1] if errors else ""


def shown(certificate):
    """What ssh-keygen shows of a certificate, as lines without spaces around them."""
    return [it.strip() for it in run(["ssh-keygen", "-L", "-f", certificate], check=True).stdout.decode().splitlines()]


@pytest.mark.parametrize("name", ["authority", "request", "ca-line", "list-of-table", "fetch-list"])
def test_a_script_says_what_it_wants(name):
    status, out, _ = script(name, "--help")
    assert (0, True, 2) == (status, os.path.basename(name) in out, script(name, "--no-such-word")[0])


# What packages install, or pages have people install, as a Python script.
PYTHON = sorted(str(it.relative_to(TOP)) for folder in ("examples", "programs/*", "debian")
                for it in TOP.glob(f"{folder}/*")
                if it.is_file() and it.name != "prepare" and re.match(rb"#!.*python", it.read_bytes()))


@pytest.mark.parametrize("name", [it for it in PYTHON if not it.startswith("debian/")])
def test_a_script_of_python_runs_no_module_that_somebody_has_put_there(room, name):
    """Neither from the script's folder nor from PYTHONPATH: some of them have a private key, or are run by root."""
    place, common = room / "place", room / "common"
    place.mkdir()
    copied = shutil.copy(TOP / name, place)
    for it in (PROGRAMS / "setup").glob("*.py"):
        shutil.copy(it, place)
    for it in ("station/vethlumi_station", "registrar/vethlumi_registrar", "client/vethlumi", "common/vethlumi_common",
               "signon/vethlumi_signon"):
        shutil.copytree(PROGRAMS / it, place / it.rpartition("/")[2])
    shutil.copytree(PROGRAMS / "common", common)
    for it in ("argparse", "datetime", "hashlib", "re", "subprocess"):
        for folder in (place, common):
            (folder / f"{it}.py").write_text("print('planted')\nraise SystemExit(9)\n")
    assert 9 == run(["/usr/bin/python3", "-B", copied, "--help"]).returncode, "it would be run"
    done = run([copied, "--help"], env=os.environ | {"PYTHONPATH": str(place)})
    assert (0, run([TOP / name, "--help"]).stdout) == (done.returncode, done.stdout)


def test_python_is_isolated_wherever_it_is_named():
    assert {"debian/vethlumi", *(f"programs/{it}" for it in ("station/station", "front/authority",
                                                              "server/vethlumi-host"))} <= {*PYTHON}
    assert {"#!/usr/bin/python3 -I"} == {(TOP / it).read_text().partition("\n")[0] for it in PYTHON}
    files = [it for folder in ("examples", "programs") for it in (TOP / folder).rglob("*") if it.is_file()]
    texts = {it: it.read_text(errors="replace") for it in files if it.suffix != ".md" and it.name != "__main__.py"}
    assert [] == [str(it) for it, text in texts.items() if re.search(r"python3 -[a-zA-HJ-Z]", text)]


# ---- ca-line

def test_the_key_line_of_a_pem(office):
    """Of its private half and of its public one; ssh-keygen reads it, and printf and base64 make the same."""
    status, line, _ = script("ca-line", office.ca_key, "the first CA")
    (office.db.parent / "line.pub").write_text(line)
    read = run(["ssh-keygen", "-l", "-f", "line.pub"], check=True).stdout.decode().split(" ", 2)
    assert (0, "the first CA (ED25519)\n") == (status, read[2])
    run(["openssl", "pkey", "-in", office.ca_key, "-pubout", "-out", "half.pem"], check=True)
    assert line.split()[:2] == script("ca-line", "half.pem")[1].split()
    blob = r"""printf '\0\0\0\013ssh-ed25519\0\0\0\040' && openssl pkey -in "$0" -pubout -outform DER | tail -c 32"""
    by_hand = run(["sh", "-c", f"{{ {blob}; }} | base64 -w 0", office.ca_key], check=True).stdout.decode()
    assert by_hand == line.split()[1]


def test_a_key_of_another_kind_has_no_line(authority):
    why = f"ca-line: {authority}/ca.key has no Ed25519 key, or openssl can't read it"
    assert (1, "", why) == script("ca-line", authority / "ca.key")


def test_a_comment_of_two_lines_is_refused(office):
    why = "ca-line: the comment has a line feed or another control letter"
    assert (1, "", why) == script("ca-line", office.ca_key, "a\nb")


# ---- request

WEB = department("web", principals="alice,lost", options="force-command", extensions="permit-pty")


@pytest.fixture
def asking(front, room):
    """A front before an office with the department web, and request as ana types it; alice and here are keys."""
    assert 200 == front.session("root").post(f"{front.url}/v1/requests/web-1", data=WEB).status_code
    new_key("alice")
    environment = {"OFFICE_CERT": str(front.certificate("ana")), "OFFICE_CACERT": str(front.authority / "ca.crt")}
    front.ask_for = lambda *words, **other: script("request", *words, **environment | other)
    return front


ALICE = ("web", "web/alice", "alice.pub", "alice", "8h")


def left_of(key):
    """What request keeps of a key."""
    return sorted(it for it in os.listdir() if it.startswith(f"{key}.request"))


def test_one_command_leads_from_a_key_to_a_certificate(asking, station):
    waits = (1, "", "request: serial 1 has no signature yet; alice.request is kept: run the same command again")
    assert waits == asking.ask_for("--wait", 1, asking.url, *ALICE)
    assert 0o600 == os.stat("alice.request").st_mode & 0o777
    assert [1] == station.sign()
    assert (0, "alice-cert.pub serial 1\n", "") == asking.ask_for(asking.url, *ALICE)
    assert 'Key ID: "web/alice"' in shown("alice-cert.pub")
    assert [] == left_of("alice")


def test_other_words_are_refused_while_the_first_have_no_answer(asking):
    asking.ask_for("--wait", 1, asking.url, *ALICE)
    with open("alice.request", encoding="ascii") as file:
        kept = file.read()
    why = ("request: alice.request has another message, still without a certificate: repeat that command, or remove "
           "the file")
    assert (1, "", why) == asking.ask_for("--wait", 1, asking.url, "web", "web/other", "alice.pub", "alice", "8h")
    with open("alice.request", encoding="ascii") as file:
        assert kept == file.read()


# What, the words, and the status and the complaint.
BAD = [
    ("a principal that the department does not permit", ("web", "web/alice", "alice.pub", "mallory", "8h"), 1,
     "request: refused 14 NotPermitted"),
    ("a life that is none", ("web", "web/alice", "alice.pub", "alice", "8y"), 2, "request: no life: 8y"),
    ("a private key", ("web", "web/alice", "alice", "alice", "8h"), 2,
     "request: the public key's file has to end with .pub: alice"),
]


@pytest.mark.parametrize("words, status, why", [it[1:] for it in BAD], ids=[it[0] for it in BAD])
def test_a_request_that_is_refused_is_not_kept(asking, words, status, why):
    assert (status, "", why) == asking.ask_for(asking.url, *words)
    assert [] == left_of("alice")


def test_without_a_certificate_the_front_refuses_a_request(asking):
    why = "request: front: the certificate names no caller, or there is none (status 403)"
    assert (1, "", why) == asking.ask_for(asking.url, *ALICE, OFFICE_CERT="")


def test_without_a_front_request_names_its_caller(asking, station):
    words = ("--caller", "ana", "--option", "force-command /bin/true", "--extensions", "permit-pty", "--wait", "1",
             asking.served.url, "web", "web/alice", "alice.pub", "alice", "15m")
    assert 1 == asking.ask_for(*words)[0]
    station.sign()
    assert (0, "alice-cert.pub serial 1\n", "") == asking.ask_for(*words)
    lines = shown("alice-cert.pub")
    assert ["force-command /bin/true", "permit-pty"] == [it for it in lines[lines.index("Critical Options:"):]
                                                         if not it.endswith(":")]


# ---- fetch-list

@pytest.fixture
def listed(asking, station):
    """The front, with alice's certificate of serial 1 in alice-cert.pub, and fetch-list as a server types it."""
    asking.ask_for("--wait", 1, asking.url, *ALICE)
    station.sign()
    assert 0 == asking.ask_for(asking.url, *ALICE)[0]
    words = ["--unsigned", "--ca", asking.office.ca, "--cacert", asking.authority / "ca.crt", asking.url]
    asking.fetch = functools.partial(script, "fetch-list", *words)
    return asking


def test_a_server_fetches_the_list(listed, room):
    assert (0, "", "") == listed.fetch("revoked.krl")
    assert listed.served.get("/v1/krl").body == (room / "revoked.krl").read_bytes()
    assert not is_revoked("revoked.krl", "alice-cert.pub")
    listed.session("ana").post(f"{listed.url}/v1/requests/revoke-1", data=revoke_serial(1))
    until(lambda: listed.fetch("revoked.krl")[0] == 0 and is_revoked("revoked.krl", "alice-cert.pub"))
    assert 0o644 == os.stat("revoked.krl").st_mode & 0o777


class Folder:
    """A server that gives what is in a folder."""
    def __init__(self, folder):
        handler = functools.partial(Quiet, directory=folder)
        self.server = http.server.ThreadingHTTPServer(("127.0.0.1", 0), handler)
        self.url = f"http://127.0.0.1:{self.server.server_address[1]}"
        threading.Thread(target=self.server.serve_forever, daemon=True).start()

    def end(self):
        self.server.shutdown()
        self.server.server_close()


class Quiet(http.server.SimpleHTTPRequestHandler):
    def log_message(self, *_):
        pass


@pytest.fixture
def folder_server(room):
    (room / "web/v1").mkdir(parents=True)
    made = Folder(room / "web")
    yield made
    made.end()


UNREADABLE = "refused as NotAList: ssh-keygen can't read the new list"
# What comes in the place of a list, of which the office's newest and its first are given, and the complaint.
OTHERS = [
    ("an error", None, "no list from {url}"),
    ("another page", lambda krl, first: b"<html>sign in to the network</html>\n", UNREADABLE),
    ("half a list", lambda krl, first: krl[:60], UNREADABLE),
    ("an empty file", lambda krl, first: b"", UNREADABLE),
    ("an older list", lambda krl, first: first, "refused as OlderVersion: got version 0, and 1 is in place"),
]


@pytest.mark.parametrize("come, why", [it[1:] for it in OTHERS], ids=[it[0] for it in OTHERS])
def test_what_is_no_newer_list_does_not_take_the_place_of_the_list(office, folder_server, room, come, why):
    first = office.krl()
    office.apply([post("root", "web", department()), post("root", "revoke-1", "revoke-keyid web/alice\n")])
    krl = office.krl()
    assert krl != first
    (room / "revoked.krl").write_bytes(krl)
    if come:
        (room / "web/v1/krl").write_bytes(come(krl, first))
    complaint = f"fetch-list: {why.format(url=folder_server.url)}; revoked.krl is as it was"
    words = ["--unsigned", "--ca", office.ca, folder_server.url, "revoked.krl"]
    assert (1, "", complaint) == script("fetch-list", *words)
    assert krl == (room / "revoked.krl").read_bytes()
    assert ["revoked.krl"] == [it for it in os.listdir() if it.startswith("revoked.krl")]


# ---- list-of-table

@pytest.fixture
def table(listed, room):
    """The table of three certificates, of which alice's is revoked, as the front gives it, in the file `table`."""
    for number in (2, 3):
        new_key(f"key-{number}")
        listed.ask_for("--wait", 1, listed.url, "web", f"web/key-{number}", f"key-{number}.pub", "alice", "8h")
    listed.session("ana").post(f"{listed.url}/v1/requests/revoke-1", data=revoke_serial(1))
    until(lambda: " revoked " in listed.session("watch").get(f"{listed.url}/v1/table").text, pause=1)
    (room / "table").write_text(listed.session("watch").get(f"{listed.url}/v1/table").text)
    return listed


def test_the_table_as_json(table):
    status, out, _ = script("list-of-table", "table")
    first, *rest = [json.loads(line) for line in out.splitlines()]
    validity = next(it for it in shown("alice-cert.pub") if it.startswith("Valid: ")).split()
    assert (0, 2, f"{validity[2]}Z", f"{validity[4]}Z") == (status, len(rest), first["after"], first["before"])
    assert ("1", "revoked", "web/alice", "user", "web") == tuple(
        first[it] for it in ("serial", "state", "keyid", "kind", "department"))


def test_the_latest_moment_has_a_date(room):
    row = f"{1:19d}  user  signed   {0:12d}  {253402300799:12d}  web/a\ntotal 1 version 0\n"
    (room / "table").write_text(row)
    assert "9999-12-31T23:59:59Z" == json.loads(script("list-of-table", "table")[1])["before"]


ROW = f"{1:19d}  user  signed   {0:12d}  {1:12d}  web/a\n"
CUT = "the table doesn't end with its total: it was cut off, or isn't a table"
TABLES = [
    ("a table without its end", 2 * ROW, CUT),
    ("a table that lacks a line", ROW + "total 2 version 0\n", "the table has 1 lines, and its last line says 2"),
    ("a table with another line", "web/a\ntotal 1 version 0\n", "line 1 isn't a line of a table"),
    ("nothing", "", CUT),
]


@pytest.mark.parametrize("text, why", [it[1:] for it in TABLES], ids=[it[0] for it in TABLES])
def test_of_a_table_that_is_not_whole_nothing_is_printed(room, text, why):
    (room / "table").write_text(text)
    assert (1, "", f"list-of-table: {why}") == script("list-of-table", "table")
