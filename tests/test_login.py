"""Sign-on: `vethlumi login` and `logout`, before a provider and a registrar that are as they should be, or not."""
import base64
import contextlib
import fcntl
import json
import os
import pathlib
import pty
import re
import signal
import socket
import subprocess
import sys
import threading
import time
import urllib.error
import urllib.parse
import urllib.request

import pytest

from fetching import response
from running import CLIENT, free_port, is_listening, new_key, run, until
from signing_on import Answering, Person, Provider, Registrar, as_json, make_cas, redirect
from test_hostile_office import ANSWERS, MEMORY, PATIENCE, STEERS, headed, often  # noqa: F401

sys.path += CLIENT.split(":")
# Those of the hostile answers that say there is no certificate yet.
NOT_THERE = ("refusal of gzip", "HTML 404")


@pytest.fixture
def registrar(room):
    make_cas(room)
    with Registrar(room) as made:
        yield made


@pytest.fixture
def provider():
    with Provider() as made:
        yield made


@pytest.fixture
def make_person(room, provider, registrar):
    made = []

    def make(name="ana", **settings):
        made.append(Person(room / f"home-{name}", provider, registrar, **settings))
        return made[-1]
    yield make
    for it in made:
        it.end()


@pytest.fixture
def ana(make_person):
    return make_person()


def shown(lines, room):
    """What ssh-keygen says of the only certificate in lines of an agent."""
    [line] = lines
    (room / "shown.pub").write_text(line + "\n")
    return run(["ssh-keygen", "-L", "-f", room / "shown.pub"], check=True).stdout.decode()


# ---- a login

def test_a_login_gives_the_agent_a_key_and_its_certificate(ana, registrar, room):
    status, out, told = ana("login")
    assert 0 == status, told
    assert re.fullmatch(r"people/ana/aaaabbbbccccdddd serial 1 until \d{4}-\d\d-\d\dT\d\d:\d\d:\d\dZ\n", out), out
    [line] = ana.agent.keys()
    kind, blob, comment = line.split(" ", 2)
    assert registrar.lines[1].split()[:2] == [kind, blob]
    assert "vethlumi login people/ana/aaaabbbbccccdddd" == comment
    assert 'Key ID: "people/ana/aaaabbbbccccdddd"' in shown(ana.agent.keys(), room)
    assert "You are logged in. You may close this window" in ana.page.read_text()
    assert "waiting for the login in the browser" in told


def test_what_the_browser_opens_names_no_secret(ana):
    """The address that the browser opens is seen by others of this machine, and what the provider asks for is PKCE's
    hash, whose text goes to the provider alone."""
    assert 0 == ana("login")[0]
    [url] = ana.windows()
    query = dict(urllib.parse.parse_qsl(urllib.parse.urlsplit(url).query))
    assert {"response_type": "code", "client_id": "vethlumi", "scope": "openid", "code_challenge_method": "S256"} == {
        it: query.pop(it) for it in ("response_type", "client_id", "scope", "code_challenge_method")}
    assert {"redirect_uri", "state", "nonce", "code_challenge"} == {*query}
    assert re.fullmatch(r"http://127\.0\.0\.1:\d+/callback", query["redirect_uri"])
    # RFC 7636: 43 letters are SHA-256 without padding. The nonce is one as well, which the registrar compares.
    assert all(re.fullmatch("[A-Za-z0-9_-]{43}", query[it]) for it in ("nonce", "code_challenge"))
    assert len(query["state"]) >= 32


def test_two_logins_have_nothing_in_common(ana):
    assert [0, 0] == [ana("login")[0] for _ in range(2)]
    queries = [dict(urllib.parse.parse_qsl(urllib.parse.urlsplit(it).query)) for it in ana.windows()]
    assert all(queries[0][it] != queries[1][it] for it in ("state", "nonce", "code_challenge"))


def test_a_certificate_that_is_signed_later_is_waited_for(ana, registrar):
    registrar.looks = 3
    status, _, told = ana("login")
    assert 0 == status and "serial 1 waits for its signature" in told, told
    assert 4 == registrar.times("/v1/certificates/1") and 1 == len(ana.agent.keys())


def test_a_certificate_that_is_never_signed(ana, registrar):
    registrar.looks = 1000
    status, out, told = ana("--wait", "2", "login")
    assert (4, "", []) == (status, out, ana.agent.keys()) and "serial 1 has no signature yet" in told, told


def test_another_department(ana, registrar):
    registrar.validity = "-1m:+1h"
    assert (0, 0) == (ana("login")[0], ana("login", "--department", "operators")[0])
    assert ["operators/ana", "people/ana"] == sorted(
        re.search(r"login (\w+/\w+)/", it)[1] for it in ana.agent.keys())
    assert (0, 0) == tuple(ana("login", "--if-needed", "--department", it)[0] for it in ("people", "operators"))
    assert 2 == len(ana.windows())


def test_the_registrar_is_the_fronts_by_default(ana, registrar):
    ana.write_settings(office=registrar.url, registrar="")
    assert 0 == ana("login")[0] and 1 == len(ana.agent.keys())


def test_a_second_login_takes_the_place_of_the_first(ana):
    lines = []
    for _ in range(2):
        assert 0 == ana("login")[0]
        lines += ana.agent.keys()
    assert 2 == len({*lines}) and lines[1:] == ana.agent.keys()


def test_logging_out_removes_what_logins_have_added(ana, room):
    new_key(room / "own")
    run(["ssh-keygen", "-q", "-s", room / "ca", "-I", "people/ana/own", "-n", "ana", room / "own.pub"], check=True)
    assert 0 == ana.agent.add(room / "own").returncode
    before = ana.agent.keys()
    assert (0, 0) == (ana("login")[0], ana("login", "--department", "operators")[0])
    assert len(before) + 2 == len(ana.agent.keys())
    assert (0, "ssh-agent has forgotten 1 certificate\n", "") == ana("logout", "--department", "operators")
    assert (0, "ssh-agent has forgotten 1 certificate\n", "") == ana("logout")
    assert (0, "ssh-agent has forgotten 0 certificates\n", "") == ana("logout")
    assert before == ana.agent.keys()


# ---- only if it is needed

def test_a_certificate_in_the_agent_is_enough(ana, provider, registrar):
    assert 0 == ana("login", "--if-needed")[0]
    asked = len(provider.asked + registrar.asked)
    for words in (["login", "--if-needed"], ["login", "--if-needed", "--department", "people"],
                  ["login", "--if-needed", "--paste"], ["--wait", "1m", "login", "--if-needed"]):
        assert (0, "", "") == ana(*words)
    assert asked == len(provider.asked + registrar.asked) and 1 == len(ana.windows())


def test_nothing_is_asked_if_there_is_a_certificate(ana, room):
    """Of all calls that have to do with connections, there is only the agent's."""
    assert 0 == ana("login")[0]
    words = ["strace", "-f", "-o", room / "trace", "-e", "trace=network,execve", *ana.words("login", "--if-needed")]
    assert 0 == run(words, env=ana.environment()).returncode
    text = (room / "trace").read_text()
    families = {*re.findall(r" (?:connect|socket)\(.*?(AF_\w+)", text)}
    assert {"AF_UNIX"} == families and 1 == text.count("execve("), text


@pytest.mark.parametrize("validity, is_enough", [
    # The limit is 300 seconds; a busy machine takes some of them.
    ("-1m:+340s", True), ("-1m:+295s", False), ("+2m:+10h", False)])
def test_how_long_a_certificate_has_to_be_valid(ana, registrar, room, validity, is_enough):
    new_key(room / "own")
    run(["ssh-keygen", "-q", "-s", room / "ca", "-I", "people/ana/own", "-n", "ana", "-V", validity, room / "own.pub"],
        check=True)
    assert 0 == ana.agent.add(room / "own").returncode
    assert 0 == ana("login", "--if-needed")[0]
    assert is_enough == (0 == len(ana.windows()))


@pytest.mark.parametrize("words", [
    ["-s", "other", "-I", "people/ana/own"], ["-s", "ca", "-I", "peoples/ana/own"], ["-s", "ca", "-I", "people"],
    ["-s", "ca", "-h", "-I", "people/ana/own"]], ids=["CA", "department", "key ID", "kind"])
def test_another_certificate_is_not_enough(ana, room, words):
    new_key(room / "own")
    run(["ssh-keygen", "-q", *words, "-n", "ana", room / "own.pub"], check=True)
    assert 0 == ana.agent.add(room / "own").returncode
    assert 0 == ana("login", "--if-needed")[0] and 1 == len(ana.windows())


@pytest.mark.parametrize("kind", ["rsa", "ecdsa"])
def test_a_certificate_of_another_key_type_is_enough(ana, room, kind):
    run(["ssh-keygen", "-q", "-t", kind, "-N", "", "-f", room / kind], check=True)
    run(["ssh-keygen", "-q", "-s", room / "ca", "-I", "people/ana", "-n", "ana", room / f"{kind}.pub"], check=True)
    assert 0 == ana.agent.add(room / kind).returncode
    assert 0 == ana("login", "--if-needed")[0] and [] == ana.windows()


def test_other_keys_of_an_agent_do_not_matter(ana, room):
    for kind in ("rsa", "ecdsa"):
        run(["ssh-keygen", "-q", "-t", kind, "-N", "", "-f", room / kind], check=True)
        assert 0 == ana.agent.add(room / kind).returncode
    assert (0, 0) == (ana("login", "--if-needed")[0], ana("login", "--if-needed")[0]) and 1 == len(ana.windows())


@pytest.mark.slow
def test_the_agent_forgets_a_certificate_when_it_ends(ana, registrar):
    registrar.validity = "-1m:+12s"
    assert 0 == ana("login")[0] and 1 == len(ana.agent.keys())
    until(lambda: [] == ana.agent.keys())


def test_each_user_has_a_certificate_of_their_own(make_person, provider):
    ana, ben = make_person(), make_person("ben")
    assert 0 == ana("login", "--if-needed")[0]
    provider.who = "ben"
    assert 0 == ben("login", "--if-needed")[0]
    assert [1, 1] == [len(it.windows()) for it in (ana, ben)]
    assert ["people/ana", "people/ben"] == [re.search(r"login (\w+/\w+)/", key)[1] for it in (ana, ben)
                                            for key in it.agent.keys()]
    # And an agent of the same user that has none isn't helped by the other one.
    assert 0 == ana("login", "--if-needed", SSH_AUTH_SOCK=str(ben.agent.socket))[0]
    assert 0 == ana("logout")[0]
    assert ([], 1) == (ana.agent.keys(), len(ben.agent.keys()))


# ---- many at once

def ends_of(begun):
    return [(it.communicate(timeout=120), it.returncode) for it in begun]


def test_twelve_at_once_open_one_browser(ana, provider, registrar):
    registrar.looks = 2
    begun = [ana.begin("login", "--if-needed") for _ in range(12)]
    ended = ends_of(begun)
    assert 12 * [0] == [status for _, status in ended], ended
    assert (1, 1, 1) == (len(ana.windows()), provider.times("/token"), len(ana.agent.keys()))
    assert sum("waiting for another login of yours" in told for (_, told), _ in ended) in range(1, 12)


def test_a_login_that_fails_is_not_begun_again_for_each(ana, provider):
    """The browser has the others wait until all have begun."""
    provider.refuses = "access_denied"
    ana.browser.write_text(f"#!/bin/sh\necho \"$1\" >>{ana.opened}\nwhile ! [ -e {ana.home}/go ]; do sleep 0.1; done\n"
                           'exec curl -sL "$1"\n')
    begun = [ana.begin("login", "--if-needed")]
    until(ana.windows)
    begun += [ana.begin("login", "--if-needed") for _ in range(3)]
    waiting = [until(lambda it=it: it.stderr.readline()) for it in begun[1:]]
    assert 3 * ["vethlumi: waiting for another login of yours: which has begun before\n"] == waiting
    (ana.home / "go").touch()
    first, *others = ends_of(begun)
    assert 1 == first[1] and "refused: the provider: access_denied" in first[0][1], first
    due = "vethlumi: the other login ended without a certificate: run `vethlumi login`\n"
    assert 3 * [(("", due), 1)] == others
    assert 1 == len(ana.windows())


def test_a_login_that_is_killed_keeps_nobody_out(ana):
    ana.browser.write_text(f"#!/bin/sh\necho \"$1\" >>{ana.opened}\n")
    first = ana.begin("login")
    until(ana.windows)
    first.kill()
    first.communicate()
    ana.browser.write_text('#!/bin/sh\nexec curl -sL "$1"\n')
    assert 0 == ana("login")[0]


def test_the_wait_for_another_login_ends(ana):
    ana.browser.write_text(f"#!/bin/sh\necho \"$1\" >>{ana.opened}\n")
    first = ana.begin("login")
    until(ana.windows)
    status, out, told = ana("--wait", "1", "login")
    assert (3, "") == (status, out) and "another login of yours hasn't ended" in told, told
    first.kill()
    first.communicate()


# ---- ssh

def ssh_config(ana, room, port):
    """What ssh reads: the lines of the set-up, with the command as it is called here."""
    command = " ".join(ana.words("login", "--if-needed"))
    (room / "ssh_config").write_text(
        f'Match host 127.0.0.1 exec "{command}"\nHost *\n  Port {port}\n  BatchMode yes\n  StrictHostKeyChecking no\n'
        f"  UserKnownHostsFile /dev/null\n  LogLevel ERROR\n")
    return ["ssh", "-F", room / "ssh_config", "127.0.0.1", "echo granted"]


@pytest.fixture
def sshd(room, programs, registrar):
    """The port of an sshd that trusts the CA, for the principal ana, and no other keys."""
    new_key(room / "host")
    pathlib.Path("/run/sshd").mkdir(exist_ok=True)
    (room / "principals").write_text("ana\n")
    port = free_port()
    (room / "sshd_config").write_text(
        f"ListenAddress 127.0.0.1\nPort {port}\nHostKey {room}/host\nAuthorizedKeysFile none\nPidFile none\n"
        "PasswordAuthentication no\nKbdInteractiveAuthentication no\nStrictModes no\nUsePAM no\nMaxStartups 50\n"
        f"TrustedUserCAKeys {room}/ca.pub\nAuthorizedPrincipalsFile {room}/principals\n")
    programs.begin(["/usr/sbin/sshd", "-D", "-f", room / "sshd_config"])
    until(lambda: is_listening(port))
    return port


def test_twelve_ssh_at_once_are_granted_by_one_login(ana, provider, registrar, sshd, room):
    words = [str(it) for it in ssh_config(ana, room, sshd)]
    how = {"stdin": subprocess.DEVNULL, "stdout": subprocess.PIPE, "stderr": subprocess.PIPE, "text": True}
    ended = ends_of([subprocess.Popen(words, env=ana.environment(), **how) for _ in range(12)])
    assert 12 * ["granted\n"] == [out for (out, _), _ in ended], ended
    assert (1, 1) == (len(ana.windows()), len(ana.agent.keys()))
    # Later ones have nothing to say.
    assert ("granted\n", "") == subprocess.Popen(words, env=ana.environment(), **how).communicate(timeout=60)


def test_ssh_goes_on_after_a_login_that_was_refused(ana, provider, sshd, room):
    provider.refuses = "access_denied"
    done = run(ssh_config(ana, room, sshd), env=ana.environment())
    told = done.stderr.decode()
    assert 255 == done.returncode and b"" == done.stdout
    assert "vethlumi: refused: the provider: access_denied\n" in told and "Permission denied" in told


# ---- nothing on the disk

def files_below(*folders):
    return {str(it): it.stat().st_size for folder in folders for it in pathlib.Path(folder).rglob("*")
            if it.is_file()}


def test_a_login_leaves_no_file(ana, room):
    """In the home, in the session's folder, and in that for temporary files."""
    (room / "tmp").mkdir()
    ana.browser.write_text('#!/bin/sh\nexec curl -s -L "$1"\n')
    before = files_below(ana.home, room / "tmp")
    assert 0 == ana("login", TMPDIR=str(room / "tmp"))[0]
    assert before == files_below(ana.home, room / "tmp")


def test_a_login_writes_to_nothing_but_connections(ana, room):
    """By strace, with an address that is pasted, so that no browser is among the calls."""
    words = ["strace", "-f", "-y", "-o", room / "trace", "-e", "trace=%file,%desc", *ana.words("login", "--paste")]
    asking = subprocess.Popen([str(it) for it in words], env=ana.environment(), stdin=subprocess.PIPE,
                              stdout=subprocess.PIPE, stderr=subprocess.PIPE, text=True)
    told = paste(asking, address_of(asking))
    assert 0 == asking.returncode, told
    text = (room / "trace").read_text()
    written = [it for it in re.findall(r"^\d+ +(?:write|pwrite64|writev|sendfile|ftruncate)\(\d+<([^>]*)>", text, re.M)
               if not re.match(r"(pipe|socket|UNIX|TCP|anon_inode):|/dev/(null|tty)$", it)]
    opened = re.findall(r"^\d+ +(?:open|openat|creat)\(.*O_(?:WRONLY|RDWR|CREAT|TMPFILE).*", text, re.M)
    made = re.findall(r"^\d+ +(?:mkdir|mkdirat|rename\w*|link|linkat|symlink\w*|mknod\w*)\(.*= 0$", text, re.M)
    assert ([], [], []) == (written, [it for it in opened if "/dev/null" not in it and "/dev/tty" not in it], made)
    assert 1 == len(ana.agent.keys()) and text.count("\n") > 500


def test_a_login_that_crashes_writes_no_memory(ana, room):
    """The limit of files with a crash's memory is 0 before there is a key."""
    words = ["strace", "-f", "-o", room / "trace", "-e", "trace=prlimit64,setrlimit,connect", *ana.words("login")]
    assert 0 == run(words, env=ana.environment()).returncode
    text = (room / "trace").read_text()
    assert 0 < text.find("RLIMIT_CORE, {rlim_cur=0, rlim_max=0}") < text.index("sa_family=AF_INET")


# ---- an address that is pasted

def address_of(asking):
    """The address that a command tells people to open."""
    return until(lambda: next((line.strip() for line in iter(asking.stderr.readline, "") if "/authorize?" in line), ""))


class Stay(urllib.request.HTTPRedirectHandler):
    def redirect_request(self, *_):
        return None


def back(url):
    """Where the provider sends the browser that opens an address."""
    try:
        urllib.request.build_opener(Stay).open(url, timeout=60)
    except urllib.error.HTTPError as redirected:
        return redirected.headers["location"]


def paste(asking, url, change=lambda where: f"{where}\n"):
    """Opens an address elsewhere, and pastes where that leads. Returns what is told."""
    _, told = asking.communicate(change(back(url)), timeout=120)
    return told


def pasting(ana, change, *words):
    asking = subprocess.Popen(ana.words(*words, "login", "--paste"), env=ana.environment(BROWSER=""), text=True,
                              stdin=subprocess.PIPE, stdout=subprocess.PIPE, stderr=subprocess.PIPE)
    told = paste(asking, address_of(asking), change)
    return asking.returncode, told


def test_an_address_is_pasted(ana, provider):
    ana.write_settings(ports="8400,8401")
    assert (0, "") == pasting(ana, lambda where: f"  {where} \n")
    assert 1 == len(ana.agent.keys()) and [] == ana.windows()
    # As it is registered at the provider.
    [query] = [dict(urllib.parse.parse_qsl(head.split(" ")[1].partition("?")[2])) for _, path, head in provider.asked
               if path == "/authorize"]
    assert "http://127.0.0.1:8400/callback" == query["redirect_uri"]


OTHER = "this address belongs to a different login"
PASTED = {
    "another login's": (lambda where: re.sub(r"state=[^&]*", f"state={'A' * 32}", where) + "\n", 1, OTHER),
    "no state": (lambda where: re.sub(r"&state=[^&]*", "", where) + "\n", 1, OTHER),
    "two states": (lambda where: f"{where}&state=a\n", 1, OTHER),
    "two codes": (lambda where: f"{where}&code=a\n", 1, OTHER),
    "no code": (lambda where: re.sub(r"code=[^&]*&", "", where) + "\n", 1, OTHER),
    "code alone": (lambda where: re.search(r"code=([^&]*)", where)[1] + "\n", 1, OTHER),
    "nothing": (lambda where: "\n", 3, "no address was pasted"), "end": (lambda where: "", 3, "no address was pasted"),
    "no URL": (lambda where: "http://[\n", 1, OTHER), "escapes": (lambda where: "\x1b[2J\u202e\n", 1, OTHER),
    "many fields": (lambda where: where + "&a=b" * 100 + "\n", 1, OTHER),
    "longer than any": (lambda where: f"{where}&a={'b' * 20000}\n", 0, ""),
    "another provider's": (lambda where: re.sub(r"iss=[^&]*", "iss=https%3A%2F%2Fevil.example", where) + "\n", 1,
                           "the answer to the login came from a different provider"),
    "another code": (lambda where: re.sub(r"code=[^&]*", "code=abc", where) + "\n", 1, "the provider: invalid_grant"),
}


@pytest.mark.parametrize("name", PASTED)
def test_what_is_pasted(ana, name):
    change, due, why = PASTED[name]
    status, told = pasting(ana, change)
    assert due == status and why in told, told
    assert (due == 0) == (1 == len(ana.agent.keys())) and "Traceback" not in told


def test_nobody_pastes(ana):
    asking = subprocess.Popen(ana.words("--wait", "2", "login", "--paste"), env=ana.environment(), text=True,
                              stdin=subprocess.PIPE, stdout=subprocess.PIPE, stderr=subprocess.PIPE)
    assert 3 == asking.wait(60) and "no address was pasted" in asking.stderr.read()
    asking.communicate()


# ---- the loopback address

@pytest.fixture
def waiting(ana):
    """A login whose browser does nothing: its address, the process and how to ask the port."""
    ana.browser.write_text("#!/bin/sh\n")
    asking = ana.begin("login")
    url = address_of(asking)
    port = int(re.search(r"127\.0\.0\.1%3A(\d+)%2Fcallback", url)[1])

    def ask(request, timeout=20):
        with socket.create_connection(("127.0.0.1", port), timeout=timeout) as peer:
            peer.sendall(request)
            came = b""
            while piece := peer.recv(65536):
                came += piece
        return came
    yield url, port, ask, asking
    asking.kill()
    asking.communicate()


def get(target, port, method="GET"):
    return f"{method} {target} HTTP/1.1\r\nHost: 127.0.0.1:{port}\r\n\r\n".encode()


# Requests of others: from the target to which the provider sends the browser, with the port.
STRANGERS = {
    "another path": lambda target, port: get(target.replace("/callback", "/other"), port),
    "the root": lambda target, port: get("/", port), "no query": lambda target, port: get("/callback", port),
    "another state": lambda target, port: get(re.sub(r"state=[^&]*", "state=a", target), port),
    "no state": lambda target, port: get(re.sub(r"&state=[^&]*", "", target), port),
    "no code": lambda target, port: get(re.sub(r"code=[^&]*&", "", target), port),
    "an empty code": lambda target, port: get(re.sub(r"code=[^&]*&", "code=&", target), port),
    "two states": lambda target, port: get(f"{target}&state=a", port),
    "two codes": lambda target, port: get(f"{target}&code=a", port),
    "another host": lambda target, port: get(target, port).replace(b"127.0.0.1", b"evil.example"),
    "another port": lambda target, port: get(target, port + 1),
    "no host": lambda target, port: f"GET {target} HTTP/1.0\r\n\r\n".encode(),
    "POST": lambda target, port: get(target, port, "POST"), "HEAD": lambda target, port: get(target, port, "HEAD"),
    "another method": lambda target, port: get(target, port, "\x1b[2J"),
    "rubbish": lambda target, port: b"\x16\x03\x01\x02\x00\x01\x00\r\n\r\n",
    "a long line": lambda target, port: get("/callback?" + 70000 * "a", port),
    "many fields": lambda target, port: get(target + "&a=b" * 100, port),
    "nothing": lambda target, port: b"\r\n\r\n",
}


@pytest.mark.parametrize("name", STRANGERS)
def test_strangers_at_the_port_change_nothing(ana, waiting, name):
    url, port, ask, asking = waiting
    where = back(url)
    came = ask(STRANGERS[name](where.partition(f":{port}")[2], port))
    assert not re.match(rb"HTTP/1.[01] 200", came) and b"logged in" not in came, came
    assert asking.poll() is None
    assert b"You are logged in" in ask(get(where.partition(f":{port}")[2], port))
    assert asking.wait(60) == 0, asking.communicate()
    assert 1 == len(ana.agent.keys()) and not is_listening(port)


def test_silent_connections_keep_nobody_out(waiting):
    url, port, ask, asking = waiting
    with contextlib.ExitStack() as kept:
        for _ in range(20):
            kept.enter_context(socket.create_connection(("127.0.0.1", port)))
        assert b"You are logged in" in ask(get(back(url).partition(f":{port}")[2], port))
        assert asking.wait(60) == 0


def test_more_connections_than_are_served_end_by_themselves(waiting):
    url, port, ask, asking = waiting
    with contextlib.ExitStack() as kept:
        for _ in range(100):
            kept.enter_context(socket.create_connection(("127.0.0.1", port)))
        # Those that say nothing have five seconds.
        target = back(url).partition(f":{port}")[2]

        def is_answered():
            with contextlib.suppress(OSError):
                return b"You are logged in" in ask(get(target, port))
        until(is_answered)
        assert asking.wait(60) == 0


def test_one_code_is_taken(ana, provider, waiting):
    """Of many at once that have the state, as a browser might ask twice. All are heard before the first one ends."""
    url, port, _, asking = waiting
    request = get(back(url).partition(f":{port}")[2], port)
    with contextlib.ExitStack() as kept:
        peers = [kept.enter_context(socket.create_connection(("127.0.0.1", port), timeout=20)) for _ in range(8)]
        for it in peers:
            it.sendall(request[:-1])
        time.sleep(1)
        for it in peers:
            it.sendall(request[-1:])
        came = []
        for it in peers:
            with contextlib.suppress(OSError):
                came.append(it.recv(65536))
    assert 1 == sum(it.startswith(b"HTTP/1.0 200") for it in came), came
    assert asking.wait(60) == 0 and 1 == provider.times("/token")


def test_the_page_says_that_a_login_was_refused(ana, provider):
    provider.refuses, provider.returns = "access_denied", {"error_description": "\x1b[2Jnot\u202e today"}
    status, out, told = ana("login")
    assert (1, "") == (status, out)
    assert "vethlumi: refused: the provider: access_denied: ?[2Jnot? today\n" in told, told
    assert "The login was refused. You may close this window" in ana.page.read_text()


def test_the_first_free_port_is_taken(ana, provider):
    with socket.socket() as first, socket.socket() as third:
        for it in (first, third):
            it.bind(("127.0.0.1", 0))
        first.listen()
        ports = [first.getsockname()[1], free_port(), third.getsockname()[1]]
        ana.write_settings(ports=",".join(map(str, ports)))
        assert 0 == ana("login")[0]
    assert f"127.0.0.1%3A{ports[1]}%2Fcallback" in ana.windows()[0]


def test_ports_that_are_in_use(ana):
    with socket.socket() as taken:
        taken.bind(("127.0.0.1", 0))
        taken.listen()
        ana.write_settings(ports=str(taken.getsockname()[1]))
        status, out, told = ana("login")
    assert (2, "", []) == (status, out, ana.windows())
    assert f"each port of `ports` in the settings is in use: {ana.settings['ports']}" in told, told


def test_nobody_logs_in(ana):
    ana.browser.write_text("#!/bin/sh\n")
    status, out, told = ana("--wait", "2", "login")
    assert (3, "") == (status, out) and "nobody has logged in" in told, told


def test_a_login_is_interrupted(ana, waiting):
    url, port, _, asking = waiting
    asking.send_signal(signal.SIGINT)
    _, told = asking.communicate(timeout=60)
    assert 3 == asking.returncode and "vethlumi: interrupted: nobody is logged in\n" in told, told
    assert [] == ana.agent.keys() and not is_listening(port)


# ---- a provider that answers what it likes

DISCOVERY = "/realm/.well-known/openid-configuration"
NO_URLS, NO_TOKEN = "the provider names no https:// URLs for logins", "the provider gives no ID token"


def documents(provider):
    """What a provider may say of itself, each with what is told."""
    good = {"issuer": provider.issuer, "authorization_endpoint": f"{provider.url}/authorize",
            "token_endpoint": f"{provider.url}/token"}
    other = "the provider's issuer differs"
    yield "slash", good | {"issuer": f"{provider.issuer}/"}, other
    yield "another issuer", good | {"issuer": "https://evil.example"}, other
    yield "no issuer", {it: good[it] for it in good if it != "issuer"}, other
    yield "issuer in a list", good | {"issuer": [provider.issuer]}, other
    for url in ("http://evil.example/login", "file:///etc/passwd", "javascript:alert(1)", "-remote", "", 7, None, ["a"],
                "https://", "https://a b", "https://a\n.example", "https://\u202eexample", "https://ana@evil.example/",
                "http://127.0.0.1:99999/", "https://a.example/'$(touch taken)", 'https://a.example/"', "//a.example"):
        for name in ("authorization_endpoint", "token_endpoint"):
            yield f"{name} {url!r}", good | {name: url}, NO_URLS


@pytest.fixture
def asking(monkeypatch):
    """The client's module in this process: a provider of these settings, and what it raises. The module has the library
    look for addresses by a function of its own, which ends with the test."""
    monkeypatch.setattr(socket, "getaddrinfo", socket.getaddrinfo)
    from vethlumi import office, settings
    from vethlumi import provider as asked
    return lambda url, seconds=60: asked.Provider(
        settings.Settings(provider=url, client_id="vethlumi"), time.monotonic() + seconds), office.NoAnswer


def test_what_a_provider_says_of_itself(asking, provider):
    """One after the other by one module: no login begins."""
    make, no_answer = asking
    told = {}
    for name, said, due in documents(provider):
        provider.instead[DISCOVERY] = as_json(said)
        with pytest.raises(no_answer) as fault:
            make(provider.issuer).endpoints()
        told[name] = due in str(fault.value)
    assert all(told.values()), told
    # A provider that is reached by https has nothing elsewhere.
    https = {"issuer": "https://a.example", "authorization_endpoint": "https://b.example/a?tenant=1"}
    asked = make("https://a.example")
    asked.ask = lambda *_: https | {"token_endpoint": "http://127.0.0.1/"}
    with pytest.raises(no_answer):
        asked.endpoints()
    asked.ask = lambda *_: https | {"token_endpoint": "https://b.example/t"}
    assert ["https://b.example/a?tenant=1", "https://b.example/t"] == asked.endpoints()
    assert asked.url_of_login("https://b.example/a?tenant=1", "r", "s", "n", "v").startswith(
        "https://b.example/a?tenant=1&response_type=code&")


@pytest.mark.parametrize("said", [
    {}, {"id_token": None}, {"id_token": 7}, {"id_token": ""}, {"id_token": "a.b"}, {"id_token": "a.b.c.d"},
    {"id_token": "a.b.c\n"}, {"id_token": f"a.b.{'c' * 16381}"}, {"access_token": "a.b.c"}, {"id_token": ["a.b.c"]},
    {"id_token": "\x1b[2J.b.c"}], ids=str)
def test_a_token_that_is_none(ana, provider, said):
    provider.instead["/token"] = as_json(said)
    status, out, told = ana("login")
    assert (3, "", []) == (status, out, ana.agent.keys()) and NO_TOKEN in told, told
    assert 1 == len(ana.windows())


@pytest.mark.parametrize("data", [
    b"", b"[]", b"null", b"7", b"'a'", b"\xff\xfe", b"[" * 60000, b'{"a":' * 10000, b"{", b'{"issuer": 1e999}',
    b'{"serial": ' + b"9" * 5000 + b"}", b'{"issuer": "\\ud800"}'], ids=lambda it: str(it[:10]))
@pytest.mark.parametrize("path", [DISCOVERY, "/token", "/v1/login"])
def test_odd_json(ana, provider, registrar, path, data):
    server = registrar if path == "/v1/login" else provider
    server.instead[path] = response(data)
    status, out, told = ana("--wait", "5", "login")
    assert (3, "", []) == (status, out, ana.agent.keys())
    assert "vethlumi: no answer: the " in told and "Traceback" not in told, told


HOSTILE = [DISCOVERY, "/token", "/v1/login", "/v1/certificates/1"]


@pytest.mark.parametrize("name", ANSWERS)
def test_a_hostile_answer_does_no_harm(often, make_person, provider, registrar, room, name):
    """Of each route, by somebody of its own: in time and within memory, with one browser, and nothing that steers."""
    hostile, due = ANSWERS[name]
    cases = []
    for number, path in enumerate(HOSTILE):
        servers = Provider(), Registrar(room)
        servers[1].looks = path == HOSTILE[3]
        servers[number // 2].instead[path] = hostile
        it = Person(room / str(number), *servers)
        cases.append((it, path, servers))
    ended = often([{"words": ["--wait", "3", "login"], "environment": it.environment(), "folder": str(it.home)}
                   for it, _, _ in cases])
    for (it, path, servers), found in zip(cases, ended, strict=True):
        out, told = ((it.home / name).read_text() for name in ("out", "told"))
        print(path, found, told)
        assert ("", []) == (out, it.agent.keys()) and "Traceback" not in told and not STEERS.search(told)
        assert found["seconds"] < PATIENCE and found["memory"] < MEMORY
        assert (path != DISCOVERY) == len(it.windows())
        # No certificate is there yet: that is said by 404, whatever stands in the page.
        waits = path == HOSTILE[3] and name in NOT_THERE
        assert (4 if waits else due) == found["status"] and told.splitlines()[-1].strip()
        it.end()
        for server in servers:
            server.shutdown()


def test_a_redirect_of_the_provider_or_the_registrar_is_not_followed(ana, provider, registrar):
    with Answering() as other:
        for path, server in zip(HOSTILE[:3], (provider, provider, registrar)):
            server.instead = {path: redirect(f"{other.url}/")}
            status, _, told = ana("login")
            assert 1 == status and "this is a redirect, which isn't followed" in told, told
            server.instead = {}
        assert [] == other.asked


@pytest.mark.parametrize("path", ["/token", "/v1/login"])
def test_what_is_busy_is_asked_again(ana, provider, registrar, path):
    server = registrar if path == "/v1/login" else provider
    busy = as_json({"error": "busy", "detail": "later"}, "503 Service Unavailable")
    server.instead[path] = [busy, as_json({"error": "busy"}, "429 Too Many Requests"), headed("502 Bad Gateway")]
    status, _, told = ana("login")
    assert 0 == status and "busy" in told, told
    assert (4, 1, 1) == (server.times(path), len(ana.windows()), len(ana.agent.keys()))


# ---- a registrar that refuses, or that gives something else

@pytest.mark.parametrize("status", ["400 Bad Request", "401 Unauthorized", "403 Forbidden", "409 Conflict"])
def test_a_refusal_of_the_registrar(ana, registrar, status):
    said = {"error": "not_a_member", "detail": "ana is in none\nof the \x1b[2Jgroups"}
    registrar.instead["/v1/login"] = as_json(said, status)
    found, out, told = ana("login")
    assert (1, "", []) == (found, out, ana.agent.keys())
    assert told.endswith("vethlumi: refused: the registrar: not_a_member: ana is in none of the ?[2Jgroups\n"), told
    assert 1 == registrar.times("/v1/login")


@pytest.mark.parametrize("status, due", [("429 Too Many Requests", 429), ("502 Bad Gateway", 502),
                                         ("503 Service Unavailable", 503)])
def test_a_registrar_that_stays_busy(ana, registrar, status, due):
    registrar.instead["/v1/login"] = as_json({"error": "provider_away", "detail": "no keys came"}, status)
    found, out, told = ana("--wait", "6", "login")
    assert (3, "", []) == (found, out, ana.agent.keys())
    assert "no answer: the registrar: provider_away: no keys came" in told and registrar.times("/v1/login") > 1, told


@pytest.mark.parametrize("said", [
    {}, {"serial": 0}, {"serial": -1}, {"serial": "1"}, {"serial": 1.0}, {"serial": True}, {"serial": None},
    {"serial": 2 ** 63 - 1}, {"certificate": 7}, {"certificate": ["a"]}, {"certificate": False}], ids=str)
def test_what_is_no_certificate_and_no_serial(ana, registrar, said):
    registrar.changes = lambda answer: answer | said if said else {}
    status, out, told = ana("--wait", "5", "login")
    assert (3, "", []) == (status, out, ana.agent.keys())
    assert "the registrar: the answer is neither a certificate nor the serial of one" in told, told


def changed(line, at):
    """A certificate's line with one bit changed."""
    kind, blob, comment = line.split()
    data = bytearray(base64.b64decode(blob))
    data[at] ^= 1
    return f"{kind} {base64.b64encode(data).decode()} {comment}\n"


OTHERS = {
    "another CA": ({"ca": "other"}, None, "isn't trusted here"),
    "another department": ({"key_id": "operators/{1}/aaaabbbbccccdddd"}, None, "its department or kind is a different one"),
    "a department that begins so": ({"key_id": "people2/{1}/a"}, None, "its department or kind is a different one"),
    "a key ID that steers": ({"key_id": "people/{1}/\x1b[2J"}, None, "its department or kind is a different one"),
    "a host's": ({"kind": "host"}, None, "its department or kind is a different one"),
    "ended": ({"validity": "-1h:-1s"}, None, "Check this machine's clock"),
    "not yet valid": ({"validity": "+5m:+10h"}, None, "Check this machine's clock"),
    "a changed signature": ({}, lambda line: changed(line, -1), "the signature is false"),
    "a changed validity": ({}, lambda line: changed(line, -150), "a certificate for this login"),
    "another serial": ({"first": 1}, lambda line: line, "has a different serial"),
    "no line": ({}, lambda line: "hello\n", "the file has no certificate"),
    "nothing": ({}, lambda line: "", "the file has no certificate"),
    "a public key": ({}, lambda line: f"ssh-ed25519 {'A' * 68}\n", "the file has no certificate"),
    "bad base64": ({}, lambda line: f"{line.split()[0]} \x1b[2J\n", "base64 is damaged"),
    "cut off": ({}, lambda line: f"{line.split()[0]} {line.split()[1][:100]}\n", "the data is truncated"),
    "longer": ({}, lambda line: f"{line.split()[0]} {longer(line)}\n", "there is data after the signature"),
}


def longer(line):
    return base64.b64encode(base64.b64decode(line.split()[1]) + b"\0").decode()


@pytest.mark.parametrize("is_later", [False, True], ids=["at once", "later"])
@pytest.mark.parametrize("name", OTHERS)
def test_another_certificate_does_not_go_into_the_agent(ana, registrar, name, is_later):
    settings, change, why = OTHERS[name]
    vars(registrar).update(settings)
    registrar.looks = int(is_later)
    made = registrar.certificate
    # The certificate that is announced as 1 has serial 2.
    step = int(name == "another serial")
    registrar.certificate = lambda asked, who, serial: (change or str)(made(asked, who, serial + step))
    status, out, told = ana("login")
    assert (3, "", []) == (status, out, ana.agent.keys())
    assert "the answer isn't a certificate for this login: " in told and why in told and "\x1b" not in told, told


def test_a_certificate_for_another_key_does_not_go_into_the_agent(ana, registrar, room):
    new_key(room / "own")
    made = registrar.certificate
    registrar.certificate = lambda asked, *rest: made(
        asked | {"public_key": " ".join((room / "own.pub").read_text().split()[:2])}, *rest)
    status, out, told = ana("login")
    assert (3, "", []) == (status, out, ana.agent.keys()) and "it is for a different key" in told, told


@pytest.mark.parametrize("validity", ["+50s:+10h", "-1h:+60s"])
def test_validities_that_are_taken(ana, registrar, validity):
    """A clock may be a minute behind."""
    registrar.validity = validity
    assert 0 == ana("login")[0] and 1 == len(ana.agent.keys())


# ---- settings, agents and browsers

MISTAKES = {
    "provider": ({"provider": ""}, "no sign-on here: `provider` isn't set"),
    "client": ({"client_id": ""}, "no sign-on here: `client_id` isn't set"),
    "department": ({"department": ""}, "no sign-on here: `department` isn't set"),
    "department's name": ({"department": "people/ana"}, "'people/ana' isn't a valid department"),
    "registrar": ({"registrar": ""}, "no sign-on here: `office` isn't set"),
    "provider without TLS": ({"provider": "http://login.example.org"}, "isn't a URL that begins with https://"),
    "registrar without TLS": ({"registrar": "http://office.example.org"}, "isn't a URL that begins with https://"),
    "a host that begins so": ({"provider": "http://localhost.example.org"}, "isn't a URL that begins with https://"),
    "ports": ({"ports": "8400;8401"}, "isn't a list of ports"), "no ports": ({"ports": ""}, "isn't a list of ports"),
    "a port that is none": ({"ports": "65536"}, "isn't a list of ports"),
    "many ports": ({"ports": ",".join(["8400"] * 17)}, "isn't a list of ports"),
    "scope": ({"scope": "profile"}, "has no word openid"), "no CAs": ({"cas": ""}, "`cas` isn't set"),
    "CAs that aren't there": ({"cas": "/nonexistent"}, "no CA is known here"),
    "CAs that are none": ({"cas": "/etc/passwd"}, "has a line that isn't a CA's public key"),
    "no CA in the file": ({"cas": "empty"}, "has a line that isn't a CA's public key"),
}


@pytest.mark.parametrize("name", MISTAKES)
@pytest.mark.parametrize("words", [["login"], ["login", "--if-needed"]], ids=" ".join)
def test_settings_that_are_missing_or_wrong(ana, provider, registrar, room, name, words):
    settings, why = MISTAKES[name]
    (room / "empty").touch()
    ana.write_settings(**settings)
    status, out, told = ana("--wait", "5", *words)
    assert (2, "", []) == (status, out, ana.windows()) and why in told and 1 == len(told.splitlines()), told
    assert [] == provider.asked + registrar.asked


def test_keys_of_cas_that_others_can_write(ana, room):
    (room / "ca.pub").chmod(0o666)
    status, _, told = ana("login")
    assert 2 == status and "the CAs can't be used: others than its owner can write" in told, told


def test_several_cas(ana, room):
    (room / "cas").write_text(f"# both\n\n{(room / 'other.pub').read_text()}{(room / 'ca.pub').read_text()}")
    ana.write_settings(cas=str(room / "cas"))
    assert (0, 0) == (ana("login")[0], ana("login", "--if-needed")[0]) and 1 == len(ana.windows())


@pytest.mark.parametrize("words", [["login"], ["login", "--if-needed"], ["login", "--paste"], ["logout"]], ids=" ".join)
def test_no_agent(ana, words):
    status, out, told = ana(*words, SSH_AUTH_SOCK="")
    assert (2, "", "vethlumi: no ssh-agent: SSH_AUTH_SOCK isn't set\n") == (status, out, told)
    status, out, told = ana(*words, SSH_AUTH_SOCK="/nonexistent")
    assert (2, "") == (status, out) and "vethlumi: the ssh-agent doesn't answer: " in told
    assert [] == ana.windows()


def packed(data):
    return len(data).to_bytes(4, "big") + data


# What an agent replies to the question for its keys.
REPLIES = {
    "failure": packed(b"\5"), "nothing": b"", "cut off": b"\0\0\0\1", "empty": packed(b""),
    "too long": b"\xff\xff\xff\xff", "fewer keys": packed(b"\x0c\0\0\0\2" + packed(b"a") + packed(b"b")),
    "many keys": packed(b"\x0c\xff\xff\xff\xff"), "no number": packed(b"\x0c\0"),
}


@pytest.mark.parametrize("name", REPLIES)
def test_an_agent_that_is_none(ana, room, name):
    with socket.socket(socket.AF_UNIX) as listener:
        listener.bind("agent")
        listener.listen()

        def answer():
            with contextlib.suppress(OSError):
                while True:
                    peer, _ = listener.accept()
                    with peer:
                        peer.recv(100)
                        peer.sendall(REPLIES[name])
        threading.Thread(target=answer, daemon=True).start()
        status, out, told = ana("login", SSH_AUTH_SOCK=str(room / "agent"))
        listener.shutdown(socket.SHUT_RDWR)
    assert (2, "", []) == (status, out, ana.windows()), told
    assert re.match("vethlumi: the ssh-agent (doesn't answer|didn't list its keys)", told) and 1 == len(told.splitlines())


def test_a_locked_agent(ana):
    terminal, of_agent = pty.openpty()
    locking = subprocess.Popen(["setsid", "-c", "ssh-add", "-x"], env=ana.environment(), stdin=of_agent,
                               stdout=of_agent, stderr=of_agent)
    for _ in range(2):
        os.read(terminal, 100)
        os.write(terminal, b"abc\n")
        time.sleep(0.5)
    assert 0 == locking.wait(20)
    status, out, told = ana("login")
    assert (2, "") == (status, out) and "the ssh-agent refused the certificate: it is locked" in told, told


@pytest.mark.parametrize("words", [["login"], ["login", "--if-needed"]], ids=" ".join)
def test_no_browser(ana, provider, words):
    told = "vethlumi: no browser here: run `vethlumi login --paste`\n"
    assert (1, "", told) == ana(*words, BROWSER="")
    assert [] == provider.asked


def test_a_browser_that_does_not_end(ana):
    """Some end with their last window."""
    ana.browser.write_text('#!/bin/sh\ncurl -sL "$1"\nexec sleep 30\n')
    begun = time.monotonic()
    assert 0 == ana("login")[0] and time.monotonic() < begun + 25


def test_what_a_browser_says_is_not_shown(ana):
    ana.browser.write_text('#!/bin/sh\necho rubbish\necho rubbish >&2\nexec curl -sL "$1"\n')
    status, out, told = ana("login")
    assert 0 == status and "rubbish" not in out + told


@pytest.mark.parametrize("mode", [0o755, 0o740, 0o704])
def test_whoever_can_read_a_folder_keeps_nobody_from_logging_in(ana, room, mode):
    """They can lock the folder. What stands for them here is a lock of this process."""
    folder = room / "readable"
    folder.mkdir()
    folder.chmod(mode)
    handle = os.open(folder, os.O_RDONLY | os.O_DIRECTORY)
    fcntl.flock(handle, fcntl.LOCK_EX)
    try:
        assert 0 == ana("--wait", "20s", "login", XDG_RUNTIME_DIR=str(folder))[0]
    finally:
        os.close(handle)


@pytest.mark.parametrize("folder", ["missing", "others'", "relative"])
def test_the_folder_of_the_session(ana, room, folder):
    """Without one that is the user's own, that of the agent will do."""
    (room / "others").mkdir()
    (room / "others").chmod(0o777)
    names = {"missing": "/nonexistent", "others'": str(room / "others"), "relative": "."}
    assert 0 == ana("login", XDG_RUNTIME_DIR=names[folder])[0]
    (room / "agent").symlink_to(ana.agent.socket)
    if not os.path.isdir(f"/run/user/{os.getuid()}"):
        room.chmod(0o777)
        status, _, told = ana("login", XDG_RUNTIME_DIR=names[folder], SSH_AUTH_SOCK=str(room / "agent"))
        assert 2 == status and "no folder for this session: set XDG_RUNTIME_DIR" in told, told


def test_doctor_says_who_is_logged_in(ana, registrar, room):
    """Nobody answers as the office: that is another line."""
    def login_lines(**environment):
        out = ana("--wait", "1", "doctor", "--json", **environment)[1]
        return [(it["state"], it["found"]) for it in map(json.loads, out.splitlines()) if it["what"] == "login"]

    ana.write_settings(office=registrar.url)
    assert [("ok", "no certificate now: vethlumi login")] == login_lines()
    assert 0 == ana("login")[0]
    [(state, found)] = login_lines()
    end = re.search(r"Valid: from \S+ to (\S+)", shown(ana.agent.keys(), room))[1]
    assert ("ok", f"people/ana/aaaabbbbccccdddd until {end}Z") == (state, found)
    [(state, found)] = login_lines(SSH_AUTH_SOCK="")
    assert ("bad", "no ssh-agent: SSH_AUTH_SOCK isn't set") == (state, found)
    ana.write_settings(provider="")
    assert [] == login_lines()


@pytest.mark.slow
def test_a_provider_that_does_not_answer_is_not_waited_for_long(asking):
    """Whoever types ssh without a network has an answer within half a minute, also if the command may wait longer."""
    (make, no_answer), begun = asking, time.monotonic()
    with pytest.raises(no_answer, match="the provider: .*refused"):
        make(f"http://127.0.0.1:{free_port()}", 600).endpoints()
    assert 29 < time.monotonic() - begun < 40
