"""An office behind the front: answers that are lost, programs that are killed, and certificates that are taken back."""
import contextlib
import os
import random
import signal
import socketserver
import subprocess
import threading
import time

import pytest

from asking import department, issue, lasting
from fronts import Front
from recording import getting, posting, statuses, whole_request
from running import CLIENT, EXAMPLES, Programs, free_port, is_listening, left_out, new_key, rest, run, until
from stations import new_station

pytestmark = [pytest.mark.front, pytest.mark.xdist_group("front_office")]
AWAY = "front: no answer came from the office; send the same bytes again\n"


@pytest.fixture
def put(front):
    """The front before an office with the department web."""
    assert "department web\n" == send(front, "root", "web-1", department()).text
    return front


def send(front, name, key, message):
    return front.session(name).post(f"{front.url}/v1/requests/{key}", data=message, timeout=60)


def issued(name):
    return issue(f"web/{name}", **lasting(3600))


def test_root_puts_a_department_and_a_caller_may_not(front):
    assert (403, "refused 10 NotAllowed\n") == told(send(front, "ana", "web-1", department()))
    assert (403, "front: the certificate names no caller, or there is none\n") == told(
        send(front, None, "web-1", department()))
    assert (200, "department web\n") == told(send(front, "root", "web-1", department()))


def test_a_revocation_makes_the_list_101_bytes_longer_at_most(front):
    """A key ID has 97 letters at most, and four bytes say how many."""
    longest = 32 * "d"
    send(front, "root", "d-1", department(longest))
    lengths = []
    for number in range(4):
        told_of = send(front, "ana", f"r-{number}", f"revoke-keyid {longest}/{number}{63 * '~'}\n")
        assert (200, f"revoked\nversion {number + 1}\n") == told(told_of)
        lengths.append(len(front.served.get("/v1/krl").body))
    assert [101] * 3 == [later - it for it, later in zip(lengths, lengths[1:])]
    assert (400, True) == (lambda it: (it.status_code, it.text.startswith("refused ")))(
        send(front, "ana", "r-5", f"revoke-keyid {longest}/{65 * '~'}\n"))


def told(answer):
    return answer.status_code, answer.text


def test_the_bytes_and_the_header_lines_of_the_office_come_through(put):
    by_front, by_office = put.ask(getting("/v1/krl")), put.served.get("/v1/krl")
    assert (by_office.body, of_content(by_office)) == (by_front.body, of_content(by_front))


def of_content(answer):
    """The lines that say what a response is."""
    return sorted(it for it in answer.head.lower().split(b"\r\n") if it.startswith(b"content-"))


# ---- answers that are lost

class Relay(socketserver.ThreadingTCPServer):
    """Carries requests to an office, and loses the first answers to messages."""
    allow_reuse_address = True
    daemon_threads = True

    def __init__(self, served, losses):
        self.served, self.losses = served, losses
        super().__init__(("127.0.0.1", 0), None)
        self.port = self.server_address[1]
        threading.Thread(target=self.serve_forever, daemon=True).start()

    def finish_request(self, peer, address):
        request = whole_request(peer)
        answer = self.served.ask(request)
        if request.startswith(b"POST") and self.losses:
            self.losses -= 1
            return
        peer.sendall(answer)


def asking_for(front, name):
    """The words that ask for a certificate of a new key of this name."""
    new_key(name)
    return [EXAMPLES / "request", "--cert", front.certificate("ana"), "--cacert", front.authority / "ca.crt",
            "--wait", 200, front.url, "web", f"web/{name}", f"{name}.pub", "alice", "1h"]


def certificate_of(sshstation, front, office, served, name, asking):
    """What `request` prints in the end, once the station has signed."""
    until(lambda: f" web/{name}\n" in served.get("/v1/table").text)
    new_station(sshstation, office, front.url, certificate=front.certificate("station"),
                trusted=front.authority / "ca.crt").sign()
    return asking.communicate(timeout=100)[0].decode()


def test_three_answers_are_lost_and_one_certificate_comes_of_it(sshstation, served, make_front, programs):
    served.post("root", "web-1", department())
    with Relay(served, 3) as relay:
        front = make_front(relay.port)
        asking = programs.begin(asking_for(front, "lost"), stdout=subprocess.PIPE)
        until(lambda: not relay.losses)
        assert "lost-cert.pub serial 1\n" == certificate_of(sshstation, front, served.office, served, "lost", asking)
        relay.shutdown()
    assert 1 == served.get("/v1/table").text.count(" web/lost\n")


def test_clients_that_go_before_the_answer_get_the_same_bytes_later(put):
    """Each goes at a moment of its own, and sends the same bytes twice more."""
    serials = set()
    for number in range(20):
        request = posting(f"/v1/requests/gone-{number}", issued(f"gone-{number}").encode())
        peer = put.connect("ana")
        peer.sendall(request)
        time.sleep(random.uniform(0, 0.02))
        peer.close()
        first, second = put.ask(request, "ana"), put.ask(request, "ana")
        assert (200, first.body) == (first.status, second.body)
        serials.add(first.text.splitlines()[0])
    assert 20 == len(serials)


def test_a_front_that_is_killed_loses_nothing(put):
    """nginx starts other workers, as a unit would start nginx."""
    message = issued("killed")
    first = send(put, "ana", "killed-1", message)
    for _ in range(5):
        with put.connect("ana") as peer:
            peer.sendall(posting("/v1/requests/killed-1", message.encode()))
            for worker in put.workers():
                # One that looks at the pages that were kept before ends by itself.
                with contextlib.suppress(ProcessLookupError):
                    os.kill(worker, signal.SIGKILL)
            rest(peer)
        until(lambda: put.workers() and statuses(put.ask(getting("/v1/cas"))) == [200])
    assert told(first) == told(send(put, "ana", "killed-1", message))


def test_an_office_that_was_killed_gives_the_same_bytes(sshstation, office, make_front, programs):
    message = issued("killed")
    with office.serving(port=free_port()) as served:
        front = make_front(served.port)
        send(front, "root", "web-1", department())
        first = send(front, "ana", "killed-1", message)
        served.process.kill()
        served.process.wait()
        assert (502, AWAY) == told(send(front, "ana", "killed-1", message))
    # This one asks while the office is away, and has its certificate once the office is there again.
    asking = programs.begin(asking_for(front, "away"), stdout=subprocess.PIPE)
    time.sleep(1.2)
    with office.serving(port=served.port) as again:
        assert told(first) == told(send(front, "ana", "killed-1", message))
        assert "away-cert.pub serial 2\n" == certificate_of(sshstation, front, office, again, "away", asking)


# ---- a server

def test_a_server_gets_its_certificate_and_renews_it_with_what_the_front_gives_it(station, front, programs, room):
    """As vethlumi-host asks, by the client vethlumi."""
    front.make("host", "web")
    text = department("web", kind="host", admins="host-web", principals="web.example.org", options="", extensions="",
                      namespaces="", maxlife=2592000)
    assert 200 == send(front, "root", "web-1", text).status_code
    station.guard.permit(text)
    new_key("host")
    client = ["/usr/bin/python3", "-B", "-m", "vethlumi", "--office", front.url, "--certificate",
              front.certificate("host-web"), "--cacert", front.authority / "ca.crt", "--wait", "90s"]
    environment = os.environ | {"PYTHONPATH": CLIENT, "HOME": str(room)}
    new = ["request", "web/web.example.org", "host.pub", "--principals", "web.example.org", "--life", "30d",
           "--extensions", ""]
    for serial, words in ((1, new), (2, ["renew", "host-cert.pub"])):
        asking = programs.begin([*client, *words], stdout=subprocess.PIPE, stderr=subprocess.PIPE, env=environment)
        until(lambda: [serial] == station.sign())
        assert (f"host-cert.pub serial {serial}\n".encode(), b"") == asking.communicate(timeout=100)
    shown = run([*client, "certs"], env=environment)
    assert (1, True) == (shown.returncode, b"a server may not read this" in shown.stderr)
    revoked = run([*client, "revoke", "--yes", "web/web.example.org"], env=environment)
    assert b"revoked; the list has version 1\n" == revoked.stdout


# ---- certificates that are taken back

def test_a_certificate_that_is_taken_back_works_no_more(put):
    put.make("caller", "carl")
    assert [200] == statuses(put.ask(getting("/v1/table"), "carl"))
    put.make("revoke", put.certificate("carl"))
    (put.conf / "crl.pem").write_bytes((put.authority / "crl.pem").read_bytes())
    put.reload()
    assert ([403], [200]) == (statuses(put.ask(getting("/v1/table"), "carl")),
                              statuses(put.ask(getting("/v1/table"), "ana")))


# ---- an office that stands still

@pytest.mark.slow
def test_an_office_that_stands_still_has_no_old_page_given(put):
    """For eleven seconds, while a client fetches the list all the time."""
    def fetch(page, seconds=1):
        words = ["--cacert", put.authority / "ca.crt", "--cert", put.certificate("watch"), f"{put.url}/v1/{page}"]
        return run(["curl", "-s", "--max-time", seconds, "-o", "page", "-w", "%{http_code}", *words]).stdout.decode()

    assert ["200", "200"] == [fetch("krl", 60), fetch("table", 60)]
    put.served.process.send_signal(signal.SIGSTOP)
    end = time.monotonic() + 11
    while time.monotonic() < end:
        fetch("krl")
    given = [fetch(page) for page in ("krl", "table", "krl")]
    put.served.process.send_signal(signal.SIGCONT)
    # curl says 000 of an answer that didn't come in time.
    assert {"000"} == set(given)
    assert 200 == put.session().get(f"{put.url}/v1/krl", timeout=60).status_code


# ---- the way of office-door

PROXY = "/lib/systemd/systemd-socket-proxyd"


@pytest.mark.root
def test_the_front_reaches_an_office_in_a_network_of_its_own(office, make_front, programs, room):
    """By the programs of office-door.service: nobody else reaches the office's port."""
    if not os.access(PROXY, os.X_OK) or run(["unshare", "--net", "true"]).returncode:
        left_out("this machine gives no network to a process, or has no systemd-socket-proxyd")
    before = ("unshare", "--net", "sh", "-c", 'ip link set lo up && exec "$@"', "sh")
    with office.serving(before=before, port=free_port()) as served:
        door = room / "door.sock"
        programs.begin(["nsenter", "-t", served.process.pid, "--net", "systemd-socket-activate", "-l", door, PROXY,
                        f"127.0.0.1:{served.port}"])
        until(door.exists)
        assert not is_listening(served.port)
        to_the_door = [(f"server 127.0.0.1:{served.port}", f"server unix:{door}")]
        front = make_front(served.port)
        text = (front.conf / "nginx.conf").read_text()
        (front.conf / "nginx.conf").write_text(text.replace(*to_the_door[0]))
        front.reload()
        assert (200, "department web\n") == told(send(front, "root", "web-1", department()))
        assert (200, True) == (lambda it: (it.status_code, "issued 1" in it.text))(send(front, "ana", "a", issued("a")))


def test_no_process_of_a_front_is_left(served, authority, room):
    programs = Programs()
    front = Front(programs, room / "front", authority, served.port)
    started = [front.process.pid, *front.workers()]
    programs.end_all()
    until(lambda: [] == [it for it in started if state(it) not in ("Z", "X", None)])


def state(process):
    """The letter of a process's state, or None of one that is gone."""
    with contextlib.suppress(OSError), open(f"/proc/{process}/stat", encoding="ascii", errors="replace") as file:
        return file.read().rpartition(")")[2].split()[0]
