"""The audit trail: what the front, the station and the registrar say of messages, signatures, lists and sign-ons; and
`vethlumi audit`, which compares that with the office's table and the guard's file."""
import hashlib
import io
import json
import os
import re
import signal
import subprocess
import sys
import time

import pytest

from asking import department, key_line, revoke_serial
from fetching import Web, response
from recording import whole_request
from running import CLIENT, PROGRAMS, TOP, run, until
from stations import Lists, new_station
from test_vethlumi import Client

sys.path += CLIENT.split(":")
from vethlumi import audit
from vethlumi import table as tables

FOLLOWS = PROGRAMS / "front/vethlumi-front-events"
# The worked example of docs/FORMATS.md: an issue and its reply.
ISSUE = ("issue web\nkeyid web/alice\n"
         "key ssh-ed25519 AAAAC3NzaC1lZDI1NTE5AAAAICIiIiIiIiIiIiIiIiIiIiIiIiIiIiIiIiIiIiIiIiIi\n"
         "principals alice\nafter 1000\nbefore 2000\nextensions\n")
DIGEST = "82e0c34fe67da3fc3dc1be6682073994ec021449271b641cdd36180e95572e79"
ISSUED = f"issued 1\ndigest {DIGEST}\n"
# What a line of the trail says of it.
OF_ISSUE = {"message": "issue", "department": "web", "keyid": "web/alice", "principals": ["alice"], "after": 1000,
            "before": 2000}
OF_ISSUED = {"outcome": "accepted", "serial": 1, "digest": DIGEST}


def passed_on(log, *words, **how):
    """The lines of the trail that come of a front's log, by what has changed since it was asked last."""
    done = run([FOLLOWS, "--once", log, "position", *words], **how)
    assert (0, b"") == (done.returncode, done.stderr)
    return [json.loads(it) for it in done.stdout.decode().splitlines()]


def without(record, *names):
    return {name: it for name, it in record.items() if name not in ("at", "id", "source", *names)}


# ---- the front

@pytest.fixture
def site(make_front):
    """A front before an office that answers what it is told, and what its log becomes."""
    with Web(response(ISSUED.encode())) as web:
        front = make_front(web.port)

        def send(text, status=200, answer=None, caller="ana", request="web-1"):
            front.sent += 1
            web.answer = answer or web.answer
            data = text if isinstance(text, bytes) else text.encode()
            found = front.session(caller).post(f"{front.url}/v1/requests/{request}", data=data)
            assert status == found.status_code, found.text
            return found
        front.send, front.web, front.sent = send, web, 0
        front.trail = lambda: trail_of(front, front.sent)
        yield front


def trail_of(front, count):
    """What has come of the front's log since it was asked last. nginx writes it after the answer: so many lines."""
    log = front.state / "events.log"
    until(lambda: count <= log.read_text().count("\n"))
    return passed_on(log)


def test_a_message_and_its_answer_are_a_line(site):
    """Whatever the front sends on is as it came, and so is the answer."""
    assert ISSUED == site.send(ISSUE).text
    assert site.web.requests[0].endswith(b"\r\n\r\n" + ISSUE.encode())
    [line] = site.trail()
    assert re.fullmatch(r"20\d\d-\d\d-\d\dT\d\d:\d\d:\d\dZ", line["at"]) and re.fullmatch("[0-9a-f]{32}", line["id"])
    assert "front" == line["source"]
    assert {"event": "message", "caller": "ana", "from": "127.0.0.1", "request": "web-1"} | OF_ISSUE | OF_ISSUED == (
        without(line))


# The message, the answer with its status, and what the line has of them (docs/FORMATS.md, Messages, Replies, Refusals).
ANSWERED = [
    ("a renewal", "renew 1\nafter 1500\nbefore 2500\n", f"issued 7\ndigest {DIGEST}\n",
     {"message": "renew", "of": 1, "after": 1500, "before": 2500, "outcome": "accepted", "serial": 7,
      "digest": DIGEST}),
    ("a delivery", f"deliver 1\ndigest {DIGEST}\nsignature {'A' * 112}\n", "signed 1\n",
     {"message": "deliver", "serial": 1, "digest": DIGEST, "outcome": "accepted"}),
    ("a serial", "revoke-serial 4\n", "revoked\nversion 9\n",
     {"message": "revoke-serial", "serial": 4, "version": 9, "outcome": "accepted"}),
    ("a range", "revoke-range 4 5\n", "revoked\nversion 9\n",
     {"message": "revoke-range", "serial": 4, "last": 5, "version": 9, "outcome": "accepted"}),
    ("a key ID", "revoke-keyid web/zoe\n", "revoked\nversion 9\n",
     {"message": "revoke-keyid", "keyid": "web/zoe", "department": "web", "version": 9, "outcome": "accepted"}),
    ("a department", department("web", admins="ana", principals="alice,*@example.org"), "department web\n",
     {"message": "department", "department": "web", "kind": "user", "principals": ["alice", "*@example.org"],
      "outcome": "accepted"}),
    ("a rollover", f"rollover {key_line(0x12)}\n", "rollover 2\nsince 8\n",
     {"message": "rollover", "serial": 8, "outcome": "accepted"}),
    ("a long comment", ISSUE.replace("IiIi\n", f"IiIi {'c' * 9000}\n"), ISSUED, OF_ISSUE | OF_ISSUED),
    ("16 principals of 64", ISSUE.replace("ls alice", f"ls {','.join(f'{it:064}' for it in range(16))}"), ISSUED,
     OF_ISSUE | OF_ISSUED | {"principals": [f"{it:064}" for it in range(16)]}),
    ("a refusal", ISSUE, "refused 14 NotPermitted\n", OF_ISSUE | {"outcome": "refused", "reason": "NotPermitted"}),
    ("no message", "\0\x1b[2J\xff\n" * 99, "refused 7 BadMessage\n", {"outcome": "refused", "reason": "BadMessage"}),
    ("bytes of a mebibyte in place of a reply", ISSUE, "issued " + "1" * (1 << 20),
     OF_ISSUE | {"outcome": "unanswered", "reason": "status 200"}),
    ("a reply that isn't one", ISSUE, "no\n", OF_ISSUE | {"outcome": "unanswered", "reason": "status 200"}),
]


@pytest.mark.parametrize("text, answer, due", [it[1:] for it in ANSWERED], ids=[it[0] for it in ANSWERED])
def test_what_a_line_says(site, text, answer, due):
    status = "403 Forbidden" if answer.startswith("refused") else "200 OK"
    assert answer == site.send(text, int(status[:3]), response(answer.encode(), status)).text
    [line] = site.trail()
    assert due | {"event": "message", "caller": "ana", "from": "127.0.0.1", "request": "web-1"} == without(line)


# What a caller can have the front write: words of a message with what takes the most room in JSON.
WORST = ["principals " + '"' * 4000, *(f'{it} {chr(0x22) * 2000}' for it in (
    "keyid", "kind", "after", "before", "digest", "issue", "renew", "deliver", "department", "keyid"))]


WORSE = "\n".join(WORST)


@pytest.mark.parametrize("text", [*(WORSE.replace('"', it) for it in '"\x01\\\xff'), "principals\n" * 1400, "\n" * 16384],
                         ids=range(6))
def test_no_message_makes_the_log_longer_than_the_pages_say(site, text):
    """docs/OPERATING.md, Who got what, when."""
    site.send(text.encode("latin-1")[:16384], 400, response(b"refused 7 BadMessage\n", "400 Bad Request"))
    [most] = re.findall(r"with at most ([0-9,]+) bytes each", (TOP / "docs/OPERATING.md").read_text())
    assert ["refused"] == [it["outcome"] for it in site.trail()]
    assert os.stat(site.state / "events.log").st_size <= int(most.replace(",", ""))


def test_no_key_and_no_signature_is_in_the_log(site):
    site.send(ISSUE)
    site.send(f"deliver 1\ndigest {DIGEST}\nsignature {'A' * 112}\n", 200, response(b"signed 1\n"))
    assert 2 == len(site.trail())
    text = (site.state / "events.log").read_text()
    assert "AAAA" not in text and "deliver" in text


def test_a_message_without_an_answer_is_a_line(site):
    """Whoever sent it can't know whether it was accepted, and nor can the front."""
    site.send(ISSUE, 502, b"HTTP/1.1 200 OK\r\ncont")
    [line] = site.trail()
    assert {"outcome": "unanswered", "reason": "status 502"} | OF_ISSUE == without(
        line, "event", "caller", "from", "request")


def test_what_the_office_is_not_asked_is_no_line(site):
    """The front's own refusals, which strangers can have without end, and what is read."""
    refused = site.session().post(f"{site.url}/v1/requests/web-1", data=ISSUE)
    assert 403 == refused.status_code
    assert 405 == site.session("ana").put(f"{site.url}/v1/requests/web-1", data=ISSUE).status_code
    assert 404 == site.session("ana").post(f"{site.url}/v1/requests/Web", data=ISSUE).status_code
    assert 413 == site.session("ana").post(f"{site.url}/v1/requests/web-1", data="x" * 16385).status_code
    assert 200 == site.session("ana").get(f"{site.url}/v1/certs/1").status_code
    site.send(ISSUE)
    assert 1 == len(site.trail())


def test_a_repeat_is_marked(site):
    """Of one caller and request ID. What was refused may be accepted later."""
    site.send(ISSUE, 403, response(b"refused 14 NotPermitted\n", "403 Forbidden"))
    site.send(ISSUE, 200, response(ISSUED.encode()))
    site.send(ISSUE)
    site.send(ISSUE, request="web-2")
    site.send(ISSUE, caller="root")
    lines = site.trail()
    assert [None, None, True, None, None] == [it.get("repeated") for it in lines]
    site.send(ISSUE, request="web-2")
    assert [True] == [it.get("repeated") for it in site.trail()]


# ---- from the front's log to the journal

def logged(**fields):
    """A line of the front's log."""
    record = {"id": "0" * 32, "at": "2026-12-01T09:00:00+02:00", "from": "127.0.0.1", "caller": "ana",
              "request": "web-1", "status": "200", "message": ISSUE, "answer": ISSUED} | fields
    return json.dumps(record) + "\n"


def add(text, file="log"):
    with open(file, "a", encoding="latin-1") as it:
        it.write(text)


def test_each_line_is_passed_on_once(room):
    add(logged() + logged(request="web-2"))
    assert ["web-1", "web-2"] == [it["request"] for it in passed_on("log")]
    assert [] == passed_on("log")
    # Half a line waits for its end.
    add(logged(request="web-3")[:20])
    assert [] == passed_on("log")
    add(logged(request="web-3")[20:] + logged(request="web-4"))
    assert ["web-3", "web-4"] == [it["request"] for it in passed_on("log")]


def test_the_time_is_that_of_the_answer_in_utc(room):
    add(logged())
    assert ["2026-12-01T07:00:00Z"] == [it["at"] for it in passed_on("log")]


def test_a_log_that_is_moved_is_read_to_its_end(room):
    """logrotate renames it, and nginx goes on writing into it until it is told."""
    add(logged())
    assert 1 == len(passed_on("log"))
    add(logged(request="web-2"))
    os.rename("log", "log.1")
    add(logged(request="web-3"), "log.1")
    add(logged(request="web-4"))
    assert ["web-2", "web-3", "web-4"] == [it["request"] for it in passed_on("log")]
    assert [] == passed_on("log")


def test_repeats_are_known_after_a_restart_and_a_rotation(room):
    add(logged())
    passed_on("log")
    os.rename("log", "log.1")
    add(logged() + logged(request="web-2"))
    assert [True, None] == [it.get("repeated") for it in passed_on("log")]
    add(logged(request="web-2"))
    assert [True] == [it.get("repeated") for it in passed_on("log")]


def test_a_log_that_was_emptied_is_read_from_its_beginning(room):
    add(logged() + logged(request="web-2"))
    passed_on("log")
    with open("log", "w", encoding="ascii") as it:
        it.write(logged(request="web-3"))
    assert ["web-3"] == [it["request"] for it in passed_on("log")]


DAMAGED = ["\n", "x\n", "[]\n", "{}\n", logged(at="now"), logged(at=1), logged(message=None), "{" * 9000 + "\n",
           logged()[:-3] + "\n"]


@pytest.mark.parametrize("text", DAMAGED, ids=range(len(DAMAGED)))
def test_a_damaged_line_is_said_and_holds_up_nothing(room, text):
    add(text + logged())
    first, second = passed_on("log")
    assert {"event": "message", "outcome": "unreadable", "reason": "a line of the front's log is damaged"} == (
        without(first))
    assert "web-1" == second["request"]


def test_a_text_that_steers_a_terminal_is_shown_as_ascii(room):
    add(logged(message="issue \x1b[2J\x9b\nkeyid \u202e\n"))
    done = run([FOLLOWS, "--once", "log", "position"])
    assert done.stdout.isascii() and b"\x1b" not in done.stdout


def test_it_ends_between_two_lines(room, programs):
    """And goes on with the next one."""
    seen = []
    for _ in range(3):
        process = programs.begin([FOLLOWS, "log", "position"], stdout=subprocess.PIPE)
        add("".join(logged(request=f"r-{len(seen) + it}") for it in range(200)))
        seen += [json.loads(process.stdout.readline())["request"] for _ in range(200)]
        process.send_signal(signal.SIGTERM)
        assert (0, b"") == (process.wait(60), process.stdout.read())
    assert [f"r-{it}" for it in range(600)] == seen


@pytest.mark.parametrize("position", ["x", "1", "1 2 3", "\xff"])
def test_a_position_that_it_has_not_written_is_refused(room, position):
    add(logged())
    (room / "position").write_bytes(position.encode("latin-1"))
    done = run([FOLLOWS, "--once", "log", "position"])
    assert (1, b"") == (done.returncode, done.stdout)
    assert b"position isn't what this has written" in done.stderr


def test_an_output_that_nobody_takes_ends_it(room):
    add(logged())
    with open("/dev/full", "wb") as full:
        done = subprocess.run([FOLLOWS, "--once", "log", "position"], stdout=full, stderr=subprocess.PIPE)
    assert 1 == done.returncode and b"vethlumi-front-events: output: No space left" in done.stderr
    # Nothing of it counts as passed on.
    assert 1 == len(passed_on("log"))


def test_a_line_that_nobody_has_taken_is_passed_on_by_the_next_run(room):
    """The output takes the first line, and no more: how far the log was passed on isn't noted beyond it."""
    add(logged())
    taken = run([FOLLOWS, "--once", "log", "another"]).stdout
    add(logged(request="web-2") + logged(request="web-3"))
    with open("taken", "wb") as file:
        done = subprocess.run(["prlimit", f"--fsize={len(taken)}", FOLLOWS, "--once", "log", "position"], stdout=file,
                              stderr=subprocess.PIPE)
    assert 1 == done.returncode and b"vethlumi-front-events: output: File too large" in done.stderr
    assert taken == (room / "taken").read_bytes()
    assert ["web-2", "web-3"] == [it["request"] for it in passed_on("log")]


# ---- by all together

PEOPLE = department("web", admins="ana", principals="alice,bob,lost", maxlife=10 ** 11)
NOW = int(time.time())


def issue(name, principal="alice", key=0x22):
    return (f"issue web\nkeyid web/{name}\nkey {key_line(key)}\nprincipals {principal}\nafter {NOW - 60}\n"
            f"before {NOW + 3600}\nextensions\n")


class Trail:
    """An office behind its front, and a station: what is asked of them, and what the trail has of it."""

    def __init__(self, front, station, room):
        self.front, self.station, self.room, self.at, self.lines = front, station, room, 0, []
        station.words += ["--events", "--copy", room / "copy.db"]
        self.client = Client(room / "home", front.url, front.certificate("ana"), front.authority / "ca.crt")

    def send(self, text, caller="ana", status=200):
        self.at += 1
        answer = self.front.session(caller).post(f"{self.front.url}/v1/requests/r-{self.at}", data=text)
        assert status == answer.status_code, answer.text
        return answer.text

    def sign(self, status=0, **how):
        found, out, self.errors = self.station.once(**how)
        assert status == found, self.errors
        self.signed = [it for it in out if not it.startswith("{")]
        mine = [json.loads(it) for it in out if it.startswith("{")]
        self.lines += mine
        return mine

    def all(self):
        """The lines of the front and the station."""
        signed = sum(it.get("outcome") == "signed" for it in self.lines)
        self.lines += trail_of(self.front, self.at + signed)
        return self.lines

    def bodies(self):
        """What the guard's program prints of the copy that the station made."""
        done = run([self.station.guard.program, "bodies", "--db", self.room / "copy.db"])
        assert (0, b"") == (done.returncode, done.stderr)
        return done.stdout.decode().splitlines()

    def audit(self, lines, bodies, *words):
        """The status, and the differences."""
        (self.room / "trail").write_text("".join(f"{json.dumps(it)}\n" for it in lines))
        (self.room / "bodies").write_text("".join(f"{it}\n" for it in bodies))
        status, out, told = self.client("audit", "--guard", self.room / "bodies", "--json", *words, self.room / "trail")
        assert "" == told
        found = [json.loads(it) for it in out.splitlines() if it.startswith("{")]
        return status, [(it["what"], it["difference"]) for it in found]


@pytest.fixture
def trail(front, station, room):
    made = Trail(front, station, room)
    made.send(PEOPLE, "root")
    return made


def digest_of(trail, serial):
    body = trail.front.session("ana").get(f"{trail.front.url}/v1/certs/{serial}/body").content
    return hashlib.sha256(body).hexdigest()


def test_a_certificate_is_in_the_trail_from_its_request_to_its_revocation(trail, room):
    trail.send(issue("alice", "alice,bob"))
    [signed] = trail.sign()
    assert ["signed 1"] == trail.signed
    trail.send(revoke_serial(1), "ana")
    digest, lines = digest_of(trail, 1), trail.all()
    ca = run(["ssh-keygen", "-l", "-f", trail.front.office.ca]).stdout.decode().split()[1]
    assert {"event": "signature", "outcome": "signed", "department": "web", "keyid": "web/alice", "kind": "user",
            "principals": ["alice", "bob"], "serial": 1, "after": NOW - 60, "before": NOW + 3600, "digest": digest,
            "ca": ca} == without(signed)
    messages = [(it["caller"], it["message"], it.get("serial")) for it in lines if it["event"] == "message"]
    due = [("root", "department", None), ("ana", "issue", 1), ("station", "deliver", 1), ("ana", "revoke-serial", 1)]
    assert due == messages
    issued = next(it for it in lines if it.get("message") == "issue")
    assert (digest, ["alice", "bob"], "accepted") == (issued["digest"], issued["principals"], issued["outcome"])
    first, last = (time.strftime("%FT%TZ", time.gmtime(it)) for it in (NOW - 5, time.time() + 5))
    assert all(first <= it["at"] <= last for it in lines)
    assert (0, []) == trail.audit(lines, trail.bodies())


def test_what_the_guard_refuses_is_in_the_trail_with_its_reason(trail):
    """Once, and again by the next station, which may have other rules."""
    trail.send(PEOPLE.replace("alice,bob,lost", "alice,carol"), "root")
    trail.station.guard.permit(PEOPLE)
    trail.send(issue("carol", "carol"))
    [line] = trail.sign(1)
    assert {"event": "signature", "outcome": "refused", "reason": "NotPermitted", "serial": 1, "keyid": "web/carol",
            "principals": ["carol"], "digest": digest_of(trail, 1)}.items() <= line.items()
    # The office gave it out, and nobody signed it: that is no difference.
    assert (0, []) == trail.audit(trail.all(), trail.bodies())


def test_a_station_that_is_not_asked_to_says_what_it_said(trail):
    trail.station.words = [it for it in trail.station.words if it != "--events"]
    trail.send(issue("alice"))
    assert [] == trail.sign() and ["signed 1"] == trail.signed


def test_the_copy_is_made_when_it_is_missing(trail, room, programs):
    """While the station goes on, and the guard keeps its own file locked."""
    trail.send(issue("alice"))
    process = trail.station.begin(programs, stdout=subprocess.DEVNULL)
    until(lambda: (room / "copy.db").exists())
    until(lambda: "signed" in trail.front.session("ana").get(f"{trail.front.url}/v1/table").text)
    (room / "copy.db").unlink()
    until(lambda: (room / "copy.db").exists())
    assert ["1", digest_of(trail, 1)] == trail.bodies()[0].split()[:2]
    assert 0 == os.stat(room / "copy.db").st_mode & 0o077
    trail.send(issue("bob", "bob"))
    until(lambda: "pending" not in trail.front.session("root").get(f"{trail.front.url}/v1/table").text)
    assert 1 == len(trail.bodies())
    (room / "copy.db").unlink()
    until(lambda: (room / "copy.db").exists())
    assert 2 == len(trail.bodies())
    assert [] == [it.name for it in room.glob("copy.db.new*")]
    process.send_signal(signal.SIGTERM)
    assert 0 == process.wait(60)


@pytest.mark.root
def test_a_copy_that_can_not_be_made_keeps_nothing_from_being_signed(trail, room):
    (room / "copy.db.new").mkdir()
    trail.send(issue("alice"))
    trail.sign()
    assert ["signed 1"] == trail.signed
    assert [True] == ["no copy of" in it and it.startswith("station: ") for it in trail.errors]


def of_list(station):
    """The one line that a station's round says of a list, and the station's status."""
    status, out, _ = station.once("--events")
    [line] = [json.loads(it) for it in out if it.startswith("{")]
    assert ("station", "list") == (line["source"], line["event"])
    return status, without(line, "event")


def test_a_list_is_in_the_trail_when_it_is_published_or_refused(front, sshstation, room):
    """An old list is refused by the guard of lists."""
    lists, url = Lists(sshstation, "lists.db", front.office.ca), f"{front.url}/v1"
    station = new_station(sshstation, front.office, front.url, certificate=front.certificate("station"),
                          trusted=front.authority / "ca.crt", lists=lists)
    old = front.session().get(f"{url}/krl").content
    (room / "first").write_bytes(old)
    assert lists.state("first", "--begin").startswith("list ")
    assert (0, {"outcome": "published", "version": 0, "digest": hashlib.sha256(old).hexdigest()}) == of_list(station)
    for caller, text in (("root", PEOPLE), ("ana", issue("alice")), ("ana", revoke_serial(1))):
        assert 200 == front.session(caller).post(f"{url}/requests/{text.split()[0]}", data=text).status_code
    until(lambda: front.session().get(f"{url}/krl").content != old)
    new = front.session().get(f"{url}/krl").content
    assert (0, {"outcome": "published", "version": 1, "digest": hashlib.sha256(new).hexdigest()}) == of_list(station)
    with Pages({"/v1/pending": b"", "/v1/krl": old}) as false:
        again = new_station(sshstation, front.office, false.url, "other.db", lists=lists)
        assert (1, {"outcome": "refused", "reason": "OlderVersion"}) == of_list(again)


class Pages(Web):
    """An office that gives these pages."""

    def __init__(self, pages):
        super().__init__()
        self.pages = pages

    def finish_request(self, peer, address):
        path = whole_request(peer).split()[1].decode()
        peer.sendall(response(self.pages[path]))


@pytest.fixture
def week(trail):
    """What an office, its front and its station did: issues, a renewal, revocations, and one that is refused."""
    for name in ("alice", "bob", "alice"):
        trail.send(issue(name, "alice"))
    trail.sign()
    trail.send(f"renew 2\nafter {NOW}\nbefore {NOW + 7200}\n")
    trail.send(issue("lost", "lost"))
    (trail.room / "copy.db").unlink()
    trail.sign()
    trail.send(issue("mallory", "mallory"), status=409)
    trail.send(revoke_serial(1))
    trail.send("revoke-keyid web/lost\n")
    trail.send(issue("late", "bob"))
    trail.lines = trail.all()
    return trail


def page(week, name):
    return week.front.session("ana").get(f"{week.front.url}/v1/{name}").text


def compared(lines, bodies, rows, cas):
    """What `vethlumi audit` compares, without the command: what differs, by its name."""
    table = tables.Table(io.BytesIO(rows.encode()))
    found = audit.differences(audit.Trail.of(lines), table, tables.cas(cas.encode()),
                              audit.guard_of("\n".join(bodies), "bodies"), 1)
    return {name for name, _ in found}


def test_nothing_differs_of_what_was_not_changed(week):
    assert (0, []) == week.audit(week.lines, week.bodies())
    assert set() == compared(week.lines, week.bodies(), page(week, "table"), page(week, "cas"))


def test_a_line_that_was_taken_out_of_the_trail_is_named(week):
    """Whichever it is, of those that say what was done for a certificate."""
    bodies, rows, cas = week.bodies(), page(week, "table"), page(week, "cas")
    tried = 0
    for line in week.lines:
        if line["outcome"] == "refused" or line.get("message") == "department":
            continue
        tried += 1
        name = f"serial {line['serial']}" if "serial" in line else f"version {line['version']} of the KRL"
        found = compared([it for it in week.lines if it is not line], bodies, rows, cas)
        assert name in found, line
        # With a revocation of a key ID goes what it revoked.
        assert found <= {name, "version 1 of the KRL", "version 2 of the KRL", "serial 5"}, line
    # Five issues and a renewal, of which five were signed and delivered, and two revocations.
    assert 6 + 5 + 5 + 2 == tried
    status, found = week.audit([it for it in week.lines if it.get("serial") != 2], bodies)
    assert 1 == status and {"serial 2"} == {it for it, _ in found}


def test_a_row_that_was_taken_out_of_the_guard_s_file_is_named(week):
    bodies, rows, cas = week.bodies(), page(week, "table"), page(week, "cas")
    assert 5 == len(bodies)
    for at, line in enumerate(bodies):
        found = compared(week.lines, bodies[:at] + bodies[at + 1:], rows, cas)
        assert {f"serial {line.split()[0]}"} == found


def test_what_no_guard_has_approved_is_named(week):
    """Signed with a copy of the CA's key, and delivered. That it was revoked afterwards hides nothing."""
    bodies, rows, cas = week.bodies(), page(week, "table"), page(week, "cas")
    for at, body in enumerate(bodies):
        serial = int(body.split()[0])
        lines = [it for it in week.lines if (it["event"], it.get("serial")) != ("signature", serial)]
        assert len(lines) < len(week.lines)
        assert {f"serial {serial}"} == compared(lines, bodies[:at] + bodies[at + 1:], rows, cas)


def test_a_row_that_was_taken_out_of_the_office_s_table_is_named(week):
    """By an office that gives another table than it has."""
    rows, cas, bodies = page(week, "table").splitlines(keepends=True), page(week, "cas"), week.bodies()
    assert 7 == len(rows)
    for at in range(len(rows) - 1):
        total = rows[-1].replace(f"total {len(rows) - 1} ", f"total {len(rows) - 2} ")
        found = compared(week.lines, bodies, "".join([*rows[:at], *rows[at + 1:-1], total]), cas)
        assert {f"serial {at + 1}"} == found


def test_a_row_that_was_changed_is_named(week):
    """A key ID that is another's, a digest, a state, a version, and a CA that nobody asked for."""
    rows, cas, bodies = page(week, "table"), page(week, "cas"), week.bodies()
    assert {"serial 2"} == compared(week.lines, bodies, rows.replace("web/bob", "web/bcb", 1), cas)
    assert {"serial 2", "serial 4"} == compared(
        week.lines, [it.replace("web/bob", "web/bcb") for it in bodies], rows, cas)
    digest = bodies[2].split()[1]
    assert {"serial 3"} == compared(week.lines, [it.replace(digest, DIGEST) for it in bodies], rows, cas)
    assert {"serial 3"} == compared(week.lines, bodies, re.sub(r"(?m)^( +3  user)  signed ", r"\1  revoked", rows), cas)
    assert {"serial 1"} == compared(week.lines, bodies, rows.replace("revoked", "signed ", 1), cas)
    assert {"version 3 of the KRL"} == compared(week.lines, bodies, rows.replace("version 2", "version 3"), cas)
    assert {"version 2 of the KRL"} == compared(week.lines, bodies, rows.replace("version 2", "version 1"), cas)
    assert {"CA 2"} == compared(week.lines, bodies, rows, cas + cas.replace("1 1 ", "2 9 "))


def test_a_trail_that_begins_later_is_compared_from_there(week):
    lines = [it for it in week.lines if it.get("serial", 4) >= 4]
    assert 1 == week.audit(lines, week.bodies())[0]
    assert (0, []) == week.audit(lines, week.bodies(), "--from", 4)


def test_a_sign_on_without_a_message_is_named(week):
    """Whoever took the registrar's lines, or wrote some, can't also have the front's."""
    rows, cas, bodies = page(week, "table"), page(week, "cas"), week.bodies()
    line = {"at": "2026-12-01T07:00:00Z", "source": "registrar", "event": "sign-on", "outcome": "accepted", "serial": 3}
    request = next(it["request"] for it in week.lines if it.get("message") == "issue" and it["serial"] == 3)
    assert set() == compared([*week.lines, line | {"request": request}], bodies, rows, cas)
    assert {"serial 3"} == compared([*week.lines, line | {"request": "other"}], bodies, rows, cas)


# ---- the commands of the client

LINES = [
    {"at": "2026-12-01T07:00:00Z", "source": "front", "event": "message", "outcome": "accepted", "caller": "ana",
     "from": "192.0.2.1", "request": "r-1", "message": "issue", "department": "people", "keyid": "people/ana-1",
     "principals": ["ana"], "serial": 1, "digest": DIGEST, "id": "1" * 32},
    {"at": "2026-12-01T07:00:02Z", "source": "front", "event": "message", "outcome": "refused",
     "reason": "NotPermitted", "caller": "bob", "from": "192.0.2.2", "request": "r-2", "message": "issue",
     "department": "people", "keyid": "people/bob", "principals": ["root"], "id": "2" * 32},
    {"at": "2026-12-01T07:00:01Z", "source": "station", "event": "signature", "outcome": "signed",
     "keyid": "people/ana-1", "principals": ["ana"], "serial": 1, "digest": DIGEST},
    {"at": "2026-12-01T07:00:03Z", "source": "front", "event": "message", "outcome": "accepted", "repeated": True,
     "caller": "ana", "request": "r-1", "message": "issue", "keyid": "people/ana-1", "serial": 1, "id": "3" * 32},
    {"at": "2026-12-01T07:00:04Z", "source": "front", "event": "message", "outcome": "accepted", "caller": "root",
     "request": "r-3", "message": "revoke-range", "serial": 1, "last": 9, "version": 1, "id": "4" * 32},
]


@pytest.fixture
def reading(room):
    """The outcomes that the client shows, for some words, of these lines between others."""
    (room / "home").mkdir()
    client = Client(room / "home", "http://127.0.0.1:1")
    (room / "trail").write_text("".join(f"{it}\n" for it in [
        "-- Journal begins", "signed 1", "{", "[]", '{"at": 1}', *map(json.dumps, LINES)]))

    def read(*words, file="trail"):
        return [(it["at"][-3:-1], it["outcome"]) for it in client.json("events", *words, room / file)]
    read.client, read.room = client, room
    return read


@pytest.mark.parametrize("words, due", [
    ([], "00 01 02 04"), (["--repeats"], "00 01 02 03 04"), (["--keyid", "people/ana*"], "00 01"),
    (["--keyid", "people/ana"], ""), (["--principal", "root"], "02"), (["--caller", "ana"], "00"),
    (["--serial", "1"], "00 01 04"), (["--serial", "9"], "04"), (["--serial", "10"], ""),
    (["--outcome", "refused"], "02"),
    (["--caller", "*", "--keyid", "people/*", "--outcome", "accepted"], "00"),
])
def test_which_events_are_shown(reading, words, due):
    """In the order of their times."""
    assert due.split() == [at for at, _ in reading(*words)]


def test_events_of_the_last_days(reading):
    old, new = (time.strftime("%FT%TZ", time.gmtime(time.time() - it)) for it in (3 * 86400, 86400))
    (reading.room / "days").write_text("".join(f"{json.dumps(LINES[0] | {'at': it, 'id': it})}\n" for it in (old, new)))
    assert [new] == [it["at"] for it in reading.client.json("events", "--since", "2d", reading.room / "days")]


def test_the_journal_of_another_machine(reading):
    """What `journalctl -o json` prints, in which a message may also be bytes; the same line twice counts once."""
    text = "".join(f"{json.dumps({'MESSAGE': it, '__CURSOR': 's=1'})}\n" for it in [
        *map(json.dumps, LINES), "started", [1, 2], None, json.dumps(LINES[0])])
    (reading.room / "exported").write_text(text)
    assert reading() == reading(file="exported")
    status, out, _ = reading.client("events", "--json", "-", given=text.encode())
    assert (0, 4) == (status, len(out.splitlines()))


def test_events_as_people_read_them(reading):
    status, out, told = reading.client("events", reading.room / "trail")
    assert (0, "") == (status, told)
    lines = [re.split(r" {2,}", it.strip()) for it in out.splitlines()]
    assert ["2026-12-01T07:00:00Z", "ana", "192.0.2.1", "issue", "accepted", "1", "people/ana-1", "for ana"] == lines[1]
    assert ["2026-12-01T07:00:04Z", "root", "revoke-range", "accepted", "1", "to serial 9, version 1"] == lines[4]


def test_a_journal_that_is_not_there_is_said(reading):
    """Off Linux, for example."""
    client = reading.client
    done = run(client.words("events"), env=client.environment() | {"PATH": "/nonexistent"})
    assert 2 == done.returncode and b"this machine has no journal" in done.stderr


def test_a_hostile_trail_steers_no_terminal(reading):
    (reading.room / "bad").write_text(json.dumps(LINES[0] | {"caller": "\x1b[2J\x9b", "keyid": "\u202e\n\tx"}) + "\n")
    _, out, _ = reading.client("events", reading.room / "bad")
    assert "\x1b" not in out and "\x9b" not in out and "\u202e" not in out


@pytest.mark.parametrize("line", ["x", "1 2", f"0 {DIGEST} 1 people/ana", f"1 {DIGEST} 1 people/ana more"])
def test_bodies_that_no_guard_prints_are_refused(reading, line):
    (reading.room / "bodies").write_text(f"{line}\n")
    status, _, told = reading.client("audit", "--guard", reading.room / "bodies", reading.room / "trail")
    assert (2, True) == (status, "line 1 isn't one that `sshstation bodies` prints" in told)
