"""Evidence of logins at the front: who leaves it, who reads it, how much there can be and for how long. Then a login by
all programs: the registrar leaves the token, and the station's witness looks at it before it signs."""
import re
import shutil
import time

import pytest

from asking import department
from providers import (CORP, LOGINS, OF_PEOPLE, PEOPLE, Provider, evidence_name, new_key, new_line, registrar_behind,
                       tag)
from running import PROGRAMS, TOP, run, until

PATH = f"/evidence/{64 * 'a'}"
CONF = (PROGRAMS / "front/nginx.conf").read_text()
ONLY = "front: only the registrar may leave evidence, and only the station may read it\n"


@pytest.fixture
def left(front):
    """A front with a registrar among its callers."""
    front.make("caller", "registrar")
    front.registrar, front.reader = front.session("registrar"), front.session("station")
    front.leave = lambda data, path=PATH, **how: front.registrar.put(front.url + path, data=data, **how)
    front.read = lambda path=PATH: front.reader.get(front.url + path)
    return front


def test_the_registrar_leaves_what_the_station_reads(left):
    assert (404, "front: there is no evidence of this login\n") == (left.read().status_code, left.read().text)
    assert 201 == left.leave("a.b.c").status_code
    assert (200, "a.b.c") == (left.read().status_code, left.read().text)
    assert 204 == left.leave("d.e.f").status_code and "d.e.f" == left.read().text
    # Nobody else of the machine reads it, and nothing else is there.
    folder = left.state / "evidence"
    assert [(64 * "a", 0o600)] == [(it.name, it.stat().st_mode & 0o777) for it in folder.iterdir()]


@pytest.mark.parametrize("name", [None, "ana", "root", "watch", "station", "registrar", "host-web"])
def test_only_the_registrar_leaves_it_and_only_the_station_reads_it(left, name):
    if name == "host-web":
        left.make("host", "web")
    left.leave("a.b.c")
    session = left.session(name)
    puts, gets = session.put(left.url + PATH, data="x"), session.get(left.url + PATH)
    assert (204 if name == "registrar" else 403, 200 if name == "station" else 403) == (puts.status_code,
                                                                                       gets.status_code)
    assert {ONLY} == {it.text for it in (puts, gets) if it.status_code == 403}
    assert ("x" if name == "registrar" else "a.b.c") == left.read().text


@pytest.mark.parametrize("method, name, status", [
    ("POST", "registrar", 405), ("DELETE", "registrar", 405), ("MKCOL", "registrar", 405), ("HEAD", "station", 405),
    ("DELETE", "station", 405), ("COPY", "registrar", 405), ("MOVE", "registrar", 405), ("DELETE", None, 405),
])
def test_nothing_else_is_done_there(left, method, name, status):
    left.leave("a.b.c")
    how = {"headers": {"Destination": "/published"}}
    assert status == left.session(name).request(method, left.url + PATH, **how).status_code
    assert "a.b.c" == left.read().text


@pytest.mark.parametrize("path", [
    f"/evidence/{63 * 'a'}", f"/evidence/{65 * 'a'}", f"/evidence/{64 * 'A'}", f"/evidence/{64 * 'g'}", "/evidence/",
    f"/evidence/{32 * 'a'}/{31 * 'a'}", f"//evidence/{64 * 'a'}", f"/evidence//{64 * 'a'}", f"/evidence/{63 * 'a'}%61",
    f"/evidence/../evidence/{64 * 'a'}", f"/x/..{PATH}", f"{PATH}?x", f"{PATH}/", "/published/../evidence/x",
])
def test_other_paths_hold_nothing(left, path):
    request = (f"PUT {path} HTTP/1.1\r\nHost: localhost\r\nConnection: close\r\nContent-Length: 1\r\n\r\nx").encode()
    assert 404 == left.ask(request, "registrar").status
    assert [] == [*(left.state / "evidence").glob("**/*")]


def test_sixteen_kilobytes_are_the_most(left):
    assert 201 == left.leave(16384 * "a").status_code
    answer = left.leave(16385 * "b")
    assert (413, 16384 * "a") == (answer.status_code, left.read().text)


def test_what_is_left_is_in_the_log_and_the_token_is_not(left):
    left.leave("secret.secret.secret")
    log = left.state / "asked.log"
    until(lambda: f'"PUT {PATH} HTTP/1.1" 201' in log.read_text())
    assert "secret" not in log.read_text()


def numbers():
    """How many pieces the registrar may leave at once, and then in a minute; after how many minutes a piece is old, and
    how many minutes may pass until that is seen."""
    rate, = re.findall(r"limit_req_zone \$evidence_writer zone=evidence:1m rate=(\d+)r/m;", CONF)
    burst, = re.findall(r"limit_req zone=evidence burst=(\d+) nodelay;", CONF)
    age, = re.findall(r"^ExecStart=.* -cmin \+(\d+) -delete$", (PROGRAMS / "units/office-evidence.service").read_text(),
                      re.M)
    pause, = re.findall(r"^OnUnitInactiveSec=(\d+)min$", (PROGRAMS / "units/office-evidence.timer").read_text(), re.M)
    return int(burst) + 1, int(rate), int(age), int(pause)


def test_there_are_never_more_than_ten_thousand_pieces():
    """All that come within 24 hours, and until the timer has seen that they are old: it runs a minute later at most."""
    at_once, rate, age, pause = numbers()
    assert (1200, 6, 1440, 10) == (at_once, rate, age, pause)
    assert at_once + rate * (age + 1 + pause + 1) <= 10_000
    page = " ".join((TOP / "docs/FORMATS.md").read_text().split())
    assert "may leave 1,200 pieces at once, and then six a minute; what is beyond gets 429." in page
    assert "So there are at most 10,000." in page
    assert "removed after 24 hours, and at most ten minutes later" in page


@pytest.mark.slow
def test_more_than_twelve_hundred_at_once_are_refused(left):
    statuses = [left.leave("a").status_code for _ in range(1300)]
    # Six a minute come back meanwhile.
    assert {201, 204, 429} == {*statuses} and 1200 <= statuses.count(204) + 1 < 1290
    # The station goes on reading, also what isn't there: no limit applies to it.
    assert {200} == {left.read().status_code for _ in range(50)}
    assert {404} == {left.read(f"/evidence/{64 * 'b'}").status_code for _ in range(1100)}


def test_evidence_goes_after_a_day(left, room):
    """By the command of the unit, and a clock that is ahead. A request may say when a file was changed last."""
    if not shutil.which("faketime"):
        pytest.fail("faketime isn't installed")
    left.leave("a", headers={"Date": "Fri, 01 Jan 2100 00:00:00 GMT"})
    left.leave("b", f"/evidence/{64 * 'b'}", headers={"Date": "Thu, 01 Jan 1970 00:00:00 GMT"})
    text, = re.findall(r"^ExecStart=(.*)$", (PROGRAMS / "units/office-evidence.service").read_text(), re.M)
    words = text.replace("/var/lib/office-front", str(left.state)).split()
    for minutes, count in ((1439, 2), (1442, 0)):
        run(["faketime", "-f", f"+{minutes}m", *words], check=True)
        assert count == len([*(left.state / "evidence").iterdir()])


# ---- a login

@pytest.fixture
def provider():
    with Provider(new_key()) as made:
        yield made


WEB = department("web", admins="ana")
WITNESS = CORP + 'keys = "{issuer}/keys"\n' + OF_PEOPLE + """
[department.web]
witness = false
"""


@pytest.fixture
def behind(left, sshstation, provider, room):
    """A registrar between a front and its office, and a station with a witness."""
    made = registrar_behind(left, sshstation, room, provider.issuer, LOGINS, [PEOPLE, WEB], WITNESS)
    made.room = room
    yield made
    made.end()


def left_at(front):
    """What evidence is there, by its names."""
    return {it.name: it.read_text() for it in (front.state / "evidence").iterdir()}


def served(registrar, token, line, department_name="people"):
    status, answer = registrar.post(token, line, department_name)
    assert 200 == status, answer
    if not answer["certificate"]:
        until(lambda: 200 == registrar.ask("GET", f"/v1/certificates/{answer['serial']}")[0])
    return answer["serial"]


def test_a_login_is_witnessed_by_all_programs(behind, provider, programs):
    process = behind.station.begin(programs)
    line, now = new_line(), int(time.time())
    token = provider.log_in(line, iat=now)
    assert 1 == served(behind, token, line)
    name = evidence_name(f"people/ana/{tag(provider.issuer, 'subject of ana')}", line, now - 60)
    assert {name: token} == left_at(behind.front)
    # A caller of another department has no token, and needs none.
    message = f"issue web\nkeyid web/alice\nkey {new_line()}\nprincipals alice\nafter {int(time.time()) - 60}\n" \
              f"before {int(time.time()) + 600}\nextensions\n"
    assert 200 == behind.front.session("ana").post(f"{behind.front.url}/v1/requests/a1", data=message).status_code
    assert b"signed 1\n" == process.stdout.readline() and b"signed 2\n" == process.stdout.readline()


def test_what_the_registrar_asks_for_without_a_login_is_not_signed(behind, provider, programs):
    """Its certificate is all that whoever took it needs to be ana, without a witness."""
    process = behind.station.begin(programs)
    now, line = int(time.time()), new_line()
    key_id = f"people/ana/{tag(provider.issuer, 'subject of ana')}"
    message = f"issue people\nkeyid {key_id}\nkey {line}\nprincipals ana\nafter {now - 60}\nbefore {now + 36000}\n" \
              "extensions permit-pty\n"
    thief = behind.front.session("registrar")
    assert 200 == thief.post(f"{behind.front.url}/v1/requests/a1", data=message).status_code
    # The token of ana's own login, for her own key, is no evidence for theirs.
    name = evidence_name(key_id, line, now - 60)
    assert 201 == behind.front.leave(provider.log_in(new_line()), f"/evidence/{name}").status_code
    own = new_line()
    assert 2 == served(behind, provider.log_in(own), own)
    assert 1 == len(re.findall(r"refused as NotWitnessed BadToken, the nonce isn't that of this key: 1",
                               process.stderr.readline().decode()))
    assert "2 " not in behind.front.served.get("/v1/pending").text


def test_no_other_login_takes_the_place_of_evidence(behind, provider):
    """Whoever has seen ana's public key, and has a login of their own, may log in for her key too: before her, after
    her, and at the very second. So may she, for a second certificate. Each is a certificate of its own, and signed."""
    line, now = new_line(), int(time.time())
    logins = [("eve", now - 1), ("ana", now), ("eve", now), ("ana", now - 5), ("eve", now - 5), ("ben", now)]
    tokens = [provider.log_in(line, name, iat=at) for name, at in logins]
    for number, token in enumerate(tokens, 1):
        status, answer = behind.post(token, line)
        assert (200, number) == (status, answer["serial"])
    status, out, errors = behind.station.once()
    assert (0, [f"signed {it}" for it in range(1, 7)], []) == (status, out, errors)
    assert {*tokens} == {*left_at(behind.front).values()}


def test_a_login_that_is_sent_again_leaves_its_token_once(behind, provider):
    """So nobody uses up what the front takes, with one token."""
    line, now = new_line(), int(time.time())
    token = provider.log_in(line, iat=now)
    for _ in range(5):
        assert 200 == behind.post(token, line)[0]
    count = lambda: (behind.front.state / "asked.log").read_text().count("PUT /evidence/")  # noqa: E731
    until(lambda: 1 == count())
    # Another token of the same login takes its place: it gives the same certificate.
    fresh = provider.log_in(line, iat=now, exp=now + 299)
    assert 200 == behind.post(fresh, line)[0]
    until(lambda: 2 == count())
    assert [fresh] == [*left_at(behind.front).values()]


def test_an_account_uses_up_little_of_what_the_front_takes(behind, provider):
    """With two tokens in turn, each of which takes the place of the other, and while the office gives no answers, which
    count for nobody."""
    line, now = new_line(), int(time.time())
    two = [provider.log_in(line, iat=now, exp=now + 300 + it) for it in (0, 1)]
    assert 200 == behind.post(two[1], line)[0]
    behind.front.configure(("proxy_pass http://office/v1/callers", "proxy_pass http://127.0.0.1:9/v1/callers"))
    behind.front.reload()
    statuses = [behind.post(two[it % 2], line)[0] for it in range(70)]
    # The one that was left last needn't be left again.
    assert [503] * 59 + [429, 503] * 5 + [429] == statuses
    log = (behind.front.state / "asked.log").read_text
    until(lambda: 60 == log().count("PUT /evidence/"))
    # Others go on.
    behind.front.configure(("proxy_pass http://127.0.0.1:9/v1/callers", "proxy_pass http://office/v1/callers"))
    behind.front.reload()
    other = new_line()
    until(lambda: 200 == behind.post(provider.log_in(other, "ben"), other)[0])


def test_no_message_is_sent_whose_evidence_the_front_does_not_take(behind, provider):
    behind.front.configure(("        registrar 1;\n", "        another 1;\n"))
    behind.front.reload()
    line = new_line()
    token = provider.log_in(line)
    status, answer = behind.post(token, line)
    assert (502, "NoEvidence") == (status, answer["error"])
    assert "total 0 version 0" in behind.front.served.get("/v1/table").text
    assert behind.lines(1)[0]["why"].startswith("evidence: ") and token not in behind.journal.read_text()
    behind.front.configure(("        another 1;\n", "        registrar 1;\n"))
    behind.front.reload()
    assert (200, 1) == (lambda it: (it[0], it[1]["serial"]))(behind.post(token, line))


def test_a_department_without_a_witness_leaves_nothing(behind, provider):
    text = behind.settings.read_text()
    behind.kill()
    behind.settings.write_text(text.replace("[department.people]\n", "[department.people]\nwitness = false\n"))
    behind.begin()
    line = new_line()
    assert 200 == behind.post(provider.log_in(line), line)[0]
    assert not (behind.front.state / "evidence").exists()


def test_evidence_of_one_front_is_found_by_asking_all(behind, provider, make_front, room):
    """The front's name has several addresses, and the registrar reaches one of them."""
    other = make_front(behind.front.served.port, beside=behind.front, address="127.0.0.2")
    line = new_line()
    assert 200 == behind.post(provider.log_in(line), line)[0]
    assert not (other.state / "evidence").exists()
    for addresses in (("127.0.0.2", "127.0.0.1"), ("127.0.0.1", "127.0.0.2")):
        behind.station.resolve(*addresses)
        status, out, errors = behind.station.once()
        assert (0, []) == (status, errors)
