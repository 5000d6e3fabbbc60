"""The registrar beside a provider that signs and an office in Python: what it sends, what it answers and writes down,
what it refuses, and that it keeps nothing. Which tokens it believes is in test_registrar_tokens."""
import base64
import concurrent.futures
import hashlib
import http.client
import io
import json
import os
import shutil
import socket
import time
import tomllib
import types

import pytest

from asking import department, key_line
from providers import (CI, JOBS, OPERATORS, PEOPLE, SETTINGS, Inside, Provider, Registrar, StandIn, evidence_name,
                       new_key, new_line, tag, words)
from running import PROGRAMS, run, said, until
from vethlumi_common.trail import record_of
from vethlumi_registrar import logins, service
from vethlumi_registrar.lines import Busy, Lines
from vethlumi_registrar.settings import read_settings, settings_of
from vethlumi_signon.rights import tag_of
from vethlumi_signon.settings import BadSettings


@pytest.fixture
def provider():
    with Provider(new_key()) as made:
        yield made


@pytest.fixture
def office():
    with StandIn(PEOPLE, OPERATORS, JOBS, CI, department("web")) as made:
        yield made


@pytest.fixture
def make_registrar(room, office, provider):
    made = []

    def make(kind=Inside, **how):
        made.append(kind(room, office.url, provider.issuer, **how))
        return made[-1]

    yield make
    for it in made:
        it.end()


@pytest.fixture
def registrar(make_registrar):
    """In this process. `process` is one of its own."""
    return make_registrar()


@pytest.fixture
def process(make_registrar):
    return make_registrar(Registrar)


# ---- a login

def test_a_login_becomes_an_issue(registrar, provider, office):
    line = new_line()
    now = int(time.time())
    status, answer = registrar.post(provider.log_in(line, iat=now), line)
    assert (200, 1) == (status, answer["serial"])
    [(request, message)] = office.messages()
    assert message == (
        f"issue people\nkeyid people/ana/{tag(provider.issuer, 'subject of ana')}\nkey {line}\n"
        f"principals ana,ops@group\nafter {now - 60}\nbefore {now + 36000}\nextensions permit-pty\n")
    certificate = answer["certificate"].split(" ")
    assert certificate[0] == "ssh-ed25519-cert-v01@openssh.com" and message.split("\n")[1] == f"keyid {certificate[2]}"
    assert 32 == len(request)


def test_the_tag_is_of_issuer_and_subject_alone():
    """By sha256sum and base32: printf 'https://login.example.org\\n1234'."""
    assert "ok76kvlxr4tzgdr6" == tag_of("https://login.example.org", "1234")


def test_request_ids_are_hashes_of_what_they_are_of():
    """By sha256sum, over each part after its length in eight bytes."""
    blob = base64.b64decode(key_line(0x22).split()[1])
    settings = settings_of(tomllib.loads(GOOD))
    claims = {"iss": "https://a.example", "sub": "s", "iat": 1800000000.5, "jti": "j"}

    def by_parts(*parts):
        return hashlib.sha256(b"".join(len(it).to_bytes(8, "big") + it for it in parts)).hexdigest()[:32]

    assert logins.request_of(settings.departments["people"], claims, blob) == by_parts(
        b"vethlumi login", b"people", b"https://a.example", b"s", b"1800000000", blob)
    assert logins.request_of(settings.departments["ci"], claims, blob) == by_parts(
        b"vethlumi token", b"https://a.example", b"j")


def test_a_login_that_is_sent_again_gets_the_same_certificate(process, provider, office):
    registrar, line = process, new_line()
    token = provider.log_in(line)
    first = registrar.post(token, line)
    assert [first] * 3 == [registrar.post(token, line) for _ in range(3)]
    # A comment isn't in the certificate, so it isn't in the message.
    assert first == registrar.post(token, f"{line} ana@laptop")
    with concurrent.futures.ThreadPoolExecutor(20) as pool:
        assert [first] * 20 == [*pool.map(lambda _: registrar.post(token, line), range(20))]
    registrar.kill()
    registrar.begin()
    assert first == registrar.post(token, line)
    assert 1 == len({*office.messages()}) == len(office.office.certificates)


def test_two_registrars_may_serve_at_once(registrar, make_registrar, provider):
    other, line = make_registrar(), new_line()
    token = provider.log_in(line)
    assert registrar.post(token, line) == other.post(token, line)


def test_a_second_login_gets_another_certificate_also_for_the_same_key(registrar, provider):
    """A security key stays the same."""
    line, now = new_line(), int(time.time())
    tokens = [provider.log_in(line, iat=now - it) for it in (0, 1)]
    assert [1, 2] == [registrar.post(it, line)[1]["serial"] for it in tokens]


def test_people_have_certificates_of_their_own_for_one_key(registrar, provider):
    line = new_line()
    assert [1, 2] == [registrar.post(provider.log_in(line, it), line)[1]["serial"] for it in ("ana", "ben")]


def test_each_login_leaves_evidence_under_a_name_of_its_own(make_registrar, provider, monkeypatch):
    """Also of another person, at another time or for another department, with one public key."""
    left = {}
    monkeypatch.setattr(logins.Office, "put_evidence", lambda _, token, name: left.setdefault(name, []).append(token))
    registrar, line, now = make_registrar(), new_line(), int(time.time())
    rows = [(now, "ana", "people"), (now, "eve", "people"), (now - 1, "ana", "people"), (now, "ana", "operators")]
    due = {}
    for at, name, department_name in rows:
        token = provider.log_in(line, name, iat=at)
        assert 200 == registrar.post(token, line, department_name)[0]
        key_id = f"{department_name}/{name}/{tag(provider.issuer, f'subject of {name}')}"
        due[evidence_name(key_id, line, at - 60)] = [token]
    assert 4 == len(due) and due == left


def test_a_stolen_token_is_worth_nothing_with_another_key(registrar, provider, office):
    line = new_line()
    token = provider.log_in(line)
    for thief in (new_line(), line[:-2] + ("AA" if line[-2:] != "AA" else "BB")):
        assert 401 == registrar.post(token, thief)[0]
    assert [] == office.messages()


def test_groups_that_have_changed_need_a_new_login(registrar, provider):
    line, now = new_line(), int(time.time())
    assert 200 == registrar.post(provider.log_in(line, iat=now), line)[0]
    status, answer = registrar.post(provider.log_in(line, iat=now, groups=[]), line)
    assert (409, "KeyReused") == (status, answer["error"])


def test_a_certificate_may_wait_for_its_signature(make_registrar, provider, office):
    office.signs = False
    registrar, line = make_registrar(wait=0), new_line()
    assert (200, {"serial": 1, "certificate": None}) == registrar.post(provider.log_in(line), line)
    status, answer = registrar.ask("GET", "/v1/certificates/1")
    assert (404, "NoCertificate") == (status, answer["error"])
    office.sign()
    until(lambda: 200 == registrar.ask("GET", "/v1/certificates/1")[0])
    assert office.office.certificate(1, False)[0] == registrar.ask("GET", "/v1/certificates/1")[1]


# ---- who gets what

def principals(office):
    return [line.partition(" ")[2] for _, it in office.messages() for line in it.split("\n")
            if line.startswith("principals")]


@pytest.mark.parametrize("groups, gets", [
    ([], "ana"), (None, "ana"), ("ops", "ana,ops@group"), (["dba", "ops"], "ana,dba@group,ops@group,postgres"),
    (["Ops", "ops "], "ana"), (["wiki"], "ana"), (["ops", "ops"], "ana,ops@group"),
], ids=str)
def test_each_group_is_named(registrar, provider, office, groups, gets):
    line = new_line()
    assert 200 == registrar.post(provider.log_in(line, groups=groups), line)[0]
    assert [gets] == principals(office)


@pytest.mark.parametrize("claims", [{"groups": 7}, {"groups": ["ops", 7]}, {"groups": {"ops": 1}},
                                    {"groups": None, "_claim_names": {"groups": "src1"}}], ids=str)
def test_groups_that_are_no_list_are_not_read_as_none(registrar, provider, claims):
    line = new_line()
    status, answer = registrar.post(provider.log_in(line, **claims), line)
    assert (403, "BadGroups") == (status, answer["error"])


# Names that a provider gives, and whether each is one here, byte for byte.
NAMES = {
    "ben": True, "p1@example.org": True, "a.b-c_d@example.org": True, 28 * "a" + "@example.org": True,
    29 * "a" + "@example.org": False, "": False, "root": False, "Ana": False, "ANA": False, "ana ": False,
    " ana": False,
    "ana\n": False, "ana\x00": False, "a/b": False, "ana,root": False, "anä": False, "аna": False, "ana*": False,
    "{name}": False, "ops@group": False, "dba@group": False, "postgres": False, "root@operators": False, "a:b": False,
    "a+b@example.org": False, "ﬁ@example.org": False,
}


@pytest.mark.rows
@pytest.mark.parametrize("name", NAMES, ids=ascii)
def test_a_name_is_taken_byte_for_byte(registrar, provider, office, name):
    line = new_line()
    status, answer = registrar.post(provider.log_in(line, name, groups=[]), line)
    if NAMES[name]:
        assert 200 == status and [name] == principals(office)
        assert office.messages()[0][1].split("\n")[1].startswith(f"keyid people/{name}/")
    else:
        assert (403, "BadName") == (status, answer["error"]) and [] == office.messages()


# By `{name}` of one department, names with what another template adds: to jobs, to nobody, and to a name that is none.
@pytest.mark.parametrize("name, gets", [
    ("site@jobs", None), ("build@ci", None), ("ana@people", "ana@people"), ("@jobs", "@jobs"), ("jobs", "jobs"),
    ("site@jobs@jobs", None), ("site@jobs.example", "site@jobs.example")])
def test_no_name_gives_what_a_template_gives_to_another_name(make_registrar, provider, office, name, gets):
    every = department("people", admins="registrar", principals="{name}", extensions=["permit-pty"], maxlife=36060)
    office.office.settle("root", "every-name", every.encode(), 0, b"")
    line = new_line()
    status, answer = make_registrar().post(provider.log_in(line, name, groups=[]), line)
    if gets:
        assert 200 == status and [gets] == principals(office)
    else:
        assert (403, "BadName") == (status, answer["error"]) and [] == office.messages()


def test_nobody_is_called_as_another_one_of_two_templates(make_registrar, provider, office):
    """ana@people would open what ana may open."""
    text = SETTINGS.replace('principals = ["{{name}}"]', 'principals = ["{{name}}", "{{name}}@people"]')
    both = department("people", admins="registrar", principals="{name},{name}@people", extensions=["permit-pty"],
                      maxlife=36060)
    office.office.settle("root", "two-templates", both.encode(), 0, b"")
    registrar, line = make_registrar(text=text), new_line()
    assert 200 == registrar.post(provider.log_in(line, "ana", groups=[]), line)[0]
    assert ["ana,ana@people"] == principals(office)
    status, answer = registrar.post(provider.log_in(line, "ana@people", groups=[]), line)
    assert (403, "BadName") == (status, answer["error"]) and 1 == len(office.messages())


@pytest.mark.parametrize("name", [None, 7, True, ["ana"], {"name": "ana"}], ids=str)
def test_a_name_is_a_text(registrar, provider, name):
    line = new_line()
    status, answer = registrar.post(provider.log_in(line, preferred_username=name), line)
    assert (403, "BadName") == (status, answer["error"])


def test_a_department_may_need_a_group(registrar, provider, office):
    line = new_line()
    status, answer = registrar.post(provider.log_in(line, "ben", groups=["dba"]), line, "operators")
    assert (403, "NotInGroup") == (status, answer["error"])
    assert 200 == registrar.post(provider.log_in(line, "ben"), line, "operators")[0]
    assert ["root@operators"] == principals(office)


def test_more_than_sixteen_principals_are_refused(make_registrar, provider, office):
    groups = ", ".join(f'g{it} = "g{it}@group"' for it in range(17))
    old = 'groups = {{ ops = "ops@group", dba = ["dba@group", "postgres"] }}'
    assert 1 == SETTINGS.count(old)
    text = SETTINGS.replace(old, f"groups = {{{{ {groups} }}}}")
    registrar, line = make_registrar(text=text), new_line()
    status, answer = registrar.post(provider.log_in(line, groups=[f"g{it}" for it in range(16)]), line)
    assert (403, "TooManyPrincipals") == (status, answer["error"])
    assert 200 == registrar.post(provider.log_in(line, groups=[f"g{it}" for it in range(15)]), line)[0]


# ---- workloads

def test_a_workload_gets_a_certificate_and_renews_it_by_a_fresh_token(registrar, provider, office):
    line, now = new_line(), int(time.time())
    for serial in (1, 2):
        status, answer = registrar.post(provider.work(line, iat=now - 10 + serial), line, "jobs")
        assert (200, serial) == (status, answer["serial"])
    assert ["site@jobs", "site@jobs"] == principals(office)
    assert {f"keyid jobs/site/{tag(provider.issuer, 'job:site')}"} == {it.split("\n")[1] for _, it in office.messages()}


def test_a_workload_is_known_by_a_whole_value(registrar, provider):
    for subject in ("job:site2", "job:sit", "job:", "JOB:SITE", "job:site:x", "site"):
        line = new_line()
        status, answer = registrar.post(provider.work(line, subject), line, "jobs")
        assert (403, "BadName") == (status, answer["error"])


def test_a_token_that_is_bound_to_no_key_gets_one_certificate(registrar, provider, office):
    first, second = new_line(), new_line()
    token = provider.work(first, aud="https://office.example.org", project="site")
    status, answer = registrar.post(token, first, "ci")
    assert (200, 1) == (status, answer["serial"])
    status, answer = registrar.post(token, second, "ci")
    assert (409, "KeyReused") == (status, answer["error"])
    assert 1 == registrar.post(token, first, "ci")[1]["serial"]
    # Another token of the same workload is another.
    fresh = provider.work(second, aud="https://office.example.org", project="site")
    assert 2 == registrar.post(fresh, second, "ci")[1]["serial"]
    assert ["site@ci"] * len(office.messages()) == principals(office)


@pytest.mark.parametrize("project", ["corp/site", "Site", "root", None, ["site"], 41 * "a"], ids=str)
def test_a_whole_claim_is_a_name_or_none(registrar, provider, project):
    line = new_line()
    token = provider.work(line, aud="https://office.example.org", project=project)
    status, answer = registrar.post(token, line, "ci")
    assert (403, "BadName") == (status, answer["error"])


def test_tokens_of_people_and_workloads_are_not_each_others(registrar, provider):
    line = new_line()
    person, job = provider.log_in(line), provider.work(line)
    free = provider.work(line, aud="https://office.example.org", project="site")
    fitting = {(person, "people"), (person, "operators"), (job, "jobs"), (free, "ci")}
    for token in (person, job, free):
        for name in ("people", "operators", "jobs", "ci"):
            assert (200 if (token, name) in fitting else 401) == registrar.post(token, line, name)[0], name


# ---- limits

def test_new_certificates_of_a_person_are_limited_and_repeats_are_not(make_registrar, provider):
    registrar = make_registrar(more="[limits]\ncertificates = 3\nrequests = 8")
    lines = [new_line() for _ in range(4)]
    tokens = [provider.log_in(it) for it in lines]
    assert [200, 200, 200, 429] == [registrar.post(*it)[0] for it in zip(tokens, lines)]
    assert 200 == registrar.post(provider.log_in(lines[0], "ben"), lines[0])[0]
    assert [200] * 5 + [429] == [registrar.post(tokens[0], lines[0])[0] for _ in range(6)]


def test_an_hour_later_there_are_new_ones():
    now = [0.0]
    counts = logins.Counts(2, 100, clock=lambda: now[0])
    counts.count("ana", "r1")
    now[0] = 1800.0
    counts.count("ana", "r2")
    for now[0], is_refused in ((3599.0, True), (3600.0, False)):
        if is_refused:
            with pytest.raises(logins.Refusal):
                counts.count("ana", "r3")
        else:
            counts.count("ana", "r3")


def test_whoever_comes_again_while_the_office_is_away_is_not_kept_out(make_registrar, provider, office):
    registrar, line = make_registrar(more="[limits]\ncertificates = 1\nrequests = 2"), new_line()
    token, office.answer = provider.log_in(line), answered(502, "front: no answer\n")
    assert [503] * 4 == [registrar.post(token, line)[0] for _ in range(4)]
    office.answer = None
    assert [200, 200, 429] == [registrar.post(token, line)[0] for _ in range(3)]


def test_what_the_office_refuses_counts(make_registrar, provider, office):
    """An account that was revoked asks the office no more often than others."""
    registrar, line = make_registrar(more="[limits]\ncertificates = 1\nrequests = 3"), new_line()
    token, office.answer = provider.log_in(line), OFFICES["KeyIdRevoked"][0]
    assert [403, 403, 403, 429] == [registrar.post(token, line)[0] for _ in range(4)]


def test_the_memory_of_people_has_an_end(monkeypatch):
    monkeypatch.setattr(logins, "MOST_PEOPLE", 3)
    counts = logins.Counts(1, 100)
    for name in ("a", "b", "c", "a", "d"):
        counts.count(name, "r1")
    assert ["c", "a", "d"] == [*counts.asked]


# ---- certificates that are fetched

def test_only_certificates_of_logins_a_moment_ago_are_given_away(make_registrar, provider, office):
    """Also by a registrar that was started since. Who has a serial may have them, and nobody lists what was signed."""
    registrar, line = make_registrar(), new_line()

    def given(serial):
        return registrar.ask("GET", f"/v1/certificates/{serial}", headers={"X-Real-IP": f"192.0.2.{serial}"})[0]

    now = int(time.time())
    tell = "issue {0}\nkeyid {0}/x\nkey {1}\nprincipals {2}\nafter {3}\nbefore {4}\nextensions\n"
    others = [tell.format("web", line, "alice", now - 60, now + 600),
              tell.format("people", line, "ana", now - 60 - 600 - 900 - 5, now + 600),
              tell.format("people", line, "ana", now - 60 - 600 - 900 + 60, now + 600)]
    for number, text in enumerate(others):
        office.office.settle("root", f"r{number}", text.encode(), now, b"")
    office.sign()
    assert [404, 404, 200, 404] == [given(it) for it in (1, 2, 3, 4)]
    registrar.post(provider.log_in(line), line)
    assert 200 == given(4)


class Reading:
    """A reader of lines, with the times at which each serial was read."""

    def __init__(self):
        self.signed, self.read_at = set(), []

    def __call__(self, serial):
        from vethlumi.refusals import Refused
        self.read_at.append((time.monotonic(), serial))
        if serial not in self.signed:
            raise Refused(21, "NotSigned", "", "")
        return f"line {serial}", None


def test_however_many_wait_the_office_is_read_at_a_pace():
    read = Reading()
    lines = Lines(read, lambda _: True)
    for serial in range(1, 101):
        lines.expect(serial)
    with concurrent.futures.ThreadPoolExecutor(200) as pool:
        waiting = [pool.submit(lines.wait, serial, 30) for serial in range(1, 101) for _ in range(2)]
        time.sleep(2)
        read.signed = {*range(1, 101)}
        assert sorted(f"line {it}" for it in range(1, 101)) * 2 == sorted({it.result() for it in waiting}) * 2
    times = [it for it, _ in read.read_at]
    for at in times:
        assert len([it for it in times if at <= it < at + 1]) <= 20
    # Nobody's line is read again, and it is kept.
    count = len(read.read_at)
    assert ["line 7", None] == [lines.line(7, "192.0.2.7"), lines.wait(101, 0)] and count == len(read.read_at)


def test_a_fault_while_reading_ends_nothing():
    read = Reading()
    faults = [ValueError("a fault")]

    def failing(serial):
        if faults:
            raise faults.pop()
        return read(serial)

    read.signed = {1}
    lines = Lines(failing, lambda _: True)
    lines.expect(1)
    assert "line 1" == lines.wait(1, 30)


class Strangers:
    """Who asks for serials that this process hasn't issued, within one second until `now` is set. Each serial is
    another one, so that nothing could be remembered of it."""

    def __init__(self):
        self.read, self.now, self.count = Reading(), 100.0, 0
        self.lines = Lines(self.read, lambda _: True, clock=lambda: self.now)

    def asks(self, *addresses):
        """For each address, whether the office is read."""
        return [self.is_read(it) for it in addresses]

    def is_read(self, address):
        self.count += 1
        try:
            self.lines.line(self.count, address)
        except Busy:
            return False
        return True


def test_serials_that_were_not_issued_here_are_read_five_times_a_second():
    they = Strangers()
    assert [True] * 5 + [False] * 3 == they.asks(*(f"192.0.2.{it}" for it in range(8)))
    they.now = 100.9
    assert [False] == they.asks("192.0.2.9")
    they.now = 101.0
    assert [True] * 5 + [False] == they.asks(*(f"192.0.2.{it}" for it in range(6))) and 10 == len(they.read.read_at)


def test_one_stranger_leaves_some_of_these_reads_for_others():
    they, ana, eve = Strangers(), "192.0.2.7", "198.51.100.9"
    for they.now in (100.0, 101.0, 102.0):
        assert [True] * 3 + [False] * 500 == they.asks(*[eve] * 503)
        # As often as a client asks that waits.
        assert [True, True, False] == they.asks(*[ana] * 3)
    assert 3 * 5 == len(they.read.read_at)


@pytest.mark.parametrize("one, other, is_one", [
    ("192.0.2.7", "192.0.2.8", False), ("192.0.2.7", "192.0.2.7", True),
    # A home has a network of 64 bits for itself, at least.
    ("2001:db8:0:1::1", "2001:db8:0:1:ffff:ffff:ffff:ffff", True), ("2001:db8:0:1::1", "2001:DB8:0:1:0::2", True),
    ("2001:db8:0:1::1", "2001:db8:0:2::1", False), ("2001:db8:0:1::1", "2001:db8::1", False),
    # Without a front.
    ("", "", True), ("none", "192.0.2.7", False),
])
def test_which_addresses_are_one_stranger(one, other, is_one):
    they = Strangers()
    assert [True, True, True, not is_one] == they.asks(one, one, one, other)


def test_the_memory_of_strangers_has_an_end():
    they = Strangers()
    for number in range(20000):
        they.now += 0.0001
        they.asks(f"2001:db8:{number:x}::1")
        assert len(they.lines.strange) <= 5
    assert len(they.read.read_at) <= 15


def test_a_stranger_is_whom_the_front_asks_for():
    """By its header line. Only the front reaches the registrar."""
    asked = []
    made = service.Service(types.SimpleNamespace(certificate=lambda *it: asked.append(it)), service.Journal(io.StringIO()))
    for more in ({"HTTP_X_REAL_IP": "192.0.2.7"}, {"HTTP_X_REAL_IP": "2001:db8::7"}, {}):
        made({"REQUEST_METHOD": "GET", "PATH_INFO": "/v1/certificates/9", "REMOTE_ADDR": "127.0.0.1"} | more,
             lambda *_: None)
    assert [(9, "192.0.2.7"), (9, "2001:db8::7"), (9, "127.0.0.1")] == asked


# ---- an office that doesn't answer as an office does

def answered(status, text, *fields):
    return (f"HTTP/1.1 {status} X\r\ncontent-length: {len(text)}\r\nconnection: close\r\n"
            + "".join(f"{it}\r\n" for it in fields) + f"\r\n{text}").encode()


OFFICES = {
    "KeyReused": (answered(409, "refused 9 KeyReused\n"), 409, "KeyReused"),
    "KeyIdRevoked": (answered(409, "refused 16 KeyIdRevoked\n"), 403, "KeyIdRevoked"),
    "NotAllowed": (answered(403, "refused 10 NotAllowed\n"), 403, "Refused"),
    "NotPermitted": (answered(409, "refused 14 NotPermitted\n"), 403, "Refused"),
    "the front's refusal": (answered(403, "front: no\n"), 403, "Refused"),
    "busy": (answered(429, "front: too many\n", "retry-after: 7"), 503, "NoOffice"),
    "away": (answered(502, "front: no answer\n"), 503, "NoOffice"),
    "closed": (b"", 503, "NoOffice"), "cut off": (answered(200, "issued 1\n")[:-4], 503, "NoOffice"),
    "nonsense": (answered(200, "issued one\n"), 502, "BadOffice"),
    "a digest that is none": (answered(200, "issued 1\ndigest 1\n"), 502, "BadOffice"),
    "a redirect": (answered(302, "", "location: /v1/cas"), 403, "Refused"),
    "endless": (answered(200, 100_000 * "x"), 503, "NoOffice"),
    "compressed": (answered(200, "x", "content-encoding: gzip"), 503, "NoOffice"),
}


@pytest.mark.rows
@pytest.mark.parametrize("row", OFFICES)
def test_what_an_office_says_is_told(registrar, provider, office, row):
    office.answer, status, name = OFFICES[row]
    line = new_line()
    found, answer = registrar.post(provider.log_in(line), line)
    assert (status, name) == (found, answer["error"]) and answer["detail"]


def test_a_busy_office_says_when_to_come_again(registrar, provider, office):
    office.answer = OFFICES["busy"][0]
    line = new_line()
    body = json.dumps({"department": "people", "token": provider.log_in(line), "public_key": line})
    peer = http.client.HTTPConnection("127.0.0.1", registrar.port)
    peer.request("POST", "/v1/login", body)
    assert "7" == peer.getresponse().headers["Retry-After"]


def test_a_provider_that_is_away_is_told_and_then_is_back(make_registrar, provider):
    def away(handler):
        handler.say({}, 503)
        return True

    provider.before = away
    registrar, line = make_registrar(), new_line()
    token = provider.log_in(line)
    status, answer = registrar.post(token, line)
    assert (503, "NoProvider") == (status, answer["error"])
    provider.before = None
    until(lambda: 200 == registrar.post(token, line)[0], pause=1)


# ---- the journal

def test_each_request_is_a_line_and_no_line_has_a_token(process, provider):
    registrar, line = process, new_line()
    token = provider.log_in(line)
    registrar.post(token, line)
    tokens = [token, provider.log_in(line, "Ana"), provider.log_in(line, exp=1), token[:-1], f"{token}.x", f"x{token}"]
    for it in tokens:
        registrar.post(it, line)
    registrar.ask("POST", "/v1/login", data=f'{{"token": "{token}"')
    registrar.post(line, token, token)
    registrar.post(line, token)
    registrar.ask("POST", f"/v1/login?token={token}", data="")
    registrar.ask("POST", f"/{token}", data="")
    registrar.ask("GET", "/v1/settings", headers={"Authorization": f"Bearer {token}", "X-Real-IP": f"192.0.2.7{token}"})
    records = registrar.lines(13)
    assert [200, 200, 403, 401, 401, 401, 401, 400, 400, 400, 404, 404, 200] == [it["status"] for it in records]
    text = registrar.journal.read_text()
    for it in tokens:
        assert not [part for part in it.split(".") if len(part) > 9 and part[:24] in text]


def test_a_line_says_who_got_what(registrar, provider):
    line, now = new_line(), int(time.time())
    registrar.ask("POST", "/v1/login", headers={"X-Real-IP": "192.0.2.7"}, json={
        "department": "people", "token": provider.log_in(line, iat=now), "public_key": line})
    [found] = registrar.lines(1)
    name = f"people/ana/{tag(provider.issuer, 'subject of ana')}"
    wanted = {"from": "192.0.2.7", "method": "POST", "path": "/v1/login", "department": "people",
              "issuer": provider.issuer, "subject": "subject of ana", "issued": now, "name": "ana", "groups": ["ops"],
              "keyid": name, "principals": ["ana", "ops@group"], "serial": 1, "status": 200,
              "source": "registrar", "event": "sign-on", "outcome": "accepted"}
    assert wanted == {it: found[it] for it in wanted}
    (registrar.journal.parent / "key.pub").write_text(line)
    assert found["key"] == run(["ssh-keygen", "-l", "-f", "key.pub"]).stdout.decode().split()[1]
    assert {"at", "request", "ms", "ms_office"} == {*found} - {*wanted} - {"key"}
    assert found == record_of(json.dumps(found))


def test_a_refusal_says_why_in_the_journal_alone(registrar, provider):
    line = new_line()
    _, answer = registrar.post(provider.log_in(line, nonce="x"), line)
    _, other = registrar.post(provider.log_in(line, exp=1), line)
    assert answer == other and "nonce" not in str(answer)
    lines = registrar.lines(2)
    assert ["token: the nonce isn't that of this key", "token: ended"] == [it["why"] for it in lines]
    # And the audit trail has it.
    assert lines == [record_of(json.dumps(it)) for it in lines]
    assert [("sign-on", "refused", "BadToken")] * 2 == [(it["event"], it["outcome"], it["reason"]) for it in lines]


def test_only_logins_are_of_the_audit_trail(registrar):
    for path in ("/v1/settings", "/v1/certificates/1", "/none"):
        registrar.ask("GET", path)
    assert [None] * 3 == [record_of(json.dumps(it)) for it in registrar.lines(3)]


def test_strangers_keep_no_login_out_of_the_journal(make_registrar, provider, monkeypatch):
    """journald drops lines, whoever's they are, if there are too many. So what needs no token that is believed gets a
    room of its own: here 2000 bytes, and none that grows."""
    monkeypatch.setattr(service, "ROOM_AT_ONCE", 2000)
    monkeypatch.setattr(service, "ROOM_A_SECOND", 0)
    registrar = make_registrar()
    strange, line = [("GET", "/v1/certificates/77"), ("GET", "/v1/settings"), ("POST", "/v1/login")], new_line()
    for method, path in strange * 20:
        registrar.ask(method, path)
    for key in (new_line(), new_line()):
        registrar.post(provider.log_in(line, exp=1), key)
    assert 403 == registrar.post(provider.log_in(line, "Ana"), line)[0]
    before = [json.loads(it) for it in registrar.journal.read_text().splitlines()]
    # A line that still fits may follow a longer one that didn't.
    said, issued = sum(it.get("left_out", 0) for it in before), int(time.time()) - 1
    assert 1700 < registrar.journal.stat().st_size <= 2000
    assert 200 == registrar.post(provider.log_in(line, iat=issued), line)[0]
    assert 409 == registrar.post(provider.log_in(line, "ben", sub="subject of ana", iat=issued), line)[0]
    login, refused = registrar.lines()[len(before):]
    assert (200, 63 - len(before) - said) == (login["status"], login["left_out"])
    assert ("KeyReused", "ben") == (refused["error"], refused["name"]) and "left_out" not in refused


def test_the_journal_has_room_again_later():
    now, file = [1000.0], io.StringIO()
    made, record = service.Journal(file, lambda: now[0]), {"path": "x" * 980}
    length = len(json.dumps(record)) + 1
    for _ in range(2000):
        made.write(record, False)
    count = (1 << 20) // length
    assert count * length == len(file.getvalue())
    now[0] += 1
    made.write(record, False)
    made.write(record, False)
    now[0] += 1
    made.write(record, False)
    assert [2000 - count, 1] == [json.loads(it)["left_out"] for it in file.getvalue().splitlines()[count:]]


def test_a_group_that_a_token_has_often_stands_once_in_the_line(registrar, provider):
    line = new_line()
    assert 200 == registrar.post(provider.log_in(line, groups=["ops", "dba"] * 200), line)[0]
    assert ["ops", "dba"] == registrar.lines(1)[0]["groups"]


# ---- HTTP

@pytest.mark.parametrize("body, status, name", [
    ("", 400, "BadRequest"), ("{", 400, "BadRequest"), ("[]", 400, "BadRequest"), ("null", 400, "BadRequest"),
    ("{}", 400, "BadRequest"), (3000 * "[", 400, "BadRequest"), ('{"token": "", "public_key": ""}', 400, "BadRequest"),
    ('{"token": "", "public_key": "", "department": 1}', 400, "BadRequest"),
    ('{"token": "", "public_key": "", "department": "people", "more": ""}', 400, "BadRequest"),
    ('{"token": "", "public_key": "", "department": "none"}', 400, "NoDepartment"),
    ('{"token": "", "public_key": "", "department": "people"}', 400, "BadKey"),
    (b"\xff", 400, "BadRequest"), (16384 * " ", 400, "BadRequest"), (16385 * " ", 413, "TooLong"),
], ids=lambda it: str(it)[:40])
def test_what_is_no_login_is_refused(registrar, body, status, name):
    found, answer = registrar.ask("POST", "/v1/login", data=body)
    assert (status, name) == (found, answer["error"])


@pytest.mark.parametrize("key", [
    "ssh-rsa AAAA", "ssh-ed25519 AAAA", key_line(0x22) + "\n", key_line(0x22) + "\nissue root", " " + key_line(0x22),
    key_line(0x22).upper(), "ssh-ed25519-cert-v01@openssh.com AAAA", key_line(1 .to_bytes(32, "little")), "",
], ids=lambda it: ascii(it)[:40])
def test_what_is_no_public_key_is_refused(registrar, provider, office, key):
    status, answer = registrar.post(provider.log_in(key_line(0x22)), key)
    assert (400, "BadKey") == (status, answer["error"]) and [] == office.messages()


@pytest.mark.parametrize("method, path, status", [
    ("GET", "/v1/login", 405), ("PUT", "/v1/login", 405), ("HEAD", "/v1/settings", 405), ("POST", "/v1/settings", 405),
    ("POST", "/v1/certificates/1", 405), ("GET", "/", 404), ("GET", "/v1/login/", 404), ("GET", "/v1/settings?x", 404),
    ("GET", "/v1/certificates/0", 404), ("GET", "/v1/certificates/01", 404), ("GET", "/v1/certificates/1/body", 404),
    ("GET", "/v1/certificates/9223372036854775807", 404), ("GET", "/v1/certificates/9999999999999999999", 404),
    ("GET", "/v1/certificates/-1", 404), ("GET", "/v1/certificates/1%0a", 404), ("GET", "/v1/table", 404),
])
def test_other_paths_lead_nowhere(registrar, office, method, path, status):
    assert status == registrar.ask(method, path)[0]
    assert [] == office.requests


def test_what_a_client_may_know(registrar, provider):
    assert (200, {"departments": {
        "people": {"issuer": provider.issuer, "client_id": "vethlumi", "scopes": ["openid"], "life": 36000,
                   "bound": "nonce", "audience": None},
        "operators": {"issuer": provider.issuer, "client_id": "vethlumi", "scopes": ["openid"], "life": 3600,
                      "bound": "nonce", "audience": None},
        "jobs": {"issuer": provider.issuer, "client_id": None, "scopes": [], "life": 3600, "bound": "audience",
                 "audience": None},
        "ci": {"issuer": provider.issuer, "client_id": None, "scopes": [], "life": 900, "bound": "token",
               "audience": "https://office.example.org"},
    }}) == registrar.ask("GET", "/v1/settings")


def test_silent_clients_keep_nobody_else_from_logging_in(registrar, provider):
    peers = [socket.create_connection(("127.0.0.1", registrar.port)) for _ in range(200)]
    for it in peers:
        it.sendall(b"POST /v1/login HTTP/1.1\r\ncontent-length: 100\r\n\r\n{")
    line = new_line()
    assert 200 == registrar.post(provider.log_in(line), line)[0]
    for it in peers:
        it.close()


def test_it_takes_the_socket_that_systemd_opened(room, office, provider, programs):
    address, settings = room / "registrar.sock", room / "registrar.toml"
    settings.write_text(SETTINGS.format(office=office.url, issuer=provider.issuer, more="", wait=1))
    programs.begin(["systemd-socket-activate", "-l", address, *words("serve", "--settings", settings)])
    until(address.exists)
    line = new_line()
    body = json.dumps({"department": "people", "token": provider.log_in(line), "public_key": line})
    with socket.socket(socket.AF_UNIX) as peer:
        peer.connect(str(address))
        head = f"POST /v1/login HTTP/1.1\r\ncontent-length: {len(body)}\r\nconnection: close\r\n\r\n"
        peer.sendall((head + body).encode())
        answer = b"".join(iter(lambda: peer.recv(65536), b""))
    assert answer.startswith(b"HTTP/1.1 200 OK\r\n") and b'"serial": 1' in answer


def test_it_ends_when_it_is_told_to(process):
    process.process.terminate()
    assert 0 == process.process.wait(30)


# ---- settings

GOOD = SETTINGS.format(office="http://127.0.0.1:1", issuer="https://login.example.org", more="", wait=2)
# What is changed in good settings, with the name of the fault, its line and its key.
BAD = {
    ('life = "10h"', 'life = "10x"'): ("BadTime", 14, "department.people.life"),
    ('life = "10h"', 'life = "59s"'): ("BadTime", 14, "department.people.life"),
    ('life = "10h"', 'life = 36000'): ("WrongType", 14, "department.people.life"),
    ('life = "10h"\n', ""): ("Missing", 12, "department.people.life"),
    ('provider = "corp"\nlife = "10h"', 'provider = ["corp", "other"]\nlife = "10h"'):
        ("TwoProviders", 13, "department.people.provider"),
    ('provider = "corp"\nlife = "10h"', 'provider = "corp"\nworkloads = "ci"\nlife = "10h"'):
        ("TwoProviders", 13, "department.people.provider"),
    ('provider = "corp"\nlife = "10h"', 'provider = "corp"\nprovider = "corp"\nlife = "10h"'): ("NotToml", 0, ""),
    ('provider = "corp"\nlife = "10h"', 'life = "10h"'): ("Missing", 12, "department.people.provider"),
    ('provider = "corp"\nlife = "10h"', 'provider = "corpse"\nlife = "10h"'):
        ("NoProvider", 13, "department.people.provider"),
    ('provider = "corp"\nlife = "10h"', 'workloads = "corp"\nlife = "10h"'):
        ("NoProvider", 13, "department.people.workloads"),
    ('["{name}"]', '["{name}", "{name}"]'): ("Repeated", 15, "department.people.principals"),
    ('["{name}"]', '["{name}{name}"]'): ("BadPrincipal", 15, "department.people.principals"),
    ('["{name}"]', '["{sub}"]'): ("BadPrincipal", 15, "department.people.principals"),
    ('["{name}"]', '["*@people"]'): ("BadPrincipal", 15, "department.people.principals"),
    ('["{name}"]', '["{name}@' + 24 * "a" + '"]'): ("BadPrincipal", 15, "department.people.principals"),
    ('["{name}"]', '"{name}"'): ("WrongType", 15, "department.people.principals"),
    ('ops = "ops@group"', 'ops = "*@group"'): ("BadPrincipal", 16, "department.people.groups.ops"),
    ('ops = "ops@group"', 'ops = "{name}"'): ("BadPrincipal", 16, "department.people.groups.ops"),
    ('ops = "ops@group"', 'ops = 1'): ("WrongType", 16, "department.people.groups.ops"),
    ('["permit-pty"]', '["permit-tty"]'): ("BadExtension", 17, "department.people.extensions"),
    ('["permit-pty"]', '["permit-pty"]\nshell = "bash"'): ("UnknownSetting", 18, "department.people.shell"),
    ('["permit-pty"]', '["permit-pty"]\noptions = { force-command = 1 }'):
        ("BadOption", 18, "department.people.options.force-command"),
    ('["permit-pty"]', '["permit-pty"]\noptions = { source-address = "10.0.0.1/8" }'):
        ("BadOption", 18, "department.people.options.source-address"),
    ('["permit-pty"]', '["permit-pty"]\noptions = { verify-required = false }'):
        ("BadOption", 18, "department.people.options.verify-required"),
    ("[department.people]", "[department.People]"): ("BadDepartment", 12, "department.People"),
    ('["ES256"]\nname = "preferred', '["HS256"]\nname = "preferred'): ("BadAlgorithm", 8, "provider.corp.algorithms"),
    ('["ES256"]\nname = "preferred', '["none"]\nname = "preferred'): ("BadAlgorithm", 8, "provider.corp.algorithms"),
    ('["ES256"]\nname = "preferred', '[]\nname = "preferred'): ("BadAlgorithm", 8, "provider.corp.algorithms"),
    ('[provider.corp]\nissuer = "https://', '[provider.corp]\nissuer = "http://'):
        ("BadUrl", 6, "provider.corp.issuer"),
    ('[provider.corp]\nissuer = "https://', '[provider.corp]\nissuer = "https://ana@'):
        ("BadUrl", 6, "provider.corp.issuer"),
    ('client_id = "vethlumi"', 'client_id = ""'): ("WrongType", 7, "provider.corp.client_id"),
    ('client_id = "vethlumi"', 'client_id = "https://office.example.org"'):
        ("AudienceOfClient", 39, "workloads.ci.audience"),
    ('client_id = "vethlumi"', 'client_id = "vethlumi:x"'): ("AudienceOfClient", 7, "provider.corp.client_id"),
    ('name = "preferred_username"\n', ""): ("Missing", 5, "provider.corp.name"),
    ('groups = "groups"\n', ""): ("NoGroups", 15, "department.people.groups"),
    ('groups = "groups"', 'groups = "groups"\nscopes = ["email"]'): ("BadScope", 11, "provider.corp.scopes"),
    ('groups = "groups"', 'groups = "groups"\nkeys = "/nowhere"'): ("NoFile", 11, "provider.corp.keys"),
    ('groups = "groups"', 'groups = "groups"\nkeys = "ftp://x"'): ("BadUrl", 11, "provider.corp.keys"),
    ('groups = "groups"', 'groups = "groups"\noldest = "25h"'): ("BadTime", 11, "provider.corp.oldest"),
    ('groups = "groups"', 'groups = "groups"\nrequire = { hd = [] }'): ("WrongType", 11, "provider.corp.require.hd"),
    ('"job:site" = "site"', '"job:site" = "Site"'): ("BadName", 28, "workloads.cluster.names"),
    ('"job:site" = "site"', '"job:site" = "root"'): ("BadName", 28, "workloads.cluster.names"),
    ('names = {', 'name = "sub"\nnames = {'): ("TwoNames", 29, "workloads.cluster.names"),
    ('audience = "https://office.example.org"\n', ""): ("Missing", 35, "workloads.ci.audience"),
    ("unbound = true", "unbound = false"): ("UnknownSetting", 39, "workloads.ci.audience"),
    ("unbound = true", "unbound = 1"): ("WrongType", 38, "workloads.ci.unbound"),
    ('caller = "registrar"', ""): ("NoCaller", 0, "certificate"),
    ('caller = "registrar"', 'caller = "Registrar"'): ("BadCaller", 2, "caller"),
    ('caller = "registrar"', 'certificate = "/nowhere"'): ("NoFile", 2, "certificate"),
    ("wait = 2", "wait = 9"): ("BadNumber", 3, "wait"), ("wait = 2", "wait = true"): ("WrongType", 3, "wait"),
    ("wait = 2", "[limits]\ncertificates = 0"): ("BadNumber", 4, "limits.certificates"),
    ("wait = 2", "[limits]\nmore = 1"): ("UnknownSetting", 4, "limits.more"),
    ("wait = 2", "wait ="): ("NotToml", 0, ""), ("wait = 2", "waits = 2"): ("UnknownSetting", 3, "waits"),
    ("http://127.0.0.1:1", "ftp://127.0.0.1"): ("BadUrl", 1, "office"),
}


def check(text, file="registrar.toml"):
    with open(file, "w") as it:
        it.write(text)
    status, out, errors = said(words("check", "--settings", file))
    return status, out.decode(), errors.decode()


@pytest.mark.rows
@pytest.mark.parametrize("row", BAD, ids=lambda it: f"{it[0]} {it[1]}".replace("\n", " ")[-60:])
def test_a_bad_setting_is_refused_by_name_line_and_key(room, row):
    old, new = row
    assert 1 == GOOD.count(old)
    name, line, key = BAD[row]
    (room / "registrar.toml").write_text(GOOD.replace(old, new))
    with pytest.raises(BadSettings) as found:
        read_settings("registrar.toml")
    where = f"line {line}: " if line else ""
    assert str(found.value).startswith(f"{name}: {where}{f'{key}: ' if key else ''}")


def test_a_bad_setting_is_told_and_nothing_is_served(room):
    for words_of_command in (["check"], ["serve", "--port", "0"]):
        (room / "registrar.toml").write_text(GOOD.replace('life = "10h"', 'life = "10x"'))
        status, out, errors = said(words(*words_of_command, "--settings", "registrar.toml"))
        assert (1, b"") == (status, out) and 1 == errors.count(b"\n")
        assert errors.startswith(b"vethlumi-registrar: registrar.toml: BadTime: line 14: department.people.life: ")


@pytest.mark.parametrize("text", ["", "x", "\xff"])
def test_no_settings_are_refused(room, text):
    assert 1 == check(text)[0]
    assert 1 == said(words("check", "--settings", "nowhere"))[0]


def test_settings_that_others_can_write_are_refused(room):
    assert 0 == check(GOOD)[0]
    os.chmod("registrar.toml", 0o666)
    done = run(words("check", "--settings", "registrar.toml"))
    assert (1, True) == (done.returncode, b"Distrusted" in done.stderr)


@pytest.mark.root
@pytest.mark.parametrize("mode, owner, is_good", [
    (0o600, "root", True), (0o640, "root", True), (0o660, "root", False), (0o644, "root", False),
    (0o600, "nobody", True), (0o640, "nobody", False),
])
def test_a_key_that_others_can_read_is_refused(room, mode, owner, is_good):
    key = room / "key.pem"
    key.touch()
    shutil.chown(key, owner)
    key.chmod(mode)
    status, _, errors = check(GOOD.replace('caller = "registrar"', f'certificate = "{key}"'))
    assert (0, "") == (status, errors.partition("warning")[0]) if is_good else (
        1 == status and "ReadByOthers: line 2: certificate" in errors)


def test_check_says_what_settings_mean(room):
    status, out, errors = check(GOOD)
    assert 0 == status
    for it in ("department people: people of provider corp, https://login.example.org, client vethlumi",
               "all of them get: <name>", "members of dba also get: dba@group, postgres",
               "a certificate lasts 36000 seconds",
               "only for members of one of: ops", "<name> is site if the claim sub is job:site",
               "for the audience https://office.example.org, one certificate for each token"):
        assert it in out
    assert ["warning: department ci: whoever gets hold of a token before its workload gets the certificate"] \
        == errors.splitlines()


def test_the_example_has_good_settings(room):
    (room / "key.pem").touch(0o600)
    text = (PROGRAMS / "registrar/registrar.toml").read_text()
    for it in ("registrar.pem", "ca.crt", "enrol.jwks"):
        text = text.replace(f"/etc/vethlumi/registrar/{it}", f"{room}/key.pem")
    assert 0 == check(text)[0]


def test_no_two_departments_share_what_a_name_gives_without_a_warning(room):
    _, _, errors = check(GOOD.replace('["{name}@jobs"]', '["{name}"]'))
    assert "{name} of departments people, jobs: a name of one issuer is that of the others" in errors
