"""The registrar between a front and its office, and a station that signs: a login as people see it, what the front
passes on, and kills."""
import concurrent.futures
import random
import threading
import time

import pytest

from asking import department
from providers import LOGINS, OPERATORS, PEOPLE, Provider, new_key, new_line, registrar_behind, tag
from running import fingerprint, run, until
from running import new_key as new_pair

# Tokens count for an hour: a busy machine takes long for many kills.
TABLES = LOGINS.replace('client_id = "vethlumi"\n', 'client_id = "vethlumi"\noldest = "1h"\n')


@pytest.fixture
def provider():
    with Provider(new_key()) as made:
        yield made


@pytest.fixture
def behind(front, sshstation, provider, room):
    """A registrar between a front and its office, and a station that signs. `post` asks the front, as clients do."""
    made = registrar_behind(front, sshstation, room, provider.issuer, TABLES, [PEOPLE, OPERATORS])
    made.office = front.office
    yield made
    made.end()


def test_a_person_logs_in_through_the_front_and_the_station_signs(behind, provider, room, programs):
    behind.station.begin(programs)
    new_pair("ana")
    line = " ".join((room / "ana.pub").read_text().split()[:2])
    status, answer = behind.post(provider.log_in(line), f"{line} ana@laptop")
    while answer["certificate"] is None:
        time.sleep(0.2)
        found, text = behind.ask("GET", f"/v1/certificates/{answer['serial']}")
        answer["certificate"] = text.rstrip() if found == 200 else None
    assert 200 == status
    (room / "ana-cert.pub").write_text(answer["certificate"] + "\n")
    told = run(["ssh-keygen", "-L", "-f", "ana-cert.pub"], check=True).stdout.decode()
    assert f'Key ID: "people/ana/{tag(provider.issuer, "subject of ana")}"' in told and "permit-pty" in told
    assert ["ana", "ops@group"] == [it.strip() for it in told.split("Principals:")[1].split("Critical")[0].split()]
    assert fingerprint("ana.pub") in told and fingerprint(behind.office.ca) in told
    # A second department of the same login is another certificate.
    assert 2 == behind.post(provider.log_in(line), line, "operators")[1]["serial"]


@pytest.mark.parametrize("method, path, head, status", [
    ("GET", "/v1/login", {}, 405), ("POST", "/v1/login?x", {}, 404), ("POST", "/v1/%6cogin", {}, 404),
    ("POST", "//v1/login", {}, 404), ("POST", "/v1/login", {"Origin": "https://other.example"}, 403),
    ("POST", "/v1/login", {"Sec-Fetch-Site": "cross-site"}, 403), ("POST", "/v1/login", {}, 400),
    ("GET", "/v1/settings", {}, 200), ("POST", "/v1/settings", {}, 405), ("GET", "/v1/settings?x", {}, 404),
    ("GET", "/v1/certificates/1", {}, 404), ("GET", "/v1/certificates/01", {}, 404), ("GET", "/v1/table", {}, 403),
    ("GET", "/v1/settings", {"Sec-Fetch-Site": "cross-site", "Sec-Fetch-Mode": "cors"}, 403),
])
def test_the_front_passes_logins_on_and_nothing_else(behind, method, path, head, status):
    data = "{}" if method == "POST" else None
    assert status == behind.ask(method, path, headers=head, data=data)[0]


def test_the_journal_has_the_address_that_the_front_saw(behind):
    behind.ask("GET", "/v1/settings", headers={"X-Real-IP": "192.0.2.7"})
    assert "127.0.0.1" == behind.lines(1)[0]["from"]


def test_a_registrar_that_is_away_is_told(behind, provider):
    behind.kill()
    line = new_line()
    status, answer = behind.post(provider.log_in(line), line)
    assert (502, "NoRegistrar") == (status, answer["error"])
    behind.begin()
    until(lambda: 200 == behind.post(provider.log_in(line), line)[0])


def test_whoever_was_revoked_gets_no_certificate_and_no_department_of_others(behind, provider):
    """Also if the provider still lets them in. What the registrar may not do, the office and the front refuse."""
    line = new_line()
    assert 200 == behind.post(provider.log_in(line), line)[0]
    key_id = f"people/ana/{tag(provider.issuer, 'subject of ana')}"
    session = behind.front.session("registrar")
    url = f"{behind.front.url}/v1/requests"
    assert 200 == session.post(f"{url}/leave", data=f"revoke-keyid {key_id}\n").status_code
    fresh = new_line()
    status, answer = behind.post(provider.log_in(fresh), fresh)
    assert (403, "KeyIdRevoked") == (status, answer["error"])
    for number, text in enumerate((PEOPLE, "revoke-range 1 1\n", department("web"))):
        assert 403 == session.post(f"{url}/r{number}", data=text).status_code


def log_in_until_served(registrar, token, line, is_over):
    """What a client does: it sends the same again until it has its certificate. Returns the serials that came, and how
    often no answer came."""
    serials, lost = set(), 0
    while not is_over.is_set():
        try:
            status, answer = registrar.post(token, line)
            lost += status == 502
            if status == 200:
                serials.add(answer["serial"])
                if answer["certificate"]:
                    return serials, lost
        except (OSError, ValueError):
            lost += 1
        time.sleep(0.05)
    return serials, lost


@pytest.mark.slow
@pytest.mark.once
def test_however_often_it_is_killed_each_person_gets_one_certificate(behind, provider, programs, request):
    """`--registrar-kills N` kills it N times while fifty people log in, one after the other."""
    kills = request.config.getoption("--registrar-kills")
    chance = random.Random(int(request.config.getoption("--hypothesis-seed")))
    # Each of them has an address of their own, and not the limit of one.
    behind.front.configure(("zone=logins:10m rate=5r/s;", "zone=logins:10m rate=500r/s;"))
    behind.front.reload()
    behind.station.begin(programs)
    is_over, people = threading.Event(), [f"p{it}@example.org" for it in range(50)]
    lines, found = {name: new_line() for name in people}, {}

    def one(name):
        # The logins are spread over the kills.
        is_over.wait(people.index(name) / len(people) * kills * 0.4)
        token = provider.log_in(lines[name], name, groups=[], exp=int(time.time()) + 3600)
        found[name] = log_in_until_served(behind, token, lines[name], is_over)

    threads = [threading.Thread(target=one, args=(name,), daemon=True) for name in people]
    for it in threads:
        it.start()
    for _ in range(kills):
        time.sleep(chance.random() * 0.4)
        behind.kill()
        behind.begin()
    for it in threads:
        it.join(120)
    is_over.set()
    assert {1} == {len(serials) for serials, _ in found.values()} and 50 == len(found)
    # The kills were in the way of logins.
    lost = sum(it for _, it in found.values())
    assert lost
    table = behind.front.served.get("/v1/table").text
    assert "total 50 version 0" in table
    for name in people:
        assert 1 == table.count(f"  people/{name}/{tag(provider.issuer, f'subject of {name}')}\n")
    print(f"killed {kills} times while 50 people logged in, {lost} logins without an answer: 50 certificates, one for "
          "each of them")


def served(registrar, token, line):
    """A login as a client does it: it is sent again while it has no answer, and then the certificate is asked for."""
    while True:
        status, answer = registrar.post(token, line)
        if status == 200 and answer["certificate"]:
            return answer["certificate"]
        if status == 200:
            break
        assert status in (429, 502, 503), answer
        time.sleep(0.5)
    while True:
        status, text = registrar.ask("GET", f"/v1/certificates/{answer['serial']}")
        if status == 200:
            return text.rstrip()
        assert status in (404, 429, 502, 503), text
        time.sleep(0.5)


@pytest.mark.slow
@pytest.mark.alone
def test_a_hundred_people_at_once_are_all_served(behind, provider, programs):
    behind.station.begin(programs)
    lines = {f"p{it}@example.org": new_line() for it in range(100)}
    tokens = {name: provider.log_in(line, name, groups=[]) for name, line in lines.items()}
    begun = time.monotonic()
    with concurrent.futures.ThreadPoolExecutor(100) as pool:
        found = [*pool.map(lambda name: served(behind, tokens[name], lines[name]), lines)]
    print(f"a hundred people at once: {time.monotonic() - begun:.1f} s")
    assert 100 == len({*found}) and "total 100 version 0" in behind.front.served.get("/v1/table").text
    assert time.monotonic() - begun < 60
