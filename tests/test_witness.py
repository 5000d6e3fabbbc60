"""The witness beside the guard: which tokens are evidence for which bodies, each equality on its own; its settings, the
keys of providers with their sights, and how long evidence is awaited. Then the registrar, the front and the office are
all taken, and somebody else's name is wanted."""
import base64
import contextlib
import json
import os
import pathlib
import random
import re
import select
import socket
import time
import types

import pytest
from cryptography.hazmat.primitives.asymmetric.ed25519 import Ed25519PrivateKey
from cryptography.hazmat.primitives.serialization import Encoding, PublicFormat

from asking import blob_of, body, department, key_blob, key_line, string
from fetching import response
from forging import meaning, mutation
from providers import (CLIENT_ID, CORP, Provider, audience_of, encoded, evidence_name, hashed_by, jobs_of, new_key,
                       nonce_of, public, signed, tag)
from recording import whole_request
from running import PROGRAMS, TOP, run, said, until
from stations import Station, new_guard, part
from subject_keys import CERTIFICATES, ED25519, KEYS, LINES
from test_station import FalseOffice

ISSUER, NOW = "https://login.example.org/realms/corp", 1_800_000_000
CA = blob_of(key_line(0x11))
EC, OTHER = new_key("k1"), new_key("k1")
MINE, THEIRS = (bytes([it]) * 32 for it in (0x22, 0x23))
SETTINGS = CORP + """\
keys = "{keys}"

[department.people]
provider = "corp"
life = "10h"
principals = ["{{name}}", "{{name}}@people"]
groups = {{ ops = "ops@group", dba = ["dba@group", "postgres"] }}
extensions = ["permit-pty", "permit-port-forwarding"]

[department.operators]
provider = "corp"
life = "1h"
need = ["ops"]
groups = {{ ops = "root@operators" }}
options = {{ verify-required = true, source-address = "10.0.0.0/8" }}

[workloads.cluster]
issuer = "{issuer}"
algorithms = ["ES256"]
names = {{ "job:site" = "site" }}
keys = "{keys}"
""" + jobs_of("cluster") + """
[department.web]
witness = false
"""
TAG = tag(ISSUER, "subject of ana")


@pytest.fixture
def file_of_keys(room):
    """What the provider shows, as a file."""
    made = room / "keys.json"
    made.write_text(json.dumps({"keys": [public(EC)]}))
    return made


@pytest.fixture
def settings(room, file_of_keys):
    made = room / "witness.toml"
    made.write_text(SETTINGS.format(issuer=ISSUER, keys=file_of_keys))
    return made


def witness_of(settings, clock=lambda: NOW):
    made = part("witness").Witness(types.SimpleNamespace(witness=str(settings), db="guard.db"))
    made.sights.clock = clock
    return made


def line_of(key):
    return key_line(key)


def claims_of(key, name="ana", **more):
    """The claims of a login with the key of these 32 bytes."""
    return {"iss": ISSUER, "sub": f"subject of {name}", "aud": CLIENT_ID, "exp": NOW + 300, "iat": NOW,
            "nonce": nonce_of(line_of(key)), "preferred_username": name, "groups": ["ops", "others"]} | more


def token_of(key, name="ana", by=EC, **more):
    return signed(claims_of(key, name, **more), by)


def body_of(key, name="ana", **more):
    """The body of what that login gives."""
    given = {"ca": CA, "key": key, "key_id": f"people/{name}/{tag(ISSUER, f'subject of {name}')}",
             "principals": (name, f"{name}@people", "ops@group"), "after": NOW - 60, "before": NOW + 36000,
             "extensions": ("permit-port-forwarding", "permit-pty")}
    return body(7, **given | more)


def operators(key, **more):
    given = {"key_id": f"operators/ana/{TAG}", "principals": ("root@operators",), "before": NOW + 3600,
             "options": (("source-address", "10.0.0.0/8"), ("verify-required", "")), "extensions": ()}
    return body_of(key, **given | more)


def said_of(witness, text, evidence):
    """Why a witness objects to a body: the words of its refusal, or `NoEvidence`; None if it doesn't."""
    faults = part("faults")
    try:
        witness.look(text, evidence if callable(evidence) else lambda _: evidence and evidence.encode())
    except faults.Refused as refused:
        assert refused.args[0].startswith("refused as NotWitnessed ")
        return refused.args[0].removeprefix("refused as NotWitnessed ").partition(",")[0]
    except faults.NoEvidence:
        return "NoEvidence"
    return None


# ---- what a token is evidence for

def from_job(key, **more):
    """The token of a workload for this key, and the body of what it gives."""
    claims = {"iss": ISSUER, "sub": "job:site", "aud": audience_of(line_of(key)), "exp": NOW + 300, "iat": NOW}
    return signed(claims | more, EC, typ=None)


def job(key, **more):
    given = {"key_id": f"jobs/site/{tag(ISSUER, 'job:site')}", "principals": ("site@jobs",), "before": NOW + 3600,
             "extensions": ()}
    return body_of(key, **given | more)


# What is asked to be signed, with which token, and why the witness objects. In each row one thing alone isn't as the
# token gives it.
ROWS = {
    "a login": (body_of(MINE), token_of(MINE), None),
    "of another person": (body_of(MINE, "ben"), token_of(MINE, "ben"), None),
    "fewer principals": (body_of(MINE, principals=("ana",)), token_of(MINE), None),
    "in another order": (body_of(MINE, principals=("ops@group", "ana"), extensions=("permit-pty",
                                                                                  "permit-port-forwarding")),
                         token_of(MINE), None),
    "a second group": (body_of(MINE, principals=("postgres", "dba@group")), token_of(MINE, groups="dba"), None),
    "operators": (operators(MINE), token_of(MINE), None),
    "a workload": (job(MINE), from_job(MINE), None),
    "no department of people": (body_of(MINE, key_id="web/ana"), None, None),
    "a host of a department that isn't named": (body_of(MINE, key_id="hosts/a", kind=2), None, None),
    "no evidence": (body_of(MINE), None, "NoEvidence"),
    # The kind, the nonce, the key ID.
    "a host": (body_of(MINE, kind=2), token_of(MINE), "OtherKind"),
    "another kind": (body_of(MINE, kind=3), token_of(MINE), "OtherKind"),
    "another key": (body_of(MINE), token_of(THEIRS), "BadToken"),
    "another nonce": (body_of(MINE), token_of(MINE, nonce=nonce_of(line_of(THEIRS))), "BadToken"),
    "the nonce padded": (body_of(MINE), token_of(MINE, nonce=nonce_of(line_of(MINE)) + "="), "BadToken"),
    "another name": (body_of(MINE, key_id=f"people/ben/{TAG}"), token_of(MINE), "OtherKeyId"),
    "another tag": (body_of(MINE, key_id=f"people/ana/{tag(ISSUER, 'subject of ben')}"), token_of(MINE), "OtherKeyId"),
    "a tag of another issuer": (body_of(MINE, key_id=f"people/ana/{tag(ISSUER + '/', 'subject of ana')}"),
                                token_of(MINE), "OtherKeyId"),
    "no tag": (body_of(MINE, key_id="people/ana"), token_of(MINE), "OtherKeyId"),
    "more behind the tag": (body_of(MINE, key_id=f"people/ana/{TAG}/x"), token_of(MINE), "OtherKeyId"),
    "another department of the same person": (operators(MINE, key_id=f"people/ana/{TAG}"), token_of(MINE),
                                              "OtherPrincipals"),
    "a department that isn't named": (body_of(MINE, key_id=f"others/ana/{TAG}"), token_of(MINE), "NoDepartment"),
    "no department": (body_of(MINE, key_id="people"), token_of(MINE), "OtherKeyId"),
    # The principals.
    "root": (body_of(MINE, principals=("ana", "root")), token_of(MINE), "OtherPrincipals"),
    "another's name": (body_of(MINE, principals=("ben",)), token_of(MINE), "OtherPrincipals"),
    "a group of the settings alone": (body_of(MINE, principals=("ana", "dba@group")), token_of(MINE),
                                      "OtherPrincipals"),
    "a group of the token alone": (body_of(MINE, principals=("others",)), token_of(MINE), "OtherPrincipals"),
    "a group of another department": (body_of(MINE, principals=("ana", "root@operators")), token_of(MINE),
                                      "OtherPrincipals"),
    "no principals": (body_of(MINE, principals=()), token_of(MINE), "OtherPrincipals"),
    "without the group that is needed": (operators(MINE), token_of(MINE, groups=["dba"]), "NotInGroup"),
    "groups that are no list": (body_of(MINE, principals=("ana",)), token_of(MINE, groups={"ops": 1}), "BadGroups"),
    # Options and extensions.
    "no options": (operators(MINE, options=()), token_of(MINE), "OtherOptions"),
    "an option less": (operators(MINE, options=(("source-address", "10.0.0.0/8"),)), token_of(MINE), "OtherOptions"),
    "another value": (operators(MINE, options=(("source-address", "0.0.0.0/0"), ("verify-required", ""))),
                      token_of(MINE), "OtherOptions"),
    "an option more": (body_of(MINE, options=(("force-command", "/bin/true"),)), token_of(MINE), "OtherOptions"),
    "an option twice": (operators(MINE, options=(*(("source-address", "10.0.0.0/8"),) * 2, ("verify-required", ""))),
                        token_of(MINE), "OtherOptions"),
    "an extension more": (body_of(MINE, extensions=("permit-X11-forwarding", "permit-port-forwarding", "permit-pty")),
                          token_of(MINE), "OtherExtensions"),
    "an extension less": (body_of(MINE, extensions=("permit-pty",)), token_of(MINE), "OtherExtensions"),
    # The times.
    "a second earlier": (body_of(MINE, after=NOW - 61), token_of(MINE), "OtherStart"),
    "a second later": (body_of(MINE, after=NOW - 59), token_of(MINE), "OtherStart"),
    "longer by a second": (body_of(MINE, before=NOW + 36001), token_of(MINE), "OtherEnd"),
    "shorter by a second": (body_of(MINE, before=NOW + 35999), token_of(MINE), "OtherEnd"),
    "for ever": (body_of(MINE, before=2 ** 64 - 1), token_of(MINE), "OtherEnd"),
    "iat with a fraction": (body_of(MINE), token_of(MINE, iat=NOW + 0.75), None),
    "the next day": (body_of(MINE, after=NOW + 86340, before=NOW + 86400 + 36000), token_of(MINE), "BadToken"),
    "ended before it began": (body_of(MINE), token_of(MINE, exp=NOW - 30), "BadToken"),
    "ended a moment later": (body_of(MINE), token_of(MINE, exp=NOW - 29), None),
    # The token.
    "another signature": (body_of(MINE), token_of(MINE, by=OTHER), "BadToken"),
    "another client": (body_of(MINE), token_of(MINE, aud="wiki"), "BadToken"),
    "another issuer": (body_of(MINE), token_of(MINE, iss="https://login.example.org/realms/other"), "BadToken"),
    "for a workload": (body_of(MINE), from_job(MINE), "BadToken"),
    "a person's for a workload": (job(MINE), token_of(MINE), "BadToken"),
    "a workload of another key": (job(MINE), from_job(THEIRS), "BadToken"),
    "a workload that isn't named": (job(MINE), from_job(MINE, sub="job:other"), "BadName"),
    "no name": (body_of(MINE), token_of(MINE, preferred_username=None), "BadName"),
    "the name of a group": (body_of(MINE, "postgres", principals=("postgres",)), token_of(MINE, "postgres"), "BadName"),
    "the principal of another name": (body_of(MINE, "ana@people", principals=("ana@people",)),
                                      token_of(MINE, "ana@people"), "BadName"),
    "root by name": (body_of(MINE, "root", principals=("root",)), token_of(MINE, "root"), "BadName"),
    "nothing": (body_of(MINE), " ", "BadToken"),
    "not text": (body_of(MINE), lambda _: b"\xff\xfe", "BadToken"),
    "long": (body_of(MINE), 8193 * "a", "BadToken"),
    "hashed": (body_of(MINE), hashed_by(EC.export_to_pem(), claims_of(MINE)), "BadToken"),
    "unsigned": (body_of(MINE), f"{encoded({'alg': 'none', 'kid': 'k1'})}.{encoded(claims_of(MINE))}.", "BadToken"),
    # What is no body.
    "nothing to sign": (b"", token_of(MINE), "NotABody"),
    "a body that ends early": (body_of(MINE)[:-1], token_of(MINE), "NotABody"),
    "a text": (b"I owe you 1000 euros", token_of(MINE), "NotABody"),
    "a key that is longer": (body_of(MINE + b"\0"), token_of(MINE), "BadToken"),
}


@pytest.mark.rows
@pytest.mark.parametrize("row", ROWS)
def test_what_a_token_is_evidence_for(settings, row):
    text, evidence, why = ROWS[row]
    assert why == said_of(witness_of(settings), text, evidence)


@pytest.mark.parametrize("kind", KEYS)
def test_the_evidence_for_a_key_of_any_type_is_that_of_its_whole_blob(settings, kind):
    line, asked = LINES[kind], []
    text = body_of(KEYS[kind], type_name=CERTIFICATES[kind].encode())
    for nonce, due in ((nonce_of(line), None), (nonce_of(LINES[ED25519][:-4] + "AAAA"), "BadToken")):
        token = token_of(MINE, nonce=nonce)
        assert due == said_of(witness_of(settings), text, lambda it: asked.append(it) or token.encode())
    assert 2 * [evidence_name(f"people/ana/{TAG}", line, NOW - 60)] == asked


def test_evidence_is_asked_for_by_key_id_key_and_beginning(settings):
    """By sha256sum, of the worked rows' key: what docs/FORMATS.md has of a login."""
    asked, key_id = [], "people/ana/ok76kvlxr4tzgdr6"
    said_of(witness_of(settings), body_of(bytes([0x11]) * 32, key_id=key_id), lambda it: asked.append(it))
    text = run(["sha256sum"], stdin=None, input=(
        f"keyid {key_id}\nkey 4907c2faf4db2d4467f5c4e4571212f1f190dc528d00959e074a35dfdfa05783\n"
        "after 1799999940\n").encode()).stdout.decode()
    assert [text.split()[0]] == asked
    page = (TOP / "docs/FORMATS.md").read_text()
    assert 1 == page.count(f"PUT /evidence/{asked[0]}\n") and 1799999940 == NOW - 60
    # Nobody is asked for what no witness looks at.
    for text in (body_of(MINE, key_id="web/ana"), body_of(MINE, key_id="hosts/a", kind=2)):
        assert None is said_of(witness_of(settings), text, lambda it: asked.append(it))
    assert 1 == len(asked)


def test_no_two_logins_have_evidence_of_one_name(settings):
    """With one public key too. What else a certificate has is compared with the token, and names nothing."""
    witness, asked = witness_of(settings), []
    others = [body_of(MINE), body_of(MINE, "ben"), body_of(THEIRS), operators(MINE), body_of(MINE, after=NOW - 61)]
    same = [body_of(MINE, before=NOW), body_of(MINE, principals=("root",)), body_of(MINE, kind=2)]
    for text in others + same:
        assert "NoEvidence" == said_of(witness, text, lambda it: asked.append(it))
    assert 5 == len({*asked[:5]}) and [asked[0]] * 3 == asked[5:]


def test_a_body_that_is_given_is_the_one_that_openssh_reads(settings, room):
    """The fields that the witness compares are those that ssh-keygen prints."""
    ca = Ed25519PrivateKey.generate()
    text = operators(MINE, ca=key_blob(ca.public_key().public_bytes(Encoding.Raw, PublicFormat.Raw)))
    assert None is said_of(witness_of(settings), text, token_of(MINE))
    whole = text + string(string(b"ssh-ed25519") + string(ca.sign(text)))
    (room / "it-cert.pub").write_text(f"ssh-ed25519-cert-v01@openssh.com {base64.b64encode(whole).decode()} it\n")
    told = run(["ssh-keygen", "-L", "-f", "it-cert.pub"], check=True, env=os.environ | {"TZ": "UTC"}).stdout.decode()
    for it in ("user certificate", f'Key ID: "operators/ana/{TAG}"', "from 2027-01-15T07:59:00 to 2027-01-15T09:00:00",
               "root@operators", "source-address 10.0.0.0/8", "verify-required", "Extensions: (none)"):
        assert it in told


def test_no_random_change_of_a_good_token_is_evidence(settings, request):
    """`--mutations N` tries N of them: for a body of each good token."""
    count, seed = (request.config.getoption(it) for it in ("--mutations", "--hypothesis-seed"))
    chance, witness = random.Random(int(seed)), witness_of(settings)
    good = {token_of(MINE, name): body_of(MINE, name) for name in ("ana", "ben")}
    good[from_job(MINE)] = job(MINE)
    assert [None] * 3 == [said_of(witness, text, token) for token, text in good.items()]
    meanings, believed = [meaning(it) for it in good], 0
    for _ in range(count):
        while (token := mutation([*good], chance)) in good:
            pass
        for number, text in enumerate(good.values()):
            # A key that the provider doesn't show may be one that it will show soon.
            with contextlib.suppress(OSError):
                if said_of(witness, text, lambda _: token.encode("utf-8", "replace")) is None:
                    believed += 1
                    assert meaning(token) == meanings[number], token
    assert [None] * 3 == [said_of(witness, text, token) for token, text in good.items()]
    print(f"{count} random changes of 3 good tokens, seed {seed}: {believed} are evidence, each of which has header, "
          "claims and signature of the good one")


# ---- settings

GOOD = SETTINGS.format(issuer=ISSUER, keys="KEYS")
# What is changed in good settings, with the name of the fault and its key.
BAD = {
    ('keys = "KEYS"\n\n[department.people]', "\n[department.people]"): ("Missing", "department.people"),
    ('keys = "KEYS"\n\n[department.jobs]', "\n[department.jobs]"): ("Missing", "department.jobs"),
    ('["{name}@jobs"]', '["{name}@jobs"]\nwitness = 0'): ("WrongType", "department.jobs.witness"),
    ('algorithms = ["ES256"]\nnames', 'algorithms = ["ES256"]\nunbound = true\naudience = "https://a"\nnames'):
        ("Unbound", "department.jobs.witness"),
    ('algorithms = ["ES256"]\nname =', 'algorithms = ["HS256"]\nname ='): ("BadAlgorithm", "provider.corp.algorithms"),
    ('client_id = "vethlumi"', 'client_id = "vethlumi"\nproxy = "proxy.example.org:3128"'):
        ("BadUrl", "provider.corp.proxy"),
    ('client_id = "vethlumi"', 'client_id = "vethlumi"\nproxy = "https://proxy.example.org:3128"'):
        ("BadUrl", "provider.corp.proxy"),
    ("[provider.corp]", 'office = "https://office.example.org"\n[provider.corp]'): ("UnknownSetting", "office"),
    ("witness = false", "witness = true"): ("Missing", "department.web.provider"),
    ("witness = false", ""): ("Missing", "department.web.provider"),
    ("witness = false", 'witness = false\nlife = "1h"'): ("Missing", "department.web.provider"),
    ('life = "10h"', 'life = "10x"'): ("BadTime", "department.people.life"),
    ("[department.web]", "[department.web"): ("NotToml", ""),
    (GOOD, ""): ("NoDepartment", "department"),
}


@pytest.mark.parametrize("row", BAD, ids=lambda it: f"{it[0]} {it[1]}".replace("\n", " ")[-60:])
def test_bad_settings_are_named_and_nothing_is_witnessed_by_them(room, settings, row):
    old, new = row
    assert 1 == GOOD.count(old)
    name, key = BAD[row]
    text = GOOD.replace(old, new).replace("KEYS", str(room / "keys.json"))
    (room / "bad.toml").write_text(text)
    status, out, errors = said([PROGRAMS / "station/station", "witness", "--check", "bad.toml"])
    assert (1, b"") == (status, out)
    where = f"{key}: " if key else ""
    assert re.match(rf"station: bad.toml: {name}: (line \d+: )?{re.escape(where)}", errors.decode())
    with pytest.raises(part("faults").Fault, match=name):
        witness_of("bad.toml")


def test_check_says_whose_departments_are_witnessed(settings):
    assert (0, b"people corp\noperators corp\njobs cluster\nweb -\n", b"") == said(
        [PROGRAMS / "station/station", "witness", "--check", settings])


def test_the_example_has_good_settings():
    assert (0, b"people corp\noperators corp\njobs cluster\nweb -\n", b"") == said(
        [PROGRAMS / "station/station", "witness", "--check", PROGRAMS / "station/witness.toml"])


def test_settings_are_read_again_when_they_change(settings):
    witness = witness_of(settings)
    assert None is said_of(witness, body_of(MINE), token_of(MINE))
    settings.write_text(settings.read_text().replace('life = "10h"', 'life = "9h"'))
    witness.read()
    assert "OtherEnd" == said_of(witness, body_of(MINE), token_of(MINE))
    settings.write_text("x")
    with pytest.raises(part("faults").Fault, match="NotToml"):
        witness.read()


def test_a_full_table_may_say_that_no_witness_looks(settings):
    """So one file of tables may serve the registrar and the witness."""
    text = settings.read_text().replace('[department.people]\n', '[department.people]\nwitness = false\n')
    settings.write_text(text)
    assert None is said_of(witness_of(settings), body_of(MINE), None)


# ---- the provider's keys

class Clock:
    """The time of a witness, of whose machine nothing else passes."""

    def __init__(self, monkeypatch):
        self.now, self.since_boot = NOW, 0.0
        monkeypatch.setattr(part("sights"), "since_boot", lambda: self.since_boot)

    def __call__(self):
        return self.now

    def pass_by(self, seconds):
        self.now += seconds
        self.since_boot += seconds


@pytest.fixture
def clock(monkeypatch):
    return Clock(monkeypatch)


@pytest.fixture
def shown(room, clock):
    """A provider of a test's own, and whether its witness takes a login at a moment as evidence."""
    with Provider(EC) as made:
        (room / "guard.db").touch()
        (room / "own.toml").write_text(SETTINGS.format(issuer=ISSUER, keys=f"{made.issuer}/keys"))
        made.begin = lambda: setattr(made, "witness", witness_of(room / "own.toml", clock))
        made.begin()

        def takes(at=0, by=EC, name="k1"):
            text = body_of(MINE, after=NOW + at - 60, before=NOW + at + 36000)
            token = signed(claims_of(MINE, iat=NOW + at, exp=NOW + at + 300), by, kid=name)
            try:
                return said_of(made.witness, text, token)
            except OSError as fault:
                return str(fault)

        made.takes = takes
        yield made


def pages(provider):
    return provider.asked.count("/keys")


def away(handler):
    handler.close_connection = True
    return True


def test_keys_are_asked_for_when_they_are_needed(shown, clock):
    assert [None] * 20 == [shown.takes() for _ in range(20)] and 1 == pages(shown)
    # Nothing but this one page: no discovery leads elsewhere.
    assert ["/keys"] == shown.asked
    clock.pass_by(300)
    assert None is shown.takes(300) and 1 == pages(shown)
    clock.pass_by(1)
    assert None is shown.takes(301) and 2 == pages(shown)


def test_a_key_counts_until_an_hour_after_its_last_sight(shown, clock):
    assert None is shown.takes()
    shown.before = away
    clock.pass_by(3599)
    assert None is shown.takes(3599)
    clock.pass_by(1)
    assert "the provider's keys: " in shown.takes(3600)
    # A station that was away judges by the time of the token.
    assert None is shown.takes(3599) and None is shown.takes(-86400)
    shown.before = None
    clock.pass_by(10)
    assert None is shown.takes(3600)


def test_a_key_that_is_withdrawn_signs_nothing_new(shown, clock):
    assert None is shown.takes()
    shown.keys[:] = [new_key("k2")]
    clock.pass_by(3600)
    assert "BadToken" == shown.takes(3600)
    assert None is shown.takes(3599) and None is shown.takes(3600, shown.keys[0], "k2")


def test_a_new_key_is_known_within_ten_seconds(shown, clock):
    assert None is shown.takes()
    new = new_key("k2")
    assert "an unknown key" in shown.takes(0, new, "k2")
    shown.keys.insert(0, new)
    assert [1] == [*{pages(shown) for _ in range(9) if shown.takes(0, new, "k2")}]
    clock.pass_by(10)
    assert None is shown.takes(0, new, "k2") and None is shown.takes()


def test_sights_are_kept_over_a_start(shown, clock):
    assert None is shown.takes()
    shown.before = away
    clock.pass_by(7200)
    shown.begin()
    assert None is shown.takes(3599)
    told = said([PROGRAMS / "station/station", "witness", "--db", "guard.db"])[1].decode()
    assert told.startswith("k1 ") and told.endswith(f" 2027-01-15T08:00:00Z 2027-01-15T08:00:00Z {ISSUER}\n")


def test_the_thumbprint_is_that_of_rfc_7638():
    """The key of its section 3.1, with more beside it."""
    modulus = ("0vx7agoebGcQSuuPiLJXZptN9nndrQmbXEps2aiAFbWhM78LhWx4cbbfAAtVT86zwu1RK7aPFFxuhDR1L6tSoc_BJECPebWKRXjBZCi"
               "FV4n3oknjhMstn64tZ_2W-5JsGY4Hc5n9yBXArwl93lqt7_RN5w6Cf0h4QyQ5v-65YGjQR0_FDW2QvzqY368QQMicAtaSqzs8KJZgnY"
               "b9c7d0zgdAZHzu6qMQvRL5hajrn1n91CbOpbISD08qNLyrdkt-bFTWhAI4vMQFh6WeZu0fM4lFd2NcRwr3XPksINHaQ-G_xBniIqbw0"
               "Ls1jF44-csFCur-kEgU8awapJzKnqDKgw")
    key = {"kty": "RSA", "n": modulus, "e": "AQAB", "alg": "RS256", "kid": "2011-04-29"}
    assert "NzbLsXh8uDCcd-6MNwXF4W_7noWXFZAfHkxZsRGC9Xs" == part("sights").thumbprint(key)
    assert None is part("sights").thumbprint({"kty": "oct", "k": "AA"})


def test_a_key_that_is_dropped_stays_so_though_it_is_shown(shown, clock):
    new = new_key("k2")
    shown.keys.append(new)
    assert None is shown.takes() and None is shown.takes(0, new, "k2")
    words = [PROGRAMS / "station/station", "witness", "--db", "guard.db", "--forget"]
    assert (0, b"dropped 1\n", b"") == said([*words, "k1"])
    assert "an unknown key" in shown.takes() and None is shown.takes(0, new, "k2")
    clock.pass_by(400)
    shown.begin()
    assert "BadToken" == shown.takes(400) and None is shown.takes(400, new, "k2")
    assert b" dropped\n" in said([PROGRAMS / "station/station", "witness", "--db", "guard.db"])[1]
    status, out, errors = said([*words, "k9"])
    assert (1, b"", b"station: no key of the ID 'k9' is kept\n") == (status, out, errors)


def test_another_key_of_the_same_id_takes_the_place_of_the_first(shown, clock):
    assert None is shown.takes()
    shown.keys[:] = [OTHER]
    assert "BadToken" == shown.takes(0, OTHER)
    clock.pass_by(301)
    assert None is shown.takes(301, OTHER) and "BadToken" == shown.takes(0)


def test_keys_of_a_file_need_no_network(settings, file_of_keys, clock):
    witness = witness_of(settings, clock)
    assert None is said_of(witness, body_of(MINE), token_of(MINE))
    file_of_keys.write_text("{}")
    clock.pass_by(400)
    text = body_of(MINE, after=NOW + 340, before=NOW + 400 + 36000)
    # The key isn't in the file any more, and was half an hour ago.
    assert None is said_of(witness, text, token_of(MINE, iat=NOW + 400, exp=NOW + 700))


def test_a_given_proxy_is_asked_and_nobody_else(room, clock):
    """It is told which host is meant, and what it shows counts as the host's: by http here, and by https through a
    tunnel in service."""
    with Provider(EC) as proxy:
        text = SETTINGS.format(issuer=ISSUER, keys="http://127.0.0.1:9/keys")
        (room / "own.toml").write_text(text.replace("client_id", f'proxy = "{proxy.issuer}"\nclient_id'))
        witness = witness_of(room / "own.toml", clock)
        assert None is said_of(witness, body_of(MINE), token_of(MINE))
        assert ["http://127.0.0.1:9/keys"] == proxy.asked


def test_a_provider_that_shows_keys_without_end_fills_no_file(shown, clock, monkeypatch):
    monkeypatch.setattr(part("sights"), "MOST_KEYS", 5)
    assert None is shown.takes()
    for number in range(8):
        shown.keys[:] = [new_key(f"n{number}")]
        clock.pass_by(400)
        shown.takes(400 * (number + 1), shown.keys[0], f"n{number}")
    assert [5] == [len(it) for it in json.loads(pathlib.Path("guard.db-witness").read_text()).values()]


@pytest.mark.parametrize("text", ["x", "[]", '{"a": 1}', '{"a": {"b": {}}}', '{"a": {"b": {"key": 1}}}', 9000 * "["])
def test_a_file_of_keys_that_is_damaged_is_named(settings, text):
    pathlib.Path("guard.db-witness").write_text(text)
    with pytest.raises(part("faults").Fault, match="guard.db-witness isn't what the witness has written"):
        witness_of(settings)


# ---- a station with a witness

POLICY = (department("people", admins="registrar", principals="ana,ben,eve,postgres,*@people,*@group",
                     extensions=("permit-port-forwarding", "permit-pty"), maxlife=36060)
          + department("operators", admins="registrar", principals="root@operators", maxlife=3660,
                       options=("source-address", "verify-required"))
          + department("jobs", admins="registrar", principals="*@jobs", maxlife=3660)
          + department("web", principals="alice", extensions="permit-pty")
          + department("other", principals="alice,ben")
          + department("hosts", kind="host", principals="*.example.org"))


class TakenOffice(FalseOffice):
    """A front whose evidence is what somebody likes: the bytes under each name, or what answers. All three are theirs,
    the registrar, the front and the office."""

    def __init__(self, bodies=(), evidence=()):
        super().__init__(dict(bodies))
        self.evidence, self.asked_at = dict(evidence), []

    def finish_request(self, peer, address):
        head = peer.recv(200, socket.MSG_PEEK)
        found = re.match(rb"GET /evidence/([0-9a-f]{64}) ", head)
        if not found:
            return super().finish_request(peer, address)
        self.requests.append(whole_request(peer))
        self.asked_at.append(time.monotonic())
        answer = self.evidence.get(found[1].decode(), response(b"front: there is no evidence of this login\n",
                                                               "404 Not Found"))
        answer = answer() if callable(answer) else answer
        peer.sendall(answer if answer.startswith(b"HTTP/") else response(answer))


def name_of(text):
    """The name of the evidence for a body."""
    fields = part("witness").Certificate.of_bytes(text)
    return evidence_name(fields.key_id, line_of(fields.key), fields.after)


@pytest.fixture
def guarded(sshstation, make_office, room):
    """A guard with its policy, and the words of a station that has a witness as well."""
    office = make_office()
    guard = new_guard(sshstation, office, policy=POLICY)
    guard.blob, now = blob_of(office.ca.read_text()), int(time.time())
    (room / "keys.json").write_text(json.dumps({"keys": [public(EC)]}))
    (room / "witness.toml").write_text(SETTINGS.format(issuer=ISSUER, keys=room / "keys.json"))
    guard.station = lambda url, *more: Station(guard, url, ["--key", office.ca_key, "--witness", "witness.toml", *more],
                                               ahead=3600)
    guard.plain = lambda url: Station(guard, url, ["--key", office.ca_key], ahead=3600)
    guard.now = now
    guard.token = lambda key, name="ana", at=now, **more: signed(
        claims_of(key, name, **{"iat": at, "exp": at + 300} | more), EC)

    def text(serial, key, name="ana", at=now, **more):
        given = {"ca": guard.blob, "key": key, "key_id": f"people/{name}/{tag(ISSUER, f'subject of {name}')}",
                 "principals": (name,), "after": at - 60, "before": at + 36000,
                 "extensions": ("permit-port-forwarding", "permit-pty")}
        return body(serial, **given | more)

    guard.text = text
    return guard


def test_a_station_signs_what_the_token_gives_and_the_guard_permits(guarded):
    """Each on its own: the guard judges what the witness has seen, and the witness what the guard would permit."""
    keys = [os.urandom(32) for _ in range(8)]
    jobs = signed({"iss": ISSUER, "sub": "job:site", "aud": audience_of(line_of(keys[2])), "exp": guarded.now + 300,
                   "iat": guarded.now}, EC)
    bodies = {
        1: guarded.text(1, keys[0]),
        2: guarded.text(2, keys[1], key_id="web/alice", principals=("alice",), extensions=("permit-pty",),
                        before=guarded.now + 3600),
        3: guarded.text(3, keys[2], key_id=f"jobs/site/{tag(ISSUER, 'job:site')}", principals=("site@jobs",),
                        before=guarded.now + 3600, extensions=()),
        4: guarded.text(4, keys[3], key_id="hosts/a", kind=2, principals=("a.example.org",), extensions=()),
        # The guard permits these, and there is another token, or none.
        5: guarded.text(5, keys[4], "ben"), 6: guarded.text(6, keys[5]),
        7: guarded.text(7, keys[6], key_id="other/ben", principals=("ben",), extensions=(),
                        before=guarded.now + 3600),
        # A token gives this, and the guard doesn't permit it.
        8: guarded.text(8, keys[7], "mia"),
    }
    evidence = {name_of(bodies[1]): guarded.token(keys[0]).encode(), name_of(bodies[3]): jobs.encode(),
                name_of(bodies[5]): guarded.token(keys[4]).encode(),
                name_of(bodies[8]): guarded.token(keys[7], "mia").encode()}
    with TakenOffice(bodies, evidence) as office:
        status, out, errors = guarded.station(office.url).once()
    assert (1, ["signed 1", "signed 2", "signed 3", "signed 4"]) == (status, out)
    assert {"station: not signed: 1, refused as NotWitnessed OtherKeyId: 5",
            "station: not signed: 1, refused as NoEvidence: 6",
            "station: not signed: 1, refused as NotWitnessed NoDepartment: 7",
            "station: not signed: 1, refused as NotPermitted: 8"} == {*errors}
    # What the witness refuses, the guard isn't asked about: it would keep it.
    assert ["1", "2", "3", "4"] == [it[0] for it in guarded.bodies()]


def test_no_evidence_yet_is_no_refusal_for_a_minute(guarded, programs):
    """It is asked for each second, then reported, and then tried again as other refused rows are."""
    key = os.urandom(32)
    text = guarded.text(1, key)
    with TakenOffice({1: text}) as office:
        station = guarded.station(office.url)
        station.change("LONGEST_AWAITED = 0.9, 60\n", "LONGEST_AWAITED = 0.9, 5\n")
        process = station.begin(programs)
        line, reported = process.stderr.readline(), time.monotonic()
        asked = [it for it in office.asked_at if it < reported]
        assert (b"station: not signed: 1, refused as NoEvidence: 1\n", True) == (line, reported - asked[0] > 4.9)
        # About once a second: on a busy machine less often, and never more often.
        assert 3 <= len(asked) and 0.85 < min(later - it for it, later in zip(asked, asked[1:]))
        office.evidence[name_of(text)] = guarded.token(key).encode()
        assert b"signed 1\n" == process.stdout.readline()
    limits = part("limits")
    assert (60, True) == (limits.LONGEST_AWAITED, limits.PAUSE_OF_EVIDENCE < 1)


def test_evidence_that_comes_a_moment_later_is_enough(guarded, programs):
    key = os.urandom(32)
    text = guarded.text(1, key)
    with TakenOffice({1: text}) as office:
        process = guarded.station(office.url).begin(programs)
        until(lambda: office.asked_at)
        office.evidence[name_of(text)] = guarded.token(key).encode()
        assert b"signed 1\n" == process.stdout.readline()
        assert not select.select([process.stderr], [], [], 0)[0]


@pytest.mark.parametrize("answer, why", [
    (b"HTTP/1.1 200 OK\r\ncontent-length: 16385\r\n\r\n" + 16385 * b"a", "an answer of more than 16384 bytes"),
    (b"HTTP/1.1 200 OK\r\ncontent-length: 9\r\n\r\na", "incomplete answer"),
    (b"HTTP/1.1 302 Found\r\nlocation: /v1/pending\r\ncontent-length: 0\r\n\r\n", "302"),
    (b"HTTP/1.1 500 X\r\ncontent-length: 0\r\n\r\n", "500"),
    (16384 * b"a", "refused as NotWitnessed BadToken, no JWT in compact form"),
])
def test_an_answer_that_is_no_evidence_starves_nobody(guarded, answer, why):
    keys = [os.urandom(32) for _ in range(2)]
    bodies = {serial: guarded.text(serial, key) for serial, key in enumerate(keys, 1)}
    evidence = {name_of(bodies[1]): answer, name_of(bodies[2]): guarded.token(keys[1]).encode()}
    with TakenOffice(bodies, evidence) as office:
        assert (1, ["signed 2"], [f"station: not signed: 1, {why}: 1"]) == guarded.station(office.url).once()


def test_evidence_is_looked_at_each_time_before_something_is_signed(guarded, programs):
    """Of a body that was witnessed, and wasn't signed then: the front may have exchanged the token meanwhile."""
    key = os.urandom(32)
    text = guarded.text(1, key)
    with TakenOffice({1: text}, {name_of(text): guarded.token(key).encode()}) as office:
        station = guarded.station(office.url)
        guarded.permit(department("other"))
        process = station.begin(programs)
        assert b"station: not signed: 1, refused as NoDepartment: 1\n" == process.stderr.readline()
        office.evidence[name_of(text)] = guarded.token(key, "ben").encode()
        guarded.permit(POLICY)
        assert b"station: not signed: 1, refused as NotWitnessed OtherKeyId: 1\n" == process.stderr.readline()
        office.evidence[name_of(text)] = guarded.token(key).encode()
        assert b"signed 1\n" == process.stdout.readline()


@pytest.mark.parametrize("name", ["witness.toml", "guard.db-witness", "guard.db-forgotten", "keys.json"])
def test_a_file_of_the_witness_that_others_can_change_is_refused(guarded, name):
    pathlib.Path(name).touch()
    if name == "guard.db-witness":
        pathlib.Path(name).write_text("{}")
    os.chmod(name, 0o666)
    with TakenOffice() as office:
        status, out, errors = guarded.station(office.url).once()
    assert (1, []) == (status, out) and re.search(rf"{name} has mode 666, which lets others change it", errors[0])


def test_settings_that_become_bad_end_the_station(guarded, programs):
    with TakenOffice() as office:
        process = guarded.station(office.url).begin(programs)
        office.begins_rounds(2)
        pathlib.Path("witness.toml").write_text("x")
        assert 1 == process.wait(60)
        assert process.stderr.read().startswith(b"station: witness.toml: NotToml: ")


# ---- registrar, front and office are taken

class Attacker:
    """Has the registrar, the front, the office, an account of their own at the provider, and every token that anybody
    ever showed. They have no private key of the provider, and none of other people's."""

    def __init__(self, guard, chance):
        self.guard, self.chance, self.now = guard, chance, guard.now
        self.own = os.urandom(32)
        self.tokens = {("eve", self.own): guard.token(self.own, "eve", groups=["others"])}
        self.times = {self.own: self.now}
        for name in ("ana", "ben"):
            for at in (self.now - 7200, self.now - 30, self.now):
                key = os.urandom(32)
                self.tokens[name, key], self.times[key] = guard.token(key, name, at), at
        # What the provider gave for others: another client, an access token, a workload.
        self.others = [guard.token(self.own, "ana", aud="wiki"), guard.token(self.own, "ana", iss=f"{ISSUER}2"),
                       signed(claims_of(self.own, "ana", iat=self.now, exp=self.now + 300), OTHER),
                       signed(claims_of(self.own, "ana", iat=self.now, exp=self.now + 300), EC, typ="at+jwt"),
                       signed({"iss": ISSUER, "sub": "job:site", "aud": audience_of(line_of(self.own)),
                               "exp": self.now + 300, "iat": self.now}, EC)]

    def evidence(self):
        """A token, as it is or with one change."""
        token = self.chance.choice([*self.tokens.values(), *self.others])
        return mutation([*self.tokens.values()], self.chance) if self.chance.random() < 0.3 else token

    def body(self, serial):
        """The body of a certificate of which some fields are an honest login's, and some what the attacker likes."""
        name, key = self.chance.choice([*self.tokens])
        at = self.pick(self.times[key], self.now, self.now - 30, self.now - 7200)
        key_id = self.pick(f"people/{name}/{tag(ISSUER, f'subject of {name}')}",
                           f"people/ana/{tag(ISSUER, 'subject of ana')}", f"people/ana/{tag(ISSUER, 'subject of eve')}",
                           f"operators/ana/{tag(ISSUER, 'subject of ana')}", "people/ana", "other/ben", "people/")
        return self.guard.text(
            serial, self.pick(key, self.own), name, at, key_id=key_id,
            principals=self.pick((name,), ("ana",), ("eve", "ana"), ("root@operators",), ("eve", "ops@group"), ()),
            kind=self.pick(1, 2), extensions=self.pick(("permit-port-forwarding", "permit-pty"), (), ("permit-pty",)),
            before=at + self.pick(36000, 35000, 3600))

    def pick(self, honest, *others):
        """What an honest login has, or something else."""
        return honest if self.chance.random() < 0.8 else self.chance.choice(others)


def person_of(text):
    """Whose name a body has, and whose key: by its key ID, and by what ssh-keygen would print of it."""
    fields = part("witness").Certificate.of_bytes(text)
    return fields.key_id, fields.principals, fields.key


@pytest.mark.slow
def test_who_has_the_registrar_the_front_and_the_office_is_nobody_else(guarded, request):
    """Five hundred certificates with evidence of all kinds. What is signed is somebody's own: the key is one for which
    the provider has signed this very person's login, and the names are that person's."""
    chance = random.Random(int(request.config.getoption("--hypothesis-seed")))
    attacker, signed_for = Attacker(guarded, chance), 0
    bodies = {serial: attacker.body(serial) for serial in range(1, 501)}
    # Another answer each time: for half of them the true token of the key, and a false one otherwise.
    true = {key: token for (_, key), token in attacker.tokens.items()}

    def answer_for(key):
        return lambda: (true[key] if chance.random() < 0.5 else attacker.evidence()).encode("utf-8", "replace")

    evidence = {name_of(it): answer_for(person_of(it)[2]) for it in bodies.values()}
    with TakenOffice(bodies, evidence) as office:
        status, out, errors = guarded.station(office.url).once()
    assert 1 == status and any("NotWitnessed" in it for it in errors)
    owner = {key: name for name, key in attacker.tokens}
    for line in out:
        key_id, principals, key = person_of(bodies[int(line.split()[1])])
        name = owner[key]
        assert key_id == f"people/{name}/{tag(ISSUER, f'subject of {name}')}"
        assert {*principals} <= ({name, f"{name}@people"} | ({"ops@group"} if name != "eve" else set()))
        assert (name, key) in attacker.tokens and (key == attacker.own) == (name == "eve")
        signed_for += 1
    print(f"taken registrar, front and office: of 500 certificates {signed_for} were signed, each for the key and the "
          "name of one login")
    assert signed_for


@pytest.mark.parametrize("row", ["another key", "another name", "another tag", "root", "a second later",
                                 "longer by a second", "an extension more", "no options", "unsigned", "another client"])
def test_what_no_token_gives_is_not_signed_whoever_sends_it(guarded, row):
    """The same guard without a witness signs it, if its policy permits: so it is the witness that stops it."""
    key, eve = os.urandom(32), tag(ISSUER, "subject of eve")
    now, token = guarded.now, guarded.token(key, "eve", groups=["others"])
    change = {"another name": {"name": "ana"}, "another tag": {"key_id": f"people/ana/{eve}"},
              "root": {"principals": ("eve", "ana")}, "a second later": {"after": now - 59},
              "longer by a second": {"before": now + 36001}, "an extension more": {"extensions": ()},
              "another key": {"key": os.urandom(32)}, "no options": {"key_id": f"operators/eve/{eve}", "extensions": (),
                                                                  "principals": ("root@operators",),
                                                                  "before": now + 3600}}.get(row, {})
    if row == "unsigned":
        token = f"{token.rpartition('.')[0]}."
    if row == "another client":
        token = guarded.token(key, "eve", groups=["others"], aud="wiki")
    name, used = change.pop("name", "eve"), change.pop("key", key)
    text = guarded.text(1, used, name, **change)
    with TakenOffice({1: text}, {name_of(text): token.encode()}) as office:
        status, out, errors = guarded.station(office.url).once()
        assert (1, [], 1) == (status, out, len(errors)) and "refused as NotWitnessed" in errors[0]
        # What is longer is refused by the guard as well.
        wanted = (1, []) if row == "longer by a second" else (0, ["signed 1"])
        assert wanted == guarded.plain(office.url).once()[:2]
