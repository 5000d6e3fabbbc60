"""Which tokens the registrar believes: each row is a token of jwcrypto, and whether it is one of this provider, for
this client and for this public key. Then random changes of good ones, and keys that are fetched again."""
import base64
import hashlib
import json
import random
import string
import threading
import time

import pytest
from cryptography.hazmat.primitives import hashes, serialization
from cryptography.hazmat.primitives.asymmetric import ec
from cryptography.hazmat.primitives.asymmetric.utils import decode_dss_signature

from forging import decoded, meaning, mutation
from providers import CLIENT_ID, Provider, audience_of, encoded, hashed_by, new_key, new_line, nonce_of, public, signed
from asking import key_line
from running import until
from vethlumi_signon import keys as of_keys
from vethlumi_signon.keys import Keys, NoProvider
from vethlumi_signon.settings import Issuer
from vethlumi_signon.tokens import BadToken, verify

NOW = 1_800_000_000
LINE = key_line(0x22)
BLOB = base64.b64decode(LINE.split()[1])
EC, OTHER, RSA = new_key("k1"), new_key("k1"), new_key("r1", "RSA")
ED, P384, SMALL = new_key("e1", "OKP"), new_key("p1", crv="P-384"), new_key("s1", "RSA", size=1024)
PS = new_key("ps", "RSA")


@pytest.fixture(scope="module")
def provider():
    shown = [EC, RSA, ED, P384, SMALL, public(PS) | {"alg": "PS256"}, public(new_key("enc")) | {"use": "enc"}]
    with Provider(*shown) as made:
        yield made


@pytest.fixture(scope="module")
def people(provider):
    """The provider of people, and its keys. It is asked once."""
    issuer = issuer_of(provider, client=CLIENT_ID)
    return issuer, Keys(issuer.url, issuer.algorithms)


def issuer_of(provider, algorithms=("ES256", "RS256", "EdDSA", "PS256"), **more):
    return Issuer(label="corp", url=provider.issuer, algorithms=algorithms, oldest=600, name="sub", **more)


def good(provider, **more):
    return {"iss": provider.issuer, "sub": "s1", "aud": CLIENT_ID, "exp": NOW + 300, "iat": NOW,
            "nonce": nonce_of(LINE), "azp": CLIENT_ID} | more


def is_believed(token, issuer, keys):
    try:
        verify(token, issuer, keys, BLOB, NOW)
    except (BadToken, NoProvider):
        return False
    return True


# ---- the rows

def with_claims(key=EC, head=None, **claims):
    return lambda it: signed(good(it, **claims), key, **(head or {}))


def unsigned(head, signature=b"", **claims):
    return lambda it: f"{encoded(head)}.{encoded(good(it, **claims))}.{encoded(signature) if signature else ''}"


def changed(change):
    """A good token whose three parts a function changes."""
    return lambda it: change(*signed(good(it), EC).split("."))


def by_secret(secret, kid="k1"):
    return lambda it: hashed_by(secret, good(it), kid)


def raw(text):
    """A token whose claims are this text, with marks for the issuer and the nonce."""
    return lambda it: signed(text % {"iss": it.issuer, "nonce": nonce_of(LINE), "now": NOW, "exp": NOW + 300}, EC)


CLAIMS = '{"iss":"%(iss)s","sub":"s1","aud":"vethlumi","exp":%(exp)d,"iat":%(now)d,"nonce":"%(nonce)s"'
GOOD = {
    "good": with_claims(), "good RS256": with_claims(RSA), "aud a list of one": with_claims(aud=[CLIENT_ID]),
    "no azp": with_claims(azp=None), "no typ": with_claims(head={"typ": None}),
    "in the skew": with_claims(exp=NOW - 10),
}
FORGED = {
    "alg none": unsigned({"alg": "none", "kid": "k1"}), "alg None": unsigned({"alg": "None", "kid": "k1"}),
    "alg nOnE": unsigned({"alg": "nOnE", "kid": "k1"}, b"x"),
    "no signature": changed(lambda h, c, s: f"{h}.{c}."),
    "HS256 by the PEM": by_secret(EC.export_to_pem()), "HS256 by the RSA PEM": by_secret(RSA.export_to_pem(), "r1"),
    "HS256 by the JWK": by_secret(json.dumps(public(EC)).encode()),
    "HS256 by x": by_secret(base64.urlsafe_b64decode(EC["x"] + "==")),
    "another key of the same kid": with_claims(OTHER),
    "jwk in the header": with_claims(OTHER, {"jwk": public(OTHER)}),
    "jku in the header": with_claims(OTHER, {"jku": "http://127.0.0.1:9/keys"}),
    "no kid": with_claims(head={"kid": None}), "kid of the RSA key": with_claims(head={"kid": "r1"}),
    "RS256 with the kid of EC": with_claims(RSA, {"kid": "k1"}),
    "crit": unsigned({"alg": "ES256", "kid": "k1", "crit": ["x"], "x": 1}, b"0" * 64),
    "b64 false": unsigned({"alg": "ES256", "kid": "k1", "b64": False, "crit": ["b64"]}, b"0" * 64),
    "an access token": with_claims(head={"typ": "at+jwt"}), "a logout token": with_claims(head={"typ": "logout+jwt"}),
    "another issuer": lambda it: signed(good(it, iss=it.issuer + "/"), EC), "no iss": with_claims(iss=None),
    "another aud": with_claims(aud="wiki"), "two auds": with_claims(aud=[CLIENT_ID, "wiki"]),
    "aud twice": with_claims(aud=[CLIENT_ID, CLIENT_ID]), "aud longer": with_claims(aud="vethlumi2"),
    "no aud": with_claims(aud=None), "another azp": with_claims(azp="wiki"), "ended": with_claims(exp=NOW - 31),
    "no exp": with_claims(exp=None), "exp a text": with_claims(exp="9999999999"), "exp huge": with_claims(exp=1e300),
    "exp NaN": with_claims(exp=float("nan")), "exp true": with_claims(exp=True),
    "iat ahead": with_claims(iat=NOW + 120),
    "iat old": with_claims(iat=NOW - 700, exp=NOW + 9999), "nbf ahead": with_claims(nbf=NOW + 120),
    "no iat": with_claims(iat=None), "no nonce": with_claims(nonce=None), "another nonce": with_claims(nonce="M"),
    "nonce a list": lambda it: signed(good(it, nonce=[nonce_of(LINE)]), EC), "no sub": with_claims(sub=None),
    "sub a number": with_claims(sub=7), "sub empty": with_claims(sub=""),
    "signature changed": changed(lambda h, c, s: f"{h}.{c}.{s[:9]}{'B' if s[9] == 'A' else 'A'}{s[10:]}"),
    "claims changed": lambda it: (lambda h, c, s: f"{h}.{encoded(good(it, sub='root'))}.{s}")(
        *signed(good(it), EC).split(".")),
    "JSON serialization": changed(lambda h, c, s: json.dumps({"payload": c, "signatures": [
        {"protected": h, "signature": s}]})),
    "padding": changed(lambda h, c, s: f"{h}.{c}.{s}="), "a line feed": changed(lambda h, c, s: f"{h}.{c}.{s}\n"),
    "long": unsigned({"alg": "ES256", "kid": "k1"}, b"0" * 64, x=9000 * "y"),
    "a signature of zeros": changed(lambda h, c, s: f"{h}.{c}.{encoded(bytes(64))}"),
    "four parts": changed(lambda h, c, s: f"{h}.{c}.{s}.x"), "an encrypted token": lambda it: ".".join(5 * ["a"]),
    "empty": lambda it: "",
}
# Rows of our own: on both sides of each limit, and what a signed text may be beside.
MORE = {
    "EdDSA": (with_claims(ED), True), "PS256": (with_claims(PS, {"alg": "PS256"}), True),
    "RS256 by a key for PS256": (with_claims(PS), False),
    "typ in lower case": (with_claims(head={"typ": "jwt"}), True),
    "typ a number": (with_claims(head={"typ": 1}), False),
    "exp 29 s ago": (with_claims(exp=NOW - 29), True), "exp 30 s ago": (with_claims(exp=NOW - 30), False),
    "iat in 30 s": (with_claims(iat=NOW + 30), True), "iat in 31 s": (with_claims(iat=NOW + 31), False),
    "iat 600 s ago": (with_claims(iat=NOW - 600), True), "iat 601 s ago": (with_claims(iat=NOW - 601), False),
    "nbf in 30 s": (with_claims(nbf=NOW + 30), True), "nbf in 31 s": (with_claims(nbf=NOW + 31), False),
    "nbf a text": (with_claims(nbf="1"), False), "iat with a fraction": (with_claims(iat=NOW - 0.25), True),
    "exp below 2^40": (with_claims(exp=2 ** 40 - 1), True), "exp 2^40": (with_claims(exp=2 ** 40), False),
    "iat negative": (with_claims(iat=-1), False), "azp empty": (with_claims(azp=""), False),
    "sub of 1024": (with_claims(sub=1024 * "s"), True), "sub of 1025": (with_claims(sub=1025 * "s"), False),
    "sub half a character": (raw(CLAIMS.replace("s1", "\\ud800") + "}"), False),
    "claims by hand": (raw(CLAIMS + "}"), True), "a name twice": (raw(CLAIMS + ',"sub":"s2"}'), False),
    "a name twice within": (raw(CLAIMS + ',"x":{"a":1,"a":2}}'), False),
    "Infinity": (raw(CLAIMS + ',"x":Infinity}'), False),
    "claims a list": (lambda it: signed("[]", EC), False), "claims nothing": (lambda it: signed("null", EC), False),
    "claims no JSON": (lambda it: signed("{", EC), False),
    "claims not UTF-8": (lambda it: signed(b'{"a":"\xff"}', EC), False),
    "claims nested": (lambda it: signed(3000 * "[", EC), False),
    "bits beyond the bytes": (changed(lambda h, c, s: f"{h}.{c}.{s[:-1]}{beyond(s[-1])}"), False),
    "a signature of 63 bytes": (changed(lambda h, c, s: f"{h}.{c}.{encoded(decoded(s)[:63])}"), False),
    "a signature of 65 bytes": (changed(lambda h, c, s: f"{h}.{c}.{encoded(decoded(s) + b'0')}"), False),
    "a signature in DER": (changed(lambda h, c, s: f"{h}.{c}.{encoded(b'0D' + decoded(s))}"), False),
    "ES256 by a key of P-384": (lambda it: by_another_curve(good(it)), False),
    "an RSA key of 1024 bits": (with_claims(SMALL), False), "a key that isn't for signatures": (with_claims(
        head={"kid": "enc"}), False),
    "crit, signed": (with_claims(head={"crit": ["x"], "x": 1}), False),
    "crit with nothing, signed": (with_claims(head={"crit": []}), False),
    "b64 true": (with_claims(head={"b64": True}), False), "kid a number": (with_claims(head={"kid": 1}), False),
    "kid a list": (with_claims(head={"kid": ["k1"]}), False),
    "no header": (changed(lambda h, c, s: f".{c}.{s}"), False),
    "header a list": (changed(lambda h, c, s: f"{encoded([1])}.{c}.{s}"), False),
    "alg a list": (changed(lambda h, c, s: f"{encoded({'alg': ['ES256'], 'kid': 'k1'})}.{c}.{s}"), False),
    "no token": (lambda it: None, False),
    "8192 letters": (lambda it: of_length(it, 8192), True), "8194 letters": (lambda it: of_length(it, 8194), False),
}


def by_another_curve(claims):
    """A token that says ES256, of a good signature by a key of P-384 over SHA-256."""
    text = f"{encoded({'alg': 'ES256', 'kid': P384['kid'], 'typ': 'JWT'})}.{encoded(claims)}"
    key = serialization.load_pem_private_key(P384.export_to_pem(private_key=True, password=None), None)
    numbers = decode_dss_signature(key.sign(text.encode(), ec.ECDSA(hashes.SHA256())))
    return f"{text}.{encoded(b''.join(it.to_bytes(48) for it in numbers))}"


def beyond(letter):
    """Another last letter of 64 bytes in base64url: its lower four bits belong to no byte."""
    alphabet = string.ascii_uppercase + string.ascii_lowercase + string.digits + "-_"
    return alphabet[alphabet.index(letter) ^ 1]


def of_length(provider, length):
    """A good token of so many letters."""
    for count in range(length):
        made = signed(good(provider, x=(length * 3 // 4 - 600 + count) * "y"), EC)
        if len(made) >= length:
            return made
    raise AssertionError


ROWS = {**{it: (make, True) for it, make in GOOD.items()}, **{it: (make, False) for it, make in FORGED.items()}, **MORE}
assert (6, 52) == (len(GOOD), len(FORGED))


@pytest.mark.rows
@pytest.mark.parametrize("row", ROWS)
def test_which_tokens_are_believed(provider, people, row):
    make, is_good = ROWS[row]
    assert is_good == is_believed(make(provider), *people)
    # It was refused for itself: the provider is there.
    assert is_believed(GOOD["good"](provider), *people)


def test_an_algorithm_that_the_settings_do_not_name_is_refused(provider):
    issuer = issuer_of(provider, ("ES256",), client=CLIENT_ID)
    keys = Keys(issuer.url, issuer.algorithms)
    assert [True, False, False] == [is_believed(signed(good(provider), it), issuer, keys) for it in (EC, RSA, ED)]


def test_a_token_is_for_one_public_key(provider, people):
    token = signed(good(provider), EC)
    other = base64.b64decode(new_line().split()[1])
    with pytest.raises(BadToken, match="nonce"):
        verify(token, *people, other, NOW)


@pytest.mark.parametrize("required, given, is_good", [
    ({"hd": "example.org"}, {"hd": "example.org"}, True), ({"hd": "example.org"}, {"hd": "example.org."}, False),
    ({"hd": "example.org"}, {}, False), ({"email_verified": True}, {"email_verified": True}, True),
    ({"email_verified": True}, {"email_verified": 1}, False),
    ({"email_verified": True}, {"email_verified": "true"}, False),
    ({"level": 2}, {"level": 2}, True), ({"level": 1}, {"level": True}, False),
])
def test_what_the_settings_require_is_in_the_token(provider, people, required, given, is_good):
    issuer = issuer_of(provider, client=CLIENT_ID, require=required)
    assert is_good == is_believed(signed(good(provider, **given), EC), issuer, people[1])


# ---- workloads

def work(provider, **more):
    return {"iss": provider.issuer, "sub": "job:site", "aud": audience_of(LINE), "exp": NOW + 300, "iat": NOW,
            "jti": "1"} | more


# Claims that are changed, and whether a token is believed that is bound to a key, and one that isn't.
UNBOUND = "https://office.example.org"
WORK = {
    "bound": ({}, True, False), "bound, a list of one": ({"aud": [audience_of(LINE)]}, True, False),
    "unbound": ({"aud": UNBOUND}, False, True), "unbound, a list of one": ({"aud": [UNBOUND]}, False, True),
    "two audiences": ({"aud": [audience_of(LINE), UNBOUND]}, False, False),
    "another key": ({"aud": audience_of(key_line(0x23))}, False, False),
    "in upper case": ({"aud": "vethlumi:" + audience_of(LINE)[9:].upper()}, False, False),
    "cut": ({"aud": audience_of(LINE)[:-1]}, False, False),
    "the hash alone": ({"aud": audience_of(LINE)[9:]}, False, False),
    "a person's": ({"aud": CLIENT_ID, "nonce": nonce_of(LINE)}, False, False),
    "no audience": ({"aud": None}, False, False),
    "azp of another": ({"azp": "1234"}, True, False), "no jti": ({"jti": None}, True, False),
    "unbound, no jti": ({"aud": UNBOUND, "jti": None}, False, False),
    "unbound, jti empty": ({"aud": UNBOUND, "jti": ""}, False, False),
    "unbound, jti a number": ({"aud": UNBOUND, "jti": 1}, False, False),
    "unbound, jti of 1024": ({"aud": UNBOUND, "jti": 1024 * "j"}, False, True),
    "unbound, jti of 1025": ({"aud": UNBOUND, "jti": 1025 * "j"}, False, False),
    "ended": ({"exp": NOW - 30}, False, False), "another issuer": ({"iss": "https://other.example.org"}, False, False),
    "no subject": ({"sub": None}, False, False),
}


@pytest.mark.rows
@pytest.mark.parametrize("row", WORK)
def test_which_tokens_of_workloads_are_believed(provider, people, row):
    claims, if_bound, if_unbound = WORK[row]
    token = signed(work(provider, **claims), EC, typ=None)
    bound, unbound = issuer_of(provider), issuer_of(provider, audience=UNBOUND)
    wanted = [if_bound, if_unbound, row == "a person's"]
    assert wanted == [is_believed(token, it, people[1]) for it in (bound, unbound, people[0])]


# What issuers of workloads sign, by their pages; each with another audience than its usual one.
FORMS = {
    "Kubernetes": ({"typ": None}, {
        "aud": [audience_of(LINE)], "iss": "{iss}", "sub": "system:serviceaccount:backup:copier", "exp": NOW + 3600,
        "iat": NOW, "nbf": NOW, "jti": "0f5aa0e5-1d2b-4d9b-8d4e-4a5b6c7d8e9f",
        "kubernetes.io": {"namespace": "backup", "serviceaccount": {"name": "copier", "uid": "1-2"}}}),
    "GitHub": ({"typ": "JWT", "x5t": "abc"}, {
        "jti": "example-id", "sub": "repo:corp/site:ref:refs/heads/main", "aud": audience_of(LINE), "iss": "{iss}",
        "ref": "refs/heads/main", "repository": "corp/site", "repository_id": "74", "run_attempt": "1",
        "nbf": NOW - 600, "exp": NOW + 300, "iat": NOW}),
    "GitLab": ({"typ": "JWT"}, {
        "iss": "{iss}", "sub": "project_path:corp/site:ref_type:branch:ref:main", "aud": audience_of(LINE),
        "nbf": NOW - 5, "exp": NOW + 3600, "iat": NOW, "jti": "fc9d-4a", "project_id": "22", "ref_protected": "true"}),
    "a cloud's machine": ({"typ": "JWT"}, {
        "aud": audience_of(LINE), "azp": "107517467455664443765", "email": "1-compute@developer.gserviceaccount.com",
        "email_verified": True, "exp": NOW + 3600, "iat": NOW, "iss": "{iss}", "sub": "107517467455664443765",
        "google": {"compute_engine": {"instance_id": "152986662232938449", "instance_name": "web1"}}}),
    "AWS, a role's": ({"typ": "JWT"}, {
        "aud": audience_of(LINE), "sub": "arn:aws:iam::123456789012:role/web", "iss": "{iss}", "exp": NOW + 300,
        "iat": NOW, "jti": "a5b9e1c2-5d3f-4a7b-8c9d-0e1f2a3b4c5d", "https://sts.amazonaws.com/": {
            "aws_account": "123456789012", "ec2_instance_source_vpc": "vpc-0a", "principal_tags": {"env": "live"}}}),
}


@pytest.mark.parametrize("form", FORMS)
def test_tokens_in_the_forms_of_issuers_are_believed(provider, people, form):
    head, claims = FORMS[form]
    token = signed(claims | {"iss": provider.issuer}, RSA, **head)
    issuer = issuer_of(provider, ("RS256",))
    assert claims["sub"] == verify(token, issuer, people[1], BLOB, NOW)["sub"]
    with pytest.raises(BadToken, match="another client or key"):
        verify(token, issuer, people[1], base64.b64decode(new_line().split()[1]), NOW)


# What Azure signs for a machine: its audience is that of an application, which somebody registers by hand.
AZURE = {"aud": "api://vethlumi", "iss": "{iss}", "iat": NOW, "nbf": NOW, "exp": NOW + 86400, "aio": "E2Z",
         "appid": "1-2", "appidacr": "2", "idp": "{iss}", "oid": "8f1c-4d", "rh": "0.A", "sub": "8f1c-4d",
         "tid": "9a-1", "uti": "q1b2", "ver": "1.0",
         "xms_mirid": "/subscriptions/1/resourcegroups/a/providers/Microsoft.Compute/virtualMachines/web"}


def test_a_token_that_is_for_no_key_and_has_no_number_counts_nowhere(provider, people):
    """That of Azure has `uti`, and no `jti`: nothing says that it was used before."""
    unbound, bound = (issuer_of(provider, ("RS256",), **it) for it in ({"audience": "api://vethlumi"}, {}))
    for more, is_good in (({}, False), ({"jti": "q1b2"}, True)):
        token = signed(AZURE | {"iss": provider.issuer} | more, RSA, typ="JWT", x5t="abc")
        assert [is_good, False] == [is_believed(token, it, people[1]) for it in (unbound, bound)]


# ---- random changes


def test_no_random_change_of_a_good_token_is_believed(provider, people, request):
    """`--mutations N` tries N of them."""
    count, seed = (request.config.getoption(it) for it in ("--mutations", "--hypothesis-seed"))
    chance = random.Random(int(seed))
    by_key = [signed(good(provider, sub=sub, groups=["ops"]), it) for it in (EC, RSA, ED) for sub in ("s1", "s2")]
    assert all(is_believed(it, *people) for it in by_key)
    tokens, believed = [*by_key], 0
    meanings = [meaning(it) for it in tokens]
    for _ in range(count):
        while (token := mutation(tokens, chance)) in tokens:
            pass
        if is_believed(token, *people):
            believed += 1
            assert meaning(token) in meanings, token
    # Nothing of that has kept the good ones out: what was refused was refused for itself.
    assert all(is_believed(it, *people) for it in by_key)
    print(f"{count} random changes of {len(tokens)} good tokens, seed {seed}: {count - believed} refused, {believed} "
          "believed, each of which has header, claims and signature of a good one")


# ---- keys that change, and providers that don't answer

class Clock:
    def __init__(self):
        self.now = 1000.0

    def __call__(self):
        return self.now


@pytest.fixture
def own():
    """A provider of a test's own, its keys by a clock that the test moves, and whether tokens by a key are believed."""
    with Provider(new_key("a")) as made:
        issuer = issuer_of(made, client=CLIENT_ID)
        made.clock = Clock()
        made.known = Keys(issuer.url, issuer.algorithms, clock=made.clock)
        made.believes = lambda key: is_believed(signed(good(made), key), issuer, made.known)
        yield made


def pages(provider):
    return provider.asked.count("/keys")


def test_a_new_key_is_known_without_a_restart(own):
    old, new = own.keys[0], new_key("b")
    assert own.believes(old) and not own.believes(new)
    own.keys.insert(0, new)
    # An unknown key has the keys fetched, but not again and again.
    assert [False] * 50 == [own.believes(new) for _ in range(50)] and 1 == pages(own)
    own.clock.now += of_keys.PAUSE - 1
    assert not own.believes(new) and 1 == pages(own)
    own.clock.now += 1
    assert own.believes(new) and own.believes(old) and 2 == pages(own)


def test_a_person_whose_key_is_new_is_told_to_come_again(own):
    """And who comes with a key that the provider doesn't show, to log in again."""
    own.believes(own.keys[0])
    own.clock.now += 1
    token = signed(good(own), new_key("b"))
    with pytest.raises(NoProvider):
        verify(token, issuer_of(own, client=CLIENT_ID), own.known, BLOB, NOW)
    own.clock.now += of_keys.PAUSE
    with pytest.raises(BadToken, match="unknown key"):
        verify(token, issuer_of(own, client=CLIENT_ID), own.known, BLOB, NOW)


def test_a_key_that_is_withdrawn_is_believed_for_five_minutes_at_most(own):
    old = own.keys[0]
    assert own.believes(old)
    own.keys[:] = [new_key("b")]
    own.clock.now += of_keys.FRESH - 1
    assert own.believes(old) and 300 == of_keys.FRESH
    own.clock.now += 1
    assert not own.believes(old)


def down(handler):
    handler.close_connection = True
    return True


def redirected(handler):
    handler.say({}, 302, Location=f"{handler.server.issuer}/elsewhere{handler.path}")
    return "elsewhere" not in handler.path


def long(handler):
    handler.say(b" " * ((1 << 18) + 1))
    return True


def compressed(handler):
    handler.say(b"{}", Content_Encoding="gzip")
    return True


def a_list(handler):
    handler.say([])
    return True


def cut(handler):
    handler.say(b"{}", Content_Length="3")
    return down(handler)


def nested(handler):
    handler.say(b"[" * 200_000)
    return True


def refused(handler):
    handler.say({"issuer": handler.server.issuer, "keys": []}, 403)
    return True


FAULTS = [down, redirected, long, compressed, a_list, cut, nested, refused]


@pytest.mark.parametrize("fault", FAULTS, ids=lambda it: it.__name__)
def test_a_provider_that_fails_is_no_reason_to_forget_its_keys_for_an_hour(own, fault):
    key = own.keys[0]
    own.before = fault
    with pytest.raises(NoProvider):
        own.known.key("a", "ES256")
    own.before = None
    own.clock.now += of_keys.PAUSE
    assert own.believes(key)
    own.before = fault
    own.clock.now += of_keys.KEPT - 1
    assert own.believes(key) and 3600 == of_keys.KEPT
    own.clock.now += 1
    assert not own.believes(key)
    assert [] == [it for it in own.asked if "elsewhere" in it]


@pytest.mark.parametrize("more", [
    {"issuer": "http://127.0.0.1:1"}, {"issuer": None}, {"jwks_uri": None}, {"jwks_uri": "file:///etc/passwd"},
    {"jwks_uri": "https://127.0.0.1:1/keys"},
], ids=str)
def test_a_provider_that_names_itself_or_its_keys_otherwise_is_none(own, more):
    own.more = more
    assert not own.believes(own.keys[0])


def test_a_provider_of_which_two_keys_have_one_id_is_none(own):
    own.keys.append(new_key("a"))
    assert not own.believes(own.keys[0])


@pytest.mark.alone
@pytest.mark.parametrize("how", ["silent", "by bytes of the head", "by bytes of the body"])
def test_a_slow_provider_holds_nobody_up_for_long(own, how, monkeypatch):
    """It is given up, however its time passes, and known keys are used meanwhile."""
    monkeypatch.setattr(of_keys, "LONGEST_FETCH", 1)
    key = own.keys[0]
    assert own.believes(key)
    is_over = threading.Event()

    def slow(handler):
        if how != "silent":
            handler.wfile.write(b"HTTP/1.1 200 OK\r\n" + (b"Content-Length: 9999\r\n\r\n" if "body" in how else b""))
        ends = time.monotonic() + 30
        while time.monotonic() < ends and not is_over.wait(0.05):
            handler.wfile.write(b"" if how == "silent" else b" " if "body" in how else b"a")
        return down(handler)

    own.before = slow
    own.clock.now += of_keys.FRESH
    begun = time.monotonic()
    assert own.believes(key)
    assert 0.9 < time.monotonic() - begun < 20
    # It has just been tried.
    begun = time.monotonic()
    assert own.believes(key) and time.monotonic() - begun < 0.9
    is_over.set()


def test_one_fetch_serves_all_who_come_at_once(own):
    is_over, found = threading.Event(), []

    def slow(handler):
        is_over.wait(30)

    own.before = slow
    token = signed(good(own), own.keys[0])
    issuer = issuer_of(own, client=CLIENT_ID)
    threads = [threading.Thread(target=lambda: found.append(is_believed(token, issuer, own.known))) for _ in range(40)]
    for it in threads:
        it.start()
    # One fetches, sixteen wait for it, and the others are told to come again.
    while len(found) < 40 - 1 - of_keys.MOST_WAITING:
        time.sleep(0.01)
    is_over.set()
    for it in threads:
        it.join()
    assert {True: 17, False: 23} == {it: found.count(it) for it in (True, False)}
    assert 1 == pages(own)


def test_strangers_who_wait_keep_nobody_out_whose_key_is_known(own):
    """The keys are fetched again each five minutes. A provider that is slow then is waited for by sixteen logins, and
    anybody can make up a token of an unknown key."""
    key, is_over = own.keys[0], threading.Event()
    assert own.believes(key)
    own.before = lambda handler: is_over.wait(60) and None
    own.clock.now += of_keys.FRESH
    threads = [threading.Thread(target=lambda: own.believes(new_key("b"))) for _ in range(1 + of_keys.MOST_WAITING)]
    for it in threads:
        it.start()
    until(lambda: of_keys.MOST_WAITING == own.known.waiting)
    assert own.believes(key)
    with pytest.raises(NoProvider, match="many wait"):
        verify(signed(good(own), new_key("c")), issuer_of(own, client=CLIENT_ID), own.known, BLOB, NOW)
    own.clock.now += of_keys.KEPT - of_keys.FRESH
    assert not own.believes(key)
    is_over.set()
    for it in threads:
        it.join()


def test_keys_of_a_file_need_no_network(own, room):
    (room / "keys.json").write_text(json.dumps({"keys": [public(own.keys[0])]}))
    known = Keys(own.issuer, ("ES256",), str(room / "keys.json"))
    issuer = issuer_of(own, client=CLIENT_ID)
    assert is_believed(signed(good(own), own.keys[0]), issuer, known) and [] == own.asked


def test_the_nonce_is_the_hash_of_the_key():
    """By hashlib and by sha256sum: printf %s KEY | base64 -d | sha256sum, of the worked rows' key."""
    assert "SQfC-vTbLURn9cTkVxIS8fGQ3FKNAJWeB0o139-gV4M" == nonce_of(key_line(0x11))
    assert 64 == len(hashlib.sha256(BLOB).hexdigest()) == len(audience_of(LINE)) - 9
