"""Tokens by `vethlumi enrol`, by which hosts enrol and which count once, and renewals by the host's own key: at a
registrar before an office in Python, whose certificates a CA of ssh-keygen's signs. The hosts are in
test_enrol_hosts.py."""
import base64
import concurrent.futures
import contextlib
import hashlib
import json
import os
import pathlib
import threading
import time

import pytest
from cryptography.hazmat.primitives.serialization import load_ssh_private_key
from jwcrypto import jwk, jws

from asking import SMALL_ORDER_KEYS, department, key_line
from providers import (CORP, OF_PEOPLE, Inside, Provider, Registrar, StandIn, encoded, hashed_by, new_key, new_line,
                       public, signed)
from running import CLIENT, fingerprint, run, until
from running import new_key as new_pair
from signing_on import Answering, as_json
from vethlumi.formats import BadFormat
from vethlumi_common.trail import record_of
from vethlumi_registrar import renewals
from vethlumi_registrar.office import BETWEEN, FRESH, MOST_WAITING, Cas, NoOffice

LIFE = 30 * 86400
HOSTS = department("hosts", kind="host", admins="registrar,host-{name}", principals="{name}.example.org",
                   maxlife=LIFE + 60)
FIXED = department("fixed", kind="host", admins="registrar", principals="*.example.org", maxlife=LIFE + 60)
PEOPLE = department("people", admins="registrar", principals="{name}", extensions=["permit-pty"], maxlife=36060)
TABLES = """
[workloads.enrol]
issuer = "{office}/enrol"
keys = "enrol.jwks"
algorithms = ["EdDSA"]
unbound = true
audience = "{office}"
oldest = "1h"
name = "sub"

[department.hosts]
workloads = "enrol"
life = "30d"
principals = ["{{name}}.example.org"]
renew = true

[department.fixed]
workloads = "enrol"
life = "30d"
principals = ["{{name}}.example.org"]

""" + CORP + OF_PEOPLE + "renew = true\n"
SETTINGS = 'office = "{office}"\ncaller = "registrar"\nwait = {wait}\n' + TABLES


def vethlumi(*words, **how):
    done = run(["/usr/bin/python3", "-B", "-m", "vethlumi", *words],
               **{"env": os.environ | {"PYTHONPATH": CLIENT, "HOME": os.getcwd()}} | how)
    return done.returncode, done.stdout.decode(), done.stderr.decode()


def in_room(text, room):
    return text.replace("enrol.jwks", str(room / "enrol.jwks"))


# The enrolment key. That of the client is among the first tests, and those with all programs.
KEY = new_key("enrol", "OKP")


def claims_for(host, office, **more):
    """What a token of `vethlumi enrol` says."""
    now = int(time.time())
    return {"iss": f"{office}/enrol", "sub": host, "aud": office, "iat": now, "exp": now + 3600,
            "jti": os.urandom(9).hex()} | more


def token_for(host, office, key=KEY, head=(), **more):
    """A token by jwcrypto. None as a value leaves a claim out."""
    return signed(claims_for(host, office, **more), key, **dict(head))


class SigningOffice(StandIn):
    """An office in Python, whose certificates are signed by the key of a file."""

    def __init__(self, file, *departments):
        line = new_pair(file)
        self.key = load_ssh_private_key(pathlib.Path(file).read_bytes(), None)
        super().__init__(*departments, ca=base64.b64decode(line.split()[1]))

    def signature_of(self, body):
        return self.key.sign(body)


@pytest.fixture
def office(room):
    with SigningOffice("ca", HOSTS, FIXED, PEOPLE) as made:
        yield made


@pytest.fixture
def provider():
    with Provider(new_key()) as made:
        yield made


@pytest.fixture
def make_registrar(office, provider, room):
    with contextlib.ExitStack() as kept:
        def make(kind=Inside, change=lambda text: text):
            made = kind(room, office.url, provider.issuer, text=change(in_room(SETTINGS, room)))
            kept.callback(made.end)
            return made

        (room / "enrol.jwks").write_text(json.dumps({"keys": [public(KEY)]}))
        yield make


@pytest.fixture
def registrar(make_registrar):
    return make_registrar()


# ---- the key, and its tokens

def test_a_token_says_what_another_library_reads(room):
    """By jwcrypto, which the client doesn't use."""
    status, out, errors = vethlumi("enrol", "--new-key")
    assert (0, "") == (status, errors)
    file = room / ".config/vethlumi/enrol.key"
    assert (0o600, 0o700) == (file.stat().st_mode & 0o777, file.parent.stat().st_mode & 0o777)
    [shown] = json.loads(out)["keys"]
    key = jwk.JWK(**shown)
    assert ("EdDSA", "sig", key.thumbprint(), False) == (shown["alg"], shown["use"], shown["kid"], key.has_private)
    assert (0, out, "") == vethlumi("enrol", "--public-key")
    before, office = int(time.time()), "https://office.example.org:8443"
    told = [vethlumi("--office", f"{office}/", "enrol", "web")[1] for _ in range(2)]
    found = []
    for it in told:
        read = jws.JWS()
        read.deserialize(it.strip(), key)
        assert {"alg": "EdDSA", "kid": shown["kid"], "typ": "JWT"} == json.loads(read.objects["protected"])
        found.append(json.loads(read.payload))
    for it in found:
        assert before <= it["iat"] <= time.time()
        assert {"iss": f"{office}/enrol", "sub": "web", "aud": office, "iat": it["iat"], "exp": it["iat"] + 3600,
                "jti": it["jti"]} == it
    assert found[0]["jti"] != found[1]["jti"] and all(16 <= len(it["jti"]) <= 64 for it in found)


ENROL = ["--office", "https://office.example.org", "enrol", "--key", "enrol.key"]


def by_key(file):
    return [*ENROL[:-1], file, "web"]


BAD_WORDS = {
    "nobody": ([*ENROL], "pass one of HOST, --new-key and --public-key"),
    "two": ([*ENROL, "web", "--public-key"], "pass one of HOST, --new-key and --public-key"),
    "a capital": ([*ENROL, "Web"], "'Web' isn't a valid name"),
    "a person": ([*ENROL, "a@b"], "'a@b' isn't a valid name"),
    "a slash": ([*ENROL, "a/b"], "'a/b' isn't a valid name"), "41 letters": ([*ENROL, 41 * "a"], "isn't a valid name"),
    "no office": (["enrol", "--key", "enrol.key", "web"], "no office"),
    "a key that is there": ([*ENROL, "--new-key"], "enrol.key already exists"),
    "no key": (by_key("none"), "none: No such file"),
    "a key for others": (by_key("open.key"), "is open to other users"),
    "a key of RSA": (by_key("rsa.key"), "isn't an Ed25519 key"),
    "no private key": (by_key("text.key"), "isn't a PEM private key"),
}


@pytest.fixture(scope="module")
def key_files(tmp_path_factory):
    """Private keys as openssl makes them."""
    folder = tmp_path_factory.mktemp("keys")
    run(["openssl", "genpkey", "-algorithm", "ed25519", "-out", folder / "enrol.key"], check=True)
    run(["openssl", "genpkey", "-algorithm", "rsa", "-out", folder / "rsa.key"], check=True)
    run(["openssl", "pkcs8", "-topk8", "-in", folder / "enrol.key", "-out", folder / "locked.key", "-passout",
         "pass:secret"], check=True)
    (folder / "open.key").write_bytes((folder / "enrol.key").read_bytes())
    (folder / "text.key").write_text("none\n")
    for it in folder.iterdir():
        it.chmod(0o644 if it.name == "open.key" else 0o600)
    return folder


@pytest.mark.parametrize("row", BAD_WORDS)
def test_words_that_give_no_token(key_files, monkeypatch, row):
    monkeypatch.chdir(key_files)
    words, why = BAD_WORDS[row]
    before = {it.name: it.read_bytes() for it in key_files.iterdir()}
    status, out, errors = vethlumi(*words)
    assert (2, "", True) == (status, out, why in errors), errors
    assert before == {it.name: it.read_bytes() for it in key_files.iterdir()}


@pytest.mark.parametrize("given, due", [(b"secret\n", 0), (b"other\n", 2)])
def test_a_key_may_have_a_passphrase(key_files, monkeypatch, given, due):
    monkeypatch.chdir(key_files)
    status, out, errors = vethlumi("--office", "https://o.example", "enrol", "web", "--key", "locked.key", input=given,
                                   stdin=None)
    assert (due, not due) == (status, out.count(".") == 2), errors


# ---- enrolment

def test_a_token_becomes_an_issue_once(registrar, office, room):
    line, token = new_line(), token_for("web", office.url)
    status, answer = registrar.post(token, line, "hosts")
    assert (200, 1) == (status, answer["serial"])
    claims = json.loads(base64.urlsafe_b64decode(token.split(".")[1] + "=="))
    [(request, message)] = office.messages()
    key_id = message.split("\n")[1].removeprefix("keyid ")
    assert message == (f"issue hosts\nkeyid {key_id}\nkey {line}\nprincipals web.example.org\n"
                       f"after {claims['iat'] - 60}\nbefore {claims['iat'] + LIFE}\nextensions\n")
    assert key_id.startswith("hosts/web/")
    # By docs/FORMATS.md: each part after its length in eight bytes. Nothing of it is of the key.
    parts = [b"vethlumi token", f"{office.url}/enrol".encode(), claims["jti"].encode()]
    due = hashlib.sha256(b"".join(len(it).to_bytes(8, "big") + it for it in parts)).hexdigest()[:32]
    assert due == request
    # The answer may be lost, and the same key comes again; and whoever has another key gets nothing.
    assert [(status, answer)] * 2 == [registrar.post(token, line, "hosts") for _ in range(2)]
    for other, name in ((new_line(), "hosts"), (line, "fixed")):
        status, answer = registrar.post(token, other, name)
        assert (409, "KeyReused") == (status, answer["error"])
    assert 1 == len(office.office.certificates)


def test_a_token_counts_once_after_a_restart_too(make_registrar, office):
    registrar, line, token = make_registrar(Registrar), new_line(), token_for("web", office.url)
    first = registrar.post(token, line, "hosts")
    registrar.kill()
    registrar.begin()
    assert first == registrar.post(token, line, "hosts") and 200 == first[0]
    assert 409 == registrar.post(token, new_line(), "hosts")[0]


def test_two_hosts_at_once_with_one_token(registrar, office):
    token, lines = token_for("web", office.url), [new_line() for _ in range(12)]
    with concurrent.futures.ThreadPoolExecutor(12) as pool:
        found = [*pool.map(lambda it: registrar.post(token, it, "hosts"), lines)]
    assert [200] + [409] * 11 == sorted(status for status, _ in found)
    assert 1 == len(office.office.certificates)


def web(office, key=KEY, head=(), **more):
    return token_for("web", office, key, head, **more)


def ahead(office, seconds):
    now = int(time.time())
    return web(office, iat=now + seconds, exp=now + seconds + 3600)


def changed(office, change):
    """A good token whose three parts a function changes."""
    return change(*web(office).split("."))


def in_the_header(office):
    key = new_key("enrol", "OKP")
    return web(office, key, {"jwk": public(key)})


# A token for the office of a URL.
GOOD_TOKENS = {
    "good": web, "a jti of one letter": lambda it: web(it, jti="a"),
    "a jti of 1024": lambda it: web(it, jti=1024 * "a"),
    "fifty minutes old": lambda it: ahead(it, -3000), "clocks that differ by twenty seconds": lambda it: ahead(it, 20),
    "one audience in a list": lambda it: web(it, aud=[it]),
}
BAD_TOKENS = {
    "another audience": lambda it: web(it, aud="https://other.example"), "no audience": lambda it: web(it, aud=None),
    "two audiences": lambda it: web(it, aud=[it, "https://other.example"]),
    "another issuer": lambda it: web(it, iss=it), "no issuer": lambda it: web(it, iss=None),
    "ended": lambda it: web(it, exp=int(time.time()) - 31), "no end": lambda it: web(it, exp=None),
    "an hour and a minute old": lambda it: web(it, iat=int(time.time()) - 3660),
    "from the future": lambda it: ahead(it, 90), "no jti": lambda it: web(it, jti=None),
    "an empty jti": lambda it: web(it, jti=""), "a jti of 1025": lambda it: web(it, jti=1025 * "a"),
    "a jti that is a number": lambda it: web(it, jti=1), "no host": lambda it: web(it, sub=None),
    "no signature": lambda it: changed(it, lambda head, claims, signature: f"{head}.{claims}."),
    "algorithm none": lambda it: changed(it, lambda head, claims, signature: f"{NO_ALGORITHM}.{claims}."),
    "HS256 by the public key": lambda it: hashed_by(json.dumps(public(KEY)).encode(), claims_for("web", it), "enrol"),
    "HS256 by its 32 bytes": lambda it: hashed_by(base64.urlsafe_b64decode(KEY["x"] + "="), claims_for("web", it),
                                                  "enrol"),
    "another key of the same ID": lambda it: web(it, new_key("enrol", "OKP")),
    "another key, in the header": in_the_header, "a key of another ID": lambda it: web(it, new_key("other", "OKP")),
    "ES256": lambda it: web(it, new_key("enrol")),
    "another host's claims": lambda it: changed(it, lambda head, claims, signature: ".".join(
        [head, token_for("db", it).split(".")[1], signature])),
}
NO_ALGORITHM = encoded({"alg": "none", "kid": "enrol", "typ": "JWT"})


@pytest.mark.rows
@pytest.mark.parametrize("row", GOOD_TOKENS)
def test_tokens_that_count(registrar, office, row):
    assert 200 == registrar.post(GOOD_TOKENS[row](office.url), new_line(), "hosts")[0]


@pytest.mark.rows
@pytest.mark.parametrize("row", BAD_TOKENS)
def test_tokens_that_get_nothing(registrar, office, row):
    status, answer = registrar.post(BAD_TOKENS[row](office.url), new_line(), "hosts")
    assert (401, "BadToken", []) == (status, answer["error"], office.messages())


@pytest.mark.parametrize("name", ["root", "Web", "a/b", 41 * "a", "", "web\n", "*"])
def test_names_that_no_host_has(registrar, office, name):
    status, answer = registrar.post(token_for(name, office.url), new_line(), "hosts")
    assert (status, answer["error"]) in ((403, "BadName"), (401, "BadToken")) and [] == office.messages()


@pytest.mark.parametrize("key", [key_line(it) for it in SMALL_ORDER_KEYS], ids=range(len(SMALL_ORDER_KEYS)))
def test_a_key_of_small_order_enrols_nobody(registrar, office, key):
    status, answer = registrar.post(token_for("web", office.url), key, "hosts")
    assert (400, "BadKey", []) == (status, answer["error"], office.messages())


def test_a_person_is_no_host(registrar, provider, office):
    line = new_line()
    status, answer = registrar.post(provider.log_in(line), line, "hosts")
    assert (401, "BadToken") == (status, answer["error"])
    # Nor is a host a person.
    status, answer = registrar.post(token_for("ana", office.url), line, "people")
    assert (401, "BadToken", []) == (status, answer["error"], office.messages())


# ---- renewals

def statement_of(office, line, moment=None):
    """As docs/FORMATS.md has it."""
    digest = hashlib.sha256(base64.b64decode(line.split()[1])).hexdigest()
    return f"renewal\naudience {office}\ntime {int(time.time()) if moment is None else moment}\nkey {digest}\n"


def sign(text, key="host", namespace="renewal@vethlumi", more=()):
    """By ssh-keygen."""
    words = ["ssh-keygen", "-Y", "sign", "-f", key, "-n", namespace, *more]
    return run(words, input=text.encode(), stdin=None, check=True).stdout.decode()


def certify(key="host", ca="ca", kind="-h", key_id="hosts/web/a", names="web.example.org", valid="-1m:+1d", serial=1):
    """A certificate by ssh-keygen: it may be one that no office gives."""
    run(["ssh-keygen", "-q", "-s", ca, *([kind] if kind else []), "-I", key_id, "-n", names, "-V", valid, "-z", serial,
         f"{key}.pub"], check=True)
    return pathlib.Path(f"{key}-cert.pub").read_text().rstrip("\n")


class Asker:
    """A host that asks a registrar for a renewal, with each of the three texts as it should be or as a test likes."""

    def __init__(self, registrar, office):
        self.registrar, self.office = registrar, office
        self.line = " ".join(new_pair("host").split()[:2])

    def enrol(self):
        status, answer = self.registrar.post(token_for("web", self.office.url), self.line, "hosts")
        assert 200 == status
        self.certificate = answer["certificate"]
        return answer["serial"]

    def asked(self, **given):
        text = given.get("statement") or statement_of(self.office.url, self.line, given.get("moment"))
        return {"certificate": given.get("certificate") or self.certificate, "statement": text,
                "signature": given.get("signature") or sign(text)}

    def ask(self, **given):
        """The status and the object that come."""
        return self.registrar.ask("POST", "/v1/renewal", json=self.asked(**given))


@pytest.fixture
def asker(registrar, office):
    made = Asker(registrar, office)
    made.enrol()
    return made


def test_a_renewal_is_the_office_s_own(asker, office, room):
    moment = int(time.time()) - 3
    status, answer = asker.ask(moment=moment)
    assert (200, 2) == (status, answer["serial"])
    assert f"renew 1\nafter {moment - 60}\nbefore {moment + LIFE}\n" == office.messages()[-1][1]
    for name, text in (("old", asker.certificate), ("new", answer["certificate"])):
        (room / name).write_text(f"{text}\n")
    old, new = (run(["ssh-keygen", "-L", "-f", it], check=True).stdout.decode() for it in ("old", "new"))
    for it in ("Type:", "Public key:", "Key ID:", "Signing CA:", "web.example.org"):
        [before], [after] = ([line for line in text.splitlines() if it in line] for text in (old, new))
        assert before == after
    assert "host certificate" in new and fingerprint("host.pub") in new


def test_a_renewal_that_is_sent_again_is_the_same(make_registrar, asker, office):
    moment = int(time.time()) - 3
    asked = asker.asked(moment=moment)
    first = asker.registrar.ask("POST", "/v1/renewal", json=asked)
    assert 200 == first[0]
    with concurrent.futures.ThreadPoolExecutor(10) as pool:
        assert [first] * 10 == [*pool.map(lambda _: asker.registrar.ask("POST", "/v1/renewal", json=asked), range(10))]
    # Another process knows nothing of it, and SHA-256 or a comment makes no other message.
    asker.registrar = make_registrar()
    assert first == asker.ask(**asked) == asker.ask(moment=moment, certificate=f"{asker.certificate} web")
    assert first == asker.ask(moment=moment, signature=sign(asked["statement"], more=["-O", "hashalg=sha256"]))
    assert 2 == len(office.office.certificates)
    assert 3 == asker.ask(moment=moment + 1)[1]["serial"]


def test_a_statement_gives_one_certificate(make_registrar, asker, office):
    """Whichever certificate of its key comes with it: the one that it has just given, or another one of the host's."""
    moment = int(time.time()) - 3
    asked = asker.asked(moment=moment)
    first = asker.ask(**asked)
    text = (f"issue hosts\nkeyid hosts/web\nkey {asker.line}\nprincipals web.example.org\n"
            f"after {moment - 60}\nbefore {moment + 600}\nextensions\n")
    assert "issued 3" in office.office.settle("host-web", "b", text.encode(), moment, bytes(32))
    office.sign()
    others = [first[1]["certificate"], office.office.certificate(3, False)[0].rstrip("\n")]
    by_sha256 = sign(asked["statement"], more=["-O", "hashalg=sha256"])
    for registrar in (asker.registrar, make_registrar()):
        asker.registrar = registrar
        for how in [{"certificate": it} for it in others] + [{"certificate": others[0], "signature": by_sha256}]:
            status, answer = asker.ask(**asked | how)
            assert (409, "KeyReused", True) == (status, answer["error"], "this statement has given" in answer["detail"])
        # Whoever has lost the answer sends the same again, also after that.
        assert first == asker.ask(**asked)
    assert 3 == len(office.office.certificates)
    # The next statement counts, with each of them.
    for number, it in enumerate(others):
        status, answer = asker.ask(certificate=it, moment=moment + 1 + number)
        assert (200, 4 + number) == (status, answer["serial"])


def test_the_request_id_is_that_of_the_statement(asker, office):
    """By sha256sum, over both parts after their lengths in eight bytes."""
    asked = asker.asked()
    asker.ask(**asked)
    parts = b"vethlumi renewal", asked["statement"].encode()
    by_parts = hashlib.sha256(b"".join(len(it).to_bytes(8, "big") + it for it in parts)).hexdigest()[:32]
    assert by_parts == office.messages()[-1][0]


def test_what_was_revoked_renews_nothing(asker, office):
    """The office says so at once: nobody waits for a list."""
    now = int(time.time())
    serial = asker.ask(moment=now)[1]["serial"]
    office.office.settle("root", "one", b"revoke-serial 1\n", now, b"")
    status, answer = asker.ask(moment=now - 5)
    assert (403, "Revoked") == (status, answer["error"])
    # Who has the key has the host's other certificate as well, until the key ID is revoked.
    again = Asker.ask(asker, moment=now - 6, certificate=asker.registrar.ask(
        "GET", f"/v1/certificates/{serial}")[1].rstrip("\n"))
    assert (200, serial + 1) == (again[0], again[1]["serial"])
    key_id = asker.certificate.split()[2]
    office.office.settle("root", "all", f"revoke-keyid {key_id}\n".encode(), now, b"")
    for ago, it in ((7, asker.certificate), (8, again[1]["certificate"])):
        status, answer = asker.ask(certificate=it, moment=now - ago)
        assert (403, True) == (status, answer["error"] in ("KeyIdRevoked", "Revoked"))
    status, answer = asker.registrar.post(token_for("web", office.url), new_line(), "hosts")
    assert (403, "KeyIdRevoked") == (status, answer["error"])
    assert serial + 1 == len(office.office.certificates)


def other(asker, key="other"):
    new_pair(key)
    return key


def of_other_ca(it):
    return {"certificate": certify(ca=other(it))}


def of_other_key(it):
    text = statement_of(it.office.url, it.line)
    return {"statement": text, "signature": sign(text, other(it))}


def for_other_key(it):
    return {"statement": statement_of(it.office.url, new_line())}


def with_other_certificate(it):
    """A certificate of another host, which everybody may have seen."""
    return {"certificate": certify(other(it))}


def over_another_statement(it):
    return {"statement": statement_of(it.office.url, it.line),
            "signature": sign(statement_of(it.office.url, it.line, 7))}


def in_another_namespace(it):
    text = statement_of(it.office.url, it.line)
    return {"statement": text, "signature": sign(text, namespace="krl@vethlumi")}


def of_a_kind(kind, *words):
    def make(it):
        run(["ssh-keygen", "-q", "-t", kind, *words, "-N", "", "-f", "kind"], check=True)
        return {"certificate": certify("kind"), "signature": sign(statement_of(it.office.url, it.line), "kind")}
    return make


def signed_again(it):
    """With the bits of the certificate's own signature changed."""
    name, blob, *_ = it.certificate.split()
    data = base64.b64decode(blob)
    return {"certificate": f"{name} {base64.b64encode(data[:-1] + bytes([data[-1] ^ 1])).decode()}"}


def longer(it):
    name, blob, *_ = it.certificate.split()
    return {"certificate": f"{name} {base64.b64encode(base64.b64decode(blob) + bytes(4)).decode()}"}


def small_order(it):
    pathlib.Path("small.pub").write_text(key_line(SMALL_ORDER_KEYS[0]) + "\n")
    return {"certificate": certify("small")}


def stated(form, *values):
    return lambda it: {"statement": form.format(*values, url=it.office.url, digest=hashlib.sha256(
        base64.b64decode(it.line.split()[1])).hexdigest(), now=int(time.time()))}


STATED = "renewal\naudience {url}\ntime {now}\nkey {digest}\n"
# What is refused, as what, and a part of why. None of it comes to the office.
BAD_RENEWALS = {
    "of another CA": (of_other_ca, "BadCertificate", "its CA isn't one of the office's"),
    "of a user": (lambda it: {"certificate": certify(kind="", key_id="hosts/web")}, "BadCertificate",
                  "isn't for a host"),
    "a person's": (lambda it: {"certificate": certify(kind="", key_id="people/ana/a", names="ana")}, "BadCertificate",
                   "isn't for a host"),
    "ended": (lambda it: {"certificate": certify(valid="-2d:-1d")}, "BadCertificate", "it is valid from"),
    "not yet valid": (lambda it: {"certificate": certify(valid="+1d:+2d")}, "BadCertificate", "it is valid from"),
    "a changed certificate": (signed_again, "BadCertificate", "the signature is false"),
    "a longer certificate": (longer, "BadCertificate", "after the signature"),
    "no certificate": (lambda it: {"certificate": it.line}, "BadCertificate", "the file has no certificate"),
    "a damaged one": (lambda it: {"certificate": it.certificate[:200]}, "BadCertificate", "isn't accepted"),
    "for a key of small order": (small_order, "BadCertificate", "small order"),
    "for a key of RSA": (of_a_kind("rsa", "-b", "2048"), "BadCertificate", "isn't for a plain Ed25519 key"),
    "for a key of ECDSA": (of_a_kind("ecdsa"), "BadCertificate", "isn't for a plain Ed25519 key"),
    "another host's certificate": (with_other_certificate, "BadStatement", "its key isn't the certificate's"),
    "signed by another key": (of_other_key, "BadStatement", "another key has signed it"),
    "for another key": (for_other_key, "BadStatement", "its key isn't the certificate's"),
    "signed in another namespace": (in_another_namespace, "BadStatement", "a different namespace"),
    "signed over another statement": (over_another_statement, "BadStatement", "the signature is false"),
    "for another office": (stated(STATED.replace("{url}", "https://other.example")), "BadStatement",
                         "different office"),
    "for an office with more": (stated(STATED.replace("{url}", "{url}/")), "BadStatement", "different office"),
    "of a minute and five seconds ago": (lambda it: {"moment": int(time.time()) - 65}, "BadStatement", "clocks"),
    "of the future": (lambda it: {"moment": int(time.time()) + 65}, "BadStatement", "clocks"),
    "of no time": (stated(STATED.replace("time {now}\n", "")), "BadStatement", "not a renewal statement"),
    "of a time below zero": (stated(STATED.replace("{now}", "-{now}")), "BadStatement", "not a renewal statement"),
    "of a time with zeros": (stated(STATED.replace("{now}", "0{now}")), "BadStatement", "not a renewal statement"),
    "of another form": (stated("Renewal" + STATED[7:]), "BadStatement", "not a renewal statement"),
    "with a line more": (stated(STATED + "more\n"), "BadStatement", "not a renewal statement"),
    "without its end": (stated(STATED[:-1]), "BadStatement", "not a renewal statement"),
    "with CR": (stated(STATED.replace("\n", "\r\n")), "BadStatement", "not a renewal statement"),
    "in another script": (stated(STATED.replace("{now}", "\u0661{now}")), "BadStatement", "not a renewal statement"),
    "no signature": (lambda it: {"signature": "none"}, "BadStatement", "no armored signature"),
    "a cut signature": (lambda it: {"signature": armored(sign("a"), lambda data: data[:-9])}, "BadStatement",
                        "truncated"),
    "a longer signature": (lambda it: {"signature": armored(sign("a"), lambda data: data + b"a")}, "BadStatement",
                           "after the signature"),
    "a signature of another version": (
        lambda it: {"signature": armored(sign("a"), lambda data: data[:6] + bytes([0, 0, 0, 2]) + data[10:])},
        "BadStatement", "unsupported signature version"),
}


def armored(text, change):
    """A signature whose bytes a function changes."""
    lines = text.splitlines()
    data = change(base64.b64decode("".join(lines[1:-1])))
    return "\n".join([lines[0], base64.b64encode(data).decode()[:70], *[
        it for it in [base64.b64encode(data).decode()[at:at + 70] for at in range(70, 4096, 70)] if it], lines[-1], ""])


@pytest.mark.rows
@pytest.mark.parametrize("row", BAD_RENEWALS)
def test_renewals_that_get_nothing(asker, office, row):
    make, name, why = BAD_RENEWALS[row]
    status, answer = asker.ask(**make(asker))
    assert (401, name, True) == (status, answer["error"], why in answer["detail"]), answer
    assert 1 == len(office.messages())


@pytest.mark.parametrize("given, name", [
    ({"key_id": "fixed/web/a"}, "NoRenewal"), ({"key_id": "none/web/a"}, "NoRenewal"),
    ({"key_id": "hosts"}, "OtherPrincipals"), ({"names": "db.example.org"}, "OtherPrincipals"),
    ({"key_id": "hosts/db/a"}, "OtherPrincipals"), ({"names": "web.example.org,db.example.org"}, "OtherPrincipals"),
    ({"names": "web"}, "OtherPrincipals"),
])
def test_certificates_that_the_settings_do_not_renew(asker, office, given, name):
    """Whatever the office would say."""
    status, answer = asker.ask(certificate=certify(**given))
    assert (403, name, 1) == (status, answer["error"], len(office.messages())), answer


def test_a_certificate_of_before_is_renewed_too(asker, office):
    """One that the host got by its bundle, under the key ID `hosts/web`."""
    text = (f"issue hosts\nkeyid hosts/web\nkey {asker.line}\nprincipals web.example.org\n"
            f"after {int(time.time()) - 60}\nbefore {int(time.time()) + 60}\nextensions\n")
    assert "issued 2" in office.office.settle("host-web", "b", text.encode(), int(time.time()), bytes(32))
    office.sign()
    line = office.office.certificate(2, False)[0]
    assert (200, 3) == (lambda status, answer: (status, answer["serial"]))(*asker.ask(certificate=line.rstrip("\n")))


def test_a_ca_of_before_a_rollover_counts(asker, office, room):
    """The new certificate is of the new one. A registrar that knows the CAs already asks the office for a new one."""
    new_pair("second")
    line = " ".join((room / "second.pub").read_text().split()[:2])
    office.office.settle("root", "roll", f"rollover {line}\n".encode(), int(time.time()), b"")
    office.key = load_ssh_private_key((room / "second").read_bytes(), None)
    status, answer = asker.ask()
    assert (200, 2) == (status, answer["serial"])
    (room / "new").write_text(answer["certificate"] + "\n")
    assert fingerprint("second.pub") in run(["ssh-keygen", "-L", "-f", "new"]).stdout.decode()
    assert (200, 3) == (lambda status, answer: (status, answer["serial"]))(*asker.ask(
        certificate=answer["certificate"], moment=int(time.time()) - 5))


@pytest.mark.parametrize("ago, is_good", [(60, True), (61, False), (-60, True), (-61, False), (0, True)])
def test_a_statement_is_one_for_a_minute(room, ago, is_good):
    line, now = " ".join(new_pair("host").split()[:2]), 1_800_000_000
    text = statement_of("https://o.example", line, now - ago)
    with contextlib.nullcontext() if is_good else pytest.raises(BadFormat, match="compare the clocks"):
        renewals.statement_of(text, sign(text), base64.b64decode(line.split()[1]), "https://o.example", now)


@pytest.mark.parametrize("at, is_good", [(-1, False), (0, True), (59, True), (60, False)])
def test_a_certificate_counts_while_it_is_valid(room, at, is_good):
    new_pair("host")
    new_pair("ca")
    line = certify(valid="20270115080000:20270115080100")
    # By date: 2027-01-15 08:00:00 UTC.
    why = "it is valid from 2027-01-15T08:00:00Z"
    with contextlib.nullcontext() if is_good else pytest.raises(BadFormat, match=why):
        renewals.certificate_of(line, 1_800_000_000 + at)


def test_each_host_has_its_own_limit(make_registrar, office):
    registrar = make_registrar(change=lambda text: text + "\n[limits]\ncertificates = 2\n")
    asker = Asker(registrar, office)
    asker.enrol()
    now = int(time.time())
    assert [200, 200, 429, 200] == [asker.ask(moment=now - it)[0] for it in (1, 2, 3, 1)]
    new_pair("db")
    line = " ".join(pathlib.Path("db.pub").read_text().split()[:2])
    certificate = registrar.post(token_for("db", office.url), line, "hosts")[1]["certificate"]
    text = statement_of(office.url, line)
    assert 200 == asker.ask(certificate=certificate, statement=text, signature=sign(text, "db"))[0]


def test_each_renewal_is_a_line_of_the_trail(asker, office):
    asker.ask(moment=7)
    asker.ask()
    key_id = asker.certificate.split()[2]
    enrolled, refused, renewed = asker.registrar.lines(3)
    assert ("sign-on", "accepted", 1) == (enrolled["event"], enrolled["outcome"], enrolled["serial"])
    assert ("renewal", "refused", "BadStatement", 401) == tuple(
        refused[it] for it in ("event", "outcome", "reason", "status"))
    wanted = {"source": "registrar", "event": "renewal", "outcome": "accepted", "department": "hosts", "keyid": key_id,
              "principals": ["web.example.org"], "of": 1, "serial": 2, "request": office.messages()[-1][0],
              "key": fingerprint("host.pub"), "path": "/v1/renewal", "method": "POST", "status": 200}
    assert wanted == {it: renewed[it] for it in wanted}
    for it in (enrolled, refused, renewed):
        assert it == record_of(json.dumps(it))


def test_the_journal_has_no_text_of_a_certificate_that_anybody_made(asker):
    asker.ask(certificate=certify(key_id="forged/web", ca=other(asker)))
    assert "forged" not in asker.registrar.journal.read_text()


@pytest.mark.parametrize("body, status, name", [
    ("", 400, "BadRequest"), ("[]", 400, "BadRequest"), ('{"certificate": "a", "statement": "b"}', 400, "BadRequest"),
    ('{"certificate": "a", "statement": "b", "signature": 1}', 400, "BadRequest"),
    ('{"department": "hosts", "token": "b", "public_key": "c"}', 400, "BadRequest"),
    ('{"certificate": "a", "statement": "b", "signature": "c", "more": "d"}', 400, "BadRequest"),
    ('{"certificate": "\\ud800", "statement": "b", "signature": "c"}', 401, "BadCertificate"),
    ('{"certificate": "a", "statement": "b", "signature": "c"}', 401, "BadCertificate"),
    (16385 * " ", 413, "TooLong"),
])
def test_what_is_no_renewal_is_refused(registrar, body, status, name):
    found, answer = registrar.ask("POST", "/v1/renewal", data=body)
    assert (status, name) == (found, answer["error"])


def test_a_renewal_is_sent_and_nothing_else(registrar):
    assert [405, 405, 404, 404] == [registrar.ask(*it)[0] for it in (
        ("GET", "/v1/renewal"), ("PUT", "/v1/renewal"), ("POST", "/v1/renewal?x"), ("POST", "/v1/renewal/"))]


def test_an_office_that_is_away_is_told(asker, office):
    office.answer = b"HTTP/1.1 503 Service Unavailable\r\ncontent-length: 0\r\n\r\n"
    status, answer = asker.ask()
    assert (503, "NoOffice") == (status, answer["error"])
    office.answer = b"HTTP/1.1 200 OK\r\ncontent-length: 5\r\n\r\nnone\n"
    assert 502 == asker.ask()[0] or 503 == asker.ask()[0]


# ---- what comes back to a host

class Giving(Answering):
    """A registrar that answers each renewal with the same line."""

    def answer_to(self, method, path, query, body):
        assert ("POST", "/v1/renewal") == (method, path)
        self.sent = json.loads(body)
        return as_json({"serial": 2, "certificate": self.line})


@pytest.fixture
def giving(room):
    for it in ("ca", "second", "host", "other"):
        new_pair(it)
    (room / "old.pub").write_text(certify() + "\n")
    (room / "statement").write_text("a\n")
    (room / "statement.sig").write_text("b\n")
    with Giving() as made:
        (room / "host.toml").write_text(f'registrar = "{made.url}"\ncas = "{room}/ca.pub"\n')
        yield made


def renewed(*words):
    return vethlumi("--config", "host.toml", "--wait", "5", "renew-host", "old.pub", "--statement", "statement", *words)


def test_a_renewal_is_put_in_the_place_of_the_certificate(giving, room):
    old, giving.line = (room / "old.pub").read_text(), certify(serial=2, valid="-1m:+2d")
    assert (0, "new.pub serial 2\n", "") == renewed("--out", "new.pub")
    assert {"certificate": old.strip(), "statement": "a\n", "signature": "b\n"} == giving.sent
    assert (giving.line + "\n", old) == ((room / "new.pub").read_text(), (room / "old.pub").read_text())
    assert (0, "old.pub serial 2\n", "") == renewed() and giving.line + "\n" == (room / "old.pub").read_text()


def test_a_renewal_whose_answer_was_lost_is_typed_again(asker, room):
    """With the same files it is the same certificate. With what it gave, the statement gives nothing more."""
    asked = asker.asked()
    for name, text in (("old.pub", f"{asked['certificate']}\n"), ("statement", asked["statement"]),
                       ("statement.sig", asked["signature"]),
                       ("host.toml", f'registrar = "{asker.registrar.url}"\ncas = "{room}/ca.pub"\n')):
        (room / name).write_text(text)
    assert [(0, "new.pub serial 2\n", "")] * 2 == [renewed("--out", "new.pub") for _ in range(2)]
    new = (room / "new.pub").read_text()
    (room / "old.pub").write_text(new)
    status, out, errors = renewed("--out", "new.pub")
    assert (1, "", new) == (status, out, (room / "new.pub").read_text())
    assert "KeyReused: this statement has given a certificate already" in errors


@pytest.mark.parametrize("more, why", [
    ({"key": "other"}, "it is for a different key"), ({"serial": 3}, "has a different serial"),
    ({"ca": "second"}, "isn't trusted here"),
    ({"key_id": "others/web/a"}, "to a different department"), ({"valid": "-2d:-1d"}, "it is valid from"),
    ({"key_id": "hosts/db/a"}, "that isn't a renewal"), ({"kind": ""}, "that isn't a renewal"),
    ({"names": "web.example.org,db.example.org"}, "that isn't a renewal"),
])
def test_what_is_no_renewal_is_not_taken(giving, room, more, why):
    old, giving.line = (room / "old.pub").read_bytes(), certify(**{"serial": 2} | more)
    status, out, errors = renewed()
    assert (3, "", True, old) == (status, out, why in errors, (room / "old.pub").read_bytes()), errors


# ---- which CAs the office has

class Answers:
    """An office that is asked for its CAs."""

    def __init__(self):
        self.found, self.count, self.now = {"a"}, 0, 1000.0

    def cas(self):
        self.count += 1
        if self.found is None:
            raise NoOffice("away")
        return self.found


def test_the_office_is_asked_for_its_cas_now_and_then():
    office = Answers()
    made = Cas(office, lambda: office.now)
    assert made.has("a") and not made.has("b") and not made.has("c") and 1 == office.count
    office.found = {"a", "b"}
    office.now += BETWEEN
    assert made.has("b") and 2 == office.count
    office.found = {"b"}
    office.now += FRESH - 1
    assert made.has("a") and 2 == office.count
    office.now += 1
    assert not made.has("a") and made.has("b") and 3 == office.count


def test_few_wait_while_the_office_is_slow_to_say_its_cas():
    """Each has one of the threads that logins need."""
    begun, ends = threading.Semaphore(0), threading.Event()

    class Slow:
        def cas(self):
            begun.release()
            ends.wait(60)
            return {"a"}

    cas = Cas(Slow())
    with concurrent.futures.ThreadPoolExecutor(MOST_WAITING) as some:
        found = [some.submit(cas.has, "a") for _ in range(MOST_WAITING)]
        begun.acquire()
        until(lambda: not cas.places._value)
        with pytest.raises(NoOffice):
            cas.has("a")
        ends.set()
        assert all(it.result() for it in found)
    assert cas.has("a")


def test_an_office_that_is_away_is_not_asked_by_everybody():
    office = Answers()
    office.found = None
    made = Cas(office, lambda: office.now)
    for _ in range(3):
        with pytest.raises(NoOffice):
            made.has("a")
    assert 1 == office.count
    office.found, office.now = {"a"}, office.now + BETWEEN
    assert made.has("a") and 2 == office.count
    # What it said before counts while it is away.
    office.found, office.now = None, office.now + 2 * FRESH
    assert made.has("a") and not made.has("b") and 3 == office.count
