"""What a login becomes: a message to the office, by the token, the key and the settings alone.

Message and request ID are functions of these. So a login that is sent again, also to another process after a crash, is
the same message, and the office gives the same serial. Nothing is kept on disk, and the limits are counted in memory.
"""
import base64
import contextlib
import hashlib
import threading
import time

from vethlumi import formats
from vethlumi.formats import BadFormat
from vethlumi.refusals import Refused
from vethlumi_common.signon import evidence_name
from vethlumi_common.subjects import ed25519_line
from vethlumi_signon import tokens
from vethlumi_signon.keys import Keys, NoProvider
from vethlumi_signon.rights import BEFORE_TOKEN, NoRight, groups_of, key_id_of, name_of, principals_of, times_of
from vethlumi_signon.settings import fixed_of
from vethlumi_signon.tokens import BadToken

from vethlumi_registrar.lines import Busy, Lines
from vethlumi_registrar.office import BadOffice, Cas, NoOffice, Office

HOUR = 3600
# How many people are counted. Beyond, those who asked longest ago are forgotten.
MOST_PEOPLE = 20000
# How many pieces of evidence the front gets of a person within an hour, whatever becomes of the logins: so many times
# the new certificates.
PIECES = 3
# For how many seconds after its login anybody who knows a serial gets the certificate.
OPEN = 900
# Why the office may have another message under a request ID: by a token that is bound to no key, and by one that is.
USED_UP = "this token has a certificate already, for another key or department"
CHANGED = "groups, name or settings have changed since this login: log in again"


class Refusal(Exception):
    """Why a login isn't answered as it asks: a status, a name and a sentence for who asks, and why for the journal."""

    def __init__(self, status, name, detail, why="", pause=0):
        super().__init__(detail)
        self.status, self.name, self.detail, self.why, self.pause = status, name, detail, why or detail, pause


def hashed(*parts):
    """SHA-256 of texts and bytes, each after its length, so that no two lists have one hash."""
    made = hashlib.sha256()
    for it in parts:
        data = it if isinstance(it, bytes) else str(it).encode()
        made.update(len(data).to_bytes(8) + data)
    return made.digest()


def request_of(department, claims, blob):
    """The request ID. A token that isn't bound to a key has one alone, so the office refuses it with a second key."""
    if department.issuer.audience:
        return hashed("vethlumi token", claims["iss"], claims["jti"]).hex()[:32]
    parts = (department.name, claims["iss"], claims["sub"], int(claims["iat"]), blob)
    return hashed("vethlumi login", *parts).hex()[:32]


def message_of(department, claims, key, name, principals):
    """The key ID and the message."""
    key_id, (after, before) = key_id_of(department, claims, name), times_of(department, claims)
    return key_id, formats.issue(department.name, key_id, key, principals, after, before, department.options,
                                 department.extensions)


class Counts:
    """How often somebody asked within an hour: for new certificates, and in all."""

    def __init__(self, certificates, requests, clock=time.monotonic):
        self.certificates, self.requests, self.clock = certificates, requests, clock
        self.lock, self.asked = threading.Lock(), {}

    def count(self, person, request):
        with self.lock:
            now = self.clock()
            before = [it for it in self.asked.pop(person, []) if it[0] > now - HOUR]
            if len(self.asked) >= MOST_PEOPLE:
                del self.asked[next(iter(self.asked))]
            self.asked[person] = before
            new = {it[1] for it in before}
            if len(before) >= self.requests or (request not in new and len(new) >= self.certificates):
                raise Refusal(429, "TooMany", "too many logins within an hour: wait until some of them are older",
                              f"{len(new)} certificates, {len(before)} requests", 60)
            before.append((now, request))

    def take_back(self, person, request):
        """What the office hasn't answered doesn't count: who comes again meanwhile isn't kept out afterwards."""
        with self.lock:
            asked = self.asked.get(person, [])
            at = next((number for number in reversed(range(len(asked))) if asked[number][1] == request), None)
            if at is not None:
                del asked[at]


class Evidence:
    """Which token the front was last given under a name, so that whoever asks again and again doesn't use up what it
    takes."""

    def __init__(self, clock=time.monotonic):
        self.clock, self.lock, self.given = clock, threading.Lock(), {}

    def is_new(self, token, name):
        with self.lock:
            given, at = self.given.get(name, (None, 0))
            return given != hashed(token) or self.clock() > at + HOUR

    def note(self, token, name):
        with self.lock:
            self.given.pop(name, None)
            if len(self.given) >= MOST_PEOPLE:
                del self.given[next(iter(self.given))]
            self.given[name] = hashed(token), self.clock()


class Registrar:
    def __init__(self, settings, clock=time.time):
        self.settings, self.clock, self.fixed = settings, clock, fixed_of(settings.departments)
        self.office = Office(settings)
        self.cas = Cas(self.office)
        issuers = {id(it.issuer): it.issuer for it in settings.departments.values()}
        self.keys = {key: Keys(it.url, it.algorithms, it.keys_url, it.trusted or None, it.proxy or None)
                     for key, it in issuers.items()}
        self.counts, self.evidence = Counts(settings.certificates, settings.requests), Evidence()
        self.pieces = Counts(PIECES * settings.certificates, PIECES * settings.certificates)
        self.lines = Lines(self.office.line, self.suits)

    def suits(self, fields):
        """Whether a certificate is one of a login a moment ago, so that whoever asks may have it."""
        department = self.settings.departments.get(fields.key_id.partition("/")[0])
        return department is not None and fields.after + BEFORE_TOKEN + department.issuer.oldest + OPEN > self.clock()

    def login(self, department, token, public_key, record):
        """The serial, and the line or None. `record` gets what the journal says of it."""
        one = self.settings.departments.get(department)
        if not one:
            raise Refusal(400, "NoDepartment", "the registrar has no such department")
        key, blob = key_of(public_key)
        record |= {"department": department, "key": formats.fingerprint(blob)}
        claims = self.verified(token, one, blob)
        record |= {"issuer": claims["iss"], "subject": claims["sub"], "issued": int(claims["iat"])}
        message = self.message(one, claims, key, record)
        record["request"] = request_of(one, claims, blob)
        evidence = evidence_name(record["keyid"], blob, times_of(one, claims)[0])

        def ask():
            if one.is_witnessed:
                self.show(token, evidence, person, record["request"])
            return self.issued(record["request"], message, USED_UP if one.issuer.audience else CHANGED)
        person = claims["iss"], claims["sub"]
        return self.served(person, record, ask)

    def served(self, person, record, ask):
        """The serial that `ask` gives to somebody within the limits, and the line or None. `record` has the request ID,
        and gets what the journal says of the serial."""
        self.counts.count(person, record["request"])
        begun = time.monotonic()
        try:
            serial = record["serial"] = ask()
        except Refusal as refusal:
            if refusal.status == 503:
                self.counts.take_back(person, record["request"])
            raise
        record["ms_office"] = round(1000 * (time.monotonic() - begun), 1)
        self.lines.expect(serial)
        return serial, self.lines.wait(serial, self.settings.wait)

    def message(self, department, claims, key, record):
        """The message that asks for what the claims give, as the journal has it."""
        try:
            name = record["name"] = name_of(department, claims)
            groups = groups_of(department, claims)
            record["groups"] = [*dict.fromkeys(
                it for it in groups if it in department.groups or it in department.need)]
            principals = record["principals"] = principals_of(department, name, groups, self.fixed)
        except NoRight as fault:
            raise Refusal(403, fault.name, fault.detail, fault.why) from None
        record["keyid"], made = message_of(department, claims, key, name, principals)
        return made

    def show(self, token, name, person, request):
        """Gives the front the token as evidence for the witness beside the station's guard, before the issue. Who asks
        again with the same token has shown it. With several tokens in turn each is shown again, so there is a limit."""
        if not self.evidence.is_new(token, name):
            return
        self.pieces.count(person, request)
        try:
            self.office.put_evidence(token, name)
        except NoOffice as fault:
            self.pieces.take_back(person, request)
            raise Refusal(503, "NoOffice", "no answer came from the office: send the same again", f"evidence: {fault}",
                          fault.pause) from None
        except Refused as refused:
            raise Refusal(502, "NoEvidence", "the front doesn't take the evidence of this login",
                          f"evidence: {refused}") from None
        self.evidence.note(token, name)

    def verified(self, token, department, blob):
        try:
            return tokens.verify(token, department.issuer, self.keys[id(department.issuer)], blob, self.clock())
        except BadToken as fault:
            # Which check failed is for the journal alone.
            raise Refusal(401, "BadToken", "the token isn't valid for this key: log in again",
                          f"token: {fault}") from None
        except NoProvider as fault:
            raise Refusal(503, "NoProvider", "the provider's keys can't be fetched now: send the same again",
                          f"provider: {fault}", 2) from None

    def issued(self, request, message, why_used):
        """The serial that the office has given. `why_used` says why it may have another message of this request ID."""
        try:
            with answers_of_office():
                return self.office.issue(request, message)
        except Refused as refused:
            raise refusal_of_office(refused, why_used) from None

    def certificate(self, serial, address):
        """The line of a certificate for somebody at an address, or None while there is none, or none to give."""
        try:
            with answers_of_office():
                return self.lines.line(serial, address)
        except Busy:
            raise Refusal(429, "TooMany", "too many ask: send the same again", pause=1) from None

    def public(self):
        """What a client may know of the settings."""
        return {"departments": {name: {
            "issuer": it.issuer.url, "client_id": it.issuer.client or None, "scopes": [*it.issuer.scopes],
            "life": it.life, "bound": "nonce" if it.issuer.client else "token" if it.issuer.audience else "audience",
            "audience": it.issuer.audience or None} for name, it in self.settings.departments.items()}}


@contextlib.contextmanager
def answers_of_office():
    """Refuses whoever asks, if no answer comes from the office, or none that an office gives."""
    try:
        yield
    except NoOffice as fault:
        raise Refusal(503, "NoOffice", "no answer came from the office: send the same again", str(fault),
                      fault.pause) from None
    except BadOffice as fault:
        raise Refusal(502, "BadOffice", "unexpected answer from the office", str(fault)) from None


def key_of(text):
    """A public key's line without its comment, and its blob."""
    try:
        words = ed25519_line(text).split(" ")
        if "\n" in text:
            raise BadFormat("a public key is one line")
    except BadFormat as fault:
        raise Refusal(400, "BadKey", f"no public key that the office takes: {fault}"[:300]) from None
    return " ".join(words[:2]), base64.b64decode(words[1])


def refusal_of_office(refused, why_used):
    """What a refusal of the office says to who asks."""
    if refused.name == "KeyReused":
        return Refusal(409, "KeyReused", why_used)
    if refused.name == "Revoked":
        return Refusal(403, "Revoked", "this certificate was revoked, so nothing is renewed by it")
    if refused.name == "KeyIdRevoked":
        return Refusal(403, "KeyIdRevoked", "the certificates of this account were revoked for good")
    said = f"refused {refused.number} {refused.name}" if refused.number else str(refused)
    return Refusal(403, "Refused", f"the office: {said}"[:300])
