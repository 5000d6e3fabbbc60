"""Renewals of hosts: who has a certificate of this office that is valid, and signs a statement with its key, gets it
again for a new time.

The message is a `renew` of the office, which takes key, key ID and principals from its own record of the serial, and
refuses what was revoked. As with a login, message and request ID are functions of what came. The request ID is one of
the statement alone, so the office takes one message for it: each statement gives one certificate.
"""
import base64
import hashlib

from vethlumi import formats, keys
from vethlumi.formats import BadFormat, Certificate
from vethlumi.refusals import Refused
from vethlumi_common.renewal import LONGEST_AGE, NAMESPACE, Statement
from vethlumi_common.ssh import TextSignature, fingerprint, signed_bytes, string
from vethlumi_common.subjects import refuse_weak
from vethlumi_signon.rights import BEFORE_TOKEN, NoRight, principals_of

from vethlumi_registrar.logins import Refusal, answers_of_office, hashed

CA = string(b"ssh-ed25519")
# What is said if the office has another message under the request ID.
USED = "this statement has given a certificate already, by another one or by other settings: sign a new statement"


def certificate_of(line, now):
    """The fields of a host's certificate that is valid now, by the CA that it names."""
    found = Certificate.of_line(line)
    body, signature = formats.signed_parts(base64.b64decode(line.split()[1]))
    if found.kind != "host":
        raise BadFormat("it isn't for a host")
    if not found.key:
        raise BadFormat("it isn't for a plain Ed25519 key")
    refuse_weak(found.blob)
    if not found.ca.startswith(CA):
        raise BadFormat("its CA has no Ed25519 key")
    keys.verify(found.ca[-32:], signature, body)
    if not found.after <= now < found.before:
        raise BadFormat(f"it is valid from {formats.date(found.after)} to {formats.date(found.before)}")
    return found


def statement_of(text, armored, blob, audience, now):
    """A statement that the key of this blob has signed, for this audience and a moment ago."""
    found, signature = Statement.of(text), TextSignature.of(armored)
    if found.audience != audience:
        raise BadFormat("it is for a different office")
    if abs(found.moment - now) > LONGEST_AGE:
        raise BadFormat(f"its time is more than {LONGEST_AGE} seconds from that of the registrar: compare the clocks")
    if found.key != hashlib.sha256(blob).hexdigest():
        raise BadFormat("its key isn't the certificate's")
    if signature.key != blob:
        raise BadFormat("another key has signed it")
    if signature.namespace != NAMESPACE.encode():
        raise BadFormat("its signature has a different namespace")
    keys.verify(blob[-32:], signature.raw, signed_bytes(signature.namespace, signature.algorithm, text.encode()))
    return found


def read(name, make, *values):
    """What a function makes of what came, which is refused by this name if it is none."""
    try:
        return make(*values)
    except BadFormat as fault:
        what = "statement" if name == "BadStatement" else "certificate"
        raise Refusal(401, name, f"the {what} isn't accepted: {fault}"[:300]) from None


def department_of(settings, found):
    """The department of a certificate, whose hosts renew by their keys, and get what this one has."""
    department = settings.departments.get(found.key_id.partition("/")[0])
    if not department or not department.renews:
        raise Refusal(403, "NoRenewal", "hosts of this department don't renew their certificates by their own keys")
    try:
        due = principals_of(department, formats.name_of(found.key_id), [], ())
    except NoRight as fault:
        raise Refusal(403, fault.name, fault.detail, fault.why) from None
    if [*found.principals] != due:
        raise Refusal(403, "OtherPrincipals", "the settings give other principals to a host of this name: enrol it "
                                              "again")
    return department


def renew(registrar, certificate, statement, signature, record):
    """The serial and the line, or None, of a certificate that is renewed. `record` gets what the journal says of it."""
    now = int(registrar.clock())
    found = read("BadCertificate", certificate_of, certificate, now)
    record["key"] = fingerprint(found.blob)
    stated = read("BadStatement", statement_of, statement, signature, found.blob, registrar.settings.office, now)
    with answers_of_office():
        if not is_of_office(registrar, found):
            raise Refusal(401, "BadCertificate", "the certificate isn't accepted: its CA isn't one of the office's")
    # Before this, whoever asks may have made the certificate, with any texts in it.
    record |= {"department": found.key_id.partition("/")[0], "keyid": found.key_id, "of": found.serial}
    department = department_of(registrar.settings, found)
    record["principals"] = [*found.principals]
    message = formats.renew(found.serial, stated.moment - BEFORE_TOKEN, stated.moment + department.life)
    record["request"] = hashed("vethlumi renewal", statement).hex()[:32]
    return registrar.served(("renewal", found.key_id), record,
                            lambda: registrar.issued(record["request"], message, USED))


def is_of_office(registrar, found):
    try:
        return registrar.cas.has(fingerprint(found.ca))
    except Refused as refused:
        raise Refusal(502, "BadOffice", "the office didn't list its CAs", str(refused)) from None
