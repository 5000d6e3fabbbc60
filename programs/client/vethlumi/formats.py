"""The texts and bytes that an office takes and gives, as docs/FORMATS.md describes them."""
import base64
import datetime
import ipaddress
import re
from dataclasses import dataclass

from vethlumi_common.ssh import BadFormat, Reader, blob_of, fingerprint, string
from vethlumi_common.subjects import CERTIFICATES, TYPES, unverified

LAST_MOMENT = 253402300799
LAST_SERIAL = 9223372036854775806
UNITS = {"s": 1, "m": 60, "h": 3600, "d": 86400, "w": 604800}
NAME = re.compile(r"[a-z0-9-]{1,32}", re.ASCII)
KEY_ID = re.compile(r"[a-z0-9-]{1,32}/[!-~]{1,64}", re.ASCII)
CERTIFICATE_TYPE = b"ssh-ed25519-cert-v01@openssh.com"
CERTIFICATE_LINE = re.compile(r"([a-z0-9-]+-cert-v01@openssh\.com) [A-Za-z0-9+/]+={0,2} [!-~]+\n", re.ASCII)
SIGNER = re.compile(rb'[a-z0-9._@*,-]+ cert-authority,namespaces="[a-z0-9._@,-]+" ssh-ed25519 [A-Za-z0-9+/]{68}\n')


# ---- values

def seconds_of(text):
    """A length of time in seconds: `90`, `15m`, `8h`, `30d`, `4w`."""
    found = re.fullmatch(r"([1-9]\d{0,10})([smhdw]?)", text, re.ASCII)
    if not found:
        raise BadFormat(f"{text!r} isn't a valid duration: write 90, 15m, 8h, 30d or 4w")
    return int(found[1]) * UNITS[found[2] or "s"]


def date(moment):
    """A time as ISO 8601 has it, in UTC."""
    found = datetime.datetime.fromtimestamp(min(moment, LAST_MOMENT), datetime.timezone.utc)
    return found.strftime("%Y-%m-%dT%H:%M:%SZ").zfill(20)


# ---- departments

def name_of(key_id):
    """The name in a key ID: what follows its first `/`, up to the next one or the end."""
    return key_id.partition("/")[2].partition("/")[0]


def meets(principal, rule, key_id):
    """Whether a principal of a certificate with this key ID meets a rule."""
    if rule.startswith("{name}"):
        return principal == name_of(key_id) + rule.removeprefix("{name}") and (rule, principal) != ("{name}", "root")
    return principal == rule or (rule.startswith("*") and principal.endswith(rule[1:])
                                 and len(principal) > len(rule) - 1)


@dataclass(frozen=True)
class Department:
    """The rules for some certificates. `text` has its lines. `demands` are the options that each must have, with their
    values or None, and `key_types` the permitted types of keys, if these are listed."""
    text: str
    name: str
    kind: str
    admins: tuple
    principals: tuple
    options: tuple
    extensions: tuple
    longest: int
    namespaces: tuple
    demands: tuple = ()
    key_types: tuple = ()

    FIELDS = ("department", "kind", "admins", "principals", "options", "extensions", "maxlife", "namespaces")

    @classmethod
    def of(cls, lines):
        """The department of these lines."""
        values, demands, types, fields = [], [], (), [*cls.FIELDS]
        for line in lines:
            word, space, value = line.partition(" ")
            if word == "must" and fields[:1] == ["extensions"]:
                demands.append(demand_of(value))
            elif word == "key-types" and fields[:1] == ["maxlife"] and value and not types:
                types = tuple(value.split(","))
            elif word != (fields[0] if fields else None) or bool(space) != bool(value):
                raise BadFormat(f"{line!r} isn't a line `{fields[0] if fields else ''} ..` of a department")
            else:
                values.append(value)
                fields.pop(0)
        if fields:
            raise BadFormat(f"the department ends before its line `{fields[0]} ..`")
        name, kind, admins, principals, options, extensions, longest, namespaces = values
        if not NAME.fullmatch(name) or kind not in ("user", "host") or not longest.isdecimal():
            raise BadFormat(f"{name!r} isn't a valid department: check its name, kind and longest lifetime")
        lists = [tuple(it.split(",")) if it else () for it in (admins, principals, options, extensions, namespaces)]
        return cls("".join(f"{line}\n" for line in lines), name, kind, *lists[:4], int(longest), lists[4],
                   tuple(demands), types)

    def meets(self, principal, key_id):
        """Whether a principal of a certificate with this key ID meets one of the rules."""
        return any(meets(principal, rule, key_id) for rule in self.principals)

    @property
    def types(self):
        """The permitted types of keys: without a list of them there is one."""
        return self.key_types or ("ssh-ed25519",)

    def warnings(self):
        """Says which keys sshd lets in without what the department demands."""
        return unverified(self.name, self.key_types, dict(self.demands))

    def objections(self, certificate):
        """Why this department wouldn't permit a certificate, a text for each reason."""
        life, of = certificate.before - certificate.after, Reader(certificate.blob).string().decode("latin-1")
        return [
            *[f"is for a {certificate.kind}" for _ in range(certificate.kind != self.kind)],
            *[f"key type {of}" for _ in range(of not in self.types)],
            *[f"principal {it}" for it in certificate.principals if not self.meets(it, certificate.key_id)],
            *[f"option {name}" for name, _ in certificate.options
              if name not in self.options and name not in dict(self.demands)],
            *[f"lacks option {name}{'' if value is None else f' {value}'}" for name, value in self.demands
              if not is_met(name, value, dict(certificate.options))],
            *[f"extension {it}" for it in certificate.extensions if it not in self.extensions],
            *[f"lifetime of {life} s" for _ in range(not 0 < life <= self.longest)],
        ]


def demand_of(value):
    """An option that certificates must have, with its value or None."""
    name, space, wanted = value.partition(" ")
    if name not in ("force-command", "source-address", "verify-required") or bool(space) != bool(wanted):
        raise BadFormat(f"{value!r} isn't an option that a department can demand")
    return name, wanted if space else None


def is_met(name, wanted, options):
    """Whether options have the one that must be, with its value: of source-address, networks within those."""
    if name not in options or wanted is None:
        return name in options
    if name != "source-address":
        return options[name] == wanted
    try:
        own, outer = ([ipaddress.ip_network(it) for it in text.split(",")] for text in (options[name], wanted))
        return all(any(it.subnet_of(one) for one in outer) for it in own)
    except (ValueError, TypeError):
        return False


def departments(text):
    """The departments of a policy's text, each up to its namespaces, with empty lines and comments between them."""
    lines, found = text.split("\n"), {}
    if lines.pop():
        raise BadFormat("the last line has no line feed")
    at = 0
    while at < len(lines):
        if not lines[at] or lines[at].startswith("#"):
            at += 1
            continue
        end = next((it + 1 for it in range(at, len(lines)) if lines[it].startswith("namespaces")), len(lines))
        try:
            department = Department.of(lines[at:end])
        except BadFormat as fault:
            raise BadFormat(f"line {at + 1}: {fault}") from None
        if department.name in found:
            raise BadFormat(f"line {at + 1}: a second department of the name {department.name}")
        found[department.name] = department
        at = end
    return found


# ---- certificates

@dataclass(frozen=True)
class Certificate:
    """The fields of a certificate, or of the part of it that is signed."""
    key: bytes
    serial: int
    kind: str
    key_id: str
    principals: tuple
    after: int
    before: int
    options: tuple
    extensions: tuple
    ca: bytes
    # The whole key blob. `key` has the 32 bytes of a plain Ed25519 key, and nothing of any other.
    blob: bytes

    @classmethod
    def of_bytes(cls, data):
        """The fields of a certificate's bytes, with or without the signature."""
        it = Reader(data)
        of = CERTIFICATES.get(it.string().decode("latin-1"))
        if not of:
            raise BadFormat("not a certificate")
        it.string()
        strings = [it.string() for _ in range(TYPES[of])]
        serial, kind, key_id = it.number(8), it.number(4), it.string().decode("latin-1")
        principals = tuple(name.decode("latin-1") for name in it.strings())
        after, before = it.number(8), it.number(8)
        options, extensions = it.strings(), it.strings()
        it.string()
        pairs = tuple((name.decode("latin-1"), Reader(data).string().decode("latin-1") if data else "")
                      for name, data in zip(options[::2], options[1::2]))
        kinds = {1: "user", 2: "host"}
        return cls(strings[0] if of == "ssh-ed25519" else b"", serial, kinds.get(kind, str(kind)), key_id, principals,
                   after, before, pairs, tuple(name.decode("latin-1") for name in extensions[::2]), it.string(),
                   b"".join(map(string, [of.encode(), *strings])))

    @classmethod
    def of_line(cls, text):
        """The fields of a certificate's line, as ssh-keygen writes it into a file."""
        words = text.split()
        if len(words) < 2 or words[0] not in CERTIFICATES:
            raise BadFormat("the file has no certificate")
        try:
            return cls.of_bytes(base64.b64decode(words[1], validate=True))
        except ValueError:
            raise BadFormat("the certificate's base64 is damaged") from None

    def as_record(self):
        """What people and programs are shown of it."""
        return {
            "serial": str(self.serial), "kind": self.kind, "keyid": self.key_id, "principals": [*self.principals],
            "after": date(self.after), "before": date(self.before), "options": dict(self.options),
            "extensions": [*self.extensions], "ca": fingerprint(self.ca),
        }


def signed_parts(data):
    """The part of a certificate's bytes that is signed, and the Ed25519 signature, of 64 bytes."""
    it = Reader(data)
    of = CERTIFICATES.get(it.string().decode("latin-1"))
    if not of:
        raise BadFormat("not a certificate")
    # Nonce and key; serial and kind; key ID and principals; validity; options, extensions, a reserved text, CA.
    for length in (0, *[0] * TYPES[of], 8, 4, 0, 0, 8, 8, 0, 0, 0, 0):
        it.take(length) if length else it.string()
    body, signature = bytes(it.data[:it.at]), Reader(it.string())
    if signature.string() != b"ssh-ed25519":
        raise BadFormat("the signature isn't an Ed25519 key's")
    found = signature.string()
    if not (it.is_at_end() and signature.is_at_end()):
        raise BadFormat("there is data after the signature")
    return body, found


def certificate_line(data):
    """The line of a certificate, which is text that steers no terminal."""
    line = data.decode("ascii", "replace")
    found = CERTIFICATE_LINE.fullmatch(line)
    if not found or found[1] not in CERTIFICATES:
        raise BadFormat("the answer isn't a certificate")
    return line


def signers(data):
    """The allowed signers, one in each line."""
    at = 0
    while at < len(data):
        found = SIGNER.match(data, at)
        if not found:
            raise BadFormat("the page has an unexpected line")
        at = found.end()
    return data.decode("ascii")


# ---- messages and replies

# What an office replies to a message, by the word with which the message begins.
ISSUED, REVOKED = r"issued ([1-9]\d{0,18})\ndigest [0-9a-f]{64}\n", r"revoked\nversion \d{1,19}\n"
REPLIES = {
    "issue": ISSUED, "renew": ISSUED, "revoke-serial": REVOKED, "revoke-range": REVOKED, "revoke-keyid": REVOKED,
    "department": r"department ([a-z0-9-]{1,32})\n", "rollover": r"rollover [1-8]\nsince [1-9]\d{0,18}\n",
}


def reply_to(message, data):
    """The words of a reply to a message."""
    kind, _, rest = message.partition("\n")[0].partition(" ")
    text = data.decode("ascii", "replace")
    found = re.fullmatch(REPLIES.get(kind, "(?!)"), text, re.ASCII)
    if not found or (kind == "department" and found[1] != rest):
        raise BadFormat(f"{text[:100]!r} isn't a reply to `{kind}`")
    return text.split()


def issue(department, key_id, key, principals, after, before, options=(), extensions=()):
    """The message that asks for a certificate."""
    return "".join(f"{line}\n" for line in (
        f"issue {department}", f"keyid {key_id}", f"key {key}", f"principals {','.join(principals)}", f"after {after}",
        f"before {before}", *[f"option {it}" for it in options], f"extensions {','.join(extensions)}".strip()))


def renew(serial, after, before):
    return f"renew {serial}\nafter {after}\nbefore {before}\n"
