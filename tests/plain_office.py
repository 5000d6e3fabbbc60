"""An office of some hundred lines of Python, written from docs/FORMATS.md alone: its answers, and its rows.

It keeps nothing in a file and knows no fault. So it says what is due to a program that it shares no line with.
"""
import base64
import hashlib
import ipaddress
import re
import struct
from dataclasses import dataclass, field

from plain_keys import TYPES, certificate_name, key_in

MOST_MOMENT = 253402300799
MOST_SERIAL = 9223372036854775806

REFUSALS = {
    2: ("NoRoute", 404), 7: ("BadMessage", 400), 8: ("BadMoment", 400), 9: ("KeyReused", 409),
    10: ("NotAllowed", 403), 11: ("NoDepartment", 404), 12: ("KindFixed", 409), 13: ("BadKeyId", 409),
    14: ("NotPermitted", 409), 15: ("AlreadyEnded", 409), 16: ("KeyIdRevoked", 409), 17: ("UnknownSerial", 404),
    18: ("WrongDigest", 409), 19: ("Revoked", 409), 20: ("AlreadySigned", 409), 21: ("NotSigned", 409),
    22: ("SerialsExhausted", 409), 23: ("CaInUse", 409), 24: ("TooManyCas", 409),
}
PHRASES = {200: "OK", 400: "Bad Request", 403: "Forbidden", 404: "Not Found", 409: "Conflict"}

NAME = r"[a-z0-9-]{1,32}"
PRINCIPAL = r"[a-z0-9._@-]{1,64}"
RULE = rf"(?:\*[a-z0-9._@-]{{1,63}}|\{{name\}}(?:[.@][a-z0-9._@-]{{1,62}})?|{PRINCIPAL})"
ADMINISTRATOR = rf"(?:[a-z0-9-]{{0,31}}\{{name\}}|{NAME})"
KEY_ID = rf"{NAME}/[!-~]{{1,64}}"
NUMBER = r"(?:0|[1-9][0-9]{0,18})"
CA_LINE = r"ssh-ed25519 (?:[A-Za-z0-9+/]{68})(?: [\t -~\x80-\xff]{0,1024})?"
OPTIONS = ("force-command", "source-address", "verify-required")
EXTENSIONS = ("no-touch-required", "permit-X11-forwarding", "permit-agent-forwarding", "permit-port-forwarding",
              "permit-pty", "permit-user-rc")
OPTION = r"(?:force-command|source-address|verify-required)"
EXTENSION = r"(?:no-touch-required|permit-(?:X11|agent|port)-forwarding|permit-pty|permit-user-rc)"


def line_of(word, some):
    """The line of a list, which is empty without a space."""
    return f"{word} {','.join(some)}\n" if some else f"{word}\n"


def listed(of):
    """A list, which is empty without a space."""
    return rf"(?: ({of}(?:,{of})*))?"


# Each kind of message: the groups of its lines are what the message says.
TEXTS = {
    "department": rf"department ({NAME})\nkind (user|host)\nadmins{listed(ADMINISTRATOR)}\n"
                  rf"principals ({RULE}(?:,{RULE})*)\noptions{listed(OPTION)}\n((?:must [^\n]*\n)*)"
                  rf"extensions{listed(EXTENSION)}\n(?:key-types ([^\n]*)\n)?"
                  rf"maxlife ({NUMBER})\nnamespaces{listed('[a-z0-9._@-]{1,32}')}\n",
    "issue": rf"issue ({NAME})\nkeyid ({KEY_ID})\nkey ([^\n]*)\nprincipals ({PRINCIPAL}(?:,{PRINCIPAL})*)\n"
             rf"after ({NUMBER})\nbefore ({NUMBER})\n((?:option [^\n]*\n)*)extensions{listed(EXTENSION)}\n",
    "renew": rf"renew ({NUMBER})\nafter ({NUMBER})\nbefore ({NUMBER})\n",
    "deliver": rf"deliver ({NUMBER})\ndigest ([0-9a-f]{{64}})\nsignature ([A-Za-z0-9+/]{{111}}=)\n",
    "revoke-serial": rf"revoke-serial ({NUMBER})\n",
    "revoke-range": rf"revoke-range ({NUMBER}) ({NUMBER})\n",
    "revoke-keyid": rf"revoke-keyid ({KEY_ID})\n",
    "rollover": rf"rollover ({CA_LINE})\n",
}


class Refused(Exception):
    """Why a request isn't answered as it asks, by the number."""


def string(some):
    """A string of RFC 4251."""
    some = some.encode() if isinstance(some, str) else some
    return struct.pack(">I", len(some)) + some


def u64(number):
    return struct.pack(">Q", number)


def elements(text):
    return text.split(",") if text else []


def key_of(line):
    """The key blob of a CA's key line."""
    blob = base64.b64decode(line.split(" ")[1])
    if len(blob) != 51 or not blob.startswith(string("ssh-ed25519") + struct.pack(">I", 32)):
        raise Refused(7)
    return blob


def name_of(key_id):
    """The name in a key ID: what is between its first / and the next, or its end."""
    return key_id.split("/")[1]


def meets(name, principal, rule):
    """Whether a principal of a certificate meets a rule, if its key ID has this name."""
    if rule == "{name}":
        return principal == name != "root"
    if rule.startswith("{name}"):
        return principal == name + rule.partition("}")[2]
    if rule.startswith("*"):
        return principal.endswith(rule[1:]) and len(principal) > len(rule) - 1
    return principal == rule


def options_field(pairs):
    """The field of options with their values, or of flags with None."""
    return b"".join(string(name) + string(b"" if value is None else string(value)) for name, value in sorted(pairs))


def all_or_bad(is_right):
    if not is_right:
        raise Refused(7)


def networks_in(value):
    """The networks of an option's value."""
    all_or_bad(all(re.fullmatch(r"(?:(?:0|[1-9][0-9]*)[./]){4}(?:0|[1-9][0-9]*)", it) for it in value.split(",")))
    try:
        found = [ipaddress.ip_network(it) for it in value.split(",")]
    except ValueError:
        raise Refused(7) from None
    all_or_bad(len(found) <= 8)
    return found


def has_valid(name, value):
    """Whether an option may have a value: a command or networks."""
    if name == "force-command":
        return re.fullmatch(r"[ -~]{1,200}", value) is not None
    return name == "source-address" and networks_in(value) != []


def read_options(lines):
    """The critical options of an issue's lines."""
    pairs = []
    for line in lines.splitlines():
        name, _, value = line.removeprefix("option ").partition(" ")
        if name == "verify-required":
            all_or_bad(line == "option verify-required")
            pairs.append((name, None))
        else:
            all_or_bad(has_valid(name, value))
            pairs.append((name, value))
    all_or_bad(len(pairs) <= 3 and len({name for name, _ in pairs}) == len(pairs))
    return pairs


def read_demands(lines):
    """What certificates must have, by the lines of a department: each option with its value, or with None."""
    demands = []
    for line in lines.splitlines():
        name, space, value = line.removeprefix("must ").partition(" ")
        all_or_bad(name in OPTIONS and all(it < name for it, _ in demands))
        all_or_bad(not space or has_valid(name, value))
        demands.append((name, value if space else None))
    return demands


def read_key_types(value):
    """The key types that a department lists; Ed25519 alone without a list."""
    types = ["ssh-ed25519"] if value is None else value.split(",")
    all_or_bad(set(types) <= set(TYPES) and len(set(types)) == len(types))
    return types


def is_met(demand, options):
    """Whether one of the options is what a certificate must have."""
    name, wanted = demand
    values = dict(options)
    if name not in values or wanted is None:
        return name in values
    if name == "source-address":
        return all(any(own.subnet_of(it) for it in networks_in(wanted)) for own in networks_in(values[name]))
    return values[name] == wanted


def read(text):
    """The kind of a message, and what its lines say."""
    try:
        text = text.decode("latin-1")
    except UnicodeDecodeError:
        raise Refused(7) from None
    kind = re.split(r"[ \n]", text, maxsplit=1)[0]
    found = re.fullmatch(TEXTS[kind], text) if kind in TEXTS else None
    all_or_bad(found)
    return kind, found.groups()


@dataclass
class Department:
    name: str
    kind: str
    admins: list
    rules: list
    options: list
    extensions: list
    longest: int
    namespaces: list
    demands: list
    key_types: list
    # As they stand in the text.
    must_lines: str
    key_types_line: str

    def text(self):
        """The text of the message that puts it."""
        return (f"department {self.name}\nkind {self.kind}\n" + line_of("admins", self.admins)
                + line_of("principals", self.rules) + line_of("options", self.options) + self.must_lines
                + line_of("extensions", self.extensions) + self.key_types_line + f"maxlife {self.longest}\n"
                + line_of("namespaces", self.namespaces))

    def means(self, caller, key_id):
        """Whether the caller is one that the department means by the name in this key ID."""
        return any(caller == word.replace("{name}", name_of(key_id)) for word in self.admins if "{name}" in word)

    def permits(self, asked, after, before, by_name):
        """Whether the department permits a certificate, for a caller who may ask only by his name or for another."""
        rules = [it for it in self.rules if "{name}" in it or not by_name]
        return (all(any(meets(name_of(asked.key_id), it, rule) for rule in rules) for it in asked.principals)
                and all(name in self.options + [it for it, _ in self.demands] for name, _ in asked.options)
                and all(is_met(it, asked.options) for it in self.demands)
                and all(name in self.extensions for name in asked.extensions)
                and 0 < before - after <= self.longest and asked.key[0] in self.key_types)


@dataclass
class Asked:
    """What an issue asks for, and what a renewal asks for again."""
    department: str
    key_id: str
    key: tuple
    principals: list
    options: list
    extensions: list


@dataclass
class Certificate:
    asked: Asked
    kind: str
    after: int
    before: int
    body: bytes
    signature: bytes = None

    def digest(self):
        return hashlib.sha256(self.body).hexdigest()


@dataclass
class PlainOffice:
    """An office of the first CA's key blob, of root and of the station, and of a first and a last serial."""
    ca: bytes
    first: int = 1
    last: int = MOST_SERIAL
    root: str = "root"
    station: str = "station"
    version: int = 0
    date: int = 0
    departments: dict = field(default_factory=dict)
    certificates: dict = field(default_factory=dict)
    revoked: set = field(default_factory=set)
    key_ids: set = field(default_factory=set)
    kept: dict = field(default_factory=dict)
    cas: list = field(default_factory=list)

    def __post_init__(self):
        self.cas = [(self.ca, self.first)]

    # What comes in.

    def answer(self, request, moment, nonce):
        """The response to a request that has a good head."""
        head, _, body = request.partition(b"\r\n\r\n")
        method, target, _ = head.split(b"\r\n")[0].decode().split(" ")
        try:
            found = re.fullmatch(rf"/v1/callers/({NAME})/requests/({NAME})", target)
            if method == "POST" and found:
                return response(200, self.settle(*found.groups(), body, moment, nonce))
            return response(200, *self.report(target))
        except Refused as refused:
            name, status = REFUSALS[refused.args[0]]
            return response(status, f"refused {refused.args[0]} {name}\n")

    def settle(self, caller, key, text, moment, nonce):
        """The reply to a message."""
        kept = self.kept.get((caller, key))
        if kept and kept[0] == text:
            return kept[1]
        kind, said = read(text)
        do = getattr(self, "do_" + kind.replace("-", "_"))
        # A value that no message may have is found before anything else is looked at.
        done = do(*said)
        if moment > MOST_MOMENT:
            raise Refused(8)
        if kept:
            raise Refused(9)
        reply = done(caller, moment, nonce)
        self.kept[caller, key] = text, reply
        return reply

    # The messages. Each is read, and then refused or done.

    def administers(self, caller, name):
        return caller == self.root or name in self.departments and caller in self.departments[name].admins

    def may_ask(self, caller, name, key_id):
        return self.administers(caller, name) or (
            name in self.departments and self.departments[name].means(caller, key_id))

    def do_department(self, name, kind, admins, rules, options, musts, extensions, types, longest, namespaces):
        made = Department(name, kind, elements(admins), elements(rules), elements(options), elements(extensions),
                          int(longest), elements(namespaces), read_demands(musts), read_key_types(types), musts,
                          "" if types is None else f"key-types {types}\n")
        for some, most in ((made.admins, 16), (made.rules, 16), (made.options, 3), (made.extensions, 6),
                           (made.namespaces, 8)):
            all_or_bad(len(set(some)) == len(some) <= most)
        all_or_bad(1 <= made.longest <= MOST_MOMENT)
        all_or_bad(kind == "user" or not made.options + made.extensions + made.namespaces + made.demands)
        all_or_bad("{name}" not in made.rules or not made.namespaces)

        def done(caller, moment, nonce):
            refuse({10: caller != self.root, 12: name in self.departments and self.departments[name].kind != kind})
            self.departments[name] = made
            return f"department {name}\n"

        return done

    def do_issue(self, department, key_id, key, principals, after, before, options, extensions):
        all_or_bad(key_in(key))
        asked = Asked(department, key_id, key_in(key), elements(principals), read_options(options),
                      elements(extensions))
        after, before = int(after), int(before)
        all_or_bad(max(after, before) <= MOST_MOMENT)
        for some, most in ((asked.principals, 16), (asked.extensions, 6)):
            all_or_bad(len(set(some)) == len(some) <= most)

        def done(caller, moment, nonce):
            profile = self.departments.get(department)
            refuse({10: not self.may_ask(caller, department, key_id), 11: profile is None,
                    13: key_id.partition("/")[0] != department,
                    14: profile is not None and not profile.permits(
                        asked, after, before, not self.administers(caller, department)), 15: before <= moment,
                    16: key_id in self.key_ids, 22: self.next() > self.last})
            return self.certify(asked, profile.kind, after, before, nonce)

        return done

    def do_renew(self, serial, after, before):
        serial, after, before = int(serial), int(after), int(before)
        all_or_bad(1 <= serial <= MOST_SERIAL and max(after, before) <= MOST_MOMENT)

        def done(caller, moment, nonce):
            old = self.certificates.get(serial)
            if old is None:
                raise Refused(17 if caller == self.root else 10)
            asked = old.asked
            refuse({10: not self.may_ask(caller, asked.department, asked.key_id),
                    14: not self.departments[asked.department].permits(
                        asked, after, before, not self.administers(caller, asked.department)), 15: before <= moment,
                    16: asked.key_id in self.key_ids, 19: self.is_revoked(serial), 21: old.signature is None,
                    22: self.next() > self.last})
            return self.certify(asked, old.kind, after, before, nonce)

        return done

    def do_deliver(self, serial, digest, signature):
        serial, signature = int(serial), base64.b64decode(signature)
        all_or_bad(1 <= serial <= MOST_SERIAL)
        all_or_bad(len(signature) == 83 and signature.startswith(string("ssh-ed25519") + struct.pack(">I", 64)))

        def done(caller, moment, nonce):
            certificate = self.certificates.get(serial)
            refuse({10: caller != self.station, 17: certificate is None})
            refuse({18: certificate.digest() != digest, 19: self.is_revoked(serial),
                    20: certificate.signature not in (None, signature[19:])})
            certificate.signature = signature[19:]
            return f"signed {serial}\n"

        return done

    def do_revoke_serial(self, serial):
        serial = int(serial)
        all_or_bad(1 <= serial <= MOST_SERIAL)

        def done(caller, moment, nonce):
            certificate = self.certificates.get(serial)
            refuse({10: caller != self.root and not (
                certificate and self.may_ask(caller, certificate.asked.department, certificate.asked.key_id)),
                    17: certificate is None})
            return self.revoke(moment, {serial}, set())

        return done

    def do_revoke_range(self, low, high):
        low, high = int(low), int(high)
        all_or_bad(1 <= low <= high <= MOST_SERIAL)

        def done(caller, moment, nonce):
            refuse({10: caller != self.root, 17: not {low, high} <= self.certificates.keys()})
            return self.revoke(moment, set(range(low, high + 1)), set())

        return done

    def do_revoke_keyid(self, key_id):
        department = key_id.partition("/")[0]

        def done(caller, moment, nonce):
            refuse({10: not self.administers(caller, department), 11: department not in self.departments})
            return self.revoke(moment, set(), {key_id})

        return done

    def do_rollover(self, line):
        key = key_of(line)

        def done(caller, moment, nonce):
            refuse({10: caller != self.root, 23: key in [ca for ca, _ in self.cas], 24: len(self.cas) >= 8})
            self.cas.append((key, self.next()))
            if self.key_ids:
                self.version, self.date = self.version + 1, moment
            return f"rollover {len(self.cas)}\nsince {self.next()}\n"

        return done

    # What messages do.

    def next(self):
        return self.first + len(self.certificates)

    def is_revoked(self, serial):
        return serial in self.revoked or self.certificates[serial].asked.key_id in self.key_ids

    def certify(self, asked, kind, after, before, nonce):
        serial = self.next()
        body = b"".join([
            string(certificate_name(asked.key[0])), string(nonce), *map(string, asked.key[1]), u64(serial),
            struct.pack(">I", 1 if kind == "user" else 2), string(asked.key_id),
            string(b"".join(map(string, asked.principals))), u64(after), u64(before),
            string(options_field(asked.options)), string(options_field((name, None) for name in asked.extensions)),
            string(b""), string(self.cas[-1][0])])
        made = self.certificates[serial] = Certificate(asked, kind, after, before, body)
        return f"issued {serial}\ndigest {made.digest()}\n"

    def revoke(self, moment, serials, key_ids):
        if not (serials <= self.revoked and key_ids <= self.key_ids):
            self.version, self.date = self.version + 1, moment
        self.revoked |= serials
        self.key_ids |= key_ids
        return f"revoked\nversion {self.version}\n"

    # What is shown.

    def report(self, target):
        """The body of a GET, and whether it is text."""
        found = re.fullmatch(rf"/v1/certs/({NUMBER})(/body)?", target)
        if found and 1 <= int(found[1]) <= MOST_SERIAL:
            return self.certificate(int(found[1]), found[2])
        reports = {"/v1/pending": self.pending, "/v1/krl": self.revocation_list, "/v1/signers": self.signers,
                   "/v1/table": self.table, "/v1/cas": self.all_cas, "/v1/departments": self.all_departments}
        refuse({2: target not in reports})
        return (reports[target](), target != "/v1/krl")

    def certificate(self, serial, of_body):
        certificate = self.certificates.get(serial)
        refuse({17: certificate is None})
        if of_body:
            return certificate.body, False
        refuse({21: certificate.signature is None})
        blob = string("ssh-ed25519") + string(certificate.signature)
        line = base64.b64encode(certificate.body + string(blob)).decode()
        return f"{certificate_name(certificate.asked.key[0])} {line} {certificate.asked.key_id}\n", True

    def waiting(self):
        """The certificates that wait for a signature."""
        return [(serial, it) for serial, it in self.certificates.items()
                if it.signature is None and not self.is_revoked(serial)]

    def pending(self):
        return "".join(f"{serial} {it.digest()}\n" for serial, it in self.waiting())

    def signers(self):
        return "".join(
            f'{",".join(it.rules).replace("{name}", "*")} cert-authority,namespaces="{",".join(it.namespaces)}" '
            f"ssh-ed25519 {base64.b64encode(ca).decode()}\n"
            for _, it in sorted(self.departments.items()) if it.namespaces for ca, _ in self.cas)

    def table(self):
        lines = []
        for serial, it in self.certificates.items():
            state = "revoked" if self.is_revoked(serial) else "signed" if it.signature else "pending"
            lines.append(f"{serial:>19}  {it.kind}  {state:<7}  {it.after:>12}  {it.before:>12}  {it.asked.key_id}\n")
        return "".join(lines) + f"total {len(lines)} version {self.version}\n"

    def all_cas(self):
        return "".join(
            f"{number} {since} SHA256:{base64.b64encode(hashlib.sha256(ca).digest()).decode().rstrip('=')}\n"
            for number, (ca, since) in enumerate(self.cas, 1))

    def all_departments(self):
        return "".join(it.text() for _, it in sorted(self.departments.items()))

    def revocation_list(self):
        parts = [struct.pack(">Q", 0x5353484b524c0a00), struct.pack(">I", 1), u64(self.version), u64(self.date), u64(0),
                 string(b""), string(b"")]
        ends = [since for _, since in self.cas[1:]] + [self.last + 1]
        for (ca, since), end in zip(self.cas, ends):
            serials = {it for it in self.revoked if since <= it < end}
            if serials or self.key_ids:
                parts.append(b"\x01" + string(string(ca) + string(b"") + self.of_section(serials)))
        return b"".join(parts)

    def of_section(self, serials):
        runs = runs_of(serials)
        short = b"".join(u64(it) for low, high in runs if high - low < 2 for it in range(low, high + 1))
        parts = [b"\x20" + string(short)] if short else []
        parts += [b"\x21" + string(u64(low) + u64(high)) for low, high in runs if high - low >= 2]
        if self.key_ids:
            parts.append(b"\x23" + string(b"".join(map(string, sorted(self.key_ids)))))
        return b"".join(parts)

    # What a file has.

    def rows(self):
        """The rows of each table, in the order of their keys. Bytes are written in hexadecimal digits."""
        def joined(some):
            return ",".join(some)

        def behind(some, lines):
            return "\n".join([some, *lines.splitlines()])

        return {
            "office": [[1, 2, hexed(self.ca), self.root, self.station, self.first, self.last, self.next(),
                        self.version, self.date]],
            "department": [[it.name, 1 if it.kind == "user" else 2, joined(it.admins), joined(it.rules),
                            behind(joined(it.options), it.must_lines), behind(joined(it.extensions), it.key_types_line),
                            it.longest, joined(it.namespaces)]
                           for _, it in sorted(self.departments.items())],
            "cert": [[serial, it.asked.department, it.asked.key_id, hexed(it.body), hexed(it.signature)]
                     for serial, it in self.certificates.items()],
            "request": [[caller, key, hexed(text), hexed(reply.encode())]
                        for (caller, key), (text, reply) in sorted(self.kept.items())],
            "run": [[low, high] for low, high in runs_of(self.revoked)],
            "revoked_keyid": [[it] for it in sorted(self.key_ids)],
            "ca": [[number, hexed(ca), since] for number, (ca, since) in enumerate(self.cas, 1)],
        }


def hexed(some):
    return None if some is None else some.hex().upper()


def refuse(conditions):
    """Refuses by the least number whose condition holds."""
    for number in sorted(conditions):
        if conditions[number]:
            raise Refused(number)


def runs_of(serials):
    """The intervals of these serials that can't be made longer."""
    runs = []
    for serial in sorted(serials):
        if runs and runs[-1][1] == serial - 1:
            runs[-1][1] = serial
        else:
            runs.append([serial, serial])
    return runs


def response(status, body, is_text=True):
    body = body.encode() if isinstance(body, str) else body
    kind = "text/plain" if is_text else "application/octet-stream"
    return (f"HTTP/1.1 {status} {PHRASES[status]}\r\ncontent-type: {kind}\r\n"
            f"content-length: {len(body)}\r\nconnection: close\r\n\r\n").encode() + body
