#!/usr/bin/python3
"""A guard of some hundred lines of Python, written from docs/FORMATS.md alone: what it answers of a body, and why.

As a program it has the words of `sshstation`, and keeps what it approved in an SQLite file of its own form. So it says
what is due to a program that it shares no line with.

    tests/plain_guard.py init --db PATH --ca PATH --first N --last N
    tests/plain_guard.py judge --db PATH --policy PATH [--ahead SECONDS] BODY..
"""
import argparse
import base64
import contextlib
import functools
import hashlib
import ipaddress
import os
import pathlib
import re
import sqlite3
import sys
import time
from dataclasses import dataclass, field

from plain_keys import BY_CERTIFICATE, COMMENT, TYPES, is_key, key_in
from plain_office import (ADMINISTRATOR, EXTENSIONS, KEY_ID, MOST_MOMENT, MOST_SERIAL, NAME, NUMBER, OPTIONS, PRINCIPAL,
                          RULE, meets, name_of, string)

LONGEST_BODY = 16384
MOST_BODIES = 64
LONGEST_POLICY = 1 << 20


# ---- values

def is_number(text, least, most):
    return re.fullmatch(NUMBER, text) is not None and least <= int(text) <= most


def is_network(text):
    """Whether this is a network a.b.c.d/n, whose address has no bit behind the first n."""
    found = re.fullmatch(r"(\d{1,3})\.(\d{1,3})\.(\d{1,3})\.(\d{1,3})/(\d{1,2})", text, re.ASCII)
    if not found or any(str(int(it)) != it for it in found.groups()):
        return False
    *address, size = map(int, found.groups())
    number = int.from_bytes(bytes(address), "big") if max(address) < 256 else 1
    return max(address) < 256 and size <= 32 and number % (1 << (32 - size)) == 0


def is_option_value(name, value):
    """Whether a critical option may have this value; a flag has None."""
    if name == "force-command":
        return value is not None and re.fullmatch(r"[ -~]{1,200}", value) is not None
    if name == "source-address":
        return value is not None and 1 <= len(value.split(",")) <= 8 and all(map(is_network, value.split(",")))
    return name == "verify-required" and value is None


def is_key_line(text):
    found = re.fullmatch(rf"ssh-ed25519 ([A-Za-z0-9+/]{{68}})(?: {COMMENT})?", text)
    return found is not None and is_key_blob(base64.b64decode(found[1]))


def is_key_blob(blob):
    return len(blob) == 51 and blob.startswith(string("ssh-ed25519") + b"\0\0\0\x20")


def is_signature(text):
    found = re.fullmatch(r"[A-Za-z0-9+/]{111}=", text)
    return found is not None and base64.b64decode(text).startswith(string("ssh-ed25519") + b"\0\0\0\x40")


# ---- points of the curve of Ed25519 (RFC 8032, section 5.1)

PRIME = 2 ** 255 - 19
D = -121665 * pow(121666, -1, PRIME) % PRIME


def point_of(encoding):
    """The point that 32 bytes encode, or None. As in OpenSSH, y may be p or more, and x = 0 may have either sign."""
    number = int.from_bytes(encoding, "little")
    sign, y = number >> 255, number % (1 << 255) % PRIME
    square = (y * y - 1) * pow(D * y * y + 1, -1, PRIME) % PRIME
    x = pow(square, (PRIME + 3) // 8, PRIME)
    if x * x % PRIME != square:
        x = x * pow(2, (PRIME - 1) // 4, PRIME) % PRIME
    if x * x % PRIME != square:
        return None
    return (x if x % 2 == sign else -x % PRIME), y


def twice(point):
    """The sum of a point and itself."""
    x, y = point
    both = D * x * x * y * y
    return 2 * x * y * pow(1 + both, -1, PRIME) % PRIME, (y * y + x * x) * pow(1 - both, -1, PRIME) % PRIME


@functools.cache
def has_small_order(encoding):
    """Whether 32 bytes encode a point that eight times is the neutral one."""
    point = point_of(encoding)
    return point is not None and twice(twice(twice(point))) == (0, 1)


# ---- messages, of which a policy has departments alone

def like(pattern):
    return lambda value: value is not None and re.fullmatch(pattern, value) is not None


def numbered(least, most):
    return lambda value: value is not None and is_number(value, least, most)


def listed(pattern, least, most):
    """A list of distinct elements; the empty one is the word alone."""
    def fits(value):
        if value is None:
            return least == 0
        found = value.split(",")
        return (all(re.fullmatch(pattern, it) for it in found) and len(set(found)) == len(found)
                and least <= len(found) <= most)
    return fits


def is_range(value):
    found = (value or "").split(" ")
    return (len(found) == 2 and all(is_number(it, 1, MOST_SERIAL) for it in found)
            and int(found[0]) <= int(found[1]))


MOMENT, SERIAL = numbered(0, MOST_MOMENT), numbered(1, MOST_SERIAL)
NAMED = r"(?:" + "|".join(OPTIONS) + ")"
EXTENSION = r"(?:" + "|".join(EXTENSIONS) + ")"
KEY_TYPE = r"(?:" + "|".join(map(re.escape, TYPES)) + ")"
# The lines of each kind. Before the last line of an issue there may be options.
KINDS = {
    "department": {"department": like(NAME), "kind": like("user|host"), "admins": listed(ADMINISTRATOR, 0, 16),
                   "principals": listed(RULE, 1, 16), "options": listed(NAMED, 0, 3),
                   "extensions": listed(EXTENSION, 0, 6), "maxlife": numbered(1, MOST_MOMENT),
                   "namespaces": listed(r"[a-z0-9._@-]{1,32}", 0, 8)},
    "issue": {"issue": like(NAME), "keyid": like(KEY_ID), "key": lambda it: it is not None and key_in(it) is not None,
              "principals": listed(PRINCIPAL, 1, 16), "after": MOMENT, "before": MOMENT,
              "extensions": listed(EXTENSION, 0, 6)},
    "renew": {"renew": SERIAL, "after": MOMENT, "before": MOMENT},
    "deliver": {"deliver": SERIAL, "digest": like("[0-9a-f]{64}"),
                "signature": lambda it: it is not None and is_signature(it)},
    "revoke-serial": {"revoke-serial": SERIAL},
    "revoke-range": {"revoke-range": is_range},
    "revoke-keyid": {"revoke-keyid": like(KEY_ID)},
    "rollover": {"rollover": lambda it: it is not None and is_key_line(it)},
}


# The lines that stand beside these, if at all: the options of an issue before its last line, what a department's
# certificates must have after its options, and the types of their keys after its extensions.
BESIDE = ("option", "must", "key-types")


class BadLine(Exception):
    """The number of the first bad line of a text."""


def split(line):
    """A line's word and its value, which is None if the word stands alone."""
    word, space, value = line.partition(" ")
    return word, value if space else None


def follows(lines, line):
    """Whether a message may go on with this line behind these."""
    word, value = split(line)
    kind = lines[0][0] if lines else word
    wanted = [*KINDS.get(kind, {}).items()]
    read = [it for it in lines if it[0] not in BESIDE]
    if len(read) >= len(wanted):
        return False
    if kind == "issue" and word == "option" and len(read) == 6:
        name, of = split(value) if value is not None else ("", None)
        return is_option_value(name, of) and name not in [split(it)[0] for it_word, it in lines if it_word == "option"]
    if kind == "department" and word == "must" and len(read) == 5:
        name, of = split(value) if value is not None else ("", None)
        earlier = [split(it)[0] for it_word, it in lines if it_word == "must"]
        return (("kind", "host") not in lines and name in OPTIONS and all(it < name for it in earlier)
                and (of is None or bool(of) and is_option_value(name, of)))
    if kind == "department" and word == "key-types" and len(read) == 6:
        return "key-types" not in dict(lines) and listed(KEY_TYPE, 1, 7)(value)
    if kind == "department" and word in ("options", "extensions", "namespaces") and ("kind", "host") in lines:
        return word == wanted[len(read)][0] and value is None
    if kind == "department" and word == "namespaces" and "{name}" in (dict(lines).get("principals") or "").split(","):
        return word == wanted[len(read)][0] and value is None
    name, fits = wanted[len(read)]
    return word == name and bool(fits(value))


def read_message(text):
    """The lines of a message, each as its word and its value."""
    *whole, rest = text.decode("latin-1").split("\n")
    lines = []
    for line in whole:
        if not follows(lines, line):
            raise BadLine(len(lines) + 1)
        lines.append(split(line))
    if rest or not lines or len([it for it in lines if it[0] not in BESIDE]) < len(KINDS[lines[0][0]]):
        raise BadLine(len(lines) + 1)
    return lines


def is_met(name, wanted, value):
    """Whether an option has the value that certificates must have: any, this one, or networks in these."""
    if wanted is None or name != "source-address":
        return wanted is None or value == wanted
    return all(any(ipaddress.ip_network(own).subnet_of(ipaddress.ip_network(it)) for it in wanted.split(","))
               for own in value.split(","))


@dataclass
class Department:
    name: str
    kind: int
    rules: list
    options: list
    extensions: list
    longest: int
    # What certificates must have, by name, each with its value or with None.
    demands: dict
    key_types: list

    def permits(self, body):
        return (all(any(meets(name_of(body.key_id), it, rule) for rule in self.rules) for it in body.principals)
                and {*body.options} <= {*self.options, *self.demands} and {*body.extensions} <= {*self.extensions}
                and all(name in body.options and is_met(name, wanted, body.options[name])
                        for name, wanted in self.demands.items())
                and 0 < body.before - body.after <= self.longest and body.key_type in self.key_types
                and not has_small_order(body.key[0]))


def read_policy(data):
    """The departments of a policy, by name in their order."""
    if len(data) > LONGEST_POLICY:
        raise Fault("File")
    pieces, found, at = data.split(b"\n"), {}, 0
    while at < len(pieces):
        if pieces[at] == b"" or pieces[at].startswith(b"#"):
            at += 1
            continue
        end = next((it + 1 for it in range(at, len(pieces)) if pieces[it].startswith(b"namespaces")), len(pieces))
        text = b"\n".join(pieces[at:end]) + b"\n" * (len(pieces) > end)
        try:
            said = dict(lines := read_message(text))
        except BadLine as bad:
            raise Fault(f"BadPolicy {at + bad.args[0]}") from None
        if lines[0][0] != "department" or said["department"] in found:
            raise Fault(f"BadPolicy {at + 1}")
        found[said["department"]] = Department(
            said["department"], {"user": 1, "host": 2}[said["kind"]], said["principals"].split(","),
            (said["options"] or "").split(","), (said["extensions"] or "").split(","), int(said["maxlife"]),
            dict(split(value) for word, value in lines if word == "must"),
            said.get("key-types", "ssh-ed25519").split(","))
        at = end
    return found


# ---- bodies

class NotABody(Exception):
    """Why bytes are no body, by the name of the fault."""


class Reader:
    """Reads the integers and strings of bytes. `cut` is the fault if they end too early."""

    def __init__(self, data, cut):
        self.data, self.cut = data, cut

    def take(self, size):
        if len(self.data) < size:
            raise NotABody(self.cut)
        taken, self.data = self.data[:size], self.data[size:]
        return taken

    def number(self, size):
        return int.from_bytes(self.take(size), "big")

    def string(self):
        return self.take(self.number(4))


def all_or(is_right, fault):
    if not is_right:
        raise NotABody(fault)


@dataclass
class Body:
    key_type: str
    key: list
    serial: int
    kind: int
    key_id: str
    principals: list
    after: int
    before: int
    options: dict
    extensions: dict
    ca: bytes


def strings_of(data, fault):
    reader, found = Reader(data, fault), []
    while reader.data:
        found.append(reader.string().decode("latin-1"))
    return found


def options_of(data, kind, known, fault):
    """The options of a field of critical options or of extensions, by name, each with its value or with None."""
    reader, found = Reader(data, fault), {}
    all_or(kind == 1 or not data, fault)
    while reader.data:
        name, value = reader.string().decode("latin-1"), None
        inner = Reader(reader.string(), fault)
        if inner.data:
            value = inner.string().decode("latin-1")
            all_or(not inner.data, fault)
        all_or(name in known and all(it < name for it in found), fault)
        all_or(is_option_value(name, value) if known is OPTIONS else value is None, fault)
        found[name] = value
    return found


def read_body(data):
    """The fields of a body of the profile."""
    all_or(len(data) <= LONGEST_BODY, "TooLong")
    reader = Reader(data, "Truncated")
    key_type = BY_CERTIFICATE.get(reader.string().decode("latin-1"))
    all_or(key_type, "WrongType")
    all_or(len(reader.string()) == 32, "BadNonce")
    key = [reader.string() for _ in TYPES[key_type]]
    all_or(is_key(key_type, key), "BadKey")
    serial = reader.number(8)
    all_or(1 <= serial <= MOST_SERIAL, "BadSerial")
    kind = reader.number(4)
    all_or(kind in (1, 2), "BadKind")
    key_id = reader.string().decode("latin-1")
    all_or(re.fullmatch(KEY_ID, key_id), "BadKeyId")
    principals = strings_of(reader.string(), "BadPrincipals")
    all_or(1 <= len(principals) <= 16 and len({*principals}) == len(principals)
           and all(re.fullmatch(PRINCIPAL, it) for it in principals), "BadPrincipals")
    after, before = reader.number(8), reader.number(8)
    all_or(after < before <= MOST_MOMENT, "BadValidity")
    options = options_of(reader.string(), kind, OPTIONS, "BadOptions")
    extensions = options_of(reader.string(), kind, EXTENSIONS, "BadExtensions")
    all_or(reader.string() == b"", "BadReserved")
    ca = reader.string()
    all_or(is_key_blob(ca), "BadCa")
    all_or(not reader.data, "TrailingBytes")
    return Body(key_type, key, serial, kind, key_id, principals, after, before, options, extensions, ca)


# ---- the guard

def digest(body):
    return hashlib.sha256(body).hexdigest()


@dataclass
class PlainGuard:
    """A guard of a CA's key blob, and of the serials from the first to the last. `approved` has the body of each serial
    that was approved, and its moment."""
    ca: bytes
    first: int = 1
    last: int = MOST_SERIAL
    approved: dict = field(default_factory=dict)

    def answer(self, policy, moment, ahead, data):
        """The line that answers a body, which is kept first if it may be signed."""
        try:
            body = read_body(data)
        except NotABody as fault:
            return f"refuse NotABody {fault.args[0]}"
        refusal = self.refusal(policy, moment, ahead, data, body)
        if refusal:
            return f"refuse {refusal}"
        self.approved.setdefault(body.serial, (moment, data))
        return f"sign {body.serial} {digest(data)}"

    def refusal(self, policy, moment, ahead, data, body):
        """Why a body may not be signed, or None."""
        if body.ca != self.ca:
            return "OtherCa"
        if not self.first <= body.serial <= self.last:
            return "OtherSerial"
        if body.serial in self.approved:
            return None if self.approved[body.serial][1] == data else "SerialTaken"
        department = policy.get(body.key_id.partition("/")[0])
        if department is None:
            return "NoDepartment"
        if department.kind != body.kind:
            return "OtherKind"
        if not department.permits(body):
            return "NotPermitted"
        if body.before <= moment:
            return "AlreadyEnded"
        return "TooFarAhead" if body.after > moment + ahead else None


# ---- the program

class Fault(Exception):
    """Why a command hasn't done its job, by the name."""


def read_file(path):
    try:
        return pathlib.Path(path).read_bytes()
    except OSError:
        raise Fault("File") from None


@contextlib.contextmanager
def opened(path, is_new=False):
    """The file of a guard, which no other program can open meanwhile."""
    if not is_new and not os.path.exists(path):
        raise Fault("NotAGuard")
    if is_new and not os.path.exists(path):
        os.close(os.open(path, os.O_CREAT | os.O_WRONLY, 0o600))
    file = sqlite3.connect(path, isolation_level=None, timeout=0)
    try:
        for setting in ("locking_mode = EXCLUSIVE", "journal_mode = WAL", "synchronous = FULL"):
            file.execute(f"PRAGMA {setting}")
        has_guard = file.execute("SELECT count(*) FROM sqlite_master WHERE name = 'guard'").fetchone()[0]
        if has_guard == is_new:
            raise Fault("AlreadyAGuard" if is_new else "NotAGuard")
        yield file
    except sqlite3.Error:
        raise Fault("Device") from None
    finally:
        file.close()


def guard_of(file):
    ca, first, last = file.execute("SELECT ca, first, last FROM guard").fetchone()
    rows = file.execute("SELECT serial, moment, body FROM approved ORDER BY serial")
    return PlainGuard(ca, first, last, {serial: (moment, body) for serial, moment, body in rows})


def init(given):
    line = read_file(given.ca).decode("latin-1").removesuffix("\n")
    if not is_key_line(line):
        raise Fault("WrongType" if not line.startswith("ssh-ed25519 ") else "BadBlob")
    if not 1 <= given.first <= given.last <= MOST_SERIAL:
        raise Fault("BadSerials")
    blob = base64.b64decode(line.split(" ")[1])
    with opened(given.db, is_new=True) as file:
        file.execute("BEGIN")
        file.execute("CREATE TABLE guard (ca BLOB, first INTEGER, last INTEGER) STRICT")
        file.execute("CREATE TABLE approved (serial INTEGER PRIMARY KEY, moment INTEGER, body BLOB) STRICT")
        file.execute("INSERT INTO guard VALUES (?, ?, ?)", (blob, given.first, given.last))
        file.execute("COMMIT")
    fingerprint = base64.b64encode(hashlib.sha256(blob).digest()).decode().rstrip("=")
    print(f"guard ready {given.first} {given.last}\nca SHA256:{fingerprint}")


def number_in(line, most):
    """The number in a line, 1 to the most."""
    if not re.fullmatch(rb"[1-9][0-9]*\n", line) or int(line) > most:
        raise Fault("Input")
    return int(line)


def batches():
    """The bodies of each batch of the input."""
    while line := sys.stdin.buffer.readline():
        if not line.startswith(b"judge "):
            raise Fault("Input")
        some = []
        for _ in range(number_in(line.removeprefix(b"judge "), MOST_BODIES)):
            length = number_in(sys.stdin.buffer.readline(), LONGEST_BODY)
            some.append(sys.stdin.buffer.read(length))
            if len(some[-1]) < length:
                raise Fault("Input")
        yield some


def judge(given):
    """Answers each body; with `-` those of the input, each batch by the policy as its file is by then."""
    policy = read_policy(read_file(given.policy))
    with opened(given.db) as file:
        guard = guard_of(file)
        is_asked = given.body == ["-"]
        for some in batches() if is_asked else ([read_file(path)] for path in given.body):
            policy = read_policy(read_file(given.policy)) if is_asked else policy
            moment, before = int(time.time()), set(guard.approved)
            lines = [guard.answer(policy, moment, given.ahead, data) for data in some]
            file.execute("BEGIN")
            for serial in guard.approved.keys() - before:
                file.execute("INSERT INTO approved VALUES (?, ?, ?)", (serial, *guard.approved[serial]))
            file.execute("COMMIT")
            print("\n".join(lines), flush=True)


def bodies(given):
    with opened(given.db) as file:
        for serial, (moment, data) in guard_of(file).approved.items():
            print(serial, digest(data), moment, read_body(data).key_id)


def body(given):
    with opened(given.db) as file:
        approved = guard_of(file).approved
    if given.serial not in approved:
        raise Fault("UnknownSerial")
    sys.stdout.buffer.write(approved[given.serial][1])


def show_policy(given):
    print("".join(f"{it}\n" for it in read_policy(read_file(given.file))), end="")


def retire(given):
    with opened(given.db) as file:
        guard = guard_of(file)
        if not guard.first <= given.last <= guard.last:
            raise Fault("BadSerials")
        if any(it > given.last for it in guard.approved):
            raise Fault("SerialApproved")
        file.execute("UPDATE guard SET last = ?", (given.last,))
    print(f"retired {guard.first} {given.last}")


# Each command, with what does its work and its words.
COMMANDS = {
    "init": (init, {"--db": str, "--ca": str, "--first": int, "--last": int}),
    "judge": (judge, {"--db": str, "--policy": str, "--ahead": int, "body": str}),
    "bodies": (bodies, {"--db": str}),
    "body": (body, {"--db": str, "serial": int}),
    "policy": (show_policy, {"file": str}),
    "retire": (retire, {"--db": str, "--last": int}),
}


def main():
    parser = argparse.ArgumentParser(prog="sshstation")
    commands = parser.add_subparsers(dest="job", required=True)
    for job, (_, words) in COMMANDS.items():
        command = commands.add_parser(job)
        for word, kind in words.items():
            how = {"required": True} if word.startswith("--") else {"nargs": "+"} if word == "body" else {}
            command.add_argument(word, type=kind, **({"default": 3600} if word == "--ahead" else how))
    given = parser.parse_args()
    try:
        COMMANDS[given.job][0](given)
    except Fault as fault:
        print(f"sshstation: {fault.args[0]}", file=sys.stderr)
        sys.exit(1)


if __name__ == "__main__":
    main()
