"""The guard's program beside a guard in Python that was written from the formats alone: what each answers to random
histories of bodies, under policies and moments that change.

A history is some hundred bodies in calls, each with a policy, a moment and a limit for what lies ahead. Many bodies
come again, many have the serial of another one, some are spoiled, and some were approved by an earlier version of the
guard, which permitted every key. A history that fails is made shorter, and is printed with its seed.
`--judgements=1000000` asks more than the hundred thousand of the check, and so does bench/histories.
"""
import collections
import contextlib
import os
import random
import sqlite3
import subprocess
from dataclasses import dataclass, replace

import pytest

import plain_guard
from asking import (ADDITIONS, LAST_SERIAL, LATEST, PRIME, SMALL_ORDER_KEYS, additions_in, batch, body, department,
                    digest_of, encoded, key_blob, key_line)
from running import preloaded, run
from stations import EVERY_EXTENSION, Guard
from subject_keys import CERTIFICATES, MISCOUNTED, MORE, NO_KEYS, SK_ED25519
from subject_keys import KEYS as TYPES

CA = key_blob(0x11)
# Other CAs, two of which differ in a byte alone.
OTHERS = [key_blob(0x12), CA[:-1] + b"\x10", CA[:19] + b"\x10" + CA[20:]]
NOW = 1_800_000_000
# In each history: so many bodies, of which each call judges some, so many times.
BODIES, CALLS, EACH = 100, 5, 200


# ---- the formats' own examples

POLICY = f"# people\n{department(extensions='permit-pty')}"


@pytest.mark.parametrize("text, line", [
    (POLICY.replace("# people", " # people"), 1), (POLICY[:26], 3), (POLICY[:-1], 9),
    (POLICY + department(extensions="permit-pty"), 10), (POLICY + "renew 1\nafter 1\nbefore 2\n", 10),
    (POLICY + "renew 1\nafter 1\nbefore 2\n" + POLICY, 13), (POLICY.replace("user", "host"), 7),
    (POLICY + "\n\n#\nissue web\nkind user\n", 14)],
    ids=["a space before #", "cut", "without its last line feed", "the same department again", "another message",
         "another message, and more", "a host with extensions", "half of another message"])
def test_both_say_the_first_line_of_a_policy_that_does_not_fit(sshstation, room, text, line):
    (room / "policy").write_text(text)
    done = run([sshstation, "policy", "policy"])
    assert (1, b"", f"sshstation: BadPolicy {line}\n") == (done.returncode, done.stdout, done.stderr.decode())
    with pytest.raises(plain_guard.Fault, match=f"^BadPolicy {line}$"):
        plain_guard.read_policy(text.encode())


@pytest.mark.parametrize("text, names", [
    ("", []), ("\n\n# nothing\n#", []), (POLICY, ["web"]), (f"\n{POLICY}\n#\n{department('db')}#", ["web", "db"])],
    ids=["nothing", "comments", "a department", "two"])
def test_both_read_a_policy(sshstation, room, text, names):
    (room / "policy").write_text(text)
    assert "".join(f"{it}\n" for it in names).encode() == run([sshstation, "policy", "policy"], check=True).stdout
    assert names == [*plain_guard.read_policy(text.encode())]


# ---- random histories

@dataclass
class Call:
    """Bodies that are judged by one run of the program; `is_asked` says that they come on its input, in batches."""
    policy: int
    moment: int
    ahead: int
    bodies: list
    is_asked: bool


@dataclass
class History:
    first: int
    last: int
    policies: list
    bodies: list
    # places of bodies, of which the guard's file has those that an earlier guard may have approved
    old: list
    calls: list

    def kept_before(self):
        """The rows that an earlier guard left: for each serial a moment and a body."""
        found = {}
        for data in (self.bodies[place] for place in self.old):
            with contextlib.suppress(plain_guard.NotABody):
                read = plain_guard.read_body(data)
                if read.ca == CA and self.first <= read.serial <= self.last:
                    found.setdefault(read.serial, (NOW - 1000, data))
        return found


# Keys of small order, and some that are next to one.
KEYS = [*SMALL_ORDER_KEYS, *(encoded(y, sign) for y in (2, PRIME - 2, PRIME + 2, 2 ** 255 - 1) for sign in (0, 1))]
# Keys of the seven types, of small order in security keys, and what is none, each with the name of its certificates.
OF_TYPES = [{"type_name": CERTIFICATES[kind].encode(), "key": key} for kind, key in [
    *TYPES.items(), *MORE, *((SK_ED25519, [it, b"ssh:"]) for it in SMALL_ORDER_KEYS[:3])]]
OF_NONE = [{"type_name": CERTIFICATES[kind].encode(), "key": key} for kind, key in NO_KEYS + MISCOUNTED]
PRINCIPALS = ["alice", "bob", "x@example.org", "@example.org", "a.example.org", "alic", "alicee", "a", "root"]
NAME_RULES = ["{name}", "{name}@example.org", "{name}.example.org"]
RULES = ["alice", "bob", "*@example.org", "*.example.org", "*lice", *NAME_RULES]
# What follows the department in key IDs.
NAMES = ["a", "a/laptop", "b/c", "~!", "alice", "x/alice", "root"]
VALUES = {"force-command": ["/bin/true", " ", "x" * 200], "verify-required": [None],
          "source-address": ["10.0.0.0/8", "10.1.0.0/16", "192.0.2.7/32,0.0.0.0/0",
                             ",".join(f"10.{it}.0.0/16" for it in range(8))]}
# Values that no option may have, and names of none.
BAD_OPTIONS = [("force-command", None), ("force-command", "x" * 201), ("force-command", "a\tb"),
               ("verify-required", "x"), ("source-address", "10.0.0.1/8"), ("source-address", "10.0.0.0/33"),
               ("source-address", "1.2.3.4"), ("source-address", "01.0.0.0/8"), ("no-such-option", None),
               ("permit-pty", None)]


def some_of(source, population, least=0, most=3):
    return source.sample(population, min(source.randint(least, most), len(population)))


def any_musts(source):
    """What certificates must have, mostly nothing."""
    names = sorted(some_of(source, [*VALUES], 1, 2)) if source.random() < 0.2 else []
    return [f"{name} {source.choice(VALUES[name])}" if None not in VALUES[name] and source.random() < 0.5 else name
            for name in names]


def any_key_types(source):
    """The key types that a department lists, mostly none."""
    return source.sample([*CERTIFICATES], source.randint(1, 4)) if source.random() < 0.2 else ()


def any_department(source, name):
    is_user = source.random() < 0.8
    if is_user and source.random() < 0.6:
        return department(name, principals=source.choice([RULES[:4], RULES[:4], NAME_RULES]), options=[*VALUES],
                          musts=any_musts(source), extensions=EVERY_EXTENSION, key_types=any_key_types(source),
                          maxlife=source.choice([1000, LATEST]))
    return department(
        name, kind="user" if is_user else "host", admins=some_of(source, ["ana", "bob"]),
        principals=some_of(source, RULES, 1, 4), options=some_of(source, [*VALUES]) if is_user else (),
        musts=any_musts(source) if is_user else (), key_types=any_key_types(source),
        extensions=some_of(source, EVERY_EXTENSION, 0, 6) if is_user else (),
        maxlife=source.choice([100, 1000, 3600, LATEST]))


def any_policy(source):
    names = some_of(source, ["web", "db", "web2", "a"], source.choice([0, 3, 4]), 4)
    return "".join(source.choice(["", "\n", "# more\n"]) + any_department(source, it) for it in names)


# Other messages, a piece of one, and lines that are none of a department.
PIECES = ["renew 1\nafter 1\nbefore 2\n", "revoke-range 2 1\n", f"rollover {key_line(0x11)} a comment\n", "issue web\n",
          f"issue web\nkeyid web/a\nkey {key_line(0x22)}\nprincipals a\nafter 1\nbefore 2\noption verify-required\n"
          "option source-address 10.0.0.0/8\nextensions permit-pty\n", "kind user\n", "kind host\n", "options \n",
          "must verify-required\n", "must force-command\n", "must source-address 10.0.0.0/8\n", "must force-command \n",
          "key-types ssh-rsa,ssh-ed25519\n", "key-types ssh-dss\n", "namespaces\n",
          "admins ana,ana\n", "principals\n", "principals *\n", "maxlife 0\n", "maxlife 01\n", "namespaces a,b\n",
          "extensions permit-pty,permit-pty\n", " # indented\n", "\r\n", "department A\n", "#", "x"]


def any_text(source):
    """A text that is nearly a policy."""
    text = any_policy(source) + source.choice(["", "#", "\n"])
    for _ in range(source.randint(0, 2)):
        lines = text.splitlines(keepends=True) or [""]
        place = source.randrange(len(lines))
        match source.randrange(5):
            case 0:
                del lines[place]
            case 1:
                lines.insert(place, lines[source.randrange(len(lines))])
            case 2:
                lines.insert(place, source.choice(PIECES))
            case 3:
                lines[place] = source.choice(PIECES)
            case 4:
                lines[place] = lines[place][:source.randrange(len(lines[place]) + 1)]
        text = "".join(lines)
    return text


def departments_of(text):
    """What is due to a policy: its departments, or the fault."""
    try:
        return "".join(f"{it}\n" for it in plain_guard.read_policy(text.encode())), ""
    except plain_guard.Fault as fault:
        return "", f"sshstation: {fault}\n"


@pytest.mark.slow
def test_both_read_the_same_policies(request, sshstation, room):
    """Two thousand texts that are policies or nearly."""
    seed, count = request.config.option.hypothesis_seed, 0
    for number in range(2000):
        text = any_text(random.Random(f"{seed} policy {number}"))
        (room / "policy").write_text(text)
        done = run([sshstation, "policy", "policy"])
        assert departments_of(text) == (done.stdout.decode(), done.stderr.decode()), f"--hypothesis-seed={seed}: {text}"
        count += not done.returncode
    assert 200 < count < 1800


def any_key(source):
    """Mostly the usual key, or one that is nearly of small order, or one of any type."""
    chance = source.random()
    return {"key": source.choice(KEYS)} if chance < 0.15 else source.choice(OF_TYPES) if chance < 0.25 else {}


def any_fields(source, serials):
    """The fields of a body of the profile."""
    kind = 1 if source.random() < 0.85 else 2
    after = source.choice([NOW, NOW, NOW - 50, NOW - 100, NOW + 1, NOW + 3600, NOW + 3601, 0])
    options = [(name, source.choice(VALUES[name])) for name in sorted(some_of(source, [*VALUES]))] if kind == 1 else []
    return {
        "serial": source.choice(serials), "ca": CA if source.random() < 0.95 else source.choice(OTHERS), "kind": kind,
        "key_id": source.choice(["web", "web", "db", "web2", "a", "b"]) + "/" + source.choice(NAMES),
        "principals": some_of(source, PRINCIPALS[:3] if source.random() < 0.8 else PRINCIPALS, 1, 2), "after": after,
        "before": after + source.choice([1, 50, 100, 101, 1000, 3600, 3601, 10 ** 6]),
        "options": options if source.random() < 0.5 else [],
        "extensions": sorted(some_of(source, EVERY_EXTENSION, 0, 3)) if kind == 1 and source.random() < 0.6 else [],
        "nonce": bytes([source.randrange(3)]) * 32, **any_key(source)}


def spoiled(source, fields):
    """The bytes of a body of which one field or more is none, or whose bytes are changed."""
    others = {
        "serial": [0, LAST_SERIAL + 1, LAST_SERIAL, 2 ** 64 - 1], "kind": [0, 3], "before": [0, LATEST + 1, LATEST],
        "key_id": ["web", "web/", "/a", "Web/a", "web/" + "x" * 65, "web/a b", "w" * 33 + "/a"],
        "principals": [[], ["alice", "alice"], ["a b"], [""], ["x" * 65], [f"p{it}" for it in range(17)], ["Alice"]],
        "nonce": [bytes(31), b""], "key": [bytes(33), *(it["key"] for it in OF_NONE)], "reserved": [b"x"],
        "type_name": [*(it.encode() for it in CERTIFICATES.values()), b"ssh-dss-cert-v01@openssh.com", b""],
        "ca": [b"", CA[:-1], CA + b"\0", CA.replace(b"519", b"518")],
        "options": [[it] for it in BAD_OPTIONS] + [[("verify-required", None)] * 2,
                                                   [("verify-required", None), ("force-command", "a")]],
        "extensions": [["permit-pty", "permit-X11-forwarding"], ["permit-pty"] * 2, ["force-command"], ["permit-x11"]]}
    for name in some_of(source, [*others], 0, 2):
        fields = fields | {name: source.choice(others[name])}
    if source.random() < 0.2:
        fields |= source.choice(OF_NONE)
    text = bytearray(body(**fields))
    match source.randrange(6):
        case 0:
            text[source.randrange(len(text))] ^= 1 << source.randrange(8)
        case 1:
            del text[source.randrange(len(text)):]
        case 2:
            text += source.randbytes(source.choice([1, 4, 16384]))
        case 3:
            place = source.randrange(len(text))
            text[place:place] = source.randbytes(source.randint(1, 4))
    return bytes(text)


def any_call(source, bodies):
    """A batch has no body of another length."""
    is_asked = source.random() < 0.5
    places = [it for it, text in enumerate(bodies) if not is_asked or 1 <= len(text) <= plain_guard.LONGEST_BODY]
    return Call(source.randrange(3), NOW + source.choice([0, 0, 1, -1, 49, 50, 3600]),
                source.choice([0, 1, 3600, 2 ** 64 - 1]), source.choices(places, k=EACH), is_asked)


def in_batches(source, bodies):
    """The input with these bodies, in batches of any size."""
    text = b""
    while bodies:
        count = source.choice([1, 2, 3, source.randint(1, plain_guard.MOST_BODIES), plain_guard.MOST_BODIES])
        text, bodies = text + batch(*bodies[:count]), bodies[count:]
    return text


def any_history(source):
    first = source.choice([1, 1, 5])
    last = source.choice([LAST_SERIAL] * 3 + [first + 8, first])
    serials = [*range(1, 40), LAST_SERIAL]
    fields = [any_fields(source, serials) for _ in range(BODIES)]
    bodies = [spoiled(source, it) if source.random() < 0.2 else body(**it) for it in fields]
    calls = [any_call(source, bodies) for _ in range(CALLS)]
    old = some_of(source, range(BODIES), 0, 10)
    return History(first, last, [any_policy(source) for _ in range(3)], bodies, old, calls)


def due(history):
    """The lines that the guard in Python answers, of all calls, and the serials and digests that it then keeps."""
    guard = plain_guard.PlainGuard(CA, history.first, history.last, history.kept_before())
    policies = [plain_guard.read_policy(it.encode()) for it in history.policies]
    lines = [guard.answer(policies[it.policy], it.moment, it.ahead, history.bodies[place])
             for it in history.calls for place in it.bodies]
    return lines, [[str(serial), digest_of(data)] for serial, (_, data) in sorted(guard.approved.items())]


class Given:
    """The program, over a new file for each history, by the clock that a call has."""

    def __init__(self, program, room):
        self.program, self.room, self.count = program, room, 0
        self.library = preloaded("strange_system.c", room)
        (room / "ca.pub").write_text(key_line(0x11) + "\n")

    def lines(self, history):
        """The lines that the program prints, and the serials and digests of its rows at the end."""
        self.count += 1
        guard = Guard(self.program, self.room / f"{self.count}.db", self.room / "ca.pub", first=history.first,
                      last=history.last)
        with contextlib.closing(sqlite3.connect(guard.db)) as tables, tables:
            tables.executemany("INSERT INTO approved VALUES (?, ?, ?)",
                               [(serial, *kept) for serial, kept in history.kept_before().items()])
        for place, text in enumerate(history.bodies):
            (self.room / str(place)).write_bytes(text)
        for place, text in enumerate(history.policies):
            (self.room / f"policy-{place}").write_text(text)
        lines = [line for call in history.calls for line in self.answers(guard, call)]
        rows = [row[:2] for row in guard.bodies()]
        for file in self.room.glob(f"{self.count}.*"):
            file.unlink()
        return lines, rows

    def answers(self, guard, call):
        if not call.bodies:
            return []
        paths = [str(it) for it in call.bodies]
        words = [self.program, "judge", "--db", guard.db, "--policy", self.room / f"policy-{call.policy}", "--ahead",
                 str(call.ahead), *(["-"] if call.is_asked else paths)]
        environment = os.environ | {"LD_PRELOAD": str(self.library), "MOMENT": str(call.moment)}
        source = random.Random(str(call))
        input = in_batches(source, [(self.room / it).read_bytes() for it in paths]) if call.is_asked else b""
        done = subprocess.run(words, env=environment, capture_output=True, timeout=800, cwd=self.room, input=input)
        assert (0, b"") == (done.returncode, done.stderr)
        return done.stdout.decode().splitlines()


def shorter(history, differs, tries=150):
    """A history of fewer bodies that still differs."""
    def with_calls(bodies):
        return [Call(it.policy, it.moment, it.ahead, some, it.is_asked) for it, some in zip(history.calls, bodies)]

    bodies, size = [it.bodies for it in history.calls], EACH
    while size and tries:
        for number in range(CALLS):
            place = 0
            while place < len(bodies[number]) and tries:
                fewer = [*bodies]
                fewer[number] = bodies[number][:place] + bodies[number][place + size:]
                made = replace(history, calls=with_calls(fewer))
                tries -= 1
                if differs(made):
                    bodies = fewer
                else:
                    place += size
        size //= 4
    return replace(history, calls=with_calls(bodies))


def described(history, given):
    """A history that fails, as a text."""
    yield f"serials {history.first} to {history.last}"
    yield from (f"approved before: {data.hex()}" for _, data in history.kept_before().values())
    answers = iter(zip(due(history)[0], given.lines(history)[0]))
    for call in history.calls:
        if call.bodies:
            yield f"moment {call.moment}, ahead {call.ahead}, {'asked' if call.is_asked else 'named'}, under\n" \
                  f"{history.policies[call.policy]}"
        for place in call.bodies:
            wanted, got = next(answers)
            yield f"{history.bodies[place].hex()}\n  due {wanted}\n  got {got}"


def additions_of(history):
    """How many bodies are judged by a policy that has each of the additions."""
    return collections.Counter(name for it in history.calls for name in additions_in(history.policies[it.policy])
                               for _ in it.bodies)


# What each of the answers begins with that a history may get.
KINDS = {"sign", "refuse OtherCa", "refuse OtherSerial", "refuse SerialTaken", "refuse NoDepartment",
         "refuse OtherKind", "refuse NotPermitted", "refuse AlreadyEnded", "refuse TooFarAhead",
         *(f"refuse NotABody {it}" for it in (
             "TooLong", "WrongType", "BadNonce", "BadKey", "BadSerial", "BadKind", "BadKeyId", "BadPrincipals",
             "BadValidity", "BadOptions", "BadExtensions", "BadReserved", "BadCa", "TrailingBytes", "Truncated"))}


@pytest.mark.slow
@pytest.mark.timeout(36000)
def test_the_program_answers_as_the_guard_in_python_does(request, sshstation, room):
    seed = int(request.config.option.hypothesis_seed)
    given, seen, count, additions = Given(sshstation, room), set(), 0, collections.Counter()
    while count < request.config.getoption("--judgements"):
        history = any_history(random.Random(f"{seed} {count}"))
        wanted, kept = due(history)
        lines, rows = given.lines(history)
        if wanted != lines:
            short = described(shorter(history, lambda it: due(it)[0] != given.lines(it)[0]), given)
            pytest.fail(f"--hypothesis-seed={seed}, at {count}\n" + "\n".join(short), pytrace=False)
        assert kept == rows, "what is kept"
        seen |= {" ".join(it.split()[:1] if it.startswith("sign ") else it.split()) for it in wanted}
        count += len(lines)
        additions += additions_of(history)
    print(f"figure: {count} judgements, by policies with "
          f"{', '.join(f'{name} {some}' for name, some in sorted(additions.items()))}")
    assert seen <= KINDS
    assert seen == KINDS or count < 50_000, "each kind of answer was due"
    assert {*ADDITIONS} == {*additions} or count < 5_000, "each addition was there"
