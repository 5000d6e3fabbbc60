"""Which texts are messages, each limit at and past its end: a text that is none is refused as BadMessage, and the crate
that reads it names its first bad line.

A message of each kind is given another line in one place, and is posted by root to the trial office in memory. Of each
worked message each beginning is posted as well, and the message with some bytes more. No program prints the number of a
bad line: a small one that does, bad_lines.txt, is made for the test, of the crate `message` and with no proof. Of
networks Python and ssh-keygen are asked at each run.
"""
import base64
import ipaddress
import itertools
import random
import re
import shutil

import pytest

from asking import DIGEST, EXTENSIONS, KEY, LAST_SERIAL, LATEST, OPTIONS, OTHER_CA, exchange, post, string
from running import TOP, applied, left_out, new_key, run
from subject_keys import (CERTIFICATES, ED25519, KEYS, LINES, MISCOUNTED, MORE, NO_KEYS, P256, P384, RSA, SK_ED25519,
                          line_of)

pytestmark = pytest.mark.rows

OTHER_KEY = OTHER_CA
BAD = b"refused 7 BadMessage\n"


def blob(algorithm, size):
    """A signature blob of so many bytes 44."""
    return string(algorithm) + string(b"\x44" * size)


def base64_of(data):
    return base64.b64encode(data).decode()


BLOB = blob(b"ssh-ed25519", 64)
SIGNATURE = base64_of(BLOB)

USERS = ["department web", "kind user", "admins ana", "principals alice,*@example.org", "options force-command",
         "extensions permit-X11-forwarding,permit-agent-forwarding,permit-pty", "maxlife 86400", "namespaces file,git"]
HOSTS = ["department db", "kind host", "admins", "principals *.example.org", "options", "extensions", "maxlife 86400",
         "namespaces"]
DEMANDING = ["department web", "kind user", "admins ana", "principals alice", "options", "must force-command /bin/true",
             "must source-address 10.0.0.0/8", "must verify-required", "extensions",
             "key-types sk-ssh-ed25519@openssh.com,ssh-rsa", "maxlife 86400", "namespaces"]
TYPED = [*HOSTS[:6], "key-types ssh-ed25519", *HOSTS[6:]]
BARE = [*USERS[:3], "principals alice,{name}", *USERS[4:7], "namespaces"]
ISSUE = ["issue web", "keyid web/alice", f"key {KEY}", "principals alice", "after 1000", "before 2000", "extensions"]
WITH_OPTION = [*ISSUE[:6], "option force-command /bin/true", "extensions"]
WITH_TWO = [*ISSUE[:6], "option force-command a", "option verify-required", "extensions"]
WITH_ALL = ["issue web", "keyid web/alice", f"key {KEY}", "principals alice,x@example.org", "after 0",
            "before 253402300799", "option verify-required", "option force-command /bin/true  x",
            "option source-address 10.0.0.0/8,192.0.2.1/32", "extensions permit-pty,permit-X11-forwarding"]
RENEWAL = ["renew 1", "after 1500", "before 2500"]
DELIVERY = ["deliver 1", f"digest {DIGEST}", f"signature {SIGNATURE}"]
SERIAL, RANGE, KEY_ID = ["revoke-serial 1"], ["revoke-range 3 10"], ["revoke-keyid web/alice"]
ROLLOVER = [f"rollover {OTHER_KEY}"]

SIXTEEN = ",".join("abcdefghijklmnop")
EIGHT = ",".join("abcdefgh")
LAST, BEHIND = LAST_SERIAL, LAST_SERIAL + 1

# Each message with its bytes, as they were counted.
WORKED = [(USERS, 191), (HOSTS, 100), (DEMANDING, 223), (TYPED, 122), (ISSUE, 162), (WITH_ALL, 317), (RENEWAL, 31),
          (DELIVERY, 205), (SERIAL, 16),
          (RANGE, 18), (KEY_ID, 23), (ROLLOVER, 90), ([f"rollover {OTHER_KEY} the next key"], 103)]


def each(word, values):
    """Lines of this word, each with one of the values behind it."""
    return [f"{word} {value}" for value in values]


NUMBERS = ["", "00", "01", "+1", "-1", "1 ", " 1", "0x1", "18446744073709551616", "99999999999999999999999"]
NAMES = ["a", "web-2", "-", "a" * 32], ["", "Web", "web_2", "web.2", "web 2", " web", "a" * 33]
ALPHABET = ["x@example.org", "a_b.c-d@e9"], ["", "Bob", "a/b", "a*", "a\r"]

# As Python's strict ipaddress and ssh-keygen -O source-address decide, but that the size must be there, and that
# leading zeros are refused.
NETWORKS = (["10.0.0.0/8", "0.0.0.0/0", "255.255.255.255/32", "192.168.2.0/23", "172.16.0.0/12",
             "10.0.0.0/8,192.168.2.0/23", ",".join(f"{n}.0.0.0/8" for n in range(1, 9))],
            ["10.0.0.1/8", "128.0.0.0/0", "255.255.255.255/31", "192.168.1.0/23", "172.17.0.0/12", "10.0.0.0/33",
             "256.0.0.0/8", "010.0.0.0/8", "10.0.0.0/08", "10.0.0/8", "10.0.0.0.0/8", "10.0.0.0", "10.0.0.0/",
             "10.0.0.0/8/8", "::/0", "", "10.0.0.0/8,", "10.0.0.0/8 ,192.168.2.0/23",
             ",".join(f"{n}.0.0.0/8" for n in range(1, 10))])
# Those that ssh-keygen takes all the same: leading zeros, three numbers, no size, IPv6, and more than eight of them.
OF_SSH_KEYGEN = {"010.0.0.0/8", "10.0.0.0/08", "10.0.0/8", "10.0.0.0", "::/0", NETWORKS[1][-1]}

# As OpenSSH's PROTOCOL.u2f and ssh-keygen -t name them.
KEY_TYPES = ["ssh-ed25519", "sk-ssh-ed25519@openssh.com", "ecdsa-sha2-nistp256", "ecdsa-sha2-nistp384",
             "ecdsa-sha2-nistp521", "sk-ecdsa-sha2-nistp256@openssh.com", "ssh-rsa"]

UNKNOWN = ["permit-x11-forwarding", "permit-pty@example.org", "permit-x"]

# A message, the place of a line from 0, lines with which the message is one, and lines with which the text is none.
ROWS = [
    (USERS, 0, each("department", NAMES[0]),
     [*each("department", NAMES[1]), "department", "Department web", "departments web", ""]),
    (USERS, 1, [], ["kind", "kind users", "kind  user", "kind host"]),
    (USERS, 2, ["admins", "admins ana,ben", f"admins {SIXTEEN}"],
     [*each("admins", NAMES[1]), "admins ana,ana", "admins ana,", "admins ana, ben", f"admins {SIXTEEN},q"]),
    (USERS, 3, [*each("principals", ALPHABET[0]), "principals *a", f"principals {SIXTEEN}", "principals *" + "a" * 63,
                "principals " + "a" * 64],
     [*each("principals", ALPHABET[1]), "principals", "principals *", "principals **", "principals alice,alice",
      f"principals {SIXTEEN},q", "principals *" + "a" * 64, "principals " + "a" * 65]),
    (USERS, 2, each("admins", ["{name}", "host-{name}", "ana,{name},-{name}", "a" * 31 + "{name}"]),
     each("admins", ["{name}a", "{Name}", "{name", "a.{name}", "{name}{name}", "{name},{name}", "a" * 32 + "{name}"])),
    (USERS, 3, each("principals", ["{name}.a", "{name}@a", "alice,{name}.a,{name}@a", "{name}." + "a" * 62]),
     each("principals", ["{name}.", "{name}@", "{name}a", "{name}-a", "{name}.{name}", "{name}.A", "a{name}", "*{name}",
                         "{Name}.a", "{name}.a,{name}.a", "{name}." + "a" * 63, "{name}"])),
    (HOSTS, 3, each("principals", ["{name}", "{name}.example.org"]), each("principals", ["{name}*", "{}", "{name}x"])),
    (BARE, 7, [], ["namespaces git"]),
    (BARE, 3, ["principals {name}", "principals alice"], []),
    (USERS, 4, ["options", *each("options", OPTIONS), f"options {','.join(reversed(OPTIONS))}"],
     ["options force-command,force-command", "options Force-command", *each("options", [*EXTENSIONS, *UNKNOWN, ""])]),
    (USERS, 5, ["extensions", *each("extensions", EXTENSIONS), f"extensions {','.join(EXTENSIONS)}"],
     ["extensions permit-pty,permit-pty", *each("extensions", [*OPTIONS, *UNKNOWN, ""])]),
    (USERS, 6, ["maxlife 1", f"maxlife {LATEST}"], ["maxlife", *each("maxlife", [*NUMBERS, 0, LATEST + 1])]),
    (USERS, 7, ["namespaces", *each("namespaces", ALPHABET[0]), f"namespaces {EIGHT}", "namespaces " + "a" * 32],
     [*each("namespaces", ALPHABET[1]), f"namespaces {EIGHT},i", "namespaces git,git", "namespaces " + "a" * 33]),
    (HOSTS, 1, ["kind user"], []),
    (HOSTS, 5, [], ["must force-command", "must verify-required", "must source-address 10.0.0.0/8"]),
    (DEMANDING, 5, ["must force-command", "must force-command a  b ", "must force-command " + "a" * 200],
     ["must force-command ", "must force-command " + "a" * 201, "must force-command a\tb", "must", "must ", "must permit-pty",
      "must Force-command", "must  force-command", "option force-command a", "Must force-command", "must x y"]),
    (DEMANDING, 6, ["must source-address", *each("must source-address", NETWORKS[0])],
     [*each("must source-address", NETWORKS[1]), "must force-command", "must force-command b"]),
    (DEMANDING, 7, [], ["must verify-required ", "must verify-required x", "must source-address", "must force-command"]),
    (DEMANDING, 8, ["extensions permit-pty"], ["must verify-required", "must force-command", "key-types ssh-rsa"]),
    (DEMANDING, 9, [*each("key-types", KEY_TYPES), f"key-types {','.join(KEY_TYPES)}", "key-types ssh-rsa,ssh-ed25519"],
     ["key-types", *each("key-types", ["", "ssh-dss", "ssh-rsa,ssh-rsa", "ssh-rsa,", ",ssh-rsa", "ssh-rsa, ssh-ed25519",
                                       "SSH-RSA", "rsa-sha2-256", *CERTIFICATES.values()]),
      f"key-types {','.join([*KEY_TYPES, KEY_TYPES[0]])}", "key-type ssh-rsa", "must verify-required"]),
    (DEMANDING, 10, [], ["key-types ssh-rsa", "must verify-required"]),
    (TYPED, 6, ["key-types ecdsa-sha2-nistp256", "key-types sk-ssh-ed25519@openssh.com,ssh-ed25519"], ["key-types ssh-dss"]),
    (HOSTS, 4, [], ["options force-command"]),
    (HOSTS, 5, [], ["extensions permit-pty"]),
    (HOSTS, 7, [], ["namespaces git"]),
    (ISSUE, 0, ["issue none"], ["issue", "issue ", "issue Web"]),
    (ISSUE, 1, each("keyid", ["db/alice", "web/a/b~!", "web/" + "a" * 64]),
     each("keyid", ["web/", "/alice", "web", "Web/alice", "web/a b", "web/al\x7f", "web/" + "a" * 65])),
    (ISSUE, 2, [f"key {KEY} ", f"key {KEY} a comment"], ["key ssh-ed25519 AAAA", "key ", f"key {KEY} a\x01"]),
    # Keys of all types, and what is none of its type.
    (ISSUE, 2, [*each("key", LINES.values()), *(f"key {it} \xff b" for it in LINES.values()),
                *each("key", itertools.starmap(line_of, MORE))],
     [*each("key", itertools.starmap(line_of, NO_KEYS + MISCOUNTED)), *(f"key {it} a\x01" for it in LINES.values()),
      *(f"key {kind} " for kind in LINES), *(f"key {it} {'a' * 1025}" for it in LINES.values()),
      # Another type's blob, an unknown type, a certificate's, no padding, bits that stand for nothing, a tab.
      f"key {line_of(P384, KEYS[P256], P256)}", f"key {line_of(SK_ED25519, KEYS[SK_ED25519], ED25519)}",
      f"key {line_of('ssh-dss', [b'1', b'2', b'3', b'4'])}", f"key {line_of(CERTIFICATES[RSA], KEYS[RSA])}",
      f"key {LINES[P256][:-1]}", f"key {LINES[P256][:-2]}5=", f"key {LINES[RSA]}====",
      "key " + LINES[RSA].replace(" ", "\t"), "key ssh-rsa AAAA", f"key  {LINES[RSA]}"]),
    (ISSUE, 3, [*each("principals", ALPHABET[0]), f"principals {SIXTEEN}", "principals " + "a" * 64],
     [*each("principals", ALPHABET[1]), "principals", "principals *@example.org", "principals alice,alice",
      f"principals {SIXTEEN},q", "principals " + "a" * 65]),
    (ISSUE, 4, each("after", [0, 7, LATEST]), each("after", [*NUMBERS, LATEST + 1])),
    (ISSUE, 5, each("before", [0, LATEST]), ["before", *each("before", [*NUMBERS, LATEST + 1])]),
    (ISSUE, 6, ["extensions permit-user-rc,permit-pty"],
     ["extensions permit-pty,permit-pty", "extensions verify-required", "extensions ", "option verify-required"]),
    (WITH_OPTION, 6, [*each("option force-command", ["/bin/true", "echo a, b ~", "a" * 200]), "option verify-required",
                      *each("option source-address", NETWORKS[0])],
     [*each("option force-command", ["", "a\tb", "a\x7f", "a" * 201]), "option force-command", "option", "option ",
      *each("option source-address", NETWORKS[1]), "option verify-required ", "option verify-required x", "option x y",
      *each("option", EXTENSIONS), "option permit-tty"]),
    (WITH_TWO, 7, ["option source-address 10.0.0.0/8"], ["option force-command b", "option force-command"]),
    ([*WITH_TWO[:6], *WITH_TWO[7:5:-1], "extensions"], 8, ["extensions permit-pty"], []),
    (RENEWAL, 0, [f"renew {LAST}"], ["renew", *each("renew", [*NUMBERS, 0, BEHIND])]),
    (RENEWAL, 1, [f"after {LATEST}"], [f"after {LATEST + 1}", "before 1500"]),
    (RENEWAL, 2, ["before 0"], [f"before {LATEST + 1}", "after 2500"]),
    (DELIVERY, 0, [f"deliver {LAST}"], ["deliver", *each("deliver", [*NUMBERS, 0, BEHIND])]),
    (DELIVERY, 1, ["digest " + "0" * 64],
     ["digest", f"digest {DIGEST[:-1]}", f"digest {DIGEST}0", f"digest {DIGEST.upper()}", f"digest {DIGEST[:-1]}g"]),
    # Without its padding, with a space, with a bit set that stands for none of the 64 bytes, of 63 and 65 bytes, of
    # another algorithm, with a byte more, and each beginning of the blob.
    (DELIVERY, 2, [], ["signature", *each("signature", [
        SIGNATURE[:-1], f"{SIGNATURE} ", SIGNATURE[:-2] + "R=", *map(base64_of, [
            blob(b"ssh-ed25519", 63), blob(b"ssh-ed25519", 65), blob(b"ssh-ed25520", 64), BLOB + b"\x44",
            *[BLOB[:size] for size in range(len(BLOB))]])])]),
    (SERIAL, 0, [f"revoke-serial {LAST}"],
     ["revoke 1", "revoke-serial", "revoke-serial 1 2", *each("revoke-serial", [*NUMBERS, 0, BEHIND, 2 ** 64 - 1])]),
    (RANGE, 0, ["revoke-range 1 1", f"revoke-range 1 {LAST}"],
     each("revoke-range", ["1", "1 ", "1  2", "1 2 ", "2 1", "0 1", f"1 {BEHIND}"])),
    (KEY_ID, 0, ["revoke-keyid web/a"], ["revoke-keyid", *each("revoke-keyid", ["web", "web/a b", "/a", ""])]),
    (ROLLOVER, 0, [f"rollover {OTHER_KEY} "],
     ["rollover", *each("rollover", ["ssh-rsa AAAA", OTHER_KEY[:-1], f"{OTHER_KEY} a\x7f"])]),
]


def text(lines):
    return "".join(f"{line}\n" for line in lines).encode()


def shown(line):
    return repr(line) if len(line) <= 70 else f"{line[:40]!r}.. of {len(line)} characters"


# Lines that another message may have in their place, so that the first bad line is a later one: a department for hosts
# has no options, one with {name} alone among its principals no namespaces, and behind an option stands another or the
# extensions.
LATER = {("department web", "kind host"): 5, ("department web", "principals {name}"): 8,
         ("issue web", "option verify-required"): 8}


def all_rows():
    """What is posted: what it is, its bytes, and the number of the first bad line, or 0 where they are a message."""
    for lines, place, good, bad in ROWS:
        for line, is_message in [*((it, True) for it in good), *((it, False) for it in bad)]:
            changed = [*lines[:place], line, *lines[place + 1:]]
            number = 0 if is_message else LATER.get((lines[0], line), place + 1)
            yield f"{lines[0]!r} with {shown(line)} as line {place + 1}", text(changed), number
    for lines, _ in WORKED:
        whole = text(lines)
        yield f"{lines[0]!r} whole", whole, 0
        for more in (b"\n", b"x", b"\0", b" ", whole):
            yield f"{lines[0]!r} with {shown(more.decode())} behind it", whole + more, len(lines) + 1
        for size in range(len(whole)):
            yield f"the first {size} bytes of {lines[0]!r}", whole[:size], whole[:size].count(b"\n") + 1


POSTED = [*all_rows()]


@pytest.fixture(scope="module")
def replies(program, tmp_path_factory):
    """What each text is answered, posted under a key of its own."""
    exchanges = [exchange(post("root", f"m{place}", it[1]), 1000, 0x33) for place, it in enumerate(POSTED)]
    return [it.body for it in applied(program, exchanges, tmp_path_factory.mktemp("messages"))]


@pytest.mark.parametrize(("lines", "size"), WORKED, ids=[lines[0] for lines, _ in WORKED])
def test_a_worked_message_has_its_length(lines, size):
    assert size == len(text(lines))


def test_each_text_is_answered(replies):
    assert len(POSTED) == len(replies)


@pytest.mark.parametrize(("place", "number"), [(place, it[2]) for place, it in enumerate(POSTED)],
                         ids=[what for what, _, _ in POSTED])
def test_a_text_is_a_message_or_none(replies, place, number):
    assert (number > 0) == (replies[place] == BAD), replies[place]


# ---- the first bad line

WHOLE = text(ISSUE)
# What docs/FORMATS.md says of the issue there.
PRINTED = [
    *[(f"the first {size} bytes", WHOLE[:size], 1) for size in range(10)],
    *[(f"the first {size} bytes", WHOLE[:size], 2) for size in range(10, 26)],
    ("without the last LF", WHOLE[:161], 7),
    ("with one more LF", WHOLE + b"\n", 8),
    ("with another line 2", text([ISSUE[0], "kind user", *ISSUE[2:]]), 2),
    ("with an option without its value", text([*ISSUE[:6], "option force-command", ISSUE[6]]), 7),
    ("with an option twice", text([*ISSUE[:6], *["option force-command a"] * 2, ISSUE[6]]), 8),
    # And what follows from its rule: a fourth option, and what stands behind three.
    ("with a fourth option", text([*WITH_ALL[:9], WITH_ALL[8], WITH_ALL[9]]), 10),
    ("with three options and no extensions", text(WITH_ALL[:9]), 10),
    ("with three options and a line more", text([*WITH_ALL, "x"]), 11),
]


@pytest.fixture(scope="module")
def bad_lines(tmp_path_factory):
    """The number of the first bad line of each text, as the crate `message` of this repository says it: of those that
    are posted above, and of those that docs/FORMATS.md shows."""
    if not shutil.which("rt"):
        left_out("the toolchain's command rt isn't on the PATH")
    folder = tmp_path_factory.mktemp("bad-lines")
    lists = re.findall(r"^((\w+):.*)$", (TOP / "crates.txt").read_text(), re.M)
    below = lists[:[name for _, name in lists].index("message") + 1]
    for _, name in below:
        for part in ("src", "specs", "proofs"):
            if (TOP / "crates" / name / part).is_dir():
                shutil.copytree(TOP / "crates" / name / part, folder / "crates" / name / part)
    made = folder / "crates/bad_lines"
    (made / "src").mkdir(parents=True)
    shutil.copy(TOP / "tests/bad_lines.txt", made / "src/main.rt")
    (folder / "crates.txt").write_text("".join(f"{line}\n" for line, _ in below) + "bad_lines: anyhow message\n")
    (folder / "HANDLES").write_text("Handles allowed: none.\n")

    (made / "texts").write_bytes(b"".join(string(it) for _, it, _ in POSTED + PRINTED))
    return [*map(int, run(["rt", "try", "--", "texts"], cwd=made, timeout=1400, check=True).stdout.split())]


@pytest.mark.slow
@pytest.mark.xdist_group("bad-lines")
def test_the_first_bad_line_of_each_text_is_named(bad_lines):
    wanted = {f"{place}, {what}": number for place, (what, _, number) in enumerate(POSTED)}
    assert wanted == dict(zip(wanted, bad_lines[:len(POSTED)], strict=True))


@pytest.mark.slow
@pytest.mark.xdist_group("bad-lines")
@pytest.mark.parametrize(("what", "place"), [(it[0], place) for place, it in enumerate(PRINTED)])
def test_a_bad_line_is_that_of_the_formats(bad_lines, what, place):
    assert PRINTED[place][2] == bad_lines[len(POSTED) + place]


# A network of IPv4 with four numbers and its size, as decimal numbers without leading zeros.
CANONICAL = re.compile(r"(0|[1-9]\d*)(\.(0|[1-9]\d*)){3}/(0|[1-9]\d*)")


def by_python(network):
    """Whether Python takes it for a network of IPv4, with its size, without leading zeros in its numbers."""
    try:
        return "/" in network and str(ipaddress.IPv4Network(network)) == network
    except ValueError:
        return False


@pytest.fixture(scope="module")
def keys(tmp_path_factory):
    folder = tmp_path_factory.mktemp("keys")
    for name in ("ca", "user"):
        new_key(folder / name)
    return folder


@pytest.mark.parametrize("networks", NETWORKS[0] + NETWORKS[1], ids=repr)
def test_python_and_ssh_keygen_agree_on_networks(keys, networks):
    is_ours = networks in NETWORKS[0]
    assert is_ours == (len(networks.split(",")) <= 8 and all(map(by_python, networks.split(","))))
    words = ["-I", "x", "-O", f"source-address={networks}", keys / "user.pub"]
    made = run(["ssh-keygen", "-q", "-s", keys / "ca", *words])
    assert (is_ours or networks in OF_SSH_KEYGEN) == (made.returncode == 0), made.stderr
    if is_ours:
        shown_by_keygen = run(["ssh-keygen", "-L", "-f", keys / "user-cert.pub"], check=True).stdout.decode()
        assert f"source-address {networks}\n" in shown_by_keygen


def some_networks(seed, count):
    """Texts that are networks or nearly so, other ones at each run."""
    pick = random.Random(seed)
    for _ in range(count):
        size = pick.choice([0, 1, 7, 8, 9, 16, 23, 24, 31, 32, 33])
        address = pick.getrandbits(32) & -(1 << max(0, 32 - size + pick.choice([0, 0, -1, -2, 1])))
        parts = [str(address >> place & 255) for place in (24, 16, 8, 0)]
        yield pick.choice(["{}/{}"] * 12 + ["0{}/{}", "{}/0{}", "{}.0/{}", "{} /{}", "{}/{}.", "{}", "{}/-{}", "+{}/{}"]
                          ).format(".".join(parts[:pick.choice([4, 4, 4, 4, 3])]), size)


def test_python_the_office_and_ssh_keygen_agree_on_other_networks(program, keys, room, request):
    """What the office takes, Python and ssh-keygen take, and what one of them refuses, the office refuses; and of those
    that are written as the formats write them ssh-keygen takes no more."""
    networks = [*some_networks(request.config.getoption("hypothesis_seed"), 200)]
    given = [BAD != it.body for it in applied(program, [exchange(post("root", f"n{place}", text(
        [*ISSUE[:6], f"option source-address {it}", ISSUE[6]])), 1000, 0x33) for place, it in enumerate(networks)])]
    assert dict(zip(networks, map(by_python, networks))) == dict(zip(networks, given))
    assert 40 < sum(given) < 160, "some are networks, and some are none"
    for network, is_taken in zip(networks, given):
        words = ["-I", "x", "-O", f"source-address={network}", keys / "user.pub"]
        made = run(["ssh-keygen", "-q", "-s", keys / "ca", *words])
        assert is_taken <= (made.returncode == 0), network
        assert is_taken or made.returncode or not CANONICAL.fullmatch(network), network
