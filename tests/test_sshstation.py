"""The program sshstation: commands with their status and output, faults by their names and in their order, help.

What a guard answers of a body is compared in test_guard, and what the station around the program does in test_station.
Digests are those of hashlib, the fingerprint is that of FORMATS, and the texts of help are those that clap 4 writes.
"""
import base64
import contextlib
import errno
import itertools
import os
import sqlite3
import stat
import subprocess
import time

import pytest
from cryptography.exceptions import InvalidSignature
from cryptography.hazmat.primitives.asymmetric.ed25519 import Ed25519PublicKey

import asking
import running
from asking import (CA, LAST_SERIAL, LATEST, PRIME, SMALL_ORDER_KEYS, SMALL_ORDER_YS, batch, department, digest_of,
                    encoded, key_blob)
from running import new_key, preloaded, run
from stations import EVERY_EXTENSION, init
from subject_keys import CERTIFICATES, ED25519, KEYS, LINES, MORE, NO_KEYS

pytestmark = pytest.mark.rows

# The words that make the guard of most of these tests.
INIT = init("guard.db", "ca.pub", last=100)
FINGERPRINT = "SHA256:SQfC+vTbLURn9cTkVxIS8fGQ3FKNAJWeB0o139+gV4M"
MOST = 2 ** 64 - 1

HELP = """\
Decides which SSH certificates and revocation lists a CA's key may sign, and records what it approves

Usage: sshstation <COMMAND>

Commands:
  init    Creates a guard in a new database
  judge   Decides whether unsigned certificates may be signed, and records those that may
  bodies  Prints one line per approved certificate
  body    Prints the unsigned certificate that was approved under a serial
  policy  Checks a policy and prints the names of its departments
  retire  Lowers the last serial
  lists   Creates a guard of lists, which has approved no KRL yet
  list    Decides whether a KRL may follow the last approved one, and records it if it may
  help    Print this message or the help of the given subcommand(s)

Options:
  -h, --help     Print help
  -V, --version  Print version

Typical order:
  1. init creates a guard in a new database, on the machine with the CA's key.
  2. policy checks a policy.
  3. judge decides for each unsigned certificate (BODY) whether it may be signed. What it
     approves is recorded before it is printed.
  4. lists creates a guard of lists, and list decides whether a KRL may follow the last one.

Exit status:
  0  success
  1  a fault, named on standard error
  2  invalid arguments

Example:
  sshstation judge --db guard.db --policy policy body

Each command has its own help, for example sshstation init --help.
Write a value that begins with '-' as --OPTION=VALUE. Arguments that begin with '-' go after --.
"""

HELP_OF_JUDGE = """\
Decides whether unsigned certificates may be signed, and records those that may

Usage: sshstation judge [OPTIONS] --db <PATH> --policy <PATH> <BODY>...

Arguments:
  <BODY>...  The files of unsigned certificates, or - to read them from standard input

Options:
      --db <PATH>        The guard's database, created by init
      --policy <PATH>    The file with the policy: the departments that may be signed for
      --ahead <SECONDS>  How many seconds from now a certificate's validity may begin [default: 3600]
  -h, --help             Print help

Example:
  sshstation judge --db guard.db --policy policy body

It prints one line per BODY, in order: sign SERIAL DIGEST or refuse NAME.
If the only BODY is -, it reads batches from standard input: a line judge COUNT, and for each BODY a
line with its length in bytes, and the bytes. COUNT is at most 64. It reads the policy again before
each batch, and answers a batch before it reads the next.
"""


HELP_OF_LIST = """\
Decides whether a KRL may follow the last approved one, and records it if it may

Usage: sshstation list [OPTIONS] --db <PATH> --ca <PATH> <LIST>

Arguments:
  <LIST>  The file with the KRL

Options:
      --db <PATH>  The database of the guard of lists, created by lists --init
      --ca <PATH>  The file with the public-key line of a CA whose certificates the KRL may revoke; one --ca per CA
      --begin      Allows a first KRL; without effect once one is approved
  -h, --help       Print help

Example:
  sshstation list --db lists.db --ca ca.pub krl

It prints one line: list SHA256 VERSION TIME or refuse NAME.
A KRL is refused if it is older than the last approved one, has the same version but other bytes, or
takes a revocation back. Approving the first KRL requires --begin.
"""


def body(serial=1, *, keyid="web/alice", nonce=0x33, ca=0x11, **of):
    """A certificate's body for the key of bytes 0x22; from a minute ago for an hour, if nothing is said."""
    return asking.body(serial, ca=key_blob(ca), key_id=keyid, nonce=bytes([nonce]) * 32, **of)


def sign(serial, data):
    return f"sign {serial} {digest_of(data)}\n"


class Guard:
    """A guard in the folder of the test, with a policy."""

    def __init__(self, program):
        self.program = program

    def run(self, *words, **how):
        done = run([self.program, *words], **how)
        return done.returncode, done.stdout.decode(), done.stderr.decode()

    def judge(self, *words, policy="policy", **how):
        return self.run("judge", "--db", "guard.db", "--policy", policy, *words, **how)

    def bodies(self):
        status, out, err = self.run("bodies", "--db", "guard.db")
        assert (0, "") == (status, err)
        return [line.split(" ") for line in out.splitlines()]


@pytest.fixture
def guard(sshstation, room):
    (room / "ca.pub").write_text(f"{CA}\n")
    (room / "policy").write_text(department())
    made = Guard(sshstation)
    wanted = (0, f"guard ready 1 100\nca {FINGERPRINT}\n", "")
    assert wanted == made.run(*INIT)
    return made


def put(room, **files):
    for name, data in files.items():
        (room / name).write_bytes(data)


# ---- words

@pytest.mark.parametrize("words, wanted", [
    (["--help"], HELP),
    (["help"], HELP),
    (["judge", "--help"], HELP_OF_JUDGE),
    (["list", "--help"], HELP_OF_LIST),
    (["--version"], "sshstation 1.0.0 (rattle-kit-13f)\n"),
])
def test_a_wish_for_a_text_is_answered(sshstation, room, words, wanted):
    assert (0, wanted, "") == Guard(sshstation).run(*words)


@pytest.mark.parametrize("words", [
    [],
    ["sign"],
    ["init", "--db", "a", "--ca", "b", "--first", "1"],
    ["init", "--db", "a", "--ca", "b", "--first", "1", "--last", "x"],
    ["init", "--db", "a", "--ca", "b", "--first", "-1", "--last", "2"],
    ["judge", "--db", "a", "--policy", "b"],
    ["judge", "--db", "a", "body"],
    ["judge", "--policy", "b", "body"],
    ["judge", "--db", "a", "--policy", "b", "--ahead", "18446744073709551616", "body"],
    ["judge", "--db", "a", "--policy", "b", "--ahead", "1", "--ahead", "2", "body"],
    ["bodies"],
    ["bodies", "--db", "a", "more"],
    ["body", "--db", "a"],
    ["body", "--db", "a", "0"],
    ["body", "--db", "a", "18446744073709551616"],
    ["policy"],
    ["policy", "a", "b"],
    ["retire", "--db", "a"],
    ["retire", "--db", "a", "--last", ""],
])
def test_bad_words_have_status_2_and_open_nothing(sshstation, room, words):
    status, out, err = Guard(sshstation).run(*words)
    assert (2, "", True) == (status, out, err != "")
    assert [] == os.listdir(room)


def test_a_word_that_is_no_text_is_bad(sshstation, room):
    done = subprocess.run([os.fsencode(sshstation), b"policy", b"\xff"], capture_output=True)
    assert (2, b"", b"error: a word is not UTF-8\n") == (done.returncode, done.stdout, done.stderr)


def test_a_file_may_begin_with_a_dash(guard, room):
    data = body()
    put(room, **{"-body": data})
    assert (0, sign(1, data), "") == guard.judge("--", "-body")


# ---- init

def test_init_makes_a_file_for_its_owner_alone(guard, room):
    assert 0o600 == stat.S_IMODE((room / "guard.db").stat().st_mode)


def test_a_second_init_changes_nothing(guard, room):
    before = (room / "guard.db").read_bytes()
    again = guard.run(*INIT)
    assert (1, "", "sshstation: AlreadyAGuard\n") == again
    assert before == (room / "guard.db").read_bytes()


@pytest.mark.parametrize("mode", [0o400, 0o600, 0o640, 0o666])
def test_a_file_that_is_there_keeps_its_mode(guard, room, mode):
    assert (0, "lists ready\n", "") == guard.run("lists", "--init", "--db", "lists.db")
    for name in ("guard.db", "lists.db"):
        (room / name).chmod(mode)
        assert 1 == guard.run(*init(name, "ca.pub", last=100))[0]
        assert mode == stat.S_IMODE((room / name).stat().st_mode), name
        assert 1 == guard.run("lists", "--init", "--db", name)[0]
        assert mode == stat.S_IMODE((room / name).stat().st_mode), name


@pytest.mark.parametrize("tables, fault", [
    ("CREATE TABLE note (id INTEGER PRIMARY KEY, text TEXT); INSERT INTO note VALUES (1, 'a')", "NotAGuard"),
    ("CREATE TABLE guards (id INTEGER); CREATE TABLE approve (id INTEGER)", "NotAGuard"),
    ("CREATE VIEW one AS SELECT 1", "NotAGuard"), ("CREATE TABLE Approved (id INTEGER)", "AlreadyAGuard"),
    ("CREATE TABLE note (id INTEGER); CREATE TABLE guard (id INTEGER)", "AlreadyAGuard"),
], ids=["foreign", "like-names", "view", "approved", "guard-and-foreign"])
def test_no_guard_is_made_beside_other_tables(sshstation, room, tables, fault):
    (room / "ca.pub").write_text(CA)
    with contextlib.closing(sqlite3.connect("guard.db")) as made, made:
        made.executescript(tables)
    before = (room / "guard.db").read_bytes()
    assert (1, "", f"sshstation: {fault}\n") == Guard(sshstation).run(*INIT)
    assert before == (room / "guard.db").read_bytes()


def test_each_guard_has_a_file_of_its_own(guard, room):
    assert (0, "lists ready\n", "") == guard.run("lists", "--init", "--db", "lists.db")
    guards, lists = (room / "guard.db").read_bytes(), (room / "lists.db").read_bytes()
    again = guard.run(*init("lists.db", "ca.pub", last=100))
    assert (1, "", "sshstation: NotAGuard\n") == again
    assert (1, "", "sshstation: NotAGuard\n") == guard.run("lists", "--init", "--db", "guard.db")
    assert (guards, lists) == ((room / "guard.db").read_bytes(), (room / "lists.db").read_bytes())


@pytest.mark.parametrize("content", ["nothing", "no tables", "a table that was dropped"])
def test_a_guard_is_made_in_a_file_without_tables(sshstation, room, content):
    (room / "ca.pub").write_text(CA)
    (room / "guard.db").touch()
    if content != "nothing":
        with contextlib.closing(sqlite3.connect("guard.db")) as made, made:
            made.executescript("CREATE TABLE note (id INTEGER); DROP TABLE note" if "dropped" in content else "VACUUM")
    assert 0 == Guard(sshstation).run(*INIT)[0]
    assert (0, "", "") == Guard(sshstation).run("bodies", "--db", "guard.db")


@pytest.mark.parametrize("first, last", [(0, 1), (2, 1), (1, LAST_SERIAL + 1), (0, 0), (MOST, MOST), (1, MOST)])
def test_init_wants_serials_in_order(sshstation, room, first, last):
    (room / "ca.pub").write_text(CA)
    words = init("guard.db", "ca.pub", first=first, last=last)
    assert (1, "", "sshstation: BadSerials\n") == Guard(sshstation).run(*words)
    assert ["ca.pub"] == os.listdir(room)


@pytest.mark.parametrize("first, last", [(1, 1), (1, LAST_SERIAL), (LAST_SERIAL, LAST_SERIAL)])
def test_init_takes_all_serials_of_an_office(sshstation, room, first, last):
    """The first and the last of them are signed."""
    (room / "ca.pub").write_text(CA)
    (room / "policy").write_text(department())
    data = [body(first), body(last)]
    put(room, a=data[0], b=data[1])
    guard, words = Guard(sshstation), init("guard.db", "ca.pub", first=first, last=last)
    assert (0, f"guard ready {first} {last}\nca {FINGERPRINT}\n", "") == guard.run(*words)
    assert (0, sign(first, data[0]) + sign(last, data[1]), "") == guard.judge("a", "b")


def test_init_takes_a_key_with_the_longest_comment(sshstation, room):
    (room / "ca.pub").write_text(f"{CA} {'a' * 1024}\n")
    assert (0, f"guard ready 1 100\nca {FINGERPRINT}\n", "") == Guard(sshstation).run(*INIT)


@pytest.mark.parametrize("text, fault", [
    ("ssh-rsa AAAA", "WrongType"), ("ssh-ed25519 AAAA", "BadBase64"), ("", "WrongType"),
    (f"{CA} \x01", "BadComment"), (f"ssh-ed25519 {'A' * 68}", "BadBlob"), (f"{CA} ".ljust(8193, "a"), "File"),
    (None, "File"),
], ids=["other-type", "no-key", "empty", "bad-comment", "bad-blob", "too-long", "missing"])
def test_init_wants_a_key_line_before_all_else(sshstation, room, text, fault):
    if text is not None:
        (room / "ca.pub").write_text(text)
    words = init("guard.db", "ca.pub", first=2, last=1)
    assert (1, "", f"sshstation: {fault}\n") == Guard(sshstation).run(*words)
    assert not (room / "guard.db").exists()


@pytest.mark.parametrize("path", [":memory:", "file:guard.db", "no/such/folder/guard.db"])
def test_init_makes_files_at_paths_alone(sshstation, room, path):
    (room / "ca.pub").write_text(CA)
    words = init(path, "ca.pub", last=1)
    assert (1, "", "sshstation: Device\n") == Guard(sshstation).run(*words)
    assert ["ca.pub"] == os.listdir(room)


# ---- judge

def test_bodies_are_answered_in_their_order(guard, room):
    late, cut, other = body(4, after=1, before=2), body()[:-1], body(5, ca=0x12)
    put(room, a=body(1), b=late, c=cut, d=body(3), e=b"\0" * 16385, f=body(3, nonce=0x34), g=other, h=body(101))
    lines = [sign(1, body(1)), "refuse AlreadyEnded\n", "refuse NotABody BadCa\n", sign(3, body(3)),
             "refuse NotABody TooLong\n", "refuse SerialTaken\n", "refuse OtherCa\n", "refuse OtherSerial\n"]
    status, out, err = guard.judge(*"abcdefgh")
    wanted = [line.split()[:2] for line in lines]
    assert (0, wanted, "") == (status, [line.split()[:2] for line in out.splitlines()], err)
    assert [["1", digest_of((room / "a").read_bytes())], ["3", digest_of((room / "d").read_bytes())]] == [
        row[:2] for row in guard.bodies()]


def test_each_line_has_the_digest_of_its_body(guard, room):
    files = {f"body{serial}": body(serial, nonce=serial) for serial in range(1, 30)}
    put(room, **files)
    wanted = "".join(sign(serial, files[f"body{serial}"]) for serial in range(1, 30))
    assert (0, wanted, "") == guard.judge(*files)
    assert (0, wanted, "") == guard.judge(*files), "they are signed again"


def test_an_hour_ahead_is_permitted_if_nothing_is_said(guard, room):
    now = int(time.time())
    put(room, soon=body(1, after=now + 3500, before=now + 3600), late=body(2, after=now + 3700, before=now + 3800))
    assert "refuse TooFarAhead\n" == guard.judge("late")[1]
    assert "refuse TooFarAhead\n" == guard.judge("--ahead", "0", "soon")[1]
    assert "sign" == guard.judge("soon")[1].split()[0]
    assert "sign" == guard.judge("--ahead", MOST, "late")[1].split()[0]


def test_a_body_that_is_not_there_ends_the_call_and_what_was_printed_stands(guard, room):
    put(room, a=body(1), b=body(2))
    kept = (room / "a").read_bytes()
    assert (1, sign(1, kept), "sshstation: File\n") == guard.judge("a", "none", "b")
    assert [["1", digest_of(kept)]] == [row[:2] for row in guard.bodies()]


@pytest.mark.parametrize("policy, fault", [
    (None, "File"), (b"\n" * 1048577, "File"), (b"department web\n", "BadPolicy 2"),
    (b"# one\n no comment\n", "BadPolicy 2"), (department().encode() * 2, "BadPolicy 9"),
    (b"#\nrevoke-serial 1\n", "BadPolicy 2"),
], ids=["missing", "too-long", "cut", "other-line", "two-of-a-name", "other-message"])
def test_the_policy_is_read_before_the_database_is_looked_for(sshstation, room, policy, fault):
    if policy is not None:
        put(room, policy=policy)
    words = ["judge", "--db", "guard.db", "--policy", "policy", "none"]
    assert (1, "", f"sshstation: {fault}\n") == Guard(sshstation).run(*words)
    assert not (room / "guard.db").exists()
    assert (1, "", f"sshstation: {fault}\n") == Guard(sshstation).run("policy", "policy")


def test_the_database_is_looked_for_before_the_bodies(sshstation, room):
    put(room, policy=b"# none\n")
    words = ["judge", "--db", "guard.db", "--policy", "policy", "none"]
    assert (1, "", "sshstation: NotAGuard\n") == Guard(sshstation).run(*words)
    assert ["policy"] == os.listdir(room)


def test_a_guard_that_is_open_is_not_opened_again(guard, room, programs):
    first = programs.begin([guard.program, "judge", "--db", "guard.db", "--policy", "policy", "-"],
                           stdin=subprocess.PIPE, stdout=subprocess.PIPE)
    put(room, a=body(1))
    first.stdin.write(batch((room / "a").read_bytes()))
    first.stdin.flush()
    assert b"sign" == first.stdout.readline().split()[0]
    assert (1, "", "sshstation: Device\n") == guard.judge("a")


# ---- keys for which everybody can sign

# Keys next to those: other numbers, one byte changed, and the bytes the other way round.
ORDINARY_KEYS = [
    *(encoded(y, sign) for y in (2, PRIME - 2, PRIME + 2, SMALL_ORDER_YS[5] - 1, SMALL_ORDER_YS[5] + 1,
                                 SMALL_ORDER_YS[6] - 1, SMALL_ORDER_YS[6] + 1, 2 ** 255 - 1) for sign in (0, 1)),
    *(key[:at] + bytes([key[at] ^ 4]) + key[at + 1:] for key in SMALL_ORDER_KEYS for at in (0, 15, 30, 31)),
    *(key[:31] + bytes([key[31] ^ 0x40]) for key in SMALL_ORDER_KEYS),
    *(key[::-1] for key in SMALL_ORDER_KEYS if key != key[::-1])]


def is_anybodys(key):
    """Whether OpenSSL takes for this key a signature that was made without a private key: R is the neutral point, and S
    is 0. For a key of small order that is right for each text, or for one in two, four or eight."""
    public = Ed25519PublicKey.from_public_bytes(key)
    for text in range(40):
        with contextlib.suppress(InvalidSignature):
            public.verify(encoded(1, 0) + bytes(32), b"%d" % text)
            return True
    return False


@pytest.mark.parametrize("keys, answer", [(SMALL_ORDER_KEYS, "refuse NotPermitted"), (ORDINARY_KEYS, "sign")],
                         ids=["small order", "ordinary"])
def test_a_key_for_which_everybody_can_sign_is_not_permitted(guard, room, keys, answer):
    put(room, **{f"body{serial}": body(serial, key=key) for serial, key in enumerate(keys, 1)})
    status, out, err = guard.judge(*(f"body{serial}" for serial in range(1, len(keys) + 1)))
    given = [line if line.startswith("refuse") else line.split()[0] for line in out.splitlines()]
    assert (0, "") == (status, err)
    assert {key.hex(): answer for key in keys} == dict(zip((key.hex() for key in keys), given))
    assert {key.hex(): answer != "sign" for key in keys} == {key.hex(): is_anybodys(key) for key in keys}, "to OpenSSL"
    assert (len(keys) if answer == "sign" else 0) == len(guard.bodies())


@pytest.mark.parametrize("of, answer", [
    ({"keyid": "other/alice"}, "NoDepartment"), ({"kind": 2}, "OtherKind"), ({"after": 1, "before": 2}, "NotPermitted"),
    ({"ca": 0x12}, "OtherCa"), ({"serial": 101}, "OtherSerial")],
    ids=["no department", "other kind", "ended", "other CA", "other serial"])
def test_a_key_of_small_order_is_refused_in_the_order_of_the_numbers(guard, room, of, answer):
    put(room, a=body(**{"key": SMALL_ORDER_KEYS[2]} | of))
    assert (0, f"refuse {answer}\n", "") == guard.judge("a")


@pytest.mark.parametrize("kind", [it for it in KEYS if it != ED25519])
def test_a_key_of_another_type_is_not_permitted(guard, room, kind):
    of = {"type_name": CERTIFICATES[kind].encode(), "key": KEYS[kind]}
    put(room, a=body(**of), other=body(**of | {"keyid": "other/alice"}), host=body(**of | {"kind": 2}),
        ended=body(**of | {"after": 1, "before": 2}))
    lines = "".join(f"refuse {it}\n" for it in ("NotPermitted", "NoDepartment", "OtherKind", "NotPermitted"))
    assert (0, lines, "") == guard.judge("a", "other", "host", "ended")
    assert [] == guard.bodies()


def test_a_certificate_of_ssh_keygen_for_each_type_is_read(sshstation, room):
    """Each is the body of ssh-keygen's certificate: for Ed25519 it is approved, and for another type it is a body that
    the policy doesn't permit."""
    ca = new_key("ca")
    (room / "ca.pub").write_text(f"{ca}\n")
    (room / "policy").write_text(department(extensions=EVERY_EXTENSION))
    made = Guard(sshstation)
    assert 0 == made.run(*INIT)[0]
    for serial, line in enumerate(LINES.values(), 1):
        (room / f"{serial}.pub").write_text(f"{line} a comment\n")
        run(["ssh-keygen", "-q", "-s", "ca", "-I", "web/alice", "-n", "alice", "-z", serial, "-V", "-1m:+1h",
             f"{serial}.pub"], check=True)
        name, certificate, *_ = (room / f"{serial}-cert.pub").read_text().split(" ")
        data = base64.b64decode(certificate)[:-87]
        assert [*LINES][serial - 1] == line.split()[0] and data[4:].startswith(name.encode())
        (room / f"body{serial}").write_bytes(data)
    status, out, err = made.judge(*(f"body{serial}" for serial in range(1, len(LINES) + 1)))
    answers = [it if it.startswith("refuse") else it.split()[0] for it in out.splitlines()]
    assert (0, "") == (status, err)
    assert {kind: "sign" if kind == ED25519 else "refuse NotPermitted" for kind in LINES} == dict(zip(LINES, answers))


def cases(keys, answer):
    return [(CERTIFICATES[kind].encode(), key, answer) for kind, key in keys]


@pytest.mark.parametrize("type_name, key, answer", [
    *cases(MORE, "NotPermitted"), *cases(NO_KEYS, "NotABody BadKey"),
    *((it, [bytes([0x22]) * 32], "NotABody WrongType") for it in (
        b"", b"ssh-ed25519", b"ssh-dss-cert-v01@openssh.com", b"ssh-rsa-cert-v00@openssh.com"))])
def test_a_key_has_the_one_form_of_its_type(guard, room, type_name, key, answer):
    put(room, a=body(type_name=type_name, key=key))
    assert (0, f"refuse {answer}\n", "") == guard.judge("a")


@pytest.mark.parametrize("kind", KEYS)
def test_a_body_that_is_cut_is_none(guard, room, kind):
    data = body(type_name=CERTIFICATES[kind].encode(), key=KEYS[kind])
    ends = [it for it in range(len(data)) if it < 120 or it % 37 == 0]
    put(room, **{f"body{it}": data[:it] for it in ends})
    status, out, err = guard.judge(*(f"body{it}" for it in ends))
    assert (0, "") == (status, err)
    assert dict.fromkeys(ends, "refuse NotABody Truncated") == dict(zip(ends, out.splitlines()))


def test_what_was_approved_for_a_key_of_small_order_is_signed_again(guard, room):
    """A guard of an earlier version approved it: its row is in the file."""
    data = {key: body(serial, key=key) for serial, key in enumerate(SMALL_ORDER_KEYS, 1)}
    with contextlib.closing(sqlite3.connect("guard.db")) as tables, tables:
        tables.executemany("INSERT INTO approved VALUES (?, 1000000000, ?)", [*enumerate(data.values(), 1)])
    put(room, **{f"body{serial}": it for serial, it in enumerate(data.values(), 1)},
        other=body(3, key=SMALL_ORDER_KEYS[2], nonce=0x34), new=body(50, key=SMALL_ORDER_KEYS[2]))
    wanted = "".join(sign(serial, it) for serial, it in enumerate(data.values(), 1))
    names = [f"body{serial}" for serial in range(1, len(data) + 1)]
    assert (0, f"{wanted}refuse SerialTaken\nrefuse NotPermitted\n", "") == guard.judge(*names, "other", "new")
    assert len(data) == len(guard.bodies())


# ---- judge with bodies from the input

# The most bodies of a batch, and the longest one that may be in it.
MOST_BODIES, LONGEST = 64, 16384


class Open:
    """A `judge` that reads batches, and answers each."""

    def __init__(self, guard, programs, **how):
        self.process = programs.begin([guard.program, "judge", "--db", "guard.db", "--policy", "policy", "-"],
                                      stdin=subprocess.PIPE, stdout=subprocess.PIPE, stderr=subprocess.PIPE, **how)

    def ask(self, *bodies):
        self.process.stdin.write(batch(*bodies))
        self.process.stdin.flush()
        return "".join(self.process.stdout.readline().decode() for _ in bodies)

    def end(self):
        out, err = self.process.communicate(timeout=60)
        return self.process.returncode, out.decode(), err.decode()


def judged(guard, input):
    """The status, the output and the errors for an input."""
    return guard.judge("-", stdin=None, input=input)


def serials_of(guard):
    return [int(row[0]) for row in guard.bodies()]


def test_each_batch_is_answered_before_the_next_is_read(guard, programs):
    opened, serial = Open(guard, programs), 0
    for count in (1, 2, 1, 7, 1):
        some = [body(serial + at) for at in range(1, count + 1)]
        assert "".join(sign(serial + at, it) for at, it in enumerate(some, 1)) == opened.ask(*some)
        serial += count
    assert (0, "", "") == opened.end()
    assert [*range(1, serial + 1)] == serials_of(guard)


def test_the_policy_is_what_its_file_has_before_each_batch(guard, room, programs):
    opened, (one, two, three) = Open(guard, programs), (body(serial) for serial in (1, 2, 3))
    assert sign(1, one) == opened.ask(one)
    put(room, policy=department(principals="bob").encode())
    assert "refuse NotPermitted\n" * 2 == opened.ask(two, three)
    put(room, policy=b"# nobody\n")
    assert "refuse NoDepartment\n" == opened.ask(two)
    (room / "new").write_text(department())
    (room / "new").rename(room / "policy")
    assert sign(2, two) == opened.ask(two)
    put(room, policy=department(principals="bob").encode())
    assert sign(1, one) == opened.ask(one), "what was approved is signed again"
    put(room, policy=b"department web\n")
    assert "" == opened.ask(three, two)
    assert (1, "", "sshstation: BadPolicy 2\n") == opened.end()
    assert [1, 2] == serials_of(guard)


def test_a_body_is_judged_after_those_before_it_in_its_batch(guard):
    one, other, two = body(1), body(1, nonce=0x34), body(2)
    wanted = [sign(1, one), "refuse SerialTaken\n", sign(1, one), "refuse NotABody Truncated\n", sign(2, two)]
    assert (0, "".join(wanted), "") == judged(guard, batch(one, other, one, two[:-1], two))
    assert [1, 2] == serials_of(guard)


@pytest.mark.parametrize("count", [1, 2, MOST_BODIES - 1, MOST_BODIES])
def test_so_many_bodies_may_come_together(guard, count):
    some = [body(serial) for serial in range(1, count + 1)]
    assert (0, "".join(sign(serial, it) for serial, it in enumerate(some, 1)), "") == judged(guard, batch(*some))
    assert count == len(guard.bodies())


@pytest.mark.parametrize("length", [1, LONGEST - 1, LONGEST])
def test_a_body_may_be_so_long(guard, length):
    one = body(1)
    fault = "TrailingBytes" if length > len(one) else "Truncated"
    text = batch((one + b"x" * length)[:length]) + batch(one)
    assert (0, f"refuse NotABody {fault}\n" + sign(1, one), "") == judged(guard, text)


LONG = b"x" * (LONGEST + 1)
BATCH = batch(body(2))


@pytest.mark.parametrize("text", [
    batch(), batch(*[body(serial) for serial in range(2, MOST_BODIES + 3)]), batch(b""), batch(LONG),
    batch(body(2), b""), batch(body(2), LONG), b"\n", b"body\n", b"judge\n", b"judge \n", b"judge 01\n" + BATCH[8:],
    b"judge +1\n" + BATCH[8:], b"judge -1\n" + BATCH[8:], b"judge  1\n" + BATCH[8:], b"judge 1 \n" + BATCH[8:],
    b"judge 1\r\n" + BATCH[8:], b"Judge 1\n" + BATCH[8:], b" " + BATCH, b"judge 1" + BATCH[8:],
    b"judge 18446744073709551617\n" + BATCH[8:], BATCH[:8] + b"0" + BATCH[8:], BATCH[:8] + b"+" + BATCH[8:],
    BATCH[:8] + b"\n" + BATCH[8:], BATCH[:8] + b"18446744073709551616\n", b"none\n", b"\xff\n", b"\0" * 100],
    ids=lambda it: f"{it[:30]!r} of {len(it)}")
def test_an_input_of_another_form_ends_the_call(guard, text):
    one = body(1)
    assert (1, sign(1, one), "sshstation: Input\n") == judged(guard, batch(one) + text)
    assert [1] == serials_of(guard)


def test_a_length_that_is_one_too_short_or_long_ends_the_call(guard):
    one = body(1)
    for wrong in (len(one) - 1, len(one) + 1):
        status, out, errors = judged(guard, b"judge 1\n%d\n" % wrong + one + BATCH)
        assert (1, "sshstation: Input\n") == (status, errors)
        assert not out.startswith("sign"), out
    assert [] == guard.bodies()


def test_an_input_that_ends_within_a_batch_changes_nothing_of_it(guard):
    one = body(1)
    first, second = batch(one), batch(body(2), body(3))
    for cut in range(1, len(second)):
        assert (1, sign(1, one), "sshstation: Input\n") == judged(guard, first + second[:cut]), cut
    assert [1] == serials_of(guard)
    assert (0, sign(1, one), "") == judged(guard, first)
    assert (0, "", "") == judged(guard, b"")


def test_what_is_printed_is_in_the_file_whenever_the_guard_is_killed(guard, programs):
    """A batch that is cut off is in the file as a whole or not at all; what was printed of it is in the file."""
    for turn in range(12):
        some = [body(serial) for serial in range(turn * 8 + 1, turn * 8 + 9)]
        opened = Open(guard, programs)
        opened.process.stdin.write(batch(*some))
        opened.process.stdin.flush()
        time.sleep(turn % 6 * 0.004)
        opened.process.kill()
        out = opened.process.communicate(timeout=60)[0].decode()
        kept = {row[0]: row[1] for row in guard.bodies()}
        mine = [it for serial, it in enumerate(some, turn * 8 + 1) if str(serial) in kept]
        assert mine in ([], some), "all of a batch, or nothing"
        for line in out.splitlines():
            word, serial, digest = line.split()
            assert ("sign", digest) == (word, kept[serial])


@pytest.mark.parametrize("spoil, fault", [
    (lambda room: (room / "policy").unlink(), "File"),
    (lambda room: put(room, policy=b"department web\n"), "BadPolicy 2"),
], ids=["no policy", "a bad policy"])
def test_the_input_is_looked_at_before_the_policy(guard, room, programs, spoil, fault):
    first = body(9)
    for text, named in ((b"judge 0\n", "Input"), (batch(body(1)), fault)):
        put(room, policy=department().encode())
        opened = Open(guard, programs)
        assert sign(9, first) == opened.ask(first)
        spoil(room)
        opened.process.stdin.write(text)
        assert (1, "", f"sshstation: {named}\n") == opened.end()
    assert [9] == serials_of(guard)


def test_a_dash_beside_other_files_is_a_file(guard, room):
    data = body(1)
    put(room, **{"-": data})
    assert (0, sign(1, data) * 2, "") == guard.judge("--", "-", "-", stdin=None, input=b"none\n")


@pytest.mark.parametrize("words", [
    ["judge", "--db", "guard.db", "--policy", "policy", "a"],
    ["judge", "--db", "guard.db", "--policy", "policy", "a", "-"], ["bodies", "--db", "guard.db"],
    ["judge", "--db", "guard.db", "--policy", "policy", "none"], ["body", "--db", "guard.db", 1], ["policy", "policy"],
    ["retire", "--db", "guard.db", "--last", 50], ["lists", "--init", "--db", "lists.db"],
    init("new.db", "ca.pub", last=100), ["judge"], ["--help"],
])
def test_the_input_is_left_unread_unless_it_is_asked_for(guard, room, words):
    put(room, **{"a": body(1), "-": body(2), "input": b"judge 1\n"})
    with open("input", "rb") as input:
        guard.run(*words, stdin=input)
        assert 0 == os.lseek(input.fileno(), 0, os.SEEK_CUR)
        assert guard.judge("-", stdin=input)[2] == "sshstation: Input\n"
        assert os.lseek(input.fileno(), 0, os.SEEK_CUR) > 0


def test_a_body_is_kept_before_its_line_is_printed(guard, room):
    put(room, a=body(1))
    words = [guard.program, "judge", "--db", "guard.db", "--policy", "policy", "a"]
    with open("/dev/full", "wb") as full:
        done = subprocess.run(words, stdout=full, stderr=subprocess.PIPE)
    assert (1, b"sshstation: Write\n") == (done.returncode, done.stderr)
    assert 1 == len(guard.bodies())


# ---- what is approved

def test_bodies_are_listed_by_their_serials(guard, room):
    since = int(time.time())
    data = {serial: body(serial) for serial in (7, 2, 100, 1)}
    for serial, it in data.items():
        put(room, body=it)
        assert sign(serial, it) == guard.judge("body")[1]
    rows = guard.bodies()
    assert [[str(serial), digest_of(data[serial]), "web/alice"] for serial in sorted(data)] == [
        [serial, its, keyid] for serial, its, _, keyid in rows]
    assert all(since <= int(moment) <= time.time() for _, _, moment, _ in rows)


def test_a_body_is_printed_byte_by_byte(guard, room):
    data = body(7)
    put(room, body=data)
    guard.judge("body")
    done = run([guard.program, "body", "--db", "guard.db", 7])
    assert (0, data, b"") == (done.returncode, done.stdout, done.stderr)
    assert (1, "", "sshstation: UnknownSerial\n") == guard.run("body", "--db", "guard.db", 8)
    assert (1, "", "sshstation: UnknownSerial\n") == guard.run("body", "--db", "guard.db", MOST)


@pytest.mark.parametrize("words", [["bodies"], ["body", "1"], ["retire", "--last", "1"]])
def test_what_reads_a_guard_makes_no_file(sshstation, room, words):
    assert (1, "", "sshstation: NotAGuard\n") == Guard(sshstation).run(words[0], "--db", "guard.db", *words[1:])
    assert [] == os.listdir(room)


@pytest.mark.parametrize("place", ["policy/guard.db", "g" * 300], ids=["below-a-file", "too-long-a-name"])
@pytest.mark.parametrize("words", [["judge", "--policy", "policy", "a"], ["bodies"], ["body", "1"],
                                   ["retire", "--last", "1"]], ids=lambda it: it[0])
def test_where_nobody_can_look_it_is_not_said_that_there_is_no_guard(guard, room, words, place):
    put(room, a=body(1))
    before = sorted(os.listdir(room))
    assert (1, "", "sshstation: Device\n") == guard.run(words[0], "--db", place, *words[1:])
    assert before == sorted(os.listdir(room))


@pytest.mark.parametrize("change, fault", [
    ("UPDATE guard SET schema = 2", "WrongSchema"), ("UPDATE guard SET ca = x'00'", "Damaged"),
    ("UPDATE guard SET first = 0", "Damaged"), ("UPDATE guard SET id = 2", "Damaged"),
    ("UPDATE guard SET first = -1", "Damaged"),
    ("DELETE FROM guard", "NotAGuard"), ("DROP TABLE guard", "NotAGuard"),
    ("INSERT INTO approved VALUES (3, -1, x'00')", "Damaged"),
], ids=["schema", "ca", "first", "id", "less-than-none", "no-row", "no-table", "moment"])
def test_tables_that_somebody_changed_are_named_and_left(guard, room, change, fault):
    put(room, a=body(3))
    with contextlib.closing(sqlite3.connect("guard.db")) as tables, tables:
        tables.execute(change)
        before = [*tables.iterdump()]
    for words in (["body", "--db", "guard.db", 3], ["bodies", "--db", "guard.db"],
                  ["judge", "--db", "guard.db", "--policy", "policy", "a"],
                  ["retire", "--db", "guard.db", "--last", 2]):
        assert (1, "", f"sshstation: {fault}\n") == guard.run(*words), words
        with contextlib.closing(sqlite3.connect("guard.db")) as tables:
            assert before == [*tables.iterdump()], words


@pytest.mark.parametrize("made", [
    lambda: body(4)[:-1], lambda: body(4) + b"\0", lambda: b"I owe you 1000 euros", lambda: b"", lambda: body(5)],
    ids=["cut off", "one byte more", "a text", "nothing", "of another serial"])
def test_a_row_whose_body_is_no_certificate_of_its_serial_is_named(guard, room, made):
    """It has the form of a row. Nobody but whoever can change the file makes one, since the guard approves none."""
    put(room, a=body(3))
    assert sign(3, body(3)) == guard.judge("a")[1]
    with contextlib.closing(sqlite3.connect("guard.db")) as tables, tables:
        tables.execute("INSERT INTO approved VALUES (4, 1000000000, ?)", [made()])
        before = [*tables.iterdump()]
    assert (1, "sshstation: Damaged\n") == guard.run("bodies", "--db", "guard.db")[::2]
    with contextlib.closing(sqlite3.connect("guard.db")) as tables:
        assert before == [*tables.iterdump()]


def test_an_office_is_no_guard(guard, program, room):
    made = run([program, *running.init("office.db", "ca.pub", last=9)])
    assert 0 == made.returncode
    assert (1, "", "sshstation: NotAGuard\n") == guard.run("bodies", "--db", "office.db")


def test_a_damaged_row_keeps_no_other_from_being_answered(guard, room):
    data = {"a": body(1), "b": body(5)}
    put(room, **data)
    assert sign(1, data["a"]) == guard.judge("a")[1]
    with contextlib.closing(sqlite3.connect("guard.db")) as tables, tables:
        tables.execute("INSERT INTO approved VALUES (3, -1, x'00')")
    assert (0, sign(1, data["a"]) + sign(5, data["b"]), "") == guard.judge("a", "b")
    done = run([guard.program, "body", "--db", "guard.db", 1])
    assert (0, data["a"], b"") == (done.returncode, done.stdout, done.stderr)


def test_a_body_may_come_from_a_pipe(guard, room):
    data = body(1)
    put(room, a=data)
    done = run(["sh", "-c", f"cat a | {guard.program} judge --db guard.db --policy policy /dev/stdin"])
    assert (0, sign(1, data).encode(), b"") == (done.returncode, done.stdout, done.stderr)


# ---- a disk that fails

@pytest.mark.slow
@pytest.mark.parametrize("words", [["judge", "--policy", "policy", "a"], ["retire", "--last", "50"]],
                         ids=lambda it: it[0])
def test_a_disk_that_fails_is_named(guard, room, words):
    """It fails at each call on the file in turn, and from then on. What was printed before the fault holds."""
    data = body(3)
    put(room, a=data)
    done = sign(3, data) if words[0] == "judge" else "retired 1 50\n"
    (room / "disk").mkdir()
    library, mark, db = preloaded("failing_disk.c", room), room / "mark", room / "disk/guard.db"
    strange = os.environ | {"LD_PRELOAD": str(library), "DISK": str(db), "MARK": str(mark)}
    for number in itertools.count(1):
        for left in db.parent.iterdir():
            left.unlink()
        db.write_bytes((room / "guard.db").read_bytes())
        mark.unlink(missing_ok=True)
        given = guard.run(words[0], "--db", db, *words[1:], env=strange | {"FAIL": f"any any {number} 0 {errno.EIO}"})
        if not mark.exists():
            break
        first = mark.read_text().splitlines()[0]
        # Whoever closes a file isn't told of an error.
        wanted = [(1, "", "sshstation: Device\n"), (1, done, "sshstation: Device\n")]
        assert given in wanted + [(0, done, "")] * first.endswith("close"), f"call {number}: {first}"
        again = guard.run(words[0], "--db", db, *words[1:])
        assert (0, done, "") == again, f"call {number}: {first}"
        kept = guard.run("bodies", "--db", db)[1].split()[:2]
        assert kept == done.split()[1:] * (words[0] == "judge"), f"call {number}: {first}"
    assert (0, done, "") == given
    assert number > 20


# ---- policies

def test_the_names_of_a_policy_are_printed_in_its_order(sshstation, room):
    (room / "policy").write_text("# two\n\n" + department("web") + "\n# and\n" + department("dba", kind="host"))
    assert (0, "web\ndba\n", "") == Guard(sshstation).run("policy", "policy")
    put(room, policy=b"")
    assert (0, "", "") == Guard(sshstation).run("policy", "policy")
    put(room, policy=b"\n" * 1048576)
    assert (0, "", "") == Guard(sshstation).run("policy", "policy")


# ---- the last serial

def test_the_last_serial_is_lowered_to_what_is_approved_and_no_further(guard, room):
    data = {serial: body(serial) for serial in (5, 50, 51, 60)}
    put(room, **{f"body{serial}": it for serial, it in data.items()})
    assert sign(50, data[50]) == guard.judge("body50")[1]
    for last, fault in [(101, "BadSerials"), (0, "BadSerials"), (MOST, "BadSerials"), (49, "SerialApproved"),
                        (1, "SerialApproved")]:
        assert (1, "", f"sshstation: {fault}\n") == guard.run("retire", "--db", "guard.db", "--last", last)
    assert (0, "retired 1 60\n", "") == guard.run("retire", "--db", "guard.db", "--last", 60)
    assert (1, "", "sshstation: BadSerials\n") == guard.run("retire", "--db", "guard.db", "--last", 61)
    assert sign(60, data[60]) == guard.judge("body60")[1]
    assert (0, "retired 1 60\n", "") == guard.run("retire", "--db", "guard.db", "--last", 60)
    assert (1, "", "sshstation: SerialApproved\n") == guard.run("retire", "--db", "guard.db", "--last", 51)
    assert sign(5, data[5]) == guard.judge("body5")[1]
    put(room, over=body(61))
    assert "refuse OtherSerial\n" == guard.judge("over")[1]


def test_a_retired_guard_signs_again_what_it_approved(guard, room):
    data = body(50)
    put(room, a=data, policy=department().encode())
    assert sign(50, data) == guard.judge("a")[1]
    assert 0 == guard.run("retire", "--db", "guard.db", "--last", 50)[0]
    put(room, policy=b"")
    assert (0, sign(50, data), "") == guard.judge("a")


# ---- the clock

@pytest.mark.parametrize("moment, wanted", [
    (LATEST, (0, "refuse AlreadyEnded\n", "")), (LATEST + 1, (1, "", "sshstation: Clock\n")),
])
def test_a_clock_past_the_latest_moment_is_a_fault(guard, room, moment, wanted):
    put(room, a=body(1, before=LATEST), policy=department(maxlife=LATEST).encode())
    strange = preloaded("strange_system.c", room)
    assert wanted == guard.judge("a", env=os.environ | {"LD_PRELOAD": str(strange), "MOMENT": str(moment)})
    assert [] == guard.bodies()


@pytest.mark.parametrize("strange", [{"EARLY_CLOCK": "yes"}, {"MOMENT": "none"}], ids=["before 1970", "fails"])
def test_without_a_time_nothing_is_judged(guard, room, strange):
    """No other time stands for it: not even what was valid when 1970 began is signed, as a file or in a batch."""
    data = body(1, after=0, before=2000)
    put(room, a=data)
    environment = os.environ | {"LD_PRELOAD": str(preloaded("strange_system.c", room))} | strange
    assert (1, "", "sshstation: Clock\n") == guard.judge("a", env=environment)
    assert (1, "", "sshstation: Clock\n") == guard.judge("-", env=environment, stdin=None, input=batch(data))
    assert [] == guard.bodies()


def test_a_file_that_is_missing_is_told_before_a_clock_that_has_stopped(guard, room):
    strange = preloaded("strange_system.c", room)
    environment = os.environ | {"LD_PRELOAD": str(strange), "MOMENT": str(LATEST + 1)}
    assert (1, "", "sshstation: File\n") == guard.judge("missing", env=environment)


def test_each_body_is_judged_at_the_time_at_which_it_comes(guard, room, programs):
    """Proved is only that each time is one of the clock: a guard that runs for months reads it again for each body."""
    early, late = {"after": 1000, "before": 2000}, {"after": 9000, "before": 9500}
    data = {"a": body(1, **early), "b": body(2, **early), "c": body(3, **late)}
    put(room, moment=b"1500")
    strange = preloaded("strange_system.c", room)
    opened = Open(guard, programs, env=os.environ | {"LD_PRELOAD": str(strange), "MOMENT_FILE": str(room / "moment")})
    assert sign(1, data["a"]) == opened.ask(data["a"])
    assert "refuse TooFarAhead\n" == opened.ask(data["c"])
    put(room, moment=b"2000")
    assert "refuse AlreadyEnded\n" == opened.ask(data["b"])
    put(room, moment=b"5399")
    assert "refuse TooFarAhead\n" == opened.ask(data["c"])
    put(room, moment=b"5400")
    assert sign(3, data["c"]) == opened.ask(data["c"])
    assert (0, "", "") == opened.end()
    assert [("1", "1500"), ("3", "5400")] == [(serial, moment) for serial, _, moment, _ in guard.bodies()]
