"""Commands: words, a status, and what is printed to standard output and to standard error."""
import pathlib
import resource
import subprocess

import pytest

import running
from asking import CA, LAST_SERIAL, OTHER_CA
from lists import header
from running import ROWS, rows, run, said
from test_krl import RANGE, longer

pytestmark = pytest.mark.rows

NONCE = b"33" * 32
READY = b"office ready 1 9223372036854775806\nca SHA256:SQfC+vTbLURn9cTkVxIS8fGQ3FKNAJWeB0o139+gV4M\n"

# A list where nothing is revoked.
NO_LIST = header(0, 0)

BAD_HEAD = (b"answer 111\nHTTP/1.1 400 Bad Request\r\ncontent-type: text/plain\r\ncontent-length: 18\r\n"
            b"connection: close\r\n\r\nrefused 1 BadHead\n")


def record(moment, nonce, length, request):
    return b"exchange %s %s %s\n%s" % (moment, nonce, length, request)


# Records of another form, each behind a good one.
BAD_RECORDS = {
    "moment-over-64-bits": record(b"18446744073709551616", NONCE, b"0", b""),
    "moment-with-a-zero": record(b"01", NONCE, b"0", b""),
    "moment-with-a-sign": record(b"+1", NONCE, b"0", b""),
    "no-moment": record(b"", NONCE, b"0", b""),
    "nonce-in-upper-case": record(b"1000", b"AA" + NONCE[2:], b"0", b""),
    "nonce-cut": record(b"1000", NONCE[1:], b"0", b""),
    "length-with-a-zero": record(b"1000", NONCE, b"00", b""),
    "length-over-the-end": record(b"1000", NONCE, b"4", b"abc"),
    "two-spaces": record(b" 1000", NONCE, b"0", b""),
    "space-behind": record(b"1000", NONCE, b"0 ", b""),
}

# Bytes that are no record.
NO_RECORDS = {
    "first-line-cut": b"exchange 1000",
    "line-feed": b"\n",
    "letter": b"x",
    "short-nonce": b"exchange 1000 33 0\n",
    "capital": b"Exchange 1000 33 0\n",
    "request-cut": record(b"1000", NONCE, b"4", b"abc"),
}

# Files of the folder where all is run.
FILES = {
    "department.exchange": (ROWS / "the-department-of-the-trial-office.exchange").read_bytes(),
    "ca.pub": f"{CA} office\n".encode(),
    "ca2.pub": OTHER_CA.encode(),
    "bad.pub": b"ssh-ed25519 AAAA",
    "rsa.pub": b"ssh-rsa AAAA",
    "most.pub": f"{CA} ".encode().ljust(8192, b"a"),
    "longer.pub": f"{CA} ".encode().ljust(8193, b"a"),
    "list.krl": RANGE,
    "longer.krl": RANGE + b"\0",
    "cut.krl": RANGE[:120],
    "other.krl": NO_LIST + bytes.fromhex("0200000000"),
    "short.krl": longer(12),
    "most.exchange": record(b"0", NONCE, b"65536", b"a" * 65536),
    "longer.exchange": record(b"0", NONCE, b"65537", b"a" * 65537),
    "10000.exchange": record(b"0", NONCE, b"0", b"") * 10000,
    "10001.exchange": record(b"0", NONCE, b"0", b"") * 10001,
    **{f"{name}.exchange": record(b"1000", NONCE, b"3", b"abc") + bad for name, bad in BAD_RECORDS.items()},
    **{f"{name}.exchange": bad for name, bad in NO_RECORDS.items()},
}


@pytest.fixture(scope="module")
def files(tmp_path_factory, program):
    """A folder with the files, and the offices `ready.db` and `kept.db`."""
    folder = tmp_path_factory.mktemp("commands")
    for name, content in FILES.items():
        (folder / name).write_bytes(content)
    for db in ("ready.db", "kept.db"):
        run([program, *init(db).split()], cwd=folder, check=True)
    return folder


def init(db, ca="ca.pub", *, last=LAST_SERIAL, **how):
    return " ".join(map(str, running.init(db, ca, last=last, **how)))


# Words, and the fault in which they end.
FAULTS = rows("commands")["faults"].items()

# Words, and what is printed.
PRINTED = [
    (init("new.db"), READY),
    ("table --db kept.db", b"total 0 version 0\n"),
    ("krl --db kept.db", NO_LIST),
    ("signers --db kept.db", b""),
    # A list is asked about a certificate.
    *[(f"check --ca ca.pub list.krl {serial} web/x", b"revoked\n") for serial in (5, 6, 7)],
    *[(f"check --ca ca.pub list.krl {serial} web/x", b"clear\n") for serial in (4, 8, 2 ** 64 - 1)],
    *[(f"check --ca ca2.pub list.krl {serial} web/x", b"clear\n") for serial in (5, 6, 7)],
    ("apply /dev/null", b""),
    ("apply most.exchange", BAD_HEAD),
    ("apply 10000.exchange", BAD_HEAD * 10000),
    ("selftest", b"selftest ok\n"),
    # Options come in any order and with an equals sign. A word that begins with - stands behind one, or behind --.
    ("init --last=+9 --first=007 --station=-press --root=-ada --ca=ca.pub --db=order.db",
     READY.replace(b"1 9223372036854775806", b"7 9")),
    ("apply /dev/null --db kept.db", b""),
    ("check --ca ca.pub -- list.krl 7 -web/alice", b"revoked\n"),
]

# Words that are no command.
MISTAKES = [
    "check --ca ca.pub list.krl 0 web/x",
    "serve",
    "serve --db a --port 0 --connections 1",
    "serve --db a --port -1 --connections 1 --nonces b",
    "serve --db a --port 0 --connections 1 --nonces b c",
    "serve --db a --db a --port 0 --connections 1 --nonces b",
    "init --db made.db --ca ca.pub --root root --station station --first 1",
    "table --db kept.db kept.db",
]


@pytest.mark.parametrize(("words", "fault"), FAULTS)
def test_a_fault_is_named(program, files, words, fault):
    assert (1, b"", f"sshoffice: {fault}\n".encode()) == said([program, *words.split()], cwd=files)


@pytest.mark.parametrize(("words", "output"), PRINTED, ids=[words for words, _ in PRINTED])
def test_a_command_prints_its_report(program, files, words, output):
    assert (0, output, b"") == said([program, *words.split()], cwd=files)


def contents(folder):
    return {it.name: it.read_bytes() for it in folder.iterdir() if it.is_file()}


@pytest.mark.parametrize("words", MISTAKES)
def test_words_that_are_no_command(program, files, words):
    before = contents(files)
    status, out, err = said([program, *words.split()], cwd=files)
    assert (2, b"", True, before) == (status, out, len(err) > 0, contents(files))


@pytest.mark.parametrize("words", [
    [b"\xff"], [b"krl", b"--db", b"\xff"], [b"check", b"--ca", b"ca\xc3", b"k", b"1", b"x"]])
def test_a_word_that_is_not_utf_8(program, words):
    """It is bad words, and says so."""
    done = subprocess.run([program, *words], capture_output=True, timeout=250)
    assert (2, b"") == (done.returncode, done.stdout)
    assert b"UTF-8" in done.stderr


# ---- outputs that take nothing, or a part

def test_an_output_that_takes_nothing_is_a_fault(program):
    with open("/dev/full", "wb") as full:
        done = run([program, "selftest"], capture_output=False, stdout=full, stderr=-1)
    assert (1, b"sshoffice: Write\n") == (done.returncode, done.stderr)


def test_an_output_that_takes_eight_bytes_is_a_fault(program, room):
    limit = {"restore_signals": False, "preexec_fn": lambda: resource.setrlimit(resource.RLIMIT_FSIZE, (8, 8))}
    with open("eight", "wb") as eight:
        done = run([program, "selftest"], capture_output=False, stdout=eight, stderr=-1, **limit)
    assert (1, b"sshoffice: Write\n", b"selftest") == (done.returncode, done.stderr, pathlib.Path("eight").read_bytes())
