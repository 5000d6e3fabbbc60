"""Revocation lists: the bytes that are written, field by field, what is read of lists by their bytes, and that
ssh-keygen writes and reads the same.

krl_tool makes lists of specifications. The lists of ssh-keygen that stand here as bytes were made with OpenSSH 9.2; the
last part has ssh-keygen make new ones at each run.
"""
import contextlib
import pathlib
import sqlite3

import pytest

from asking import key_line, string
from lists import header, key_ids, ranged, section, single
from running import new_key, run, said

FIRST, OTHER = key_line(0x11), key_line(0x12)


# ---- lists that krl_tool makes

# The lines of the CAs whose keys are 32 bytes 11, 12 and 13.
ONES, TWOS, THREES = (f"ca: {key_line(byte)}\n" for byte in (0x11, 0x12, 0x13))
ALICE = "id: web/alice\n"
LAST, LAST_OF_ALL = 2 ** 63 - 2, 2 ** 64 - 1


def serials(*words):
    return "".join(f"serial: {word}\n" for word in words)


KEY_ID = key_ids(b"web/alice")

# A specification, a version and a date, the list and its length: 44 bytes for its head, and for each section 64, its
# serials (21 in a list of 129 bytes, 37 in one of 145, 50 in one of 158), and 18 for the key id.
MADE = [
    ("", 0, 0, header(0, 0), 44),
    (ONES, 0, 0, header(0, 0), 44),
    (ONES + serials(1), 1, 3000, header(1, 3000) + section(0x11, single(1)), 121),
    (ONES + serials("5-7"), 3, 3006, header(3, 3006) + section(0x11, ranged(5, 7)), 129),
    (ONES + ALICE, 1, 3000, header(1, 3000) + section(0x11, KEY_ID), 126),
    # Runs of one and two serials share a part, and each longer one has a part of its own.
    (ONES + serials("1-2"), 1, 3000, header(1, 3000) + section(0x11, single(1, 2)), 129),
    (ONES + serials("1-2", "4-5"), 1, 3000, header(1, 3000) + section(0x11, single(1, 2, 4, 5)), 145),
    (ONES + serials(2, "4-5", 9, "11-12"), 4, 3000, header(4, 3000) + section(0x11, single(2, 4, 5, 9, 11, 12)), 161),
    (ONES + serials(2, "4-5", "7-9"), 4, 3000, header(4, 3000) + section(0x11, single(2, 4, 5), ranged(7, 9)), 158),
    (ONES + serials(1, "3-4", "6-8"), 1, 3000, header(1, 3000) + section(0x11, single(1, 3, 4), ranged(6, 8)), 158),
    (ONES + serials(1, "5-7") + ALICE, 1, 3000, header(1, 3000) + section(0x11, single(1), ranged(5, 7), KEY_ID), 160),
    # All serials of an office, and all that a list can have but one.
    (ONES + serials(f"1-{LAST}"), 1, 3000, header(1, 3000) + section(0x11, ranged(1, LAST)), 129),
    (ONES + serials(0, f"2-{LAST_OF_ALL}"), 1, 3000,
     header(1, 3000) + section(0x11, single(0), ranged(2, LAST_OF_ALL)), 142),
    (ONES + serials("0-1", LAST_OF_ALL), 1, 3000, header(1, 3000) + section(0x11, single(0, 1, LAST_OF_ALL)), 137),
    # Each CA has its section, which is left out where nothing is to stand in it.
    (ONES + serials(2) + TWOS + serials(3), 1, 3000,
     header(1, 3000) + section(0x11, single(2)) + section(0x12, single(3)), 198),
    (ONES + serials("1-2") + TWOS + serials("3-4"), 1, 3000,
     header(1, 3000) + section(0x11, single(1, 2)) + section(0x12, single(3, 4)), 214),
    (ONES + serials("1-2") + TWOS + serials("3-4") + ALICE, 1, 3000,
     header(1, 3000) + section(0x11, single(1, 2), KEY_ID) + section(0x12, single(3, 4), KEY_ID), 250),
    (ONES + serials("1-2") + TWOS + THREES, 4, 5000, header(4, 5000) + section(0x11, single(1, 2)), 129),
    (ONES + serials("1-2") + TWOS + serials("3-4") + THREES + ALICE, 4, 5000,
     header(4, 5000) + section(0x11, single(1, 2), KEY_ID) + section(0x12, single(3, 4), KEY_ID)
     + section(0x13, KEY_ID), 332),
]

# Specifications of which no list is made, and why.
REFUSED = [
    *[(ONES + serials(*words), "serials that touch or don't ascend") for words in (
        ("1-2", "3-5"), ("1-4", "4-5"), ("4-5", "1-2"), ("2-1", "4-5"), ("1-2", "5-4"), (1, 1), (2, 1))],
    (serials(1), "serials of no CA"),
    (ONES * 9, "more than 8 CAs"),
    ("serial 1\n", "no line of a specification: serial 1"),
]

# The list of 2 under the first CA and of 3 under the second: a CA, a serial, and what is answered.
ANSWERS = [(ONES, 2, b"revoked\n"), (ONES, 3, b"clear\n"), (TWOS, 2, b"clear\n"), (TWOS, 3, b"revoked\n")]

# Serials in any order, and their runs.
GATHERED = [
    ((5, 7), b"5-5\n7-7\n"),
    ((5, 7, 6), b"5-7\n"),
    ((7, 5, 6, 5, 8), b"5-8\n"),
    ((0, 1, LAST_OF_ALL), b"0-1\n18446744073709551615-18446744073709551615\n"),
    ((), b""),
]


# How many serials are added and how far apart, around the count; and how many runs they make, and how many are new.
ADDED = [((6, 1), (6, 6)), ((6, 5), (6, 6)), ((4, 2), (2, 2)), ((6, 4), (3, 3)), ((5, 0), (1, 1)), ((0, 3), (0, 0))]


def specified(krl_tool, specification, version, date):
    """Status, output and errors of krl_tool, which makes a list of a specification."""
    pathlib.Path("specification").write_text(specification)
    return said([krl_tool, "list", "specification", version, date])


def name_of(specification):
    return " ".join("ca" if it.startswith("ca") else it for it in specification.splitlines()) or "nothing"


@pytest.mark.rows
@pytest.mark.parametrize(("specification", "version", "date", "wanted", "size"), MADE,
                         ids=[name_of(it[0]) for it in MADE])
def test_a_list_has_these_bytes(krl_tool, room, specification, version, date, wanted, size):
    assert size == len(wanted)
    assert (0, wanted, b"") == specified(krl_tool, specification, version, date)


@pytest.mark.rows
@pytest.mark.parametrize(("specification", "why"), REFUSED, ids=[name_of(it) for it, _ in REFUSED])
def test_no_list_is_made(krl_tool, room, specification, why):
    assert (1, b"", f"Error: {why}\n".encode()) == specified(krl_tool, specification, 1, 3000)


@pytest.mark.rows
@pytest.mark.parametrize(("ca", "serial", "wanted"), ANSWERS)
def test_a_list_is_asked(krl_tool, room, ca, serial, wanted):
    (room / "list").write_bytes(specified(krl_tool, ONES + serials(2) + TWOS + serials(3), 1, 3000)[1])
    (room / "ca.pub").write_text(ca.removeprefix("ca: "))
    assert (0, wanted, b"") == said([krl_tool, "check", "list", "ca.pub", serial, "x"])


@pytest.mark.rows
@pytest.mark.parametrize(("given", "wanted"), GATHERED)
def test_serials_are_gathered_into_ranges(krl_tool, given, wanted):
    assert (0, wanted, b"") == said([krl_tool, "gather", *given])


@pytest.mark.rows
@pytest.mark.parametrize(("given", "wanted"), ADDED)
def test_a_serial_that_a_set_has_is_not_new(krl_tool, given, wanted):
    """No serial is next to another one, so each new one is a run."""
    status, out, _ = said([krl_tool, "add", *given])
    assert (0, b"%d runs of %d serials, %d of them new\n" % (wanted[0], given[0], wanted[1])) == (status, out)


# ---- lists that the program reads

# The list of the serials 5 to 7.
RANGE = bytes.fromhex("5353484b524c0a00 00000001 0000000000000003 0000000000000bbe 0000000000000000 00000000 00000000"
                      "01 00000050 00000033 0000000b 7373682d65643235353139 00000020" + "11" * 32 +
                      "00000000 21 00000010 0000000000000005 0000000000000007")


def with_byte(place, byte):
    return RANGE[:place] + bytes([byte]) + RANGE[place + 1:]


def longer(size):
    """The list with a range of so many bytes, in a section of the length that belongs to it."""
    part = b"\x21" + string((RANGE[113:] + bytes(16))[:size])
    return RANGE[:44] + b"\1" + string(RANGE[49:108] + part)


EVERY_CA = bytes.fromhex("01 00000015 00000000 00000000 20 00000008 0000000000000009")
EXCHANGED = RANGE[:120] + b"\7" + RANGE[121:128] + b"\5"
NO_SERIALS = RANGE[:48] + b"\x40" + RANGE[49:104] + bytes.fromhex("00000000 20 00000000")

# `ssh-keygen -k -s ca.pub` of the lines `serial: 1`, `serial: 1000000`, `serial: 5000000-9000000`, `id: web/alice` and
# `id: web/bob`; and of the lines `serial: N` for N in 1, 3, 5, 7, 8, 10, 12, 14, 17, 19, which it writes as a bitmap.
MADE_HEAD = "5353484b524c0a00 00000001 000000000000000{} 000000006b02c04d 0000000000000000 00000000 00000000"
MADE_BLOB = "00000033 0000000b 7373682d65643235353139 00000020" + "11" * 32
FEW = bytes.fromhex(MADE_HEAD.format(7) + "01 00000082" + MADE_BLOB + "00000000 20 00000010 0000000000000001"
                    "00000000000f4240 21 00000010 00000000004c4b40 0000000000895440 23 00000018"
                    "00000009 7765622f616c696365 00000007 7765622f626f62")
BITMAP = bytes.fromhex(MADE_HEAD.format(8) + "01 0000004f" + MADE_BLOB +
                       "00000000 22 0000000f 0000000000000001 00000003 052ad5")

# A list, what it is, the key of the CA, a serial, a key id, and the verdict or the fault.
CHECKED = [
    *[(RANGE, "a range", FIRST, serial, "web/x", "revoked" if 5 <= serial <= 7 else "clear") for serial in range(4, 9)],
    *[(RANGE, "a range", OTHER, serial, "web/x", "clear") for serial in range(4, 9)],
    *[(RANGE[:size], f"its first {size} bytes", FIRST, 6, "x", "clear" if size == 44 else "Truncated")
      for size in range(len(RANGE))],
    (RANGE + b"\0", "with a byte more", FIRST, 6, "x", "Truncated"),
    *[(with_byte(place, byte), f"with {byte:#x} as byte {place}", FIRST, 6, "x", answer) for place, byte, answer in [
        (0, 0x54, "BadMagic"),
        (11, 2, "BadVersion"),
        (35, 1, "BadFlags"),
        (44, 2, "Unsupported(2)"),
        (48, 0x4f, "BadSection"),
        (48, 0x51, "Truncated"),
        (52, 0x7f, "BadSection"),
        (108, 0x22, "Unsupported(34)"),
        (108, 0x20, "clear"),
        (108, 0x23, "BadSection"),
        (112, 0x0f, "BadSection"),
        (112, 0x11, "BadSection"),
        (120, 9, "clear"),
    ]],
    *[(RANGE + EVERY_CA, "and a section of every CA", key, serial, "x", answer) for key, serial, answer in [
        (OTHER, 9, "revoked"), (OTHER, 6, "clear"), (FIRST, 9, "revoked"), (FIRST, 6, "revoked")]],
    *[(longer(size), f"with a range of {size} bytes", FIRST, 6, "x", "revoked" if size == 16 else "BadSection")
      for size in (0, 8, 15, 16, 17, 24, 32)],
    *[(RANGE, "a range", FIRST, serial, "web/x", "clear") for serial in (2 ** 63 - 1, 2 ** 63, LAST_OF_ALL)],
    (RANGE + bytes.fromhex("0200000000"), "and a section of another type", FIRST, 6, "x", "Unsupported(2)"),
    *[(EXCHANGED, "with its ends exchanged", FIRST, serial, "x", "clear") for serial in range(4, 9)],
    *[(NO_SERIALS, "with no serials in its place", FIRST, serial, "x", "clear")
      for serial in (1, 5, 6, 7, LAST_OF_ALL)],
    *[(FEW, "ssh-keygen's list", FIRST, serial, "db/x", "revoked") for serial in (1, 1000000, 5000000, 9000000)],
    *[(FEW, "ssh-keygen's list", FIRST, serial, "db/x", "clear") for serial in (2, 999999, 4999999, 9000001)],
    *[(FEW, "ssh-keygen's list", FIRST, 2, key_id, "revoked" if key_id in ("web/alice", "web/bob") else "clear")
      for key_id in ("web/alice", "web/bob", "web/bo", "web/bobb")],
    *[(FEW, "ssh-keygen's list", OTHER, serial, key_id, "clear") for serial, key_id in ((1, "db/x"), (2, "web/alice"))],
    (BITMAP, "ssh-keygen's bitmap", FIRST, 1, "x", "Unsupported(34)"),
]


def checked(program, ca, content, serial, key_id):
    """The verdict of `check`, or its fault, with this public line and this list."""
    pathlib.Path("ca.pub").write_bytes(ca)
    pathlib.Path("list.krl").write_bytes(content)
    status, out, err = said([program, "check", "--ca", "ca.pub", "list.krl", serial, key_id])
    verdict = out if out in (b"revoked\n", b"clear\n") else err.removeprefix(b"sshoffice: ")
    assert (status, out, err) in ((0, verdict, b""), (1, b"", b"sshoffice: " + verdict))
    return verdict.decode().rstrip("\n")


@pytest.mark.rows
@pytest.mark.parametrize(("content", "what", "ca", "serial", "key_id", "answer"), CHECKED,
                         ids=[f"{it[1]}: {it[3]} {it[4]} under {it[2][-4:]}: {it[5]}" for it in CHECKED])
def test_the_verdict_of_a_list(program, room, content, what, ca, serial, key_id, answer):
    assert answer == checked(program, ca.encode(), content, serial, key_id)


# ---- certificate by certificate, beside ssh-keygen

# Each of the two CAs, `old` and `new`, has a certificate of each serial, with its key id.
KEY_IDS = {1: "web/alice", 2: "web/alic", 3: "web/alicex", 4: "db/bob", 5: "web/Zoë: 2nd", 6: "db/bob"} | {
    serial: f"web/{serial}" for serial in (7, 8, 9, 10, 255, 256, 2 ** 32 - 1, 2 ** 32, LAST)}
NAMES = [f"{ca}.{serial}" for ca in ("old", "new") for serial in KEY_IDS]


@pytest.fixture(scope="module")
def certificates(tmp_path_factory):
    """A folder with the two CAs, and the certificates, by names CA.SERIAL."""
    folder = tmp_path_factory.mktemp("certificates")
    for name in ("user", "old", "new"):
        new_key(folder / name)
    for ca in ("old", "new"):
        for serial, key_id in KEY_IDS.items():
            public = folder / f"{ca}.{serial}.pub"
            public.write_bytes((folder / "user.pub").read_bytes())
            run(["ssh-keygen", "-q", "-s", folder / ca, "-I", key_id, "-n", "alice", "-z", serial, public], check=True)
    return folder


@pytest.fixture
def lists(certificates, krl_tool, monkeypatch):
    """The folder with the certificates, where the test runs, and what each reader finds revoked by a list there."""
    monkeypatch.chdir(certificates)
    monkeypatch.setenv("TZ", "UTC")

    def by_keygen():
        lines = run(["ssh-keygen", "-Q", "-f", "list", *[f"{name}-cert.pub" for name in NAMES]]).stdout.splitlines()
        assert len(NAMES) == len(lines), lines
        return [name for name, line in zip(NAMES, lines) if line.endswith(b"): REVOKED")]

    def by_reader():
        verdicts = {}
        for name in NAMES:
            ca, serial = name.split(".")
            done = run([krl_tool, "check", "list", f"{ca}.pub", serial, KEY_IDS[int(serial)]])
            verdicts[name] = (done.stdout + done.stderr).decode().rstrip("\n")
        faults = {it for it in verdicts.values() if it not in ("revoked", "clear")}
        return faults or [name for name, verdict in verdicts.items() if verdict == "revoked"]

    return certificates, by_keygen, by_reader


def names(old, new=()):
    return [*(f"old.{it}" for it in old), *(f"new.{it}" for it in new)]


# What, a specification in which OLD and NEW stand for the CAs' lines, and the certificates that it revokes.
WRITTEN = [
    ("a new list", "", []),
    ("a serial", "ca: OLD\nserial: 5\n", names([5])),
    ("two serials and a long range", "ca: OLD\n" + serials("3-4", "6-256"), names([3, 4, 6, 7, 8, 9, 10, 255, 256])),
    ("key ids", "ca: OLD\nca: NEW\nid: db/bob\nid: web/Zoë: 2nd\nid: web/alic\n", names([2, 4, 5, 6], [2, 4, 5, 6])),
    ("two CAs", "ca: OLD\n" + serials(1, "3-4", "7-9") + "ca: NEW\n" + serials(
        "255-256", "4294967295-4294967297", LAST) + "id: web/Zoë: 2nd\nid: web/alic\n",
     names([1, 2, 3, 4, 5, 7, 8, 9], [2, 5, 255, 256, 2 ** 32 - 1, 2 ** 32, LAST])),
]


def made(folder, krl_tool, specification):
    lines = specification
    for ca in ("old", "new"):
        lines = lines.replace(ca.upper(), (folder / f"{ca}.pub").read_text().strip())
    (folder / "specification").write_text(lines)
    (folder / "list").write_bytes(run([krl_tool, "list", "specification", 7, 3000], check=True).stdout)


@pytest.mark.parametrize(("what", "specification", "revoked"), WRITTEN, ids=[it[0] for it in WRITTEN])
def test_ssh_keygen_reads_our_lists(lists, krl_tool, what, specification, revoked):
    folder, by_keygen, by_reader = lists
    made(folder, krl_tool, specification)
    assert (revoked, revoked) == (by_keygen(), by_reader())


def test_ssh_keygen_reads_version_and_date(lists, krl_tool):
    folder, _, _ = lists
    made(folder, krl_tool, WRITTEN[-1][1])
    shown = run(["ssh-keygen", "-Q", "-l", "-f", "list"], check=True).stdout.splitlines()
    assert [b"# KRL version 7", b"# Generated at 19700101T005000"] == shown[:2]


OLDS = [1, 2, 4, 6, 2 ** 32, LAST]
# The words of ssh-keygen -k for some lists, each with its specification. -u adds to the list before.
SOME = (["-s", "old.pub", "-z", "3", "-"], serials(1, 1000000, f"4294967296-{LAST}") + "id: web/alic\nid: db/bob\n")
READ = [
    ("nothing", [(["/dev/null"], "")], []),
    ("serials, a range and key ids", [SOME], names(OLDS)),
    ("two CAs", [SOME, (["-u", "-s", "new.pub", "-"], "serial: 255\n")], names(OLDS, [255])),
    ("every CA", [(["-s", "none", "-"], "serial: 10\n")], names([10], [10])),
]


def made_by_keygen(calls):
    for words, specification in calls:
        run(["ssh-keygen", "-q", "-k", "-f", "list", *words], input=specification.encode(), stdin=None, check=True)


@pytest.mark.parametrize(("what", "calls", "revoked"), READ, ids=[it[0] for it in READ])
def test_we_read_lists_of_ssh_keygen(lists, what, calls, revoked):
    _, by_keygen, by_reader = lists
    made_by_keygen(calls)
    assert (revoked, revoked) == (by_keygen(), by_reader())


BITMAP_OF_KEYGEN = "".join(f"serial: {it}\n" for it in (1, 3, 5, 7, 8, 10, 12, 14, 17, 19))


@pytest.mark.parametrize(("words", "specification", "fault"), [
    (["-s", "old.pub", "-"], BITMAP_OF_KEYGEN, "Unsupported(34)"), (["user.pub"], "", "Unsupported(2)")])
def test_we_refuse_parts_that_no_office_writes(lists, words, specification, fault):
    _, _, by_reader = lists
    made_by_keygen([(words, specification)])
    assert {fault} == by_reader()


# ---- long lists

def long_list(count):
    """A list of this many ranges of three serials, ten apart, under the first CA: the ranges, and the list's bytes."""
    ranges = [(10 * it + 1, 10 * it + 3) for it in range(count)]
    return ranges, header(count, 3000) + section(0x11, *[ranged(*it) for it in ranges])


def test_a_list_of_over_a_megabyte_is_read(program, room):
    ranges, content = long_list(50_000)
    assert len(content) > 1_000_000
    low, high = ranges[-1]
    assert ["clear", "revoked", "revoked", "clear"] == [
        checked(program, FIRST.encode(), content, serial, "web/x") for serial in (low - 1, low, high, high + 1)]


def test_a_list_of_over_64_kilobytes_is_served(make_office):
    """The runs are put into the file by SQLite, as that many revocations leave them."""
    ranges, content = long_list(5_000)
    assert len(content) > 64 * 1024
    office = make_office(ca=FIRST)
    with contextlib.closing(sqlite3.connect(office.db)) as file, file:
        file.executemany("INSERT INTO run VALUES (?, ?)", ranges)
        file.execute("UPDATE office SET version = 5000, date = 3000, next = ?", [ranges[-1][1] + 1])
    assert content == office.krl()
    with office.serving() as served:
        assert content == served.get("/v1/krl").body
