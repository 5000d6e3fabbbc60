"""`sshstation lists` and `list`: which list is approved after which, in a file that outlasts each call.

The lists are made field by field. What is due is said by plain_lists, a list guard of plain sets
in Python. Each call is a process of its own, so a history of calls is one of restarts too.
"""
import contextlib
import hashlib
import os
import random
import signal
import sqlite3
import stat
import subprocess
import time

import pytest

import plain_lists
from asking import key_line
from lists import header, key_ids, published, ranged, section, single
from running import preloaded, run
from test_lists import ALICE, BOB, LAST, grown

ONE = ((0x11, {1, 2, 5}),)
MORE = ((0x11, {1, 2, 5, 9}),)
CAS = (0x11, 0x12, 0x13)


class Lists:
    """A list guard in the folder of the test."""

    def __init__(self, program):
        self.program = program

    def run(self, *words, **how):
        done = run([self.program, *words], **how)
        return done.returncode, done.stdout.decode(), done.stderr.decode()

    def init(self, db="lists.db"):
        return self.run("lists", "--init", "--db", db)

    def ask(self, path="list", *words, cas=CAS, **how):
        cas = [it for ca in cas for it in ("--ca", f"ca{ca}.pub")]
        return self.run("list", "--db", "lists.db", *cas, *words, path, **how)

    def judge(self, content, *words, **how):
        """What is answered of a list: the name of the refusal, or the digest and the version."""
        with open("list", "wb") as file:
            file.write(content)
        status, out, err = self.ask("list", *words, **how)
        assert (0, "") == (status, err)
        kind, *rest = out.removesuffix("\n").split(" ")
        if kind == "list":
            digest, version, moment = rest
            assert digest == hashlib.sha256(content).hexdigest() and abs(time.time() - int(moment)) < 3600
            return int(version)
        return rest[0]

    def kept(self):
        """The bytes of the list that is kept; none, where there is no list."""
        with contextlib.closing(sqlite3.connect("lists.db")) as tables:
            rows = tables.execute("SELECT id, schema, bytes FROM list ORDER BY id").fetchall()
        assert [(it + 1, 2) for it in range(len(rows))] == [row[:2] for row in rows]
        assert {65536} >= {len(row[2]) for row in rows[:-1]} and len(rows[-1][2]) <= 65536
        return b"".join(row[2] for row in rows) or None

    def to_schema_1(self):
        """Writes the file as earlier programs did: the whole list in one row."""
        whole = self.kept()
        with contextlib.closing(sqlite3.connect("lists.db")) as tables, tables:
            tables.execute("DELETE FROM list")
            tables.execute("INSERT INTO list VALUES (1, 1, ?)", (whole or b"",))


@pytest.fixture
def lists(sshstation, room):
    for ca in CAS:
        (room / f"ca{ca}.pub").write_text(key_line(ca))
    made = Lists(sshstation)
    assert (0, "lists ready\n", "") == made.init()
    return made


# ---- each refusal, and what it leaves

AFTER_ONE = [
    ("the same again", published(ONE, {ALICE}, 5), 5),
    ("the same, where a first list is said", published(ONE, {ALICE}, 5), 5),
    ("a serial more", published(MORE, {ALICE}, 6), 6),
    ("a CA more", published((*ONE, (0x12, {7})), {ALICE}, 6), 6),
    ("a CA more, and as many versions as that is", published((*ONE, (0x12, {7})), {ALICE}, 8), 8),
    ("2^63 serials, and as many versions as that is",
     header(2 ** 63 + 2) + section(0x11, ranged(1, 2 ** 63), key_ids(ALICE)), 2 ** 63 + 2),
    ("every serial, and the greatest version", header(LAST) + section(0x11, ranged(0, LAST), key_ids(ALICE)), LAST),
    ("no list", b"list", "NotAList"),
    ("nothing", b"", "NotAList"),
    ("a byte more", published(MORE, {ALICE}, 6) + b"\0", "NotAList"),
    ("another CA", published((*ONE, (0x14, {7})), {ALICE}, 6), "OtherCa"),
    ("an older one", published(MORE, {ALICE}, 4), "OlderVersion"),
    ("an older one that forgets", published((), set(), 4), "OlderVersion"),
    ("other bytes under the version", published(MORE, {ALICE}, 5), "OtherBytes"),
    ("an empty list of the version", header(5), "OtherBytes"),
    ("an empty list of the next version", header(6), "Forgets"),
    ("a serial forgotten", published(((0x11, {1, 2}),), {ALICE}, 6), "Forgets"),
    ("a key id forgotten", published(MORE, {BOB}, 6), "Forgets"),
    ("its CA forgotten", published(((0x12, {1, 2, 5}),), {ALICE}, 6), "Forgets"),
    ("a serial more, and two versions", published(MORE, {ALICE}, 7), "VersionJumps"),
    ("the same, and one version", published(ONE, {ALICE}, 6), "VersionJumps"),
    ("a CA more, and a version more than that is", published((*ONE, (0x12, {7})), {ALICE}, 9), "VersionJumps"),
    ("the greatest version", published(MORE, {ALICE}, LAST), "VersionJumps"),
    ("2^63 serials, and a version more than that is",
     header(2 ** 63 + 3) + section(0x11, ranged(1, 2 ** 63), key_ids(ALICE)), "VersionJumps"),
    ("the greatest version of an office", published(MORE, {ALICE}, 2 ** 63 - 1), "VersionJumps"),
    ("one that forgets, and the greatest version", published((), set(), LAST), "Forgets"),
]


@pytest.mark.rows
@pytest.mark.parametrize(("what", "content", "wanted"), AFTER_ONE, ids=[it[0] for it in AFTER_ONE])
def test_a_list_after_another_one(lists, what, content, wanted):
    first = published(ONE, {ALICE}, 5)
    assert 5 == lists.judge(first, "--begin")
    words = ["--begin"] if "said" in what else []
    assert wanted == lists.judge(content, *words)
    assert (content if isinstance(wanted, int) else first) == lists.kept()
    assert plain_lists.refusal(content, [bytes([it]) * 32 for it in CAS], False, first) == (
        None if isinstance(wanted, int) else wanted)


@pytest.mark.rows
def test_a_first_list_is_taken_only_where_that_is_said(lists):
    content = published(ONE, {ALICE}, 5)
    assert "NotBegun" == lists.judge(content)
    assert lists.kept() is None
    assert "OtherCa" == lists.judge(content, "--begin", cas=(0x12, 0x13))
    assert "NotAList" == lists.judge(b"", "--begin")
    assert 5 == lists.judge(content, "--begin")
    assert content == lists.kept()


@pytest.mark.rows
@pytest.mark.parametrize(("what", "content", "wanted"), [
    ("nothing yet", header(0), 0),
    ("nothing, and a version", header(1), "VersionJumps"),
    ("as many as its section and serials", published(ONE, set(), 4), 4),
    ("one more than these", published(ONE, set(), 5), "VersionJumps"),
    ("a key id in two sections", published((*ONE, (0x12, set())), {ALICE}, 7), 7),
    ("one more than these", published((*ONE, (0x12, set())), {ALICE}, 8), "VersionJumps"),
    ("the greatest", published(ONE, set(), LAST), "VersionJumps"),
])
def test_the_version_of_a_first_list(lists, what, content, wanted):
    assert wanted == lists.judge(content, "--begin")
    assert wanted == (plain_lists.refusal(content, [bytes([it]) * 32 for it in CAS], True, None)
                      or plain_lists.read_list(content).version)


@pytest.mark.rows
def test_a_list_may_speak_of_the_cas_that_are_named_alone(lists):
    both = header(1) + section(0x11, single(1)) + section(0x12, single(1))
    assert "OtherCa" == lists.judge(both, "--begin", cas=(0x11,))
    assert 1 == lists.judge(both, "--begin", cas=(0x12, 0x11))
    assert 1 == lists.judge(both, cas=(0x11, 0x12, 0x11))
    assert "OtherCa" == lists.judge(both, cas=(0x12,))


@pytest.mark.rows
@pytest.mark.parametrize("strange", [{"EARLY_CLOCK": "yes"}, {"MOMENT": "none"}], ids=["before 1970", "fails"])
def test_without_a_time_no_list_is_stated(lists, room, strange):
    (room / "list").write_bytes(published(ONE, {ALICE}, 5))
    environment = os.environ | {"LD_PRELOAD": str(preloaded("strange_system.c", room))} | strange
    assert (1, "", "sshstation: Clock\n") == lists.ask("list", "--begin", env=environment)
    assert lists.kept() is None


@pytest.mark.rows
@pytest.mark.parametrize("place", ["ca17.pub/lists.db", "l" * 300], ids=["below-a-file", "too-long-a-name"])
def test_where_nobody_can_look_it_is_not_said_that_there_is_no_guard(lists, room, place):
    (room / "list").write_bytes(published(ONE, {ALICE}, 5))
    before = sorted(os.listdir(room))
    assert (1, "", "sshstation: Device\n") == lists.run("list", "--db", place, "--ca", "ca17.pub", "--begin", "list")
    assert before == sorted(os.listdir(room))


# ---- long lists

SHORT = published(((0x11, {1}),), set(), 1)
LONG = published(((0x11, {1, *range(10, 50000, 2)}),), set(), 2)
SHORTER = header(3) + section(0x11, ranged(1, 100000))


@pytest.mark.rows
def test_a_long_list_is_kept_and_then_a_shorter_one(lists):
    assert len(SHORTER) < 65536 < 2 * 65536 < len(LONG)
    for version, content in enumerate((SHORT, LONG, SHORTER), start=1):
        assert version == lists.judge(content, *["--begin"] * (version == 1))
        assert content == lists.kept()
        assert version == lists.judge(content)
    assert "OlderVersion" == lists.judge(LONG)


@pytest.mark.rows
@pytest.mark.parametrize("first", [SHORT, LONG], ids=["short", "long"])
def test_a_file_of_schema_1_is_read_and_the_next_list_makes_schema_2(lists, first):
    """Its list is in one row, however long it is."""
    assert isinstance(lists.judge(first, "--begin"), int)
    lists.to_schema_1()
    assert "Forgets" == lists.judge(header(3))
    assert isinstance(lists.judge(first), int)
    assert 3 == lists.judge(SHORTER)
    assert SHORTER == lists.kept()


@pytest.mark.rows
def test_a_file_of_schema_1_without_a_list_is_read(lists):
    lists.to_schema_1()
    assert "NotBegun" == lists.judge(SHORT)
    assert 1 == lists.judge(SHORT, "--begin")
    assert SHORT == lists.kept()


# ---- the file, words and faults

@pytest.mark.rows
def test_a_file_for_lists_is_its_owners_alone_and_made_once(lists, room):
    assert 0o600 == stat.S_IMODE((room / "lists.db").stat().st_mode)
    assert 5 == lists.judge(published(ONE, {ALICE}, 5), "--begin")
    before = (room / "lists.db").read_bytes()
    for mode in (0o600, 0o640):
        (room / "lists.db").chmod(mode)
        assert (1, "", "sshstation: AlreadyAGuard\n") == lists.init()
        assert mode == stat.S_IMODE((room / "lists.db").stat().st_mode), "an init leaves the file's mode"
    assert before == (room / "lists.db").read_bytes()


@pytest.mark.rows
@pytest.mark.parametrize(("tables", "fault"), [
    ("CREATE TABLE note (id INTEGER PRIMARY KEY, text TEXT); INSERT INTO note VALUES (1, 'a')", "NotAGuard"),
    ("CREATE TABLE lists (id INTEGER); CREATE TABLE guard (id INTEGER)", "NotAGuard"),
    ("CREATE VIEW one AS SELECT 1", "NotAGuard"), ("CREATE TABLE LIST (id INTEGER)", "AlreadyAGuard"),
    ("CREATE TABLE note (id INTEGER); CREATE TABLE list (id INTEGER)", "AlreadyAGuard")])
def test_no_guard_of_lists_is_made_beside_other_tables(sshstation, room, tables, fault):
    with contextlib.closing(sqlite3.connect("lists.db")) as made, made:
        made.executescript(tables)
    before = (room / "lists.db").read_bytes()
    assert (1, "", f"sshstation: {fault}\n") == Lists(sshstation).init()
    assert before == (room / "lists.db").read_bytes()


@pytest.mark.rows
@pytest.mark.parametrize("words", [
    ["lists"], ["lists", "--init"], ["lists", "--db", "a"], ["lists", "--init", "--db", "a", "b"],
    ["list", "--db", "a", "--ca", "b"], ["list", "--db", "a", "b"], ["list", "--ca", "a", "b"],
    ["list", "--db", "a", "--ca", "b", "c", "d"], ["list", "--db", "a", "--ca", "b", "--begin", "--begin", "c"],
    ["list", "--db", "a", "--db", "b", "--ca", "c", "d"], ["list", "--db", "a", "--ca", "b", "--begin=1", "c"]])
def test_bad_words_have_status_2_and_open_nothing(sshstation, room, words):
    status, out, err = Lists(sshstation).run(*words)
    assert (2, "", True) == (status, out, err != "")
    assert [] == os.listdir(room)


@pytest.mark.rows
def test_faults_are_found_in_their_order(lists, room):
    (room / "list").write_bytes(published(ONE, {ALICE}, 5))
    (room / "ca1.pub").write_text("ssh-rsa AAAA")
    assert (1, "", "sshstation: WrongType\n") == lists.ask("none", cas=(0x11, 1))
    assert (1, "", "sshstation: File\n") == lists.ask("none", cas=(2, 1))
    assert (1, "", "sshstation: File\n") == lists.ask("none")
    assert (1, "", "sshstation: File\n") == lists.ask(".")
    os.rename("lists.db", "away.db")
    there = set(os.listdir(room))
    assert (1, "", "sshstation: File\n") == lists.ask("none")
    assert (1, "", "sshstation: NotAGuard\n") == lists.ask()
    assert there == set(os.listdir(room)), "a file that isn't there isn't made"
    (room / "lists.db").touch()
    assert (1, "", "sshstation: NotAGuard\n") == lists.ask()


@pytest.mark.rows
@pytest.mark.parametrize(("change", "fault"), [
    ("UPDATE list SET schema = 3", "WrongSchema"), ("UPDATE list SET id = 2", "Damaged"),
    ("DELETE FROM list", "NotAGuard"), ("INSERT INTO list VALUES (2, 1, x'')", "WrongSchema"),
    ("INSERT INTO list VALUES (3, 2, x'')", "Damaged"), ("INSERT INTO list VALUES (2, 2, x'00')", "Damaged"),
    ("UPDATE list SET schema = -1", "Damaged"), ("UPDATE list SET bytes = x'00'", "Damaged"),
    ("UPDATE list SET bytes = substr(bytes, 2)", "Damaged"),
    ("ALTER TABLE list RENAME COLUMN bytes TO more", "NotAGuard"), ("DROP TABLE list", "NotAGuard")])
def test_a_damaged_file_is_told_and_left(lists, room, change, fault):
    content = published(ONE, {ALICE}, 5)
    assert 5 == lists.judge(content, "--begin")
    with contextlib.closing(sqlite3.connect("lists.db")) as tables, tables:
        tables.execute(change)
        before = [*tables.iterdump()]
    assert (1, "", f"sshstation: {fault}\n") == lists.ask("list", "--begin")
    with contextlib.closing(sqlite3.connect("lists.db")) as tables:
        assert before == [*tables.iterdump()]


def test_a_list_whose_line_cannot_be_printed_is_kept(lists, room):
    (room / "list").write_bytes(published(ONE, {ALICE}, 5))
    with open("/dev/full", "wb") as full:
        done = subprocess.run([lists.program, "list", "--db", "lists.db", "--ca", f"ca{0x11}.pub", "--begin", "list"],
                              stdout=full, stderr=subprocess.PIPE)
    assert (1, b"sshstation: Write\n") == (done.returncode, done.stderr)
    assert 5 == lists.judge(published(ONE, {ALICE}, 5))


@pytest.mark.slow
@pytest.mark.once
def test_a_call_that_is_killed_leaves_the_one_list_or_the_other(lists, room):
    """Each of these calls is killed at some moment of its run. A list whose line was printed is kept; else the list is
    kept that was approved before, or the one in hand. Every other file is as earlier programs wrote it."""
    def next_list(version):
        return published(((0x11, {10 * it for it in range(1, version + 1)}),), set(), version)

    begun = time.monotonic()
    assert 1 == lists.judge(next_list(1), "--begin")
    usual, printed = time.monotonic() - begun, []
    for version in range(2, 102):
        if version % 4 > 1:
            lists.to_schema_1()
        (room / "list").write_bytes(next_list(version))
        words = [lists.program, "list", "--db", "lists.db", "--ca", f"ca{0x11}.pub", "list"]
        process = subprocess.Popen(words, stdout=subprocess.PIPE, stderr=subprocess.DEVNULL)
        first = process.stdout.readline() if version % 2 else b""
        time.sleep(random.uniform(0, usual / 10 if first else 1.2 * usual))
        process.send_signal(signal.SIGKILL)
        printed.append(len(first + process.communicate()[0]))
        assert lists.judge(next_list(version - 1)) in ["OlderVersion"] + [version - 1] * (not printed[-1]), version
        assert version == lists.judge(next_list(version))
    assert min(printed) == 0 < max(printed), "some were killed before their line, and some after it"
    assert b"ok\n" == run(["sqlite3", "lists.db", "PRAGMA integrity_check"], check=True).stdout


# ---- histories, beside a list guard of plain sets

@pytest.mark.slow
@pytest.mark.timeout(1800)
def test_random_histories_beside_plain_sets(lists, room, request):
    """Lists of three CAs, each after another one, some of which forget, go back, have other bytes or another CA. After
    each call the program has ended, and the next one finds what it left."""
    chance = random.Random(request.config.option.hypothesis_seed)
    keys = [bytes([it]) * 32 for it in CAS]
    counts, kept, version = {}, None, 1
    revoked, ids = [], set()
    count = request.config.getoption("--lists")
    for _ in range(count):
        begins = chance.randrange(4) == 0
        revoked_next, ids_next = ([], set()) if chance.randrange(60) == 0 else grown(chance, revoked, ids)
        version_next = version + chance.choice((-1, 0, 0, 1, 1, 1, 1, 2, 1000))
        content = published(revoked_next, ids_next, max(version_next, 0))
        if chance.randrange(12) == 0:
            content = content[:chance.randrange(len(content))]
        elif kept is not None and chance.randrange(12) == 0:
            content = kept
        cas = CAS if chance.randrange(10) else (0x11, 0x12)
        wanted = plain_lists.refusal(content, keys[:len(cas)], begins, kept)
        answer = lists.judge(content, *["--begin"] * begins, cas=cas)
        if wanted is None:
            kept = content
            wanted = version = plain_lists.read_list(content).version
            if content == published(revoked_next, ids_next, version):
                revoked, ids = revoked_next, ids_next
        assert wanted == answer, (content, kept)
        assert kept == lists.kept()
        name = "approved" if isinstance(answer, int) else answer
        counts[name] = counts.get(name, 0) + 1
    wanted = {"approved", "NotAList", "OtherCa", "OlderVersion", "OtherBytes", "Forgets", "VersionJumps"}
    assert wanted <= {*counts} or count < 600, counts
