"""Published lists: which bytes are one, and whether a list keeps all that the one before it revokes.

`krl_tool compare` answers. The lists are made field by field, and what they revoke is compared here as plain sets of
pairs: of a CA and a serial, and of a CA and a key id. Other lists are those of ssh-keygen.
"""
import itertools
import random
import tempfile

import pytest

from asking import key_line, string
from lists import header, key_ids, published, ranged, section, single
from running import run

LAST = 2 ** 64 - 1


def compared(krl_tool, room, lists):
    """What is said of each list but the first. The lists are files that are new, since to write over one waits for the
    disk."""
    with tempfile.TemporaryDirectory(dir=room) as folder:
        names = []
        for place, content in enumerate(lists):
            names.append(f"{folder}/{place}")
            with open(names[-1], "wb") as file:
                file.write(content)
        done = run([krl_tool, "compare", *names])
    assert (0, b"") == (done.returncode, done.stderr)
    return done.stdout.decode().splitlines()


# ---- which bytes are a published list

ONE = header() + section(0x11, single(1))
ALICE, BOB = b"web/alice", b"web/bob"

PUBLISHED = {
    "nothing": header(),
    "any version and date": header(LAST, LAST),
    "a serial": ONE,
    "a pair": header() + section(0x11, single(1, 2)),
    "three serials": header() + section(0x11, ranged(5, 7)),
    "serials and ranges by turns": header() + section(0x11, single(1, 3, 4, 10), ranged(6, 8), ranged(12, 20)),
    "the first and the last serial": header() + section(0x11, single(0, LAST - 1, LAST)),
    "all serials": header() + section(0x11, ranged(0, LAST)),
    "a key id": header() + section(0x11, key_ids(ALICE)),
    "an empty key id": header() + section(0x11, key_ids(b"")),
    "key ids of which one begins another": header() + section(0x11, key_ids(b"web", ALICE, BOB)),
    "serials and key ids": header() + section(0x11, single(1), ranged(5, 7), key_ids(ALICE, BOB)),
    "two CAs": header() + section(0x12, single(1)) + section(0x11, single(1)),
    "eight CAs": header() + b"".join(section(it, single(1)) for it in range(8)),
    "a CA without serials beside key ids":
        header() + section(0x11, single(1), key_ids(BOB)) + section(0x12, key_ids(BOB)),
}

OTHER = {
    "no bytes": b"",
    "a header cut short": header()[:-1],
    "another magic number": b"SSHKRM" + header()[6:],
    "another form": header(form=2) + ONE[44:],
    "flags": header(flags=1) + ONE[44:],
    "a reserved string": header(reserved=b"x") + ONE[44:],
    "a comment": header(comment=b"x") + ONE[44:],
    "a byte more": ONE + b"\0",
    "a byte less": ONE[:-1],
    "a byte more in the section": header() + section(0x11, single(1), b"\0"),
    "a reserved string in a section": header() + section(0x11, single(1), reserved=b"x"),
    "another type of section": header() + section(0x11, single(1), kind=2),
    "every CA": header() + section(0x11, single(1), blob=b""),
    "a CA of 31 bytes": header() + section(0x11, single(1), blob=string(b"ssh-ed25519") + string(b"\x11" * 31)),
    "a CA of another type": header() + section(0x11, single(1), blob=string(b"ssh-ed25518") + string(b"\x11" * 32)),
    "a section of nothing": header() + section(0x11),
    "an empty list of serials": header() + section(0x11, single()),
    "serials of 7 bytes": header() + section(0x11, b"\x20" + string(bytes(7))),
    "two lists of serials": header() + section(0x11, single(1), single(5)),
    "serials that descend": header() + section(0x11, single(5, 1)),
    "a serial twice": header() + section(0x11, single(1, 1)),
    "three serials in a list": header() + section(0x11, single(1, 2, 3)),
    "a range of two serials": header() + section(0x11, ranged(1, 2)),
    "a range that ends before it begins": header() + section(0x11, ranged(7, 5)),
    "a range of 15 bytes": header() + section(0x11, b"\x21" + string(bytes(15))),
    "ranges that descend": header() + section(0x11, ranged(15, 17), ranged(5, 7)),
    "ranges that touch": header() + section(0x11, ranged(1, 3), ranged(4, 6)),
    "ranges that overlap": header() + section(0x11, ranged(1, 5), ranged(5, 9)),
    "a serial beside a range": header() + section(0x11, single(4), ranged(5, 7)),
    "a serial in a range": header() + section(0x11, single(6), ranged(5, 7)),
    "a range before the serials": header() + section(0x11, ranged(5, 7), single(1)),
    "key ids before a range": header() + section(0x11, key_ids(ALICE), ranged(5, 7)),
    "an empty list of key ids": header() + section(0x11, single(1), key_ids()),
    "two lists of key ids": header() + section(0x11, key_ids(ALICE), key_ids(BOB)),
    "key ids that descend": header() + section(0x11, key_ids(BOB, ALICE)),
    "a key id twice": header() + section(0x11, key_ids(ALICE, ALICE)),
    "another type of part": header() + section(0x11, b"\x22" + string(bytes(9))),
    "a CA twice": header() + section(0x11, single(1)) + section(0x12, single(2)) + section(0x11, single(5)),
    "nine CAs": header() + b"".join(section(it, single(1)) for it in range(9)),
    "key ids of one CA alone": header() + section(0x11, single(1), key_ids(ALICE)) + section(0x12, single(1)),
    "other key ids under another CA": header() + section(0x11, key_ids(ALICE)) + section(0x12, key_ids(BOB)),
}


@pytest.mark.rows
@pytest.mark.parametrize("what", PUBLISHED)
def test_a_list_is_published(krl_tool, room, what):
    assert ["keeps"] == compared(krl_tool, room, [PUBLISHED[what], PUBLISHED[what]])


@pytest.mark.rows
@pytest.mark.parametrize("what", OTHER)
def test_no_list_is_published(krl_tool, room, what):
    lists = [header(), OTHER[what], header()]
    assert ["not published", "not published"] == compared(krl_tool, room, lists)


def test_each_beginning_of_a_list_is_none_or_a_list_of_its_own(krl_tool, room):
    """A list whose end is cut off is one only where a section ends."""
    whole = PUBLISHED["two CAs"]
    ends = {44, 44 + 77, len(whole)}
    wanted = ["keeps" if size in ends else "not published" for size in range(len(whole) + 1)]
    lists = itertools.chain.from_iterable((header(), whole[:size]) for size in range(len(whole) + 1))
    assert wanted == compared(krl_tool, room, lists)[::2]


# ---- which list forgets something of another

ALL = ((0x11, {1, 2, 5, 6, 7, 9}), (0x12, {1}))

# What, the list that comes after that of ALL and alice's key id, and what is said of it.
AFTER = [
    ("the same", ALL, {ALICE}, "keeps"),
    ("one serial more", ((0x11, {1, 2, 5, 6, 7, 9, 10}), (0x12, {1})), {ALICE}, "keeps"),
    ("runs that were joined", ((0x11, set(range(1, 10))), (0x12, {1})), {ALICE}, "keeps"),
    ("one key id more", ALL, {ALICE, BOB}, "keeps"),
    ("a CA more", (*ALL, (0x13, {9})), {ALICE}, "keeps"),
    ("the CAs in another order", ALL[::-1], {ALICE}, "keeps"),
    ("the first serial forgotten", ((0x11, {2, 5, 6, 7, 9}), (0x12, {1})), {ALICE}, "forgets"),
    ("the last serial forgotten", ((0x11, {1, 2, 5, 6, 7}), (0x12, {1})), {ALICE}, "forgets"),
    ("the first of a run forgotten", ((0x11, {1, 2, 6, 7, 9}), (0x12, {1})), {ALICE}, "forgets"),
    ("the midst of a run forgotten", ((0x11, {1, 2, 5, 7, 9}), (0x12, {1})), {ALICE}, "forgets"),
    ("the end of a run forgotten", ((0x11, {1, 2, 5, 6, 9}), (0x12, {1})), {ALICE}, "forgets"),
    ("a serial of another CA forgotten", ((0x11, ALL[0][1]), (0x12, {2})), {ALICE}, "forgets"),
    ("the serials of two CAs exchanged", ((0x12, ALL[0][1]), (0x11, {1})), {ALICE}, "forgets"),
    ("a CA forgotten", ALL[:1], {ALICE}, "forgets"),
    ("the key id forgotten", ALL, set(), "forgets"),
    ("another key id", ALL, {BOB}, "forgets"),
    ("a beginning of the key id", ALL, {b"web/alic"}, "forgets"),
    ("the key id and more", ALL, {b"web/alice2"}, "forgets"),
    ("all forgotten", (), set(), "forgets"),
]


@pytest.mark.rows
@pytest.mark.parametrize(("what", "revoked", "ids", "wanted"), AFTER, ids=[it[0] for it in AFTER])
def test_a_list_keeps_or_forgets(krl_tool, room, what, revoked, ids, wanted):
    assert [wanted] == compared(krl_tool, room, [published(ALL, {ALICE}), published(revoked, ids)])


# ---- lists of ssh-keygen

# The words of `ssh-keygen -k`, what is written to its input, and whether the list is as the office writes it.
KEYGEN = [
    ("nothing", [], "", True),
    ("a serial", ["-s", "ca.pub"], "serial: 7\n", True),
    ("a range and a key id", ["-s", "ca.pub"], "serial: 7-900000\nid: web/alice\n", True),
    ("serials that it writes as a bitmap", ["-s", "ca.pub"], "serial: 1\nserial: 3\nserial: 5\nserial: 9\n", False),
    ("every CA", ["-s", "none"], "serial: 7\n", False),
    ("a key", [], "", False),
    ("the hash of a key", [], "hash: SHA256:{}\n", False),
]


@pytest.mark.parametrize(("what", "words", "specification", "is_published"), KEYGEN, ids=[it[0] for it in KEYGEN])
def test_lists_of_ssh_keygen(krl_tool, room, what, words, specification, is_published):
    (room / "ca.pub").write_text(key_line(0x11))
    (room / "specification").write_text(specification.format("A" * 43))
    given = "ca.pub" if what == "a key" else "specification"
    run(["ssh-keygen", "-q", "-k", "-f", "made", *words, given], check=True)
    made = (room / "made").read_bytes()
    wanted = "keeps" if is_published else "not published"
    assert [wanted] == compared(krl_tool, room, [header(), made])


# ---- random lists, beside plain sets

PLACES = [*range(24), *range(2 ** 32 - 3, 2 ** 32 + 3), *range(LAST - 6, LAST + 1)]
IDS = [b"", b"a", b"aa", b"ab", b"b", b"web/alice", b"web/bob", bytes([255])]
PAIRS, AT_ONCE = 100_000, 500


def grown(chance, revoked, ids):
    """What a list revokes that comes after another one: a few serials and key ids more, and now and then some less."""
    revoked = {key: set(serials) for key, serials in revoked}
    ids = set(ids)
    for _ in range(chance.randrange(4)):
        kind = chance.randrange(12)
        serials = revoked.setdefault(chance.choice(b"\x11\x12\x13"), set())
        if kind < 5:
            serials.add(chance.choice(PLACES))
        elif kind < 8:
            lo = chance.choice(PLACES)
            serials.update(it for it in range(lo, lo + chance.randrange(6)) if it <= LAST)
        elif kind < 10:
            ids.add(chance.choice(IDS))
        elif kind == 10:
            serials.discard(chance.choice(PLACES))
        else:
            ids.discard(chance.choice(IDS))
    shuffled = [*revoked.items()]
    if chance.randrange(8) == 0:
        chance.shuffle(shuffled)
    return shuffled, ids


def pairs_of(revoked, ids):
    """The pairs of a CA and a serial, and of a CA and a key id, that a list revokes."""
    return {(key, it) for key, serials in revoked if serials or ids for it in [*serials, *ids]}


@pytest.mark.slow
@pytest.mark.timeout(1200)
def test_random_lists_beside_plain_sets(krl_tool, room, request):
    chance = random.Random(request.config.option.hypothesis_seed)
    counts = {"keeps": 0, "forgets": 0}
    revoked, ids = [], set()
    for _ in range(PAIRS // AT_ONCE):
        lists, wanted, before = [], [], None
        for _ in range(AT_ONCE + 1):
            pairs = pairs_of(revoked, ids)
            lists.append(published(revoked, ids))
            if before is not None:
                wanted.append("keeps" if before <= pairs else "forgets")
            before = pairs
            revoked, ids = ([], set()) if chance.randrange(60) == 0 else grown(chance, revoked, ids)
        answers = compared(krl_tool, room, lists)
        different = [place for place, (a, b) in enumerate(zip(wanted, answers, strict=True)) if a != b]
        assert not different, (different[0], wanted[different[0]], lists[different[0]:different[0] + 2])
        for answer in answers:
            counts[answer] += 1
    assert min(counts.values()) > PAIRS // 10, counts
