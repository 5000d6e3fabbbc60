"""Lets the disk under an office fail at each call that the program makes, and its outputs fail at each byte.

An office is founded, and then the program applies five exchanges to it: an issue, its delivery, its repeat, its
revocation, and the list. At each call on the database, its log and their folder in turn, one of these happens: the call
fails, or it and all later ones do; only the calls of one file or of one kind fail so; the disk is full; half of the
bytes are moved; or the process is killed, in the midst of a write too, while a client asks a server. What then lies in
the files is opened again without faults, and so is what the disk has once the power has failed. It has to tell the
history of the exchanges that were answered, or that with the first one that stayed without an answer: the reports and
the answers to each message once more are those that an office in Python gives after just these exchanges, and what was
printed is what was due. A run that met a fault has to say so. The five are applied too over a log that a killed process
left, and behind so many other exchanges that the log is copied into the database in their midst.

Then a response is cut after each number of its bytes, on a socket and on the standard output. The repeat of the request
has to get the whole response, and one certificate has to be there.
"""
import collections
import contextlib
import errno
import functools
import hashlib
import itertools
import signal
import socket

import pytest

from asking import CA, LAST_SERIAL, Response, answers, exchange, get, key_blob, post, write_exchanges
from plain_office import PlainOffice
from running import init, listening, preloaded, rest, said, worked

pytestmark = pytest.mark.slow

# Their places among the five.
ISSUE, DELIVERY, REVOCATION = 0, 1, 3


DEPARTMENT, _ = worked("the-department-of-the-trial-office")
FIVE, FIVE_DUE = worked("an-issue-is-signed-repeated-and-revoked")
FIVE = tuple(FIVE)


def at(moment, nonce, *requests):
    return tuple(exchange(it, moment, nonce) for it in requests)


# What tells a history: reports, and each message once more.
SHOWN = at(4000, 0x35, *[get(f"/v1/{it}") for it in ("table", "pending", "krl", "certs/1", "certs/1/body")])
TELLING = (SHOWN + at(1900, 0x36, FIVE[ISSUE].request) + at(4000, 0x37, FIVE[DELIVERY].request)
           + at(4000, 0x38, FIVE[REVOCATION].request) + SHOWN)


@functools.cache
def due(exchanges):
    """What an office in Python with the department gives these exchanges, and what then tells their history."""
    office = PlainOffice(key_blob(0x11))
    for one in DEPARTMENT:
        office.answer(*one)
    return [office.answer(*one) for one in exchanges], [office.answer(*one) for one in TELLING]


def test_the_office_in_python_gives_the_five_what_a_row_says():
    assert FIVE_DUE == due(FIVE)[0]


# ---- the disk

class Disk:
    """A folder with the library, the exchanges and the files of an office, and what files were found to tell."""

    def __init__(self, program, folder):
        self.program, self.folder, self.db, self.mark = program, folder, folder / "disk/office.db", folder / "mark"
        self.told = {}
        for name in ("disk", "synced"):
            (folder / name).mkdir()
        self.library = preloaded("failing_disk.c", folder)
        (folder / "ca.pub").write_text(CA)
        (folder / "nonces").write_bytes(b"".join(it.nonce for it in FIVE))
        for name, exchanges in (("department", DEPARTMENT), ("five", FIVE), ("telling", TELLING)):
            write_exchanges(folder / name, exchanges)
        for done in (self.run(*init(self.db, folder / "ca.pub", last=LAST_SERIAL)),
                     self.run("apply", "--db", self.db, folder / "department")):
            assert done[0] == 0, done
        self.founded = self.files()

    def environment(self, seed, **how):
        """The environment of a run, for which a mark is left where a call fails."""
        self.mark.unlink(missing_ok=True)
        return {"LD_PRELOAD": str(self.library), "DISK": str(self.db), "MARK": str(self.mark), "SEED": str(seed), **how}

    def run(self, *words, seed=1, **how):
        """Status, output and errors of the program."""
        return said([self.program, *words], env=self.environment(seed, **how))

    def apply(self, name, seed=2, **how):
        return self.run("apply", "--db", self.db, self.folder / name, seed=seed, **how)

    def failed(self):
        """The calls that failed, each as the file and the kind."""
        return [tuple(line.split()) for line in self.mark.read_text().splitlines()] if self.mark.exists() else []

    def files(self, folder="disk", names=("office.db", "office.db-wal")):
        """The bytes of the database and of its log, where it is there."""
        paths = [self.folder / folder / name for name in names]
        return tuple(path.read_bytes() if path.exists() else None for path in paths)

    def lay(self, files):
        """Puts the files of an office on the disk, and nothing else."""
        for old in (*self.db.parent.iterdir(), *(self.folder / "synced").iterdir()):
            old.unlink()
        for name, content in zip(("office.db", "office.db-wal"), files):
            if content is not None:
                (self.db.parent / name).write_bytes(content)

    def tell(self, files):
        """What an office in these files tells of its history, or the fault."""
        key = tuple(it and hashlib.sha256(it).digest() for it in files)
        if key not in self.told:
            self.lay(files)
            status, out, err = self.apply("telling", seed=3)
            self.told[key] = answers(out) if status == 0 else (status, out, err)
        return self.told[key]

    def left(self):
        """By name the files that a run left: those that are seen, those that were synced, and one of each."""
        db, log = self.files()
        # A file that the program never came to open is as it was.
        pairs = zip((db, log), self.files("synced", ("db", "log")))
        synced_db, synced_log = (now if synced is None else synced for now, synced in pairs)
        return {"as seen": (db, log), "as synced": (synced_db, synced_log), "the log as synced": (db, synced_log),
                "the database as synced": (synced_db, log)}


@pytest.fixture(scope="module")
def disk(program, tmp_path_factory):
    return Disk(program, tmp_path_factory.mktemp("disk"))


def unanswered(given):
    """The place of the first fault after the last answer."""
    count = len([*itertools.dropwhile(lambda it: it is None, reversed(given))])
    return count if count < len(given) else None


def must_tell(disk, what, before, exchanges, given):
    """The files that a run left tell the history of what was answered, perhaps with one exchange more."""
    answered = before + tuple(one for one, got in zip(exchanges, given) if got is not None)
    wanted, history = due(answered)
    assert wanted[len(before):] == [one for one in given if one is not None], f"{what}: what was answered"
    lawful = [history]
    place = unanswered(given)
    if place is not None:
        lawful.append(due(answered + (exchanges[place],))[1])
    for name, files in disk.left().items():
        told = disk.tell(files)
        if told not in lawful:
            assert history == told, f"{what}: the files {name}"


# ---- faults of the disk while a file of exchanges is applied

# What is in the files, the exchanges that led there, and those that are applied, in the file of a name.
Play = collections.namedtuple("Play", "files before exchanges name after", defaults=[""])


def applied(disk, play, what, fail):
    """What failed, where exchanges are applied on a disk that fails so. All has to be as it should be."""
    disk.lay(play.files)
    done = disk.apply(play.name, FAIL=fail, AFTER=play.after, SYNCED=f"{disk.folder}/synced")
    failed = disk.failed()
    what = f"{what} ({' '.join(failed[0]) if failed else 'no call'})"
    # Before the office is open, nothing is asked and nothing is printed.
    given = answers(done[1])
    must_tell(disk, what, play.before, play.exchanges, given)
    # Whoever closes a file isn't told of an error. Half of a write is followed by the other half, and so is half of a
    # read. Only a page that is read again, to be compared with what it was, has to come at once: half of it is a fault.
    is_harmless = all(kind == "close" for _, kind in failed)
    is_harmless |= fail.endswith("short") and ("write" in fail or done[0] == 0)
    name = b"Fault" if None in given else b"Device"
    wanted = (0, b"") if is_harmless else (1, b"sshoffice: %s\n" % name)
    assert wanted == (done[0], done[2]), f"{what}: what is said"
    assert not (is_harmless and None in given), f"{what}: nothing kept it from its work"
    return failed


def each(attempt):
    """Makes an attempt with the first call, with the second, and so on, until it finds none."""
    number = next(number for number in itertools.count(1) if not attempt(number))
    assert number > 1, "no call is of this kind"


def in_turn(disk, play, file, call, is_once, how):
    """Lets each call in turn fail so."""
    each(lambda number: applied(disk, play, f"{'' if is_once else 'from '}call {number}",
                                f"{file} {call} {number} {number if is_once else 0} {how}"))


ONCE, ON = True, False
EIO, FULL = errno.EIO, errno.ENOSPC
# What happens, the file and the kind of call where it does, and whether it happens once or from there on.
FAULTS = [
    ("a call fails", "any", "any", ONCE, EIO),
    *[(f"the disk of {file} is gone", file, "any", ON, EIO) for file in ("any", "db", "log", "folder")],
    *[(f"the disk fails at each {call}", "any", call, ON, EIO)
      for call in ("read", "write", "sync", "cut", "size", "open", "lock")],
    *[(f"the disk is full for a {call}", "any", call, ONCE, FULL) for call in ("write", "cut", "sync")],
    *[(f"the disk is full for each {call}", "any", call, ON, FULL) for call in ("write", "cut", "sync")],
    *[(f"a {call} moves half of its bytes", "any", call, ONCE, "short") for call in ("read", "write")],
]


@pytest.mark.parametrize(("what", "file", "call", "is_once", "how"), FAULTS, ids=[it[0] for it in FAULTS])
def test_a_disk_that_fails(disk, what, file, call, is_once, how):
    in_turn(disk, Play(disk.founded, (), FIVE, "five"), file, call, is_once, how)


@pytest.mark.parametrize("call", ["read", "write"])
def test_each_call_moves_half_of_its_bytes(disk, call):
    applied(disk, Play(disk.founded, (), FIVE, "five"), f"each {call}", f"any {call} 1 0 short")


def test_a_log_that_is_not_copied_keeps_what_was_answered(disk):
    """The database is written only as it is closed, from the log. It takes no write, so that the log isn't copied."""
    disk.lay(disk.founded)
    status, out, err = disk.apply("five", FAIL=f"db write 1 0 {EIO}", SYNCED=f"{disk.folder}/synced")
    assert (1, FIVE_DUE, b"sshoffice: Device\n") == (status, answers(out), err)
    assert {("db", "write")} == {*disk.failed()}
    assert disk.founded[0] == disk.files()[0]
    for name, files in disk.left().items():
        assert due(FIVE)[1] == disk.tell(files), name


def test_a_database_that_a_failed_sync_has_shut_is_left(disk):
    """One sync of the log fails, and then the disk is well again. Nothing more is answered, and nothing is copied."""
    def shut(number):
        """What comes of it if this sync fails: the earlier ones are those of the opening, and then nothing is asked."""
        disk.lay(disk.founded)
        status, out, err = disk.apply("five", FAIL=f"log sync {number} {number} {EIO}", SYNCED=f"{disk.folder}/synced")
        return status, answers(out), err

    done = next(it for it in map(shut, itertools.count(1)) if it != (1, [], b"sshoffice: Device\n"))
    assert (1, [None] * len(FIVE), b"sshoffice: Fault\n") == done
    assert [("log", "sync")] == disk.failed()
    assert disk.founded[0] == disk.files()[0]
    left = disk.left()
    assert due(())[1] == disk.tell(left["as synced"])
    assert disk.tell(left["as seen"]) in (due(())[1], due(FIVE[:1])[1])


@pytest.mark.parametrize("is_once", [ONCE, ON], ids=["a call fails", "the disk is gone"])
def test_over_a_log_that_was_left(disk, is_once):
    """A process was killed before it copied the log, once all five were answered."""
    disk.lay(disk.founded)
    disk.apply("five", seed=4, FAIL="db write 1 1 kill")
    in_turn(disk, Play(disk.files(), FIVE, FIVE, "five"), "any", "any", is_once, EIO)


@pytest.fixture(scope="module")
def long(disk):
    """Exchanges of which the last five are those in whose midst the log is copied into the database.

    After a thousand pages the log is copied. The database is written only there, and the disk is gone from there on."""
    many = tuple(exchange(post("ana", f"x{number}", f"revoke-keyid web/x{number}\n"), 1000, 0x33)
                 for number in range(300))
    gone = {"FAIL": f"any any 1 0 {EIO}", "AFTER": "db write"}
    write_exchanges(disk.folder / "many", many)
    disk.lay(disk.founded)
    given = answers(disk.apply("many", **gone)[1])
    count = given.index(None)
    assert 0 < count < len(many) - 1
    exchanges = many[:count - 1] + FIVE
    write_exchanges(disk.folder / "long", exchanges)
    disk.lay(disk.founded)
    given = answers(disk.apply("long", **gone)[1])
    assert (True, False) == (None in given, None in given[:count - 1]), "it is copied in the midst of the five"
    return Play(disk.founded, (), exchanges, "long")


@pytest.mark.timeout(900)
@pytest.mark.parametrize(("after", "file", "call", "is_once"), [
    ("", "log", "read", ONCE), ("db write", "any", "any", ONCE), ("db write", "any", "any", ON)],
    ids=["the log can't be read", "from there on a call fails", "from there on the disk is gone"])
def test_where_a_long_log_is_copied(disk, long, after, file, call, is_once):
    in_turn(disk, long._replace(after=after), file, call, is_once, EIO)


# ---- processes that are killed while a client asks

def all_of(port, request):
    """All that comes back for a request. A server that dies may cut the connection at any place."""
    with contextlib.suppress(OSError), socket.create_connection(("127.0.0.1", port)) as peer:
        peer.sendall(request)
        return rest(peer)
    return Response()


@contextlib.contextmanager
def served(disk, connections, **how):
    """A server whose clock stands still, and its port, or None where it died before. With the block it ends."""
    words = [disk.program, "serve", "--db", disk.db, "--port", 0, "--connections", connections, "--nonces",
             disk.folder / "nonces"]
    with listening(words, env=disk.environment(2, MOMENT="1000", **how)) as (process, line):
        yield process, int(line.removeprefix(b"listening ")) if line else None


def ended(process):
    """The status and the errors of a process, once it has ended."""
    _, err = process.communicate()
    return process.returncode, err


def killed(disk, fail):
    """What the process died at, where a server is killed so while a client asks. All has to be as it should be."""
    disk.lay(disk.founded)
    exchanges = tuple(exchange(it.request, 1000, it.nonce) for it in FIVE)
    given = []
    with served(disk, len(exchanges), FAIL=fail, SYNCED=f"{disk.folder}/synced") as (process, port):
        for one in exchanges if port else ():
            given.append(all_of(port, one.request).whole())
            if given[-1] is None:
                # It is dead already, or else it has closed the connection and waits for the next.
                process.kill()
                break
        end = ended(process)
    failed = disk.failed()
    what = f"{fail} ({' '.join(failed[0]) if failed else 'no call'})"
    assert (-signal.SIGKILL if failed else 0, b"") == end, f"{what}: how the server ended"
    must_tell(disk, what, (), exchanges, given)
    return failed


@pytest.mark.parametrize(("call", "how"), [("any", "kill"), ("write", "torn")],
                         ids=["before a call", "within a write"])
def test_a_server_is_killed(disk, call, how):
    each(lambda number: killed(disk, f"any {call} {number} {number} {how}"))


# ---- outputs that fail

ISSUED = worked("repeat-gets-the-kept-reply")[1][0]
# The table of one certificate that waits.
TABLE = worked("the-table-has-each-certificate")[1][2]


def test_a_response_is_cut_at_each_byte_on_a_socket(disk):
    """Its repeat, from the same server, gets all."""
    assert 165 == len(ISSUED)
    for size in range(len(ISSUED)):
        disk.lay(disk.founded)
        with served(disk, 3, ROOM=f"peer {size}") as (process, port):
            asked = [all_of(port, it) for it in (FIVE[ISSUE].request, FIVE[ISSUE].request, get("/v1/table"))]
            end = ended(process)
        assert [ISSUED[:size], ISSUED, TABLE] == asked, f"cut after {size} bytes"
        assert (0, b"sshoffice: connection 1 Write\n") == end, f"cut after {size} bytes"


def test_what_is_printed_is_cut_at_each_byte(disk):
    """The file again is given all."""
    write_exchanges(disk.folder / "issue", FIVE[:1])
    write_exchanges(disk.folder / "again", at(1999, 0x34, FIVE[ISSUE].request) + at(2000, 0x35, get("/v1/table")))
    printed = f"answer {len(ISSUED)}\n".encode() + ISSUED
    assert 176 == len(printed)
    for size in range(len(printed)):
        disk.lay(disk.founded)
        cut = disk.apply("issue", ROOM=f"out {size}")
        assert (1, printed[:size], b"sshoffice: Write\n") == cut, f"it takes {size} bytes"
        status, again, err = disk.apply("again", seed=3)
        assert (0, [ISSUED, TABLE], b"") == (status, answers(again), err), f"it takes {size} bytes"
