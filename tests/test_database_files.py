"""The files of a database: which commands make them, with which mode, and what a command that failed leaves.

A command other than `init` makes no file: a mistyped path is a fault, and leaves the folder as it was. What `init`
makes is its owner's alone, whatever the umask, and so is the log beside it.
"""
import errno
import os
import pathlib
import shutil
import sqlite3
import stat
import subprocess
import tempfile

import pytest

import running
from asking import CA, department, post, write_exchanges
from running import left_out, preloaded, run
from tracing import WRITES, Trace

NOT_AN_OFFICE, DEVICE = b"sshoffice: NotAnOffice\n", b"sshoffice: Device\n"
# The fingerprint is that of `ssh-keygen -l` for the key 11*32.
READY = b"office ready 1 9\nca SHA256:SQfC+vTbLURn9cTkVxIS8fGQ3FKNAJWeB0o139+gV4M\n"

# What asks for an office that is there, each with the files `ca.pub`, `none.exchange` and `nonces`.
ASKING = {
    "apply": "apply --db {} none.exchange",
    "serve": "serve --db {} --port 0 --connections 1 --nonces nonces",
    "krl": "krl --db {}",
    "signers": "signers --db {}",
    "table": "table --db {}",
    "migrate": "migrate --db {}",
}


def filled(words, db):
    return [word.format(db) for word in words.split()]


def init(db, ca="ca.pub", *, last=9, **how):
    return [*map(str, running.init(db, ca, last=last, **how))]


def lay(folder):
    """The files that commands name beside the database."""
    (folder / "ca.pub").write_text(CA + "\n")
    write_exchanges(folder / "none.exchange", [])
    (folder / "nonces").write_bytes(bytes(64))


@pytest.fixture
def laid(room):
    lay(room)
    return room


@pytest.fixture
def open_room(program, monkeypatch):
    """A folder that every user may pass, with the program. What is run by `as_stranger` isn't root there."""
    with tempfile.TemporaryDirectory(prefix="office-") as name:
        folder = pathlib.Path(name)
        folder.chmod(0o755)
        shutil.copy(program, folder / "sshoffice")
        lay(folder)
        monkeypatch.chdir(folder)
        yield folder


def as_stranger(words):
    """Runs the copied program as a user without rights of its own: as nobody, if root tests."""
    other = ["setpriv", "--reuid=65534", "--regid=65534", "--clear-groups"] if os.getuid() == 0 else []
    return outcome(run([*other, "./sshoffice", *words]))


def outcome(done):
    return done.returncode, done.stdout, done.stderr


def seen(folder):
    """Each name below the folder, with its kind and mode, its bytes or where it leads, and when it was changed."""
    found = {}
    for path in sorted(folder.rglob("*")):
        status = path.lstat()
        held = os.readlink(path) if path.is_symlink() else path.read_bytes() if path.is_file() else None
        found[str(path.relative_to(folder))] = stat.filemode(status.st_mode), held, status.st_mtime_ns
    return found


def modes(folder, start="office.db"):
    """The modes of the database, of its log and of what else has a name that begins so."""
    return {path.name: stat.S_IMODE(path.stat().st_mode) for path in folder.glob(f"{start}*")}


# ---- commands beside a server

@pytest.mark.parametrize("command", ["init", *ASKING])
def test_a_command_that_does_not_get_the_database_writes_nothing_to_it(office, laid, command):
    """The server has it open. Such a run is none in the life of these files: the next finds what the server left."""
    words = init("office.db") if command == "init" else filled(ASKING[command], "office.db")
    with office.serving() as served:
        served.post("root", "d1", department())
        before = {name: it for name, it in seen(laid).items() if name.startswith("office.db")}
        assert {"office.db", "office.db-wal"} <= {*before}
        trace = Trace([office.program, *words])
        assert (1, b"", DEVICE) == outcome(trace.done)
        assert before == {name: it for name, it in seen(laid).items() if name.startswith("office.db")}
        assert [] == [it.words for name in before for it in trace.of(str(laid / name), *WRITES)]
        assert "department web" in served.get("/v1/departments").text
    assert b"total 0 version 0\n" == office.table()


# ---- commands that want an office

def nothing(room):
    return "office.db"


def no_folder(room):
    return "none/office.db"


def empty_name(room):
    return ""


def link_to_nothing(room):
    os.symlink("gone.db", "office.db")
    return "office.db"


def link_to_itself(room):
    os.symlink("office.db", "office.db")
    return "office.db"


def below_a_file(room):
    return "ca.pub/office.db"


def too_long_a_name(room):
    return "o" * 300


def a_folder(room):
    os.mkdir("office.db")
    return "office.db"


def a_pipe(room):
    os.mkfifo("office.db")
    return "office.db"


# Each with the fault that is due. Where the system can't say whether the file is there, that is `Device`.
PLACES = {nothing: NOT_AN_OFFICE, no_folder: NOT_AN_OFFICE, link_to_nothing: NOT_AN_OFFICE, empty_name: NOT_AN_OFFICE,
          link_to_itself: DEVICE, below_a_file: DEVICE, too_long_a_name: DEVICE, a_folder: DEVICE, a_pipe: DEVICE}


@pytest.mark.parametrize("command", ASKING)
@pytest.mark.parametrize("place", PLACES, ids=lambda it: it.__name__)
def test_a_mistyped_path_makes_nothing(program, laid, command, place):
    db = place(laid)
    before = seen(laid)
    assert (1, b"", PLACES[place]) == outcome(run([program, *filled(ASKING[command], db)]))
    assert before == seen(laid)


@pytest.mark.parametrize("command", ASKING)
@pytest.mark.parametrize("db", [":memory:", "file:office.db", "file:office.db?mode=rwc"])
def test_a_name_that_sqlite_reads_otherwise_makes_nothing(program, laid, command, db):
    before = seen(laid)
    assert (1, b"", NOT_AN_OFFICE) == outcome(run([program, *filled(ASKING[command], db)]))
    (laid / db).write_bytes(b"")
    with_it = seen(laid)
    assert (1, b"", DEVICE) == outcome(run([program, *filled(ASKING[command], db)]))
    assert (with_it, {*with_it} - {*before}) == (seen(laid), {db})


@pytest.mark.parametrize("command", ASKING)
def test_without_rights_nobody_can_say_what_is_there(open_room, command):
    (open_room / "closed").mkdir()
    (open_room / "closed/empty.db").write_bytes(b"")
    (open_room / "closed").chmod(0o000)
    (open_room / "office.db").write_bytes(b"")
    (open_room / "office.db").chmod(0o000)
    try:
        for db in ("closed/empty.db", "closed/none.db", "office.db"):
            assert (1, b"", DEVICE) == as_stranger(filled(ASKING[command], db))
        # Of a folder that may be passed but not written, it can be said.
        assert (1, b"", NOT_AN_OFFICE) == as_stranger(filled(ASKING[command], "none.db"))
    finally:
        (open_room / "closed").chmod(0o755)
    assert {"office.db": 0o000} == modes(open_room)
    assert ["empty.db"] == os.listdir(open_room / "closed")


@pytest.mark.parametrize("command", ASKING)
def test_an_empty_file_is_no_office(program, laid, command):
    (laid / "office.db").write_bytes(b"")
    assert (1, b"", NOT_AN_OFFICE) == outcome(run([program, *filled(ASKING[command], "office.db")]))


# The fault of the database comes where its turn is: behind that of a file, and before that of the socket.
FIRST = [
    ("apply --db none.db no.exchange", b"sshoffice: File\n"),
    ("apply --db none.db ca.pub", b"sshoffice: BadExchange 1\n"),
    ("apply --db none.db none.exchange", NOT_AN_OFFICE),
    ("serve --db none.db --port 0 --connections 1 --nonces no.nonces", b"sshoffice: File\n"),
    ("serve --db none.db --port 1 --connections 1 --nonces nonces", NOT_AN_OFFICE),
    ("serve --db ca.pub/none.db --port 1 --connections 1 --nonces nonces", DEVICE),
]


@pytest.mark.parametrize("words, fault", FIRST, ids=lambda it: it if isinstance(it, str) else "")
def test_the_faults_keep_their_order(program, laid, words, fault):
    before = seen(laid)
    assert (1, b"", fault) == outcome(run([program, *words.split()]))
    assert before == seen(laid)


# ---- the mode of what init makes

UMASKS = [0o000, 0o022, 0o077, 0o277, 0o777]


def under(umask):
    return {"preexec_fn": lambda: os.umask(umask)}


def serving(programs, program, **how):
    """The server of `office.db`, once it listens."""
    words = [program, *filled(ASKING["serve"], "office.db")]
    served = programs.begin(words, bufsize=0, stdout=subprocess.PIPE, **how)
    assert served.stdout.readline().startswith(b"listening ")
    return served


@pytest.mark.parametrize("umask", UMASKS, ids=oct)
def test_a_new_office_is_its_owners_alone(program, programs, laid, umask):
    assert (0, READY, b"") == outcome(run([program, *init("office.db")], **under(umask)))
    assert {0o600} == {*modes(laid).values()}
    # Each later command has the umask of whoever runs it.
    served = serving(programs, program, **under(umask))
    assert {"office.db": 0o600, "office.db-wal": 0o600} == modes(laid)
    served.kill()
    served.wait()
    assert {"office.db": 0o600, "office.db-wal": 0o600} == modes(laid)
    # sqlite3 keeps an index of the log beside both, with the mode of the file.
    reader = sqlite3.connect("office.db")
    assert [(2,)] == reader.execute("SELECT schema FROM office").fetchall()
    assert {"office.db": 0o600, "office.db-wal": 0o600, "office.db-shm": 0o600} == modes(laid)
    reader.close()
    for command in ("apply", "krl", "signers", "table"):
        assert 0 == run([program, *filled(ASKING[command], "office.db")], **under(umask)).returncode
        assert {0o600} == {*modes(laid).values()}


@pytest.mark.parametrize("mode", [0o600, 0o640, 0o644])
def test_an_empty_file_becomes_an_office_and_keeps_its_mode(program, laid, mode):
    (laid / "office.db").write_bytes(b"")
    (laid / "office.db").chmod(mode)
    assert (0, READY, b"") == outcome(run([program, *init("office.db")]))
    assert {mode} == {*modes(laid).values()}


def test_a_link_to_an_empty_file_is_followed(program, laid):
    (laid / "real.db").write_bytes(b"")
    (laid / "real.db").chmod(0o600)
    os.symlink("real.db", "office.db")
    assert (0, READY, b"") == outcome(run([program, *init("office.db")]))
    assert {0o600} == {*modes(laid, "real.db").values()}
    assert "real.db" == os.readlink("office.db")
    assert (0, b"total 0 version 0\n", b"") == outcome(run([program, "table", "--db", "real.db"]))


def test_a_new_file_has_no_sums_of_its_pages(program, laid):
    """Its header has SQLite's name, pages of 4096 bytes, and none of these reserved for anything else. SQLite's
    "Database File Format" has the places."""
    assert (0, READY, b"") == outcome(run([program, *init("office.db")]))
    header = pathlib.Path("office.db").read_bytes()[:100]
    assert (b"SQLite format 3\0", 4096, 0) == (header[:16], int.from_bytes(header[16:18], "big"), header[20])


def test_an_office_is_founded_once(program, laid):
    assert (0, READY, b"") == outcome(run([program, *init("office.db")]))
    write_exchanges("web.exchange", [post("root", "web", department())])
    run([program, "apply", "--db", "office.db", "web.exchange"], check=True)
    (laid / "office.db").chmod(0o640)
    before = (laid / "office.db").read_bytes()
    assert (1, b"", b"sshoffice: AlreadyAnOffice\n") == outcome(run([program, *init("office.db", last=8)]))
    assert before == (laid / "office.db").read_bytes()
    # Files that are there keep their modes.
    assert {"office.db": 0o640, "office.db-wal": 0o600} == modes(laid)


def test_an_office_that_is_served_is_left_alone(program, programs, laid):
    run([program, *init("office.db")], check=True)
    serving(programs, program)
    before = seen(laid)
    assert (1, b"", DEVICE) == outcome(run([program, *init("office.db")]))
    assert before == seen(laid)


# ---- an init that fails

NO_OFFICES = {no_folder: DEVICE, link_to_nothing: DEVICE, link_to_itself: DEVICE, below_a_file: DEVICE,
              too_long_a_name: DEVICE, a_folder: DEVICE, empty_name: DEVICE}


@pytest.mark.parametrize("place", NO_OFFICES, ids=lambda it: it.__name__)
def test_where_no_file_can_be_made_none_is(program, laid, place):
    db = place(laid)
    before = seen(laid)
    assert (1, b"", DEVICE) == outcome(run([program, *init(db)]))
    assert before == seen(laid)


@pytest.mark.parametrize("db", [":memory:", "file:office.db", "file:/office.db?mode=rwc"])
def test_no_file_is_made_of_a_name_that_sqlite_reads_otherwise(program, laid, db):
    before = seen(laid)
    assert (1, b"", DEVICE) == outcome(run([program, *init(db)]))
    assert before == seen(laid)


@pytest.mark.parametrize("wrong, fault", [
    ({"ca": "no.pub"}, b"File"), ({"ca": "nonces"}, b"WrongType"), ({"root": "Root"}, b"BadName"),
    ({"station": "root"}, b"SameName"), ({"first": 0}, b"BadSerials"), ({"first": 10}, b"BadSerials"),
], ids=lambda it: it.decode() if isinstance(it, bytes) else "")
def test_a_fault_before_the_databases_turn_makes_no_file(program, laid, wrong, fault):
    before = seen(laid)
    assert (1, b"", b"sshoffice: %b\n" % fault) == outcome(run([program, *init("office.db", **wrong)]))
    assert before == seen(laid)


def test_without_rights_in_the_folder_no_file_is_made(open_room):
    (open_room / "closed").mkdir(mode=0o555)
    assert (1, b"", DEVICE) == as_stranger(init("closed/office.db"))
    assert [] == os.listdir(open_room / "closed")


def test_a_folder_of_ones_own_is_enough(open_room):
    (open_room / "own").mkdir()
    if os.getuid() == 0:
        os.chown(open_room / "own", 65534, 65534)
    assert (0, READY, b"") == as_stranger(init("own/office.db"))
    assert {0o600} == {*modes(open_room / "own").values()}


def test_two_that_found_one_office_do_not_both(program, laid):
    for number in range(20):
        words = [[program, *init(f"{number}.db", last=last)] for last in (8, 9)]
        both = [subprocess.Popen(it, stdout=subprocess.PIPE, stderr=subprocess.PIPE) for it in words]
        came = [(it.communicate(timeout=60), it.returncode) for it in both]
        statuses = sorted(status for _, status in came)
        assert statuses == [0, 1], came
        # Who came second met an open file or an office. The office is that of who came first.
        refused, = (err for (_, err), status in came if status)
        assert refused in (DEVICE, b"sshoffice: AlreadyAnOffice\n")
        last = [it for it, (_, status) in zip((8, 9), came) if not status]
        with sqlite3.connect(f"{number}.db") as reader:
            assert [(1, *last)] == reader.execute("SELECT first, last FROM office").fetchall()
        reader.close()


@pytest.mark.root
def test_a_full_disk_leaves_a_file_over_which_init_runs_again(program, laid):
    (laid / "disk").mkdir()
    mounted = run(["mount", "-t", "tmpfs", "-o", "size=16k,mode=755", "tmpfs", laid / "disk"])
    if mounted.returncode:
        left_out(f"no tmpfs can be mounted: {mounted.stderr.decode().strip()}")
    try:
        assert (1, b"", DEVICE) == outcome(run([program, *init("disk/office.db")], **under(0)))
        assert {"office.db"} <= {*modes(laid / "disk")}
        assert {0o600} == {*modes(laid / "disk").values()}
        run(["mount", "-o", "remount,size=1m", laid / "disk"], check=True)
        assert (0, READY, b"") == outcome(run([program, *init("disk/office.db")], **under(0)))
        assert {0o600} == {*modes(laid / "disk").values()}
    finally:
        run(["umount", laid / "disk"], check=True)


@pytest.fixture(scope="session")
def failing_disk(tmp_path_factory):
    """The library by which calls on the database fail; its source says how."""
    return preloaded("failing_disk.c", tmp_path_factory.mktemp("disk"))


def init_on(disk, program, folder, fail):
    """Founds an office in the folder on a disk that fails so, with the names of the calls that failed."""
    mark = folder.parent / "mark"
    mark.unlink(missing_ok=True)
    environment = {"LD_PRELOAD": str(disk), "DISK": str(folder / "office.db"), "MARK": str(mark), "FAIL": fail}
    done = outcome(run([program, *init(folder / "office.db")], env=environment, **under(0)))
    return done, mark.read_text().split() if mark.exists() else []


@pytest.mark.slow
@pytest.mark.parametrize("how", [str(errno.EIO), str(errno.ENOSPC), "kill"], ids=["fails", "is full", "kills"])
def test_init_runs_again_over_what_it_left(program, laid, failing_disk, how):
    number, made = 0, 0
    while True:
        number += 1
        folder = laid / f"disk{number}"
        folder.mkdir()
        done, failed = init_on(failing_disk, program, folder, f"any any {number} {number} {how}")
        left = modes(folder)
        # Nobody else could have opened what is there, at any time.
        assert {*left.values()} <= {0o600}, f"call {number}, {failed}"
        if not failed:
            assert (0, READY, b"") == done
            break
        # Whoever closes a file isn't told of an error.
        if failed[1] != "close" or how == "kill":
            assert done[0] == (-9 if how == "kill" else 1), f"call {number}, {failed}"
        again = outcome(run([program, *init(folder / "office.db")]))
        assert again in ((0, READY, b""), (1, b"", b"sshoffice: AlreadyAnOffice\n")), f"call {number}, {failed}"
        made += again[0] == 0
        assert (0, b"total 0 version 0\n", b"") == outcome(run([program, "table", "--db", folder / "office.db"]))
        assert {0o600} == {*modes(folder).values()}, f"call {number}, {failed}"
    assert number > 20 and made > 10
