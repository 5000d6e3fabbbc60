"""The boundary: what the code that has the runtime's handle asks of the system, of which no clause speaks.

strace shows which files a command opens, and how, and which other calls change a file or make a socket. The expected
calls are written down from what each command is for, and from how the toolchain's page says that it opens a database:
its file, its log, and their folder. Nothing is removed, renamed or truncated but the log, which is empty once it has
been copied into the database file.
"""
import contextlib
import fcntl
import os
import pathlib
import re
import socket
import subprocess

import pytest

import asking
from asking import CA, batch, department, get, key_blob, post, write_exchanges
from publishing import CA as LIST_CA
from publishing import LIST, key_line
from running import TOP, init, rest, run, sql
from stations import init as guard_init
from test_crates import below
from tracing import WRITES, Trace

# Calls that open, make, change or remove a file, make a socket or begin a program.
FILES = """open openat openat2 creat unlink unlinkat rename renameat renameat2 link linkat symlink symlinkat mkdir
    mkdirat rmdir mknod mknodat truncate ftruncate fallocate chmod fchmod fchmodat chown fchown lchown fchownat
    utimensat setxattr lsetxattr fsetxattr removexattr lremovexattr fremovexattr""".split()
OTHERS = "socket bind connect listen execve fork vfork clone clone3 kill tkill tgkill ptrace mount umount2".split()
# The bytes of a log before its first frame, and those of a frame before its page.
WAL_HEADER, FRAME_HEADER = 32, 24
CALL = re.compile(r"\d+ +(\w+)\((.*)\) += +(\d+)(<([^>]*)>)?")
# What the loader reads before the program begins.
LOADER = re.compile(r"/(usr/)?lib|/etc/ld\.so")


def how_opened(words):
    """`r`, `w` or `rw`, with what else the flags say of the file."""
    flags = re.search(r"O_[A-Z_|]+", words)[0].split("|")
    way = {"O_RDONLY": "r", "O_WRONLY": "w", "O_RDWR": "rw"}[flags.pop(0)]
    more = sorted({*flags} - {"O_CLOEXEC", "O_LARGEFILE", "O_NOFOLLOW", "O_NOCTTY"})
    mode = re.search(r", (0\d+)$", words)
    return " ".join([way, *more, *([mode[1]] if mode else [])])


def shown(name, words, path, room):
    """A call as a row has it: what it does, and the name of its file."""
    if name in ("open", "openat"):
        return f"{how_opened(words)} {named(path, room)}"
    opened = re.match(r"\d+<([^>]*)>", words)
    rest = re.sub(r"^\d+<[^>]*>, ", "", words) if opened else words
    return f"{name} {named(opened[1], room)} {rest}" if opened and name not in OTHERS else f"{name} {rest}"


def named(path, room):
    return os.path.relpath(path, room) if path.startswith(str(room)) else path


def tracing(words, room, more=()):
    """The words by which strace runs a program. What it saw is in `room.trace`."""
    return ["strace", "-f", "-y", "-s", "128", "-e", f"trace={','.join([*FILES, *OTHERS, *more])}", "-e", "signal=none",
            "-o", f"{room}.trace", "--", *words]


def traced(room):
    """What a program asked of the system, in order. The first call is that of the program itself, and those that failed
    have done nothing."""
    found = [CALL.match(line) for line in pathlib.Path(f"{room}.trace").read_text().splitlines()]
    made = [(it[1], it[2], it[5] or "") for it in found if it][1:]
    return [shown(name, words, path, room) for name, words, path in made if not LOADER.match(path)]


def calls(words, room, **how):
    """What a program asks of the system about files and sockets, with the program's own result."""
    done = run(tracing(words, room), **how)
    return traced(room), done


# ---- the code that has the handle

# Code that has the handle, or that may use files in general or begin programs. Sockets come from the crate `system`,
# which has them at loopback addresses alone.
HANDLE = re.compile(r"\b(HostRuntime|LibcRuntime)\b|^use std::[^;]*\b(Files|Processes|Runtime)\b", re.M)
# Code that is given a part of the crate `system`.
PART = re.compile(r"^(?:pub )?use system::", re.M)


def sources_with(pattern):
    """The sources of both programs in which this stands, each with its lines."""
    crates = {"sshoffice", "sshstation"} | below("sshoffice") | below("sshstation")
    sources = [it for crate in crates for it in (TOP / "crates" / crate / "src").rglob("*.rt")]
    return {str(it.relative_to(TOP)): text.splitlines() for it in sources if pattern.search(text := it.read_text())}


def below_heading(page, heading):
    """The text below a heading of a page, and the sources to which it links."""
    text = (TOP / page).read_text().partition(f"## {heading}\n")[2].partition("\n## ")[0]
    linked = re.findall(r"\(([^)]*\.rt)\)", text)
    return text, {os.path.relpath((TOP / page).parent / it, TOP) for it in linked}


def test_the_page_has_the_boundary():
    page, linked = below_heading("docs/PROMISES.md", "The boundary")
    having = sources_with(HANDLE)
    assert {*having} == linked
    assert [str(sum(map(len, having.values())))] == re.findall(r"It is (\d+)\s+lines", page)


def test_the_page_has_who_has_a_part_of_the_system():
    _, linked = below_heading("crates/system/README.md", "Who has which part")
    assert {*sources_with(PART)} - {*sources_with(HANDLE)} == linked


# ---- the files of each command

@pytest.fixture
def laid(room, program, sshstation):
    """A folder with an office and two guards, closed, and the files that commands name."""
    (room / "ca.pub").write_text(CA + "\n")
    (room / "list.pub").write_text(key_line(LIST_CA))
    (room / "policy").write_text(department())
    (room / "body").write_bytes(asking.body(1, ca=key_blob(0x11)))
    (room / "list").write_bytes(LIST)
    (room / "nonces").write_bytes(bytes(range(64)))
    (room / "input").write_bytes(batch((room / "body").read_bytes()))
    write_exchanges("web.exchange", [post("root", "web", department())])
    run([program, *init("office.db", "ca.pub")], check=True)
    run([program, *init("older.db", "ca.pub")], check=True)
    sql("older.db", "DROP TABLE ca", "UPDATE office SET schema = 1", "VACUUM")
    run([sshstation, *guard_init("guard.db", "ca.pub")], check=True)
    run([sshstation, "lists", "--init", "--db", "lists.db"], check=True)
    return room


def opened(db):
    """How a database is opened that is there, with its log, as the toolchain's open does it."""
    return [f"rw {db}", f"rw {db}-wal", "r ."]


def made(db):
    """How a database is made: its file with its mode at once, whatever the umask leaves of it, and then its log."""
    return [f"w O_CREAT O_EXCL 0600 {db}", f"fchmod {db} 0600", *logged(db)]


def logged(db):
    """How a database is opened that has no log, as sqlite3 leaves it: the log is made, for the file's owner."""
    return [f"rw {db}", f"rw O_CREAT O_EXCL 0600 {db}-wal", f"fchown {db}-wal -1, {os.getgid()}",
            f"fchown {db}-wal {os.getuid()}, -1", f"fchmod {db}-wal 0600", "r ."]


def without_ends(found, db):
    """What comes before the end of a run. At the end the log is copied into the database file, which has the length
    that its header says, and the log is cut before its first frame. SQLite's formats have both places."""
    ends = [it for it in found if it.startswith(f"ftruncate {db}")] if db else []
    for end in ends:
        _, file, length = end.split()
        header = pathlib.Path(db).read_bytes()[:100]
        pages, size = int.from_bytes(header[28:32], "big"), int.from_bytes(header[16:18], "big")
        assert int(length) == pages * size if file == db else int(length) < WAL_HEADER + FRAME_HEADER
    assert ends == found[len(found) - len(ends):]
    return found[:len(found) - len(ends)]


# Each command of `sshoffice`, with all that it does to files before it ends.
OFFICE = {
    "apply": ("apply --db office.db web.exchange", ["r web.exchange", *opened("office.db")]),
    "table": ("table --db office.db", opened("office.db")),
    "krl": ("krl --db office.db", opened("office.db")),
    "signers": ("signers --db office.db", opened("office.db")),
    "check": ("check --ca ca.pub krl 1 web/alice", ["r ca.pub", "r krl"]),
    "init": ("init --db new.db --ca ca.pub --root root --station station --first 1 --last 9",
             ["r ca.pub", *made("new.db")]),
    "migrate": ("migrate --db older.db", logged("older.db")),
    "apply in memory": ("apply web.exchange", ["r web.exchange"]),
    "help": ("--help", []),
}
STATION = {
    "init": ("init --db new.db --ca ca.pub --first 1 --last 9", ["r ca.pub", *made("new.db")]),
    "judge": ("judge --db guard.db --policy policy body", ["r policy", *opened("guard.db"), "r body"]),
    "judge -": ("judge --db guard.db --policy policy -", ["r policy", *opened("guard.db"), "r policy"]),
    "bodies": ("bodies --db guard.db", opened("guard.db")),
    "body": ("body --db guard.db 1", opened("guard.db")),
    "policy": ("policy policy", ["r policy"]),
    "retire": ("retire --db guard.db --last 5", opened("guard.db")),
    "lists": ("lists --init --db new.db", made("new.db")),
    "list": ("list --db lists.db --ca list.pub --begin list", ["r list.pub", "r list", *opened("lists.db")]),
}


def database(words):
    named = re.search(r"--db (\S+)", words)
    return named and named[1]


@pytest.mark.parametrize("umask", [0o000, 0o077], ids=["open", "closed"])
@pytest.mark.parametrize("command", OFFICE)
def test_an_office_opens_the_files_that_it_names_once_each(program, laid, command, umask):
    words, due = OFFICE[command]
    (laid / "krl").write_bytes(run([program, "krl", "--db", "office.db"], check=True).stdout)
    found, done = calls([program, *words.split()], laid, preexec_fn=lambda: os.umask(umask))
    assert (0, b"") == (done.returncode, done.stderr)
    assert due == without_ends(found, database(words))


@pytest.mark.parametrize("umask", [0o000, 0o077], ids=["open", "closed"])
@pytest.mark.parametrize("command", STATION)
def test_a_guard_opens_the_files_that_it_names_once_each(sshstation, laid, command, umask):
    words, due = STATION[command]
    run([sshstation, "judge", "--db", "guard.db", "--policy", "policy", "body"], check=True)
    with open("input", "rb") as given:
        found, done = calls([sshstation, *words.split()], laid, preexec_fn=lambda: os.umask(umask), stdin=given)
    assert (0, b"") == (done.returncode, done.stderr)
    assert due == without_ends(found, database(words))


# ---- the server's socket and its nonces

@pytest.mark.parametrize("requests", [1, 2])
def test_a_server_listens_at_this_machines_address_alone(program, programs, laid, requests):
    words = f"serve --db office.db --port 0 --connections {requests} --nonces nonces".split()
    served = programs.begin(tracing([program, *words], laid, ["read", "pread64"]), bufsize=0, stdout=subprocess.PIPE)
    port = int(served.stdout.readline().split()[1])
    for _ in range(requests):
        with socket.create_connection(("127.0.0.1", port), timeout=60) as peer:
            peer.sendall(get("/v1/krl"))
            assert rest(peer).status == 200
    assert 0 == served.wait(60)
    found = traced(laid)
    assert ["r nonces", *opened("office.db")] == [it for it in found if re.match(r"(r|w|rw) ", it)]
    # One socket is made, which gets a port of 127.0.0.1 and asks nobody.
    sockets = [it for it in found if re.match("(socket|bind|connect|listen) ", it)]
    assert ["socket AF_INET, SOCK_STREAM", "bind 127.0.0.1 0", "listen"] == [of_socket(it) for it in sockets]
    # Each connection takes the next 32 bytes.
    assert ["32"] * requests == [it.rpartition(", ")[2] for it in found if it.startswith("read nonces")]
    assert [] == [it for it in found if it.split()[0] in (*FILES, "execve", "fork", "kill")
                  and not re.match(r"ftruncate office\.db(-wal)? \d+$", it)]


def test_a_self_test_asks_nobody_but_itself(program, laid):
    """It opens no file, and its one connection is to the port that it got."""
    found, done = calls([program, "selftest"], laid)
    assert (0, b"selftest ok\n") == (done.returncode, done.stdout)
    assert [] == [it for it in found if not re.match("(socket|bind|connect|listen|clone3?) ", it)]
    sockets = [of_socket(it) for it in found if not it.startswith("clone")]
    made = ["socket AF_INET, SOCK_STREAM", "bind 127.0.0.1 0", "listen"]
    assert made + made[:1] == [it for it in sockets if not it.startswith("connect ")]
    assert [f"connect 127.0.0.1 {port}" for port in asked_ports(found)] == [it for it in sockets if it[:7] == "connect"]
    assert 1 == len(asked_ports(found))


def asked_ports(found):
    return [re.search("htons.([0-9]+)", it)[1] for it in found if it.startswith("connect ")]


def of_socket(call):
    """A call about a socket, with what tells where it leads."""
    name, words = call.split(" ", 1)
    if name in ("bind", "connect"):
        return f"{name} {re.search('inet_addr..([0-9.]+)', words)[1]} {re.search('htons.([0-9]+)', words)[1]}"
    return re.sub(r"\|SOCK_CLOEXEC.*", "", call) if name == "socket" else name


# ---- a database that another program has open

@contextlib.contextmanager
def locked(db):
    """Holds the locks that SQLite's page on its file format has: from 2^30 on, for 512 bytes."""
    with open(db, "rb+") as file:
        fcntl.lockf(file, fcntl.LOCK_EX | fcntl.LOCK_NB, 512, 2 ** 30)
        yield


def state(folder, db):
    """The names that begin like a database's, each with its mode, its bytes and when it was changed."""
    return {it.name: (it.stat().st_mode, it.read_bytes(), it.stat().st_mtime_ns) for it in folder.glob(f"{db}*")}


BUSY = [("init", "guard.db"), ("judge", "guard.db"), ("judge -", "guard.db"), ("bodies", "guard.db"),
        ("body", "guard.db"), ("retire", "guard.db"), ("lists", "lists.db"), ("list", "lists.db")]


@pytest.mark.parametrize("command, db", BUSY, ids=[it for it, _ in BUSY])
def test_a_command_that_does_not_get_a_guard_writes_nothing_to_it(sshstation, laid, command, db):
    """Another program has it open. Such a run is none in the life of these files: the next finds what was left."""
    words = STATION[command][0].replace("new.db", db).split()
    before = state(laid, db)
    with locked(db), open("input", "rb") as given:
        trace = Trace([sshstation, *words], stdin=given)
    assert (1, b"", b"sshstation: Device\n") == (trace.done.returncode, trace.done.stdout, trace.done.stderr)
    assert before == state(laid, db)
    assert [] == [it.words for name in before for it in trace.of(str(laid / name), *WRITES)]
