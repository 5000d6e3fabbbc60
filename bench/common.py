"""For the scripts in this folder: a department, issues, new and filled offices, and a server that ends with its
block."""
import contextlib
import hashlib
import os
import sqlite3
import struct
import subprocess
import sys

sys.path.insert(0, os.path.join(os.path.dirname(os.path.realpath(__file__)), "../tests"))
import asking
from asking import post
from asking import write_exchanges as written

__all__ = ["DEPARTMENT", "filled_office", "issue", "named", "new_office", "post", "served", "written"]

DEPARTMENT = asking.department()


def issue(number):
    """An issue under a key id of its own."""
    return asking.issue(f"web/{number}")


def new_office(program, db, last):
    """Makes a file of an office whose first serial is 1, and the CA's file."""
    with open("ca.pub", "w", encoding="utf-8") as file:
        file.write(f"{asking.CA}\n")
    words = f"init --db {db} --ca ca.pub --root root --station station --first 1 --last {last}"
    subprocess.run([program, *words.split()], check=True, stdout=subprocess.DEVNULL)


def named(serial, number):
    """The part of a user certificate's body with its serial, its kind and its key ID."""
    key_id = f"web/{number}".encode()
    return struct.pack(f">QII{len(key_id)}s", serial, 1, len(key_id), key_id)


def filled_office(program, db, count):
    """Makes a file of an office with this many certificates, and a request for each, as it is after as many issues. The
    program issues the first, and sqlite3 inserts the others."""
    new_office(program, db, 9223372036854775806)
    written("first", [post("root", "web", DEPARTMENT), post("ana", "i0", issue(0))])
    subprocess.run([program, "apply", "--db", db, "first"], check=True, stdout=subprocess.DEVNULL)
    connection = sqlite3.connect(db)
    body = connection.execute("SELECT body FROM cert WHERE serial = 1").fetchone()[0]
    for serial in range(2, count + 1):
        its = body.replace(named(1, 0), named(serial, serial))
        reply = f"issued {serial}\ndigest {hashlib.sha256(its).hexdigest()}\n"
        connection.execute("INSERT INTO cert VALUES (?, ?, ?, ?, NULL)", (serial, "web", f"web/{serial}", its))
        connection.execute("INSERT INTO request VALUES (?, ?, ?, ?)",
                           ("ana", f"i{serial}", issue(serial).encode(), reply))
    connection.execute("UPDATE office SET next = ?", (count + 1,))
    connection.commit()
    connection.close()


@contextlib.contextmanager
def served(program, db, connections=1_000_000, before=()):
    """A server for this many connections that listens, and its port. It ends with the block, however that ends.
    `before` are words before the program, for example `strace`."""
    words = f"serve --db {db} --port 0 --connections {connections} --nonces /dev/urandom"
    process = subprocess.Popen([*before, program, *words.split()], stdout=subprocess.PIPE, stderr=subprocess.PIPE)
    try:
        line = process.stdout.readline()
        if not line.startswith(b"listening "):
            raise SystemExit(f"the server doesn't start: {process.stderr.read()!r}")
        yield process, int(line.split()[1])
    finally:
        process.kill()
        process.communicate()
