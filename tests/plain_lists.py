#!/usr/bin/python3
"""A list guard of a hundred lines of Python, written from docs/FORMATS.md alone: which list is the office's next one.

A list is read field by field, and what it revokes is a plain set of pairs: of a CA and a serial, and of a CA and a key
id. As a program it has the words of `sshstation`, and keeps the list that it approved last in an SQLite file. So it
says what is due to a program that it shares no line with.

    tests/plain_lists.py lists --init --db PATH
    tests/plain_lists.py list --db PATH --ca PATH .. [--begin] LIST
"""
import argparse
import base64
import contextlib
import hashlib
import os
import pathlib
import sqlite3
import sys
import time
from dataclasses import dataclass

MOST_SECTIONS = 8


class NoList(Exception):
    """The bytes are no list that an office writes."""


@dataclass
class Bytes:
    """Bytes that are read from the front."""
    left: bytes

    def take(self, count):
        if count > len(self.left):
            raise NoList
        taken, self.left = self.left[:count], self.left[count:]
        return taken

    def number(self, size=8):
        return int.from_bytes(self.take(size), "big")

    def string(self):
        return self.take(self.number(4))


def serials_of(part, runs):
    """The runs that a part of a section says, of one or two serials each, or of more."""
    kind, data = part
    if kind == 0x20:
        if not data or len(data) % 8:
            raise NoList
        numbers = [int.from_bytes(data[at:at + 8], "big") for at in range(0, len(data), 8)]
        if any(a >= b for a, b in zip(numbers, numbers[1:])):
            raise NoList
        return runs + [(it, it) for it in numbers]
    if len(data) != 16:
        raise NoList
    return runs + [(int.from_bytes(data[:8], "big"), int.from_bytes(data[8:], "big"))]


def section_of(data):
    """The CA's key, the runs of serials as the parts say them, and the key ids."""
    blob = data.string()
    if len(blob) != 51 or blob[:19] != b"\0\0\0\x0bssh-ed25519\0\0\0\x20" or data.string():
        raise NoList
    parts = []
    while data.left:
        parts.append((data.number(1), data.string()))
    kinds = [kind for kind, _ in parts]
    if not parts or kinds != sorted(kinds) or set(kinds) - {0x20, 0x21, 0x23}:
        raise NoList
    if kinds.count(0x20) > 1 or kinds.count(0x23) > 1:
        raise NoList
    runs = []
    for part in parts:
        runs = serials_of(part, runs) if part[0] != 0x23 else runs
    ids = []
    for kind, content in parts:
        if kind == 0x23:
            rest = Bytes(content)
            while rest.left:
                ids.append(rest.string())
            if not ids or any(a >= b for a, b in zip(ids, ids[1:])):
                raise NoList
    return blob[19:], parts, runs, ids


def joined(runs):
    """The runs of the serials, none of which can be made longer."""
    whole = []
    for lo, hi in sorted(runs):
        if whole and lo <= whole[-1][1] + 1:
            whole[-1] = (whole[-1][0], max(hi, whole[-1][1]))
        else:
            whole.append((lo, hi))
    return whole


def are_as_written(parts, runs):
    """Whether the parts are those that the office writes of these serials: serials of short runs, and the long ones."""
    if any(lo > hi for lo, hi in runs):
        return False
    whole = joined(runs)
    short = [it for lo, hi in whole if hi - lo < 2 for it in range(lo, hi + 1)]
    wanted = [(0x20, b"".join(it.to_bytes(8, "big") for it in short))] if short else []
    wanted += [(0x21, lo.to_bytes(8, "big") + hi.to_bytes(8, "big")) for lo, hi in whole if hi - lo >= 2]
    return wanted == [part for part in parts if part[0] != 0x23]


@dataclass
class List:
    """What a list says: its version, the runs of each CA, and the key ids."""
    version: int
    cas: dict
    ids: list

    def size(self):
        """The number of sections, and of the serials and key ids in each."""
        return sum(1 + sum(hi - lo + 1 for lo, hi in runs) + len(self.ids) for runs in self.cas.values())

    def forgets_nothing_of(self, old):
        """Whether each pair of a CA and a serial, and of a CA and a key id, that the old list revokes is revoked."""
        return all(ca in self.cas and set(old.ids) <= set(self.ids)
                   and all(any(a <= lo and hi <= b for a, b in self.cas[ca]) for lo, hi in runs)
                   for ca, runs in old.cas.items())


def read_list(content):
    data = Bytes(content)
    if data.take(8) != b"SSHKRL\n\0" or data.number(4) != 1:
        raise NoList
    version, _, flags = data.number(), data.number(), data.number()
    if flags or data.string() or data.string():
        raise NoList
    cas, every_ids = {}, []
    while data.left:
        if data.number(1) != 1:
            raise NoList
        ca, parts, runs, ids = section_of(Bytes(data.string()))
        if ca in cas or not are_as_written(parts, runs):
            raise NoList
        cas[ca] = joined(runs)
        every_ids.append(ids)
    if len(cas) > MOST_SECTIONS or any(ids != every_ids[0] for ids in every_ids):
        raise NoList
    return List(version, cas, every_ids[0] if every_ids else [])


def refusal(content, cas, begins, last):
    """The name of the first refusal that applies, or none: of a list, the keys that it may speak of, whether a first
    list is taken, and the bytes of the list that was approved last, if one was."""
    try:
        new = read_list(content)
    except NoList:
        return "NotAList"
    if not set(new.cas) <= set(cas):
        return "OtherCa"
    if last is None:
        return "NotBegun" if not begins else "VersionJumps" if new.version > new.size() else None
    old = read_list(last)
    if new.version < old.version:
        return "OlderVersion"
    if new.version == old.version:
        return None if content == last else "OtherBytes"
    if not new.forgets_nothing_of(old):
        return "Forgets"
    return "VersionJumps" if new.version - old.version > new.size() - old.size() else None


def answer(content, cas, begins, last, moment):
    """The line of the answer, and the bytes of the list that is the last one then."""
    name = refusal(content, cas, begins, last)
    if name is not None:
        return f"refuse {name}\n", last
    return f"list {hashlib.sha256(content).hexdigest()} {read_list(content).version} {moment}\n", content


# ---- the program

def fault(name):
    sys.exit(f"sshstation: {name}")


def key_of(path):
    try:
        words = pathlib.Path(path).read_text().split(" ")
    except OSError:
        fault("File")
    if words[0] != "ssh-ed25519":
        fault("WrongType")
    return base64.b64decode(words[1].strip())[19:]


def main():
    parser = argparse.ArgumentParser()
    commands = parser.add_subparsers(dest="command", required=True)
    made = commands.add_parser("lists")
    made.add_argument("--init", action="store_true", required=True)
    asked = commands.add_parser("list")
    asked.add_argument("--ca", action="append", required=True)
    asked.add_argument("--begin", action="store_true")
    asked.add_argument("list")
    for it in made, asked:
        it.add_argument("--db", required=True)
    words = parser.parse_args()
    if words.command == "lists":
        os.umask(0o077)
        with contextlib.closing(sqlite3.connect(words.db)) as tables, tables:
            if tables.execute("SELECT count(*) FROM sqlite_master").fetchone()[0]:
                fault("AlreadyAGuard")
            tables.execute("CREATE TABLE list (id INTEGER PRIMARY KEY, schema INTEGER NOT NULL, bytes BLOB NOT NULL)")
            tables.execute("INSERT INTO list VALUES (1, 1, x'')")
        print("lists ready")
        return
    cas = [key_of(path) for path in words.ca]
    try:
        content = pathlib.Path(words.list).read_bytes()
    except OSError:
        fault("File")
    if not os.path.exists(words.db):
        fault("NotAGuard")
    with contextlib.closing(sqlite3.connect(words.db)) as tables, tables:
        kept = tables.execute("SELECT bytes FROM list").fetchone()[0]
        line, kept = answer(content, cas, words.begin, kept or None, int(time.time()))
        tables.execute("UPDATE list SET bytes = ?", (kept or b"",))
    print(line, end="")


if __name__ == "__main__":
    main()
