"""What docs/GROWING.md says: copies of an office that serves, and the lists of two offices in one file."""
import contextlib
import re
import shutil
import signal
import sqlite3
import threading
import time

import pytest

from asking import department, issue, lasting, revoke_serial
from blocks import blocks
from running import TOP, fingerprint, is_revoked, left_out, new_key, run, until
from stations import new_station

# ---- a copy while the office serves


class Issuing:
    """Issues, one after the other, until the block ends. `serials` has those that were answered."""
    def __init__(self, served):
        self.served, self.serials, self.ended = served, [], threading.Event()
        self.thread = threading.Thread(target=self.go_on, daemon=True)

    def __enter__(self):
        assert 200 == self.served.post("root", "web-1", department()).status
        self.thread.start()
        until(lambda: self.serials)
        return self

    def __exit__(self, *_):
        self.ended.set()
        self.thread.join()

    def go_on(self):
        while not self.ended.is_set():
            number = len(self.serials)
            answer = self.served.post("ana", f"k-{number}", issue(f"web/k-{number}", **lasting(3600)))
            self.serials.append(int(answer.text.split()[1]))


def assert_is_whole(program, copy, serials):
    """The copy is sound, the program opens it, and it has each of these serials."""
    opened = run([program, "table", "--db", copy])
    assert (0, b"") == (opened.returncode, opened.stderr)
    with contextlib.closing(sqlite3.connect(copy)) as database:
        assert [("ok",)] == database.execute("PRAGMA integrity_check").fetchall()
        assert set() == set(serials) - {serial for serial, in database.execute("SELECT serial FROM cert")}


def test_a_copy_of_an_office_that_stands_still_has_each_answer_before_it(program, served, room):
    with Issuing(served) as issuing:
        for number in range(3):
            time.sleep(0.3)
            copied = room / f"copy-{number}"
            copied.mkdir()
            served.process.send_signal(signal.SIGSTOP)
            until(lambda: "\nState:\tT" in (room / f"/proc/{served.process.pid}/status").read_text())
            answered = issuing.serials[:]
            for name in ("office.db", "office.db-wal"):
                shutil.copy(room / name, copied)
            served.process.send_signal(signal.SIGCONT)
            assert_is_whole(program, copied / "office.db", answered)
    assert len(issuing.serials) > len(answered)


@pytest.fixture
def disk(room):
    """A file system of its own in a file, as its folder and its file."""
    image, folder, copy = room / "disk.img", room / "disk", room / "copy"
    folder.mkdir()
    copy.mkdir()
    run(["truncate", "-s", "64M", image], check=True)
    run(["mkfs.ext4", "-q", image], check=True)
    if run(["mount", "-o", "loop", image, folder]).returncode:
        left_out("this machine has no loop device")
    yield folder, image, copy
    run(["umount", copy])
    run(["umount", folder])


@pytest.mark.root
def test_a_snapshot_of_a_frozen_file_system_has_each_answer_before_it(program, make_office, disk, room):
    folder, image, copy = disk
    office = make_office(folder / "office.db")
    with office.serving() as served, Issuing(served) as issuing:
        for number in range(3):
            time.sleep(0.3)
            if run(["fsfreeze", "-f", folder]).returncode:
                left_out("no file system may be frozen here")
            # A file of its own: a loop device that still has the last one would give blocks of both.
            copied = room / f"copy-{number}.img"
            try:
                answered = issuing.serials[:]
                run(["cp", "--sparse=always", image, copied], check=True)
            finally:
                # Otherwise the office would never end.
                run(["fsfreeze", "-u", folder], check=True)
            run(["mount", "-o", "loop", copied, copy], check=True)
            assert_is_whole(program, copy / "office.db", answered)
            run(["umount", copy], check=True)


# ---- the lists of two offices

def office_with_a_list(sshstation, make_office, room, name):
    """An office whose certificate NAME-cert.pub, of serial 1, is revoked in NAME.krl; and its CA's fingerprint."""
    office = make_office(f"{name}.db")
    key = new_key(name)
    with office.serving() as served:
        served.post("root", "web", department())
        served.post("ana", "one", issue("web/x", key=key, **lasting(3600)))
        assert [1] == new_station(sshstation, office, served.url, f"{name}-guard.db").sign()
        (room / f"{name}-cert.pub").write_bytes(served.get("/v1/certs/1").body)
        served.post("ana", "gone", revoke_serial(1))
        (room / f"{name}.krl").write_bytes(served.get("/v1/krl").body)
    return fingerprint(office.ca)


def test_two_lists_that_are_joined_revoke_under_both_cas(sshstation, make_office, room):
    """By the commands of the page, where both have come."""
    fingerprints = [office_with_a_list(sshstation, make_office, room, name) for name in ("a", "b")]
    assert (True, False) == (is_revoked("a.krl", "a-cert.pub"), is_revoked("b.krl", "a-cert.pub"))
    page = blocks((TOP / "docs/GROWING.md").read_text())
    [lines] = [it.lines for it in page if any("tail -c" in line for line in it.lines)]
    run(["sh", "-e", "-c", "\n".join(it for it in lines if not it.startswith("fetch-list "))], check=True)
    shown = run(["ssh-keygen", "-Q", "-l", "-f", "revoked.krl"], check=True).stdout.decode()
    assert fingerprints == re.findall(r"^# CA key .*(SHA256:[^ \n]*)", shown, re.M)
    assert (True, True) == (is_revoked("revoked.krl", "a-cert.pub"), is_revoked("revoked.krl", "b-cert.pub"))
