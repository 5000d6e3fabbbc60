"""Backups that a timer makes of an office, or of a signing station: a folder each time, which only root may read."""
import contextlib
import datetime
import os
import pathlib
import re
import shutil
import subprocess

import setting_up
from setting_up import Fault, run

FOLDER = pathlib.Path("/var/backups/vethlumi")
# How `systemctl is-active` ends for a unit that doesn't run.
NOT_RUNNING = (3, 4)
# Prints `ok` if a database is sound. What its log has goes into its file.
CHECK = """
import sqlite3, sys
database = sqlite3.connect(sys.argv[1])
print("; ".join(it for it, in database.execute("PRAGMA integrity_check")))
database.execute("PRAGMA wal_checkpoint(TRUNCATE)")
database.close()
"""
METRIC = """# HELP office_backup_timestamp_seconds When the last whole backup was made.
# TYPE office_backup_timestamp_seconds gauge
office_backup_timestamp_seconds{{of="{kind}"}} {moment}
"""


def options(parser):
    parser.add_argument("--keep", type=setting_up.number(1, 10_000, "how many backups stay"), default=14, metavar="N",
                        help="how many backups stay, the newest ones [default: 14]")


@contextlib.contextmanager
def held(unit):
    """Holds a unit's programs, so that nobody writes meanwhile. They go on even if what is done fails."""
    asked = subprocess.run(["systemctl", "is-active", "--quiet", unit], capture_output=True, text=True)
    # With 3 or 4 it says that the unit doesn't run, and with 1 that it doesn't know.
    if asked.returncode not in (0, *NOT_RUNNING):
        raise Fault(f"systemctl doesn't say whether {unit} runs: {asked.stderr.strip()}")
    is_running = asked.returncode == 0
    try:
        if is_running:
            run(["systemctl", "kill", "--signal", "STOP", unit])
        yield
    finally:
        if is_running:
            run(["systemctl", "kill", "--signal", "CONT", unit])


def as_user(user, *words):
    """Runs a program as a user, without a session of PAM, which the unit's sandbox has no place for."""
    return run(["setpriv", f"--reuid={user}", f"--regid={user}", "--init-groups", "--", *words])


def copy_database(user, database, unit, place):
    """Copies a database and its log, as they are at one moment, by the user whose they are: root follows no link in
    that user's folder."""
    with held(unit):
        for it in (database, pathlib.Path(f"{database}-wal")):
            if it.exists():
                as_user(user, "cp", "--reflink=auto", str(it), str(place / it.name))


class Backup:
    """One backup. It has its name once it is whole, so one that was interrupted isn't taken for another."""

    def __init__(self, kind, user):
        stamp = datetime.datetime.now(datetime.timezone.utc)
        self.kind, self.user, self.moment = kind, user, int(stamp.timestamp())
        self.place, self.new = FOLDER / f"{kind}-{stamp:%Y-%m-%dT%H%M%SZ}", FOLDER / f".{kind}.new"

    def begin(self):
        os.umask(0o077)
        # Others may go through it, to the metrics and to what is theirs.
        FOLDER.mkdir(mode=0o711, parents=True, exist_ok=True)
        FOLDER.chmod(0o711)
        shutil.rmtree(self.new, ignore_errors=True)
        run(["install", "-d", "-m", "700", "-o", self.user, "-g", self.user, self.new])

    def check(self, database, *words):
        """Sees that a copy is sound, by the user whose it is: by SQLite, and by the program that it is for."""
        copy = str(self.new / database.name)
        told = as_user(self.user, "/usr/bin/python3", "-I", "-c", CHECK, copy).strip()
        if told != "ok":
            raise Fault(f"the copy of {database} isn't sound: {told[:200]}")
        as_user(self.user, *words, copy)

    def archive(self, *paths, without=()):
        """An archive of files, with their owners and modes."""
        there = [str(it).lstrip("/") for it in map(pathlib.Path, paths) if it.exists()]
        excluded = [word for it in without for word in ("--exclude", it.lstrip("/"))]
        run(["tar", "-C", "/", *excluded, "-czf", self.files, *there])

    @property
    def files(self):
        return FOLDER / f".{self.kind}.tar.gz"

    def finish(self, keep):
        """Gives the backup its name, once all of it is on the disk, and removes those that are too old."""
        whole = FOLDER / f".{self.kind}.whole"
        shutil.rmtree(whole, ignore_errors=True)
        whole.mkdir(mode=0o700)
        os.rename(self.new, whole / "databases")
        os.rename(self.files, whole / "files.tar.gz")
        run(["sync", "-f", FOLDER])
        os.rename(whole, self.place)
        run(["sync", "-f", FOLDER])
        form = re.compile(rf"{self.kind}-\d{{4}}-\d\d-\d\dT\d{{6}}Z")
        for it in sorted(it for it in FOLDER.iterdir() if form.fullmatch(it.name))[:-keep]:
            shutil.rmtree(it)
        setting_up.put(FOLDER / f"{self.kind}.prom", METRIC.format(kind=self.kind, moment=self.moment), 0o644)
        print(self.place)
