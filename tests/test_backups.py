"""What `vethlumi-office-backup` and `vethlumi-station-backup` put into a folder, and what goes on whatever happens. The
programs that they start are stand-ins, except SQLite and tar. test_daily_machines.py has the units, and a restore."""
import argparse
import os
import re
import tarfile

import pytest

from running import PROGRAMS, loaded, run, sql

# Writes a line for each program that is run, and does what it is for.
STAND_IN = """#!/bin/sh
echo "${{0##*/}} $*" >>{room}/said
case "${{0##*/}}" in
  setpriv) while [ "$1" != -- ]; do shift; done; shift; exec "$@" ;;
  install) for it; do :; done; mkdir -m 700 "$it" ;;
  systemctl) case "$*" in is-active*) exit $(cat {room}/runs) ;; esac ;;
  sshoffice | sshstation) [ ! -e {room}/refuses ] || {{ echo NotAnOffice >&2; exit 1; }} ;;
esac
"""
# Leaves a log beside a database, as a program does that runs.
WRITE = """
import os, sqlite3, sys
database = sqlite3.connect(sys.argv[1])
database.execute("PRAGMA journal_mode = wal")
database.execute("CREATE TABLE it(text)")
database.execute("INSERT INTO it VALUES ('new')")
database.commit()
os._exit(0)
"""


class Backups:
    """A set-up's command for backups, in a room of its own."""

    def __init__(self, room, monkeypatch, kind):
        self.room, self.kind = room, kind
        self.script = it = loaded(PROGRAMS / f"setup/vethlumi-{kind}-backup")
        (room / "bin").mkdir()
        for name in ("setpriv", "install", "systemctl", "sshoffice", "sshstation"):
            (room / "bin" / name).write_text(STAND_IN.format(room=room))
            (room / "bin" / name).chmod(0o755)
        (room / "runs").write_text("0")
        for name in ("state", "etc/station", "authority"):
            (room / name).mkdir(parents=True)
        monkeypatch.setenv("PATH", f"{room}/bin:{os.environ['PATH']}")
        monkeypatch.setattr(it.backing_up, "FOLDER", room / "backups")
        monkeypatch.setattr(it.backing_up.setting_up.os, "getuid", lambda: 1000)
        for name, value in ((("DATABASE", room / "state/office.db"), ("FILES", (str(room / "etc"),
                             str(room / "authority")))) if kind == "office" else
                            (("STATE", room / "state"), ("STATION", str(room / "etc/station")),
                             ("SECRETS", (f"{room}/etc/station/*.key", f"{room}/etc/station/*.pin")))):
            monkeypatch.setattr(it, name, value)

    def database(self, name):
        run(["/usr/bin/python3", "-I", "-c", WRITE, self.room / f"state/{name}.db"], check=True)

    def __call__(self, keep=14):
        self.script.do(argparse.Namespace(keep=keep), None)
        return [it for it in self.made() if it.name.startswith(f"{self.kind}-2")][-1]

    def made(self):
        return sorted(it for it in (self.room / "backups").glob("[a-z]*") if it.is_dir())

    def said(self, form):
        return [it for it in (self.room / "said").read_text().splitlines() if re.match(form, it)]


@pytest.fixture
def office(room, monkeypatch):
    made = Backups(room, monkeypatch, "office")
    made.database("office")
    (room / "authority/ca.key").write_text("a key\n")
    (room / "etc/server.env").write_text("a setting\n")
    return made


@pytest.fixture
def station(room, monkeypatch):
    made = Backups(room, monkeypatch, "station")
    for it in ("first", "second", "lists"):
        made.database(it)
    for it in ("first.key", "first.pin", "first.policy", "cas.pub"):
        (room / "etc/station" / it).write_text(f"{it}\n")
    return made


def names(archive):
    with tarfile.open(archive) as it:
        return {name.rpartition("/")[2] for name in it.getnames()}


def test_a_backup_has_what_the_log_has_and_nobody_else_reads_it(room, office):
    os.umask(0)
    made = office()
    assert re.fullmatch(r"office-\d{4}-\d\d-\d\dT\d{6}Z", made.name)
    assert "new" == sql(made / "databases/office.db", "SELECT text FROM it")
    assert {"server.env", "ca.key"} < names(made / "files.tar.gz")
    assert (0o711, 0o700, 0o600) == tuple(it.stat().st_mode & 0o777 for it in (
        room / "backups", made, made / "files.tar.gz"))
    # The office's own files stay as they are.
    assert (room / "state/office.db-wal").stat().st_size > 0
    metrics = room / "backups/office.prom"
    assert 0o644 == metrics.stat().st_mode & 0o777
    assert re.search(r'^office_backup_timestamp_seconds\{of="office"\} 1[0-9]{9}$', metrics.read_text(), re.M)


def test_the_office_is_held_only_while_its_files_are_copied(office):
    """By the user whose they are: root follows no link in that user's folder."""
    office()
    told = office.said("systemctl|setpriv")
    at = [told.index(it) for it in ("systemctl kill --signal STOP office.service",
                                    "systemctl kill --signal CONT office.service")]
    between = told[at[0] + 1:at[1]]
    assert 2 == len(between) and all(it.startswith("setpriv --reuid=office --regid=office --init-groups -- cp ")
                                     for it in between)
    assert office.said("sshoffice table --db .*/office.db$")


@pytest.mark.parametrize("status", [3, 4])
def test_an_office_that_is_stopped_is_not_started(room, office, status):
    (room / "runs").write_text(str(status))
    office()
    assert [] == office.said("systemctl kill")


def test_if_nobody_knows_whether_the_office_runs_nothing_is_copied(room, office):
    """It may be writing."""
    (room / "runs").write_text("1")
    with pytest.raises(office.script.setting_up.Fault, match="systemctl doesn't say whether office.service runs"):
        office()
    assert [] == office.made() and [] == office.said("setpriv .* cp ")


def test_whatever_fails_the_office_goes_on_and_nothing_is_taken_for_a_backup(room, office):
    first = office()
    (room / "bin/cp").write_text("#!/bin/sh\nexit 1\n")
    (room / "bin/cp").chmod(0o755)
    with pytest.raises(office.script.setting_up.Fault, match="cp .* failed"):
        office()
    assert "systemctl kill --signal CONT office.service" == office.said("systemctl")[-1]
    (room / "bin/cp").unlink()
    (room / "refuses").touch()
    with pytest.raises(office.script.setting_up.Fault, match="NotAnOffice"):
        office()
    (room / "refuses").unlink()
    (room / "state/office.db").write_bytes((room / "state/office.db").read_bytes()[:-4000] + 4000 * b"x")
    (room / "state/office.db-wal").unlink()
    with pytest.raises(office.script.setting_up.Fault):
        office()
    assert [first] == office.made()


def test_what_was_interrupted_is_made_again(room, office):
    """The folder of a run that was killed doesn't become part of the next one."""
    (room / "backups/.office.new/left").mkdir(parents=True)
    (room / "backups/.office.whole").mkdir()
    made = office()
    assert ["office.db"] == sorted(it.name for it in (made / "databases").iterdir() if it.stat().st_size)
    assert [] == [*(room / "backups").glob(".*")]


def test_a_backup_is_on_the_disk_before_it_has_its_name_and_then_before_older_ones_go(room, office):
    """After a power failure a folder with the name of a backup would have files that are empty."""
    (room / "bin/sync").write_text(
        f'#!/bin/sh\n[ "$*" = "-f {room}/backups" ] && find {room}/backups -printf "%P " >>{room}/found\n'
        f'echo >>{room}/found\n')
    (room / "bin/sync").chmod(0o755)
    older = "office-2026-01-01T000000Z"
    (room / "backups" / older).mkdir(parents=True)
    made = office(keep=1).name
    whole = [{f"{it}/databases/office.db", f"{it}/files.tar.gz"} for it in (".office.whole", made)]
    found = [{*it.split()} for it in (room / "found").read_text().splitlines()]
    assert [[True, False], [False, True]] == [[it <= names for it in whole] for names in found], found
    assert [True, True, False] == [older in it for it in (*found, {it.name for it in office.made()})]


@pytest.mark.parametrize("keep, left", [(1, 1), (3, 3), (4, 4), (9, 4)])
def test_the_newest_backups_stay(room, office, keep, left):
    """And what isn't one of them."""
    for it in ("office-2026-01-01T000000Z", "office-2026-01-02T000000Z", "office-2026-01-03T000000Z"):
        (room / "backups" / it).mkdir(parents=True)
    for it in ("station-2026-01-01T000000Z", "office-mine"):
        (room / "backups" / it).mkdir()
    newest = office(keep)
    found = [it.name for it in office.made() if it.name.startswith("office-2")]
    assert (left, newest.name) == (len(found), found[-1])
    assert {"station-2026-01-01T000000Z", "office-mine"} < {it.name for it in office.made()}


@pytest.mark.parametrize("kind", ["office", "station"])
def test_a_machine_without_an_office_or_a_guard_has_nothing_to_back_up(room, monkeypatch, kind):
    made = Backups(room, monkeypatch, kind)
    with pytest.raises(made.script.setting_up.Fault, match="there is no (office|guard)"):
        made()
    assert not (room / "backups").exists()


def test_a_station_s_backup_has_its_guards_and_no_private_key(station):
    made = station()
    assert {"first.db", "second.db", "lists.db"} <= {it.name for it in (made / "databases").iterdir()}
    assert {"first.policy", "cas.pub"} == names(made / "files.tar.gz") - {"station"}
    assert {"first", "second", "*"} == {it.split("@")[1].partition(".")[0] for it in station.said("systemctl kill")}
    assert 2 == len(station.said("sshstation bodies --db ")), "that of lists has none"
