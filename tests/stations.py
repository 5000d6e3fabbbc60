"""The signing station of programs/station/station, with the guard beside its key."""
import contextlib
import importlib
import os
import pathlib
import shutil
import signal
import subprocess
import sys
import tempfile

from asking import LAST_SERIAL, LATEST, department
from running import PROGRAMS, end, run, until

EVERY_OPTION = ("force-command", "source-address", "verify-required")
EVERY_EXTENSION = ("no-touch-required", "permit-X11-forwarding", "permit-agent-forwarding", "permit-port-forwarding",
                   "permit-pty", "permit-user-rc")
# A policy that permits what most tests ask for.
WIDE = department(principals="alice,bob,lost,*@example.org", options=EVERY_OPTION, extensions=EVERY_EXTENSION,
                  maxlife=LATEST)


def part(name):
    """A module of the station, such as `journal`."""
    sys.path += [it for it in (str(PROGRAMS / name) for name in ("station", "common", "signon", "client"))
                 if it not in sys.path]
    return importlib.import_module(f"vethlumi_station.{name}")


def init(db, ca, *, first=1, last=LAST_SERIAL):
    """The words that make a guard in a file, of a CA whose public line is in another."""
    return ["init", "--db", db, "--ca", ca, "--first", first, "--last", last]


class Guard:
    """A guard's file, made by `init`. `ca` is the file with the CA's public line, `policy` the file of its policy."""

    def __init__(self, program, db, ca, policy=WIDE, *, first=1, last=LAST_SERIAL):
        self.program, self.db, self.ca = program, pathlib.Path(db).absolute(), ca
        self.policy = self.db.with_suffix(".policy")
        self.permit(policy)
        self.opened = self.must(*init(self.db, ca, first=first, last=last))

    def permit(self, policy):
        """Puts another policy in the place of the file's."""
        new = self.policy.with_suffix(".new")
        new.write_text(policy)
        new.rename(self.policy)

    def run(self, *words, **how):
        """Status, output and errors of the program."""
        done = run([self.program, *words], **how)
        return done.returncode, done.stdout, done.stderr

    def must(self, *words):
        """What the program prints, which has to end well."""
        status, out, err = self.run(*words)
        assert (status, err) == (0, b""), f"{words}: status {status}, {err.decode()}"
        return out

    def judge(self, *files, ahead=LATEST):
        """The lines that answer the bodies in files."""
        return self.must("judge", "--db", self.db, "--policy", self.policy, "--ahead", ahead,
                         *files).decode().splitlines()

    def bodies(self):
        """The serial, the digest, the moment and the key id of each body that was approved."""
        return [line.split(" ") for line in self.must("bodies", "--db", self.db).decode().splitlines()]

    def body(self, serial):
        return self.must("body", "--db", self.db, serial)


class Lists:
    """The file of a lists' guard, for lists of the CAs whose lines are in these files."""

    def __init__(self, program, db, *cas):
        self.program, self.db, self.cas = program, pathlib.Path(db).absolute(), cas
        done = run([program, "lists", "--init", "--db", self.db])
        assert (0, b"lists ready\n", b"") == (done.returncode, done.stdout, done.stderr)

    def state(self, file, *more):
        """The line that answers a list in a file."""
        cas = [word for it in self.cas for word in ("--ca", it)]
        done = run([self.program, "list", "--db", self.db, *cas, *more, file])
        assert (0, b"") == (done.returncode, done.stderr)
        return done.stdout.decode().rstrip("\n")

    @property
    def words(self):
        """The words by which a station publishes lists."""
        return ["--lists", self.db, *(word for it in self.cas for word in ("--list-ca", it))]


class Station:
    """A station beside a guard. `key` are the words that say where the CA's private key is, for an office at a URL."""

    def __init__(self, guard, url, key, *, certificate=None, trusted=None, other_cas=(), ahead=LATEST,
                 lists=None):
        self.guard, self.url = guard, url
        self.words = [PROGRAMS / "station/station", "--db", guard.db, "--policy", guard.policy, "--ahead", ahead, *key]
        if certificate:
            self.words += ["--cert", certificate, "--cacert", trusted]
        for it in other_cas:
            self.words += ["--other-ca", it]
        self.words += lists.words if lists else []
        # Where a copy of its modules is, if they were changed.
        self.copy = None
        # The station finds its guard on the PATH.
        self.folder = guard.db.parent / f"{guard.db.stem}.programs"
        self.folder.mkdir(exist_ok=True)
        program = self.folder / "sshstation"
        if not program.exists():
            program.symlink_to(guard.program)
        self.environment = os.environ | {"PATH": f"{self.folder}:{os.environ['PATH']}"}

    def resolve(self, *addresses):
        """Has each name have these addresses, in place of what getent says of it."""
        self.runs_in_place_of("getent", f"printf '%s STREAM\\n' {' '.join(addresses)}")

    def change(self, old, new):
        """Has it run a copy of its modules, in which another text stands in the place of one that stands there once."""
        if not self.copy:
            self.copy = pathlib.Path(tempfile.mkdtemp(dir=self.folder))
            for it in ("station", "common"):
                shutil.copytree(PROGRAMS / it, self.copy, dirs_exist_ok=True)
            # Another station of the same guard may have been changed before.
            for it in ("client", "signon"):
                if not (self.folder / it).exists():
                    (self.folder / it).symlink_to(PROGRAMS / it)
            self.words[self.words.index(PROGRAMS / "station/station")] = self.copy / "station"
        texts = {it: it.read_text() for it in self.copy.rglob("*.py")}
        [file] = [it for it, text in texts.items() if old in text]
        assert 1 == texts[file].count(old)
        file.write_text(texts[file].replace(old, new))

    def notes_the_end_of_a_guard(self, before="pass"):
        """Has the status of each guard that has ended in the file `ended`. A line of Python runs before it. A shell
        would let signals through that its caller has blocked."""
        self.ended, program = self.folder / "ended", self.folder / "sshstation"
        program.unlink()
        program.write_text(f"#!/usr/bin/python3 -I\nimport subprocess, sys\n{before}\n"
                           f"status = subprocess.call(['{self.guard.program}', *sys.argv[1:]], close_fds=False)\n"
                           f"print(status, file=open('{self.ended}', 'a'))\nsys.exit(status)\n")
        program.chmod(0o755)

    def runs_in_place_of(self, name, text):
        """Has it run these lines of the shell in place of a program of this name, such as `sshstation`."""
        new = self.folder / f"{name}.new"
        new.write_text(f"#!/bin/sh\n{text}\n")
        new.chmod(0o755)
        new.rename(self.folder / name)

    def speaks_at_the_end_of_a_round(self):
        """Has it say what it leaves once it has looked at all, however long that takes: after five seconds it would
        say what it has so far."""
        self.change("LONGEST_SILENCE = 1000, 20, 5\n", "LONGEST_SILENCE = 1000, 20, 500\n")

    def once(self, *more, **environment):
        """Status, lines of output, and lines of errors of a station that looks once."""
        done = run([*self.words, *more, "--once", self.url], env=self.environment | environment)
        return done.returncode, done.stdout.decode().splitlines(), done.stderr.decode(errors="replace").splitlines()

    def sign(self, **environment):
        """Signs pending certificates, and returns the serials of those that were signed."""
        status, out, errors = self.once(**environment)
        assert (0, []) == (status, errors), f"the station: status {status}, {errors}"
        return [int(line.removeprefix("signed ")) for line in out]

    def begin(self, programs, *more, **how):
        """A station that goes on."""
        how = {"stdout": subprocess.PIPE, "stderr": subprocess.PIPE, "bufsize": 0, "env": self.environment} | how
        return programs.begin([*self.words, *more, self.url], **how)


def begin_agent(programs, address):
    """Starts an ssh-agent without keys, and returns what programs have in their environment that ask it. Its socket is
    there before it answers."""
    asks_it = {"SSH_AUTH_SOCK": str(address)}
    programs.begin(["ssh-agent", "-D", "-a", address])
    # With 1 ssh-add says that it has no keys, and with 2 that nobody answers.
    until(lambda: 1 == run(["ssh-add", "-l"], env=os.environ | asks_it).returncode)
    return asks_it


def children(pid):
    """The processes that a station has begun, but for those of its threads."""
    return [int(it) for it in pathlib.Path(f"/proc/{pid}/task/{pid}/children").read_text().split()]


def stopped(process, lines=0):
    """Stops a station once it has put out so many more lines, and returns its status, and the lines of its output and
    of its errors. An office has a signature a moment before the station says so."""
    out = b"".join(process.stdout.readline() for _ in range(lines))
    process.send_signal(signal.SIGTERM)
    more, errors = process.communicate(timeout=60)
    end(process)
    out = (out + more).decode().splitlines()
    # It may have been stopped after its line for a signature, and before it noted that.
    signed = [it.removeprefix("signed ") for it in out if it.startswith("signed ")]
    needless = [f"station: the signature of {it} may have been sent, and the station ends" for it in signed]
    return process.returncode, out, [it for it in errors.decode().splitlines() if it not in needless]


@contextlib.contextmanager
def locked(path):
    """Keeps a guard's file locked as another guard of it would, and gives what the station says of that."""
    hold = ("import fcntl, sys\nfile = open(sys.argv[1], 'r+')\nfcntl.lockf(file, fcntl.LOCK_EX, 512, 1 << 30)\n"
            "print('locked', flush=True)\nsys.stdin.read()\n")
    with subprocess.Popen([sys.executable, "-c", hold, path], stdin=subprocess.PIPE, stdout=subprocess.PIPE) as process:
        assert b"locked\n" == process.stdout.readline()
        name = pathlib.Path(f"/proc/{process.pid}/comm").read_text().strip()
        yield f"{path} is locked by {name}, process {process.pid}: only one program at a time can use it"
        process.stdin.close()


def new_guard(sshstation, office, db="guard.db", policy=WIDE, **serials):
    """A guard for the CA of an office."""
    return Guard(sshstation, db, office.ca, policy, **serials)


def new_station(sshstation, office, url, db="guard.db", policy=WIDE, **how):
    """A station for an office whose private key is in a file, with a guard of its own."""
    return Station(new_guard(sshstation, office, db, policy), url, ["--key", office.ca_key], **how)
