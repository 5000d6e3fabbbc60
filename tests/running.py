"""Programs that run beside a test and end with it, free ports, waiting, and an office in a file."""
import collections
import contextlib
import errno
import os
import pathlib
import random
import re
import signal
import socket
import subprocess
import time
import tomllib
import types

import pytest

from asking import Response, answers, exchanges_of, get, post, write_exchanges

TOP = pathlib.Path(__file__).resolve().parent.parent
EXAMPLES, PROGRAMS, ROWS = TOP / "examples", TOP / "programs", TOP / "tests/rows"
# Where Python finds the client in a clone.
CLIENT = f"{PROGRAMS}/client:{PROGRAMS}/common"


def command(name):
    """The file of a command of programs/ or examples/, by its name."""
    [found] = [*PROGRAMS.glob(f"*/{name}"), *EXAMPLES.glob(name)]
    return found


def rows(name):
    """The rows of data/NAME.toml."""
    return tomllib.loads((TOP / f"tests/data/{name}.toml").read_text())


def worked(name):
    """The exchanges of a row of tests/rows, and the answers that are due to them."""
    asked, due = ((ROWS / f"{name}.{it}").read_bytes() for it in ("exchange", "expected"))
    return exchanges_of(asked), answers(due)


def refusals():
    """The name and the status of each refusal, by its number, as docs/FORMATS.md has them."""
    found = re.findall(r"^\| (\d+) \| (\w+) \| (\d+) \|", (TOP / "docs/FORMATS.md").read_text(), re.M)
    return {int(number): (name, int(status)) for number, name, status in found}


def left_out(why):
    """Leaves a test out because this machine can't run it, for a reason that the check shows and doesn't count."""
    pytest.skip(f"left out: {why}")


# ---- programs

def signal_group(process, *signs):
    """Sends signals to the group of a program that `begin` has begun, if any of it is left. Once the program has ended
    and was waited for, another one may have its number, and a group of this number."""
    if process.poll() is None or not os.path.exists(f"/proc/{process.pid}"):
        with contextlib.suppress(ProcessLookupError):
            for sign in signs:
                os.killpg(process.pid, sign)


def end(process, patience=20):
    """Ends a program that `begin` has begun, with all of its session's group, and waits until it is gone."""
    for sign in (signal.SIGTERM, signal.SIGKILL):
        signal_group(process, sign, signal.SIGCONT)
        with contextlib.suppress(subprocess.TimeoutExpired):
            process.wait(patience)
            return


class Programs:
    """Programs that were begun, each in a session of its own, and that end together."""

    def __init__(self):
        self.begun = []

    def begin(self, words, **how):
        """Begins a program. Its output goes nowhere, unless `how` says where."""
        how = {"stdin": subprocess.DEVNULL, "stdout": subprocess.DEVNULL, "stderr": subprocess.DEVNULL} | how
        process = subprocess.Popen([str(it) for it in words], start_new_session=True, **how)
        self.begun.append(process)
        return process

    def end_all(self):
        for process in reversed(self.begun):
            end(process)
        for process in self.begun:
            signal_group(process, signal.SIGKILL)
            for pipe in (process.stdout, process.stderr):
                if pipe:
                    pipe.close()


@contextlib.contextmanager
def listening(words, **how):
    """Begins a server, and gives its process and the line that it prints, or none where it ends before it listens. With
    the block it ends."""
    pipes = {"stdout": subprocess.PIPE, "stderr": subprocess.PIPE}
    process = subprocess.Popen([str(it) for it in words], bufsize=0, **pipes, **how)
    try:
        yield process, process.stdout.readline()
    finally:
        process.kill()
        process.communicate()


def run(words, **how):
    """Runs a program to its end, with what it prints."""
    how = {"capture_output": True, "timeout": 250, "stdin": subprocess.DEVNULL} | how
    return subprocess.run([str(it) for it in words], **how)


def said(words, **how):
    """Status, output and errors of a program that runs to its end."""
    done = run(words, **how)
    return done.returncode, done.stdout, done.stderr


def loaded(path):
    """A script of Python as a module. Python keeps nothing of it beside the script."""
    module = types.ModuleType(path.name.replace("-", "_"))
    module.__file__ = str(path)
    exec(compile(path.read_text(), path, "exec"), module.__dict__)
    return module


def write_secret(file, text):
    """Writes a file that its owner alone can read."""
    pathlib.Path(file).touch(0o600)
    pathlib.Path(file).write_bytes(text if isinstance(text, bytes) else text.encode())


def sql(file, *texts):
    """What sqlite3 prints for statements."""
    _, out, err = said(["sqlite3", file, *texts])
    return (out + err).decode().rstrip("\n")


def new_key(file, comment=None, kind="ed25519", *more, **how):
    """Has ssh-keygen make a key in this file, of this kind and with more words of ssh-keygen, and returns the public
    line. The comment is the file's name, unless another is given."""
    words = ["-t", kind, *more, "-C", pathlib.Path(file).name if comment is None else comment, "-f", file]
    run(["ssh-keygen", "-q", "-N", "", *words], check=True, **how)
    return pathlib.Path(f"{file}.pub").read_text().rstrip("\n")


def fingerprint(file):
    """The fingerprint that ssh-keygen shows of a public key."""
    return run(["ssh-keygen", "-l", "-f", file], check=True).stdout.split()[1].decode()


def is_revoked(krl, certificate):
    """Whether ssh-keygen finds a certificate revoked by a list."""
    return {0: False, 1: True}[run(["ssh-keygen", "-Q", "-f", krl, certificate]).returncode]


def preloaded(source, folder):
    """Compiles a source of tests/preload to a library, which a program loads first where LD_PRELOAD names it."""
    library = pathlib.Path(folder).absolute() / source.replace(".c", ".so")
    run(["cc", "-shared", "-fPIC", "-O1", "-o", library, TOP / "tests/preload" / source], check=True)
    return library


# ---- ports and waiting

# Sockets whose names stand for ports that were given out: so nobody else gets a port between its choice and its use.
# The names are the kernel's, for all tests of this machine, and end with the process, which keeps the last ones.
PORTS_GIVEN = collections.deque()


def free_port():
    """A port of 127.0.0.1 at which nobody listens, and which the machine gives to no client of its own accord. It is
    given once: also tests that run side by side get different ones."""
    while True:
        port, name = random.randrange(20000, 30000), socket.socket(socket.AF_UNIX, socket.SOCK_DGRAM)
        try:
            name.bind(f"\0vethlumi-test-port-{port}")
            socket.create_server(("127.0.0.1", port)).close()
        except OSError as fault:
            name.close()
            if fault.errno != errno.EADDRINUSE:
                raise
            continue
        PORTS_GIVEN.append(name)
        if len(PORTS_GIVEN) > 100:
            PORTS_GIVEN.popleft().close()
        return port


def until(is_so, seconds=60, pause=0.02):
    """Waits until it is so, and returns what was found, or fails after some seconds."""
    end_of_wait = time.monotonic() + seconds
    while True:
        found = is_so()
        if found:
            return found
        if time.monotonic() > end_of_wait:
            raise AssertionError(f"not so within {seconds} seconds: {getattr(is_so, '__name__', is_so)}")
        time.sleep(pause)


def is_listening(port, address="127.0.0.1"):
    with contextlib.suppress(OSError), socket.create_connection((address, port), timeout=1):
        return True
    return False


# ---- offices

def rest(peer):
    """All that comes until the peer ends, or cuts the connection."""
    came = b""
    with contextlib.suppress(OSError):
        while piece := peer.recv(65536):
            came += piece
    return Response(came)


class Served:
    """An office that serves, at `port` of 127.0.0.1. Its program is `process`."""

    def __init__(self, office, process, port):
        self.office, self.process, self.port, self.url = office, process, port, f"http://127.0.0.1:{port}"

    def ask(self, request, timeout=60):
        """The response to these bytes, up to the end of the connection."""
        came = b""
        with socket.create_connection(("127.0.0.1", self.port), timeout=timeout) as peer:
            peer.sendall(request)
            while piece := peer.recv(65536):
                came += piece
        return Response(came)

    def work_of(self, asked):
        """How long a processor works for the server while this function asks it, in seconds. The server has one thread.
        It ends with a short request: then what came before has been done."""
        def worked():
            self.get("/v1/nothing")
            return int(pathlib.Path(f"/proc/{self.process.pid}/schedstat").read_text().split()[0]) / 1e9

        before = worked()
        asked()
        return worked() - before

    def post(self, caller, key, message):
        return self.ask(post(caller, key, message))

    def get(self, path):
        return self.ask(get(path))


def applied(program, exchanges, folder="."):
    """The responses that the trial office in memory gives."""
    return answers(run([program, "apply", write_exchanges(f"{folder}/some.exchange", exchanges)]).stdout)


def init(db, ca, *, root="root", station="station", first=1, last=100_000):
    """The words that make an office in a file, of a CA whose public line is in another."""
    return ["init", "--db", db, "--ca", ca, "--root", root, "--station", station, "--first", first, "--last", last]


class Office:
    """An office in a file, made by `init`.

    `db` is its file, and `ca` the file with the public line of its CA. `ca_key` is the file with the CA's private half,
    or None where the CA was given as a line of text."""

    def __init__(self, program, db="office.db", *, ca=None, first=1, **opening):
        self.program, self.db, self.first = program, pathlib.Path(db).absolute(), first
        self.ca, self.ca_key = self.db.with_suffix(".ca.pub"), None
        if ca is None:
            self.ca_key = self.db.with_suffix(".ca.pem")
            run(["openssl", "genpkey", "-algorithm", "ed25519", "-out", self.ca_key], check=True)
            ca = run([PROGRAMS / "station/ca-line", self.ca_key], check=True).stdout.decode()
        self.ca.write_text(ca.rstrip("\n") + "\n")
        self.opened = self.must(*init(self.db, self.ca, first=first, **opening))

    def run(self, *words, **how):
        """Status, output and errors of the program."""
        return said([self.program, *words], **how)

    def must(self, *words):
        """What the program prints, which has to end well."""
        status, out, err = self.run(*words)
        assert (status, err) == (0, b""), f"{words}: status {status}, {err.decode()}"
        return out

    def apply(self, exchanges):
        """Applies requests, or requests with their moments and nonces, and returns the responses; None is a fault."""
        file = write_exchanges(self.db.with_suffix(".exchange"), exchanges)
        return answers(self.run("apply", "--db", self.db, file)[1])

    def krl(self):
        return self.must("krl", "--db", self.db)

    def table(self):
        return self.must("table", "--db", self.db)

    def signers(self):
        return self.must("signers", "--db", self.db)

    @contextlib.contextmanager
    def serving(self, *, port=0, connections=1_000_000, nonces="/dev/urandom", before=(), **how):
        """Serves the office until the block ends. `before` are words before the program, such as `unshare --net`."""
        words = [*before, self.program, "serve", "--db", self.db, "--port", port, "--connections", connections,
                 "--nonces", nonces]
        programs = Programs()
        try:
            process = programs.begin(words, bufsize=0, **{"stdout": subprocess.PIPE, "stderr": subprocess.PIPE} | how)
            line = process.stdout.readline()
            said = b"" if line or not process.stderr else process.stderr.read()
            assert line.startswith(b"listening "), f"the office doesn't serve: {line!r} {said!r}"
            yield Served(self, process, int(line.split()[1]))
        finally:
            programs.end_all()
