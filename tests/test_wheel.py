"""The client without Debian's package: the wheel of a release, and programs/client, in a Python environment of its own.

No wheels of other projects can be fetched here, so these environments see Debian's modules for what the client needs.
"""
import json
import os
import pathlib
import re
import shutil
import subprocess
import sys

import pytest

from asking import department
from releasing import copy_sources, packed, stand_ins
from running import PROGRAMS, TOP, left_out, run

# The first test also waits until ./package has ended.
pytestmark = pytest.mark.timeout(900)

NATIVE = "/usr/bin/python3"
# What the wheel has: its own, and what it shares with other programs.
MODULES = "vethlumi", "vethlumi_common"
PLACE = {it: PROGRAMS / folder for it, folder in zip(MODULES, ("client", "common"))}
# Nothing of Debian's is found by its name.
EMPTY = {"PATH": "/nonexistent", "LC_ALL": "C.UTF-8", "TERM": "dumb"}


def environment(folder):
    """A Python environment whose modules are its own, with Debian's for what it lacks."""
    made = run([NATIVE, "-m", "venv", "--system-site-packages", folder])
    if made.returncode:
        left_out("python3-venv isn't installed")
    return folder


def install(folder, *words):
    done = run([folder / "bin/pip", "install", "--quiet", "--no-index", "--no-build-isolation", *words])
    assert 0 == done.returncode, done.stderr.decode()
    return folder / "bin/vethlumi"


@pytest.fixture(scope="module")
def vethlumi(tmp_path_factory):
    """The command that the wheel installs."""
    room = tmp_path_factory.mktemp("wheel")
    files = packed(room / "out", *stand_ins(room / "programs"))
    wheel, = [it for name, it in files.items() if name.endswith(".whl")]
    return install(environment(room / "venv"), wheel)


class User:
    """Who runs a command, with a home of their own and no programs on the path."""

    def __init__(self, room, command):
        self.home, self.command = room / "home", command
        self.home.mkdir(exist_ok=True)

    def __call__(self, *words, **more):
        done = run([self.command, *words], env=EMPTY | {"HOME": str(self.home)} | more, cwd=self.home)
        return done.returncode, done.stdout.decode(), done.stderr.decode()


@pytest.fixture
def user(room, vethlumi):
    return User(room, vethlumi)


def test_the_wheel_says_what_it_requires(vethlumi):
    """Each module that the client imports and Python doesn't have, and none else."""
    imported = {it.split(".")[0] for name in MODULES for file in (PLACE[name] / name).glob("*.py")
                for it in re.findall(r"^ *(?:import|from) ([\w.]+)", file.read_text(), re.M)}
    due = imported - {*sys.stdlib_module_names, *MODULES}
    script = "import importlib.metadata as m; print(m.requires('vethlumi'), m.version('vethlumi'))"
    done = run([vethlumi.with_name("python"), "-I", "-c", script], check=True).stdout.decode()
    assert due == {*re.findall(r"'([a-z]+) ?\(?>=", done)}
    assert due == {"click", "cryptography", "platformdirs", "requests", "rich"}
    # The version of the packages.
    assert done.split()[-1] == re.search(r"\((.*)\)", (TOP / "debian/changelog").read_text())[1]


def test_the_wheel_has_all_that_the_client_has(vethlumi):
    """Byte for byte, and it is the wheel's that runs, wherever it is called from."""
    def files(place):
        return {it.name: it.read_bytes() for it in place.iterdir() if it.is_file()}
    for name in MODULES:
        script = f"import {name}; print({name}.__path__[0])"
        folder = pathlib.Path(run([vethlumi.with_name("python"), "-I", "-c", script]).stdout.decode().strip())
        assert vethlumi.parent.parent in folder.parents
        assert files(PLACE[name] / name) == files(folder)


def test_the_command_explains_itself(user):
    status, told, why = user("--help")
    assert (0, "") == (status, why) and told.startswith("Usage: vethlumi [OPTIONS]")
    assert (0, "vethlumi 1.0.0\n", "") == user("--version")


def test_the_client_installs_from_the_repository_too(room):
    """By the folder that docs and pipx name. What that leaves there isn't in the next release."""
    clone = copy_sources(room / "clone")
    command = install(environment(room / "venv"), clone / "programs/client")
    assert (0, "vethlumi 1.0.0\n", "") == User(room, command)("--version")


def test_a_certificate_by_the_wheel(served, user, room):
    """From an office that is served: nothing but the office and Python takes part."""
    served.post("root", "web-1", department("web", admins="ana"))
    run(["ssh-keygen", "-q", "-t", "ed25519", "-N", "", "-f", room / "alice"], check=True)
    office = "--office", served.url, "--caller", "ana"
    status, told, why = user(*office, "--wait", "1", "request", "web/alice", room / "alice.pub", "--principals",
                             "alice", "--extensions", "")
    assert (4, "") == (status, told) and "has no signature yet" in why, why
    status, told, why = user(*office, "status", "--json")
    assert (0, "") == (status, why)
    found = json.loads(told)
    assert (1, 1, 0) == (found["certificates"], found["pending"], found["signed"])
    assert [it["fingerprint"] for it in found["cas"]] and found["office"] == served.url


def test_a_command_that_needs_more_says_so(front, user):
    """`doctor` reads a client's certificate by openssl."""
    words = "--office", front.url, "--certificate", front.certificate("ana"), "--cacert", front.authority / "ca.crt"
    _, told, _ = user(*words, "doctor", "--json")
    found = {it["what"]: it for it in map(json.loads, told.splitlines())}
    assert ("warn", "not looked at: the program openssl isn't here") == (
        found["client's certificate"]["state"], found["client's certificate"]["found"])
    assert "ok" == found["front's certificate"]["state"]
    path = os.path.dirname(shutil.which("openssl"))
    _, told, _ = user(*words, "doctor", "--json", PATH=path)
    found = {it["what"]: it for it in map(json.loads, told.splitlines())}
    assert "valid until" in found["client's certificate"]["found"]


def test_a_system_without_posix_is_told(vethlumi):
    """What Python says of Windows, before anything is loaded that Windows lacks."""
    script = "import os; os.name = 'nt'; import vethlumi.__main__"
    done = run([vethlumi.with_name("python"), "-I", "-c", script])
    assert (1, b"vethlumi: needs a POSIX system, such as Linux or macOS. On Windows, install it in WSL\n") == (
        done.returncode, done.stderr)


# ---- places

SETTINGS = 'office = "https://{}.example.org"\n'


@pytest.mark.parametrize("variable, there, due", [
    ("", [".config"], ".config"), ("{}/own", [".config"], ".config"), ("{}/own", [".config", "own"], "own"),
    ("{}/own", ["own"], "own"), ("", ["own"], None),
    # Only an absolute path counts.
    ("own", ["own", ".config"], ".config"), ("own", ["own"], None),
])
def test_where_settings_are(user, variable, there, due):
    """In XDG_CONFIG_HOME first (XDG Base Directory Specification), and where they were before there as well."""
    for it in there:
        (user.home / it).mkdir()
        (user.home / it / "vethlumi.toml").write_text(SETTINGS.format(it.strip(".")))
    status, told, why = user("--wait", "1", "status", XDG_CONFIG_HOME=variable.format(user.home))
    assert (3, "") == (status, told) if due else (2, "") == (status, told)
    assert (f"https://{due.strip('.')}.example.org" if due else "no office: set `office`") in why


@pytest.mark.parametrize("variable, due", [("", ".local/state"), ("{}/own", "own"), ("own", ".local/state")])
def test_where_messages_are(user, room, variable, due):
    run(["ssh-keygen", "-q", "-t", "ed25519", "-N", "", "-f", room / "alice"], check=True)
    status, _, why = user("--office", "http://127.0.0.1:1", "--caller", "ana", "--wait", "1", "request", "web/alice",
                          room / "alice.pub", "--principals", "alice", XDG_STATE_HOME=variable.format(user.home))
    assert 3 == status, why
    assert 1 == len([*(user.home / due / "vethlumi").iterdir()])


ELSEWHERE = """
import sys
import platformdirs.{module} as other, platformdirs
found = other.{name}
platformdirs.PlatformDirs = found
from vethlumi import settings
print(settings.FILES, settings.state_folder())
"""


def test_places_on_macos_are_those_of_platformdirs(user):
    """By its own module for macOS: nobody has tried this there."""
    done = subprocess.run([user.command.with_name("python"), "-I", "-c", ELSEWHERE.format(module="macos", name="MacOS")],
                          env=EMPTY | {"HOME": str(user.home)}, capture_output=True, text=True)
    folder = run([user.command.with_name("python"), "-I", "-c",
                  "from platformdirs.macos import MacOS as M; print(M().user_config_dir, M('vethlumi').user_state_dir)"],
                 env=EMPTY | {"HOME": str(user.home)}).stdout.decode().strip()
    config, _, state = folder.partition(f" {user.home}")
    config = config.replace(str(user.home), "~")
    due = [f"{config}/vethlumi.toml", "~/.config/vethlumi.toml", "/etc/vethlumi/client.toml"]
    assert f"{due} {user.home}{state}\n" == done.stdout, done.stderr
    assert config.startswith("~/Library/") and state.startswith("/Library/")


SYNCED = """
import errno, fcntl, os, sys
from vethlumi_common import files
called = []
os.fsync = lambda handle: called.append("fsync")
def full(handle, what):
    called.append(what)
    if {fails}:
        raise OSError(errno.ENOTSUP, "no")
fcntl.fcntl, fcntl.F_FULLFSYNC = full, 51
files.put("{folder}/file", b"text", 0o600)
print(called)
"""


@pytest.mark.parametrize("fails, due", [(False, [51, 51]), (True, [51, "fsync", 51, "fsync"])])
def test_what_is_on_disk_on_macos(user, fails, due):
    """There the disk has a file only after F_FULLFSYNC, and some file systems don't know that: fsync(2) of macOS."""
    words = [user.command.with_name("python"), "-I", "-c", SYNCED.format(fails=fails, folder=user.home)]
    assert f"{due}\n" == run(words).stdout.decode()
    assert b"text" == (user.home / "file").read_bytes()
