"""The apt repository of a release: what apt accepts from it, and what it refuses.

apt runs in a root of its own, over HTTP. Packages of two files stand for the real ones."""
import contextlib
import functools
import gzip
import hashlib
import http.server
import os
import re
import shutil
import tempfile
import threading
import time

import pytest

from running import TOP, left_out, run

REPOSITORY = TOP / "repository"
CONTROL = """Package: {name}
Version: {version}
Architecture: {kind}
Maintainer: a <a@localhost>
Description: a package
"""


class Keys:
    """A GnuPG keyring with keys that are thrown away."""

    def __init__(self, folder):
        self.environment = os.environ | {"GNUPGHOME": folder}
        self.first, self.second = self.make("first"), self.make("second")

    def make(self, name):
        self.run("--passphrase", "", "--quick-gen-key", f"{name} <{name}@localhost>", "ed25519", "sign", "never")
        listed = self.run("--list-secret-keys", "--with-colons", f"={name} <{name}@localhost>").stdout.decode()
        return re.search(r"^fpr:+(\w+):", listed, re.M)[1]

    def run(self, *words):
        return run(["gpg", "--batch", "--quiet", *words], env=self.environment, check=True)

    def sign(self, release, key):
        """Signs a Release file as apt reads it, in place of an earlier signature."""
        signed = release.with_name("InRelease")
        signed.unlink(missing_ok=True)
        self.run("--local-user", key, "--clearsign", "--output", signed, release)
        release.with_name("Release.gpg").unlink(missing_ok=True)
        # apt asks only for what is newer, in whole seconds, than what it has.
        os.utime(signed, 2 * (time.time() + 5,))


@pytest.fixture(scope="module")
def keys():
    if not all(map(shutil.which, ("aptly", "gpg", "gpgv", "apt-get"))):
        left_out("aptly or gnupg isn't installed")
    # The path of the agent's socket has to be short.
    with tempfile.TemporaryDirectory(prefix="keys-") as folder:
        yield Keys(folder)
        run(["gpgconf", "--kill", "all"], env=os.environ | {"GNUPGHOME": folder})


def package(folder, name, version, text="the program\n", kind="all"):
    """A Debian package with one file."""
    made = folder / f"{name}_{version}_{kind}"
    (made / "DEBIAN").mkdir(parents=True)
    (made / "DEBIAN/control").write_text(CONTROL.format(name=name, version=version, kind=kind))
    (made / "usr").mkdir()
    (made / f"usr/{name}").write_text(text)
    run(["dpkg-deb", "--root-owner-group", "-b", made, f"{made}.deb"], check=True)
    shutil.rmtree(made)
    return made.with_name(f"{made.name}.deb")


@pytest.fixture(scope="module")
def packages(tmp_path_factory):
    """Two packages, one of them in two versions."""
    folder = tmp_path_factory.mktemp("packages")
    native = run(["dpkg", "--print-architecture"], check=True).stdout.decode().strip()
    return [package(folder, "vethlumi-client", "1.0.0"), package(folder, "vethlumi-client", "1.0.1"),
            package(folder, "vethlumi-office", "1.0.1", kind=native)]


def make(out, keys, *packages, key=None):
    return run([REPOSITORY, "--out", out, "--key", key or keys.first, *packages], env=keys.environment)


class Quiet(http.server.SimpleHTTPRequestHandler):
    def log_message(self, *_):
        pass


class Apt:
    """apt with a root of its own, whose only source is a repository that is served at a URL."""

    def __init__(self, room, url, key):
        self.room, self.root = room, room / "root"
        for it in ("etc/apt/apt.conf.d", "etc/apt/preferences.d", "etc/apt/sources.list.d", "etc/apt/trusted.gpg.d",
                   "var/lib/apt/lists/partial", "var/cache/apt/archives/partial", "var/lib/dpkg"):
            (self.root / it).mkdir(parents=True)
        (self.root / "var/lib/dpkg/status").touch()
        # As docs/INSTALLING.md has it, but for the places.
        text = re.search(r"^```text\n(Types: deb\n[^`]*)", (TOP / "docs/INSTALLING.md").read_text(), re.M)[1]
        (self.root / "etc/apt/sources.list.d/vethlumi.sources").write_text(
            text.replace("https://packages.example.org", url).replace("/etc/apt/keyrings/vethlumi.asc", str(key)))

    def __call__(self, *words):
        options = [f"Dir={self.root}", f"Dir::State::status={self.root}/var/lib/dpkg/status", "APT::Sandbox::User=root",
                   "Acquire::Languages=none"]
        words = ["apt-get", *(word for it in options for word in ("-o", it)), *words]
        return run(words, cwd=self.room, env=os.environ | {"LC_ALL": "C"})


@pytest.fixture
def served(room, keys, packages):
    """A repository, and apt that knows its key."""
    assert 0 == make(room / "apt", keys, *packages).returncode
    handler = functools.partial(Quiet, directory=room / "apt")
    with http.server.ThreadingHTTPServer(("127.0.0.1", 0), handler) as server:
        threading.Thread(target=server.serve_forever, daemon=True).start()
        shutil.copy(room / "apt/vethlumi.asc", room / "vethlumi.asc")
        yield room / "apt", Apt(room, f"http://127.0.0.1:{server.server_port}", room / "vethlumi.asc")
        server.shutdown()


def is_refused(done, why):
    assert done.returncode and why in done.stderr.decode(), done.stderr.decode()


def test_apt_takes_the_packages(served, room, packages):
    """The highest version, and an earlier one that is named."""
    _, apt = served
    done = apt("update")
    assert (0, b"") == (done.returncode, done.stderr)
    for words, due in ((["vethlumi-client"], packages[1]), (["vethlumi-office"], packages[2]),
                       (["vethlumi-client=1.0.0"], packages[0])):
        done = apt("download", *words)
        assert 0 == done.returncode, done.stderr.decode()
        assert due.read_bytes() == (room / due.name).read_bytes()
    done = apt("install", "--simulate", "vethlumi-client")
    assert b"Inst vethlumi-client (1.0.1 Vethlumi:stable " in done.stdout


def test_apt_refuses_a_package_that_was_changed(served, room):
    folder, apt = served
    file, = folder.rglob("vethlumi-office_*.deb")
    data = bytearray(file.read_bytes())
    data[-10] ^= 1
    file.write_bytes(data)
    assert 0 == apt("update").returncode
    is_refused(apt("download", "vethlumi-office"), "Hash Sum mismatch")
    assert [] == [*room.glob("*.deb")]


def put_another_package(folder):
    """Puts another package in the place of one, with its sum and size in all files that have them, and returns the
    Release file, which isn't signed any more."""
    file, = folder.rglob("vethlumi-office_*.deb")
    old = hashlib.sha256(file.read_bytes()).hexdigest()
    file.write_bytes(file.read_bytes()[:-1] + b"\1")
    index, = folder.rglob("binary-*/Packages")
    release = folder / "dists/stable/Release"
    text = re.sub(r"^(MD5sum|SHA1|SHA512): .*\n", "", index.read_text(), flags=re.M)
    index.write_text(text.replace(old, hashlib.sha256(file.read_bytes()).hexdigest()))
    index.with_name("Packages.gz").write_bytes(gzip.compress(index.read_bytes()))
    listed = release.read_text().partition("MD5Sum:\n")[0] + "Date: Fri, 01 Jan 2038 00:00:00 UTC\nSHA256:\n"
    for it in (index, index.with_name("Packages.gz")):
        data = it.read_bytes()
        listed += f" {hashlib.sha256(data).hexdigest()} {len(data)} {it.relative_to(release.parent)}\n"
    release.write_text(re.sub(r"^Date: .*\n", "", listed, count=1, flags=re.M))
    return release


@pytest.mark.parametrize("is_known_before", [False, True])
def test_apt_refuses_a_repository_that_somebody_else_signed(served, keys, is_known_before):
    folder, apt = served
    assert not is_known_before or 0 == apt("update").returncode
    keys.sign(put_another_package(folder), keys.second)
    done = apt("-o", "APT::Update::Error-Mode=any", "update")
    is_refused(done, f"NO_PUBKEY {keys.second[-16:]}")
    if not is_known_before:
        assert apt("download", "vethlumi-office").returncode
    else:
        is_refused(apt("download", "vethlumi-office"), "Hash Sum mismatch")


def test_what_apt_would_take_if_the_key_were_stolen(served, keys):
    """The same change, signed by the key itself, is taken: so it is the signature that is missing above."""
    folder, apt = served
    keys.sign(put_another_package(folder), keys.first)
    done = apt("update"), apt("download", "vethlumi-office")
    assert [0, 0] == [it.returncode for it in done], b"".join(it.stderr for it in done).decode()


@pytest.mark.parametrize("is_known_before", [False, True])
def test_apt_refuses_a_repository_without_a_signature(served, is_known_before):
    folder, apt = served
    assert not is_known_before or 0 == apt("update").returncode
    for it in ("InRelease", "Release.gpg"):
        (folder / "dists/stable" / it).unlink()
    is_refused(apt("update"), "is no longer signed" if is_known_before else "is not signed")


# ---- the command

def test_a_repository_is_replaced_by_a_later_one(room, keys, packages):
    """Whole, with what is new and without what isn't named any more; nothing else is left beside it."""
    assert b"apt: 1 packages\n" in make(room / "apt", keys, packages[0]).stdout
    assert b"apt: 2 packages\n" in make(room / "apt", keys, *packages[1:]).stdout
    assert sorted(it.name for it in packages[1:]) == sorted(it.name for it in (room / "apt/pool").rglob("*.deb"))
    assert ["apt"] == [it.name for it in room.iterdir()]
    assert {"dists", "pool", "vethlumi.asc"} == {it.name for it in (room / "apt").iterdir()}


@pytest.mark.parametrize("ends", ["exit 1", "kill -TERM $PPID; sleep 1; exit 1"], ids=["a fault", "a signal"])
def test_a_repository_is_not_lost_on_its_way_out(room, keys, packages, ends):
    """The new one can't be put in place, once the old one is out of the way."""
    assert 0 == make(room / "apt", keys, packages[0]).returncode
    before = (room / "apt/dists/stable/InRelease").read_bytes()
    (room / "bin").mkdir()
    (room / "bin/mv").write_text(f'#!/bin/sh\ncase $2 in */made) {ends} ;; esac\nexec {shutil.which("mv")} "$@"\n')
    (room / "bin/mv").chmod(0o755)
    words = [REPOSITORY, "--out", room / "apt", "--key", keys.first, packages[1]]
    done = run(words, env=keys.environment | {"PATH": f"{room}/bin:{os.environ['PATH']}"})
    assert 0 != done.returncode and before == (room / "apt/dists/stable/InRelease").read_bytes()
    assert ["apt", "bin"] == sorted(os.listdir(room))


def test_everybody_may_read_a_repository(room, keys, packages):
    """And nobody changes it by writing another package into the folder from which it was made."""
    with masked(0o077):
        assert 0 == make(room / "apt", keys, *packages).returncode
    for it in [room / "apt", *(room / "apt").rglob("*")]:
        found = it.lstat()
        assert found.st_mode & 0o777 == (0o755 if it.is_dir() else 0o644), it
        assert it.is_dir() or (1, True) == (found.st_nlink, it.is_file()), it


@contextlib.contextmanager
def masked(umask):
    before = os.umask(umask)
    try:
        yield
    finally:
        os.umask(before)


def test_the_public_key_is_that_of_the_signature(room, keys, packages):
    """And no private one."""
    make(room / "apt", keys, *packages, key=f" {keys.second[:20]} {keys.second[20:].lower()}")
    shown = keys.run("--show-keys", "--with-colons", room / "apt/vethlumi.asc").stdout.decode()
    assert keys.second in shown and keys.first not in shown and "\nsec:" not in f"\n{shown}"
    keys.run("--verify", room / "apt/dists/stable/InRelease")


@pytest.mark.parametrize("words, status, why", [
    ([], 2, "repository [--out FOLDER] --key KEY"), (["--key"], 2, "repository [--out"),
    (["--nothing"], 2, "repository [--out"), (["--key", "first", "{one}"], 1, "named by its fingerprint"),
    (["--key", "0123456789ABCDEF", "{one}"], 1, "named by its fingerprint"),
    (["--key", 40 * "0", "{one}"], 1, f"your keyring has no private key {40 * '0'}"),
    (["--key", "{first}", "nothing.deb"], 1, "nothing.deb isn't there"),
    (["--key", "{first}", "--out", "kept", "{one}"], 1, "kept is something else than an apt repository"),
    # Nobody could say which of two packages of one version a machine has.
    (["--key", "{first}", "{one}", "{other}"], 1, "conflict"),
    (["--key", "{first}", "{broken}"], 1, "broken.deb"),
])
def test_what_makes_no_repository(room, keys, packages, words, status, why):
    """An earlier one stays, whatever happens, and what is no repository."""
    for it in ("kept", "others"):
        (room / it).mkdir()
        (room / it / "mine").write_text("kept\n")
    (room / "others/broken.deb").write_bytes(b"!<arch>\n")
    files = {"one": packages[0], "first": keys.first, "broken": room / "others/broken.deb",
             "other": package(room / "others", "vethlumi-client", "1.0.0", "another\n")}
    make(room / "apt", keys, packages[1])
    before = {it: it.read_bytes() for it in room.rglob("*") if it.is_file()}
    if "--out" not in words:
        words = ["--out", "apt", *words]
    done = run([REPOSITORY, *(it.format(**files) for it in words)], env=keys.environment)
    assert (status, True) == (done.returncode, why in done.stderr.decode()), done.stderr.decode()
    assert before == {it: it.read_bytes() for it in room.rglob("*") if it.is_file()}
