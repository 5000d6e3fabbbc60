"""A release: that the same sources give the same bytes, the list of its parts, and the Ansible collection.

These tests need no built program: files stand for the programs. machines/test_packages.py has the packages of the real
ones."""
import hashlib
import json
import os
import pathlib
import re
import shutil
import tarfile
import tempfile

import pytest

from releasing import COLLECTION, VERSION, copy_sources, packed, stand_ins
from running import TOP, left_out, loaded, run

# The first test also waits until ./package has ended.
pytestmark = pytest.mark.timeout(900)

WHEEL = f"vethlumi-{VERSION}-py3-none-any.whl"
BILL = f"vethlumi_{VERSION}.cdx.json"


@pytest.fixture(scope="module")
def programs_(tmp_path_factory):
    return stand_ins(tmp_path_factory.mktemp("built") / "programs")


@pytest.fixture(scope="module")
def release(programs_, tmp_path_factory):
    """The files of a release, by their names."""
    return packed(tmp_path_factory.mktemp("release"), *programs_)


def sums(files):
    """The SHA-256 of all but the buildinfo, which says when and where they were built."""
    return {name: hashlib.sha256(it.read_bytes()).hexdigest() for name, it in files.items()
            if not name.endswith(".buildinfo")}


# ---- the same bytes

# What else may differ from one machine to another. dpkg compresses less if the last one has its way.
ELSEWHERE = {"TZ": "Asia/Tokyo", "LC_ALL": "C", "LANG": "de_DE.UTF-8", "COLUMNS": "40", "PYTHONHASHSEED": "7",
             "DEB_BUILD_OPTIONS": "parallel=1", "DEB_VENDOR": "Ubuntu", "DPKG_DEB_COMPRESSOR_LEVEL": "1"}
LATER = {"FAKETIME": "+1500d"}


@pytest.fixture
def elsewhere():
    """A folder of another user, if this is root."""
    with tempfile.TemporaryDirectory(prefix="another place ") as folder:
        if os.getuid() == 0:
            os.chown(folder, 65534, 65534)
        yield pathlib.Path(folder)


@pytest.mark.slow
def test_the_same_sources_give_the_same_bytes(release, elsewhere):
    """In another folder, years later, under another umask, in another language and time zone, on one processor, and for
    another user."""
    user = {"user": 65534, "group": 65534, "extra_groups": []} if os.getuid() == 0 else {}
    copy, programs = copy_sources(elsewhere / "sources"), stand_ins(elsewhere / "programs")
    # As pip leaves it where it has built an earlier version.
    stale = copy / "programs/client/build/lib/vethlumi"
    stale.mkdir(parents=True)
    (stale / "stale.py").touch()
    # In the copy alone the clock is another one too: nothing else gets into its environment.
    text, only = (copy / "package").read_text(), "env -i "
    clock = " ".join(f"{name}='{value}'" for name, value in (LATER | faketime()).items())
    assert 1 == text.count(only)
    (copy / "package").write_text(text.replace(only, f"{only}{clock} "))
    again = packed(elsewhere / "out", *programs, top=copy, umask=0o077, env=os.environ | ELSEWHERE, cwd=elsewhere,
                   before=["taskset", "-c", str(min(os.sched_getaffinity(0)))], **user)
    assert {*release} == {*again}
    differing = sorted(name for name, it in sums(release).items() if it != sums(again)[name])
    assert [] == differing, [explained(release[it], again[it]) for it in differing]
    buildinfo, = [it for it in again if it.endswith(".buildinfo")]
    lines = [it for it in again[buildinfo].read_text().splitlines()
             if it not in release[buildinfo].read_text().splitlines()]
    assert ["Build-Date"] == [it.partition(":")[0] for it in lines]
    year = int(run(["date", "+%Y"]).stdout)
    assert re.search(rf" ({year + 4}|{year + 5}) ", lines[0])


def faketime():
    """The variable by which programs see another clock."""
    if not shutil.which("faketime"):
        left_out("faketime isn't installed")
    found = run(["faketime", "2001-01-01", "printenv", "LD_PRELOAD"], check=True).stdout.decode().strip()
    return {"LD_PRELOAD": found}


def explained(one, two):
    """Where two files differ, if diffoscope is there to say it."""
    if not shutil.which("diffoscope"):
        return f"{one} {two}"
    return run(["diffoscope", "--max-report-size", "3000", one, two]).stdout.decode()


def test_the_time_in_a_release_is_that_of_its_changelog(release):
    """2026-11-28, by the last line of its entry."""
    moments = run(["date", "-d", re.search(r"^ -- .*>  (.*)$", (TOP / "debian/changelog").read_text(), re.M)[1], "+%s"])
    due = int(moments.stdout)
    times = run(["dpkg-deb", "--fsys-tarfile", release[f"vethlumi-client_{VERSION}_all.deb"]], check=True).stdout
    listed = run(["tar", "-tv", "--utc", "--full-time"], input=times, stdin=None, check=True).stdout.decode()
    assert {run(["date", "-u", "-d", f"@{due}", "+%F %T"]).stdout.decode().strip()} == {
        " ".join(it.split()[3:5]) for it in listed.splitlines()}
    assert json.loads(release[BILL].read_text())["metadata"]["timestamp"] == (
        run(["date", "-u", "-d", f"@{due}", "+%FT%TZ"]).stdout.decode().strip())


def test_the_changelog_has_the_version_of_the_packages():
    """As its newest one, of the same day."""
    version, date = re.search(r"^vethlumi \((.*?)\)[^\0]*?^ -- .*>  (.*)$", (TOP / "debian/changelog").read_text(),
                              re.M).groups()
    day = run(["date", "-u", "-d", date, "+%F"], check=True).stdout.decode().strip()
    headings = re.findall(r"^## (.*)$", (TOP / "CHANGELOG.md").read_text(), re.M)
    assert f"{version} - {day}" == next(it for it in headings if it != "Unreleased")


def test_each_package_has_the_pages_to_which_its_own_page_leads(release):
    """Readable as they are, and byte for byte those of docs."""
    pages = ("DAILY", "DRILLS", "FLEET", "GLOSSARY", "INSTALLING", "OPERATING", "SIGNON")
    due = {f"{it}.md": TOP / f"docs/{it}.md" for it in pages}
    for name, file in release.items():
        if name.endswith(".deb"):
            files = run(["dpkg-deb", "--fsys-tarfile", file], check=True).stdout
            for page, source in due.items():
                path = f"./usr/share/doc/{name.partition('_')[0]}/{page}"
                assert source.read_bytes() == run(["tar", "-xO", path], input=files, stdin=None).stdout, path


@pytest.mark.parametrize("name", ["sshoffice", "sshstation"])
def test_linking_twice_gives_the_same_program(program, sshstation, room, name):
    """Of each object file that was compiled, by whichever compiler, in two folders and at two times. The built program
    is one of those, unless an option names another."""
    folder = TOP / f"crates/{name}/out"
    objects = [it for it in (folder / f"{name}.o", folder / f"{name}.by-rattle.o") if it.exists()]
    if not objects:
        left_out(f"{name} wasn't compiled here")
    rattle = pathlib.Path(shutil.which("rt")).resolve().parent.parent
    made = []
    for number, it in enumerate(objects):
        linked = [link(rattle, it, room / place / str(number)) for place in ("one", "another/place")]
        assert linked[0] == linked[1]
        made += linked
    built = {"sshoffice": program, "sshstation": sshstation}[name]
    assert built.parent != folder or built.read_bytes() in made


def link(rattle, file, folder):
    folder.mkdir(parents=True)
    shutil.copy(file, folder / "a.o")
    words = [f"{rattle}/bin/rattle-link", "--target", "x86_64-unknown-linux-gnu", "--toolchain", f"{rattle}/toolchain",
             "-o", "made", "a.o", f"{rattle}/c/libos_c.a", f"{rattle}/c/liblibc_c.a"]
    done = run(words, cwd=folder)
    assert 0 == done.returncode, done.stderr.decode()
    return (folder / "made").read_bytes()


# ---- the Ansible collection

def test_the_collection_of_a_release_is_that_of_its_sources(release, room):
    """As ansible-galaxy installs it, which compares each file with its sum. All of it belongs to root, has the time of
    the changelog, and is in the order of the names, so that no folder's order is in it."""
    with tarfile.open(release[COLLECTION]) as file:
        members = file.getmembers()
    names = [it.name for it in members]
    assert ["MANIFEST.json", "FILES.json", *sorted(names[2:])] == names
    due = run(["date", "-d", re.search(r"^ -- .*>  (.*)$", (TOP / "debian/changelog").read_text(), re.M)[1], "+%s"])
    assert {(int(due.stdout), 0, 0, "", "")} == {(it.mtime, it.uid, it.gid, it.uname, it.gname) for it in members}
    assert {0o644, 0o755} == {it.mode for it in members} and {0o755} == {it.mode for it in members if it.isdir()}
    done = run(["ansible-galaxy", "collection", "install", "--offline", "-p", room, release[COLLECTION]],
               env=os.environ | {"HOME": str(room)})
    assert 0 == done.returncode, (done.stdout + done.stderr).decode()
    sources, installed = TOP / "programs/fleet", room / "ansible_collections/vethlumi/fleet"
    texts = {str(it.relative_to(sources)): it.read_bytes() for it in sources.rglob("*")
             if it.is_file() and "__pycache__" not in it.parts and it.name != "galaxy.yml"}
    assert 30 < len(texts) and texts == {str(it.relative_to(installed)): it.read_bytes() for it in installed.rglob("*")
                                         if it.is_file() and it.name not in ("MANIFEST.json", "FILES.json")}


# ---- the list of its parts

def bill_of(release):
    """Its components and what each depends on, by their references."""
    found = json.loads(release[BILL].read_text())
    return found, {it["bom-ref"]: it for it in found["components"]}, {
        it["ref"]: it["dependsOn"] for it in found["dependencies"]}


def test_the_list_of_parts_has_each_file_with_its_sum(release):
    """As sha256sum prints it."""
    found, components, needs = bill_of(release)
    listed = {it["hashes"][0]["content"]: ref for ref, it in components.items() if "hashes" in it}
    files = [it for name, it in release.items() if name.endswith((".deb", ".whl", ".tar.gz"))]
    assert len(files) > 4
    for it in files:
        digest = run(["sha256sum", it], check=True).stdout.decode().split()[0]
        assert listed[digest] in needs["vethlumi"]
    assert len(needs["vethlumi"]) == len(files)
    assert {VERSION} == {components[it]["version"] for it in needs["vethlumi"]}


def test_the_list_of_parts_is_of_the_form_cyclonedx(release):
    """Of its specification 1.5: what is required, and references that exist and occur once."""
    found, components, needs = bill_of(release)
    assert ("CycloneDX", "1.5", 1) == (found["bomFormat"], found["specVersion"], found["version"])
    assert re.fullmatch(r"urn:uuid:[0-9a-f]{8}(-[0-9a-f]{4}){3}-[0-9a-f]{12}", found["serialNumber"])
    assert len(components) == len(found["components"])
    assert {*needs} == {*components, found["metadata"]["component"]["bom-ref"]}
    for ref, names in needs.items():
        assert [] == sorted(it for it in names if it not in components) and len(names) == len({*names}), ref
    for it in components.values():
        assert it["type"] in ("application", "library") and it["name"]


def test_the_list_of_parts_has_what_each_package_depends_on(release):
    """As dpkg-deb prints it."""
    _, components, needs = bill_of(release)
    for name, file in release.items():
        if name.endswith(".deb"):
            ref, = [it for it in components if it.startswith(f"pkg:deb/vethlumi/{name.split('_')[0]}@")]
            depends = run(["dpkg-deb", "-f", file, "Depends"], check=True).stdout.decode()
            due = {*re.findall(r"(?:^|[,|]) *([a-z0-9.+-]+)", depends)}
            assert due == {components[it]["name"] for it in needs[ref]} - {"sshoffice", "sshstation"}, name
    for name, due in ((WHEEL, {"click", "cryptography", "platformdirs", "requests", "rich"}),
                      (COLLECTION, {"ansible-core"})):
        assert due == {components[it]["name"] for it in needs[f"pkg:generic/{name}@{VERSION}"]}


def test_the_list_of_parts_has_the_programs_in_their_packages(release):
    _, _, needs = bill_of(release)
    for name, package in (("sshoffice", "vethlumi-office"), ("sshstation", "vethlumi-station")):
        assert [package] == [re.match("pkg:deb/vethlumi/(.*)@", ref)[1] for ref, it in needs.items()
                             if f"program/{name}" in it]


CRATES = "# A comment.\na:\nb: a sha2\nc: b\nd: c a sha2 clap\nalone: hex\n"


def test_the_list_of_parts_has_all_crates_below_a_program(room):
    """Each with what it names itself, and none that no program needs."""
    sbom = loaded(TOP / "tools/sbom")
    (room / "d").write_bytes(b"\0rattle logic=" + b"1" * 64 + b" built: backend=rattle compiler=" + b"2" * 64 + b" a\0")
    bill = sbom.Bill("1")
    sbom.add_program(bill, sbom.crates_of(CRATES), str(room / "d"))
    ours, theirs = {f"crate/{it}" for it in "abc"}, {"rattle/sha2", "rattle/clap"}
    assert {"program/d", "rattle", *ours, *theirs} == {*bill.components}
    assert {"crate/a", "crate/c", "rattle", *theirs} == bill.needed["program/d"]
    assert {"crate/a", "rattle/sha2"} == bill.needed["crate/b"] and {"crate/b"} == bill.needed["crate/c"]
    assert f"logic={'1' * 64} compiler={'2' * 64}" == bill.components["rattle"]["version"]


def test_the_list_of_parts_names_what_built_the_real_programs(program, sshstation):
    """By the toolchain's own identity, of which `rt version` prints the beginning."""
    sbom, version = loaded(TOP / "tools/sbom"), run(["rt", "version"], check=True).stdout.decode().split()[-1]
    bill = sbom.Bill("1")
    for it in (program, sshstation):
        sbom.add_program(bill, sbom.crates_of((TOP / "crates.txt").read_text()), str(it))
    assert bill.components["rattle"]["version"].startswith(f"logic={version}")
    assert "rattle/sqlite" in bill.components and "crate/headline" in bill.needed["program/sshoffice"]
