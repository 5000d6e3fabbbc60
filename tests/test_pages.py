"""Runs the commands of the repository's pages as they stand, and looks at what the pages link to.

The commands stand in fenced blocks, and are run in a copy of the repository in which the program is built, each page's
in one shell.

    sh         commands; each has to end well
    console    commands behind `$`, each with what it has to print; `#` in the place of `$` is for root, and isn't run
    text       no commands. On a crate's page it is quoted from the source that the line before it names

What isn't run here stands in ELSEWHERE, with the reason and what else shows it. A block of another kind fails, and so
does a command in an indented block, or in one without commands. Each file and each heading that a page links to has to
be there, and so has each path in backticks. A link to a source names a function, or what else stands in the file, and
in brackets clauses of it; the file has to hold them. Each crate has a page, to which PROMISES leads. The page names the
crate's wrong bodies, and what the crate gives to others.
"""
import collections
import importlib.machinery
import importlib.util
import os
import re
import shutil
import subprocess
import textwrap
import tomllib
import warnings

import pytest

from blocks import blocks, lines_of, outside, steps
from running import PROGRAMS, TOP

PLACES = ("*.md", "docs/*.md", "examples/*.md", "programs/**/*.md", "crates/*/README.md", "tests/**/*.md")
PAGES = sorted(str(page.relative_to(TOP)) for place in PLACES for page in TOP.glob(place))
TEXTS = {page: (TOP / page).read_text() for page in PAGES}
CRATES = re.findall(r"^(\w+):", (TOP / "crates.txt").read_text(), re.M)
# What stands behind `sh` where a block is for one of several machines, for some of them, or for somebody at one of them:
# tests of machines that are booted type it there.
MACHINES = ("admin", "office", "station", "server", "client", "spare", "second", "server client", "one", "two", "three",
            "one two", "one two three", "laptop", "ana", "web")
KINDS = ("sh", "console", "text", *(f"sh {it}" for it in MACHINES))

# What isn't run here: a line, or the first line of a block that is left out whole. With why, what else shows it, and a
# word of that.
Elsewhere = collections.namedtuple("Elsewhere", "why shown_by word")
A_FRONT = "it asks a front"
ELSEWHERE = {
    "./check": Elsewhere("this test is a part of it", ".ci/run", "exec ./check"),
    "/usr/bin/python3 -m pytest tests/test_rows.py":
        Elsewhere("the check runs it beside this test", "check", '"-m", "pytest"'),
    "programs/station/station --once --db guard.db --policy policy --key ca.pem http://127.0.0.1:8022":
        Elsewhere("it asks an office", "tests/stations.py", 'PROGRAMS / "station/station"'),
    "export SOFTHSM2_CONF=/etc/vethlumi/station/softhsm2.conf":
        Elsewhere("it makes a token", "tests/test_station.py", '"softhsm2-util", "--init-token"'),
    "examples/request --cert ana.pem --cacert ca.crt https://office.example.org:8443 web web/alice alice.pub alice 8h":
        Elsewhere(A_FRONT, "tests/test_scripts.py", 'script("request"'),
    "programs/server/fetch-list --signers list-signers --cacert ca.crt https://office.example.org:8443 revoked.krl":
        Elsewhere(A_FRONT, "tests/test_published.py", '"--signers", self.allowed'),
    "programs/server/fetch-ca-keys --cacert ca.crt --named trusted https://office.example.org:8443 cas.pub":
        Elsewhere(A_FRONT, "tests/test_ca_keys.py", "fetch-ca-keys"),
    "programs/server/trust-cas --named trusted cas.pub trusted-cas":
        Elsewhere("it copies what was fetched", "tests/test_ca_keys.py", 'script("trust-cas", "--named"'),
    "curl -sSf --cacert ca.crt --cert watch.pem https://office.example.org:8443/v1/table | examples/list-of-table":
        Elsewhere(A_FRONT, "tests/test_scripts.py", "list-of-table"),
    "systemctl kill -s STOP office": Elsewhere("it wants the units in service", "tests/test_growing.py", "SIGSTOP"),
    "fsfreeze -f /var/lib/office && COPY; fsfreeze -u /var/lib/office":
        Elsewhere("it wants a file system of its own, and root", "tests/test_growing.py", '"fsfreeze", "-f"'),
    "sqlite3 office.db 'PRAGMA integrity_check'":
        Elsewhere("it looks at a copy of an office", "tests/test_growing.py", "PRAGMA integrity_check"),
    "fetch-list --signers a.signers --cacert ca.crt https://a.example.org:8443 a.krl":
        Elsewhere("it asks two fronts", "tests/test_growing.py", "tail -c"),
    "office-restore /var/backups/office/office.db":
        Elsewhere("it wants the units in service", "tests/machines/test_boxes.py", "office-restore"),
    "office-volume copy /root/today":
        Elsewhere("it wants three machines", "tests/machines/test_three_machines.py", "office-volume copy today"),
    "systemctl stop office":
        Elsewhere("it wants three machines", "tests/machines/test_three_machines.py", "office-restore today"),
    "cat /etc/vethlumi/alert":
        Elsewhere("it wants the units in service", "tests/machines/test_boxes.py", "etc/vethlumi/alert"),
}
# Pages of which another test runs the blocks of a shell.
PAGES_ELSEWHERE = {"docs/OPERATING.md": "tests/test_operating.py"}

# Pages that quote definitions, of which a line may begin with any word.
OF_DEFINITIONS = ("docs/STATEMENT.md", "docs/PATH.md")

LINK = re.compile(r"\[((?:[^\[\]]|\[[^\]]*\])*)\]\(([^()\s]+)\)")
PATH = re.compile(r"`(?:\./)?((?:bench|crates|docs|examples|programs|tests|tools)/[\w./-]+)`")
QUOTED = re.compile(r"\bfrom `(crates/[\w/]+\.rt)`:\n\n```text\n(.*?)^```$", re.M | re.S)
DECLARED = r"(?:pub(?:\([a-z]+\))? )?(?:(?:fn|struct|trait|enum|const|type|abbrev|record|data) (?:pub )?)"


# ---- the commands

def of_a_shell(block):
    """The commands of a block that are run here, each with what it has to print, or None where no text shows that."""
    if block.kind == "console":
        return [(it.command, it.output) for it in steps(block.lines) if not it.is_root and it.command not in ELSEWHERE]
    if block.kind != "sh" or block.lines[0] in ELSEWHERE:
        return []
    return [("\n".join(line for line in block.lines if line not in ELSEWHERE), None)]


def commands_of(page):
    """The commands of a page, but for those that are another page's, whose test runs them."""
    if page in PAGES_ELSEWHERE:
        return []
    of_others = {line for it in PAGES_ELSEWHERE for line in lines_of(TEXTS[it])}
    found = [it for block in blocks(TEXTS[page]) for it in of_a_shell(block)]
    return [it for it in found if it[0].rpartition("\n")[2] not in of_others]


@pytest.fixture
def copy(program, room):
    """The files of the repository, with the program built, and what was kept of the one crate that a page proves."""
    made = room / "vethlumi"
    shutil.copytree(TOP, made, symlinks=True, ignore=shutil.ignore_patterns(
        ".git", "out", "__pycache__", ".pytest_cache"))
    kept = "crates/text/out"
    try:
        shutil.copytree(TOP / kept, made / kept, symlinks=True)
    except OSError:
        # There is none, or the gate has put another in its place meanwhile: then the crate is proved from nothing.
        shutil.rmtree(made / kept, ignore_errors=True)
    built = made / "crates/sshoffice/out/sshoffice"
    built.parent.mkdir()
    shutil.copy(program, built)
    os.utime(built)
    return made


@pytest.mark.slow
@pytest.mark.timeout(1800)
@pytest.mark.parametrize("page", [page for page in PAGES if commands_of(page)])
def test_the_commands_of_a_page_print_what_it_shows(page, copy):
    commands = commands_of(page)
    script = "set -eu\nexec 2>&1\n" + "".join(f"{command}\nprintf '\\001'\n" for command, _ in commands)
    done = subprocess.run(["bash", "-c", script], cwd=copy, stdin=subprocess.DEVNULL, stdout=subprocess.PIPE)
    printed = done.stdout.decode(errors="replace").replace("\r\n", "\n").split("\1")
    ended = dict(zip((command for command, _ in commands), printed))
    assert (0, "") == (done.returncode, printed[-1]), f"the last command ends well; it printed {printed[-1]}"
    assert {command: ended[command] if wanted is None else wanted for command, wanted in commands} == ended


@pytest.mark.parametrize("page", PAGES)
def test_each_block_says_what_becomes_of_it(page):
    """No command stands outside of a block of commands."""
    text = TEXTS[page]
    loose = re.findall(r"^    (\S+)", outside(text), re.M)
    for block in blocks(text):
        what = f"line {block.place}"
        assert block.kind in KINDS, what
        if block.kind == "console":
            assert block.lines[0][:2] in ("$ ", "# "), f"{what}: it begins with a command"
            root = [it.command for it in steps(block.lines) if it.is_root][:1]
            assert [] == [it for it in root if it not in ELSEWHERE], f"{what}: what is for root is shown elsewhere"
        elif block.kind == "text" and page not in OF_DEFINITIONS:
            loose += [line.split()[0] for line in block.lines if line.strip()]
    programs = {line.split()[0] for line in [*lines_of(text), *ELSEWHERE] if line.strip()}
    assert [] == [it for it in loose if it in programs or is_program(it)]


def is_program(path):
    return (TOP / path).is_file() and os.access(TOP / path, os.X_OK)


@pytest.mark.parametrize("command", ELSEWHERE)
def test_what_is_not_run_here_is_shown_elsewhere(command):
    lines = {line.removeprefix("$ ").removeprefix("# ") for it in TEXTS.values() for block in blocks(it)
             for line in block.lines}
    it = ELSEWHERE[command]
    assert command in lines
    assert it.word in (TOP / it.shown_by).read_text()


@pytest.mark.parametrize("page", PAGES_ELSEWHERE)
def test_the_commands_of_a_page_are_run_by_another_test(page):
    assert page in (TOP / PAGES_ELSEWHERE[page]).read_text()


# ---- the links

def headings(text):
    """The names by which a page's headings are linked to."""
    found = re.findall(r"^#+ (.*)$", outside(text), re.M)
    return {re.sub(r"[^\w\- ]", "", it).strip().lower().replace(" ", "-") for it in found}


def declared(source, name):
    """The text of what has this name in a source, up to its closing brace, an empty line, or what is declared next."""
    found = re.search(rf"^( *){DECLARED}{re.escape(name)}\b", source, re.M)
    if found is None:
        return None
    end = re.compile(rf"^{found[1]}(\}}|{DECLARED}\w)" if source.lstrip().startswith("//") else r"^$", re.M)
    ends = [*(it.start() for it in end.finditer(source, found.end())), len(source)]
    return source[found.start():ends[0]]


def lacks(target, text):
    """What a link's text names and its source doesn't hold."""
    names, _, clauses = text.partition("(")
    source, missing = target.read_text(), []
    for name in re.findall(r"`([^`]+)`", names):
        found = declared(source, name.rpartition("::")[2])
        missing += [name] if found is None else []
        missing += [f"{name}: {it}" for it in re.findall(r"`([^`]+)`", clauses)
                    if not re.search(rf"\b(ensures|requires|ghost|pub) {re.escape(it)}\b", found or "")]
    return missing


def lacking(page, words, link):
    """What a link of a page wants and isn't there."""
    path, _, heading = link.partition("#")
    target = (TOP / page).parent / path if path else TOP / page
    if not target.exists():
        return [link]
    if heading:
        return [] if heading in headings(target.read_text()) else [link]
    return lacks(target, words) if target.suffix in (".rt", ".antt") else []


@pytest.mark.parametrize("page", PAGES)
def test_what_a_page_links_to_is_there(page):
    links = [(" ".join(words.split()), link) for words, link in LINK.findall(outside(TEXTS[page])) if "://" not in link]
    assert {} == {link: missing for words, link in links if (missing := lacking(page, words, link))}


@pytest.mark.parametrize("page", PAGES)
def test_each_path_that_a_page_names_is_there(page):
    paths = {it.rstrip("/") for it in PATH.findall(TEXTS[page]) if not re.search("NAME|/out", it)}
    assert [] == sorted(it for it in paths if not (TOP / it).exists())


# ---- the pages of the crates

def stands_in(quote, source):
    """Whether the lines of a quote stand one after the other in a source, all moved by the same indentation."""
    wanted, lines = textwrap.dedent(quote).splitlines(), source.splitlines()
    parts = ("\n".join(lines[place:place + len(wanted)]) for place in range(len(lines)))
    return any(textwrap.dedent(it).splitlines() == wanted for it in parts)


def given_by(library):
    """The names that a crate gives to others."""
    passed = re.findall(r"^pub use (?:\w+::)+(?:\{([^}]*)\}|(\w+));", library, re.M)
    declared_here = re.findall(r"^pub (?:fn|struct|enum|trait|const|type) (\w+)", library, re.M)
    return [*re.findall(r"\w+", " ".join(some + one for some, one in passed)), *declared_here]


def wrong_bodies_of(page):
    """The wrong bodies that a crate's page names: the last cells of its table of what is proved."""
    rows = re.findall(r"^\| .* \| (.*)\|$", page.partition("\n## What is proved\n")[2], re.M)
    return {it for cell in rows if not cell.startswith("those of") for it in re.findall(r"`([a-z0-9-]+)`", cell)}


def wrong_bodies(crate):
    """The names of a crate's wrong bodies: tables of one file, and files of their own."""
    folder = TOP / "crates" / crate
    tables = [tomllib.loads(it.read_text()) for it in folder.glob("wrong-bodies.toml")]
    return [name for it in tables for name in it] + [it.stem for it in folder.glob("*/*.edit")]


def page_of(crate):
    return TEXTS.get(f"crates/{crate}/README.md", "")


@pytest.mark.parametrize("crate", CRATES)
def test_each_crate_has_a_page_to_which_promises_leads(crate):
    assert page_of(crate)
    assert f"(../crates/{crate}/README.md)" in TEXTS["docs/PROMISES.md"]
    assert f"| `{crate}` | " in TEXTS["docs/ARCHITECTURE.md"], "it says what the crate does"


@pytest.mark.parametrize("crate", CRATES)
def test_each_block_of_a_crates_page_is_quoted(crate):
    found = QUOTED.findall(page_of(crate))
    assert len(blocks(page_of(crate))) == len(found) > 0
    assert [] == [source for source, quote in found
                  if not (TOP / source).exists() or not stands_in(quote, (TOP / source).read_text())]


@pytest.mark.parametrize("crate", CRATES)
def test_the_page_of_a_crate_names_what_it_gives_to_others(crate):
    library = TOP / "crates" / crate / "src/lib.rt"
    names = given_by(library.read_text()) if library.exists() else []
    assert [] == [it for it in names if not re.search(rf"`{it}`", page_of(crate))]


@pytest.mark.parametrize("crate", CRATES)
def test_the_mutants_that_the_page_of_a_crate_names_are_there(crate):
    """A new mutant needs no line on a page, but where a crate has any, its page names some by what they break."""
    there, named = {*wrong_bodies(crate)}, wrong_bodies_of(page_of(crate))
    assert set() == named - there
    assert bool(there) == bool(named)


def test_contributing_names_the_packages_that_the_check_installs():
    wanted = re.search(r'PACKAGES = """(.*?)"""', (TOP / "check").read_text(), re.S)[1].split()
    page = " ".join(TEXTS["CONTRIBUTING.md"].split())
    assert [] == [it for it in wanted if not re.search(rf"[` ]{re.escape(it)}[` ]", page)]


# ---- how the pages are written

def script(path):
    """A script of the repository, as a module."""
    loader = importlib.machinery.SourceFileLoader(os.path.basename(path), str(TOP / path))
    made = importlib.util.module_from_spec(importlib.util.spec_from_loader(loader.name, loader))
    loader.exec_module(made)
    return made


def test_few_patterns_read_foreign():
    """Warns if there are more than a tenth of those that there were, and fails nothing: a pattern may be right where it
    is. `tools/prose PAGE` shows the lines."""
    prose = script("tools/prose")
    today = prose.counts()
    if 10 * sum(today.values()) > sum(prose.BEFORE.values()):
        warnings.warn(f"many patterns that read foreign: {today}")


LONGEST_CELL = 60


def test_a_row_of_threats_is_read_at_a_glance():
    """What is stopped and what isn't are two rows, rather than one of two hundred words."""
    rows = [line for line in TEXTS["docs/THREATS.md"].splitlines() if line.startswith("| ")]
    cells = [(len(cell.split()), row[:80]) for row in rows for cell in row.strip("| ").split(" | ")]
    assert [] == [it for it in cells if it[0] > LONGEST_CELL]


def test_what_was_measured_names_what_measures_it():
    measured = TEXTS["docs/GROWING.md"].partition("\n## Measured\n")[2].partition("\n\n![")[0]
    rows = re.findall(r"^\| (?!what \|)(.*) \| ([^|]*) \|$", measured, re.M)
    assert len(rows) > 10
    assert [] == [row for row, by in rows if not re.fullmatch("`(bench|tests)/[a-z_.]+`", by)]


# ---- pages that a script makes

@pytest.mark.parametrize(("name", "contracts"), [("docs/STATEMENT.md", ("serve_one", "do_words", "run")),
                                                 ("docs/PATH.md", ("serve_one",))])
def test_a_page_of_contracts_can_be_made_and_says_of_which_commit_it_is(name, contracts):
    """The page is that of the last release, and not of the sources as they are. It is made of both alike."""
    page = TEXTS[name]
    of_release = re.search(r"^This page is of commit ([0-9a-f]{7,40}, \d{4}-\d\d-\d\d)\.", page, re.M)
    assert of_release
    made = script("tools/statement").written(of_release[1])[name]
    assert headings(made) == headings(page)
    assert of_release[0] in made
    assert [] == [it for it in contracts if not re.search(rf"^pub fn {it}\b", made, re.M)]


def test_the_path_of_a_request_is_short():
    assert TEXTS["docs/PATH.md"].count("\n") <= 700


def test_the_pictures_are_those_of_their_texts():
    """`docs/pictures/make` makes them again. How a text is drawn depends on versions, so what it says is compared."""
    pictures = script("docs/pictures/make")
    made = {name: pictures.said(it) for name, it in pictures.made().items()}
    kept = {it.stem: pictures.said(it.read_text()) for it in (TOP / "docs/pictures").glob("*.svg")}
    assert made == kept
    shown = [name for name in kept if not any(f"pictures/{name}.svg)" in text for text in TEXTS.values())]
    assert [] == shown, "a page shows each of them"
