"""The help of each command, which fits a screen, and its manual page, which has the whole text.

The commands are those of debian/commands.toml, except for the two programs in Rattle, whose texts test_help.py has. The
pages are made as debian/prepare makes them, and read by man.
"""
import os
import re
import sys
import tomllib

import pytest

from running import CLIENT, PROGRAMS, TOP, loaded, run, said

sys.path.append(str(PROGRAMS / "common"))
from vethlumi_common.helps import folded, on_a_screen

SAYS = tomllib.loads((TOP / "debian/commands.toml").read_text())
COMMANDS = [it for it in SAYS if it not in ("sshoffice", "sshstation")]
# Of a screen, in lines and letters; more have the lists of commands.
LINES, LETTERS = 40, 80
MORE_LINES = {"vethlumi": 46, "vethlumi-install": 42}


def program_of(name):
    """The words that run a command of the repository."""
    if name == "vethlumi":
        return ["/usr/bin/python3", "-B", "-m", "vethlumi"]
    found, = PROGRAMS.glob(f"*/{name}")
    return [found]


def help_of(name, *words, **environment):
    env = os.environ | {"COLUMNS": "80", "PYTHONPATH": CLIENT, "LC_ALL": "C.UTF-8"} | environment
    return run([*program_of(name), *words, "--help"], env=env, check=True).stdout.decode()


@pytest.mark.parametrize("name", COMMANDS)
def test_a_help_fits_a_screen(name):
    lines = help_of(name).splitlines()
    assert 3 < len(lines) <= MORE_LINES.get(name, LINES)
    assert [] == [it for it in lines if len(it) > LETTERS]


@pytest.mark.parametrize("name", COMMANDS)
def test_a_help_that_leaves_out_notes_says_where_they_are(name):
    has_notes = "\nNotes:\n" in help_of(name, VETHLUMI_MANUAL="1")
    assert has_notes == (help_of(name).splitlines()[-1] == f"The manual page has notes: man {name}")
    assert "\nNotes:\n" not in help_of(name)


def names_below(text, *titles):
    """The names in the lists of a help that have one of these titles."""
    lists = re.findall(rf"^(?:{'|'.join(titles)}):\n((?:  .*\n)+)", text, re.M)
    return [it for found in lists for it in re.findall(r"^  ([a-z][a-z-]*)", found, re.M)]


def test_the_screen_shows_each_command_of_the_client_once():
    """Without the second names that two of them have: the manual page says what they are the same as."""
    whole = help_of("vethlumi", VETHLUMI_MANUAL="1")
    others = re.findall(r"^  (\w+) +The same as \w+\.$", whole, re.M)
    assert ["figures", "list"] == others
    shown = names_below(help_of("vethlumi"), "Certificates", "Sign-on", "Office")
    assert sorted(shown) == sorted({*names_below(whole, "Commands")} - {*others})


# ---- manual pages

def installed():
    """The commands that packages put into folders of programs."""
    for it in (TOP / "debian").glob("*.install"):
        yield from re.findall(r"^\S*?([\w-]+) usr/s?bin$", it.read_text(), re.M)
    for it in (TOP / "debian").glob("*.links"):
        yield from re.findall(r" usr/s?bin/([\w-]+)$", it.read_text(), re.M)


def test_each_command_has_a_manual_page():
    pages = {line.rpartition("/")[2] for it in (TOP / "debian").glob("*.manpages")
             for line in it.read_text().split()} | {"vethlumi-install.1", "vethlumi-client-setup.1"}
    assert {*installed()} == {*SAYS}
    assert {f"{name}.{says['section']}" for name, says in SAYS.items()} <= pages


@pytest.fixture(scope="module")
def manual(tmp_path_factory):
    """Makes the manual page of a command: its sections, each with its lines, as man shows them on a screen."""
    folder, before = tmp_path_factory.mktemp("manuals"), os.getcwd()
    os.chdir(TOP)
    prepare = loaded(TOP / "debian/prepare")

    def made(name):
        prepare.manuals(folder, [prepare.Command(name)], "1")
        page = folder / f"{name}.{SAYS[name]['section']}"
        text = run(["man", "--warnings", "-l", page], check=True,
                   env=os.environ | {"MANWIDTH": "80", "MAN_KEEP_FORMATTING": "", "LC_ALL": "C.UTF-8"}).stdout.decode()
        return {title: body for title, body in re.findall(r"^([A-Z][A-Z ]+)\n(.*?)(?=^[A-Z]|\Z)", text, re.M | re.S)}

    yield made
    os.chdir(before)


def words_of(text):
    """The words of a text, however lines end and wherever a word is broken."""
    return re.sub(r"[\s\u2010]+", "", text)


@pytest.mark.parametrize("name", ["station", "fetch-list", "authority", "vethlumi-server-setup", "vethlumi-office-root"])
def test_the_notes_are_a_section_of_the_manual_page(manual, name):
    page = manual(name)
    notes = help_of(name, VETHLUMI_MANUAL="1").partition("\nNotes:\n")[2]
    first = notes.strip().partition("\n\n")[0]
    assert words_of(first).replace("-", "") in words_of(page["NOTES"]).replace("-", "")
    assert name in page["SYNOPSIS"] and words_of(first)[:40] not in words_of(page["SYNOPSIS"])


@pytest.mark.parametrize("name, end", [("fetch-ca-keys", "[--fingerprint HASH] OFFICE KEYS"),
                                       ("station", "--id ID --pin-file FILE OFFICE"), ("ca-line", "PEM [COMMENT]")])
def test_a_usage_is_whole_in_the_manual_page(manual, name, end):
    assert words_of(end) in words_of(manual(name)["SYNOPSIS"])


# ---- what is folded

PARAGRAPH = "It copies and installs missing packages, runs the command, and passes on keys and bundles to the machines."


@pytest.mark.parametrize("text, due", [
    (PARAGRAPH, "It copies and installs missing packages, runs the command, and passes on keys\nand bundles to the "
                "machines.\n"),
    ("One line\nand a second.\n\nA paragraph.", "One line and a second.\n\nA paragraph.\n"),
    ("  --key FILE  " + "word " * 16 + "\n              and an end",
     "  --key FILE  " + " ".join(["word"] * 13) + "\n              word word word and an end\n"),
    ("  --key FILE  short\n  --all       " + "w" * 65 + " next", "  --key FILE  short\n  --all       " + "w" * 65
     + "\n              next\n"),
    ("it --key FILE\nit --all\n\nThe rest.", "it --key FILE\nit --all\n\nThe rest.\n"),
    ("it " + "[OPTION] " * 9 + "FILE", "it " + " ".join(["[OPTION]"] * 8) + "\n   [OPTION] FILE\n"),
    ("A line that names\nit in a paragraph.", "A line that names it in a paragraph.\n"),
    ("      krl namespaces=\"krl\"\nNext.", "      krl namespaces=\"krl\"\nNext.\n"),
    ("x" * 79, "x" * 79 + "\n"), ("x" * 80, "x" * 80 + "\n"),
    ("x" * 40 + " " + "y" * 38, "x" * 40 + " " + "y" * 38 + "\n"),
    ("x" * 40 + " " + "y" * 39, "x" * 40 + "\n" + "y" * 39 + "\n"),
])
def test_a_text_is_folded(text, due):
    assert due == folded(text, "it")


def test_what_is_below_notes_is_for_the_manual_page():
    text = "Does it.\n\nNotes:\n\nAt length.\n"
    assert "Does it.\n\nThe manual page has notes: man it\n" == on_a_screen(text, "it")
    assert "Does it. Notes:\n" == on_a_screen("Does it.\nNotes:\n", "it")
