"""What each of the two programs is built of, by `crates.txt`: the guard trusts nothing of the office."""
import os
import pathlib
import re

import pytest

from running import TOP

STANDS_ON = {name: on.split() for name, on in re.findall(r"^(\w+):(.*)$", (TOP / "crates.txt").read_text(), re.M)}

# What an office is and does: its model, its registers, its files, its answers, and what composes a KRL.
OF_THE_OFFICE = """exchanges headline http_requests krl_writer list_laws memory_store office office_jobs office_laws
    restart server sshoffice store trial waiting web""".split()

# What a guard is and does.
OF_THE_GUARD = "guard guard_sql list_guard list_jobs list_sql rows sshstation station_command station_jobs".split()


def below(name):
    """The crates of the repository on which this one stands, also through others."""
    found, left = set(), [name]
    while left:
        new = {it for it in STANDS_ON[left.pop()] if it in STANDS_ON} - found
        found |= new
        left += new
    return found


@pytest.mark.parametrize(("program", "others"), [("sshstation", OF_THE_OFFICE), ("sshoffice", OF_THE_GUARD)])
def test_a_program_stands_on_nothing_of_the_other(program, others):
    assert {*others} <= {*STANDS_ON}
    assert not below(program) & {*others}
    assert {"text", "values", "message", "krl", "store_sql", "files", "system", "command_line"} <= below(program)


@pytest.mark.parametrize("name", STANDS_ON)
def test_crates_stand_in_the_order_of_the_list(name):
    places = [*STANDS_ON]
    assert all(places.index(it) < places.index(name) for it in below(name))


def test_the_page_of_promises_has_the_crates_in_this_order():
    table = (TOP / "docs/PROMISES.md").read_text().partition("| crate | the main promise |\n")[2].partition("\n\n")[0]
    assert [*STANDS_ON] == re.findall(r"^\| \[`(\w+)`\]\(\.\./crates/\1/README\.md\)", table, re.M)


def test_no_file_of_the_repository_is_a_link():
    """The gate refuses one before it proves anything."""
    found = [pathlib.Path(folder, it) for folder, folders, names in os.walk(TOP) for it in (*folders, *names)]
    assert [] == [it for it in found if it.is_symlink() and not {".git", "out"} & {*it.parts}]
