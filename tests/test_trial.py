"""The program `trial`, which does `./sshoffice apply FILE` until the programs are built.

It prints what `sshoffice apply FILE` prints: the worked rows of the trial office, and faults by their names.
"""
import os
import subprocess

import pytest

from running import EXAMPLES, ROWS, TOP, run

NAMES = sorted(path.stem for path in ROWS.glob("*.exchange") if not path.with_suffix(".office").exists())
# Two records.
RECORDS = (EXAMPLES / "first-issue.exchange").read_bytes()

# What a file holds, and the fault that is told of it. A fault of a file prints nothing else.
FAULTS = [
    (b"exchange\n", "BadExchange 1"),
    (RECORDS + b"\n", "BadExchange 3"),
    (RECORDS[:-1], "BadExchange 2"),
    (b"exchange 1 " + b"3" * 64 + b" 0\n", None),
    ((b"exchange 1 " + b"3" * 64 + b" 0\n") * 10_001, "BadExchange 10001"),
    (b"", None),
]


def said(done):
    return done.returncode, done.stdout, done.stderr


@pytest.mark.rows
@pytest.mark.parametrize("name", NAMES)
def test_a_row_is_printed(name, trial):
    done = run([trial, ROWS / f"{name}.exchange"])
    assert (ROWS / f"{name}.expected").read_bytes() == done.stdout + done.stderr


@pytest.mark.parametrize("held, fault", FAULTS, ids=range(len(FAULTS)))
def test_a_file_is_judged_as_by_the_office(held, fault, trial, program, room):
    (room / "file").write_bytes(held)
    came = said(run([trial, "file"]))
    assert came == said(run([program, "apply", "file"]))
    assert (int(fault is not None), f"sshoffice: {fault}\n".encode() if fault else b"") == (came[0], came[2])


@pytest.mark.parametrize("name", ["nothing", ".", ""])
def test_what_cannot_be_read_is_a_fault_of_the_file(name, trial, program, room):
    assert (1, b"", b"sshoffice: File\n") == said(run([trial, name])) == said(run([program, "apply", name]))


def test_an_output_that_is_full_is_a_fault(trial):
    with open("/dev/full", "wb") as full:
        done = subprocess.run([trial, EXAMPLES / "first-issue.exchange"], stdout=full, stderr=subprocess.PIPE)
    assert (1, b"sshoffice: Write\n") == (done.returncode, done.stderr)


@pytest.mark.parametrize("words", [[], ["a", "b"]])
def test_other_words_are_a_mistake(words, trial, room):
    assert (2, b"", b"usage: trial FILE\n") == said(run([trial, *words]))


# ---- which program does a command before the first build

# A stand-in for `rt`: it says in which crate it was asked for what, and what the copied file holds.
RT = """#!/bin/sh
echo "${PWD##*/}: $*" | sed 's/--data [^ ]*=/&/; s,=/[^ ]*/,=,g'
for word; do case "$word" in file=*) cat "${word#file=}" ;; esac; done
echo 'run=ended status=3 proved=no' >&2
exit 3
"""


@pytest.fixture
def unbuilt(room):
    """The script `sshoffice` in a folder without a built program, with stand-ins for `rt` and `build`."""
    for name, text in [("bin/rt", RT), ("build", "#!/bin/sh\necho building >&2\nexit 4\n")]:
        path = room / name
        path.parent.mkdir(exist_ok=True)
        path.write_text(text)
        path.chmod(0o755)
    (room / "sshoffice").write_bytes((TOP / "sshoffice").read_bytes())
    (room / "sshoffice").chmod(0o755)
    for crate in ("sshoffice", "trial"):
        (room / "crates" / crate).mkdir(parents=True)
    (room / "some").write_text("held\n")
    return lambda *words: run(["./sshoffice", *words], env=os.environ | {"PATH": f"{room}/bin:{os.environ['PATH']}"})


@pytest.mark.parametrize("words, done", [
    ("apply some", b"trial: try --steps 1 --data file=file -- file\nheld\n"),
    ("apply nothing", b"trial: try --steps 1 -- file\n"),
    ("apply --help", b"sshoffice: try --steps 1 -- apply --help\n"),
    ("apply some more", b"sshoffice: try --steps 1 --data file=file -- apply file more\nheld\n"),
    ("selftest", b"sshoffice: try --steps 1 -- selftest\n"),
])
def test_a_command_that_keeps_no_office_is_tried(words, done, unbuilt):
    came = unbuilt(*words.split())
    assert (3, done) == (came.returncode, came.stdout)


@pytest.mark.parametrize("name", ["a b", "new\nline", "*", "file=x", '"$HOME"', "apply", "check", "-", "-odd", "--db"])
def test_a_file_of_any_name_is_tried(name, unbuilt, room):
    """The help says that one that begins with `-` goes after `--`."""
    (room / name).write_text("its own\n")
    came = unbuilt("apply", *["--"] * (name[1:] != "" and name.startswith("-")), name)
    assert (3, b"its own") == (came.returncode, came.stdout.splitlines()[-1])


def test_a_list_of_any_name_is_tried(unbuilt, room):
    for name in ("apply", "check"):
        (room / name).write_text(f"{name}\n")
    done = b"sshoffice: try --steps 1 --data ca=ca --data file=file -- check --ca ca file 1 x\ncheck\n"
    assert done == unbuilt(*"check --ca apply check 1 x".split()).stdout


def test_a_long_file_is_tried_whole(unbuilt, room):
    """The longest record of a file is of more than 64 KiB."""
    held = b"".join(b"%d\n" % number for number in range(100_000))
    (room / "long").write_bytes(held)
    assert unbuilt("apply", "long").stdout.endswith(b"-- file\n" + held)


@pytest.mark.parametrize("words", ["apply --db office.db some", "serve"])
def test_a_command_that_keeps_an_office_has_it_built(words, unbuilt):
    came = unbuilt(*words.split())
    assert (4, b"", b"building\n") == said(came)
