"""Words that ask for help or for the version, words that are no job, and the examples in the help of each command.

The texts, in data/help.toml, are those that clap 4 writes for the same command line. The examples are run by a shell as
they stand, in a folder with the files that they name.
"""
import os
import re
import shutil
import subprocess

import pytest

from asking import CA, get
from running import EXAMPLES, ROWS, TOP, Served, free_port, rows, run, said

TEXTS = rows("help")
HELP = {words: it["text"] for it in TEXTS["help"] for words in it["words"]}
# What is said first of words that are no job. Behind it stands MORE.
MISTAKES = {it["words"]: it["text"] for it in TEXTS["mistakes"]}
MORE = "\n\nFor more information, try '--help'.\n"


@pytest.mark.rows
@pytest.mark.parametrize("words", HELP)
def test_help_goes_to_the_output(program, words):
    assert (0, HELP[words].encode(), b"") == said([program, *words.split()])


@pytest.mark.rows
@pytest.mark.parametrize("words", MISTAKES)
def test_a_mistake_is_explained(program, words):
    assert (2, b"", (MISTAKES[words] + MORE).encode()) == said([program, *words.split()])


# ---- examples

COMMANDS = ("", "init", "apply", "serve", "krl", "signers", "table", "check", "migrate", "selftest")


@pytest.fixture
def shell(program, room, monkeypatch):
    """Runs a line by a shell in a folder where `sshoffice` is the program: its status, and what it prints."""
    (room / "bin").mkdir()
    (room / "bin/sshoffice").symlink_to(program)
    monkeypatch.setenv("PATH", f"{room}/bin:{os.environ['PATH']}")
    (room / "ca.pub").write_text(f"{CA} office\n")
    shutil.copy(EXAMPLES / "first-issue.exchange", "first.exchange")

    def line(text):
        status, out, err = said(["bash", "-c", text])
        return status, (out + err).decode()

    return line


def examples(program, command):
    """The lines that the help of a command, or that of the program, shows as examples."""
    text = run([program, *command.split(), "--help"]).stdout.decode()
    return re.findall(r"^  (sshoffice .*)$", text.partition("Example:\n")[2], re.M)


@pytest.fixture
def example(program, shell):
    """Runs the example of a command: its status, and whether what it prints begins so."""
    def of(command, start):
        status, text = shell(examples(program, command)[0])
        return status, text[:len(start)] == start or text

    return of


@pytest.fixture
def founded(example, shell):
    """Runs the examples that make an office, and puts its department."""
    assert (0, True) == example("init", "office ready 1 1000000\n")
    assert 0 == shell(f"sshoffice apply --db office.db {ROWS}/the-department-of-the-trial-office.exchange")[0]
    assert (0, True) == example("apply", "answer ")


@pytest.mark.parametrize("command", COMMANDS)
def test_the_help_of_a_command_has_one_example(program, command):
    assert 1 == len(examples(program, command))


@pytest.mark.parametrize(("command", "start"), [("", "answer "), ("selftest", "selftest ok\n")])
def test_an_example_without_an_office(example, command, start):
    assert (0, True) == example(command, start)


@pytest.mark.parametrize(("command", "start"), [("krl", ""), ("signers", ""), ("table", " ")])
def test_an_example_of_an_office(founded, example, command, start):
    assert (0, True) == example(command, start)


def test_the_example_of_a_check(founded, example):
    assert [(0, True)] * 2 == [example("krl", ""), example("check", "clear\n")]


def test_the_example_of_a_migration(founded, example, shell):
    shell("sqlite3 office.db 'DROP TABLE ca' 'UPDATE office SET schema = 1'")
    assert (0, True) == example("migrate", "migrated 1 2\n")


def test_the_example_of_a_server(founded, example, program, programs):
    """It answers as many connections as it says, and ends with 0. Meanwhile the file is its own. Another program may
    have the example's port here, so it is run at one that is free."""
    line, = examples(program, "serve")
    assert 1 == line.count("--port 8022 ")
    port = free_port()
    line = line.replace("--port 8022 ", f"--port {port} ")
    count = int(re.search(r"--connections (\d+)", line)[1])
    server = programs.begin(line.split(), stdout=subprocess.PIPE, stderr=subprocess.PIPE)
    assert b"listening %d\n" % port == server.stdout.readline()
    for command in ("krl", "signers", "table"):
        assert (1, True) == example(command, "sshoffice: Device\n"), command
    served = Served(None, server, port)
    assert [200] * count == [served.ask(get("/v1/krl")).status for _ in range(count)]
    assert (b"", b"", 0) == (*server.communicate(timeout=60), server.returncode)


# ---- numbers

# A number in a help text, and where docs/FORMATS.md has it: the program, the command, and a pattern for either text.
STATED = [
    ("program", "init", r"The last serial, at most (\d+)", r"first <= last <= (\d+) "),
    ("program", "serve", r"How many connections to serve, 1 to (\d+)", r"serves 1 to (\d+) connections"),
    ("program", "serve", r"The file of nonces, (\d+) bytes per connection", r"nonces are (\d+) bytes of the file"),
    ("program", "check", r"The certificate's serial, 1 to (\d+)", r"The serial is 1 to (\d+) "),
    ("sshstation", "init", r"The last serial, at most (\d+)", r"first <= last <= (\d+); of `retire`"),
    ("sshstation", "judge", r"\[default: (\d+)\]", r"`--ahead` is 0 to \d+, and (\d+) by default"),
]

# The words of a command with a number that it takes up to a limit, and what it says of the next number.
TAKEN = [
    ("check --ca none list {} web/alice", 18446744073709551615, 2),
    ("serve --db none --port 0 --nonces /dev/null --connections {}", 1000000, 2),
    ("serve --db none --nonces /dev/null --connections 1 --port {}", 65535, 2),
    ("init --db none/office.db --ca ca.pub --root root --station station --first 1 --last {}", 9223372036854775806, 1),
]


@pytest.mark.parametrize(("name", "command", "helped", "written"), STATED)
def test_help_and_formats_state_the_same_number(program, sshstation, name, command, helped, written):
    text = run([{"program": program, "sshstation": sshstation}[name], command, "--help"]).stdout.decode()
    numbers = re.findall(helped, text), re.findall(written, (TOP / "docs/FORMATS.md").read_text())
    assert ([numbers[0][0]], [numbers[1][0]]) == numbers
    assert numbers[0] == numbers[1]


@pytest.mark.parametrize(("words", "most", "status"), TAKEN)
def test_a_number_that_help_states_is_the_last_that_is_taken(program, room, words, most, status):
    """What isn't there then is another fault. The number after it is a mistake, or of `init` the fault `BadSerials`."""
    (room / "ca.pub").write_text(f"{CA} office\n")
    bad = "sshoffice: BadSerials\n" if status == 1 else f"invalid value '{most + 1}'"
    (taken, _, first), (refused, _, after) = (said([program, *words.format(it).split()]) for it in (most, most + 1))
    assert (1, False) == (taken, bad in first.decode()), first
    assert (status, True) == (refused, bad in after.decode()), after


def test_the_last_serial_before_a_rollover_is_one_less(sshstation):
    text = run([sshstation, "retire", "--help"]).stdout.decode()
    assert "After a rollover, the last serial is the new CA's first serial minus one." in text


def test_the_version_names_a_toolchain_that_readme_names(program):
    """Another toolchain on this machine is no failure."""
    status, out, err = said([program, "--version"])
    version = re.fullmatch(rb"sshoffice \d+\.\d+\.\d+ \((.*)\)\n", out)
    assert (0, b"", True) == (status, err, version is not None), out
    assert version[1].decode() in re.findall(r"rattle-kit-\w+", (TOP / "README.md").read_text())
    assert (0, out, b"") == said([program, "-V"])
