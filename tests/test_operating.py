"""Runs the commands of docs/OPERATING.md as they stand, from nothing to a login that sshd grants and then refuses, and
looks at what they print and leave.
"""
import dataclasses
import os
import pathlib
import subprocess

import pytest

from blocks import lines_of, printed_after
from running import TOP, fingerprint, free_port, run

pytestmark = [pytest.mark.slow, pytest.mark.front, pytest.mark.xdist_group("operating")]

PAGE = TOP / "docs/OPERATING.md"
PORTS = ("OFFICE_PORT", "SSHD_PORT", "FRONT_PORT")
# What was started is ended where a command fails.
BEFORE = "set -eu\ntrap 'kill ${serve:-} $(cat sshd.pid front.state/front.pid) 2>/dev/null || true' EXIT\n"

# What, and a line that the commands print.
LINES = [
    ("an office is made", "office ready 1 9223372036854775806"),
    ("a department is put", "department web"),
    ("a certificate is issued", "issued 1"),
    ("a guard is made for the CA", "guard ready 1 9223372036854775806"),
    ("it is signed", "signed 1"),
    ("a host certificate is issued", "issued 2"),
    ("it is signed", "signed 2"),
    ("sshd grants a login", "granted"),
    ("a serial is revoked", "revoked"),
    ("sshd refuses the login then", "refused"),
    ("the list's next version", "version 2"),
    ("another CA serves", "rollover 2"),
    ("it serves from the next serial on", "since 3"),
    ("the guard of the old CA signs up to the serial before", "retired 1 2"),
    ("the guard of the new one from there", "guard ready 3 9223372036854775806"),
    ("the copy is sound", "ok"),
    ("it has both certificates", "2"),
    ("its table ends with the version", "total 2 version 2"),
    ("a request through the front waits for its signature", "not signed yet"),
    ("the station signs it through the front", "signed 3"),
    ("the same command then writes the certificate", "laptop-cert.pub serial 3"),
    ("ssh-keygen reads it", '        Key ID: "web/laptop"'),
    ("the lists' guard has a file", "lists ready"),
    ("the station publishes the list", "published 2"),
    ("it is clear under the list that the server fetched", "laptop-cert.pub (web/laptop): ok"),
    ("and the metrics say which version that is", "office_list_version 2"),
    ("and that its statement is new", "office_list_fresh 1"),
    ("a certificate of the front that was taken back is refused",
     "front: the certificate is another authority's, has expired or was revoked"),
    ("the front gives the page for browsers", "<title>Vethlumi: SSH certificate office</title>"),
    ("the figures say that the office answers", "office_up 1"),
]

@dataclasses.dataclass
class Commands:
    """The folder where the page's commands ran, their status, the log, and what was printed behind each line."""
    folder: pathlib.Path
    status: int
    log: str
    printed: list

    def lines(self):
        return "".join(output for _, output in self.printed).splitlines()


@pytest.fixture(scope="module")
def commands(program, sshstation, tmp_path_factory):
    """Runs the page's commands by a verbose shell, in order."""
    room = tmp_path_factory.mktemp("operating")
    script = BEFORE + "".join(f"{line}\n" for line in lines_of(PAGE.read_text()))
    (room / "commands").write_text(script)
    for name in ("tools", "folder"):
        (room / name).mkdir()
    (room / "tools/sshoffice").symlink_to(program)
    (room / "tools/crates/sshstation/out").mkdir(parents=True)
    (room / "tools/crates/sshstation/out/sshstation").symlink_to(sshstation)
    for name in ("examples", "programs"):
        (room / "tools" / name).symlink_to(TOP / name)
    ports = {name: str(free_port()) for name in PORTS}
    with open(room / "log", "w") as log:
        how = {"stdout": log, "stderr": subprocess.STDOUT, "capture_output": False, "timeout": 570}
        done = run(["timeout", "550", "bash", "-v", "../commands"], cwd=room / "folder",
                   env=os.environ | ports | {"VETHLUMI": str(room / "tools")}, **how)
    text = (room / "log").read_text(errors="replace")
    return Commands(room / "folder", done.returncode, text, printed_after(script, text))


def test_the_commands_end_well(commands):
    assert 0 == commands.status, commands.log
    assert "" == (commands.folder / "serve.faults").read_text(), "no fault was met"


@pytest.mark.parametrize("line", [line for _, line in LINES], ids=[what for what, _ in LINES])
def test_a_command_prints_its_line(commands, line):
    assert line in commands.lines()


def test_the_fingerprint_of_the_ca_is_ssh_keygens(commands):
    assert f"ca {fingerprint(commands.folder / 'ca.pub')}" in commands.lines()


def test_one_login_is_granted_and_the_refusal_is_the_lists(commands):
    assert 1 == commands.lines().count("granted")
    assert "revoked" in (commands.folder / "sshd.log").read_text()
    assert 1 == sum("revoked by file" in line for line in commands.lines()), "the client refuses the host"
    assert 1 == sum("REVOKED" in line for line in commands.lines()), "ssh-keygen finds the certificate revoked"


def test_a_lost_ca_is_no_allowed_signer(commands):
    signers = (commands.folder / "allowed_signers").read_text().splitlines()
    assert [(commands.folder / "ca2.pub").read_text().split()[1]] == [line.split()[-1] for line in signers]
