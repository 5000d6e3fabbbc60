"""What the program says of key lines: a fault by its name, or the fingerprint that ssh-keygen shows.

A key line is given to `check` as that of the CA. The lines of ssh-keygen were made with OpenSSH 9.2.
"""
import pytest

from running import init, said
from test_krl import RANGE, checked

pytestmark = pytest.mark.rows

# The keys of 32 bytes 11 and 12, in base64.
ONES = b"AAAAC3NzaC1lZDI1NTE5AAAAIBER" + b"ERER" * 10
TWOS = b"AAAAC3NzaC1lZDI1NTE5AAAAIBIS" + b"EhIS" * 10

# `ssh-keygen -q -t ed25519 -N '' -C COMMENT -f FILE`, and what it shows for that by `ssh-keygen -l -f FILE.pub`.
MADE = [
    (b"AAAAC3NzaC1lZDI1NTE5AAAAIFCUBDqJYqsh4nFgtvBwmHL/EYo6aMjIRhfRGUG+rlEv alice@example.org",
     b"SHA256:9OQ7zAiiPdDDLWQbB7zuNzjS1y5dnjQ53ag7cW2pgL4"),
    (b"AAAAC3NzaC1lZDI1NTE5AAAAINyHc8+h+lSIX6Vv+he4DzTbD35fSSquAjD85P8cEDod ",
     b"SHA256:FuadZ64EHwc7215R6sKpJWItq13mdwl4pxdr2SnfWUs"),
    (b"AAAAC3NzaC1lZDI1NTE5AAAAIGFKKggWJvn82ZEejB6LLaoKgUsPDBqsU1uogPfvT7lM Zo\xc3\xab's key, 2nd",
     b"SHA256:cviSwZQEONbje9gjo7GpvRWVSwNUDueE3+K/bHZ3sqA"),
    (ONES, b"SHA256:SQfC+vTbLURn9cTkVxIS8fGQ3FKNAJWeB0o139+gV4M"),
    (b"AAAAC3NzaC1lZDI1NTE5AAAAICIi" + b"IiIi" * 10, b"SHA256:DZyZLHYkg98LXeBMrWPb1yMuLZRau2MJhzjRAZwPAHU"),
]

# A line, and its fault, or the verdict of a list that revokes the serial 6 under the key of 32 bytes 11.
LINES = [
    (b"", "WrongType"),
    (b"ssh-rsa AAAA", "WrongType"),
    (b"ssh-ed25519", "WrongType"),
    (b"ssh-ed25519\tAAAA", "WrongType"),
    (b"ssh-ed25519 ", "BadBase64"),
    (b"ssh-ed25519  AAAA", "BadBase64"),
    *[(b"ssh-ed25519 " + base64, fault) for base64, fault in [
        (ONES[:-1], "BadBase64"),
        (ONES[:-1] + b" \x01", "BadBase64"),
        (ONES[:-4], "BadBase64"),
        (ONES + b"A", "BadBase64"),
        (ONES + b"\tx", "BadBase64"),
        (ONES[:-1] + b"=", "BadBase64"),
        (b"B" + ONES[1:], "BadBlob"),
        (b"B" + ONES[1:] + b" \x01", "BadBlob"),
        (ONES + b" \x01", "BadComment"),
        (ONES + b" x\x7f", "BadComment"),
        (ONES + b" x\ny", "BadComment"),
        (ONES + b" " + b"x" * 1025, "BadComment"),
        (ONES, "revoked"),
        (ONES + b" ", "revoked"),
        (ONES + b" \t ~\x80\xff", "revoked"),
        (ONES + b" " + b"x" * 1024, "revoked"),
        (TWOS, "clear"),
        *[(line, "clear") for line, _ in MADE[:3]],
    ]],
]


@pytest.mark.parametrize(("line", "answer"), LINES, ids=[f"{line[:30]!r}.. of {len(line)} bytes" for line, _ in LINES])
def test_a_key_line_is_read_or_has_its_fault(program, room, line, answer):
    assert answer == checked(program, line, RANGE, 6, "x")


@pytest.mark.parametrize(("base64", "shown"), MADE, ids=[shown.decode() for _, shown in MADE])
def test_a_fingerprint_is_ssh_keygens(program, room, base64, shown):
    (room / "ca.pub").write_bytes(b"ssh-ed25519 " + base64 + b"\n")
    wanted = b"office ready 1 2\nca " + shown + b"\n"
    assert (0, wanted, b"") == said([program, *init("office.db", "ca.pub", last=2)])
