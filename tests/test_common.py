"""What the programs in Python share (programs/common): files, public-key lines, times and lines of the audit trail."""
import contextlib
import json
import os
import random
import stat
import sys
import time

import pytest

from asking import body, key_blob
from running import PROGRAMS, loaded, new_key, run
from stations import part
from subject_keys import CERTIFICATES, KEYS, MORE, RSA, line_of, mpint

sys.path += [str(PROGRAMS / it) for it in ("common", "setup")]
from vethlumi_common import addresses, deadlines, files, ssh, subjects, trail

# ---- what comes before the serial of a certificate's body

@pytest.mark.parametrize("kind", KEYS)
def test_a_body_is_read_behind_a_key_of_any_type(kind):
    """By the station, for its audit trail, and by the set-up that looks for a user's certificates."""
    text = body(7, ca=key_blob(0x11), key_id="web/a", principals=("alice", "bob"), key=KEYS[kind],
                type_name=CERTIFICATES[kind].encode())
    assert 7 == subjects.at_serial(text).number(8)
    told = part("trail").fields_of(text)
    assert ("user", "web/a", ["alice", "bob"]) == tuple(told[it] for it in ("kind", "keyid", "principals"))
    principals_of = loaded(PROGRAMS / "setup/issued.py").principals_of
    assert ["alice", "bob"] == principals_of(text)
    with pytest.raises(Exception, match="a certificate of the office is truncated"):
        principals_of(text[:text.index(b"bob") + 2])


# ---- files


def test_a_file_is_replaced_once_it_was_checked(room):
    seen = []

    def check(new):
        seen.append((os.path.basename(new)[:5], open(new, "rb").read(), stat.S_IMODE(os.stat(new).st_mode)))
    (room / "file").write_bytes(b"old")
    files.put(room / "file", b"new", 0o640, prefix=".next", check=check)
    assert [(".next", b"new", 0o640)] == seen and b"new" == (room / "file").read_bytes()
    assert 0o640 == stat.S_IMODE((room / "file").stat().st_mode) and ["file"] == os.listdir(room)


def test_what_a_check_raises_leaves_everything_as_it_was(room):
    (room / "file").write_bytes(b"old")

    def check(new):
        raise ValueError("no")
    with pytest.raises(ValueError, match="no"):
        files.put("file", b"new", 0o600, check=check)
    assert (b"old", ["file"]) == ((room / "file").read_bytes(), os.listdir(room))


@pytest.mark.parametrize("put, why", [
    (lambda file: file.write_bytes(b"x" * 101), "it has more than 100 bytes"),
    (lambda file: file.mkdir(), "not a regular file"), (os.mkfifo, "not a regular file"),
    (lambda file: file.symlink_to("/etc/hostname"), "Too many levels of symbolic links"),
    (lambda file: None, "No such file or directory"),
], ids=["too long", "a folder", "a pipe", "a link", "nothing"])
def test_what_another_user_may_have_put_there_is_not_read(room, put, why):
    put(room / "file")
    with pytest.raises(OSError) as fault:
        files.bytes_of(room / "file", 100)
    assert why == fault.value.strerror


@pytest.mark.parametrize("length", [0, 99, 100])
def test_a_regular_file_is_read_to_its_limit(room, length):
    (room / "file").write_bytes(b"x" * length)
    assert b"x" * length == files.bytes_of(room / "file", 100)


# ---- public keys

@pytest.mark.parametrize("kind, strings", [*KEYS.items(), *MORE])
def test_the_line_of_a_subjects_key(kind, strings):
    line = line_of(kind, strings)
    assert line == subjects.subject_line(f"{line}\nanother line\n") == subjects.subject_line(f"{line}\r\n")


@pytest.mark.parametrize("bits, is_taken", [(1, False), (2047, False), (2048, True), (16384, True), (16385, False)])
def test_the_bits_of_an_rsa_key(bits, is_taken):
    line = line_of(RSA, [mpint(65537), mpint((1 << bits) - 1)])
    with contextlib.nullcontext() if is_taken else pytest.raises(
            ssh.BadFormat, match=f"^the RSA key has {bits} bits: an office takes 2048 to 16384$"):
        assert line == subjects.subject_line(line)


@pytest.mark.parametrize("kind", ["ed25519", "rsa", "ecdsa"])
def test_a_key_line_and_its_fingerprint_are_those_of_ssh_keygen(room, kind):
    run(["ssh-keygen", "-q", "-t", kind, "-N", "", "-C", "some comment", "-f", "key"], check=True)
    line = (room / "key.pub").read_text().rstrip("\n")
    due = run(["ssh-keygen", "-l", "-f", "key.pub"], check=True).stdout.decode().split()[1]
    assert due == ssh.fingerprint(ssh.blob_of(line)) == ssh.fingerprint(ssh.blob_of(line.removesuffix(" some comment")))


@pytest.mark.parametrize("change", [
    lambda it: it.replace("ssh-ed25519", "ssh-rsa", 1), lambda it: it.replace(" AAAA", " AAAB", 1), lambda it: f" {it}",
    lambda it: it.replace(" ", "  ", 1), lambda it: it.partition(" ")[2], lambda it: f"restrict {it}", lambda it: "",
    lambda it: f"{it.split()[0]} {it.split()[1]}=", lambda it: it.split()[0], lambda it: f"{it}\n",
], ids=range(10))
def test_what_is_no_key_line(room, change):
    """Whose type isn't the key's, whose base64 is another text of the same bytes, or with something before it."""
    new_key("key")
    line = (room / "key.pub").read_text().rstrip("\n")
    assert ssh.blob_of(line) and ssh.blob_of(change(line)) is None


# ---- times and addresses

def test_what_takes_too_long_is_ended():
    assert 7 == deadlines.at_most(60, lambda: 7)
    begun = time.monotonic()
    with pytest.raises(deadlines.Overlong, match="not within 0.2 seconds"):
        deadlines.at_most(0.2, lambda: time.sleep(60))
    assert time.monotonic() < begun + 30


@pytest.mark.parametrize("host, due", [("127.0.0.1", {"127.0.0.1"}), ("::1", {"::1"})])
def test_an_address_is_its_own(host, due):
    assert due == {it[4][0] for it in addresses.addresses(host, 22)}


def test_a_name_without_an_address():
    with pytest.raises(OSError, match="the name name.invalid has no address"):
        addresses.addresses("name.invalid", 22, 60)


# ---- lines of the audit trail

GOOD = {"at": "2026-12-01T07:00:00Z", "source": "front", "event": "message", "outcome": "accepted"}


@pytest.mark.parametrize("more", [
    {}, {"serial": 0}, {"serial": 2 ** 64 - 1}, {"principals": []}, {"principals": ["a"]}, {"repeated": False},
    {"other": None}, {"reason": "x" * 9000},
])
def test_which_lines_are_of_the_trail(more):
    assert GOOD | more == trail.record_of(json.dumps(GOOD | more))


@pytest.mark.parametrize("more", [
    {"at": "2026-12-01"}, {"at": 1}, {"at": "2026-12-01T07:00:00Z "}, {"source": None}, {"serial": -1},
    {"serial": "1"},
    {"serial": 2 ** 64}, {"serial": True}, {"serial": 1.0}, {"principals": "a"}, {"principals": [1]}, {"repeated": 1},
    {"keyid": ["a"]}, {"reason": "x" * (1 << 14)},
])
def test_which_are_not(more):
    assert trail.record_of(json.dumps(GOOD | more)) is None


@pytest.mark.parametrize("name", GOOD)
def test_a_line_without_one_of_its_fields_is_none(name):
    assert trail.record_of(json.dumps({it: value for it, value in GOOD.items() if it != name})) is None


def test_a_line_has_its_fields_in_their_order_and_no_others():
    line = trail.line_of("station", "signature", "signed", serial=0, keyid="web/\x1b\u202e",
                         principals=("a", "b" * 400), digest=None, reason="", repeated=False)
    assert line.isascii() and "\x1b" not in line and line.endswith("}\n")
    found = json.loads(line)
    assert ["at", "source", "event", "outcome", "keyid", "principals", "serial"] == [*found]
    assert (0, "web/\x1b\u202e", ["a", "b" * 300]) == (found["serial"], found["keyid"], found["principals"])
    with pytest.raises(ValueError, match="colour"):
        trail.line_of("station", "signature", "signed", colour="red")


def test_serials_are_remembered_as_runs():
    """In any order, compared with a set."""
    of_station = part("trail")
    for seed in range(50):
        chosen, runs, seen = random.Random(seed), of_station.Runs(), set()
        for number in (chosen.randrange(60) for _ in range(200)):
            assert (number not in seen) == runs.add(number), (seed, number)
            seen.add(number)
        found = {it for first, last in zip(runs.firsts, runs.lasts) for it in range(first, last + 1)}
        gaps = sum(it + 1 not in seen for it in seen)
        assert (seen, gaps) == (found, len(runs.firsts))


def test_no_more_runs_are_remembered_than_there_is_room_for(monkeypatch):
    of_station = part("trail")
    monkeypatch.setattr(of_station, "MOST_REMEMBERED", 2)
    runs = of_station.Runs()
    assert [True, True, None, True, False, True] == [runs.add(it) for it in (1, 5, 9, 2, 2, 4)]
