"""fetch-ca-keys and trust-cas: a server trusts the CAs that its administrator named, whatever the front gives it, and
whatever the user does who fetches them."""
import base64
import concurrent.futures
import contextlib
import os
import pathlib
import shutil
import signal
import socket
import subprocess
import time

import pytest

from asking import key_blob, string
from fetching import Web, around, folder_of_nobody, response, script, shown, small_disk
from running import PROGRAMS, free_port, run


def key(number):
    """A CA's public-key line; nobody has the private half."""
    return f"ssh-ed25519 {base64.b64encode(key_blob(number)).decode()}"


def fingerprint(line):
    """What ssh-keygen calls a key."""
    return run(["ssh-keygen", "-l", "-f", "-"], input=line.encode(), stdin=None, check=True).stdout.decode().split()[1]


A, B, FALSE = key(0x41), key(0x42), key(0x66)
RSA = "ssh-rsa " + base64.b64encode(string(b"ssh-rsa") + string(b"\1\0\1") + string(b"\0" + 256 * b"\xc1")).decode()


@pytest.fixture(scope="module")
def names():
    """The fingerprints of the keys."""
    return {it: fingerprint(it) for it in (A, B, FALSE, RSA)}


@pytest.fixture
def web(room):
    with Web() as made:
        yield made


@pytest.fixture
def fetch(web, names, room):
    """Runs fetch-ca-keys for the file `keys`, with these keys named, before a front that gives this body."""
    def run_script(body, *named, file="keys", url=None, **how):
        web.answer = body if body[:4] == b"HTTP" else response(body)
        words = [word for it in named for word in ("--fingerprint", names[it])]
        status, out, errors = script("fetch-ca-keys", *words, url or web.url, file, **how)
        said = [it for it in errors if not it.startswith("curl: ")]
        assert out == ""
        assert [it for it in said if not it.startswith("fetch-ca-keys: ")] == []
        return status, [it.removeprefix("fetch-ca-keys: ") for it in said]
    return run_script


def text(*lines):
    return "".join(f"{it}\n" for it in lines)


def body(*lines):
    return text(*lines).encode()


def of(path="keys"):
    with open(path, encoding="ascii", newline="") as file:
        return file.read()


def test_keys_that_are_named_are_taken(fetch, web, room):
    assert (0, []) == fetch(body(A + " the first CA", B), A, B)
    assert text(A, B) == of()
    assert 0o644 == os.stat("keys").st_mode & 0o777
    assert ["keys"] == shown()
    assert b"GET /ca-keys HTTP/1.1" == web.requests[0].split(b"\r\n")[0]


def test_the_mode_does_not_depend_on_the_umask(fetch):
    assert (0, []) == fetch(body(A), A, umask=0o077)
    assert 0o644 == os.stat("keys").st_mode & 0o777


def test_a_key_that_is_not_named_is_left_out_and_reported(fetch, names):
    left_out = f"{names[FALSE]} came and isn't named; it was left out"
    assert (1, [left_out]) == fetch(body(FALSE, A, FALSE), A)
    assert text(A) == of()


def test_a_false_key_alone_makes_no_file(fetch, names):
    left_out = f"{names[FALSE]} came and isn't named; it was left out"
    assert (1, [left_out, "no key that is named came or is in place; keys is as it was"]) == fetch(body(FALSE), A)
    assert [] == shown()


def test_a_false_key_does_not_come_beside_what_is_in_place(fetch, room):
    (room / "keys").write_text(text(A))
    assert 1 == fetch(body(FALSE), A)[0]
    assert text(A) == of()


def test_a_named_key_that_is_not_offered_stays(fetch, room):
    (room / "keys").write_text(text(A + " the first CA"))
    assert (0, []) == fetch(body(B), A, B)
    assert text(A + " the first CA", B) == of()
    assert (0, []) == fetch(body(B), A, B)
    assert text(A + " the first CA", B) == of()


def test_a_named_key_that_is_nowhere_is_reported(fetch, names):
    assert (1, [f"{names[B]} is named, and neither came nor is in place"]) == fetch(body(A), A, B)
    assert text(A) == of()


def test_a_key_that_is_not_named_any_more_is_taken_out(fetch, names, room):
    (room / "keys").write_text(text(A, B))
    assert (0, [f"{names[A]} isn't named, and is taken out of keys"]) == fetch(body(B), B)
    assert text(B) == of()


def test_a_key_is_taken_out_also_if_the_front_is_away(fetch, names, room):
    (room / "keys").write_text(text(A, B))
    url = f"http://127.0.0.1:{free_port()}"
    status, errors = fetch(b"", B, url=url)
    assert (1, [f"{names[A]} isn't named, and is taken out of keys", f"no keys came from {url}"]) \
        == (status, errors)
    assert text(B) == of()


def test_a_front_does_not_say_how_long_it_is_waited_for(fetch, room):
    """By Retry-After it would hold the lock for years."""
    started = time.monotonic()
    status, errors = fetch(response(b"", "503 Busy\r\nretry-after: 100"), A)
    assert status != 0 and any("no keys came from" in it for it in errors)
    assert time.monotonic() - started < 60


def test_a_front_that_is_being_restarted_is_asked_again(fetch, room):
    port = free_port()
    with concurrent.futures.ThreadPoolExecutor() as pool:
        fetched = pool.submit(fetch, b"", A, url=f"http://127.0.0.1:{port}")
        time.sleep(2)
        with Web(response(body(A)), port=port):
            assert (0, []) == fetched.result()
    assert text(A) == of()


def test_the_file_is_never_emptied(fetch, names, room):
    (room / "keys").write_text(text(A))
    status, errors = fetch(body(A), B)
    assert (1, "no key that is named came or is in place; keys is as it was") == (status, errors[-1])
    assert text(A) == of()


def test_a_key_of_another_kind_in_place_stays_if_it_is_named(fetch, room):
    (room / "keys").write_text(text("# our CAs", RSA + " of before", "nonsense"))
    assert (0, []) == fetch(body(A), A, RSA)
    assert text(RSA + " of before", A) == of()


# What comes of the front in place of the line of A, where A alone is named. None of it is that line.
BLOB = A.split()[1]
TRICKS = [
    ("an option", f'command="sh" {A}'),
    ("a mark", f"cert-authority {A}"),
    ("a mark of known_hosts", f"@cert-authority * {A}"),
    ("a space before", f" {A}"),
    ("no type", BLOB),
    ("another type", f"ssh-rsa {BLOB}"),
    ("a certificate's type", f"ssh-ed25519-cert-v01@openssh.com {BLOB}"),
    ("two spaces", A.replace(" ", "  ")),
    ("a tab", A.replace(" ", "\t")),
    ("capitals", A.replace("ssh", "SSH")),
    ("a part of the key", A[:-1]),
    ("more than the key", A + "AAAA"),
    ("another length of the key", f"ssh-ed25519 {base64.b64encode(key_blob(0x41) + bytes(3)).decode()}"),
    ("a key of 31 bytes", "ssh-ed25519 " + base64.b64encode(string(b"ssh-ed25519") + string(31 * b"A")).decode()),
    ("a letter that is none of base64", A[:-1] + "*"),
    ("a carriage return inside", f"{A}\r{FALSE}"),
    ("a form feed behind the key", f"{A}\f{FALSE}"),
    ("a letter of the shell", "ssh-ed25519 $(touch taken)"),
    ("another page", "<html>sign in to the network</html>"),
    ("bytes", "\1\2\3é"),
    ("a fingerprint", "SHA256:" + 43 * "A"),
]


@pytest.mark.parametrize("line", [it[1] for it in TRICKS], ids=[it[0] for it in TRICKS])
def test_a_line_of_another_form_is_left_out(fetch, room, line):
    (room / "keys").write_text(text(B))
    status, errors = fetch(line.encode() + b"\n" + body(B), A, B)
    assert 1 == status
    assert "lines that aren't Ed25519 public keys were ignored: 1" in errors
    assert text(B) == of()
    assert ["keys"] == shown()


def test_a_key_of_another_kind_that_comes_is_left_out(fetch):
    assert 1 == fetch(body(RSA, A), RSA, A)[0]
    assert text(A) == of()


# A comment of A's line, or what stands around it: the line of A alone comes of each.
COMMENTS = [
    ("another key", f"{A} {FALSE}"),
    ("the name of the named key", f"{A} {fingerprint(A)}"),
    ("options", f'{A} cert-authority command="sh"'),
    ("letters of the shell", f"{A} $(touch taken) `touch taken` ; touch taken"),
    ("an escape", f"{A} \x1b]0;taken\x07 \\n{FALSE}"),
    ("a letter beyond ASCII", f"{A} é"),
    ("a long one", f"{A} {'a' * 9000}"),
    ("a carriage return", f"{A}\r"),
    ("lines without keys", f"# {FALSE}\n\n \n{A}\n#{FALSE}"),
]


@pytest.mark.parametrize("lines", [it[1] for it in COMMENTS], ids=[it[0] for it in COMMENTS])
def test_no_comment_is_taken(fetch, lines):
    assert (0, []) == fetch(f"{lines}\n".encode(), A)
    assert text(A) == of()
    assert ["keys"] == shown()


def test_a_false_key_with_a_named_fingerprint_in_its_comment_is_left_out(fetch, names):
    assert 1 == fetch(body(f"{FALSE} {names[A]}", A), A)[0]
    assert text(A) == of()


def test_a_last_line_without_an_end(fetch):
    assert (0, []) == fetch(A.encode() + b"\r\n" + B.encode(), A, B)
    assert text(A, B) == of()


FAILURES = [
    ("an empty body", response(b""), "no keys came from {url}"),
    ("empty lines", response(b"\n\n# nothing\n"), "no keys came from {url}"),
    ("no such path", response(body(A), "404 Not Found"), "no keys came from {url}"),
    ("an error", response(body(A), "502 Bad Gateway"), "no keys came from {url}"),
    ("another place", response(b"", "302 Found\r\nlocation: /other"), "no keys came from {url}"),
    ("half of what was announced", response(body(B), length=700), "no keys came from {url}"),
    ("a long body", response(body(B) * 300), "the answer from {url} is longer than 16384 bytes"),
    ("a long line", response(b"ssh-ed25519 " + 20000 * b"A"), "the answer from {url} is longer than 16384 bytes"),
    ("no HTTP", b"HTTP/1.1", "no keys came from {url}"),
]


@pytest.mark.parametrize("answer, why", [it[1:] for it in FAILURES], ids=[it[0] for it in FAILURES])
def test_if_no_keys_come_those_in_place_stay(fetch, web, room, answer, why):
    (room / "keys").write_text(text(A))
    os.utime("keys", (1000, 1000))
    status, errors = fetch(answer, A, B)
    assert (1, why.format(url=web.url)) == (status, errors[0])
    assert text(A) == of()
    assert 1000 == os.stat("keys").st_mtime
    assert ["keys"] == shown()


def test_an_endless_body_ends(fetch, web, room):
    (room / "keys").write_text(text(A))
    web.endless = body(B) * 100
    status, errors = fetch(response(b"", length=""), A, B)
    assert (1, f"the answer from {web.url} is longer than 16384 bytes") == (status, errors[0])
    assert text(A) == of()


# ---- the file

def test_a_folder_in_place_of_the_file(fetch, room):
    (room / "keys").mkdir()
    assert (1, ["keys isn't a regular file; keys is as it was"]) == fetch(body(A), A)
    assert [] == os.listdir("keys")


def test_a_link_in_place_of_the_file_is_replaced_and_not_followed(fetch, room):
    (room / "other").write_text("other")
    (room / "keys").symlink_to("other")
    assert (0, []) == fetch(body(A), A)
    assert not (room / "keys").is_symlink()
    assert (text(A), "other") == (of(), of("other"))


def test_no_link_that_lies_beside_the_file_is_followed(fetch, room):
    """One that is put in the place of what curl has written."""
    (room / "victim").write_text("victim\n")
    (room / "victim").chmod(0o600)
    env = around(room, "curl", after='for it in keys.new.*; do ln -sf victim "$it"; done')
    (room / "keys").write_text(text(A))
    assert 1 == fetch(body(A, B), A, B, env=env)[0]
    assert ("victim\n", 0o600) == (of("victim"), (room / "victim").stat().st_mode & 0o777)
    assert (text(A), False) == (of(), (room / "keys").is_symlink())


@pytest.mark.root
def test_root_runs_as_the_user_whose_folder_it_is(web, names, room):
    """Also if that user can't read the script."""
    web.answer = response(body(A))
    room.chmod(0o700)
    shutil.copy(PROGRAMS / "server/fetch-ca-keys", room / "script")
    with folder_of_nobody() as folder:
        done = run([room / "script", "--fingerprint", names[A], web.url, f"{folder}/keys"], cwd="/")
        assert (0, b"") == (done.returncode, done.stderr)
        assert text(A) == of(f"{folder}/keys")
        assert {"nobody"} == {pathlib.Path(folder, it).owner() for it in ("keys", ".keys.lock")}


def test_a_link_to_a_folder_or_to_nothing(fetch, room):
    (room / "folder").mkdir()
    (room / "keys").symlink_to("folder")
    assert (1, ["keys isn't a regular file; keys is as it was"]) == fetch(body(A), A)
    (room / "keys").unlink()
    (room / "keys").symlink_to("nothing")
    assert (0, []) == fetch(body(A), A)
    assert text(A) == of()


@pytest.mark.parametrize("name", ["with space", "two\nlines", "-o", "$HOME", "a[1]*{b}", "x" * 240])
def test_the_file_may_have_any_name(fetch, room, name):
    assert (0, []) == fetch(body(A), A, file=name)
    assert text(A) == of(room / name)
    assert [name] == shown()


def test_a_folder_that_is_not_there(fetch, room):
    status, errors = fetch(body(A), A, file="none/keys")
    assert (1, "can't lock none/.keys.lock; none/keys is as it was") == (status, errors[-1])


@pytest.mark.root
def test_a_full_disk_loses_nothing(fetch, room):
    with small_disk(room / "disk") as fill:
        (room / "disk/keys").write_text(text(A))
        results = []
        for left in (0, 1, 2):
            fill(left)
            status, errors = fetch(body(A + " " + "a" * 6000, B), A, B, file="disk/keys")
            results.append(status)
            assert of("disk/keys") == (text(A) if status else text(A, B))
            assert not status or "disk may be full" in "".join(errors)
            assert {"filling", "keys"} == {*shown("disk")}
        assert [1, 0] == [results[0], results[-1]]


def test_a_link_in_place_of_the_lock_is_replaced_and_not_followed(fetch, room):
    (room / ".keys.lock").symlink_to(room / "elsewhere")
    assert (0, []) == fetch(body(A), A)
    assert not (room / "elsewhere").exists()
    assert not (room / ".keys.lock").is_symlink()


def test_many_at_once(fetch, web, names, room):
    (room / "keys").write_text(text(A))
    web.answer = response(body(A, B))
    words = ["fetch-ca-keys", "--fingerprint", names[A], "--fingerprint", names[B], web.url, "keys"]
    with concurrent.futures.ThreadPoolExecutor(8) as threads:
        assert [(0, "", [])] * 8 == list(threads.map(lambda _: script(*words), range(8)))
    assert text(A, B) == of()
    assert ["keys"] == shown()


@pytest.mark.once
def test_a_kill_at_any_moment_leaves_the_old_or_the_new(web, names, room):
    web.answer = response(body(A, B))
    words = [PROGRAMS / "server/fetch-ca-keys", "--fingerprint", names[A], "--fingerprint", names[B], web.url, "keys"]
    for number in range(12):
        (room / "keys").write_text(text(A))
        process = subprocess.Popen(words, stdout=subprocess.DEVNULL, stderr=subprocess.DEVNULL, start_new_session=True)
        time.sleep(number / 40)
        with contextlib.suppress(ProcessLookupError):
            os.killpg(process.pid, signal.SIGKILL)
        process.wait()
        assert of() in (text(A), text(A, B))
    assert (0, "", []) == script(*["fetch-ca-keys", *words[1:]])
    assert ["keys"] == shown()


# ---- what is named

@pytest.mark.parametrize("end", ["\r\n", "\n", ""], ids=["of another system", "a line feed", "none"])
def test_fingerprints_in_a_file(web, names, room, end):
    """As ssh-keygen prints them, or alone, with comments and ends of other systems. An editor may leave the last line
    without an end."""
    printed = run(["ssh-keygen", "-l", "-f", "-"], input=f"{A} the first CA\n".encode(), stdin=None).stdout.decode()
    (room / "named").write_text(f"# our CAs\n\n{printed}{names[B]} the second{end}")
    web.answer = response(body(A, B))
    assert (0, "", []) == script("fetch-ca-keys", "--named", "named", web.url, "keys")
    assert text(A, B) == of()


BAD_NAMES = [
    ("no fingerprint is named", []),
    ("no fingerprint: SHA256:short", ["--fingerprint", "SHA256:short"]),
    ("no fingerprint: MD5:00", ["--fingerprint", "MD5:00"]),
    ("can't read none", ["--named", "none"]),
    (f"named has a line without a fingerprint: {A}", ["--named", "named"]),
]


@pytest.mark.parametrize("why, words", BAD_NAMES, ids=[" ".join(it[1]) for it in BAD_NAMES])
def test_bad_names_are_bad_words(web, room, why, words):
    (room / "named").write_text(text(A))
    (room / "keys").write_text(text(A))
    assert (2, "", [f"fetch-ca-keys: {why}"]) == script("fetch-ca-keys", *words, web.url, "keys")
    assert [] == web.requests


@pytest.mark.parametrize("words", [[], ["--cacert"], ["--no-such-word", "x"], ["url"], ["url", "keys", "x"]], ids=str)
def test_bad_words(words, names):
    status, _, errors = script("fetch-ca-keys", *words)
    assert (2, "fetch-ca-keys [--cacert FILE]") == (status, errors[0][:29])


def test_the_help():
    status, out, _ = script("fetch-ca-keys", "--help")
    assert (0, True) == (status, out.startswith("fetch-ca-keys ["))


# ---- through the front

def test_the_keys_of_the_front(front, names, room):
    line = front.office.ca.read_text().strip()
    words = ["--cacert", front.authority / "ca.crt", "--fingerprint", fingerprint(line), front.url, room / "keys"]
    status, _, errors = script("fetch-ca-keys", *words)
    assert (1, f"fetch-ca-keys: no key that is named came or is in place; {room}/keys is as it was") \
        == (status, errors[-1])
    (front.conf / "ca-keys").write_text(f"{line} our CA\n")
    assert (0, "", []) == script("fetch-ca-keys", *words)
    assert " ".join(line.split()[:2]) + "\n" == of(room / "keys")
    # A front that isn't the one whose authority was given.
    run([PROGRAMS / "front/authority", "new", "other", "localhost"], check=True)
    status, _, errors = script("fetch-ca-keys", "--cacert", "other/ca.crt", *words[2:])
    assert (1, f"fetch-ca-keys: no keys came from {front.url}") == (status, errors[-1])


def test_sshd_reads_the_file(fetch, room):
    """sshd reads only lines that begin with a type and a key: ssh-keygen reads each of the file as such a line."""
    assert (0, []) == fetch(body(A, B), A, B)
    read = run(["ssh-keygen", "-l", "-f", "keys"], check=True).stdout.decode().splitlines()
    assert [fingerprint(A), fingerprint(B)] == [it.split()[1] for it in read]


# ---- what root makes of it

@pytest.fixture
def trust(names, room):
    """Runs trust-cas for the file `trusted`, with these keys named, where this was fetched."""
    def run_script(fetched, *named):
        (room / "named").write_text("".join(f"{names[it]}\n" for it in named))
        if fetched is not None:
            (room / "fetched").write_bytes(fetched)
        status, out, errors = script("trust-cas", "--named", "named", "fetched", "trusted", timeout=60)
        assert ("", []) == (out, [it for it in errors if not it.startswith("trust-cas: ")])
        return status, [it.removeprefix("trust-cas: ") for it in errors]
    return run_script


def test_what_is_named_is_copied(trust, room):
    """The type and the key alone, in the order in which root names them."""
    assert (0, []) == trust(body(f"{B} a comment", "", "# another", A), A, B)
    assert text(A, B) == of("trusted")
    assert (0o644, os.getuid()) == (os.stat("trusted").st_mode & 0o777, os.stat("trusted").st_uid)
    before = os.stat("trusted").st_ino
    assert (0, []) == trust(body(A, B), A, B) and before == os.stat("trusted").st_ino
    os.chmod("trusted", 0o666)
    assert (0, []) == trust(body(A, B), A, B) and 0o644 == os.stat("trusted").st_mode & 0o777


def test_a_key_of_another_kind_is_copied_if_root_names_it(trust):
    assert (0, []) == trust(body(RSA), RSA)
    assert text(RSA) == of("trusted")


@pytest.mark.parametrize("there", [None, text(A), text(A, FALSE)], ids=["nothing", "a key", "a false key too"])
def test_what_the_fetching_user_adds_is_left_out(trust, names, room, there):
    """Whoever takes that user over becomes no CA, and so doesn't become root."""
    if there:
        (room / "trusted").write_text(there)
    due = [f"{names[FALSE]} is in trusted and isn't named; it was left out"] * (there == text(A, FALSE))
    assert (1, [*due, f"{names[FALSE]} is in fetched and isn't named; it was left out"]) == trust(body(FALSE, A), A)
    assert text(A) == of("trusted")


def put_socket(path):
    with socket.socket(socket.AF_UNIX) as it:
        it.bind(str(path))


# What the user whose file it is may put in its place, and why none of it is read.
PLACES = [
    ("a link", lambda path: path.symlink_to("elsewhere"), "Too many levels of symbolic links"),
    ("a pipe", os.mkfifo, "not a regular file"),
    ("a folder", os.mkdir, "not a regular file"),
    ("a socket", put_socket, "No such device or address"),
    ("a long file", lambda path: path.write_text(text(A).ljust(16385, "#")), "it has more than 16384 bytes"),
    ("nothing", lambda path: None, "No such file or directory"),
]


@pytest.mark.parametrize("put, why", [it[1:] for it in PLACES], ids=[it[0] for it in PLACES])
def test_what_is_no_file_of_keys_changes_nothing_that_is_trusted(trust, names, room, put, why):
    """Nor does it keep a key that isn't named any more."""
    (room / "elsewhere").write_text(text(A))
    (room / "trusted").write_text(text(B))
    put(room / "fetched")
    told = f"fetched isn't read: {why}"
    assert (1, [told]) == trust(None, B)
    (room / "trusted").write_text(text(A, B))
    assert (1, [f"{names[A]} is in trusted and isn't named; it was left out", told]) == trust(None, B)
    assert text(B) == of("trusted")
    assert (1, [f"{names[B]} is in trusted and isn't named; it was left out",
                f"{told}; no key that is named is there, so trusted stays as it is"]) == trust(None, A)
    assert text(B) == of("trusted")


def test_the_longest_file_of_keys(trust):
    assert (0, []) == trust(text(A).ljust(16384, "#").encode(), A)


@pytest.mark.parametrize("line", [it[1] for it in TRICKS], ids=[it[0] for it in TRICKS])
def test_no_other_line_is_copied(trust, names, room, line):
    status, told = trust(line.encode() + b"\n" + body(B), A, B)
    assert (1, text(B)) == (status, of("trusted")), told
    assert f"{names[A]} is named, and its key is missing" == told[-1]


@pytest.mark.parametrize("named, why", [
    ("", "no fingerprint is named in named"), ("# none\n\n", "no fingerprint is named in named"),
    (f"{A}\n", f"named has a line without a fingerprint: {A[:60]}"),
    (None, "can't read named: No such file or directory"),
], ids=["empty", "a comment", "a key", "no file"])
def test_names_that_are_none_change_nothing(room, named, why):
    (room / "fetched").write_text(text(A))
    (room / "trusted").write_text(text(B))
    if named is not None:
        (room / "named").write_text(named)
    assert (1, "", [f"trust-cas: {why}"]) == script("trust-cas", "--named", "named", "fetched", "trusted")
    assert text(B) == of("trusted")


@pytest.mark.parametrize("words", [[], ["a", "b"], ["--named", "n", "a"], ["--named", "n", "a", "b", "c"],
                                   ["--name", "n", "a", "b"]], ids=str)
def test_bad_words_trust_nobody(words, room):
    status, out, errors = script("trust-cas", *words)
    assert (2, "", "usage: trust-cas --named FILE KEYS TRUSTED") == (status, out, errors[0])
    assert [] == shown()


def test_the_unit_copies_as_root_what_was_fetched_also_if_that_failed():
    unit = (PROGRAMS / "units/office-ca-keys.service").read_text()
    assert "\nUser=office-list\n" in unit
    step = "trust-cas --named /etc/vethlumi/ca-fingerprints /var/lib/office-list/cas.pub /etc/vethlumi/trusted-cas"
    assert f"\nExecStopPost=+/usr/local/bin/{step}\n" in unit
