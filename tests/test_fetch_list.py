"""fetch-list: whatever comes and wherever it has to write, no list is lost, and the cause is said."""
import concurrent.futures
import contextlib
import os
import pathlib
import random
import re
import shutil
import signal
import subprocess
import tempfile
import threading
import time

import pytest

from fetching import Web, around, folder_of_nobody, response, script, shown, small_disk
from lists import runs_of
from publishing import (CA, HIGHEST, LIST, NEWER, OTHER_CA, Signer, bitmaps, is_signed, key_line, krl, section,
                        statement)
from running import PROGRAMS, free_port, run

UNSIGNED = ["--unsigned", "--ca", "ca.pub"]


@pytest.fixture
def web(room):
    with Web() as made:
        yield made


@pytest.fixture
def signer(room):
    return Signer()


def said_by(done):
    """Status, and the one line that isn't curl's, without the program's name."""
    status, out, errors = done
    said = [it for it in errors if not it.startswith("curl: ")]
    assert out == ""
    assert len(said) == (status != 0), said
    return status, said[0].removeprefix("fetch-list: ") if said else ""


def answered(web, answer):
    web.answer = answer if answer[:4] == b"HTTP" else response(answer)


@pytest.fixture
def fetch(web, signer):
    """Runs fetch-list for the file `list`, where this body or response comes."""
    def run_script(answer, file="list", *options, **how):
        answered(web, answer)
        words = ["--signers", signer.allowed, *options]
        return said_by(script("fetch-list", *words, "--", web.url, file, **how))
    run_script.signer = signer
    return run_script


@pytest.fixture
def believe(web, room):
    """The same where no station publishes lists."""
    (room / "ca.pub").write_text(f"# the office's CA\n{key_line(CA)}")

    def run_script(answer, file="list", *options, **how):
        answered(web, answer)
        return said_by(script("fetch-list", *UNSIGNED, *options, "--", web.url, file, **how))
    return run_script


@pytest.fixture(params=["signed", "unsigned"])
def either(request, web, room):
    """fetch-list both ways, for a list that comes as a station or as an office gives it."""
    run_script = request.getfixturevalue({"signed": "fetch", "unsigned": "believe"}[request.param])

    def run_with(data, *words, **how):
        return run_script(run_with.of(data), *words, **how)

    run_with.raw = run_script
    run_with.of = run_script.signer.published if request.param == "signed" else lambda data: data
    run_with.words = ["--signers", run_script.signer.allowed] if request.param == "signed" else UNSIGNED
    run_with.kept = ["list", "list.statement"] if request.param == "signed" else ["list"]
    run_with.route = b"GET /published " if request.param == "signed" else b"GET /v1/krl "
    return run_with


def test_a_newer_list_is_taken(either, web, room):
    for it in (LIST, LIST, NEWER):
        assert (0, "") == either(it)
        assert it == (room / "list").read_bytes()
        assert web.requests[-1].startswith(either.route)
    assert 0o644 == os.stat("list").st_mode & 0o777
    assert either.kept == sorted(it for it in shown() if it.startswith("list"))


def test_a_front_that_is_being_restarted_is_asked_again(signer, room):
    port = free_port()
    words = ["fetch-list", "--signers", signer.allowed, "--", f"http://127.0.0.1:{port}", "list"]
    with concurrent.futures.ThreadPoolExecutor() as pool:
        fetched = pool.submit(script, *words)
        time.sleep(2)
        with Web(response(signer.published(LIST)), port=port):
            assert (0, "") == said_by(fetched.result())
    assert LIST == (room / "list").read_bytes()


def test_a_front_does_not_say_how_long_it_is_waited_for(either, web, room):
    """By Retry-After it would hold the lock for years, and nothing would say that no list comes."""
    (room / "list").write_bytes(LIST)
    busy = response(b"", "503 Busy\r\nretry-after: 1000000000")
    assert (1, f"no list from {web.url}; list is as it was") == either.raw(busy, timeout=60)
    assert LIST == (room / "list").read_bytes()


def test_its_time_is_that_of_the_last_fetch(either, room):
    for _ in range(2):
        (room / "list").write_bytes(LIST)
        os.utime("list", (1000, 1000))
        before = time.time() - 1
        assert (0, "") == either(LIST)
        assert os.stat("list").st_mtime > before


@pytest.mark.parametrize("version", [HIGHEST + 1, 2 ** 63 + 5, 10 ** 19, 2 ** 64 - 1])
@pytest.mark.parametrize("old", [None, LIST], ids=["nothing", "a list"])
def test_a_version_that_no_office_gives(either, room, version, old):
    if old:
        (room / "list").write_bytes(old)
    said = f"refused as BadVersion: no office has a version {version}; list is as it was"
    assert (1, said) == either(krl(version, [1]))
    assert not old or old == (room / "list").read_bytes()
    assert (["list"] if old else []) == [it for it in shown() if it.startswith("list")]


@pytest.mark.parametrize("old", [9, 10 ** 18 - 1, HIGHEST, HIGHEST + 1, 2 ** 64 - 1])
def test_a_lower_version_is_not_taken(either, room, old):
    (room / "list").write_bytes(krl(old))
    for version in (0, 8):
        said = f"refused as OlderVersion: got version {version}, and {old} is in place; list is as it was"
        assert (1, said) == either(krl(version))
        assert krl(old) == (room / "list").read_bytes()


def test_any_list_takes_the_place_of_one_that_cannot_be_read(either, room):
    (room / "list").write_bytes(LIST[:50])
    assert (0, "") == either(krl(0))


@pytest.mark.parametrize("end", ["kill -9 $$", "echo 'Invalid KRL file list: memory allocation failed' >&2; exit 255"])
def test_a_list_that_is_not_read_for_lack_of_memory_stays(either, room, end):
    """So that nobody gets a revocation forgotten by making memory scarce."""
    (room / "list").write_bytes(LIST)
    (room / "bin").mkdir()
    (room / "bin/ssh-keygen").write_text(f'#!/bin/sh\n[ "$*" != "-Q -l -f list" ] || {{ {end}; }}\n'
                                         f'exec {shutil.which("ssh-keygen")} "$@"\n')
    (room / "bin/ssh-keygen").chmod(0o755)
    env = os.environ | {"PATH": f"{room / 'bin'}:{os.environ['PATH']}"}
    said = "ssh-keygen was killed, or ran out of memory, before it had read the list; list is as it was"
    assert (1, said) == either(krl(0), env=env)
    assert LIST == (room / "list").read_bytes()


@pytest.mark.slow
@pytest.mark.alone
def test_a_list_that_takes_too_much_memory_to_read_is_left_out(believe, room):
    """The unit's limit would end fetch-list with ssh-keygen, and nothing would be said."""
    (room / "list").write_bytes(LIST)
    status, why = believe(bitmaps(4), "list", "--metrics", "metrics")
    # A slow machine's time may be over before its memory.
    said = "ssh-keygen was killed, or ran out of memory, before it had read the list; list is as it was"
    assert (1, True) == (status, why in (said, TOO_SLOW)), why
    assert (LIST, 0) == ((room / "list").read_bytes(), metrics()["office_list_taken"])


def test_no_two_lists_of_one_version(either, room):
    (room / "list").write_bytes(LIST)
    for other in (krl(3, [1, 2, 9, 11]), krl(3, [1, 2, 9], date=1001), krl(3)):
        said = "refused as OtherBytes: a different list of version 3 is in place; list is as it was"
        assert (1, said) == either(other)
        assert LIST == (room / "list").read_bytes()


FAILURES = [
    ("no such path", response(NEWER, "404 Not Found"), "no list from {url}"),
    ("another place", response(b"", "302 Found\r\nlocation: /other"), None),
    ("half of what was announced", response(NEWER, length=len(NEWER) + 1), "no list from {url}"),
    ("more behind the list", response(NEWER + b"more"), None),
    ("no body", response(b""), None),
    ("public keys", response(b"ssh-ed25519 AAAA\n"), None),
]


@pytest.mark.parametrize("answer, why", [it[1:] for it in FAILURES], ids=[it[0] for it in FAILURES])
@pytest.mark.parametrize("is_signed", [True, False], ids=["signed", "unsigned"])
def test_if_no_list_comes_the_one_in_place_stays(request, web, room, answer, why, is_signed):
    run_script = request.getfixturevalue("fetch" if is_signed else "believe")
    if is_signed and NEWER in answer:
        stated = run_script.signer.published(NEWER)
        head, _, body = answer.partition(b"\r\n\r\n")
        length = re.search(rb"content-length: (\d+)", head)
        longer = head.replace(length[0], b"content-length: %d" % (int(length[1]) - len(NEWER) + len(stated)))
        answer = longer + b"\r\n\r\n" + body.replace(NEWER, stated)
    (room / "list").write_bytes(LIST)
    os.utime("list", (1000, 1000))
    if why is None:
        why = "refused as NotAList: ssh-keygen can't read the new list"
        if is_signed:
            why = "refused as NotStated: the answer has no statement"
        if is_signed and NEWER in answer:
            why = "refused as OtherDigest: the list doesn't match its statement"
    assert (1, f"{why.format(url=web.url)}; list is as it was") == run_script(answer)
    assert LIST == (room / "list").read_bytes()
    assert 1000 == os.stat("list").st_mtime
    assert ["list"] == [it for it in shown() if it.startswith("list")]


@pytest.mark.slow
@pytest.mark.timeout(900)
def test_an_endless_body_ends(either, web, room):
    """Of the longest list, 32 MiB, no more is kept, and nothing afterwards; or the time is over."""
    with tempfile.TemporaryDirectory(dir="/dev/shm") as folder:
        file = pathlib.Path(folder) / "list"
        file.write_bytes(LIST)
        web.endless = bytes(1 << 20)
        status, why = either.raw(response(either.of(NEWER), length=""), file, timeout=200)
        assert (1, f"; {file} is as it was") == (status, why[why.index(";"):])
        # On a busy machine the time may be over before.
        assert why.startswith(("the answer is longer than any list;", "no list from "))
        assert LIST == file.read_bytes()
        assert ["list"] == shown(folder)


@pytest.mark.slow
def test_a_list_that_would_take_hours_to_read_is_left_out(believe, room):
    """ssh-keygen's time grows with the square of the sections: 250,000 in 16 MB took it 35 s. Here it never ends."""
    (room / "list").write_bytes(LIST)
    said = ("refused as TooSlow: ssh-keygen took more than 60 seconds to read the new list, and sshd would at "
            "each login; list is as it was")
    assert (1, said) == believe(NEWER, env=around(room, "ssh-keygen", "exec sleep 1000"), timeout=300)
    assert LIST == (room / "list").read_bytes()


# Uses the processor for so many seconds before ssh-keygen reads the list that came, in the same process.
SPIN = """case "$*" in "-Q -l -f list.new."*) exec /usr/bin/python3 -c 'import os, sys, time
while time.process_time() < {}:
    pass
os.execv("{}", sys.argv[1:])' ssh-keygen "$@" ;; esac
"""
TOO_SLOW = ("refused as TooSlow: ssh-keygen took more than 5 seconds of processor time to read the new "
            "list, and sshd would at each login; list is as it was")


@pytest.mark.slow
@pytest.mark.alone
@pytest.mark.parametrize("before, is_taken", [
    (SPIN.format(3, shutil.which("ssh-keygen")), True), (SPIN.format(7, shutil.which("ssh-keygen")), False),
    ("sleep 8", True)], ids=["3 seconds", "7 seconds", "8 seconds of a busy machine"])
def test_a_list_that_would_make_logins_slow_is_left_out(believe, room, before, is_taken):
    """sshd reads all of it at each login, and ends a login after two minutes. Then nobody gets in any more."""
    (room / "list").write_bytes(LIST)
    words = ["list", "--metrics", "metrics"]
    due = (0, "") if is_taken else (1, TOO_SLOW)
    assert due == believe(NEWER, *words, env=around(room, "ssh-keygen", before))
    assert (NEWER if is_taken else LIST) == (room / "list").read_bytes()
    assert int(is_taken) == metrics()["office_list_taken"]


@pytest.mark.slow
@pytest.mark.alone
def test_a_list_of_very_many_key_ids_is_left_out(believe, room):
    """Whoever may revoke makes each list longer: ssh-keygen's time grows faster than the length."""
    (room / "list").write_bytes(LIST)
    many = krl(4 + 200000, [1, 2, 9], key_ids=[f"web/{it * 7919 % 1000003:090d}" for it in range(200000)])
    assert (1, TOO_SLOW) == believe(many)
    assert LIST == (room / "list").read_bytes()


# ---- statements

def test_a_statement_is_kept_and_its_signature(fetch, room):
    published = fetch.signer.published(LIST)
    assert (0, "") == fetch(published)
    kept = (room / "list.statement").read_bytes()
    assert published == kept + LIST
    text, _, signature = kept.partition(b"\n")
    assert is_signed(text + b"\n", signature, fetch.signer.allowed)


def changed(text, at, by):
    return text[:at] + by + text[at + len(by):]


def by_a_certificate(signer, text):
    """Signed with a certificate that the CA has signed, for the name krl: who has one states no lists."""
    other = Signer("other")
    run(["ssh-keygen", "-q", "-s", signer.key, "-I", "web/krl", "-n", "krl", "other.pub"], check=True)
    other.key = other.key.with_name("other-cert.pub")
    return text + other.sign(text) + NEWER


# What comes in the place of a list that the signer has stated, made by the signer, of the list and its statement.
FORGERIES = [
    ("no statement", lambda signer, text: LIST, "NotStated"),
    ("no signature", lambda signer, text: text + NEWER, "NotStated"),
    ("half a signature", lambda signer, text: text + signer.sign(text)[:150] + NEWER, "NotStated"),
    ("a long head", lambda signer, text: text + b"-----BEGIN SSH SIGNATURE-----\n" + 200 * (70 * b"A" + b"\n")
     + b"-----END SSH SIGNATURE-----\n" + NEWER, "NotStated"),
    ("a line before", lambda signer, text: b"\n" + text + signer.sign(text) + NEWER, "NotStated"),
    ("a version with a sign", lambda signer, text: signer.published(NEWER, version="+4"), "NotStated"),
    ("a version with a zero before it", lambda signer, text: signer.published(NEWER, version="04"), "NotStated"),
    ("no moment", lambda signer, text: signer.published(NEWER, moment=""), "NotStated"),
    ("a digest in capitals", lambda signer, text: signer.published(NEWER, digest=64 * "A"), "NotStated"),
    ("another key", lambda signer, text: Signer("other").published(NEWER), "NotSigned"),
    ("another namespace", lambda signer, text: text + signer.sign(text, "file") + NEWER, "NotSigned"),
    ("another text", lambda signer, text: text + signer.sign(text + b"\n") + NEWER, "NotSigned"),
    ("another moment", lambda signer, text: changed(text, len(text) - 2, b"0" if text[-2:-1] != b"0" else b"1")
     + signer.sign(text) + NEWER, "NotSigned"),
    ("a signature that is cut", lambda signer, text: text + b"-----BEGIN SSH SIGNATURE-----\nU1NIU0lH\n"
     b"-----END SSH SIGNATURE-----\n" + NEWER, "NotSigned"),
    ("a certificate of the signer's for krl", lambda signer, text: by_a_certificate(signer, text), "NotSigned"),
    ("another list", lambda signer, text: text + signer.sign(text) + krl(4, [1, 2, 9, 12]), "OtherDigest"),
    ("an empty list of this version", lambda signer, text: text + signer.sign(text) + krl(4), "OtherDigest"),
    ("nothing behind the statement", lambda signer, text: text + signer.sign(text), "OtherDigest"),
    ("more behind the list", lambda signer, text: text + signer.sign(text) + NEWER + b"\0", "OtherDigest"),
    ("the list of another version", lambda signer, text: signer.published(NEWER, version=5), "NotAList"),
    ("no list", lambda signer, text: signer.published(b"no list\n", version=5), "NotAList"),
    ("a list that is cut", lambda signer, text: signer.published(NEWER[:-1]), "NotAList"),
]


@pytest.mark.parametrize("made, name", [it[1:] for it in FORGERIES], ids=[it[0] for it in FORGERIES])
def test_what_no_signer_has_stated_is_refused(fetch, room, made, name):
    assert (0, "") == fetch(fetch.signer.published(LIST))
    kept = (room / "list.statement").read_bytes()
    status, why = fetch(made(fetch.signer, statement(NEWER)))
    assert (1, True) == (status, why.startswith(f"refused as {name}: ")), why
    assert (LIST, kept) == ((room / "list").read_bytes(), (room / "list.statement").read_bytes())


@pytest.mark.parametrize("how", [{"principal": "other"}, {"namespaces": "file"}], ids=str)
def test_a_signer_is_named_for_lists(web, room, how):
    signer = Signer(**how)
    answered(web, signer.published(LIST))
    status, why = said_by(script("fetch-list", "--signers", signer.allowed, web.url, "list"))
    assert (1, True) == (status, why.startswith("refused as NotSigned: ")), why


@pytest.mark.parametrize("name, why", [("none", "No such file or directory"), (".", "Is a directory")])
def test_signers_that_cannot_be_read_are_said(web, signer, room, name, why):
    """That is no sign of a false list."""
    answered(web, signer.published(LIST))
    assert (1, f"can't read {name}: {why}; list is as it was") \
        == said_by(script("fetch-list", "--signers", name, web.url, "list"))


def test_an_older_statement_is_not_taken(fetch, room):
    now = int(time.time())
    assert (0, "") == fetch(fetch.signer.published(LIST, moment=now - 100))
    assert (0, "") == fetch(fetch.signer.published(LIST, moment=now - 100))
    said = "refused as OlderStatement: its statement is 1 seconds older than the one in place; list is as it was"
    for data in (LIST, NEWER):
        assert (1, said) == fetch(fetch.signer.published(data, moment=now - 101))
    assert (0, "") == fetch(fetch.signer.published(NEWER, moment=now - 99))
    assert NEWER == (room / "list").read_bytes()


@pytest.mark.parametrize("ahead, name", [(280, None), (500, "TooFarAhead"), (10 ** 19, "TooFarAhead")])
def test_how_far_ahead_of_the_clock_a_statement_may_be(fetch, ahead, name):
    status, why = fetch(fetch.signer.published(LIST, moment=int(time.time()) + ahead))
    assert (int(bool(name)), True) == (status, why.startswith(f"refused as {name}: ") if name else not why), why


def test_of_a_list_that_is_in_place_the_statement_alone_is_fetched(fetch, web, room):
    now = int(time.time())
    assert (0, "") == fetch(fetch.signer.published(LIST, moment=now - 9))
    web.endless = bytes(1 << 20)
    assert (0, "") == fetch(response(fetch.signer.published(LIST, moment=now), length=""))
    assert LIST == (room / "list").read_bytes()
    assert (room / "list.statement").read_bytes().startswith(statement(LIST, moment=now))


def test_a_new_office_takes_force(fetch, room):
    """The new office begins at version 0, with a CA and a station of its own."""
    new = Signer("new")
    assert (0, "") == fetch(fetch.signer.published(krl(7, [1, 2, 9])))
    first = new.published(krl(0), moment=int(time.time()) - 60)
    assert fetch(first)[1].startswith("refused as NotSigned: ")
    fetch.signer.allowed.write_text(new.allowed.read_text())
    assert fetch(first)[1].startswith("refused as OlderVersion: ")
    assert (0, "") == fetch(first, "list", "--forced")
    assert krl(0) == (room / "list").read_bytes()
    assert (0, "") == fetch(new.published(krl(1, [1])))
    # Force makes no statement of one that isn't the signer's.
    assert fetch(Signer("other").published(krl(0)), "list", "--forced")[1].startswith("refused as NotSigned: ")


# ---- a list that is kept back

def metrics():
    """The values of the file `metrics`, by their names."""
    return {name: int(value) for name, value in re.findall(r"^(\w+) (-?\d+)$", pathlib.Path("metrics").read_text(),
                                                           re.M)}


def later(minutes, web, signer, *options):
    """fetch-list by a clock that goes ahead."""
    done = run(["faketime", "-f", f"+{minutes}m", PROGRAMS / "server/fetch-list", "--signers", signer.allowed, *options,
                web.url, "list"])
    return done.returncode, done.stderr.decode().splitlines()


def test_a_list_that_stays_the_same_is_seen_within_the_hour(fetch, web, room):
    """As with a front that gives an old list again, with its true statement."""
    signer, now = fetch.signer, int(time.time())
    assert (0, "") == fetch(signer.published(LIST, moment=now), "list", "--metrics", "metrics")
    wanted = {"office_list_version": 3, "office_list_taken": 1, "office_list_fresh": 1,
              "office_list_stated_timestamp_seconds": now}
    assert wanted == metrics()
    assert (0, []) == later(55, web, signer, "--metrics", "metrics")
    assert wanted == metrics()
    status, said = later(61, web, signer, "--metrics", "metrics")
    assert (3, 1) == (status, len(said))
    assert re.fullmatch(r"fetch-list: list is stale: its statement is 3[67]\d\d seconds old", said[0]), said
    assert wanted | {"office_list_fresh": 0} == metrics()
    assert 0o644 == os.stat("metrics").st_mode & 0o777
    # An older statement isn't taken again, and a new one ends it.
    assert (0, "") == fetch(signer.published(LIST), "list", "--metrics", "metrics")
    assert 1 == metrics()["office_list_fresh"]


def test_a_statement_of_the_future_in_place_is_not_fresh(fetch, room):
    """As after a wrong clock: older ones are refused for a day, and meanwhile nothing shows whether lists are kept
    away."""
    ahead = statement(LIST, moment=int(time.time()) + 86400)
    (room / "list").write_bytes(LIST)
    (room / "list.statement").write_bytes(ahead + fetch.signer.sign(ahead))
    words = ["fetch-list", "--signers", fetch.signer.allowed, "--metrics", "metrics", "http://127.0.0.1:1", "list"]
    status, _, said = script(*words)
    assert (3, 0) == (status, metrics()["office_list_fresh"])
    assert re.fullmatch(r"fetch-list: list is stale: its statement is 8\d{4} seconds ahead of this clock", said[-1])
    assert (0, "") == fetch(fetch.signer.published(NEWER), "list", "--forced", "--metrics", "metrics")
    assert 1 == metrics()["office_list_fresh"]


@pytest.mark.parametrize("ahead, is_taken", [(240, True), (360, False)])
def test_force_takes_no_statement_of_the_future(fetch, room, ahead, is_taken):
    """Else a server that somebody has forced refuses every later list, until that moment comes."""
    assert (0, "") == fetch(fetch.signer.published(LIST))
    status, said = fetch(fetch.signer.published(NEWER, moment=int(time.time()) + ahead), "list", "--forced")
    assert (0 if is_taken else 1, is_taken) == (status, said == "")
    assert said.startswith("" if is_taken else "refused as TooFarAhead: ")
    assert (NEWER if is_taken else LIST) == (room / "list").read_bytes()


def test_a_front_that_gives_nothing_is_seen_within_the_hour(fetch, web, room):
    signer, now = fetch.signer, int(time.time())
    assert (0, "") == fetch(signer.published(LIST, moment=now), "list", "--metrics", "metrics")
    assert 1 == fetch(response(b"", "502 Bad Gateway"), "list", "--metrics", "metrics")[0]
    assert (0, 1) == (metrics()["office_list_taken"], metrics()["office_list_fresh"])
    status, said = later(61, web, signer, "--metrics", "metrics")
    assert (3, True) == (status, said[-1].startswith("fetch-list: list is stale: "))
    assert f"fetch-list: no list from {web.url}; list is as it was" in said
    assert (0, 0) == (metrics()["office_list_taken"], metrics()["office_list_fresh"])


def test_a_list_that_is_stale_when_it_comes_first_is_better_than_none(fetch, room):
    status, why = fetch(fetch.signer.published(LIST, moment=int(time.time()) - 100), "list", "--fresh", "60")
    assert (3, True) == (status, re.fullmatch(r"list is stale: its statement is 1\d\d seconds old", why) is not None)
    assert LIST == (room / "list").read_bytes()


def test_without_a_list_the_metrics_say_so(fetch, room):
    assert 1 == fetch(response(b"", "404 Not Found"), "list", "--metrics", "metrics")[0]
    assert {"office_list_version": -1, "office_list_taken": 0, "office_list_fresh": 0,
            "office_list_stated_timestamp_seconds": 0} == metrics()


def test_metrics_that_cannot_be_written_are_said(fetch, room):
    assert (1, "can't write none/metrics: No such file or directory") \
        == fetch(fetch.signer.published(LIST), "list", "--metrics", "none/metrics")
    assert LIST == (room / "list").read_bytes()


def test_a_statement_that_is_left_says_nothing_without_a_station(fetch, believe, room):
    """Of a list that a station stated an hour ago, and that is fetched without one now."""
    old = int(time.time()) - 3700
    assert 3 == fetch(fetch.signer.published(LIST, moment=old), "list", "--metrics", "metrics")[0]
    assert (0, "") == believe(LIST, "list", "--metrics", "metrics")
    assert (0, old) == (metrics()["office_list_fresh"], metrics()["office_list_stated_timestamp_seconds"])


@pytest.mark.parametrize("folder", ["", "folder/"])
def test_metrics_that_a_killed_run_has_left_are_removed(fetch, room, folder):
    """What another run may be writing now, and what isn't named so, stays."""
    (room / "folder").mkdir()
    left, young, other = (f"{folder}metrics.{it}" for it in ("new.left", "new.young", "old"))
    for it in (left, young, other):
        (room / it).write_text("office_list_version 3\n")
    for it in (left, other):
        os.utime(room / it, (1000, 1000))
    assert (0, "") == fetch(fetch.signer.published(LIST), "list", "--metrics", f"{folder}metrics")
    assert [False, True, True] == [(room / it).exists() for it in (left, young, other)]
    assert "office_list_version 3\n" in (room / folder / "metrics").read_text()


@pytest.mark.root
def test_metrics_on_a_full_disk_are_those_of_before(fetch, room):
    with small_disk(room / "disk") as fill:
        words = ["list", "--metrics", "disk/metrics"]
        assert (0, "") == fetch(fetch.signer.published(LIST), *words)
        before = (room / "disk/metrics").read_bytes()
        fill(0)
        status, why = fetch(fetch.signer.published(NEWER), *words)
        assert (1, "can't write disk/metrics: No space left on device") == (status, why)
        assert before == (room / "disk/metrics").read_bytes()
        assert {"filling", "metrics"} == {*shown("disk")}
        assert NEWER == (room / "list").read_bytes()


# ---- without a station

BASE = krl(5, [1, 2, 9], key_ids=["web/a"])
MORE = section(OTHER_CA, [100])
# What comes where BASE is in place, and the name of the refusal; none if it is taken.
BELIEVED = [
    ("one more serial", krl(6, [1, 2, 3, 9], key_ids=["web/a"]), None),
    ("one more, and the same version", krl(5, [1, 2, 3, 9], key_ids=["web/a"]), "OtherBytes"),
    ("one more, and two versions", krl(7, [1, 2, 3, 9], key_ids=["web/a"]), "VersionJumps"),
    ("a range over them", krl(6, ranges=[(1, 9)], key_ids=["web/a"]), None),
    ("a range over them, and six versions", krl(11, ranges=[(1, 9)], key_ids=["web/a"]), None),
    ("a range over them, and seven versions", krl(12, ranges=[(1, 9)], key_ids=["web/a"]), "VersionJumps"),
    ("a range beside a serial", krl(6, [9], ranges=[(1, 8)], key_ids=["web/a"]), None),
    ("a key id more", krl(6, [1, 2, 9], key_ids=["web/a", "web/b"]), None),
    ("nothing of this version", krl(5), "OtherBytes"),
    ("nothing of the next one", krl(6), "Forgets"),
    ("a serial less", krl(6, [1, 9], key_ids=["web/a"]), "Forgets"),
    ("a range that ends before", krl(6, ranges=[(1, 8)], key_ids=["web/a"]), "Forgets"),
    ("a range that begins after", krl(6, ranges=[(2, 9)], key_ids=["web/a"]), "Forgets"),
    ("a key id less", krl(6, [1, 2, 3, 9]), "Forgets"),
    ("another CA's alone", krl(6, [1, 2, 9], OTHER_CA, key_ids=["web/a"]), "OtherCa"),
    ("another CA's beside it", krl(6, [1, 2, 9], key_ids=["web/a"], more=MORE), "OtherCa"),
    ("the highest version", krl(HIGHEST, [1, 2, 9], key_ids=["web/a"]), "VersionJumps"),
    ("every CA's", krl(6, [1, 2, 9], b"", key_ids=["web/a"]), "NotAList"),
    ("serials that don't ascend", krl(6, [2, 1, 9, 10], key_ids=["web/a"]), "NotAList"),
    ("ranges that don't ascend", krl(6, ranges=[(5, 9), (1, 4)], key_ids=["web/a"]), "NotAList"),
    ("two sections of a CA", krl(6, [1, 2, 9], key_ids=["web/a"], more=section(CA, [11])), "NotAList"),
]


@pytest.mark.parametrize("data, name", [it[1:] for it in BELIEVED], ids=[it[0] for it in BELIEVED])
def test_what_is_believed_without_a_statement(believe, room, data, name):
    (room / "list").write_bytes(BASE)
    status, why = believe(data)
    assert (int(bool(name)), True) == (status, why.startswith(f"refused as {name}: ") if name else not why), why
    assert (BASE if name else data) == (room / "list").read_bytes()


@pytest.mark.parametrize("data, name", [
    (krl(0), None), (krl(1), "VersionJumps"), (krl(3, [1, 2]), None), (krl(4, [1, 2]), "VersionJumps"),
    (krl(HIGHEST, [1]), "VersionJumps")], ids=str)
def test_a_first_list_accounts_for_its_version(believe, room, data, name):
    """Each version of an office's list revokes more than the one before."""
    status, why = believe(data)
    assert (int(bool(name)), True) == (status, why.startswith(f"refused as {name}: ") if name else not why), why


def test_a_new_office_takes_force_without_a_station_too(believe, room):
    (room / "list").write_bytes(BASE)
    (room / "ca.pub").write_text(key_line(OTHER_CA))
    assert believe(krl(0))[1].startswith("refused as OlderVersion: ")
    assert (0, "") == believe(krl(0), "list", "--forced")
    assert krl(0) == (room / "list").read_bytes()
    assert believe(krl(1, [1]), "list", "--forced")[1].startswith("refused as OtherCa: ")


def a_plain_list(source):
    """Serials and key ids of a random list, few of each, so that lists are often alike."""
    return ({source.randrange(1, 13) for _ in range(source.randrange(10))},
            {f"web/{source.choice('abc')}" for _ in range(source.randrange(3))})


def as_an_office_writes(version, serials, key_ids):
    runs = runs_of(serials)
    listed = [it for low, high in runs if high - low < 2 for it in range(low, high + 1)]
    return krl(version, listed, ranges=[it for it in runs if it[1] - it[0] >= 2], key_ids=sorted(key_ids))


@pytest.mark.slow
def test_random_lists_beside_plain_sets(believe, room, request):
    source = random.Random(request.config.option.hypothesis_seed)
    for number in range(60):
        (old, old_ids), (new, new_ids) = a_plain_list(source), a_plain_list(source)
        if number % 2:
            new, new_ids = new | old, new_ids | old_ids
        (room / "list").write_bytes(as_an_office_writes(1, old, old_ids))
        is_more = old <= new and old_ids <= new_ids
        grown = len(new) + len(new_ids) - len(old) - len(old_ids) + bool(new | new_ids) - bool(old | old_ids)
        due = "Forgets" if not is_more else None if grown > 0 else "VersionJumps"
        status, why = believe(as_an_office_writes(2, new, new_ids))
        assert (int(bool(due)), True) == (status, why.startswith(f"refused as {due}: ") if due else not why), \
            (old, old_ids, new, new_ids, why)


@pytest.mark.parametrize("text, why", [
    (None, "can't read ca.pub: No such file or directory"), ("no key\n", "ca.pub has a line that isn't a public "
                                                                         "key")])
def test_cas_that_cannot_be_read_are_said(believe, room, text, why):
    (room / "ca.pub").unlink()
    if text:
        (room / "ca.pub").write_text(text)
    assert (1, f"{why}; list is as it was") == believe(LIST)


# ---- the file

def test_a_folder_in_place_of_the_list(either, room):
    (room / "list").mkdir()
    assert (1, "list isn't a regular file; list is as it was") == either(LIST)
    (room / "link").symlink_to("list")
    assert (1, "link isn't a regular file; link is as it was") == either(LIST, "link")
    assert [] == os.listdir("list")


def test_a_folder_in_place_of_the_statement(fetch, room):
    (room / "list").write_bytes(LIST)
    (room / "list.statement").mkdir()
    assert (1, "list.statement isn't a regular file; list is as it was") == fetch(fetch.signer.published(NEWER))
    assert LIST == (room / "list").read_bytes()


def test_a_pipe_in_place_of_the_list_is_not_waited_for(either, room):
    os.mkfifo("list")
    assert (1, "list isn't a regular file; list is as it was") == either(LIST)


def test_a_link_in_place_of_the_list_is_replaced_and_not_followed(either, room):
    (room / "other").write_bytes(LIST)
    (room / "list").symlink_to("other")
    assert (0, "") == either(NEWER)
    assert not (room / "list").is_symlink()
    assert [LIST, NEWER] == [(room / it).read_bytes() for it in ("other", "list")]


@pytest.mark.parametrize("name", ["with space", "two\nlines", "-o", "$HOME", "a[1]*{b}", "x" * 240])
def test_the_list_may_have_any_name(either, room, name):
    for it in (LIST, NEWER):
        assert (0, "") == either(it, name)
    assert NEWER == (room / name).read_bytes()


def test_a_folder_that_is_not_there(either, room):
    assert (1, "can't lock none/.list.lock; none/list is as it was") == either(LIST, "none/list")


@pytest.mark.root
def test_a_full_disk_loses_nothing(either, room):
    long = krl(6, range(1, 1500))
    with small_disk(room / "disk") as fill:
        (room / "disk/list").write_bytes(LIST)
        results = []
        for left in (0, 1, 2, 3, 5, 7):
            fill(left)
            status, why = either(long, "disk/list")
            results.append(status)
            assert (LIST if status else long) == (room / "disk/list").read_bytes()
            assert {"filling", "list"} == {*shown("disk")} - {"list.statement"}
            said = "can't (write the new list|put the new list in place|lock disk/.list.lock).*; disk/list is as it was"
            assert not status or re.fullmatch(said, why), why
        assert [1, 0] == [results[0], results[-1]]


def test_many_at_once(either, web, room):
    web.answer = response(either.of(NEWER))
    (room / "list").write_bytes(LIST)
    words = [*either.words, web.url, "list"]
    with concurrent.futures.ThreadPoolExecutor(8) as threads:
        assert [(0, "", [])] * 8 == list(threads.map(lambda _: script("fetch-list", *words), range(8)))
    assert NEWER == (room / "list").read_bytes()
    assert either.kept == sorted(it for it in shown() if it.startswith("list"))


def test_no_other_user_can_keep_it_waiting(either, room):
    room.chmod(0o755)
    assert (0, "") == either(LIST, umask=0)
    assert 0o600 == (room / ".list.lock").stat().st_mode & 0o777


def test_a_link_in_place_of_the_lock_is_replaced_and_not_followed(either, room):
    (room / ".list.lock").symlink_to(room / "elsewhere")
    assert (0, "") == either(LIST)
    assert not (room / "elsewhere").exists()
    assert not (room / ".list.lock").is_symlink()


@pytest.mark.root
def test_root_runs_as_the_user_whose_folder_it_is(web, signer):
    """In a folder of the user nobody, who fetches after root did: nothing there belongs to root. Root may have left a
    lock there once."""
    web.answer = response(signer.published(LIST))
    with folder_of_nobody() as folder:
        for it in ("server", "common"):
            shutil.copytree(PROGRAMS / it, f"{folder}/programs/{it}")
        shutil.copy(signer.allowed, folder)
        pathlib.Path(folder, ".list.lock").touch(0o600)
        words = [f"{folder}/programs/server/fetch-list", "--signers", f"{folder}/{signer.allowed.name}", web.url,
                 f"{folder}/list"]
        for before in ((), ("runuser", "-u", "nobody", "--")):
            done = run([*before, *words])
            assert (0, b"") == (done.returncode, done.stderr)
            made = [pathlib.Path(folder, it) for it in ("list", "list.statement", ".list.lock")]
            assert {"nobody"} == {it.owner() for it in made}


def test_no_link_that_lies_beside_the_list_is_followed(fetch, room):
    """One that is put in the place of the signature while that is verified."""
    (room / "victim").write_text("victim\n")
    (room / "victim").chmod(0o600)
    put_link = 'case " $* " in *" verify "*) for it; do last=$it; done; ln -sf victim "$last" ;; esac'
    assert (0, "") == fetch(fetch.signer.published(LIST), env=around(room, "ssh-keygen", after=put_link))
    assert ("victim\n", 0o600) == ((room / "victim").read_text(), (room / "victim").stat().st_mode & 0o777)
    assert not (room / "list.statement").is_symlink() and LIST == (room / "list").read_bytes()


@pytest.mark.root
def test_links_that_race_with_root_reach_no_file_of_root_s(web, signer, room):
    """The folder's user puts links to a file of root's in the place of all that is made there."""
    web.answer = response(signer.published(LIST))
    victim, is_over = room / "victim", threading.Event()
    victim.write_text("victim\n")
    victim.chmod(0o600)
    with folder_of_nobody() as folder:
        for it in (PROGRAMS / "server/fetch-list", signer.allowed):
            shutil.copy(it, folder)

        def race():
            while not is_over.is_set():
                for it in os.listdir(folder):
                    if it.startswith((".list.lock", "list.new.", "list.statement")):
                        with contextlib.suppress(OSError):
                            os.unlink(f"{folder}/{it}")
                            os.symlink(victim, f"{folder}/{it}")
        racing = threading.Thread(target=race)
        racing.start()
        try:
            for _ in range(5):
                run([f"{folder}/fetch-list", "--signers", f"{folder}/{signer.allowed.name}", web.url,
                     f"{folder}/list", "--metrics", f"{folder}/list.new.metrics"])
                assert ("victim\n", 0o600) == (victim.read_text(), victim.stat().st_mode & 0o777)
        finally:
            is_over.set()
            racing.join()


@pytest.mark.slow
@pytest.mark.once
def test_a_kill_at_any_moment_leaves_the_old_or_the_new(either, web, room):
    """Neither is lost, and each statement that is found beside it is of one of them."""
    old = either.of(LIST)
    web.answer = response(old)
    words = [PROGRAMS / "server/fetch-list", *either.words, "--metrics", "metrics", web.url, "list"]
    assert 0 == run(words).returncode
    web.answer = response(either.of(NEWER))
    for number in range(20):
        process = subprocess.Popen(words, stderr=subprocess.DEVNULL, start_new_session=True)
        time.sleep(number / 60)
        with contextlib.suppress(ProcessLookupError):
            os.killpg(process.pid, signal.SIGKILL)
        process.wait()
        assert (room / "list").read_bytes() in (LIST, NEWER)
        assert metrics()["office_list_version"] in (3, 4)
    # What is left of metrics is removed if it is older than a minute.
    for it in room.glob("metrics.*"):
        os.utime(it, (1000, 1000))
    assert (0, "", []) == script("fetch-list", *words[1:])
    assert NEWER == (room / "list").read_bytes()
    assert ["metrics"] == [it for it in shown() if it.startswith("metrics")]
    assert either.kept == sorted(it for it in shown() if it.startswith("list"))


def test_a_kill_between_the_list_and_its_statement(fetch, room):
    """The list is the new one then, and the statement that of the one before: no older list comes back, nothing is
    said to be fresh, and the next statement makes it whole."""
    signer, now = fetch.signer, int(time.time())
    assert (0, "") == fetch(signer.published(LIST, moment=now - 9))
    (room / "list").write_bytes(NEWER)
    said = "refused as OlderVersion: got version 3, and 4 is in place; list is as it was"
    assert (1, said) == fetch(signer.published(LIST, moment=now), "list", "--metrics", "metrics")
    assert (NEWER, 4, 0) == ((room / "list").read_bytes(), metrics()["office_list_version"],
                             metrics()["office_list_fresh"])
    assert fetch(signer.published(NEWER, moment=now - 10))[1].startswith("refused as OlderStatement: ")
    assert (0, "") == fetch(signer.published(NEWER, moment=now), "list", "--metrics", "metrics")
    assert (NEWER, 1) == ((room / "list").read_bytes(), metrics()["office_list_fresh"])


def test_a_program_that_is_missing_is_named(either, web, room):
    (room / "bin").mkdir()
    (room / "bin/env").symlink_to("/usr/bin/env")
    assert (1, "", ["fetch-list: curl is missing; list is as it was"]) \
        == script("fetch-list", *either.words, web.url, "list", env={"PATH": str(room / "bin")})


BAD_WORDS = [
    ([], "OFFICE is missing"), (["http://a"], "LIST is missing"),
    (["http://a", "list"], "one of --signers and --unsigned is wanted"),
    (["--signers", "s", "--unsigned", "--ca", "c", "http://a", "list"], "one of --signers and --unsigned is wanted"),
    (["--unsigned", "http://a", "list"], "--unsigned needs --ca, and --signers doesn't"),
    (["--signers", "s", "--ca", "c", "http://a", "list"], "--unsigned needs --ca, and --signers doesn't"),
    (["--signers", "s", "file:///etc/passwd", "list"], "no URL: file:///etc/passwd"),
    (["--signers", "s", "--fresh", "0", "http://a", "list"], "--fresh is at least 1"),
    (["--signers", "s", "--metrics", "./list", "http://a", "list"], "--metrics and LIST are one file"),
    (["--no-such-word", "http://a", "list"], "unrecognized arguments: --no-such-word"),
]


@pytest.mark.parametrize("words, why", BAD_WORDS, ids=[" ".join(it[0]) for it in BAD_WORDS])
def test_bad_words(room, words, why):
    status, out, errors = script("fetch-list", *words)
    assert (2, "", f"fetch-list: error: {why}") == (status, out, errors[-1])
    assert [] == shown()


def test_ssh_keygen_reads_the_lists_of_these_tests(room):
    (room / "list").write_bytes(NEWER)
    lines = run(["ssh-keygen", "-Q", "-l", "-f", "list"], check=True).stdout.decode().splitlines()
    assert ["serial: 1-2", "serial: 9", "serial: 11"] == [it for it in lines if it.startswith("serial")]
