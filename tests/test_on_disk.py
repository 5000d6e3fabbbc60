"""What scripts say they keep is on disk when they say so: its bytes before it gets its name, its folder after that, and
a message before the first byte goes out to the office. strace shows the order."""
import contextlib
import pathlib
import re
import shutil

import pytest

from fetching import Web, response
from publishing import LIST, Signer
from running import EXAMPLES, PROGRAMS, TOP, fingerprint, new_key, run
from test_clients import ISSUED, certificate
from test_clients import Office as Answering
from test_host import GIVES, HOST, Host, certify
from test_vethlumi import Client
from tracing import Trace, events

REVOKED = response(b"revoked\nversion 1\n")


def traced(words, **how):
    found = Trace(words, **how)
    assert 0 == found.done.returncode, found.done.stderr.decode()
    return found


# ---- the client and request

def test_the_outbox_has_a_message_before_the_office_is_asked(room):
    with Web(REVOKED) as web:
        client = Client(room / "home", web.url, caller="ana")
        trace = traced(client.words("revoke", "web/zoe", "--yes"), env=client.environment())
        [key] = re.findall(rb"^POST /v1/callers/ana/requests/(\w+) ", web.requests[0])
    path = client.outbox / key.decode()
    assert [] == trace.lacks(path), trace.text
    assert trace.ready(path) < trace.first_sent(), trace.text
    # And so are the folders that were made for it.
    assert {str(it) for it in (client.outbox, client.outbox.parent, client.outbox.parent.parent)} \
        <= {path for it in trace.events if it.name == "mkdir" for path in it.paths}
    assert [] == trace.unsynced_folders(), trace.text


def test_the_client_keeps_a_certificate(room):
    line = certificate(room)
    with Answering(line) as office:
        client = Client(room / "home", office.url, caller="ana")
        trace = traced(client.words("get", "1", "--out", room / "cert"), env=client.environment())
    assert line == (room / "cert").read_bytes()
    assert [] == trace.lacks("cert"), trace.text


def test_the_client_drops_a_message_after_the_certificate_is_on_disk(room):
    line = certificate(room)
    with Answering(line, ISSUED) as office:
        client = Client(room / "home", office.url, caller="ana")
        trace = traced(client.words("request", "web/alice", "alice.pub"), env=client.environment())
    assert line == (room / "alice-cert.pub").read_bytes() and [] == client.kept()
    assert [] == trace.lacks("alice-cert.pub"), trace.text


def test_request_keeps_its_message_before_it_asks_and_the_certificate(room):
    line = certificate(room)
    with Answering(line, ISSUED) as office:
        words = ["--caller", "ana", office.url, "web", "web/alice", "alice.pub", "alice", "8h"]
        trace = traced([EXAMPLES / "request", *words])
    assert line == (room / "alice-cert.pub").read_bytes()
    assert [] == trace.lacks("alice.request") and [] == trace.lacks("alice-cert.pub"), trace.text
    assert trace.ready("alice.request") < trace.first_sent(), trace.text


# ---- what servers fetch, and what is made for a front

def list_of(room):
    """The list of an office, by a page that has no revocations, and the words that fetch it."""
    new_key("ca")
    web = Web(response(b"SSHKRL\n\0\0\0\0\1" + (0).to_bytes(8) + bytes(24)))
    return web, [PROGRAMS / "server/fetch-list", "--unsigned", "--ca", "ca.pub", web.url, "list"], ["list"]


def keys_of(room):
    new_key("ca")
    web = Web(response(pathlib.Path("ca.pub").read_bytes()))
    words = ["--fingerprint", fingerprint("ca.pub"), web.url, "cas.pub"]
    return web, [PROGRAMS / "server/fetch-ca-keys", *words], ["cas.pub"]


def stated_list_of(room):
    """The same with a statement, which is kept as well."""
    signer = Signer()
    web = Web(response(signer.published(LIST)))
    words = [PROGRAMS / "server/fetch-list", "--signers", signer.allowed, web.url, "list"]
    return web, words, ["list", "list.statement"]


def authority_of(room):
    """What `authority new` and then `caller` make."""
    run([PROGRAMS / "front/authority", "new", "authority", "office.example.org"], check=True)
    return contextlib.nullcontext(), [PROGRAMS / "front/authority", "caller", "authority", "ana"], [
        "authority/index", "authority/ana.pem"]


def new_authority_of(room):
    return contextlib.nullcontext(), [PROGRAMS / "front/authority", "new", "authority", "office.example.org"], [
        f"authority/{it}" for it in ("index", "ca.key", "ca.crt", "crl.pem", "server.key", "server.crt")]


def trusted_cas_of(room):
    """What trust-cas makes of the keys that were fetched."""
    web, _, _ = keys_of(room)
    (room / "named").write_text(fingerprint("ca.pub"))
    return web, [PROGRAMS / "server/trust-cas", "--named", "named", "ca.pub", "trusted"], ["trusted"]


# ---- what a host and set-up commands keep

def host_of(room):
    """A host whose certificate is due, and a client that gives another one. The old one is kept beside it."""
    host = Host(room, GIVES.format(room=room, renews=1))
    shutil.copy(certify(room, "host.pub", "old", days="-9d:+1d"), host.present)
    certify(room, "host.pub")
    return contextlib.nullcontext(), ["env", *(f"{it}={value}" for it, value in host.environment().items()), HOST], [
        host.present, host.old]


# Has a module, or a script as one, put a file in place.
PUT = """
import pathlib, sys
sys.path[:0] = {tests!r}, {folder!r}
from running import loaded
loaded(pathlib.Path({folder!r}, {name!r})).{call}
"""


def putting(folder, name, call):
    text = PUT.format(tests=str(TOP / "tests"), folder=str(PROGRAMS / folder), name=name, call=call)
    return ["/usr/bin/python3", "-B", "-c", text]


def root_copy_of(room):
    """The copy for sshd, once what is to become it has been looked at."""
    words = putting("server", "vethlumi-host", "put_copy(b'line', lambda path: None)")
    return contextlib.nullcontext(), ["env", f"VETHLUMI_ETC={room}", *words], ["host-cert.pub"]


def set_up_of(room):
    words = putting("setup", "setting_up.py", "put('settings', 'a line', 0o600)")
    return contextlib.nullcontext(), words, ["settings"]


KEPT = {"fetch-list": list_of, "fetch-list --signers": stated_list_of, "fetch-ca-keys": keys_of,
        "authority new": new_authority_of, "authority caller": authority_of, "trust-cas": trusted_cas_of,
        "vethlumi-host": host_of, "vethlumi-host --reload": root_copy_of, "set-up": set_up_of}


@pytest.mark.parametrize("name", KEPT)
def test_a_script_keeps_what_it_puts_in_place(room, name):
    web, words, paths = KEPT[name](room)
    with web:
        trace = traced(words)
    assert {it: [] for it in paths} == {it: trace.lacks(it) for it in paths}, trace.text


def test_a_new_authority_s_folder_stays(room):
    """With those above it that were missing."""
    trace = traced([PROGRAMS / "front/authority", "new", "some/more/authority", "office.example.org"])
    made = {path for it in trace.events if it.name == "mkdir" for path in it.paths}
    assert {str(room / it) for it in ("some", "some/more", "some/more/authority")} <= made
    assert [] == [it for it in trace.unsynced_folders() if pathlib.Path(it).exists()], trace.text


# What makes a database by set-up, as one user.
MAKE = """setting_up.as_user = lambda user, *words: setting_up.run(words)
setting_up.put_database('office', 'a.db', lambda new: setting_up.run(['sqlite3', new, 'CREATE TABLE it(a)']))"""


def test_set_up_keeps_a_database(room):
    """sqlite3 syncs its file itself."""
    text = f"import sys; sys.path.insert(0, {str(PROGRAMS / 'setup')!r})\nimport setting_up\n{MAKE}"
    trace = traced(["/usr/bin/python3", "-B", "-c", text])
    assert [] == trace.lacks("a.db"), trace.text


# Programs that stand for those of the machine; an office of the user `office`, in a /var/lib that ends with it.
RESTORE = """
mount --bind passwd /etc/passwd
mount --bind group /etc/group
mount -t tmpfs -o mode=755 tmpfs /var/lib
mkdir /var/lib/bin
cp -L {program} /var/lib/bin/sshoffice
printf '#!/bin/sh\n[ "$1" != cat ]\n' >/var/lib/bin/systemctl
printf '#!/bin/sh\n' >/var/lib/bin/curl
chmod 755 /var/lib/bin/*
PATH=/var/lib/bin:$PATH {restore} {copy}
"""


@pytest.mark.root
def test_office_restore_keeps_the_copy(office, room):
    for name, line in (("passwd", "office:x:54321:54321::/:/bin/false\n"), ("group", "office:x:54321:\n")):
        others = pathlib.Path("/etc", name).read_text().splitlines(keepends=True)
        (room / name).write_text("".join(it for it in others if not it.startswith("office:")) + line)
    commands = RESTORE.format(program=office.program, restore=PROGRAMS / "office/office-restore", copy=office.db)
    trace = traced(["unshare", "--mount", "bash", "-euc", commands])
    assert b"the office serves" in trace.done.stdout
    assert [] == trace.lacks("/var/lib/office/office.db"), trace.text


# ---- the trace itself

TRACE = """
7 openat(AT_FDCWD</a>, "x", O_RDONLY) = 3</a/x>
7 write(3</a/.new>, ""..., 5)           = 5
8 fsync(3</a/.new> <unfinished ...>
7 connect(4<socket:[1]>, {sa_family=AF_INET}, 16) = -1 EINPROGRESS (Operation now in progress)
8 <... fsync resumed>)                  = 0
7 rename(".new", "/a/file")             = 0
7 renameat2(AT_FDCWD</a>, "one", AT_FDCWD</b>, "two", RENAME_NOREPLACE) = 0
7 fsync(5</a>)                          = 0
7 mkdir("/a/b", 0700)                   = -1 EEXIST (File exists)
"""


def test_a_trace_is_read_as_strace_writes_it():
    found = [(it.name, it.begun, it.ended, it.paths) for it in events(TRACE, "/a") if it.name != "openat"]
    assert [("write", 2, 2, ("/a/.new",)), ("connect", 4, 4, ()), ("fsync", 3, 5, ("/a/.new",)),
            ("rename", 6, 6, ("/a/.new", "/a/file")), ("renameat2", 7, 7, ("/a/one", "/b/two")),
            ("fsync", 8, 8, ("/a",))] == found


@pytest.mark.parametrize("commands, lacks", [
    ("echo a >new; sync new; mv new file; sync .", []), ("echo a >new; mv new file; sync .", ["bytes"]),
    ("echo a >new; sync new; mv new file", ["folder"]), ("echo a >new; sync new; sync .; mv new file", ["folder"]),
    ("echo a >new; sync new; echo b >>new; mv new file; sync .", ["bytes"]), ("echo a >file; sync file .", ["rename"]),
    ("mkdir a; echo a >a/b; sync a/b; mv a c; mv c/b file; sync .", []),
    ("mkdir a; echo a >a/b; mv a c; mv c/b file; sync .", ["bytes"]),
])
def test_what_a_script_lacks_is_seen(room, commands, lacks):
    found = Trace(["bash", "-c", commands]).lacks("file")
    assert len(lacks) == len(found) and all(word in text for word, text in zip(lacks, found)), found
