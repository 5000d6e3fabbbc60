"""Certificates of an office beside other people's programs than OpenSSH: Go's x/crypto/ssh, asyncssh and cryptography.

One office issues the certificates, and the station signs them. Each peer reads them, and says for whom, where and
when they are good. Then a user's and a host's are shown by two who connect. The keys are of all seven types. Nobody has
the private halves of the security keys, so these connect nowhere: test_key_types.py has logins with them.
"""
import asyncio
import base64
import dataclasses
import json
import logging
import os
import time

import asyncssh
import pytest
from cryptography.exceptions import InvalidSignature, UnsupportedAlgorithm
from cryptography.hazmat.primitives import serialization

from asking import EVERYTHING, EXTENSIONS, LATEST, OPTIONS, department, issue, post, revoke_keyid, revoke_serial, string
from running import TOP, Office, new_key, run
from stations import Guard, Station
from subject_keys import CERTIFICATES, ED25519, LINES, P256, P384, P521, RSA, SK_ED25519, SK_P256

pytestmark = pytest.mark.xdist_group("peers")

NOW = int(time.time())
HOUR = {"after": NOW - 60, "before": NOW + 7200}
USER, HOST = 1, 2

# How ssh-keygen makes keys of the other types, and the types that it makes with a device alone.
OTHERS = {P256: ("ecdsa", "-b", 256), P384: ("ecdsa", "-b", 384), P521: ("ecdsa", "-b", 521), RSA: ("rsa", "-b", 3072)}
SECURITY = SK_ED25519, SK_P256
# Each certificate by its name: what is asked for.
ASKED = {
    "alice": dict(keyid="web/alice", principals="alice,deploy@example.org", extensions="permit-pty", **HOUR),
    "forced": dict(keyid="web/forced", principals="alice", options=("force-command /usr/bin/uptime -p",), **HOUR),
    "near": dict(keyid="web/near", principals="alice", options=("source-address 127.0.0.1/32,10.0.0.0/8",), **HOUR),
    "far": dict(keyid="web/far", principals="alice", options=("source-address 10.0.0.0/8",), **HOUR),
    "fido": dict(keyid="web/fido", principals="alice", options=("verify-required",), **HOUR),
    "all": dict(keyid="web/~all", principals="alice,bob", extensions=EXTENSIONS, after=1000, before=LATEST, options=(
        "verify-required", "source-address 0.0.0.0/0", "force-command /bin/true")),
    "late": dict(keyid="web/late", principals="alice", after=NOW + 100000, before=NOW + 200000),
    "host": dict(keyid="db/host", principals="localhost,a.example.org", **HOUR),
    "elsewhere": dict(keyid="db/elsewhere", principals="elsewhere.example.org", **HOUR),
    **{kind: dict(keyid=f"web/{kind}", principals="alice", extensions="permit-pty", **HOUR)
       for kind in (*OTHERS, *SECURITY)},
    **{f"host-{kind}": dict(keyid=f"db/{kind}", principals="localhost", **HOUR) for kind in OTHERS},
}
SERIALS = {name: serial for serial, name in enumerate(ASKED, 1)}


@dataclasses.dataclass
class Made:
    """The office, the lines of its certificates, the folder of their keys, and the lines of its CA and of another."""
    office: Office
    folder: object
    lines: dict
    authority: str
    other: str

    def key(self, name):
        return self.folder / name


def key_of(folder, name):
    """Makes the key of a certificate, and returns its public line."""
    kind = name.removeprefix("host-")
    if kind not in SECURITY:
        return new_key(folder / name, None, *OTHERS.get(kind, ()))
    (folder / f"{name}.pub").write_text(LINES[kind])
    return LINES[kind]


@pytest.fixture(scope="module")
def made(program, sshstation, tmp_path_factory):
    folder = tmp_path_factory.mktemp("peers")
    office, other = (Office(program, folder / f"{it}.db") for it in ("office", "other"))
    lines = {}
    web = department("web", principals="alice,bob,*@example.org", key_types=[*CERTIFICATES], **EVERYTHING)
    db = department("db", kind="host", principals="localhost,*.example.org", key_types=[ED25519, *OTHERS])
    guard = Guard(sshstation, folder / "guard.db", office.ca, web + db)
    with office.serving() as served:
        for name, message in (("web", web), ("db", db)):
            assert 200 == served.post("root", name, message).status
        for name, words in ASKED.items():
            key = key_of(folder, name)
            answer = served.post("root", f"k{SERIALS[name]}", issue(key=key, **words)).text
            assert f"issued {SERIALS[name]}" == answer.split("\n")[0]
        assert [*SERIALS.values()] == Station(guard, served.url, ["--key", office.ca_key]).sign()
        for name, serial in SERIALS.items():
            lines[name] = served.get(f"/v1/certs/{serial}").text.strip()
    return Made(office, folder, lines, *(it.ca.read_text().strip() for it in (office, other)))


def option(line):
    name, _, value = line.partition(" ")
    return name, value


def fields(name):
    """What a certificate is to say: its key id, serial, kind, principals, validity, options and extensions."""
    words = ASKED[name]
    extensions = words.get("extensions", ())
    flags = extensions.split(",") if isinstance(extensions, str) else extensions
    return (words["keyid"], SERIALS[name], USER if words["keyid"].startswith("web/") else HOST,
            words["principals"].split(","), words["after"], words["before"],
            dict(map(option, words.get("options", ()))), dict.fromkeys(flags, ""))


# ---- Go

@pytest.fixture(scope="module")
def go(tmp_path_factory):
    """Asks the program of peers/certificates.go."""
    folder = tmp_path_factory.mktemp("go")
    how = os.environ | {"GO111MODULE": "off", "GOPATH": "/usr/share/gocode", "GOCACHE": str(folder / "cache"),
                        "GOFLAGS": "", "HOME": str(folder)}
    run(["go", "build", "-o", folder / "certificates", TOP / "tests/peers/certificates.go"], env=how, check=True)

    def ask(questions):
        asked = json.dumps(questions).encode()
        return json.loads(run([folder / "certificates"], input=asked, stdin=None, check=True).stdout)

    return ask


def question(made, name="alice", of="alice", kind="user", **words):
    """Whether a certificate is good for this user or host, at this moment, to who trusts the office's CA."""
    return {"Line": made.lines[name], "Authority": made.authority, "As": kind, "Name": of, "Moment": NOW} | words


@pytest.mark.parametrize("name", ASKED)
def test_go_reads_what_was_asked_for(made, go, name):
    it, = go([question(made, name)])
    assert fields(name) == (it["KeyId"], it["Serial"], it["Kind"], it["Principals"], it["After"], it["Before"],
                            it["Options"], it["Extensions"])


HOST_AT = dict(name="host", of="localhost:22", kind="host")
NOT_FOR = 'principal "{}" not in the set of valid principals'
UNKNOWN = 'unsupported critical option "{}"'
# What is asked, and what the fault says, or nothing.
CHECKED = [
    ({}, ""),
    ({"of": "deploy@example.org"}, ""),
    ({"of": "bob"}, NOT_FOR.format("bob")),
    ({"of": "alice@example.org"}, NOT_FOR.format("alice@example.org")),
    ({"Moment": NOW - 61}, "cert is not yet valid"),
    ({"Moment": NOW - 60}, ""),
    ({"Moment": NOW + 7199}, ""),
    ({"Moment": NOW + 7200}, "cert has expired"),
    ({"name": "all", "Moment": LATEST - 1, "Options": OPTIONS}, ""),
    ({"name": "all", "Moment": LATEST, "Options": OPTIONS}, "cert has expired"),
    ({"name": "late"}, "cert is not yet valid"),
    ({"name": "forced"}, UNKNOWN.format("force-command")),
    ({"name": "forced", "Options": ["force-command"]}, ""),
    ({"name": "fido", "Options": ["force-command"]}, UNKNOWN.format("verify-required")),
    ({"name": "all", "Options": ["verify-required"]}, UNKNOWN.format("force-command")),
    ({"name": "far"}, ""),
    ({"Revoked": [2, 1]}, "certificate serial 1 revoked"),
    ({"Revoked": [2, 3]}, ""),
    ({"name": "host"}, "cert has type 2"),
    (HOST_AT, ""),
    (HOST_AT | {"of": "a.example.org:22"}, ""),
    (HOST_AT | {"of": "b.example.org:22"}, NOT_FOR.format("b.example.org")),
    (HOST_AT | {"name": "alice"}, "certificate presented as a host key has type 1"),
    (HOST_AT | {"name": "elsewhere", "of": "elsewhere.example.org:22"}, "no authorities for hostname"),
    (HOST_AT | {"Moment": NOW + 7200}, "cert has expired"),
    (HOST_AT | {"Revoked": [SERIALS["host"]]}, f"certificate serial {SERIALS['host']} revoked"),
    *(({"name": kind}, "") for kind in (*OTHERS, *SECURITY)),
    *(({"name": kind, "of": "bob"}, NOT_FOR.format("bob")) for kind in (*OTHERS, *SECURITY)),
    *((HOST_AT | {"name": f"host-{kind}"}, "") for kind in OTHERS),
]


@pytest.mark.parametrize(("words", "fault"), CHECKED, ids=[f"{place}: {it[1]}" for place, it in enumerate(CHECKED)])
def test_gos_checker_decides(made, go, words, fault):
    it, = go([question(made, **words)])
    assert (True, bool(fault)) == (fault in it["Fault"], bool(it["Fault"])), it["Fault"]


@pytest.mark.parametrize(("words", "fault"), [
    ({}, "signed by unrecognized authority"), (HOST_AT, "no authorities for hostname")])
def test_gos_checker_trusts_no_other_ca(made, go, words, fault):
    it, = go([question(made, **words, Authority=made.other)])
    assert fault in it["Fault"]


@pytest.mark.parametrize(("kind", "of", "fault"), [
    ("user", "alice", "normal key pairs not accepted"), ("host", "localhost:22", "non-certificate host key")])
def test_a_key_without_certificate_goes_to_gos_fallback(made, go, kind, of, fault):
    key = (made.folder / "alice.pub").read_text()
    refused, taken, certificate = go([question(made, kind=kind, of=of, Line=key),
                                      question(made, kind=kind, of=of, Line=key, TakesKeys=True),
                                      question(made, of="bob", TakesKeys=True)])
    assert (True, "") == (fault in refused["Fault"], taken["Fault"])
    assert NOT_FOR.format("bob") in certificate["Fault"]


# Of which certificates a bit is changed, and where: in the last byte of these, or in the first one of the nonce. The
# last byte of a security key is that of its application.
CHANGED = [(name, what) for name in ("alice", *OTHERS, *SECURITY)
           for what in ("nonce", "key", "serial", "principal", "signature")]


def turned(made, name, what):
    """The line of a certificate in which a bit is another."""
    kind, text, comment = made.lines[name].split(" ")
    data, words = bytearray(base64.b64decode(text)), ASKED[name]
    key_id = data.index(string(words["keyid"].encode()))
    principal = string(words["principals"].split(",")[-1].encode())
    place = {"nonce": len(string(kind.encode())) + 4, "key": key_id - 13, "serial": key_id - 5,
             "principal": data.index(principal, key_id) + len(principal) - 1, "signature": len(data) - 1}[what]
    data[place] ^= 1
    return f"{kind} {base64.b64encode(data).decode()} {comment}"


@pytest.mark.parametrize(("name", "what"), CHANGED)
def test_go_finds_that_a_certificate_was_changed(made, go, name, what):
    it, = go([question(made, Line=turned(made, name, what))])
    assert it["Fault"], "Go takes it"


def test_go_refuses_what_the_list_revokes(made, go):
    """The list of the office, after a serial and a key id were revoked, says which certificates Go is to refuse."""
    office = made.office
    messages = {"s": revoke_serial(SERIALS["alice"]), "k": revoke_keyid("web/near")}
    assert [200, 200] == [it.status for it in office.apply(post("root", *it) for it in messages.items())]
    (made.folder / "list").write_bytes(office.krl())
    found = [serial for name, serial in SERIALS.items() if b"revoked\n" == office.must(
        "check", "--ca", office.ca, made.folder / "list", serial, ASKED[name]["keyid"])]
    assert [SERIALS["alice"], SERIALS["near"]] == found
    faults = go([question(made, name, Options=OPTIONS, Revoked=found) for name in ("alice", "near", "far", "forced")])
    assert [True, True, False, False] == ["revoked" in it["Fault"] for it in faults]


# A user's certificate, the user's name, the host's certificate, from where the client comes, what the forced command
# is, and what the fault says.
CONNECTED = [
    ("alice", "alice", "host", "127.0.0.1", "", ""),
    ("alice", "bob", "host", "127.0.0.1", "", "unable to authenticate"),
    ("forced", "alice", "host", "127.0.0.1", "/usr/bin/uptime -p", ""),
    ("near", "alice", "host", "127.0.0.1", "", ""),
    ("near", "alice", "host", "127.0.0.2", "", "unable to authenticate"),
    ("far", "alice", "host", "127.0.0.1", "", "unable to authenticate"),
    ("fido", "alice", "host", "127.0.0.1", "", "unable to authenticate"),
    ("late", "alice", "host", "127.0.0.1", "", "unable to authenticate"),
    ("alice", "alice", "elsewhere", "127.0.0.1", "", NOT_FOR.format("localhost")),
    *((kind, "alice", "host", "127.0.0.1", "", "") for kind in OTHERS),
    *((kind, "bob", "host", "127.0.0.1", "", "unable to authenticate") for kind in OTHERS),
    *(("alice", "alice", f"host-{kind}", "127.0.0.1", "", "") for kind in OTHERS),
]


@pytest.mark.parametrize(("user", "name", "host", "address", "command", "fault"), CONNECTED)
def test_gos_client_and_server_connect(made, go, user, name, host, address, command, fault):
    it, = go([question(made, user, of=name, Key=str(made.key(user)), HostLine=made.lines[host],
                       HostKey=str(made.key(host)), From=address, Options=["force-command"])])
    assert (command, True, bool(fault)) == (it["KeyId"], fault in it["Fault"], bool(it["Fault"])), it["Fault"]


# ---- asyncssh

@pytest.fixture(autouse=True)
def quiet():
    logging.getLogger("asyncssh").setLevel(logging.CRITICAL)


# Debian 12's asyncssh 2.10 doesn't know the critical option verify-required, and refuses what has it.
UNKNOWN_THERE = "fido", "all"


@pytest.mark.parametrize("name", UNKNOWN_THERE)
def test_asyncssh_refuses_a_critical_option_that_it_does_not_know(made, name):
    with pytest.raises(asyncssh.KeyImportError):
        asyncssh.import_certificate(made.lines[name])


@pytest.mark.parametrize("name", ASKED)
def test_asyncssh_reads_what_was_asked_for(made, monkeypatch, name):
    """It looks at the signature as it reads."""
    if name in UNKNOWN_THERE:
        kind = asyncssh.public_key.SSHOpenSSHCertificateV01
        monkeypatch.setitem(kind._user_option_decoders, b"verify-required", lambda data: "")
    it = asyncssh.import_certificate(made.lines[name])
    options = {key: value for key, value in it.options.items() if key in OPTIONS}
    shown = {key: ",".join(map(str, value)) if key == "source-address" else value for key, value in options.items()}
    flags = dict.fromkeys(it.options.keys() - options.keys(), "")
    key_id, serial, kind, principals, after, before, due, extensions = fields(name)
    assert (key_id, serial, kind, principals, after, before) == (
        it._key_id, it._serial, it._cert_type, it.principals, it._valid_after, it._valid_before)
    assert (due, extensions) == (shown, flags)
    assert asyncssh.import_public_key(made.authority) == it.signing_key


@pytest.mark.parametrize(("name", "what"), CHANGED)
def test_asyncssh_finds_that_a_certificate_was_changed(made, name, what):
    with pytest.raises(asyncssh.KeyImportError):
        asyncssh.import_certificate(turned(made, name, what))


async def connected(made, user, name, host, *, trusted=None, at="localhost", address="127.0.0.1"):
    """What a command prints that a user has a host run: the command that the host runs in its place."""
    def pair(it):
        return asyncssh.read_private_key(str(made.key(it))), asyncssh.import_certificate(made.lines[it])

    def ran(process):
        process.stdout.write(process.command or "none")
        process.exit(0)

    keys = asyncssh.import_authorized_keys(f"cert-authority {made.authority}\n")
    known = asyncssh.import_known_hosts(f"@cert-authority {at} {trusted or made.authority}\n")
    server = await asyncssh.listen("127.0.0.1", 0, server_host_keys=[pair(host)], authorized_client_keys=keys,
                                   process_factory=ran)
    try:
        port = server.sockets[0].getsockname()[1]
        async with asyncssh.connect(at, port, username=name, client_keys=[pair(user)], known_hosts=known,
                                    local_addr=(address, 0), agent_path=None, config=None) as connection:
            return (await connection.run("hello", check=True)).stdout
    finally:
        server.close()
        await server.wait_closed()


# A user's certificate, the user's name, the host's certificate, further words, and what is printed or raised.
MET = [
    ("alice", "alice", "host", {}, "hello"),
    ("alice", "deploy@example.org", "host", {}, "hello"),
    ("alice", "bob", "host", {}, asyncssh.PermissionDenied),
    ("forced", "alice", "host", {}, "/usr/bin/uptime -p"),
    ("near", "alice", "host", {}, "hello"),
    ("near", "alice", "host", {"address": "127.0.0.2"}, asyncssh.PermissionDenied),
    ("far", "alice", "host", {}, asyncssh.PermissionDenied),
    ("late", "alice", "host", {}, asyncssh.PermissionDenied),
    ("host", "localhost", "host", {}, asyncssh.PermissionDenied),
    ("alice", "alice", "elsewhere", {}, asyncssh.HostKeyNotVerifiable),
    ("alice", "alice", "host", {"at": "127.0.0.1"}, asyncssh.HostKeyNotVerifiable),
    ("alice", "alice", "host", {"trusted": "other"}, asyncssh.HostKeyNotVerifiable),
    *((kind, "alice", "host", {}, "hello") for kind in OTHERS),
    *((kind, "bob", "host", {}, asyncssh.PermissionDenied) for kind in OTHERS),
    *(("alice", "alice", f"host-{kind}", {}, "hello") for kind in OTHERS),
]


@pytest.mark.parametrize(("user", "name", "host", "words", "wanted"), MET)
def test_asyncssh_client_and_server_connect(made, user, name, host, words, wanted):
    words = words | ({"trusted": made.other} if "trusted" in words else {})
    if isinstance(wanted, str):
        assert wanted == asyncio.run(connected(made, user, name, host, **words))
    else:
        with pytest.raises(wanted):
            asyncio.run(connected(made, user, name, host, **words))


# ---- cryptography

# Behind the body stands a string that is the blob of the signature, whose last 64 bytes the signature is.
BEHIND_BODY, SIGNATURE = 4 + 83, 64


def is_verified(line, authority):
    """Whether the signature of a certificate is the CA's, by the key that cryptography reads in the CA's line."""
    data = base64.b64decode(line.split(" ")[1])
    try:
        serialization.load_ssh_public_key(authority.encode()).verify(data[-SIGNATURE:], data[:-BEHIND_BODY])
    except InvalidSignature:
        return False
    return True


def key_in(line):
    """The key that cryptography reads in a line, of a key or of a certificate, as a line of the key."""
    key = serialization.load_ssh_public_key(line.encode())
    return key.public_bytes(serialization.Encoding.OpenSSH, serialization.PublicFormat.OpenSSH).decode()


@pytest.mark.parametrize("name", ASKED)
def test_cryptography_verifies_each_certificate(made, name):
    """Debian 12's cryptography 38 reads the key in a certificate, and has no call that verifies one whole."""
    assert [True, False] == [is_verified(made.lines[name], it) for it in (made.authority, made.other)]
    if name not in SECURITY:
        key = (made.folder / f"{name}.pub").read_text()
        assert key.split()[:2] == key_in(made.lines[name]).split()


@pytest.mark.parametrize("name", SECURITY)
def test_cryptography_does_not_read_a_security_key(made, name):
    """That of Debian 12, 38.0.4, knows no such type, alone or in a certificate."""
    for line in (LINES[name], made.lines[name]):
        with pytest.raises(UnsupportedAlgorithm):
            key_in(line)


@pytest.mark.parametrize(("name", "what"), CHANGED)
def test_cryptography_finds_that_a_certificate_was_changed(made, name, what):
    assert not is_verified(turned(made, name, what), made.authority)
