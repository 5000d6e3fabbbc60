"""An office from its beginning, asked by curl and signed for by the station, beside OpenSSH's own programs: what
ssh-keygen reads in each certificate, which certificates it finds revoked under each list, and which signatures it
verifies."""
import dataclasses
import datetime
import pathlib
import time

import pytest

from asking import (EVERYTHING, EXTENSIONS, LATEST, department, issue, revoke_keyid, revoke_range, revoke_serial,
                    rollover)
from running import Office, fingerprint, init, is_revoked, new_key, run, sql
from stations import Guard, Station

pytestmark = [pytest.mark.slow, pytest.mark.xdist_group("openssh")]

WEB = department("web", principals="*@example.org,alice,bob", namespaces="file,git", **EVERYTHING)
DB = department("db", kind="host", admins="", principals="*.example.org")
NOW = int(time.time())
# As the tests may take long, nothing ends within hours.
HOURS = {"after": NOW - 60, "before": NOW + 36000}

# Certificates, from the serial 7 on: who asks, the key id, the principals, the validity, options and extensions.
FIRST = 7
ASKED = [
    ("ana", "web/alice", "alice", HOURS, (), ()),
    ("ana", "web/bob", "bob", HOURS, (), ("permit-pty",)),
    ("root", "web/both", "alice,bob,x@example.org", {"after": 1000, "before": NOW + 20000}, (), EXTENSIONS),
    ("root", 'web/~!"#', "alice", {"after": 0, "before": NOW + 20000}, ("force-command /usr/bin/uptime -p",),
     ("permit-user-rc",)),
    ("ana", "web/net", "bob", {"after": 1000, "before": LATEST}, ("source-address 10.0.0.0/8,192.0.2.7/32",), ()),
    ("ana", "web/fido", "bob", {"after": 1, "before": 4102444800}, ("verify-required",), ("no-touch-required",)),
    ("ana", "web/all", "alice", {"after": 1000, "before": NOW + 20000},
     ("verify-required", "source-address 0.0.0.0/0", "force-command /bin/true"), EXTENSIONS),
    ("root", "db/host", "a.example.org,b.example.org", HOURS, (), ()),
    ("ana", "web/alice", "alice", {"after": NOW + 1000, "before": NOW + 40000}, (), ()),
]
# Those that come after another CA.
LATER = [
    ("ana", "web/new", "alice", HOURS, (), ("permit-pty",)),
    ("root", "db/new", "c.example.org", HOURS, (), ()),
    ("ana", "web/bob", "bob", HOURS, (), ()),
]
SERIALS = range(FIRST, FIRST + len(ASKED) + len(LATER))


@dataclasses.dataclass
class Story:
    """An office, its server and its two CAs, in the folder where the keys and certificates lie."""
    office: Office
    folder: pathlib.Path
    sshstation: pathlib.Path
    served: object = None
    # The list, and the serials that messages had named, at each step.
    lists: dict = dataclasses.field(default_factory=dict)
    signed: dict = dataclasses.field(default_factory=dict)

    def curl(self, path, *words, **how):
        return run(["curl", "-sS", *words, self.served.url + path], check=True, **how).stdout

    def send(self, caller, key, message):
        """The lines of the answer."""
        path = f"/v1/callers/{caller}/requests/{key}"
        return self.curl(path, "--data-binary", "@-", input=message.encode(), stdin=None).decode().splitlines()

    def ask_for(self, first, rows):
        for serial, (caller, key_id, principals, validity, options, extensions) in enumerate(rows, first):
            key = new_key(self.folder / str(serial), f"key {serial}")
            reply = self.send(caller, f"issue-{serial}", issue(
                key_id, key=key, principals=principals, options=options, extensions=extensions, **validity))
            assert f"issued {serial}" == reply[0]

    def sign(self, what, office, other):
        """Signs what is pending for an office's CA, and leaves alone what is for the other's."""
        guard = Guard(self.sshstation, self.folder / f"{what}.guard", office.ca, WEB + DB)
        self.signed[what] = Station(guard, self.served.url, ["--key", office.ca_key], other_cas=[other.ca]).sign()
        for serial in self.signed[what]:
            (self.folder / f"{serial}-cert.pub").write_bytes(self.curl(f"/v1/certs/{serial}", "-f"))

    def keep_list(self, what, *revoked):
        before = [*self.lists.values()][-1][1] if self.lists else set()
        (self.folder / f"list {what}").write_bytes(self.curl("/v1/krl", "-f"))
        self.lists[what] = f"list {what}", before | {*revoked}


@pytest.fixture(scope="module")
def story(program, sshstation, tmp_path_factory):
    """All that is asked of the office and of the station, with what came, and the served pages as files."""
    folder = tmp_path_factory.mktemp("openssh")
    office = Office(program, folder / "office.db", first=FIRST, last=1000)
    new = Office(program, folder / "new.db")
    it = Story(office, folder, sshstation)
    with open(folder / "faults", "wb") as faults, office.serving(stderr=faults) as it.served:
        it.while_served = office.run("table", "--db", office.db)
        it.departments = [it.send("root", name, text) for name, text in (("web", WEB), ("db", DB))]
        it.ask_for(FIRST, ASKED)
        it.sign("old", office, new)
        it.pending = it.curl("/v1/pending", "-f")
        it.keep_list("nothing")
        for what, message, caller, revoked in (
                ("a serial", revoke_serial(8), "ana", [8]), ("a range", revoke_range(10, 12), "root", [10, 11, 12]),
                ("a key id", revoke_keyid("web/alice"), "ana", [7, 15])):
            assert "revoked" == it.send(caller, f"revoke-{revoked[0]}", message)[0]
            it.keep_list(what, *revoked)
        it.rolled = it.send("root", "rollover", rollover(new.ca.read_text().strip()))
        it.ask_for(FIRST + len(ASKED), LATER)
        it.sign("old again", office, new)
        it.sign("new", new, office)
        it.keep_list("two CAs")
        assert "revoked" == it.send("root", "across", revoke_range(14, 17))[0]
        it.keep_list("a range across the rollover", 14, 16, 17)
        for page in ("signers", "table", "krl"):
            (folder / page).write_bytes(it.curl(f"/v1/{page}", "-f"))
        # What stands behind # isn't sent.
        it.many = it.curl("/v1/table#[1-1000]", "-o", "/dev/null", "-w", "%{http_code}\n").split()
    it.cas = {serial: (office if serial < FIRST + len(ASKED) else new).ca for serial in SERIALS}
    return it


def test_the_office_says_its_serials_and_its_ca(story):
    office = story.office
    assert f"office ready 7 1000\nca {fingerprint(office.ca)}\n" == office.opened.decode()
    assert (1, b"", b"sshoffice: Device\n") == story.while_served, "while it is served the file is its own"
    assert [["department web"], ["department db"]] == story.departments


def test_the_station_signs_what_waits_for_its_key(story):
    assert {"old": [*range(7, 16)], "old again": [], "new": [16, 17, 18]} == story.signed
    assert b"" == story.pending, "nothing waits any more"
    assert ["rollover 2", "since 16"] == story.rolled


def shown(name, words):
    """A field of ssh-keygen -L with some words, sorted as the format sorts them."""
    if not words:
        return f"        {name}: (none)\n"
    return f"        {name}: \n" + "".join(f"                {it}\n" for it in sorted(words))


def date(moment):
    return f"{datetime.datetime.fromtimestamp(moment, datetime.timezone.utc):%Y-%m-%dT%H:%M:%S}"


def described(serial, row, ca, public):
    """What ssh-keygen -L is to say of a certificate."""
    _, key_id, principals, validity, options, extensions = row
    kind = "user" if key_id.startswith("web/") else "host"
    begins = f"from {date(validity['after'])} to" if validity["after"] else "before"
    return (f"        Type: ssh-ed25519-cert-v01@openssh.com {kind} certificate\n"
            f"        Public key: ED25519-CERT {fingerprint(public)}\n"
            f"        Signing CA: ED25519 {fingerprint(ca)} (using ssh-ed25519)\n"
            f'        Key ID: "{key_id}"\n        Serial: {serial}\n'
            f"        Valid: {begins} {date(validity['before'])}\n        Principals: \n"
            + "".join(f"                {it}\n" for it in principals.split(","))
            + shown("Critical Options", options) + shown("Extensions", extensions))


@pytest.mark.parametrize(("serial", "row"), [*zip(SERIALS, ASKED + LATER)], ids=SERIALS)
def test_ssh_keygen_reads_a_certificate_as_it_was_asked_for(story, serial, row):
    said = run(["ssh-keygen", "-L", "-f", story.folder / f"{serial}-cert.pub"], check=True).stdout.decode()
    wanted = described(serial, row, story.cas[serial], story.folder / f"{serial}.pub")
    assert [it.rstrip() for it in wanted.splitlines()] == [it.rstrip() for it in said.splitlines()[1:]]


@pytest.mark.parametrize("what", ["nothing", "a serial", "a range", "a key id", "two CAs",
                                  "a range across the rollover"])
def test_ssh_keygen_and_we_find_just_those_revoked(story, what):
    name, revoked = story.lists[what]
    file = story.folder / name
    key_ids = dict(zip(SERIALS, [it[1] for it in ASKED + LATER]))
    last = SERIALS[-1] if what in ("two CAs", "a range across the rollover") else FIRST + len(ASKED) - 1
    serials = range(FIRST, last + 1)
    by_keygen = {it for it in serials if is_revoked(file, story.folder / f"{it}-cert.pub")}
    by_office = {it for it in serials if b"revoked\n" == story.office.must(
        "check", "--ca", story.cas[it], file, it, key_ids[it])}
    assert (revoked, revoked) == (by_keygen, by_office)


# ---- signers

@pytest.fixture
def signature(story, room):
    """Signs the file `text` with a serial's certificate."""
    (room / "text").write_text("text\n")

    def of(serial):
        for end in ("", ".pub", "-cert.pub"):
            (room / f"key{end}").write_bytes((story.folder / f"{serial}{end}").read_bytes())
        (room / "key").chmod(0o600)
        run(["ssh-keygen", "-q", "-Y", "sign", "-n", "file", "-f", "key-cert.pub", "text"], check=True)

    return of


@pytest.mark.parametrize(("serial", "principal", "namespace", "has_list", "is_verified"), [
    (18, "bob", "file", False, True), (18, "alice", "file", False, False), (18, "bob", "git", False, False),
    (7, "alice", "file", False, True), (7, "alice", "file", True, False), (8, "bob", "file", True, False)],
    ids=["under the second CA", "another principal", "another namespace", "under the first CA", "revoked by its key id",
         "revoked by its serial"])
def test_ssh_keygen_verifies_signatures_by_the_signers(story, signature, serial, principal, namespace, has_list,
                                                       is_verified):
    signature(serial)
    words = ["ssh-keygen", "-Y", "verify", "-f", story.folder / "signers", "-I", principal, "-n", namespace, "-s",
             "text.sig", *(["-r", story.folder / "krl"] if has_list else [])]
    assert is_verified == (run(words, input=b"text\n", stdin=None).returncode == 0)


def test_ssh_keygen_finds_the_principal_of_a_signature(story, signature):
    signature(18)
    found = run(["ssh-keygen", "-Y", "find-principals", "-f", story.folder / "signers", "-s", "text.sig"], check=True)
    assert b"bob" == found.stdout.strip()


# ---- the file behind the server

def test_a_thousand_requests_are_answered_and_no_fault_is_met(story):
    assert [b"200"] * 1000 == story.many
    assert b"" == (story.folder / "faults").read_bytes()


def test_the_commands_print_what_was_served(story):
    office = story.office
    for name, printed in (("krl", office.krl()), ("signers", office.signers()), ("table", office.table())):
        assert (story.folder / name).read_bytes() == printed, name
    assert (1, b"", b"sshoffice: AlreadyAnOffice\n") == office.run(*init(office.db, office.ca, first=7, last=1000))


@pytest.mark.parametrize(("query", "rows"), [
    ("PRAGMA integrity_check", "ok"),
    ("SELECT group_concat(serial, ' ') FROM (SELECT serial FROM cert ORDER BY serial)", " ".join(map(str, SERIALS))),
    ("SELECT lo, hi FROM run ORDER BY lo", "8|8\n10|12\n14|17"),
    ("SELECT number, since FROM ca ORDER BY number", "1|7\n2|16"),
    ("SELECT keyid FROM revoked_keyid", "web/alice"),
    ("SELECT name, kind, admins FROM department ORDER BY name", "db|2|\nweb|1|ana")])
def test_sqlite3_finds_the_rows(story, query, rows):
    assert rows == sql(story.office.db, query)
