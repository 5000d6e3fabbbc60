"""Sign-on, for administrators: `vethlumi leave` and `people`, before an office that is as it should be, or not."""
import json
import os
import pty
import subprocess

import pytest

from fetching import response
from running import run, until
from signing_on import Answering
from test_hostile_office import EMPTY_KRL, krl, string, table
from test_vethlumi import Client, alice, clients, policy  # noqa: F401

LAST = 253402300799
ANA, LATER, BEN = "aaaabbbbccccdddd", "eeeeffff22223333", "bbbbbbbbbbbbbbbb"
DEPARTMENTS = "".join(f"department {name}\nkind {kind}\nadmins root\nprincipals *\noptions\nextensions\nmaxlife 36060\n"
                      "namespaces\n" for name, kind in (("hosts", "host"), ("operators", "user"), ("people", "user")))
BOTH = "disable the account at the identity provider too, and end its sessions there. Neither is enough alone"


def row(key_id, serial=1, state="signed ", after=0, before=LAST, kind="user"):
    return f"{serial:19d}  {kind}  {state}  {after:>12}  {before:12d}  {key_id}\n"


class Office(Answering):
    """Has a table of key IDs or of rows, and revokes key IDs."""

    def __init__(self, *rows, refused=()):
        super().__init__()
        self.rows = [row(it, number + 1) if "\n" not in it else it for number, it in enumerate(rows)]
        self.refused, self.gone, self.messages = refused, [], []

    def answer_to(self, method, path, query, body):
        if method == "POST":
            word, key_id = body.decode().split()
            self.messages.append((path.rpartition("/")[2], key_id))
            assert word == "revoke-keyid"
            if key_id.partition("/")[0] in self.refused:
                return response(b"refused 10 NotAllowed\n", "403 Forbidden")
            self.gone.append(key_id)
            return response(b"revoked\nversion %d\n" % len(self.gone))
        gone = b"".join(string(it.encode()) for it in sorted(self.gone))
        return response({"/v1/table": table(*self.rows), "/v1/departments": DEPARTMENTS.encode(),
                         "/v1/krl": krl(b"\x23" + string(gone)) if gone else EMPTY_KRL}[path])

    def revoked(self):
        return [key_id for _, key_id in self.messages]


@pytest.fixture
def leaving(room):
    """Begins an office with these rows: its `leave` and `people` are typed by root."""
    made = []

    def begin(*rows, settings=None, **how):
        office = Office(*rows, **how)
        made.append(office)
        office.client = Client(room / f"home-{len(made)}", office.url, caller="root", **settings or {})
        office.leave = lambda *words: office.client("--wait", "5", "leave", "--yes", *words)
        return office
    yield begin
    for it in made:
        it.__exit__()


# ---- leave

def test_somebody_who_leaves_is_revoked_in_each_department(leaving):
    """Also in the one in which nobody has a certificate, and in none for hosts."""
    office = leaving(f"people/ben/{BEN}", f"people/ana/{ANA}", "people/ana", f"hosts/ana.example.org")
    status, out, told = office.leave("ana")
    due = [f"people/ana/{ANA}", f"operators/ana/{ANA}"]
    assert (0, due) == (status, office.revoked())
    assert "".join(f"{it} revoked; the list has version {at}\n" for at, it in enumerate(due, 1)) == out
    assert f"vethlumi: {BOTH}" in told and [] == office.client.kept()


def test_each_name_that_an_account_had(leaving):
    office = leaving(f"people/ana/{ANA}", f"people/ana.old/{ANA}", row(f"operators/ana_m/{ANA}", 3, before=1),
                     f"people/ana.old/{BEN}")
    assert 0 == office.leave("ana.old", "--tag", ANA)[0]
    due = {f"{department}/{name}/{ANA}" for department in ("people", "operators")
           for name in ("ana", "ana.old", "ana_m")}
    assert due == {*office.revoked()} and 6 == len(office.revoked())
    # What can still be used ends first.
    assert {f"people/ana/{ANA}", f"people/ana.old/{ANA}"} == {*office.revoked()[:2]}


def test_the_departments_of_the_settings(leaving):
    office = leaving(f"people/ana/{ANA}", f"elsewhere/ana/{ANA}", settings={"signon": "people, operators"})
    assert 0 == office.leave("ana")[0]
    # One that has certificates of the account isn't forgotten.
    assert [f"{it}/ana/{ANA}" for it in ("people", "elsewhere", "operators")] == office.revoked()
    assert 0 == office.times("/v1/departments")


def test_one_department(leaving):
    office = leaving(f"people/ana/{ANA}", f"operators/ana/{LATER}")
    assert 0 == office.leave("ana", "--department", "people")[0]
    assert [f"people/ana/{ANA}"] == office.revoked()


# The tag of an account, as other programs make it.
CORP = "https://login.example.org/realms/corp"
TAG = rf"printf '%s\n%s' {CORP} sub-ana | openssl dgst -sha256 -binary | head -c 10 | base32"


def test_somebody_without_a_certificate(leaving):
    tag = run(["bash", "-c", TAG], check=True).stdout.decode().strip().lower()
    assert 16 == len(tag)
    office = leaving(f"people/ana/{LATER}", settings={"provider": CORP})
    assert 0 == office.leave("ana", "--subject", "sub-ana")[0]
    assert {f"{it}/ana/{tag}" for it in ("people", "operators")} == {*office.revoked()}


def test_a_subject_that_had_other_names(leaving):
    tag = run(["bash", "-c", TAG], check=True).stdout.decode().strip().lower()
    office = leaving(f"people/anna/{tag}", f"people/ana/{LATER}", settings={"provider": CORP})
    assert 0 == office.leave("ana", "--subject", "sub-ana")[0]
    assert {f"{it}/{name}/{tag}" for it in ("people", "operators") for name in ("ana", "anna")} == {*office.revoked()}


def test_a_name_of_two_accounts(leaving):
    """A name may be given to somebody else: nobody is revoked by it until one of the accounts is."""
    office = leaving(f"people/ana/{ANA}", f"people/ana/{LATER}")
    status, out, told = office.leave("ana")
    assert (2, "", []) == (status, out, office.revoked())
    assert f"several accounts had the name ana: pass --tag {ANA} or --tag {LATER}, or --subject" in told
    # The first one by half isn't enough.
    office.gone = [f"people/ana/{ANA}"]
    assert 2 == office.leave("ana")[0]
    office.gone.append(f"operators/ana/{ANA}")
    assert 0 == office.leave("ana")[0]
    assert {f"{it}/ana/{LATER}" for it in ("people", "operators")} == {*office.revoked()}


def test_somebody_who_has_left(leaving):
    office = leaving(row(f"people/ana/{ANA}", state="revoked"))
    office.gone = [f"{it}/ana/{ANA}" for it in ("people", "operators")]
    status, out, told = office.leave("ana")
    assert (0, "all key IDs of ana are revoked already\n", []) == (status, out, office.revoked()) and BOTH in told
    # Serials that are revoked don't keep anybody from a new certificate.
    office.gone = []
    assert 0 == office.leave("ana")[0] and 2 == len(office.revoked())


def test_a_department_that_refuses_keeps_nothing_else_back(leaving):
    office = leaving(f"operators/ana/{ANA}", f"people/ana/{ANA}", refused=("operators",))
    status, out, told = office.leave("ana")
    assert (1, f"people/ana/{ANA} revoked; the list has version 1\n") == (status, out)
    assert f"vethlumi: operators/ana/{ANA}: refused 10 NotAllowed" in told and BOTH in told
    assert [] == office.client.kept()


def test_an_answer_that_is_lost(leaving):
    """The same command ends what it began, under the same request ID."""
    office = leaving(f"people/ana/{ANA}")
    answer = office.answer_to
    office.answer_to = lambda method, *rest: answer(method, *rest)[:method == "POST" and 20 or None]
    status, out, told = office.leave("ana")
    assert (3, "") == (status, out) and "the message is kept" in told
    first, = {*office.messages}
    office.answer_to = answer
    assert 0 == office.leave("ana")[0] and [] == office.client.kept()
    assert first in office.messages and f"operators/ana/{ANA}" in office.gone


def test_it_asks_before(leaving):
    office = leaving(f"people/ana/{ANA}", row(f"people/ana/{ANA}", 2, before=1))
    status, out, told = office.client("leave", "ana")
    assert (2, f"people/ana/{ANA}\noperators/ana/{ANA}\n", []) == (status, out, office.revoked())
    question = "Revoke 2 key IDs permanently, with 1 certificate that can still be used?"
    assert f"{question} Not a terminal. Pass --yes to confirm." in told
    for answer, due in ((b"n\n", 1), (b"y\n", 0)):
        main, of_client = pty.openpty()
        asking = subprocess.Popen(office.client.words("leave", "ana"), env=office.client.environment(), stdin=of_client,
                                  stdout=subprocess.PIPE, stderr=subprocess.PIPE)
        os.write(main, answer)
        _, told = asking.communicate(timeout=60)
        os.close(of_client)
        os.close(main)
        assert due == asking.returncode and question.encode() in told
        assert (due == 0) == bool(office.revoked())


@pytest.mark.parametrize("words, why", [
    (["zoe"], "no certificate has a key ID DEPARTMENT/zoe/TAG"), (["Ana"], "'Ana' isn't a valid name"),
    (["a/b"], "isn't a valid name"), ([41 * "a"], "isn't a valid name"), (["a b"], "isn't a valid name"),
    ([""], "isn't a valid name"), (["ana\n"], "isn't a valid name"),
    (["ana", "--tag", "aaaa"], "--tag with 16 letters"), (["ana", "--tag", ANA.upper()], "--tag with 16 letters"),
    (["ana", "--tag", ANA, "--subject", "a"], "give --subject, or --tag"),
    (["ana", "--subject", "sub-ana"], "`provider` isn't set"),
    (["ana", "--department", "a/b"], "isn't a valid department"),
], ids=str)
def test_words_that_name_nobody(leaving, words, why):
    office = leaving(f"people/ana/{ANA}")
    status, out, told = office.leave(*words)
    assert (2, "", []) == (status, out, office.revoked()) and why in told, told


def test_the_longest_name(leaving):
    office = leaving(f"people/{40 * 'a'}/{ANA}")
    assert 0 == office.leave(40 * "a")[0] and 2 == len(office.revoked())


def test_nobody_who_left_gets_a_certificate(clients, station, alice):  # noqa: F811
    """Of an office behind its front: the account's key IDs are refused from then on, and no other."""
    root = clients["root"]
    for name in ("zoe", "ben"):
        asked = root.begin("request", f"web/{name}/{ANA if name == 'zoe' else BEN}", alice, "--principals", "alice",
                           "--out", f"{name}.pub")
        until(lambda: station.sign())
        assert 0 == asked.wait(60)
        asked.communicate()
    assert (0, f"web/zoe/{ANA} revoked; the list has version 1\n") == root("leave", "zoe", "--yes")[:2]
    until(lambda: ["revoked", "signed"] == [it["state"] for it in root.json("certs")])
    status, _, told = root("request", f"web/zoe/{ANA}", alice, "--principals", "alice", "--out", "again.pub")
    assert 1 == status and "refused 16 KeyIdRevoked" in told
    words = ["request", f"web/zoe/{LATER}", alice, "--principals", "alice", "--out", "later.pub"]
    status, _, told = root("--wait", "1", *words)
    assert 4 == status, told


# ---- people

def people(office, text, *words):
    (office.client.home / "users").write_bytes(text if isinstance(text, bytes) else text.encode())
    return office.client("people", office.client.home / "users", *words)


USERS = {
    "lines": "ana\nben\n", "no last line feed": "ana\nben", "CRLF": "ana\r\nben\r\n", "empty lines": "\nana\n\nben\n\n",
    "a mark of UTF-8": b"\xef\xbb\xbfana\nben\n", "JSON": '["ana", "ben"]', "JSON on lines": ' [\n"ana",\n"ben"\n]\n',
    "more users": "zoe\nana\nben\nmäx\n", "a letter by its number": '["\\u0061na", "ben"]',
}


@pytest.mark.parametrize("name", USERS)
def test_everybody_is_a_user(leaving, name):
    office = leaving(f"people/ana/{ANA}", f"operators/ben/{BEN}")
    assert (0, "each of them is a user\n", "") == people(office, USERS[name])
    assert (0, "", "") == people(office, USERS[name], "--json")


def test_who_has_access_and_is_no_user(leaving):
    rows = [row(f"people/ana/{ANA}", 1, before=LAST - 9), row(f"people/ana/{ANA}", 2, before=LAST - 5),
            row(f"operators/ana/{ANA}", 3, state="pending", before=LAST - 7),
            # Those that can't be used any more, and key IDs that no login has made.
            row(f"people/gone/{LATER}", 4, state="revoked"), row(f"people/ended/{LATER}", 5, before=1),
            row("people/other", 6), row("people/a/b", 7), row("hosts/db.example.org", 8), row(f"people/A/{LATER}", 9),
            row(f"people/ben/{BEN}", 10), row(f"people/cy/{LATER}", 11), row(f"people/cy/{BEN}:2", 12),
            row(f"people/dan/{BEN}a", 13), row(f"people/{41 * 'e'}/{BEN}", 14)]
    office = leaving(*rows)
    status, out, told = people(office, "Ana\nben\nana \n", "--json")
    assert (1, "") == (status, told)
    first, second = map(json.loads, out.splitlines())
    assert {"name": "ana", "tag": ANA, "departments": ["operators", "people"], "certificates": 3,
            "until": "9999-12-31T23:59:54Z"} == first
    assert ("cy", LATER, ["people"]) == (second["name"], second["tag"], second["departments"])
    status, out, _ = people(office, "ben\n")
    assert 1 == status
    assert [["ana", ANA, "operators,people", "3", "9999-12-31T23:59:54Z"],
            ["cy", LATER, "people", "1", "9999-12-31T23:59:59Z"]] == [it.split() for it in out.splitlines()[1:]]
    status, out, _ = people(office, "ben\n", "--department", "operators", "--json")
    assert (1, ["operators"], 1) == (status, json.loads(out)["departments"], json.loads(out)["certificates"])


def test_one_name_of_an_account_is_a_user(leaving):
    """The earlier name may be somebody else's now, so it isn't the account's any more."""
    office = leaving(f"people/ana/{ANA}", f"people/anna/{ANA}")
    status, out, _ = people(office, "anna\n", "--json")
    assert (1, "ana") == (status, json.loads(out)["name"])


def test_an_export_from_standard_input(leaving):
    office = leaving(f"people/ana/{ANA}")
    assert (0, "each of them is a user\n", "") == office.client("people", "-", given=b"ana\n")


@pytest.mark.parametrize("text", ["", "\n\n", "[]", "[", '[{"name": "ana"}]', "[1]", "[" * 100000, "[null]", b"\xff\n"],
                         ids=lambda it: str(it[:20]))
def test_an_export_that_is_none(leaving, text):
    """An export that failed would name everybody."""
    office = leaving(f"people/ana/{ANA}")
    status, out, told = people(office, text)
    assert (2, "", 0) == (status, out, office.times("/v1/table")) and "the file " in told or "isn't text" in told, told
