"""Has three registers answer the same mixed exchanges: the program's lists in memory, its tables in a file, and an
office in Python that keeps lists.

The office in Python is written from the formats alone. First it has to give the bytes of each row of tests/rows
whose requests have good heads. Then hypothesis asks it histories of messages of each kind and of each GET, many of
which are refused, and makes a history that fails as short as it can. The program has to give the same bytes, in a file
that is opened again and again; and so once more, with each request at another moment and with another nonce. Then the
reports, each certificate and its body have to be the same, and SQLite has to find the rows in the file that the office
in Python has.

`--steps 20000` asks more than the five thousand exchanges of the check, and `--hypothesis-seed` the same ones as
before. bench/histories asks a hundred thousand.
"""
import collections
import contextlib
import itertools
import pathlib
import re
import sqlite3

import pytest
from hypothesis import HealthCheck, Phase, settings
from hypothesis import strategies as some
from hypothesis.stateful import RuleBasedStateMachine, initialize, precondition, rule, run_state_machine_as_test

from asking import (ADDITIONS, CA, LAST_SERIAL, LATEST, additions_in, deliver, department, exchange, get, issue,
                    key_blob, key_line, post, renew, revoke_keyid, revoke_range, revoke_serial, rollover)
from plain_office import REFUSALS, PlainOffice
from running import ROWS, Office, applied, worked
from subject_keys import LINES

# A history has so many steps at most. Some have several exchanges: by the mean a history has these or more.
MOST_STEPS, MEAN_EXCHANGES = 50, 30
DEPARTMENT, _ = worked("the-department-of-the-trial-office")

# Rows whose requests have heads that are no good ones. The office in Python reads none of these.
OTHER_HEADS = {"a-cut-request-is-refused", "a-head-is-judged-before-its-body", "records-are-read-whole"}
NAMES = sorted({path.stem for path in ROWS.glob("*.exchange")} - OTHER_HEADS)


def plain_office(first=1, last=LAST_SERIAL):
    return PlainOffice(key_blob(0x11), first, last)


@pytest.mark.parametrize("name", NAMES)
def test_the_office_in_python_gives_the_rows(name):
    opening = ROWS / f"{name}.office"
    office = plain_office(*map(int, opening.read_text().split()[1::2])) if opening.exists() else plain_office()
    for one in [] if opening.exists() else DEPARTMENT:
        office.answer(*one)
    exchanges, due = worked(name)
    assert due == [office.answer(*one) for one in exchanges]


# ---- what is asked

CALLERS = some.sampled_from(["ana", "bob", "root", "station"])
KEYS = some.sampled_from([f"k{place}" for place in range(40)])
MOMENTS = some.sampled_from([1000] * 8 + [1500, 1999, 0, 3000, LATEST, LATEST + 1])
NONCES = some.integers(0, 255)
# By bytes `web-2` comes before `web2`; by the letters and digits alone it would come after it or be the same.
DEPARTMENTS = some.sampled_from(["web", "web", "web2", "web-2", "db"])
KEY_IDS = some.builds("{}/{}".format, DEPARTMENTS, some.sampled_from(["a", "b", "c/d", "x"]))
PRINCIPALS = some.sampled_from(["alice", "alice,bob", "x@example.org", "@example.org", "b.example.org"])
RULES = some.sampled_from(["alice,bob,*@example.org", "*.example.org", "alice"])
NAMES = some.sampled_from(["ana", "ana", "ana/laptop", "bob", "root", "x/ana", "/ana"])
NAME_RULES = some.sampled_from(["{name}@example.org", "{name}", "{name}.example.org,alice", "{name},root",
                                "*@example.org,{name}@example.org"])
NAMED = some.sampled_from(["ana@example.org", "ana@example.org", "ana", "root", "bob", "bob@example.org", "alice",
                           "ana.example.org", "ana,ana@example.org", "@example.org"])
ENDS = some.sampled_from([(1000, 2000), (1000, 2000), (1500, 2500), (0, 1000), (2000, 1000), (1000, 90000)])
COMMAND = "force-command /bin/true"
OPTIONS = some.sampled_from([(), (), (COMMAND,), ("verify-required", COMMAND), (COMMAND, COMMAND)])
# What certificates must have, of which one list isn't in its order, what they have, and the types of their keys.
MUSTS = some.sampled_from([
    (), (COMMAND,), ("force-command",), ("source-address 10.0.0.0/8,192.0.2.0/24",),
    ("source-address", "verify-required"), ("force-command /bin/false", "verify-required"),
    ("verify-required", "force-command"), ("verify-required x",)])
DEMANDED = some.sampled_from([
    (), (COMMAND,), ("source-address 10.1.0.0/16",), ("source-address 10.0.0.0/7",), (COMMAND, "verify-required"),
    ("source-address 192.0.2.1/32,10.0.0.0/8",), ("verify-required", "source-address 10.0.0.0/8,11.0.0.0/8"),
    ("verify-required", COMMAND, "source-address 192.0.2.0/24")])
TYPES = some.sampled_from([
    (), (), ("ssh-ed25519", "ecdsa-sha2-nistp256"), ("sk-ssh-ed25519@openssh.com",), ("ssh-dss",)])
EXTENSIONS = some.sampled_from(["", "permit-pty", "permit-pty,permit-X11-forwarding", "permit-user-rc"])
SUBJECTS = some.sampled_from(3 * [key_line(0x22), key_line(0x23, "box")] + [
    f"{LINES['ecdsa-sha2-nistp256']} box", LINES["sk-ssh-ed25519@openssh.com"]])
CAS = some.integers(0x11, 0x1a).map(key_line)
OTHERS = some.sampled_from(["issue web\n", "deliver 9\n", "revoke-range 3 2\n", "revoke-serial 0\n", "", "renew 1\n"])
PAGES = some.sampled_from(["pending", "krl", "signers", "table", "cas", "departments", "certs/0", "certs/01", "keys"])
# A serial that is near to one that was handed out: so many before the next.
BEFORE = some.integers(-1, 6)

COLUMNS = {
    "office": "id, schema, hex(ca), root, station, first, last, next, version, date",
    "department": "name, kind, admins, rules, options, extensions, maxlife, namespaces",
    "cert": "serial, department, keyid, hex(body), iif(signature IS NULL, NULL, hex(signature))",
    "request": "caller, key, hex(message), hex(reply)",
    "run": "lo, hi",
    "revoked_keyid": "keyid",
    "ca": "number, hex(ca), since",
}
KEYS_OF = {"request": "1, 2"}


def rows_of(db):
    """The rows that SQLite finds in each table, in the order of its key, in a sound file."""
    with contextlib.closing(sqlite3.connect(f"file:{db}?mode=ro", uri=True)) as file:
        assert [("ok",)] == file.execute("PRAGMA integrity_check").fetchall()
        return {table: [[*row] for row in file.execute(f"SELECT {columns} FROM {table} ORDER BY {key}")]
                for table, columns in COLUMNS.items() for key in [KEYS_OF.get(table, "1")]}


# What answers to messages begin with: what was done, or the number of a refusal.
DONE = re.compile(rb"\r\n\r\n(department|issued|signed|revoked|rollover|refused \d+)[ \n]")
KINDS = {"department", "issued", "signed", "revoked", "rollover", *(f"refused {it}" for it in REFUSALS)}
# Those of which a thousand steps have a few, and by chance none.
RARE = {f"refused {it}" for it in (12, 13, 16, 19, 20, 22, 24)}


class Registers(RuleBasedStateMachine):
    """A history of exchanges, which the office in Python answers at once, and the program at the end."""
    program = failed = None
    count = itertools.count()
    # How many exchanges there were, how often each kind of answer, and how many messages about a department that has
    # each of the additions.
    asked, kinds, additions = 0, collections.Counter(), collections.Counter()

    @initialize(last=some.sampled_from([LAST_SERIAL, LAST_SERIAL, 5, 12]), piece=some.sampled_from([1000, 17]),
                count=some.sampled_from([0, 3, 4]), cas=some.sampled_from([0, 0, 7]))
    def begin(self, last, piece, count, cas):
        """The office, and how many exchanges the program answers before the file is opened again; and then perhaps some
        certificates, of which the last isn't signed, and CAs."""
        self.last, self.piece, self.exchanges, self.given, self.office = last, piece, [], [], plain_office(1, last)
        for one in DEPARTMENT:
            self.office.answer(*one)
        for serial in range(1, count + 1):
            self.send(("ana", f"k{serial}", 1000, serial), issue(f"web/{'abx'[serial % 3]}", after=1000, before=2000))
            if serial < count:
                self.deliver_what_waits(("station", f"k{serial}", 1000, 0), 0)
        for byte in range(0x12, 0x12 + cas):
            self.send(("root", f"k{byte}", 1000, 0), rollover(key_line(byte)))

    def ask(self, request, moment, nonce):
        one = exchange(request, moment, nonce)
        self.exchanges.append(one)
        self.given.append(self.office.answer(*one))
        type(self).asked += 1
        self.kinds.update(it.decode() for it in DONE.findall(self.given[-1]))

    def send(self, to, message):
        caller, key, moment, nonce = to
        about = self.department_of(message)
        self.additions.update(additions_in(about.text()) if about else [])
        self.ask(post(caller, key, message), moment, nonce)

    def department_of(self, message):
        """The department of which a certificate is asked for, renewed or revoked, if it is there."""
        word, _, rest = message.partition("\n")[0].partition(" ")
        if word in ("renew", "revoke-serial"):
            found = self.office.certificates.get(int(rest))
            rest = found and found.asked.department
        return self.office.departments.get(rest) if word in ("issue", "renew", "revoke-serial") else None

    def serial(self, before):
        return max(1, self.office.next() - before)

    # Who sends under which key, and with which moment and nonce. Those who may are asked more often.
    FROM = some.tuples(CALLERS, KEYS, MOMENTS, NONCES)
    FROM_ROOT = some.tuples(some.sampled_from(["root", "root", "root", "ana"]), KEYS, MOMENTS, NONCES)
    FROM_ANA = some.tuples(some.sampled_from(["ana", "ana", "ana", "bob"]), KEYS, MOMENTS, NONCES)
    FROM_STATION = some.tuples(some.sampled_from(["station", "station", "station", "root"]), KEYS, MOMENTS, NONCES)

    @rule(to=FROM_ROOT, name=DEPARTMENTS, kind=some.sampled_from(["user", "user", "host"]), admins=some.sampled_from(
        ["ana", "ana,bob", ""]), rules=RULES, extensions=EXTENSIONS, maxlife=some.sampled_from([86400, 1000, 0]))
    def put_department(self, to, name, kind, admins, rules, extensions, maxlife):
        options, spaces = (("force-command",), ("file", "git")) if kind == "user" else ((), ())
        self.send(to, department(name, kind=kind, admins=admins, principals=rules, options=options, maxlife=maxlife,
                                 extensions=extensions if kind == "user" else "", namespaces=spaces))

    @rule(to=FROM_ANA, key_id=KEY_IDS, of=DEPARTMENTS, is_its_own=some.sampled_from([True, True, True, False]),
          key=SUBJECTS, principals=PRINCIPALS, ends=ENDS, options=OPTIONS, extensions=EXTENSIONS)
    def ask_for(self, to, key_id, of, is_its_own, key, principals, ends, options, extensions):
        self.send(to, issue(key_id, department=None if is_its_own else of, key=key, principals=principals,
                            after=ends[0], before=ends[1], options=options, extensions=extensions))

    @rule(key=KEYS, nonce=NONCES, key_id=KEY_IDS, options=OPTIONS, extensions=EXTENSIONS, principals=PRINCIPALS)
    def ask_for_what_is_permitted(self, key, nonce, key_id, options, extensions, principals):
        self.send(("root", key, 1000, nonce), issue(key_id, after=1000, before=2000))
        self.send(("root", key[::-1], 1000, nonce), issue(
            key_id, principals=principals, after=1000, before=2000, options=options, extensions=extensions))

    # Callers who may be meant by the names in key IDs.
    FROM_NAMES = some.tuples(
        some.sampled_from(["ana", "ana", "host-ana", "bob", "host-", "root"]), KEYS, MOMENTS, NONCES)

    @rule(to=FROM_ROOT, name=DEPARTMENTS, rules=NAME_RULES,
          admins=some.sampled_from(["{name}", "host-{name}", "bob,{name}", "ana-{name}"]),
          spaces=some.sampled_from([(), (), ("git",)]))
    def put_department_of_names(self, to, name, admins, rules, spaces):
        self.send(to, department(name, admins=admins, principals=rules, maxlife=86400, namespaces=spaces))

    @rule(to=FROM_NAMES, of=DEPARTMENTS, name=NAMES, principals=NAMED, ends=ENDS)
    def ask_by_name(self, to, of, name, principals, ends):
        self.send(to, issue(f"{of}/{name}", principals=principals, after=ends[0], before=ends[1]))

    @rule(nonce=NONCES, key=KEYS, of=DEPARTMENTS, caller=some.sampled_from(["ana", "host-ana", "bob"]),
          rules=NAME_RULES, principals=NAMED)
    def live_by_name(self, nonce, key, of, caller, rules, principals):
        """A department of names, a certificate in it, its signature, and its renewal and revocation by callers."""
        self.send(("root", key, 1000, nonce), department(
            of, admins="host-{name},{name}", principals=rules, maxlife=86400))
        self.send((caller, f"{key}1", 1000, nonce), issue(f"{of}/ana", principals=principals, after=1000, before=2000))
        self.deliver_what_waits(("station", f"{key}2", 1000, nonce), 9) if self.office.waiting() else None
        self.send((caller, f"{key}3", 1000, nonce), renew(self.serial(1), after=1000, before=2000))
        self.send((caller, f"{key}4", 1000, nonce), revoke_serial(self.serial(1)))

    @rule(nonce=NONCES, key=KEYS, of=DEPARTMENTS, options=DEMANDED, musts=MUSTS, types=TYPES, subject=SUBJECTS,
          listed=some.sampled_from([(), ("force-command", "source-address", "verify-required")]))
    def live_with_demands(self, nonce, key, of, options, musts, types, subject, listed):
        """A department with options that must be and types of keys, a certificate in it, its signature and its renewal,
        after which the department demands nothing or something else."""
        self.send(("root", key, 1000, nonce), department(
            of, options=listed, musts=musts, key_types=types, maxlife=86400))
        self.send(("ana", f"{key}1", 1000, nonce), issue(
            f"{of}/d", key=subject, options=options, after=1000, before=2000))
        self.deliver_what_waits(("station", f"{key}2", 1000, nonce), 9) if self.office.waiting() else None
        self.send(("root", f"{key}3", 1000, nonce), department(of, options=listed, musts=musts[:1], maxlife=86400))
        self.send(("ana", f"{key}4", 1000, nonce), renew(self.serial(1), after=1000, before=2000))

    @rule(to=FROM_NAMES, before=BEFORE, ends=ENDS)
    def renew_by_name(self, to, before, ends):
        self.send(to, renew(self.serial(before), after=ends[0], before=ends[1]))

    @rule(to=FROM_NAMES, before=BEFORE)
    def revoke_by_name(self, to, before):
        self.send(to, revoke_serial(self.serial(before)))

    @rule(to=FROM_ANA, before=BEFORE, ends=ENDS)
    def renew_one(self, to, before, ends):
        self.send(to, renew(self.serial(before), after=ends[0], before=ends[1]))

    @rule(to=FROM_ANA, before=BEFORE)
    def renew_for_as_long(self, to, before):
        self.send(to, renew(self.serial(before), after=1500, before=3500))

    @precondition(lambda self: self.office.waiting())
    @rule(to=FROM_STATION, place=some.integers(0, 9))
    def deliver_what_waits(self, to, place):
        waiting = self.office.waiting()
        serial, certificate = waiting[place % len(waiting)]
        self.send(to, deliver(serial, certificate.digest()))

    @precondition(lambda self: self.office.certificates)
    @rule(to=FROM_STATION, before=BEFORE, signature=some.sampled_from([0x44, 0x55]), is_astray=some.booleans())
    def deliver_another(self, to, before, signature, is_astray):
        serial = self.serial(before)
        certificate = self.office.certificates.get(serial, self.office.certificates[1])
        self.send(to, deliver(serial, "0" * 64 if is_astray else certificate.digest(), signature))

    @rule(to=FROM, before=BEFORE)
    def revoke_one(self, to, before):
        self.send(to, revoke_serial(self.serial(before)))

    @rule(to=FROM_ROOT, before=BEFORE, count=some.integers(0, 4))
    def revoke_several(self, to, before, count):
        self.send(to, revoke_range(self.serial(before), self.serial(before) + count))

    @rule(to=FROM, key_id=KEY_IDS)
    def revoke_key_id(self, to, key_id):
        self.send(to, revoke_keyid(key_id))

    @rule(to=FROM_ROOT, ca=CAS)
    def roll_over(self, to, ca):
        self.send(to, rollover(ca))

    @rule(to=FROM, message=OTHERS)
    def send_no_message(self, to, message):
        self.send(to, message)

    @precondition(lambda self: self.exchanges)
    @rule(place=some.integers(0, 50), moment=MOMENTS, nonce=NONCES)
    def send_again(self, place, moment, nonce):
        self.ask(self.exchanges[place % len(self.exchanges)].request, moment, nonce)

    @rule(page=PAGES)
    def look_at(self, page):
        self.ask(get(f"/v1/{page}"), 1000, 0)

    @rule(before=BEFORE, what=some.sampled_from(["", "/body"]))
    def look_at_certificate(self, before, what):
        self.ask(get(f"/v1/certs/{self.serial(before)}{what}"), 1000, 0)

    # What the program gives.

    def reports(self):
        """What shows each list, each table and each certificate."""
        pages = ["pending", "krl", "signers", "table", "cas", "departments"]
        pages += [f"certs/{serial}{what}" for serial in range(1, self.office.next() + 1) for what in ("", "/body")]
        return [exchange(get(f"/v1/{it}"), 0, 0) for it in pages]

    def teardown(self):
        if not hasattr(self, "office"):
            return
        again = [exchange(one.request, one.moment ^ 1, 0xee) for one in self.exchanges]
        asked = self.exchanges + again + self.reports()
        due = self.given + [self.office.answer(*one) for one in asked[len(self.given):]]
        # Once one of these has failed, hypothesis looks for a shorter history by that alone.
        for compare in (self.in_memory, self.in_a_file):
            if type(self).failed in (None, compare.__name__):
                try:
                    compare(asked, due)
                except AssertionError:
                    type(self).failed = compare.__name__
                    raise

    def in_memory(self, asked, due):
        """The trial office's lists. It has other serials than an office that may run out of them."""
        if self.last == LAST_SERIAL:
            assert due == applied(self.program, asked), "in memory"

    def in_a_file(self, asked, due):
        office = Office(self.program, f"{next(self.count)}.db", ca=CA, last=self.last)
        given, asked = [], DEPARTMENT + asked
        for place in range(0, len(asked), self.piece):
            given += office.apply(asked[place:place + self.piece])
        assert due == given[len(DEPARTMENT):], "in a file"
        assert self.office.rows() == rows_of(office.db)
        for file in pathlib.Path().glob(f"{office.db.stem}.*"):
            file.unlink()


@pytest.mark.slow
@pytest.mark.timeout(36000)
def test_registers_answer_alike(request, program, room):
    class Machine(Registers):
        pass

    Machine.program, Machine.kinds, Machine.additions = program, collections.Counter(), collections.Counter()
    steps = request.config.getoption("--steps")
    run_state_machine_as_test(Machine, settings=settings(
        max_examples=max(1, steps // MEAN_EXCHANGES), stateful_step_count=MOST_STEPS, deadline=None,
        database=None, suppress_health_check=HealthCheck.all(), print_blob=False,
        phases=(Phase.generate, Phase.shrink)))
    print(f"figure: {Machine.asked} exchanges, {sum(Machine.kinds.values())} answers to messages, of departments with "
          f"{', '.join(f'{name} {count}' for name, count in sorted(Machine.additions.items()))}")
    if steps >= 1000:
        assert steps <= Machine.asked
        assert {*ADDITIONS} == {*Machine.additions}, "each addition was there"
        assert set() == KINDS - {*Machine.kinds} - (RARE if steps < 20_000 else set()), "each kind of answer was due"
