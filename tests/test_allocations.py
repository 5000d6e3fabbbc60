"""Refuses each allocation of the programs in turn.

sshoffice and trial apply exchanges: an issue, its delivery, its repeat with another nonce, its revocation, the list,
and another issue. With an allocation refused, either it says NoMemory and has printed nothing, or some exchanges are
given a fault and the others are given what they are given if those are left out, or all is as without a refusal.
sshoffice opens the file of an office too: with an allocation refused it says NoMemory, or all is as without a refusal.

krl_tool makes a list of a specification, adds serials to a set, and gathers serials into their runs. With an allocation
refused, either it fails and has printed nothing, or all is as without a refusal. The gathering itself takes memory too:
it is refused at least twice, and then says NoMemory.
"""
import contextlib
import shutil
import sqlite3

import pytest

from asking import (CA, DIGEST, answers, deliver, department, exchange, get, issue, post, revoke_serial,
                    write_exchanges)
from running import Office, Served, listening, preloaded, run, said

SPECIFICATION = f"ca: {CA}\nserial: 1\nserial: 3-4\nserial: 10-20\nid: web/alice\n"
ISSUE = issue("web/alice", after=1000, before=2000)
EXCHANGES = [
    exchange(post("ana", "i1", ISSUE), 1000, 0x33),
    exchange(post("station", "d1", deliver(1, DIGEST)), 1000, 0x33),
    exchange(post("ana", "i1", ISSUE), 1000, 0x34),
    exchange(post("ana", "r1", revoke_serial(1)), 3000, 0x33),
    exchange(get("/v1/krl"), 3000, 0x33),
    exchange(post("ana", "i2", ISSUE), 1000, 0x35),
]


@pytest.fixture
def refuse(room):
    """Runs a program in which an allocation of this number is refused: status, output, errors, and whether it was."""
    library = preloaded("refuse_allocation.c", room)

    def refused(words, number):
        mark = room / "refused"
        mark.unlink(missing_ok=True)
        how = {"env": {"LD_PRELOAD": str(library), "REFUSED": str(number), "MARK": str(mark)}} if number else {}
        return said(words, **how), mark.exists()

    return refused


def in_turn(attempt, is_right):
    """Refuses each allocation of an attempt once, until there is none more, and returns how each ended."""
    (status, whole, _), _ = attempt(0)
    assert 0 == status
    ends = []
    while True:
        done, was_refused = attempt(len(ends) + 1)
        if not was_refused:
            assert (0, whole) == done[:2]
            return ends
        assert is_right(whole, *done), f"allocation {len(ends) + 1} is refused: {done}"
        ends.append(done)


@pytest.mark.slow
@pytest.mark.parametrize("words", ["program apply", "trial"])
def test_exchanges_are_applied(words, program, trial, refuse, room):
    name, *others = words.split()
    asked = {"program": program, "trial": trial}[name]

    def attempt(number, exchanges=EXCHANGES):
        return refuse([asked, *others, write_exchanges("some.exchange", exchanges)], number)

    def is_lawful(whole, status, printed, errors):
        if (status, errors) == (0, b""):
            return printed == whole
        if (status, errors) == (1, b"sshoffice: NoMemory\n"):
            return printed == b""
        given = answers(printed)
        kept = [one for one, answer in zip(EXCHANGES, given) if answer is not None]
        (others, printed, _), _ = attempt(0, kept)
        return ((status, errors, len(given), others) == (1, b"sshoffice: Fault\n", len(EXCHANGES), 0)
                and answers(printed) == [it for it in given if it is not None])

    assert 100 < len(in_turn(attempt, is_lawful))


@pytest.mark.slow
def test_the_file_of_an_office_is_opened(program, refuse, room):
    """Whatever the refusal keeps from being done, from the opening of the file to its closing, it is told as that."""
    office = Office(program, ca=CA)

    def is_lawful(whole, status, printed, errors):
        lacks = 1, b"sshoffice: NoMemory\n"
        return (printed, (status, errors)) in ((whole, (0, b"")), (b"", lacks), (whole, lacks))

    ends = in_turn(lambda number: refuse([program, "table", "--db", office.db], number), is_lawful)
    assert 10 < sum(status for status, _, _ in ends)


def fails_or_is_whole(whole, status, printed, errors):
    return printed == whole if status == 0 else status == 1 and printed == b"" and errors.startswith(b"Error: ")


@pytest.mark.parametrize("words", ["list specification 1 3000", "add 6 5"])
def test_a_list_or_a_set_is_made(refuse, krl_tool, room, words):
    (room / "specification").write_text(SPECIFICATION)
    assert in_turn(lambda number: refuse([krl_tool, *words.split()], number), fails_or_is_whole)


def test_serials_are_gathered(refuse, krl_tool):
    ends = in_turn(lambda number: refuse([krl_tool, "gather", *range(1, 40, 2)], number), fails_or_is_whole)
    assert 2 <= sum(errors == b"Error: NoMemory\n" for _, _, errors in ends), "the gathering itself grows twice"


# ---- what a message reads

def with_runs(db, certificates, runs):
    """Puts into an office's file, which has one certificate, so many in all, and so many runs of one revoked serial
    each, every second serial from 1 on."""
    connection = sqlite3.connect(db)
    name, key_id, body = connection.execute("SELECT department, keyid, body FROM cert").fetchone()
    place = body.index((1).to_bytes(8, "big"))
    for serial in range(2, certificates + 1):
        its = body[:place] + serial.to_bytes(8, "big") + body[place + 8:]
        connection.execute("INSERT INTO cert VALUES (?, ?, ?, ?, NULL)", (serial, name, key_id, its))
    connection.executemany("INSERT INTO run VALUES (?, ?)", ((it, it) for it in range(1, 2 * runs, 2)))
    connection.execute("UPDATE office SET next = ?, version = ?", (certificates + 1, runs))
    connection.commit()
    connection.close()


@pytest.mark.slow
def test_a_message_reads_one_run_alone(program, room):
    """What is revoked is kept as runs. A revocation at their end and one beside a run look for the last run at a
    serial: they allocate no more over 100,000 runs than over 100, but for the opening of the file."""
    most = 100_000
    counted = {"LD_PRELOAD": str(preloaded("refuse_allocation.c", room)), "COUNTED": str(room / "counted")}
    offices = {}
    for runs in (100, most):
        offices[runs] = Office(program, f"{runs}.db", ca=CA)
        offices[runs].apply([post("root", "web", department()), post("ana", "i1", issue())])
        with_runs(offices[runs].db, 2 * most + 2, runs)

    def allocations(office, exchanges):
        """How many an `apply` of these makes over the office as it is, and what it prints."""
        shutil.copy(office.db, "copy.db")
        done = run([program, "apply", "--db", "copy.db", write_exchanges("some.exchange", exchanges)], env=counted)
        assert (0, b"") == (done.returncode, done.stderr)
        return int((room / "counted").read_text()), done.stdout

    def more(office, message):
        """How many more a message makes than none."""
        count, printed = allocations(office, [post("root", "new", message)])
        assert b"\r\n\r\nrevoked\nversion " in printed
        return count - allocations(office, [])[0]

    for message in (revoke_serial(2 * most + 2), revoke_serial(2)):
        few, many = (more(offices[runs], message) for runs in (100, most))
        # A higher tree has more pages to look through.
        assert many < few + 300, f"{message!r}: {few} allocations over 100 runs, {many} over {most}"


# ---- a server

SERVED = post("ana", "i1", issue()), post("ana", "i1", issue()), get("/v1/table")


class Refusing:
    """A server of an office in which an allocation is refused, asked for an issue, the same again, and the table."""

    def __init__(self, program, room):
        self.library, self.mark = preloaded("refuse_allocation.c", room), room / "refused"
        self.office = Office(program, ca=CA)
        self.office.apply([post("root", "web", department())])
        self.founded = self.office.db.read_bytes()

    def ask(self, number):
        """Whether it listened, what the connections were given up to its end, how it ended, and whether an allocation
        was refused."""
        self.office.db.write_bytes(self.founded)
        self.mark.unlink(missing_ok=True)
        words = f"serve --db {self.office.db} --port 0 --connections 3 --nonces /dev/zero".split()
        refused = {"LD_PRELOAD": str(self.library), "REFUSED": str(number), "MARK": str(self.mark)}
        given = []
        with listening([self.office.program, *words], env=refused) as (process, line):
            for request in SERVED if line else ():
                given.append(b"")
                # A connection that is closed before all was read is reset.
                with contextlib.suppress(OSError):
                    given[-1] = Served(self.office, process, int(line.split()[1])).ask(request)
            errors = process.communicate(timeout=60)[1]
        return line, given, (process.returncode, errors), self.mark.exists()

    def first_after_listening(self):
        """The number of the first allocation behind the line that says the port."""
        low, high = 1, 1 << 16
        while low < high:
            middle = (low + high) // 2
            low, high = (low, middle) if self.ask(middle)[0] else (middle + 1, high)
        return low


@pytest.mark.slow
def test_a_server_goes_on(program, room, request):
    """Each fourth allocation of a server that listens is refused, from another one on in each run. Either it ends
    before it has answered anything, or after it has given each connection what is due, as it closes its file; or the
    connection that meets the refusal ends without a response and has its fault, and the others are given what is due.
    """
    server = Refusing(program, room)
    _, due, end, _ = server.ask(0)
    assert ((0, b""), [200, 200, 200], due[0]) == (end, [it.status for it in due], due[1])
    number = server.first_after_listening() + int(request.config.option.hypothesis_seed) % 4
    was_refused, faults = True, 0
    while was_refused:
        _, given, end, was_refused = server.ask(number)
        if end == (1, b"sshoffice: NoMemory\n"):
            assert given == due or [] == [it for it in given if it], f"allocation {number} is refused"
        else:
            failed = [place for place, it in enumerate(given, 1) if not it]
            wanted = b"".join(b"sshoffice: connection %d NoMemory\n" % it for it in failed)
            assert (0, wanted) == end, f"allocation {number} is refused"
            assert [it and wish for it, wish in zip(given, due)] == given, f"allocation {number} is refused"
            faults += len(failed)
        number += 4
    assert faults > 10
