"""A restored office of which the messages since the copy are gone: what `vethlumi-office-root recover` makes of it by
what a guard has approved, and what a server's list revokes.

The office and the guard of lists are those in Python (`plain_office.py`, `plain_lists.py`), and lists are read by
ssh-keygen. Nothing that is built is run."""
import base64
import copy
import hashlib
import random
import re

import pytest

import plain_lists
from asking import (department, issue, key_blob, key_line, lasting, revoke_keyid, revoke_range, revoke_serial,
                    rollover)
from running import run
from test_daily import HOST, PEOPLE, Rooted
from test_departments import TellingOffice, UnixDoor, opened

CAS = [key_blob(0x11), key_blob(0x12)]
RECOVERED = department("recovered", principals="nobody", admins="", maxlife=1)


def fingerprint_of(blob):
    return "SHA256:" + base64.b64encode(hashlib.sha256(blob).digest()).decode().rstrip("=")


class Loss:
    """An office that lives on after a copy of it was made, and is gone then. What guards and servers have of it."""

    def __init__(self, room, rooted):
        self.room, self.rooted, self.door, self.numbers = room, rooted, rooted.door, 0

    @property
    def office(self):
        return self.door.office

    def send(self, text, caller="root"):
        self.numbers += 1
        return self.office.settle(caller, f"m-{self.numbers}", text.encode(), 1_700_000_000 + self.numbers, bytes(32))

    def issue(self, key_id="people/alice", principals="alice"):
        return int(self.send(issue(key_id, principals=principals, **lasting(3600))).split()[1])

    def copy(self):
        self.kept = copy.deepcopy(self.office)

    def lose(self, *servers):
        """Has the copy in the office's place, and says what is known of the office that is gone: by the guards, which
        have approved each certificate, and by lists."""
        self.gone, self.last = self.office, self.office.revocation_list()
        lists = [self.printed(it) for it in servers or [self.last]]
        self.door.office = copy.deepcopy(self.kept)
        return self.known(self.gone) + "".join(f"[list]\n{it}" for it in lists)

    def known(self, office):
        text = ""
        for number, (ca, since) in enumerate(office.cas):
            end = [*(it[1] for it in office.cas[number + 1:]), office.next()][0]
            text += f"[guard {fingerprint_of(ca)}]\n" + "".join(
                f"{serial} {it.digest()} 1700000000 {it.asked.key_id}\n" for serial, it in office.certificates.items()
                if since <= serial < end)
        return text

    def printed(self, krl):
        (self.room / "krl").write_bytes(krl)
        return run(["ssh-keygen", "-Q", "-l", "-f", "krl"], check=True).stdout.decode()

    def recover(self, text, *words):
        (self.room / "known").write_text(text)
        return self.rooted("recover", str(self.room / "known"), *words)

    def check(self):
        """Sees that nothing is out that isn't revoked, nothing is forgotten, and servers take the list."""
        new, old = self.office, self.gone
        out = {*old.certificates} - {*self.kept.certificates}
        assert out | old.revoked <= new.revoked and old.key_ids <= new.key_ids
        assert new.next() > max([0, *old.certificates])
        keys = [ca[19:] for ca, _ in new.cas]
        now = new.revocation_list()
        assert now == self.last or None is plain_lists.refusal(now, keys, False, self.last)
        # What the copy has stays as it is.
        for serial, it in self.kept.certificates.items():
            assert new.is_revoked(serial) == (serial in old.revoked or it.asked.key_id in old.key_ids)


@pytest.fixture
def loss(room, monkeypatch, capsys):
    with opened(UnixDoor(str(room / "door"), TellingOffice(CAS[0]))) as door:
        door.root_puts(PEOPLE)
        door.root_puts(HOST, "by-hand-2")
        rooted = Rooted(door, monkeypatch, capsys)
        # No unit of the machine on which this test runs is stopped or started.
        monkeypatch.setattr(rooted.script.recovering, "is_front", lambda state: False)
        yield Loss(room, rooted)


def test_certificates_since_the_copy_are_revoked_and_their_serials_are_taken(loss):
    loss.issue()
    loss.copy()
    for it in ("alice", "bob"):
        loss.issue(f"people/{it}")
    loss.send(revoke_serial(2))
    text = loss.lose()
    told = loss.recover(text)
    assert "  take the serials 2 to 3, which may be out, by certificates for nobody\n" in told
    assert "  revoke what was revoked since the copy\n    serials 2 to 2\n" in told
    assert "needs a new one: serial 2, people/alice\nneeds a new one: serial 3, people/bob\n" == loss.rooted.printed
    assert "the list has version 2, and the next certificate gets the serial 4\n" in told
    loss.check()
    assert ({2, 3}, 4, 4) == (loss.office.revoked, loss.issue(), loss.office.next() - 1)
    # Nobody can use what was taken: it is for nobody, and the department is closed.
    assert RECOVERED == loss.office.departments["recovered"].text()
    assert {"nobody"} == {name for serial in (2, 3) for name in loss.office.certificates[serial].asked.principals}


def test_serials_that_were_given_again_before_it_are_revoked_too(loss):
    """The office serves as soon as it is restored. What the guard has approved under such a serial is another one's
    certificate, and stays valid; what the copy has, and waits, is the same one."""
    waiting = loss.issue("people/waiting")
    loss.copy()
    for it in "abc":
        loss.issue(f"people/{it}")
    text = loss.lose()
    for it in "xy":
        loss.issue(f"people/{it}")
    told = loss.recover(text)
    assert "2 serials that are out were given to others since the restore" in told
    assert "".join(f"needs a new one: serial {serial}, people/{it}\n" for serial, it in ((2, "a"), (3, "b"), (4, "c"))
                   ) == loss.rooted.printed
    loss.check()
    assert ({2, 3, 4}, False) == (loss.office.revoked, loss.office.is_revoked(waiting))
    assert "everything is as it should be\n" == loss.recover(text)


def test_a_second_run_changes_nothing(loss):
    loss.copy()
    loss.issue()
    loss.send(revoke_keyid("people/alice"))
    text = loss.lose()
    loss.recover(text)
    loss.check()
    before = copy.deepcopy(loss.office)
    assert "everything is as it should be\n" == loss.recover(text) and before == loss.office


def test_a_copy_that_lacks_nothing_stays_as_it_is(loss):
    loss.issue()
    loss.send(revoke_serial(1))
    loss.copy()
    text = loss.lose()
    assert "everything is as it should be\n" == loss.recover(text) and loss.kept == loss.office


def test_without_new_certificates_the_list_gets_a_version_of_its_own(loss):
    """Messages of the same revocations would give the version that servers have, with another date, and they would
    refuse it."""
    loss.issue()
    loss.copy()
    loss.send(revoke_serial(1))
    loss.recover(loss.lose())
    loss.check()
    assert (2, {1, 2}) == (loss.office.version, loss.office.revoked)


def test_a_revocation_that_was_typed_again_before_it_reaches_servers(loss):
    """The office's list has the version that they have, and another date: they would refuse it."""
    loss.issue()
    loss.copy()
    loss.send(revoke_serial(1))
    text = loss.lose()
    loss.send(revoke_serial(1))
    assert loss.gone.version == loss.office.version and loss.last != loss.office.revocation_list()
    loss.recover(text)
    loss.check()


@pytest.mark.parametrize("after", [1, 2, 3, 7])
def test_a_run_that_was_interrupted_is_finished_by_the_next(loss, monkeypatch, after):
    """After so many messages. What was taken by then isn't left unrevoked."""
    loss.issue()
    loss.copy()
    for it in "abc":
        loss.issue(f"people/{it}")
        loss.send(revoke_keyid(f"people/{it}"))
    text, sent = loss.lose(), []

    def send(door, message, before=loss.rooted.script.door.Door.send):
        if len(sent) == after:
            raise KeyboardInterrupt
        sent.append(message)
        return before(door, message)
    with monkeypatch.context() as it:
        it.setattr(loss.rooted.script.door.Door, "send", send)
        with pytest.raises(KeyboardInterrupt):
            loss.recover(text)
    loss.rooted.capsys.readouterr()
    loss.recover(text)
    loss.check()
    taken = {serial for serial, it in loss.office.certificates.items() if it.asked.department == "recovered"}
    assert taken <= loss.office.revoked


def test_random_losses(loss):
    """Each is recovered, whatever was issued and revoked before the copy and since."""
    some, first = random.Random(7), copy.deepcopy(loss.office)
    for _ in range(15):
        loss.door.office, loss.gone = copy.deepcopy(first), None
        loss.office.first = some.choice([1, 1000])
        loss.office.cas = [(CAS[0], loss.office.first)]
        loss.copy()
        for at in range(some.randrange(1, 25)):
            issued = [*loss.office.certificates]
            if at == 0 or some.random() < 0.2:
                loss.copy()
            kind = some.choice(["issue", "issue", "serial", "range", "keyid"]) if issued else "issue"
            low, high = sorted(some.choices(issued, k=2)) if issued else (0, 0)
            if kind == "issue":
                key_id = f"people/{some.randrange(4)}"
                if key_id not in loss.office.key_ids:
                    loss.issue(key_id)
            else:
                loss.send({"serial": revoke_serial(low), "range": revoke_range(low, high),
                           "keyid": revoke_keyid(f"people/{some.randrange(4)}")}[kind])
        text = loss.lose()
        for it in range(some.choice([0, 0, 1, 3])):
            loss.issue(f"people/early{it}")
        loss.recover(text)
        loss.check()


def test_a_server_that_is_behind_is_made_up_for_by_another(loss):
    """The newest list counts, and what any of them revokes."""
    loss.copy()
    loss.issue()
    loss.send(revoke_serial(1))
    older = loss.office.revocation_list()
    loss.issue("people/bob")
    loss.send(revoke_keyid("people/bob"))
    newer = loss.office.revocation_list()
    loss.recover(loss.lose(older, newer))
    loss.check()
    assert {"people/bob"} == loss.office.key_ids and 3 <= loss.office.version


# ---- what isn't recovered by itself

def test_a_rollover_that_the_copy_lacks_comes_first(loss):
    """Its serials are another CA's, and a list revokes them under this CA alone."""
    loss.issue()
    loss.copy()
    loss.issue()
    loss.send(rollover(key_line(0x12)))
    loss.issue("people/later")
    text = loss.lose()
    before = copy.deepcopy(loss.office)
    why = f"the serial 3 is one of the CA {fingerprint_of(CAS[1])}, and this office would issue it by "
    with pytest.raises(loss.rooted.script.Fault, match=re.escape(why)):
        loss.recover(text)
    assert before == loss.office
    assert "the front stays stopped: recover the rest without --to 2\n" in loss.recover(text, "--to", "2")
    assert {2} == loss.office.revoked
    loss.send(rollover(key_line(0x12)))
    loss.recover(text)
    loss.check()
    assert [(CAS[0], 1), (CAS[1], 3)] == loss.office.cas and {2, 3} <= loss.office.revoked


def test_a_department_that_the_copy_lacks_comes_first(loss):
    """Its key IDs can't be revoked before."""
    loss.copy()
    loss.send(department("web"))
    loss.send(revoke_keyid("web/alice"))
    text = loss.lose()
    with pytest.raises(loss.rooted.script.Fault, match="this office has no department web, of which key IDs are rev"):
        loss.recover(text)
    assert loss.kept == loss.office
    loss.send(department("web"))
    loss.recover(text)
    loss.check()


@pytest.mark.parametrize("missing, most, is_taken", [(4, 4, True), (5, 4, False)])
def test_many_serials_are_taken_only_if_somebody_says_so(loss, missing, most, is_taken):
    """A server that was taken may name any serial."""
    loss.copy()
    for it in range(missing):
        loss.issue(f"people/{it}")
    text = loss.lose()
    if is_taken:
        loss.recover(text, "--most", str(most))
        return loss.check()
    with pytest.raises(loss.rooted.script.Fault, match="5 serials are missing, from 1 to 5: .* pass --most 5"):
        loss.recover(text, "--most", str(most))
    assert loss.kept == loss.office
    huge = text + f"[list]\n# KRL version 1\n# CA key ssh-ed25519 {fingerprint_of(CAS[0])}\nserial: {2 ** 62}\n"
    with pytest.raises(loss.rooted.script.Fault, match=f"{2 ** 62} serials are missing"):
        loss.recover(huge)


def test_a_department_of_somebody_else_stays(loss):
    loss.copy()
    loss.issue()
    text = loss.lose()
    loss.send(department("recovered", admins="eve"))
    with pytest.raises(loss.rooted.script.Fault, match="the department recovered is there with other lines"):
        loss.recover(text)
    assert {} == loss.office.certificates


@pytest.mark.parametrize("change, why", [
    (lambda it: it.partition("[list]")[0], "the file has no list of a server"), (lambda it: "", "has no list"),
    (lambda it: f"hello\n{it}", "the file has an unexpected line: 'hello'"),
    (lambda it: it.replace("1 ", "0 ", 1), "unexpected line: '0 "),
    (lambda it: f"{it}hash: SHA256:x\n", "a list has an unexpected line"),
    (lambda it: it.replace("# KRL version", "# KRL"), "a list has no version"),
    (lambda it: f"{it}serial: 7-x\n", "a list has an unexpected line"), (lambda it: f"{it}[guard x]\n", "a list has an "),
], ids=range(8))
def test_a_file_that_says_something_else_changes_nothing(loss, change, why):
    loss.copy()
    loss.issue()
    loss.send(revoke_serial(1))
    text = loss.lose()
    with pytest.raises(loss.rooted.script.Fault, match=re.escape(why)):
        loss.recover(change(text))
    assert loss.kept == loss.office


def test_a_serial_that_somebody_else_takes_meanwhile_ends_it(loss, monkeypatch):
    """Then it would be another certificate than that which is out."""
    loss.copy()
    loss.issue()
    loss.issue()
    text = loss.lose()
    prepare = loss.rooted.script.recovering.Recovery.prepare

    def slow(it):
        prepare(it)
        if loss.office.next() == 1:
            loss.issue("people/eve")
    monkeypatch.setattr(loss.rooted.script.recovering.Recovery, "prepare", slow)
    with pytest.raises(loss.rooted.script.Fault, match="serial 1 was used meanwhile: run this again"):
        loss.recover(text)


@pytest.mark.parametrize("states, due", [
    ({"active", "enabled"}, [["stop", "office-front"], ["start", "office-front"]]),
    ({"enabled"}, [["start", "office-front"]]), (set(), []),
], ids=["running", "stopped by a run before", "none"])
def test_the_front_takes_no_request_meanwhile(loss, monkeypatch, states, due):
    recovering, said = loss.rooted.script.recovering, []
    monkeypatch.setattr(recovering, "is_front", states.__contains__)
    monkeypatch.setattr(recovering, "run", lambda words: said.append(words[1:]))
    loss.copy()
    loss.issue()
    loss.recover(loss.lose())
    loss.check()
    assert due == said


def test_what_nobody_has_is_another_key_each_time(loss):
    loss.copy()
    for _ in range(3):
        loss.issue()
    loss.recover(loss.lose())
    keys = {it.asked.key[1][0] for it in loss.office.certificates.values()}
    assert 3 == len(keys) and {32} == {len(it) for it in keys}
