"""The station: its rounds, and what it keeps from one to the next."""
import array
import collections
import hashlib
import itertools
import os
import subprocess
import sys
import time
from concurrent.futures import FIRST_COMPLETED, Future, wait

from vethlumi_common.deadlines import Overlong
from vethlumi_common.ssh import fingerprint

from .asking import Connection, Office
from .ending import end_if_told, held_off
from .faults import Fault, NoEvidence, OtherCa, Refused
from .files import check_kept, keys_of
from .guard import Guard, serial_of
from .hints import Hints
from .journal import Room, Said, Serials, joined, print_line, printable
from .keys import signer
from .limits import (AWHILE, CONNECTIONS, FOR_A_WHILE, LONGEST_AGAIN, LONGEST_AWAITED, LONGEST_INTERVAL, LONGEST_PAUSE,
                     LONGEST_PENDING, LONGEST_SILENCE, LONG_ANSWER, MOST_FETCHED, MOST_JUDGED, MOST_KEPT, MOST_REASONS,
                     OFTEN, PAUSE_OF_EVIDENCE, TIMES_AS_LONG, TIMES_AS_SILENT)
from .lists import Lists
from .running import PROGRAMS
from .trail import Copy, Trail
from .wire import verifies
from .witnessing import NEEDED
from .workers import Workers

# What is shown in place of more reasons.
OTHER_REASONS, OTHER_CAS = "for other reasons", "refused as OtherCa, of other CAs"
NOT_TAKEN = "its signature isn't accepted"
NOT_TAKEN_FOR_OTHERS = f"{NOT_TAKEN}, {OTHER_REASONS}"


def serial_in(row):
    return int(row.partition(" ")[0])


def witness_of(given):
    """The witness, if there are settings for one. Others need none of its libraries."""
    if not given.witness:
        return None
    try:
        from .witness import Witness
    except ImportError as fault:
        raise Fault(f"{NEEDED}: {printable(fault)}") from None
    return Witness(given)


class Station:
    """What a station keeps from one round to the next, by rows of what is pending: bodies, and of what it didn't sign
    the number of tries, the moment before which it isn't tried again, and why."""

    def __init__(self, given):
        self.given, self.key, self.office = given, signer(given), Office(given)
        self.fetching, self.delivering = (Workers(CONNECTIONS, lambda: Connection(self.office)) for _ in range(2))
        self.room = Room()
        self.bodies, self.kept, self.left, self.said = {}, 0, {}, Said(self.room)
        self.signed, self.not_taken = Serials(self.room), Serials(self.room)
        # The rows of this round, when it says what is left of them, and the signatures that may have been sent and of
        # which nothing is said yet: rows, with what comes of their deliveries.
        self.rows, self.is_whole, self.silent_until, self.sent = [], True, 0, collections.deque()
        # The witness, and since when evidence is awaited, by rows.
        self.witness, self.awaited = witness_of(given), {}
        # The other CAs, when the files were last looked at, and what a refusal of the guard depends on.
        self.known, self.looked_at, self.rules = self.other_cas(), time.monotonic(), None
        # When this round began, how long the next one waits, how soon a front may have it begin, when a row was last
        # new, and what the fronts last said of messages.
        self.begun, self.pause, self.soonest, self.new_at, self.messages = 0, 0, 0, float("-inf"), {}
        self.hints = Hints(self.office)
        self.trail, self.copy = Trail(given.events, Room()), Copy(given.db, given.copy, Said(self.room))
        self.lists = Lists(given, self.key, self.office, Room(), self.trail) if given.lists else None
        self.guard = None

    def other_cas(self):
        given = self.given
        databases = [it for it in (given.db, given.lists) if it]
        # A log has what its database doesn't have yet, and is a part of it.
        files = [given.policy, *databases, *(f"{it}-wal" for it in databases), *given.other_ca, *given.list_ca]
        files += self.witness.files() if self.witness else []
        for path in [*files, *[given.cacert] * bool(given.cacert)]:
            check_kept(path)
        return {key for path in given.other_ca for key in keys_of(path)}

    def look(self):
        """A round. Returns whether nothing was left that this station should have signed."""
        end_if_told()
        self.begun = time.monotonic()
        try:
            self.rows, self.is_whole = self.office.pending()
        except OSError as fault:
            self.pause = LONGEST_INTERVAL
            why = f"{self.office.url} doesn't answer: {printable(fault)}"
            return self.said.say({why: why})
        new = [it for it in self.rows if it not in self.left]
        self.look_at_files(bool(new))
        self.decide_pause(bool(new))
        self.bodies = {row: self.bodies[row] for row in self.rows if row in self.bodies}
        self.kept = sum(map(len, self.bodies.values()))
        self.left = {row: self.left[row] for row in self.rows if row in self.left}
        self.awaited = {row: self.awaited[row] for row in self.rows if row in self.awaited}
        self.forget_pauses()
        self.silent_until = time.monotonic() + LONGEST_SILENCE
        try:
            self.try_all(new)
            return self.report()
        except BaseException:
            # The station ends here, and the next one may find none of these rows pending.
            for row, _ in self.sent:
                said = f"the signature of {serial_in(row)} may have been sent, and the station ends"
                print_line(f"station: {said}", sys.stderr)
            self.report()
            raise

    def look_at_files(self, is_new):
        """Sees before each signature, and each second, that nobody else can change what decides about it."""
        if is_new or time.monotonic() > self.looked_at + LONGEST_INTERVAL:
            self.known, self.looked_at = self.other_cas(), time.monotonic()
            if self.witness:
                self.witness.read()

    def decide_pause(self, is_new):
        """Decides how long the next round waits."""
        now = time.monotonic()
        self.new_at = now if is_new else self.new_at
        interval = min(OFTEN, self.given.interval) if now < self.new_at + FOR_A_WHILE else self.given.interval
        taken = now - self.begun
        is_long = taken > LONG_ANSWER and not is_new
        self.pause = min(TIMES_AS_LONG * taken, LONGEST_INTERVAL) if is_long else max(0, interval - taken)
        self.soonest = now + self.pause if is_long else self.begun + OFTEN

    def try_all(self, new):
        """Tries to sign what is pending. What wasn't signed before comes last and in turn, so that it holds up nothing
        new, however much it is."""
        again = sorted((it for it in self.rows if it in self.left), key=lambda it: self.left[it][0])
        self.try_to_sign(new)
        end = time.monotonic() + min(LONGEST_AGAIN, max(OFTEN, self.pause))
        due = [it for it in again if self.left[it][1] <= time.monotonic()]
        for at in range(0, len(due), MOST_JUDGED):
            if time.monotonic() > end:
                break
            self.try_to_sign(due[at:at + MOST_JUDGED])

    def try_to_sign(self, rows):
        """Signs pending certificates, or notes of each why it isn't signed. While the guard judges some of them, the
        next ones are fetched, and the signatures of the ones before are delivered."""
        rows, fetched = collections.deque(rows), collections.deque()
        while rows or fetched:
            while rows and len(fetched) < MOST_FETCHED:
                fetched.append((row := rows.popleft(), self.fetched(row)))
            if not self.judge(self.next_of(fetched)):
                # The key hangs. What is left comes in the next round.
                rows.clear()
                fetched.clear()
            if len(self.sent) > MOST_FETCHED:
                self.wait_for(self.sent[0][1])
        while self.sent:
            self.wait_for(self.sent[0][1])
            self.do_meanwhile()

    def fetched(self, row):
        """What comes of fetching a body, with why the witness objects to it: the body that is kept, if it is."""
        future, body = Future(), self.bodies.get(row)
        if body is not None and not self.witness:
            future.set_result((body, None))
        else:
            self.fetching.do(future, self.fetch, row, body)
        return future

    def fetch(self, row, body, connection):
        serial, digest = row.split(" ")
        body = self.office.body(serial, connection) if body is None else body
        if hashlib.sha256(body).hexdigest() != digest:
            raise OSError("its body has another digest than the one that is pending")
        try:
            if self.witness:
                self.witness.look(body, lambda name: self.office.evidence(name, connection))
        except (Refused, NoEvidence, OSError) as objection:
            return body, objection
        return body, None

    def next_of(self, fetched):
        """The next rows whose bodies have come, in their order and with what came. Waits for the first."""
        self.do_meanwhile()
        self.wait_for(fetched[0][1])
        batch = []
        while fetched and len(batch) < MOST_JUDGED and fetched[0][1].done():
            batch.append(fetched.popleft())
        return batch

    def wait_for(self, future):
        """Waits for what a thread does, and does meanwhile what can be done."""
        while not future.done():
            self.do_meanwhile()
            others = [it for _, it in itertools.islice(self.sent, 1)]
            others += [self.lists.under_way] if self.lists and self.lists.under_way else []
            wait([future, *others], 1, FIRST_COMPLETED)

    def do_meanwhile(self):
        """Says what came of deliveries, goes on with lists, and says what is left: an office can make a round last."""
        while self.sent and self.sent[0][1].done():
            self.finish()
        self.go_on_with_lists()
        if time.monotonic() > self.silent_until:
            self.report()

    def go_on_with_lists(self):
        if self.lists:
            self.lists.go_on()

    def judge(self, batch):
        """Signs those of some bodies that the guard approves, and has the signatures delivered. Returns whether the key
        doesn't hang."""
        asked = []
        for row, future in batch:
            try:
                body, objection = future.result()
                self.keep(row, body)
                # The guard would keep it under its own serial, and what is reported has the row's.
                if serial_of(body) not in (None, serial_in(row)):
                    raise OSError("its body has another serial")
                if objection:
                    raise objection
                asked.append((row, body))
            except NoEvidence:
                self.await_evidence(row)
            except Refused as refused:
                self.leave(row, refused.args[0], None)
            except OSError as fault:
                self.leave(row, printable(fault), OTHER_REASONS)
        answers = self.guard.answers([body for _, body in asked]) if asked else []
        hangs = None
        for (row, body), answer in zip(asked, answers):
            try:
                if hangs:
                    if answer[:1] == ["sign"]:
                        self.trail.body(row, body, "approved", hangs[0])
                    # It is tried before the one at which the key hung.
                    self.left[row] = self.tries(row), 0, *hangs
                    continue
                signature, future = self.signature_of(row, body, answer), Future()
                self.trail.body(row, body, "signed")
                # Noted before: if the station ends in between, it may have been sent.
                self.sent.append((row, future))
                self.delivering.do(future, self.deliver, row, signature)
            except Refused as refused:
                self.trail.body(row, body, "refused", refused.args[0].removeprefix("refused as "))
                self.leave(row, refused.args[0], None)
            except OtherCa as refused:
                if refused.args[0]:
                    self.trail.body(row, body, "refused", "OtherCa")
                self.leave(row, refused.args[0] and f"refused as OtherCa, {refused.args[0]}", OTHER_CAS)
            except Overlong as fault:
                hangs = printable(fault), OTHER_REASONS
                self.trail.body(row, body, "approved", hangs[0])
                self.leave(row, *hangs)
            except (OSError, subprocess.SubprocessError) as fault:
                self.trail.body(row, body, "approved", printable(fault))
                self.leave(row, printable(fault), OTHER_REASONS)
        return not hangs

    def keep(self, row, body):
        """Keeps a body for the next try, as long as all of them aren't too long."""
        if row not in self.bodies and self.kept + len(body) <= MOST_KEPT:
            self.bodies[row], self.kept = body, self.kept + len(body)

    def signature_of(self, row, body, answer):
        """The signature of a body that the guard approves. The bytes that are signed and verified are those to which
        the guard gave this answer."""
        if answer == ["refuse", "OtherCa"]:
            # Such a body ends with the key of its CA: else the guard would have found another reason.
            raise OtherCa(None if body[-51:] in self.known else fingerprint(body[-51:]))
        if answer[:1] != ["sign"]:
            raise Refused("refused as " + printable(" ".join(answer[1:])))
        if answer[1:] != row.split(" "):
            raise OSError("its body has another serial")
        signature = self.key.sign(body)
        # The guard has seen that the body names the guard's own CA: its last 32 bytes.
        if not verifies(body, body[-32:], signature):
            raise OSError("the key isn't the CA's: its signature doesn't verify")
        return signature

    def deliver(self, row, signature, connection):
        self.office.deliver(*row.split(" "), signature, connection)

    def finish(self):
        """Says what came of the first delivery."""
        row, future = self.sent[0]
        serial = serial_in(row)
        try:
            future.result()
        except OSError as fault:
            # Apart from what was never signed, among which a false office would hide it.
            why = f"{NOT_TAKEN}: {printable(fault)}"
            self.say_at_once(row, f"station: the signature of {serial} isn't accepted: {printable(fault)}")
            self.leave(row, why, NOT_TAKEN_FOR_OTHERS)
        else:
            self.left.pop(row, None)
            # A false front may have the same body signed again and again.
            if self.signed.may_say(serial, line := f"signed {serial}"):
                print_line(line, sys.stdout)
        self.sent.popleft()

    def say_at_once(self, row, line):
        """Says once that a signature isn't taken. A false office has it all the same, and can have so many others that
        the report of what is left doesn't show its serial."""
        is_new = row not in self.left or self.left[row][3] != NOT_TAKEN_FOR_OTHERS
        if is_new and self.not_taken.may_say(serial_in(row), line):
            print_line(line, sys.stderr)

    def tries(self, row):
        return self.left[row][0] if row in self.left else 0

    def leave(self, row, *why):
        """Notes why a row isn't signed, and that it is tried again after a pause."""
        tries = self.tries(row)
        self.left[row] = tries + 1, time.monotonic() + min(2 ** min(tries, 9), LONGEST_PAUSE), *why

    def await_evidence(self, row):
        """That no evidence has come is no refusal for a minute."""
        since = self.awaited.setdefault(row, time.monotonic())
        if self.given.once or time.monotonic() > since + LONGEST_AWAITED:
            self.leave(row, "refused as NoEvidence", None)
        else:
            self.left[row] = self.tries(row), time.monotonic() + PAUSE_OF_EVIDENCE, None, None

    def forget_pauses(self):
        """Tries everything again if what a refusal depends on has changed, other than the time."""
        try:
            policy = os.stat(self.given.policy)
            rules = policy.st_ino, policy.st_size, policy.st_mtime_ns, self.known, self.witness and self.witness.state
        except OSError:
            rules = None
        if rules != self.rules:
            self.left = {row: (tries, 0, *why) for row, (tries, _, *why) in self.left.items()}
        self.rules = rules

    def report(self):
        """Says what is left, as far as that has changed. Returns whether nothing is. Of a million rows that takes
        seconds, so it is said again after a multiple of them."""
        begun = time.monotonic()
        left = self.left_by_reason()
        lines = {why: f"not signed: {len(serials)}, {why}: {joined(serials)}" for why, serials in left.items()}
        if not self.is_whole:
            why = f"of what is pending only the first {LONGEST_PENDING} bytes are looked at"
            lines[why] = why
        own = {why for _, _, why, others in self.left.values() if not others}
        is_nothing = self.said.say(lines, own, left)
        now = time.monotonic()
        self.silent_until = now + max(LONGEST_SILENCE, TIMES_AS_SILENT * (now - begun))
        return is_nothing

    def left_by_reason(self):
        """The reasons that are shown, each with the serials that weren't signed for it, in ascending order. An office
        can make up texts and CAs, so only so many of each are shown, and the guard's own reasons always."""
        left, made_up = {}, collections.Counter()
        for row in self.rows:
            _, _, why, others = self.left.get(row, (0, 0, None, None))
            if why and others and why not in left:
                made_up[others] += 1
                why = why if made_up[others] <= MOST_REASONS else others
            if why:
                left.setdefault(why, array.array("Q")).append(serial_in(row))
        return {why: array.array("Q", sorted(serials)) for why, serials in left.items()}

    def wait(self):
        """Waits for the next round, which begins at once if a front says that a message was accepted."""
        begun = time.monotonic()
        end = begun + self.pause
        while (now := time.monotonic()) < end:
            end_if_told()
            messages = self.hints.said()
            if messages != self.messages and now > self.soonest:
                self.messages = messages
                return
            pause = OFTEN
            if self.hints.are_whole():
                # The office is asked less often.
                end, pause = max(end, begun + LONGEST_INTERVAL), AWHILE
            if messages != self.messages:
                pause = min(pause, self.soonest - now)
            self.hints.wait(min(end, now + pause) - now)
            self.go_on_with_lists()
            self.guard.stay()

    def run(self):
        """The status with which the station ends."""
        try:
            self.key.be_ready()
            with held_off():
                self.guard = Guard(self.given)
            while not self.given.once:
                self.look()
                self.guard.stay()
                self.copy.make_if_missing()
                self.wait()
            is_done = self.look()
            is_published = self.lists is None or self.lists.go_to_the_end()
            self.copy.make_if_missing()
        except BaseException:
            self.end()
            raise
        return 0 if self.end() == 0 and is_done and is_published else 1

    def end(self):
        """Ends what the station has begun, and returns the guard's status. The guards end by themselves."""
        with held_off():
            status = self.guard.end() if self.guard else 0
            PROGRAMS.end()
        return status
