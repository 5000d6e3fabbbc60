"""What an office lacks that was restored from a copy: certificates that the guards have approved since, and revocations
that servers have in their lists.

Serials count up, so each serial that is out already is taken by a certificate for nobody, and revoked. Then the office
goes on above them, revokes all that was revoked before, and its list has a higher version than any that servers have.
"""
import base64
import bisect
import re
import secrets
import subprocess
import sys
import time

import issued
import policies
from setting_up import FINGERPRINT, LAST_SERIAL, BadWords, Fault, run, tell

# How many serials are taken at most, unless somebody says more.
MOST = 100_000
# In bytes: more than any file of `vethlumi-install`.
LONGEST_FILE = 1 << 28
# The department of the certificates for nobody. No guard's policy has it, so none is signed.
DEPARTMENT = "recovered"
TEXT = policies.CLOSED.format(name=DEPARTMENT, kind="user")
ISSUE = """issue {department}
keyid {department}/{serial}
key ssh-ed25519 {key}
principals nobody
after {after}
before {before}
extensions
"""
# A line of `sshstation bodies`, and those of `ssh-keygen -Q -l`.
BODY = re.compile(r"([1-9][0-9]{0,18}) ([0-9a-f]{64}) [0-9]+ ([!-~]+)")
SERIALS, KEY_ID = re.compile(r"serial: ([0-9]{1,19})(?:-([0-9]{1,19}))?"), re.compile(r"id: ([a-z0-9-]{1,32}/[!-~]+)")
VERSION, CA = re.compile(r"# KRL version ([0-9]{1,20})"), re.compile(rf"# CA key \S+ ({FINGERPRINT.pattern})")


class List:
    """What a list revokes, by what `ssh-keygen -Q -l` prints: runs of serials with their CA, and key IDs."""

    def __init__(self, lines):
        self.lines, self.version, self.runs, self.key_ids, ca = lines, None, {}, {}, None
        for line in lines:
            if found := VERSION.fullmatch(line):
                self.version = int(found[1])
            elif found := CA.fullmatch(line):
                ca = found[1]
            elif (found := SERIALS.fullmatch(line)) and ca:
                self.runs[int(found[1]), int(found[2] or found[1])] = ca
            elif (found := KEY_ID.fullmatch(line)) and ca:
                self.key_ids[found[1]] = ca
            elif line and not line.startswith("# "):
                raise Fault(f"a list has an unexpected line: {line[:80]!r}")
        if self.version is None:
            raise Fault("a list has no version")
        self.ascending = sorted(self.runs)

    def covers(self, run):
        """Whether each serial of a run is revoked. A list's runs can't be made longer, so one of them has all."""
        at = bisect.bisect(self.ascending, (run[0], LAST_SERIAL)) - 1
        return at >= 0 and run[1] <= self.ascending[at][1]


class Known:
    """What guards and lists say of what is out: the file has the parts [guard FINGERPRINT] and [list]."""

    def __init__(self, text):
        self.approved, self.lists, part = {}, [], None
        for line in text.splitlines():
            if heading := re.fullmatch(rf"\[(?:guard ({FINGERPRINT.pattern})|list)\]", line):
                part = heading[1] or []
                self.lists += [part] if part == [] else []
            elif isinstance(part, list):
                part.append(line)
            elif part and (found := BODY.fullmatch(line)):
                self.approved[int(found[1])] = part, found[2], found[3]
            elif line:
                raise Fault(f"the file has an unexpected line: {line[:80]!r}")
        self.lists = [List(it) for it in self.lists]
        if not self.lists:
            raise Fault("the file has no list of a server")

    def highest(self):
        return max([0, *self.approved, *(high for it in self.lists for _, high in it.runs)])

    def version(self):
        return max(it.version for it in self.lists)

    def serials(self):
        """Each serial that tells a CA, with it."""
        yield from ((serial, ca) for serial, (ca, _, _) in self.approved.items())
        yield from ((serial, ca) for it in self.lists for run, ca in it.runs.items() for serial in run)


def read_known(path):
    try:
        with sys.stdin if path == "-" else open(path, errors="replace") as file:
            text = file.read(LONGEST_FILE + 1)
    except OSError as fault:
        raise Fault(f"can't read {path}: {fault.strerror}") from None
    if len(text) > LONGEST_FILE:
        raise Fault(f"{path} is too long")
    return Known(text)


def own_list(office):
    told = subprocess.run(["ssh-keygen", "-Q", "-l", "-f", "/dev/stdin"], input=office.read("/v1/krl"),
                          capture_output=True)
    if told.returncode:
        raise Fault(f"ssh-keygen can't read the office's list: {told.stderr.decode(errors='replace').strip()}")
    return List(told.stdout.decode().splitlines())


def runs_of(serials):
    """Serials in ascending order as runs, each with its first and its last."""
    found = []
    for it in serials:
        if found and found[-1][1] == it - 1:
            found[-1][1] = it
        else:
            found.append([it, it])
    return found


class Recovery:
    """What has to be done, and does it."""

    def __init__(self, office, known, given):
        self.office, self.known, self.to = office, known, given.to
        table, self.own = issued.table_of(office), own_list(office)
        self.cas = [it.split() for it in office.read("/v1/cas").decode().splitlines()]
        self.next = max(table.last + 1, int(self.cas[0][1]))
        self.highest = min(known.highest(), given.to or LAST_SERIAL)
        self.gap = range(self.next, self.highest + 1)
        self.again = self.given_again()
        # An earlier run that was interrupted may have left some.
        self.left = [*self.again, *(it.serial for it in table.rows if it.department == DEPARTMENT
                                    and it.state != "revoked")]
        self.check(given.most)
        self.runs = [run for it in known.lists for run in it.runs if run[1] <= self.highest and not
                     self.own.covers(run)]
        self.key_ids = [key_id for it in known.lists for key_id in it.key_ids if key_id not in self.own.key_ids]
        self.version = self.own.version

    def check(self, most):
        """Sees that the serials can be taken: by the CAs that have used them, and not too many."""
        if len(self.gap) > most:
            raise Fault(f"{len(self.gap)} serials are missing, from {self.next} to {self.highest}: if that is right, "
                        f"pass --most {len(self.gap)}")
        for serial, ca in sorted(self.known.serials()):
            due = next((it[2] for it in reversed(self.cas) if int(it[1]) <= serial), self.cas[0][2])
            if ca != due and serial <= self.highest:
                raise Fault(f"the serial {serial} is one of the CA {ca}, and this office would issue it by {due}: the "
                            f"copy is from before a rollover. Recover --to {serial - 1}, send the rollover to {ca} "
                            "again, and recover the rest")
        there = self.office.departments()
        lacking = {it.partition("/")[0] for found in self.known.lists for it in found.key_ids} - {
            block[0].split()[1] for _, block in policies.blocks(there)}
        if lacking:
            raise Fault(f"this office has no department {', '.join(sorted(lacking))}, of which key IDs are revoked: "
                        "send it its departments first, by vethlumi-install office")
        if f"department {DEPARTMENT}\n" in there and TEXT not in there:
            raise Fault(f"the department {DEPARTMENT} is there with other lines: it is for certificates for nobody")

    def given_again(self):
        """The serials that the restored office has given to others than had them: the certificates that are out stay
        valid, and the new ones are never signed."""
        pending = dict(it.split() for it in self.office.read("/v1/pending").decode().splitlines())
        return [int(serial) for serial, digest in pending.items()
                if self.known.approved.get(int(serial), ("", digest))[1] != digest and int(serial) <= self.highest]

    def is_needed(self):
        return bool(self.gap or self.left or self.runs or self.key_ids or self.is_behind())

    def is_behind(self):
        """Whether servers would take no list of this office, since they have another one of this version, or a higher
        one."""
        return self.own.version <= self.known.version() and not any(it.lines == self.own.lines for it in
                                                                    self.known.lists)

    def lost(self):
        """The certificates that the copy lacks."""
        return [f"serial {serial}, {self.known.approved[serial][2]}" for serial in sorted(self.known.approved)
                if serial in self.gap or serial in self.again]

    # ---- what is done

    def prepare(self):
        if self.office.department(DEPARTMENT) != TEXT:
            self.office.put(DEPARTMENT, "", TEXT)

    def take(self):
        """Takes the next serial by a certificate for a key that nobody has, which begins tomorrow."""
        key = base64.b64encode(b"\0\0\0\x0bssh-ed25519\0\0\0\x20" + secrets.token_bytes(32)).decode()
        tomorrow = int(time.time()) + 86400
        reply = self.office.send(ISSUE.format(department=DEPARTMENT, serial=self.next, key=key, after=tomorrow,
                                              before=tomorrow + 1))
        if not reply.startswith(f"issued {self.next}\n"):
            raise Fault(f"serial {self.next} was used meanwhile: run this again")
        self.left.append(self.next)
        self.next += 1

    def revoke(self, what):
        reply = self.office.send(f"revoke-{what}\n")
        self.version = int(re.fullmatch(r"revoked\nversion ([0-9]+)\n", reply)[1])

    def revoke_run(self, low, high):
        self.revoke(f"serial {low}" if low == high else f"range {low} {high}")

    def revoke_known(self):
        for run_ in self.runs:
            self.revoke_run(*run_)
        for it in self.key_ids:
            self.revoke(f"keyid {it}")

    def revoke_taken(self):
        """Revokes what was taken, and in so many steps that the list's version is above each that servers have: each
        step makes it one higher. Together they are one run of the list."""
        missing, serials = self.known.version() + 1 - self.version, sorted(self.left)
        alone = min(max(0, missing - 1), max(0, len(serials) - 1))
        for run_ in [*([it, it] for it in serials[:alone]), *runs_of(serials[alone:])]:
            self.revoke_run(*run_)
        self.left.clear()
        while not self.to and self.version <= self.known.version():
            self.take()
            self.revoke(f"serial {self.left.pop()}")


def is_front(state):
    """Whether this machine's front is `enabled`, or `active`."""
    return subprocess.run(["systemctl", f"is-{state}", "--quiet", "office-front"]).returncode == 0


def recover(given, steps, office):
    known = read_known(given.name)
    if given.name == "-" and not given.yes:
        raise BadWords("the file is standard input, so nothing can be confirmed. Pass --yes")
    it = Recovery(office, known, given)
    is_needed = it.is_needed()
    if is_needed:
        plan(it, steps)
    front_steps(steps, given.to, is_needed)
    try:
        steps.carry_out()
    except Fault:
        tell("the front may be stopped: it starts again once a run of this has ended well")
        raise
    lost = it.lost()
    for line in issued.shown(lost):
        print(f"needs a new one: {line}")
    if is_needed:
        tell(f"the list has version {it.version}, and the next certificate gets the serial {it.next}")


def plan(it, steps):
    if is_front("active"):
        steps.add("stop the front, so that nobody gets a serial meanwhile", lambda: run(
            ["systemctl", "stop", "office-front"]))
    if it.gap:
        steps.add(f"take the serials {it.next} to {it.highest}, which may be out, by certificates for nobody",
                  lambda: [it.prepare(), *(it.take() for _ in it.gap)])
    if it.runs or it.key_ids:
        steps.add("revoke what was revoked since the copy", it.revoke_known)
        for text in issued.shown([*(f"serials {low} to {high}" for low, high in it.runs), *it.key_ids]):
            steps.add(f"  {text}", lambda: None)
    if it.again:
        tell(f"{len(it.again)} serials that are out were given to others since the restore: who asked asks again")
    if it.gap or it.left or it.is_behind():
        steps.add(f"revoke the serials that were taken, until the list's version is above {it.known.version()}",
                  lambda: [it.prepare(), it.revoke_taken()])


def front_steps(steps, to, is_needed):
    """Starts the front again, one that an interrupted run has stopped, too."""
    if to:
        tell(f"the front stays stopped: recover the rest without --to {to}")
    elif is_front("enabled") and (is_needed or not is_front("active")):
        steps.add("start the front", lambda: run(["systemctl", "start", "office-front"]))
