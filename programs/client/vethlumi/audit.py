"""Compares the audit trail with the office's table and the guards' files: what one of them lacks, the others show."""
import re
from dataclasses import dataclass, field

from vethlumi.formats import BadFormat

# What `sshstation bodies` prints of a body that was approved.
BODY = re.compile(r"([1-9][0-9]{0,18}) ([0-9a-f]{64}) ([0-9]{1,20}) ([!-~]{1,97})", re.ASCII)


@dataclass
class Trail:
    """What lines of the trail say was accepted. By serial: the digest and the key ID of what was issued, which a
    renewal doesn't name, and of what a guard has approved; what was signed, sent to the office, delivered and revoked;
    and the sign-ons."""
    issued: dict = field(default_factory=dict)
    approved: dict = field(default_factory=dict)
    signed: set = field(default_factory=set)
    sent: set = field(default_factory=set)
    delivered: set = field(default_factory=set)
    revoked: list = field(default_factory=list)
    key_ids: set = field(default_factory=set)
    versions: set = field(default_factory=set)
    rollovers: set = field(default_factory=set)
    sign_ons: dict = field(default_factory=dict)
    # The serials that each request ID got.
    requests: dict = field(default_factory=dict)

    @classmethod
    def of(cls, records):
        found = cls()
        for it in records:
            if it["event"] == "message" and it.get("message") == "deliver":
                found.sent.add(it.get("serial"))
            if it["event"] == "message" and it["outcome"] == "accepted":
                found.take_message(it)
            elif it["event"] == "signature" and it["outcome"] in ("signed", "approved") and "serial" in it:
                found.approved[it["serial"]] = it.get("digest"), it.get("keyid")
                found.signed |= {it["serial"]} if it["outcome"] == "signed" else set()
            elif it["event"] in ("sign-on", "renewal") and it["outcome"] == "accepted" and "serial" in it:
                found.sign_ons[it["serial"]] = it.get("request")
        return found

    def take_message(self, it):
        kind, serial = it.get("message"), it.get("serial")
        if "version" in it:
            self.versions.add(it["version"])
        if kind in ("issue", "renew") and serial:
            self.issued[serial] = it.get("digest"), it.get("keyid")
            self.requests.setdefault(it.get("request"), set()).add(serial)
        elif kind == "deliver":
            self.delivered.add(serial)
        elif kind in ("revoke-serial", "revoke-range") and serial:
            self.revoked.append((serial, it.get("last", serial)))
        elif kind == "revoke-keyid":
            self.key_ids.add(it.get("keyid"))
        elif kind == "rollover":
            self.rollovers.add(serial)

    def revokes(self, row):
        return row.key_id in self.key_ids or any(first <= row.serial <= last for first, last in self.revoked)


def guard_of(text, path):
    """The bodies that a guard has approved: digest and key ID by their serials."""
    found = {}
    for number, line in enumerate(text.splitlines(), 1):
        it = BODY.fullmatch(line)
        if not it:
            raise BadFormat(f"{path}: line {number} isn't one that `sshstation bodies` prints")
        found[int(it[1])] = it[2], it[4]
    return found


def differences(trail, table, cas, guard, first):
    """What only some of them have, from a serial on: a name and a sentence each. `guard` is None if no file of a guard
    is there to compare with."""
    rows = set()
    for row in table:
        rows.add(row.serial)
        if row.serial >= first:
            yield from of_row(trail, row, guard)
    for serial in sorted(it for it in {*trail.issued, *trail.approved, *(guard or ())} if it >= first):
        if serial not in rows:
            who = [name for name, has in (("the trail", serial in trail.issued or serial in trail.approved),
                                          ("the guard's file", serial in (guard or ()))) if has]
            yield f"serial {serial}", f"{' and '.join(who)} {'has' if len(who) == 1 else 'have'} it, and not the table"
        if guard is not None:
            yield from of_guard(trail, serial, guard)
    yield from of_others(trail, table, cas, first)


def of_row(trail, row, guard):
    """What the trail and the guard lack of a row of the table, or say otherwise."""
    name = f"serial {row.serial}"
    if row.serial not in trail.issued:
        yield name, "the table has it, and the trail no message that it was issued for"
    for whose, (_, key_id) in ((it, found[row.serial]) for it, found in (
            ("the trail's message", trail.issued), ("the trail's signature", trail.approved),
            ("the guard's file", guard or {})) if row.serial in found):
        if key_id not in (None, row.key_id):
            yield name, f"its key ID is {row.key_id} in the table, and {key_id} in {whose}"
    is_signed = row.state == "signed" or row.serial in trail.delivered
    if is_signed and row.serial not in trail.delivered:
        yield name, "it is signed in the table, and the trail has no delivery"
    elif row.serial in trail.signed - trail.sent:
        yield name, "a station has signed it, and the trail has no delivery"
    if is_signed and row.serial not in trail.approved:
        yield name, "it is signed, and the trail has no signature by a station"
    if is_signed and guard is not None and row.serial not in guard:
        yield name, "it is signed, and the guard's file doesn't have it"
    if (row.state == "revoked") != trail.revokes(row):
        yield name, "it is revoked in the table, and the trail has no revocation" if row.state == "revoked" \
            else "the trail has a revocation, and the table has it as valid"


def of_guard(trail, serial, guard):
    """Whether a guard and the trail agree about a serial."""
    name = f"serial {serial}"
    if serial in guard and serial not in trail.approved:
        yield name, "the guard's file has it, and the trail no approval"
    if serial in trail.approved and serial not in guard:
        yield name, "the trail has an approval, and the guard's file doesn't have it"
    digests = {it[0] for it in (guard.get(serial), trail.approved.get(serial), trail.issued.get(serial)) if it} - {None}
    if len(digests) > 1:
        yield name, f"it has several digests: {', '.join(sorted(digests))}"


def of_others(trail, table, cas, first):
    """Sign-ons, versions of the KRL and CAs."""
    for serial, request in sorted(trail.sign_ons.items()):
        if serial >= first and serial not in trail.requests.get(request, ()):
            yield f"serial {serial}", f"a sign-on or renewal got it, and the trail has no message {request} for it"
    # Each version is the answer to a revocation.
    since = min(trail.versions, default=table.version)
    for version in range(since if first > cas[0][1] else 1, table.version + 1):
        if version not in trail.versions:
            yield f"version {version} of the KRL", "the office has had it, and the trail has no revocation for it"
    for it in sorted(it for it in trail.versions if it > table.version):
        yield f"version {it} of the KRL", f"the trail has a revocation for it, and the office is at {table.version}"
    for number, since, _ in cas[1:]:
        if since >= first and since not in trail.rollovers:
            yield f"CA {number}", f"the office has it, from serial {since} on, and the trail has no rollover"
