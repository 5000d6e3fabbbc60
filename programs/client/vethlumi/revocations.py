"""The command that revokes certificates."""
import os
import time

import click

from vethlumi import formats
from vethlumi.certificates import print_rows
from vethlumi.cli import ask, counted, main, pass_job, read_text, without_asking
from vethlumi.formats import BadFormat, Certificate
from vethlumi.printing import say

# How many commands are shown of those that revoke a key ID's certificates one by one.
MOST_NAMED = 10


def revocation_of(what, keyid, job):
    """The message that revokes this, and a test of a row that it hits."""
    low, dash, high = what.partition("-")
    if keyid:
        pass
    elif what.isdecimal():
        return f"revoke-serial {int(what)}\n", lambda row: row.serial == int(what)
    elif dash and low.isdecimal() and high.isdecimal():
        return f"revoke-range {int(low)} {int(high)}\n", lambda row: int(low) <= row.serial <= int(high)
    elif os.path.exists(what):
        found = Certificate.of_line(read_text(what))
        if formats.fingerprint(found.ca) not in [print_ for _, _, print_ in job.office.cas()]:
            raise BadFormat(f"{what} was issued by a CA that isn't one of this office's")
        return f"revoke-serial {found.serial}\n", lambda row: row.serial == found.serial
    if not formats.KEY_ID.fullmatch(what):
        raise BadFormat(f"{what!r} isn't a serial, a range LOW-HIGH, a file or a key ID")
    return f"revoke-keyid {what}\n", lambda row: row.key_id == what


def end_of_key_id(name, serials):
    """What it means that a key ID is revoked, and what revokes only the certificates that it has now."""
    lines = [f"the key ID {name} can never be used again: the office issues no certificate with it, to anybody"]
    if serials:
        lines.append("  if you mean only what can be used now, answer n, and type:")
        lines += [f"    vethlumi revoke {it}" for it in serials[:MOST_NAMED]]
    if len(serials) > MOST_NAMED:
        lines.append(f"    and the same for {len(serials) - MOST_NAMED} more, which are listed above")
    return "\n".join(lines)


@main.command(short_help="Revoke certificates, permanently.")
@click.argument("what", metavar="SERIAL|LOW-HIGH|KEYID|FILE")
@click.option("--keyid", is_flag=True, help="the argument is a key ID, even if a file has this name")
@without_asking
@pass_job
def revoke(job, what, keyid, yes):
    """Revoke certificates, permanently: by serial, by a range of serials, by key ID, or by a certificate's file.

    No certificate is ever issued with a key ID again that was revoked. To revoke only a certificate that it has now,
    name its serial or its file.
    """
    message, hits = revocation_of(what, keyid, job)
    if not yes:
        rows, _ = job.office.table()
        print_rows(filter(hits, rows), rows.last)
        now = time.time()
        count = sum(map(hits, rows))
        living = [it.serial for it in rows if hits(it) and it.before > now and it.state != "revoked"]
        if message.startswith("revoke-keyid "):
            say(end_of_key_id(what, living))
        ask(f"Revoke {counted(count, 'certificate')}, {len(living)} of which can still be used?", yes)
    kept, reply = job.send(message)
    kept.drop()
    click.echo(f"revoked; the list has version {reply[2]}")
