"""Commands for the audit trail: events, audit."""
import fnmatch
import json
import subprocess
import sys
import time

import click

from vethlumi import audit, formats
from vethlumi.cli import as_json, counted, main, pass_job, read_text
from vethlumi.printing import print_json, print_table
from vethlumi.settings import REFUSED, BadSettings
from vethlumi_common.trail import LONGEST_LINE, moment, record_of

# The units whose output is the trail.
UNITS = "office-front-events.service", "office-station@*.service", "vethlumi-registrar.service"
OUTCOMES = ("accepted", "refused", "unanswered", "signed", "approved", "published")


def journal(since):
    """The lines of this machine's journal. `since` is a time in seconds, or None."""
    words = ["journalctl", "--quiet", "--no-pager", "--output", "json", "--output-fields", "MESSAGE"]
    words += [word for it in UNITS for word in ("--unit", it)] + ([f"--since=@{int(since)}"] if since else [])
    try:
        with subprocess.Popen(words, stdin=subprocess.DEVNULL, stdout=subprocess.PIPE) as made:
            yield from lines_of(made.stdout)
    except FileNotFoundError:
        raise BadSettings("this machine has no journal: name files that have the trail") from None
    if made.returncode:
        raise BadSettings(f"journalctl has ended with status {made.returncode}")


def lines_of(file):
    """The lines of a file. One that is too long isn't the trail's, and comes in pieces that aren't, either."""
    while line := file.readline(4 * LONGEST_LINE):
        yield line.decode("utf-8", "replace")


def message_of(line):
    """What a line has of the trail: the line itself, or the message of what `journalctl -o json` prints."""
    if line.startswith("{") and '"MESSAGE"' in line:
        try:
            found = json.loads(line).get("MESSAGE")
        except (ValueError, RecursionError, AttributeError):
            return ""
        return found if isinstance(found, str) else ""
    return line.rstrip("\n")


def records(files, since):
    """The records of the trail, each line once."""
    seen = set()
    for name in files or [None]:
        if name is None:
            lines, file = journal(since), None
        else:
            file = sys.stdin.buffer if name == "-" else open(name, "rb")
            lines = lines_of(file)
        try:
            for line in lines:
                found = record_of(message_of(line))
                if found and (since is None or found["at"] >= moment(since)) and found.get("id") not in seen:
                    seen |= {found["id"]} if "id" in found else set()
                    yield found
        finally:
            if file and name != "-":
                file.close()


def details(record):
    """What a person is shown of a record beside its columns."""
    parts = [record.get("reason"), "repeated" if record.get("repeated") else None]
    parts += [f"of serial {record['of']}"] if "of" in record else []
    parts += [f"to serial {record['last']}"] if "last" in record else []
    parts += [f"version {record['version']}"] if "version" in record else []
    parts += [f"for {','.join(record['principals'])}"] if "principals" in record else []
    return ", ".join(filter(None, parts))


def row_of(record):
    who = record.get("caller") or record.get("subject") or record["source"]
    return (record["at"], who, record.get("from", ""), record.get("message") or record["event"], record["outcome"],
            str(record.get("serial", "")), record.get("keyid") or record.get("department", ""), details(record))


@main.command(short_help="Show the audit trail: who asked for what, and the outcome.")
@click.argument("files", metavar="[FILE]...", nargs=-1, type=click.Path(exists=True, dir_okay=False, allow_dash=True))
@click.option("--since", metavar="TIME", help="only of the last TIME")
@click.option("--keyid", metavar="PATTERN", help="a key ID; * matches any text")
@click.option("--principal", metavar="PATTERN", help="one of the principals; * matches any text")
@click.option("--caller", metavar="PATTERN", help="who asked; * matches any text")
@click.option("--serial", type=click.IntRange(1, formats.LAST_SERIAL))
@click.option("--outcome", type=click.Choice(OUTCOMES))
@click.option("--repeats", is_flag=True, help="also messages that were accepted before")
@as_json
def events(files, since, keyid, principal, caller, serial, outcome, repeats, as_json):
    """Show the audit trail: who asked for what, and what became of it.

    FILE has what `journalctl -o json` printed on the machines of the front, the station and the registrar; - is
    standard input. Without FILE it is this machine's journal.
    """
    chosen = (it for it in records(files, time.time() - formats.seconds_of(since) if since else None)
              if (not keyid or fnmatch.fnmatchcase(it.get("keyid", ""), keyid))
              and (not principal or any(fnmatch.fnmatchcase(name, principal) for name in it.get("principals", ())))
              and (not caller or fnmatch.fnmatchcase(it.get("caller", ""), caller))
              and (not serial or it.get("serial", 0) <= serial <= it.get("last", it.get("serial", 0)))
              and (not outcome or it["outcome"] == outcome) and (repeats or not it.get("repeated")))
    found = sorted(chosen, key=lambda it: it["at"])
    if not as_json:
        columns = "time", "who", "from", "what", "outcome", "serial", "key ID", ""
        return print_table(columns, [row_of(it) for it in found], "no events")
    for it in found:
        print_json(it)


@main.command("audit", short_help="Compare the audit trail with the office and the guard.")
@click.argument("files", metavar="[FILE]...", nargs=-1, type=click.Path(exists=True, dir_okay=False, allow_dash=True))
@click.option("--guard", "guards", metavar="FILE", multiple=True, type=click.Path(exists=True, dir_okay=False),
              help="what `sshstation bodies` prints of a copy of a guard's file; may be repeated")
@click.option("--from", "first", type=click.IntRange(1, formats.LAST_SERIAL), metavar="SERIAL",
              help="the first serial that the trail has [default: the office's first]")
@as_json
@pass_job
def audit_(job, files, guards, first, as_json):
    """Compare the audit trail with the office's table and the guard's file.

    It names what only some of them have, and ends with status 1 if there is anything. FILE is as for events. Name a
    file of each CA's guard by --guard, or none. What was asked for meanwhile may be named too: then run it again.
    """
    trail = audit.Trail.of(records(files, None))
    guard = {serial: it for path in guards for serial, it in audit.guard_of(read_text(path), path).items()}
    (table, _), cas = job.office.table(), job.office.cas()
    found = [*audit.differences(trail, table, cas, guard if guards else None, first or cas[0][1])]
    if as_json:
        for name, why in found:
            print_json({"what": name, "difference": why})
    elif found:
        print_table(("what", "difference"), found, "")
    else:
        compared = f"{counted(len(table), 'certificate')}, {counted(len(trail.issued), 'message')} that issued one" + (
            f", {counted(len(guard), 'approval')}" if guards else "; no guard's file was compared")
        click.echo(f"nothing differs: {compared}")
    sys.exit(REFUSED if found else 0)
