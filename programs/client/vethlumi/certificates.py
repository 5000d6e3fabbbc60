"""Commands for certificates: request, renew, get, show, certs."""
import fnmatch
import sys
import time

import click

from vethlumi import formats
from vethlumi.cli import as_json, main, pass_job, put_file, read_text, waiting
from vethlumi.formats import BadFormat, Certificate
from vethlumi.office import NoAnswer, trying
from vethlumi.printing import COLOURS, print_fields, print_json, print_text, say
from vethlumi.settings import NOT_SIGNED
from vethlumi_common.ssh import blob_of
from vethlumi_common.subjects import refuse_weak, subject_line

STATES = ("pending", "signed", "revoked")
# In seconds: how long after a message it first asks for the certificate, by how much each pause is longer than the one
# before, and the longest one. A station signs within some hundredths of a second. So it waits for at most a third more
# than the signature takes, and sends a front no more requests a second than it lets through at once.
FIRST_PAUSE, LONGER, LONGEST_PAUSE = 0.03, 1.3, 1


def collect(job, kept, serial, key, out):
    """Waits until a certificate is signed, checks that it is for this key, and writes it to a file or prints it. Only
    then the message is dropped: until then the same command gets this certificate, and no second one."""
    pause = FIRST_PAUSE
    with waiting(f"serial {serial} waits for its signature") as tell:
        while (found := trying(lambda: job.office.line(serial), job.ends, tell)) is None:
            left = job.ends - time.monotonic()
            if left <= 0:
                say(f"serial {serial} has no signature yet; run the same command again")
                sys.exit(NOT_SIGNED)
            time.sleep(min(pause, left))
            pause = min(LONGER * pause, LONGEST_PAUSE)
    line, certificate = found
    if certificate.blob != key:
        raise NoAnswer(f"the office returned a certificate for a different key as serial {serial}. The message is kept")
    if out:
        put_file(out, line)
        click.echo(f"{out} serial {serial}")
    else:
        print_text(line)
    kept.drop()


def demanded(department, options):
    """The options that a department demands with their values, and that aren't given."""
    given = {it.partition(" ")[0] for it in options}
    return [f"{name} {value}" if value else name for name, value in (department.demands if department else ())
            if name not in given and (value or name == "verify-required")]


def comma_list(context, option, text):
    return tuple(text.split(",")) if text else None if text is None else ()


@main.command()
@click.argument("key_id", metavar="KEYID")
@click.argument("public", metavar="KEY.pub", type=click.Path(exists=True, dir_okay=False))
@click.option("--principals", metavar="LIST", callback=comma_list, help="separated by commas [default: NAME of KEYID]")
@click.option("--life", metavar="TIME", default="8h", show_default=True, help="how long the certificate is valid")
@click.option("--extensions", metavar="LIST", callback=comma_list,
              help="separated by commas [default: all that the department has in the `policy` of the settings; "
                   "without that, none]")
@click.option("--option", "options", metavar="TEXT", multiple=True,
              help="a critical option, for example 'force-command /bin/true'")
@click.option("--out", metavar="FILE", help="the file for the certificate [default: KEY-cert.pub]")
@pass_job
def request(job, key_id, public, principals, life, extensions, options, out):
    """Request a certificate, and wait until it is signed.

    KEYID is DEPARTMENT/NAME. The validity begins a minute in the past, for servers whose clocks are slow.
    """
    if not formats.KEY_ID.fullmatch(key_id):
        raise BadFormat(f"invalid key ID {key_id!r}: expected DEPARTMENT/NAME")
    if not out and (not public.endswith(".pub") or public.endswith("-cert.pub")):
        raise BadFormat(f"{public} has to end with .pub: otherwise pass the certificate's file with --out")
    key, (department, _, name) = subject_line(read_text(public)), key_id.partition("/")
    known = job.policy().get(department)
    if extensions is None:
        extensions = known.extensions if known else ()
    options = (*options, *demanded(known, options))
    after = int(time.time()) - 60
    message = formats.issue(department, key_id, key, principals or (name,), after, after + formats.seconds_of(life),
                            options, extensions)
    kept, reply = job.send(message)
    collect(job, kept, int(reply[1]), blob_of(key), out or f"{public[:-4]}-cert.pub")


def certificate_of(job, what):
    """The fields of a certificate that is given by its serial or its file."""
    if not what.isdecimal():
        return Certificate.of_line(read_text(what))
    if not (what.isascii() and 1 <= int(what[:20]) <= formats.LAST_SERIAL):
        raise BadFormat(f"{what[:50]} isn't a valid serial")
    return job.office.body(int(what))


@main.command()
@click.argument("what", metavar="SERIAL|FILE")
@click.option("--life", metavar="TIME", help="how long the new certificate is valid [default: as the old one]")
@click.option("--out", metavar="FILE", help="the file for the certificate [default: FILE, or standard output]")
@pass_job
def renew(job, what, life, out):
    """Request a certificate again, with a new validity."""
    old, out = certificate_of(job, what), out if what.isdecimal() else out or what
    refuse_weak(old.blob)
    after = int(time.time()) - 60
    length = formats.seconds_of(life) if life else old.before - old.after
    kept, reply = job.send(formats.renew(old.serial, after, after + length))
    collect(job, kept, int(reply[1]), old.blob, out)


@main.command()
@click.argument("serial", type=click.IntRange(1, formats.LAST_SERIAL))
@click.option("--out", metavar="FILE", help="the file for the certificate [default: standard output]")
@pass_job
def get(job, serial, out):
    """Print a certificate."""
    found = job.office.line(serial)
    if found is None:
        say(f"serial {serial} has no signature yet")
        sys.exit(NOT_SIGNED)
    line, _ = found
    put_file(out, line) if out else print_text(line)


@main.command(short_help="Show a certificate's fields, and whether it is revoked.")
@click.argument("what", metavar="SERIAL|FILE")
@as_json
@pass_job
def show(job, what, as_json):
    """Show a certificate's fields, and whether it is signed or revoked."""
    certificate = certificate_of(job, what)
    rows, _ = job.office.table()
    row = next((it for it in rows if it.serial == certificate.serial and it.key_id == certificate.key_id), None)
    record = certificate.as_record() | {"state": row.state if row else "not of this office"}
    (print_json if as_json else print_fields)(record)


@main.command()
@click.option("--state", type=click.Choice(STATES))
@click.option("--kind", type=click.Choice(("user", "host")))
@click.option("--department", metavar="NAME")
@click.option("--keyid", metavar="PATTERN", help="a key ID; * matches any text")
@click.option("--valid", is_flag=True, help="only certificates that are signed, not revoked, and valid now")
@click.option("--ends-within", metavar="TIME", help="only certificates that are valid now and expire within this time")
@as_json
@pass_job
def certs(job, state, kind, department, keyid, valid, ends_within, as_json):
    """List certificates."""
    rows, _ = job.office.table()
    now = int(time.time())
    limit = now + formats.seconds_of(ends_within) if ends_within else None
    chosen = (it for it in rows
              if (not state or it.state == state) and (not kind or it.kind == kind)
              and (not department or it.department == department)
              and (not keyid or fnmatch.fnmatchcase(it.key_id, keyid))
              and (not (valid or limit) or it.is_valid(now))
              and (not limit or it.before <= limit))
    if as_json:
        for it in chosen:
            print_json(it.as_record())
        return
    print_rows(chosen, rows.last)


def print_rows(rows, last):
    """Prints rows of a table whose highest serial is `last`, each as it comes: there may be millions."""
    columns, is_empty = f"{{:>{max(6, len(str(last)))}}}  {{:4}}  {{:7}}  {{:20}}  {{:20}}  {{}}", True
    for it in rows:
        if is_empty:
            click.secho(columns.format("serial", "kind", "state", "valid from", "valid until", "key ID"), bold=True)
        is_empty = False
        click.secho(columns.format(it.serial, it.kind, it.state, formats.date(it.after), formats.date(it.before),
                                   it.key_id), fg=COLOURS[it.state])
    if is_empty:
        click.echo("no certificates")
