"""Commands that look: status, list, signers, figures, outbox, doctor."""
import collections
import copy
import sys
import time

import click

from vethlumi import doctor, figures, formats
from vethlumi.certificates import STATES
from vethlumi.cli import as_json, main, pass_job, put_file, read_text
from vethlumi.formats import BadFormat, Certificate
from vethlumi.office import trying
from vethlumi.printing import plain, print_fields, print_json, print_table, print_text, say
from vethlumi.refusals import Refused


@main.command(short_help="Show the office's CAs, KRL and number of certificates.")
@as_json
@pass_job
def status(job, as_json):
    """Show the office's CAs, number of certificates and KRL, and how many messages have no answer yet."""
    cas, (rows, version) = job.office.cas(), job.office.table()
    now = time.time()
    counts = collections.Counter()
    for it in rows:
        counts[it.state] += 1
        counts["valid"] += it.is_valid(now)
    record = {
        "office": job.office.url,
        "cas": [{"number": number, "since": str(since), "fingerprint": print_} for number, since, print_ in cas],
        "certificates": len(rows),
        **{it: counts[it] for it in (*STATES, "valid")},
        "list version": str(version),
        "outbox": len(job.outbox.all()),
    }
    if as_json:
        return print_json(record)
    print_fields({name: value for name, value in record.items() if name != "cas"})
    print_table(("CA", "since", "fingerprint"), [tuple(map(str, it.values())) for it in record["cas"]], "")


@main.command("krl")
@click.option("--out", metavar="FILE", help="write the KRL to FILE")
@click.option("--check", metavar="FILE", help="check whether the KRL revokes the certificate in FILE")
@as_json
@pass_job
def krl_(job, out, check, as_json):
    """Show the key revocation list (KRL), or fetch it."""
    data, found = job.office.krl()
    if check:
        is_revoked = found.revokes(Certificate.of_line(read_text(check)))
        print_json({"revoked": is_revoked}) if as_json else click.echo("revoked" if is_revoked else "clear")
    elif out:
        put_file(out, data)
        click.echo(f"{out} version {found.version}")
    elif as_json:
        print_json(found.as_record())
    else:
        record = found.as_record()
        print_fields({name: record[name] for name in ("version", "date", "bytes")})
        for section in record["cas"]:
            print_fields(section)


@main.command()
@pass_job
def signers(job):
    """Print the allowed signers file for ssh-keygen -Y verify."""
    print_text(job.office.signers())


@main.command("metrics")
@click.option("--last", type=click.IntRange(1, formats.LAST_SERIAL), default=formats.LAST_SERIAL,
              help="the office's last serial")
@pass_job
def metrics_(job, last):
    """Print metrics in Prometheus' text format."""
    answered = "up", "Whether the office answered."
    try:
        found = figures.figures(job.office, last) + figures.ends(job)
    except Exception:
        # Whatever it is: somebody who looks at the metrics has to see it.
        click.echo(figures.printed(*answered, [("", 0)]), nl=False)
        raise
    click.echo("".join(figures.printed(*it) for it in [(*answered, [("", 1)]), *found]), nl=False)


@main.command()
@click.option("--send", is_flag=True, help="send them again")
@click.option("--drop", metavar="ID", help="delete a message, which may have been accepted")
@as_json
@pass_job
def outbox(job, send, drop, as_json):
    """Show the messages that have no answer yet."""
    kept = job.outbox.all()
    if drop:
        found = next((it for it in kept if it.key == drop), None)
        if not found:
            raise BadFormat(f"the outbox has no message {drop}")
        return found.drop()
    for it in kept:
        reply = sent_again(job, it) if send else ""
        print_json({"id": it.key, "message": it.message, "reply": reply}) if as_json \
            else click.echo(plain(f"{it.key}  {it.message.partition(chr(10))[0]}{'  ' * bool(reply)}{reply}"))
    if not kept and not as_json:
        click.echo("the outbox is empty")


def sent_again(job, kept):
    """Sends a message of the outbox, and gives its reply or refusal. It stays there if it got neither."""
    try:
        reply = trying(lambda: job.office.post(kept), job.ends, say)
    except Refused as refused:
        if not refused.number:
            raise
        kept.drop()
        return f"refused {refused.number} {refused.name}"
    # A certificate is fetched by the command that asked for it, which finds the message here.
    if reply[0] != "issued":
        kept.drop()
    return " ".join(reply)


@main.command("doctor", short_help="Check the front, clocks, certificates, KRL and sshd.")
@click.option("--within", metavar="TIME", default="14d", show_default=True, help="warn of what expires within TIME")
@click.option("--krl", metavar="FILE", help="the KRL that sshd reads [default: as sshd -T prints it]")
@click.option("--fresh", metavar="TIME", default="1h", show_default=True, help="the oldest that this KRL may be")
@as_json
@pass_job
def doctor_(job, within, krl, fresh, as_json):
    """Check what this machine needs: the front, clocks, certificates, the KRL, and sshd's settings."""
    found = doctor.findings(job, formats.seconds_of(within), krl, formats.seconds_of(fresh))
    if as_json:
        for it in found:
            print_json(it._asdict())
    else:
        print_table(("", "what", "found", "what to do"), [(it.state, it.what, it.found, it.advice) for it in found], "")
    sys.exit(any(it.state == "bad" for it in found))


def also(name, command):
    """Gives a command another name too, which help, manual pages and completions show."""
    other = copy.copy(command)
    other.name, other.short_help = name, f"The same as {command.name}."
    other.epilog = f"The same as vethlumi {command.name}."
    main.add_command(other)


also("list", krl_)
also("figures", metrics_)
