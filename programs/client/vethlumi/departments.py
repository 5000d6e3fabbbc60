"""Commands for departments, and the rollover of the CA: what root may do."""
import base64
import difflib
import time

import click

from vethlumi import formats
from vethlumi.cli import as_json, ask, counted, main, pass_job, read_departments, read_text, without_asking
from vethlumi.formats import BadFormat
from vethlumi.office import NoAnswer, trying
from vethlumi.printing import plain, print_json, print_table
from vethlumi.refusals import Refused
from vethlumi.settings import BadSettings
from vethlumi_common.subjects import ed25519_line

# The most bytes of all departments together: over ten thousand of the usual length.
LONGEST_DEPARTMENTS = 1 << 22
TOO_OLD = ("the office has no endpoint for departments: it or its front is an earlier version. Upgrade both, "
           "or name a file by --policy after the command")


@main.group()
def department():
    """Show departments, compare them, and send them to the office."""


policy_option = click.option("--policy", metavar="FILE", help="take these departments instead of the office's")


def of_office(job):
    """The departments that the office has, by their names."""
    try:
        found = job.office.answer("GET", "/v1/departments", longest=LONGEST_DEPARTMENTS)
    except Refused as refused:
        if refused.name == "NoRoute" or "no such path" in str(refused):
            raise Refused(0, "", TOO_OLD, "") from None
        raise
    try:
        return formats.departments((found if isinstance(found, bytes) else found.body()).decode("ascii"))
    except (BadFormat, ValueError) as fault:
        raise NoAnswer(f"/v1/departments: unexpected answer from the office: {fault}") from None


def known_to(job, policy):
    """The departments of the office, or of a file that is named, and what they are called."""
    return (read_departments(policy), policy) if policy else (of_office(job), "the office")


@department.command("show")
@click.argument("names", metavar="[NAME..]", nargs=-1)
@policy_option
@as_json
@pass_job
def department_show(job, names, policy, as_json):
    """Show departments of the office, or of a policy's file."""
    found, where = known_to(job, policy)
    chosen = chosen_of(found, names, where)
    if as_json:
        for it in chosen:
            print_json({"maxlife": it.longest, "key-types": it.types,
                        "must": [" ".join(filter(None, demand)) for demand in it.demands],
                        **{name: getattr(it, name) for name in ("name", "kind", "admins", "principals", "options",
                                                                "extensions", "namespaces")}})
        return
    click.echo(plain("\n".join(it.text for it in chosen)), nl=False)


def affected(job, department):
    """The certificates of a department that haven't ended and that it wouldn't permit, each with the reasons."""
    rows, _ = job.office.table()
    now = time.time()
    found = []
    for row in rows:
        if row.department == department.name and row.state != "revoked" and row.before > now:
            certificate = trying(lambda row=row: job.office.body(row.serial), job.ends, lambda why: None)
            if objections := department.objections(certificate):
                found.append((row, objections))
    return found


def tell_changes(job, old, new):
    """Shows how a department changes, and which certificates it wouldn't permit any more. Whether there is a change."""
    texts = [it.text.splitlines() if it else [] for it in (old, new)]
    lines = [*difflib.unified_diff(*texts, "now", "then", lineterm="", n=8)]
    for line in lines:
        click.echo(click.style(plain(line), fg={"+": "green", "-": "red"}.get(line[0])))
    hit = affected(job, new)
    if hit:
        click.echo(f"{counted(len(hit), 'certificate')} that can still be used wouldn't be permitted:")
        print_table(("serial", "state", "valid until", "key ID", "not permitted"),
                    [(str(row.serial), row.state, formats.date(row.before), row.key_id, ", ".join(objections))
                     for row, objections in hit], "")
    return bool(lines)


def warn(departments):
    for line in [line for it in departments for line in it.warnings()]:
        click.echo(plain(line), err=True)


def chosen_of(found, names, where):
    """Those of the departments that are named, or all. `where` says where they are from."""
    if missing := [it for it in names if it not in found] or [""] * (not found):
        raise BadFormat(f"{where} has no department {missing[0]}".strip())
    return [found[it] for it in names] or [*found.values()]


@department.command("diff")
@click.argument("file", metavar="[FILE]", required=False, type=click.Path(exists=True, dir_okay=False))
@click.argument("names", metavar="[NAME..]", nargs=-1)
@policy_option
@pass_job
def department_diff(job, file, names, policy):
    """Compare the departments in FILE with those of the office, and list the certificates that they wouldn't permit.

    FILE is by default the policy of the settings. With --policy, two files are compared.
    """
    file = file or job.settings.file("policy")
    if not file:
        raise BadSettings("no file: name one, or set `policy` in the settings")
    given, (known, where) = read_departments(file), known_to(job, policy)
    chosen = chosen_of(given, names, file)
    warn(chosen)
    differ = [tell_changes(job, known.get(it.name), it) for it in chosen]
    others = [] if names else [it for it in known if it not in given]
    for it in others:
        click.echo(plain(f"{where} has the department {it}, which {file} doesn't name"))
    if not any(differ) and not others:
        click.echo("no difference")


@department.command("put")
@click.argument("file", metavar="FILE", type=click.Path(exists=True, dir_okay=False))
@click.argument("names", metavar="[NAME..]", nargs=-1)
@policy_option
@without_asking
@pass_job
def department_put(job, file, names, policy, yes):
    """Show what changes, and send the departments in FILE, or those with the given names, to the office.

    FILE has the format of the policy: departments, with empty lines and comments in between. With --yes, nothing is
    shown before, and departments that the office has already are sent too.
    """
    chosen = chosen_of(read_departments(file), names, file)
    warn(chosen)
    if not yes:
        known, _ = known_to(job, policy)
        chosen = [it for it in chosen if tell_changes(job, known.get(it.name), it)]
        if not chosen:
            click.echo("no difference")
            return
        ask(f"Send {counted(len(chosen), 'department')} to the office?", yes)
    for it in chosen:
        kept, _ = job.send(it.text, lambda reply, name=it.name: reply == ["department", name])
        kept.drop()
        click.echo(f"department {it.name}")


@main.command()
@click.argument("public", metavar="KEY.pub", type=click.Path(exists=True, dir_okay=False))
@without_asking
@pass_job
def rollover(job, public, yes):
    """Make a new key the CA. What the older CAs have signed stays valid."""
    key = ed25519_line(read_text(public))
    print_ = formats.fingerprint(base64.b64decode(key.split()[1]))
    ask(f"Make {print_} the CA? Servers have to trust it before its first certificate is used.", yes)
    kept, reply = job.send(f"rollover {key}\n", lambda reply: reply[:1] == ["rollover"] and len(reply) == 4)
    kept.drop()
    click.echo(f"CA {reply[1]} is {print_}, from serial {reply[3]} on")
