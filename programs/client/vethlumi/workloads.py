"""The command for workloads: a certificate by a token of their issuer, who has neither a browser nor a client
certificate."""
import base64
import hashlib
import os
import subprocess
import time

import click

from vethlumi import formats
from vethlumi.cli import main, pass_job, put_file, read_text
from vethlumi.formats import BadFormat, Certificate
from vethlumi.login import SLOW_CLOCK, Registrar
from vethlumi.office import NoAnswer
from vethlumi.signon import believed_cas
from vethlumi_common.subjects import ed25519_line, point_of

# The longest token that the registrar takes, and how many bytes around it are read; and how long a command may take for
# one, in seconds.
LONGEST_TOKEN, LONGEST_OUTPUT, LONGEST_COMMAND = 8192, 16384, 60


def audience_of(line):
    """The audience by which a token is one for this public key alone."""
    return f"vethlumi:{hashlib.sha256(base64.b64decode(line.split()[1])).hexdigest()}"


def token_in(data, where):
    """The token in what was read, with blanks around it."""
    found = data.decode("ascii", "replace").strip()
    if not found or len(found) > LONGEST_TOKEN or len(found.split()) != 1 or not found.isprintable():
        raise BadFormat(f"{where} has no token: expected one word of at most {LONGEST_TOKEN} characters")
    return found


def token_of_file(path):
    with open(path, "rb") as file:
        return token_in(file.read(LONGEST_OUTPUT), path)


def token_of_command(command, audience):
    """What a command prints. It finds the audience in its environment. What it prints is never shown."""
    try:
        done = subprocess.run(["sh", "-c", command], stdin=subprocess.DEVNULL, capture_output=True,
                              timeout=LONGEST_COMMAND, env=os.environ | {"AUDIENCE": audience})
    except subprocess.TimeoutExpired:
        raise NoAnswer(f"the token command took more than {LONGEST_COMMAND} seconds") from None
    if done.returncode:
        said = " ".join(done.stderr.decode(errors="replace").split())[-200:]
        raise NoAnswer(f"the token command failed: {said or f'status {done.returncode}'}")
    return token_in(done.stdout[:LONGEST_OUTPUT], "the command")


def check(cas, line, serial, public, department):
    """Sees that what came is the certificate that was asked for, of a CA of the settings."""
    from vethlumi import keys
    try:
        found = Certificate.of_line(line)
        body, signature = formats.signed_parts(base64.b64decode(line.split()[1]))
        keys.verify(found.ca[-32:], signature, body)
        if found.key != public or found.serial != serial:
            raise BadFormat("it is for a different key, or has a different serial")
        if not found.key_id.startswith(f"{department}/") or not formats.KEY_ID.fullmatch(found.key_id):
            raise BadFormat("it belongs to a different department")
        if found.ca not in cas:
            raise BadFormat(f"its CA {formats.fingerprint(found.ca)} isn't trusted here")
        if not found.after - SLOW_CLOCK <= time.time() < found.before:
            raise BadFormat(f"it is valid from {formats.date(found.after)} to {formats.date(found.before)}. Check this "
                            "machine's clock")
    except BadFormat as fault:
        raise NoAnswer(f"the answer isn't a certificate for this token: {fault}", None) from None


@main.command()
@click.argument("public", metavar="KEY.pub", type=click.Path(exists=True, dir_okay=False))
@click.option("--department", metavar="NAME", help="the department [default: `department` of the settings]")
@click.option("--token", metavar="FILE", help="a file with the token")
@click.option("--token-command", metavar="COMMAND", help="what prints the token; $AUDIENCE is the audience to ask for")
@click.option("--audience", "is_audience", is_flag=True, help="print the audience to ask the issuer for, and end")
@click.option("--out", metavar="FILE", help="the file for the certificate [default: KEY-cert.pub]")
@pass_job
def workload(job, public, department, token, token_command, is_audience, out):
    """Request a certificate by the token of a workload.

    A job of continuous integration, a service account or a machine of a cloud asks its issuer for a token of an
    audience that is for this public key alone, and the registrar turns the token into a certificate. The same again
    with a fresh token renews it.
    """
    line = ed25519_line(read_text(public))
    line = " ".join(line.split()[:2])
    if is_audience:
        click.echo(audience_of(line))
        return
    department = department or job.settings.needed("department")
    if not out and (not public.endswith(".pub") or public.endswith("-cert.pub")):
        raise BadFormat(f"{public} has to end with .pub: otherwise pass the certificate's file with --out")
    if bool(token) == bool(token_command):
        raise BadFormat("pass either --token or --token-command")
    cas = believed_cas(job.settings)
    found = token_of_file(token) if token else token_of_command(token_command, audience_of(line))
    serial, text = Registrar(job.settings, job.ends).certificate(department, found, line)
    check(cas, text, serial, point_of(line), department)
    out = out or f"{public[:-4]}-cert.pub"
    put_file(out, text.rstrip("\n") + "\n")
    click.echo(f"{out} serial {serial}")
