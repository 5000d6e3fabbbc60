"""Commands for hosts without a certificate for the front: a token by which one enrols, and renewals by its own key."""
import hashlib
import json
import os
import re
import secrets
import time

import click

from vethlumi.cli import main, pass_job, put_file, read_text
from vethlumi.formats import BadFormat, Certificate
from vethlumi.login import Registrar
from vethlumi.office import NoAnswer
from vethlumi.settings import BadSettings, config_folder, shown
from vethlumi.signon import believed_cas
from vethlumi.workloads import check
from vethlumi_common import files
from vethlumi_common.signon import url64

# As the registrar takes a name byte for byte: without @, since it is a host's.
HOST = re.compile(r"[a-z0-9._-]{1,40}", re.ASCII)
# For how many seconds a token can be used.
LIFE = 3600
# What follows the office's URL in the issuer that these tokens name.
ISSUER = "/enrol"


# ---- the enrolment key, and its tokens

def new_key(path):
    """Makes the key. What is there already stays."""
    from cryptography.hazmat.primitives import serialization
    from cryptography.hazmat.primitives.asymmetric import ed25519
    if os.path.lexists(path):
        raise BadFormat(f"{path} already exists: --public-key prints its public half")
    made = ed25519.Ed25519PrivateKey.generate().private_bytes(
        serialization.Encoding.PEM, serialization.PrivateFormat.PKCS8, serialization.NoEncryption())
    files.make_folder(os.path.dirname(os.path.abspath(path)))
    put_file(path, made, 0o600)


def key_of(path):
    """The enrolment key. Whoever can read it can be any host. If it has a passphrase, that is asked for."""
    from cryptography.hazmat.primitives import serialization
    from cryptography.hazmat.primitives.asymmetric import ed25519
    if os.stat(path).st_mode & 0o077:
        raise BadSettings(f"{path} is open to other users: chmod 600 {path}")
    with open(path, "rb") as file:
        data = file.read()
    password = click.prompt("passphrase", hide_input=True, err=True).encode() if b" ENCRYPTED " in data else None
    try:
        found = serialization.load_pem_private_key(data, password)
    except (ValueError, TypeError):
        raise BadFormat(f"{path} isn't a PEM private key, or the passphrase is wrong") from None
    if not isinstance(found, ed25519.Ed25519PrivateKey):
        raise BadFormat(f"{path} isn't an Ed25519 key: vethlumi enrol --new-key makes one")
    return found


def public_of(key):
    """The public half (RFC 8037), named by its thumbprint (RFC 7638)."""
    from cryptography.hazmat.primitives import serialization
    raw = key.public_key().public_bytes(serialization.Encoding.Raw, serialization.PublicFormat.Raw)
    made = {"crv": "Ed25519", "kty": "OKP", "x": url64(raw)}
    kid = url64(hashlib.sha256(json.dumps(made, separators=(",", ":")).encode()).digest())
    return made | {"kid": kid, "alg": "EdDSA", "use": "sig"}


def token_for(host, key, office, now):
    """A token by which a host enrols at an office: a JSON Web Token (RFC 7519) in compact form."""
    head = {"alg": "EdDSA", "kid": public_of(key)["kid"], "typ": "JWT"}
    claims = {"iss": f"{office}{ISSUER}", "sub": host, "aud": office, "iat": now, "exp": now + LIFE,
              "jti": secrets.token_urlsafe(18)}
    text = ".".join(url64(json.dumps(it, separators=(",", ":")).encode()) for it in (head, claims))
    return f"{text}.{url64(key.sign(text.encode()))}"


@main.command()
@click.argument("host", metavar="[HOST]", required=False)
@click.option("--key", metavar="FILE", help=f"the enrolment key [default: {shown(config_folder())}/enrol.key]")
@click.option("--new-key", "is_new", is_flag=True, help="make the key, and print its public half")
@click.option("--public-key", "is_public", is_flag=True, help="print the key's public half, for the registrar")
@pass_job
def enrol(job, host, key, is_new, is_public):
    """Print a token by which HOST gets its first certificate.

    HOST is the name that the registrar puts into the department's principals, for example web for web.example.org. The
    token counts once, for the first to send it, and expires after an hour. So keep it secret until HOST has its
    certificate, which HOST then renews by its own key. The enrolment key signs tokens for every host: keep it on one
    machine. The registrar has its public half.
    """
    key = key or os.path.join(config_folder(), "enrol.key")
    if is_new + is_public + bool(host) != 1:
        raise BadFormat("pass one of HOST, --new-key and --public-key")
    if host and not HOST.fullmatch(host):
        raise BadFormat(f"{host[:60]!r} isn't a valid name: 1 to 40 of a-z 0-9 . _ -")
    if is_new:
        new_key(key)
    found = key_of(key)
    if not host:
        click.echo(json.dumps({"keys": [public_of(found)]}, indent=1))
        return
    click.echo(token_for(host, found, job.settings.url(), int(time.time())))


# ---- renewals

@main.command("renew-host")
@click.argument("certificate", metavar="FILE", type=click.Path(exists=True, dir_okay=False))
@click.option("--statement", metavar="FILE", required=True, type=click.Path(exists=True, dir_okay=False),
              help="the statement that the host's key has signed; FILE.sig is its signature")
@click.option("--out", metavar="FILE", help="the file for the new certificate [default: FILE]")
@pass_job
def renew_host(job, certificate, statement, out):
    """Renew a host's certificate by the host's own key.

    As long as the host's certificate is valid, the registrar takes it with a statement that is at most a minute old and
    signed with the host's key. The timer on the host makes that statement, and runs this command.
    """
    line, cas = read_text(certificate).strip(), believed_cas(job.settings)
    old = Certificate.of_line(line)
    serial, text = Registrar(job.settings, job.ends).obtained(
        "/v1/renewal", certificate=line, statement=read_text(statement), signature=read_text(f"{statement}.sig"))
    check(cas, text, serial, old.key, old.key_id.partition("/")[0])
    new = Certificate.of_line(text)
    if (new.kind, new.key_id, new.principals) != (old.kind, old.key_id, old.principals):
        raise NoAnswer("the office returned a certificate that isn't a renewal: its kind, key ID or principals "
                       "differ", None)
    out = out or certificate
    put_file(out, text.rstrip("\n") + "\n")
    click.echo(f"{out} serial {serial}")
