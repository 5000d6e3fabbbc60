"""Sign-on on this machine: whose certificates count, and whether the agent has one already.

This runs before each ssh (`Match exec`). So it imports little, and asks no server.
"""
import base64
import os
import time

from vethlumi import agent
from vethlumi.settings import BadSettings, read_settings
from vethlumi_common import files
from vethlumi_common.ssh import ED25519_LINE

# With what the comments of the keys begin that a login has given to the agent.
MARK = "vethlumi login"
# A certificate that is valid for so many more seconds is enough for another ssh.
ENOUGH = 300
# The most bytes of a file with the keys of CAs.
LONGEST_CAS = 1 << 16


def believed_cas(settings):
    """The public keys, as bytes, of the CAs whose certificates are taken. Nobody else may have chosen them."""
    file = os.path.expanduser(settings.needed("cas"))
    try:
        if why := files.distrust(file, 0o002):
            raise BadSettings(f"the CAs can't be used: {why}")
        with open(file, encoding="utf-8", newline="") as it:
            lines = [line.rstrip("\r\n") for line in it.read(LONGEST_CAS).splitlines()]
    except (OSError, UnicodeDecodeError) as fault:
        raise BadSettings(f"no CA is known here: {file}: {fault}") from None
    lines = [it for it in lines if it and not it.startswith("#")]
    if wrong := [it for it in lines if not ED25519_LINE.fullmatch(it)] or [""] * (not lines):
        raise BadSettings(f"{file} has a line that isn't a CA's public key: {wrong[0][:60]!r}")
    return [base64.b64decode(it.split()[1]) for it in lines]


def is_of(certificate, department, cas):
    """Whether a certificate is for a user, of this department, and by one of these CAs."""
    return (certificate.kind == "user" and certificate.ca in cas
            and certificate.key_id.startswith(f"{department}/"))


def present(department, cas, now, least=ENOUGH):
    """The certificates of a department in the agent that are valid now, and for so many more seconds."""
    return [it for _, it, _ in agent.certificates()
            if is_of(it, department, cas) and it.after <= now and it.before > now + least]


def is_granted(words):
    """Whether the words are `login --if-needed` for a department of which the agent has a certificate. Of other words,
    and of settings that can't be used, nothing is said: the command does that, and takes longer to load."""
    match words:
        case ["login", "--if-needed"]:
            department = ""
        case (["login", "--if-needed", "--department", department]
              | ["login", "--department", department, "--if-needed"]):
            pass
        case _:
            return False
    if any(it.startswith("VETHLUMI_") for it in os.environ):
        return False
    try:
        settings = read_settings()
        return bool(present(department or settings.needed("department"), believed_cas(settings), time.time()))
    except (BadSettings, OSError):
        return False
