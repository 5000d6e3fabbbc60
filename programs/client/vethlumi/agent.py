"""The user's ssh-agent, by its protocol (draft-miller-ssh-agent): what it has, one more certificate, one less.

`ssh-add` takes a key from its standard input, but a certificate only from a file beside the key.
"""
import contextlib
import os
import socket

from vethlumi.formats import CERTIFICATE_TYPE, BadFormat, Certificate, Reader
from vethlumi.settings import BadSettings
from vethlumi_common.ssh import string

# Messages, what the agent replies, and the constraint that ends a key after some seconds.
LIST, ADD, REMOVE = 11, 25, 18
KEYS, SUCCESS = 12, 6
LIFETIME = 1
# How long the agent may take, in seconds, and the most bytes of a reply: OpenSSH's has at most a quarter of that.
PATIENCE, LONGEST_REPLY = 10, 1 << 20
LONGEST_LIFE = 2 ** 32 - 1


def path():
    found = os.environ.get("SSH_AUTH_SOCK")
    if not found:
        raise BadSettings("no ssh-agent: SSH_AUTH_SOCK isn't set")
    return found


def asked(kind, body=b""):
    """What the agent replies to a message: the reply's type, and a reader of the rest."""
    try:
        with socket.socket(socket.AF_UNIX) as it:
            it.settimeout(PATIENCE)
            it.connect(path())
            it.sendall(string(bytes([kind]) + body))
            stream = it.makefile("rb")
            length = int.from_bytes(stream.read(4))
            reply = Reader(stream.read(length) if length <= LONGEST_REPLY else b"")
            return reply.number(1), reply
    except (OSError, BadFormat) as fault:
        raise BadSettings(f"the ssh-agent doesn't answer: {fault}") from None


def certificates():
    """The Ed25519 certificates that the agent has: the bytes, the fields and the comment of each."""
    kind, reply = asked(LIST)
    if kind != KEYS:
        raise BadSettings("the ssh-agent didn't list its keys")
    found = []
    try:
        pairs = [(reply.string(), reply.string()) for _ in range(reply.number(4))]
    except BadFormat as fault:
        raise BadSettings(f"the ssh-agent doesn't answer: {fault}") from None
    for blob, comment in pairs:
        # The agent may have keys of any kind.
        with contextlib.suppress(BadFormat):
            found.append((blob, Certificate.of_bytes(blob), comment.decode("utf-8", "replace")))
    return found


def add(seed, blob, comment, seconds):
    """Gives the agent an Ed25519 private key with its certificate, for some seconds. `seed` is the key's 32 bytes."""
    public = Certificate.of_bytes(blob).key
    kind, _ = asked(ADD, b"".join(map(string, (CERTIFICATE_TYPE, blob, public, seed + public, comment.encode())))
                    + bytes([LIFETIME]) + min(seconds, LONGEST_LIFE).to_bytes(4))
    if kind != SUCCESS:
        raise BadSettings("the ssh-agent refused the certificate: it is locked, or doesn't support lifetimes")


def remove(blob):
    """Has the agent forget a certificate and its key. Whether it had it."""
    return asked(REMOVE, string(blob))[0] == SUCCESS
