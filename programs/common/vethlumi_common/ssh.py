"""What SSH's formats have in common: strings (RFC 4251), public-key lines, fingerprints, and signatures of texts."""
import base64
import hashlib
import re
from typing import NamedTuple

# A line of any public key, and one of an Ed25519 key as an office takes it.
KEY_LINE = re.compile(r"([a-z][a-z0-9@.-]{1,60}) ([A-Za-z0-9+/]+={0,2})(?:[ \t].*)?", re.ASCII)
ED25519_LINE = re.compile(r"ssh-ed25519 AAAAC3NzaC1lZDI1NTE5AAAAI[A-P][A-Za-z0-9+/]{42}( .*)?", re.ASCII)


class BadFormat(Exception):
    """Bytes or a text that no office gives, or words that are no value. Its text says why."""


def string(data):
    """A string of RFC 4251: its length in four bytes, and then its bytes."""
    return len(data).to_bytes(4, "big") + data


def fingerprint(blob):
    """The fingerprint of a public key, as ssh-keygen shows it."""
    return "SHA256:" + base64.b64encode(hashlib.sha256(blob).digest()).decode().rstrip("=")


def blob_of(line):
    """The bytes of the key in a public-key line, or None if it is no such line: they begin with the type that the line
    names, and are written in the one way."""
    found = KEY_LINE.fullmatch(line)
    try:
        blob = base64.b64decode(found[2], validate=True)
    except (TypeError, ValueError):
        return None
    is_so = blob.startswith(string(found[1].encode())) and base64.b64encode(blob).decode() == found[2]
    return blob if is_so else None


class Reader:
    """Integers and strings of RFC 4251, one after the other."""

    def __init__(self, data):
        self.data, self.at = memoryview(data), 0

    def take(self, count):
        if self.at + count > len(self.data):
            raise BadFormat("the data is truncated")
        self.at += count
        return bytes(self.data[self.at - count:self.at])

    def number(self, size):
        return int.from_bytes(self.take(size))

    def string(self):
        return self.take(self.number(4))

    def strings(self):
        """The strings within a string."""
        inner, found = Reader(self.string()), []
        while not inner.is_at_end():
            found.append(inner.string())
        return found

    def is_at_end(self):
        return self.at == len(self.data)


# ---- signatures of texts, as `ssh-keygen -Y sign` makes them (OpenSSH's PROTOCOL.sshsig)

SSHSIG, HASHES = b"SSHSIG", (b"sha256", b"sha512")
ARMOR = re.compile(r"-----BEGIN SSH SIGNATURE-----\n((?:[A-Za-z0-9+/=]{1,76}\n)+)-----END SSH SIGNATURE-----\n",
                   re.ASCII)


def signed_bytes(namespace, algorithm, text):
    """What the signature of a text is of."""
    digest = hashlib.new(algorithm.decode(), text).digest()
    return SSHSIG + string(namespace) + string(b"") + string(algorithm) + string(digest)


class TextSignature(NamedTuple):
    """A signature of a text: the blob of the key that it names, and the 64 bytes of Ed25519."""
    key: bytes
    namespace: bytes
    algorithm: bytes
    raw: bytes

    @classmethod
    def of(cls, armored):
        found = ARMOR.fullmatch(armored)
        try:
            it = Reader(base64.b64decode(found[1].replace("\n", ""), validate=True))
        except (TypeError, ValueError):
            raise BadFormat("no armored signature") from None
        if (it.take(len(SSHSIG)), it.number(4)) != (SSHSIG, 1):
            raise BadFormat("unsupported signature version")
        key, namespace, reserved, algorithm, inner = (it.string() for _ in range(5))
        inner = Reader(inner)
        kind, raw = inner.string(), inner.string()
        if reserved or algorithm not in HASHES or kind != b"ssh-ed25519":
            raise BadFormat("the signature isn't by an Ed25519 key over SHA-256 or SHA-512")
        if not (it.is_at_end() and inner.is_at_end()):
            raise BadFormat("there is data after the signature")
        return cls(key, namespace, algorithm, raw)
