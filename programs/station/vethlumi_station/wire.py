"""What SSH's protocols have in common: strings, keys and signatures of Ed25519."""
from cryptography.exceptions import InvalidSignature
from cryptography.hazmat.primitives.asymmetric.ed25519 import Ed25519PublicKey

# What stands before the 32 bytes of an Ed25519 public key and before the 64 of a signature, in SSH's form.
KEY_BLOB = b"\0\0\0\x0bssh-ed25519\0\0\0\x20"
SIGNATURE_BLOB = b"\0\0\0\x0bssh-ed25519\0\0\0\x40"


def string_in(stream, longest):
    """A string of RFC 4251 that comes from a stream."""
    head = stream.read(4)
    length = int.from_bytes(head, "big")
    if len(head) < 4 or length > longest:
        raise EOFError
    data = stream.read(length)
    if len(data) < length:
        raise EOFError
    return data


def verifies(body, key, signature):
    """Whether a signature of a body is by the key of these 32 bytes."""
    try:
        Ed25519PublicKey.from_public_bytes(key).verify(signature, body)
    except InvalidSignature:
        return False
    return True
