"""Ed25519 keys, by the library `cryptography`. Only a login needs it, so no other command loads it."""
from cryptography.exceptions import InvalidSignature
from cryptography.hazmat.primitives import serialization
from cryptography.hazmat.primitives.asymmetric import ed25519

from vethlumi.formats import BadFormat


def new_key():
    """A new key: the 32 bytes of its private half, and the public line."""
    made = ed25519.Ed25519PrivateKey.generate()
    seed = made.private_bytes(
        serialization.Encoding.Raw, serialization.PrivateFormat.Raw, serialization.NoEncryption())
    line = made.public_key().public_bytes(serialization.Encoding.OpenSSH, serialization.PublicFormat.OpenSSH)
    return seed, line.decode()


def verify(point, signature, data):
    """Refuses a signature that isn't this key's, of these bytes."""
    try:
        ed25519.Ed25519PublicKey.from_public_bytes(point).verify(signature, data)
    except (InvalidSignature, ValueError):
        raise BadFormat("the signature is false") from None
