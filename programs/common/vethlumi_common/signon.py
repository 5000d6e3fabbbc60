"""What programs agree on about a login: the client, the registrar and the witness."""
import base64
import hashlib


def url64(data):
    """Unpadded base64url (RFC 7515, section 2)."""
    return base64.urlsafe_b64encode(data).rstrip(b"=").decode()


def nonce_of(blob):
    """The nonce that binds a login to a public key: whoever steals the token can't use it for a key of their own."""
    return url64(hashlib.sha256(blob).digest())


def tag_of(issuer, subject):
    """Who somebody is at an issuer, whatever the name: 80 bits of a hash, in base32. A name may be given to somebody
    else later, and an account never."""
    return base64.b32encode(hashlib.sha256(f"{issuer}\n{subject}".encode()).digest()[:10]).decode().lower()


def evidence_name(key_id, blob, after):
    """What the token of a login is called when it is left for the witness: by all that a certificate has of its login.
    Anybody may log in for a public key that they have seen, and their token doesn't take the place of its owner's."""
    text = f"keyid {key_id}\nkey {hashlib.sha256(blob).hexdigest()}\nafter {after}\n"
    return hashlib.sha256(text.encode()).hexdigest()
