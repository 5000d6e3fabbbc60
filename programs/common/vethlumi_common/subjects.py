"""The keys that certificates may be for, and how a certificate's body begins (OpenSSH's PROTOCOL.certkeys and
PROTOCOL.u2f)."""
import base64

from vethlumi_common.ssh import ED25519_LINE, BadFormat, Reader, blob_of

# The types of keys, each with how many strings its keys have; their certificates' names.
TYPES = {"ssh-ed25519": 1, "sk-ssh-ed25519@openssh.com": 2, "ecdsa-sha2-nistp256": 2, "ecdsa-sha2-nistp384": 2,
         "ecdsa-sha2-nistp521": 2, "sk-ecdsa-sha2-nistp256@openssh.com": 3, "ssh-rsa": 2}
CERTIFICATES = {f"{it.partition('@')[0]}-cert-v01@openssh.com": it for it in TYPES}
# How many bits the modulus of an RSA key has.
RSA_BITS = range(2048, 16385)
# RFC 8032, section 5.1: the prime of Ed25519.
PRIME = 2 ** 255 - 19
# The second coordinates of the eight points whose order divides 8: 0, 1 and -1, and these two of order 8.
ORDER_8 = [int.from_bytes(bytes.fromhex(it), "little") for it in (
    "26e8958fc2b227b045c3f489f2ef98f0d5dfac05d3c63339b13802886d53fc05",
    "c7176a703d4dd84fba3c0b760d10670f2a2053fa2c39ccc64ec7fd7792ac037a")]
SMALL = (0, 1, PRIME - 1, *ORDER_8)


def unverified(name, types, demands):
    """A warning if a department demands `verify-required` of keys for which sshd doesn't look at it, as a list of at
    most one. Without types it permits plain Ed25519 keys."""
    plain = [it for it in types or ("ssh-ed25519",) if not it.startswith("sk-")]
    if not plain or "verify-required" not in demands:
        return []
    return [f"warning: the department {name} demands verify-required, and permits {', '.join(plain)}: sshd looks at it "
            "for security keys alone (sk-). Leave the others out of `key-types`"]


def at_serial(body):
    """A reader of a body that has read what comes before the serial: the certificate's name, a nonce and a key. Of a
    name that isn't known, the key is read as one string."""
    it = Reader(body)
    of = CERTIFICATES.get(it.string().decode("latin-1"))
    for _ in range(1 + TYPES.get(of, 1)):
        it.string()
    return it


# ---- keys

def subject_line(text):
    """The first line of a public key's file, of any type that a department may permit."""
    line = text.partition("\n")[0].rstrip("\r")
    blob = blob_of(line)
    if not blob or not is_of_type(blob):
        raise BadFormat(f"the file has no public key of a supported type: {', '.join(TYPES)}")
    refuse_weak(blob)
    refuse_size(blob)
    return line


def is_of_type(blob):
    """Whether a blob has as many strings as the keys of its type, one of these."""
    try:
        kind, *strings = strings_in(blob)
    except BadFormat:
        return False
    return TYPES.get(kind.decode("latin-1")) == len(strings)


def ed25519_line(text):
    """The first line of a public key's file, which has to be an Ed25519 key's."""
    line = text.partition("\n")[0].rstrip("\r")
    if not ED25519_LINE.fullmatch(line):
        raise BadFormat("the file has no Ed25519 public key: ssh-keygen -t ed25519 makes one")
    refuse_small_order(point_of(line))
    return line


def strings_in(blob):
    """The strings of a key blob."""
    it, found = Reader(blob), []
    while not it.is_at_end():
        found.append(it.string())
    return found


def refuse_weak(blob):
    """Refuses a key of Ed25519, in a security key or not, for which no private key is needed."""
    kind, *strings = strings_in(blob)
    if kind in (b"ssh-ed25519", b"sk-ssh-ed25519@openssh.com"):
        refuse_small_order(strings[0])


def refuse_size(blob):
    """Refuses an RSA key that is shorter or longer than those that an office takes."""
    kind, *strings = strings_in(blob)
    if kind == b"ssh-rsa" and (bits := int.from_bytes(strings[1], "big").bit_length()) not in RSA_BITS:
        raise BadFormat(f"the RSA key has {bits} bits: an office takes {RSA_BITS[0]} to {RSA_BITS[-1]}")


def refuse_small_order(point):
    """Refuses a key for which no private key is needed: there are signatures that fit any text."""
    if is_of_small_order(point):
        raise BadFormat("the public key is of small order: everybody has a valid signature for this key")


def is_of_small_order(point):
    """Whether 32 bytes encode a point of Ed25519 of order 1, 2, 4 or 8, whatever the sign, and with the second
    coordinate below the prime or not."""
    return (int.from_bytes(point, "little") & (1 << 255) - 1) % PRIME in SMALL


def point_of(line):
    """The 32 bytes of the key in an Ed25519 key's line."""
    return base64.b64decode(line.split()[1])[-32:]
