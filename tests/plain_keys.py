"""The keys that a certificate may be for, by numbers and coordinates: written from docs/FORMATS.md alone."""
import base64
import re
import struct

COMMENT = r"[\t -~\x80-\xff]{0,1024}"
# The field's bytes of each curve that NIST recommends.
CURVES = {"nistp256": 32, "nistp384": 48, "nistp521": 66}


class NoKey(Exception):
    """Bytes that are no key of their type."""


def string(some):
    """A string of RFC 4251."""
    return struct.pack(">I", len(some)) + some


def strings_in(data):
    """The strings that bytes consist of."""
    found = []
    while data:
        size = int.from_bytes(data[:4], "big") if len(data) >= 4 else len(data)
        if len(data) < 4 + size:
            raise NoKey
        found.append(data[4:4 + size])
        data = data[4 + size:]
    return found


def number(data):
    """The number of an mpint (RFC 4251, section 5), which has one form alone."""
    value = int.from_bytes(data, "big", signed=True)
    if value <= 0 or data != value.to_bytes(value.bit_length() // 8 + 1, "big"):
        raise NoKey
    return value


def is_ed25519(key):
    return len(key) == 32


def is_application(name):
    return re.fullmatch(rb"ssh:[ -~]{0,251}", name) is not None


def is_exponent(data):
    return 3 <= number(data) < 1 << 63


def is_modulus(data):
    return 2048 <= number(data).bit_length() <= 16384


def named(curve):
    return lambda data: data == curve.encode()


def on(curve):
    """Whether bytes are the byte 4 and two coordinates. Nobody asks whether the point is on the curve."""
    def is_point(data):
        size = CURVES[curve]
        return data == b"\4" + data[1:1 + size].rjust(size, b"\0") + data[1 + size:1 + 2 * size].rjust(size, b"\0")
    return is_point


# What each string of a key has to be, by the name of the key's type.
TYPES = {
    "ssh-ed25519": [is_ed25519],
    "sk-ssh-ed25519@openssh.com": [is_ed25519, is_application],
    "ecdsa-sha2-nistp256": [named("nistp256"), on("nistp256")],
    "ecdsa-sha2-nistp384": [named("nistp384"), on("nistp384")],
    "ecdsa-sha2-nistp521": [named("nistp521"), on("nistp521")],
    "sk-ecdsa-sha2-nistp256@openssh.com": [named("nistp256"), on("nistp256"), is_application],
    "ssh-rsa": [is_exponent, is_modulus],
}


def certificate_name(kind):
    """The name of certificates for keys of a type."""
    name, at, host = kind.partition("@")
    return f"{name}-cert-v01@{host or 'openssh.com'}"


BY_CERTIFICATE = {certificate_name(it): it for it in TYPES}


def is_key(kind, strings):
    """Whether these are the strings of a key of a type."""
    try:
        return len(strings) == len(TYPES[kind]) and all(test(it) for test, it in zip(TYPES[kind], strings))
    except NoKey:
        return False


def key_in(line):
    """The type and the strings of the key of a public-key line, or None."""
    found = re.fullmatch(rf"([a-z0-9@.-]+) ([A-Za-z0-9+/]+={{0,2}})(?: {COMMENT})?", line)
    if not found or found[1] not in TYPES:
        return None
    try:
        blob = base64.b64decode(found[2], validate=True)
        name, *strings = strings_in(blob)
    except (ValueError, NoKey):
        return None
    if base64.b64encode(blob).decode() != found[2] or name != found[1].encode() or not is_key(found[1], strings):
        return None
    return found[1], strings
