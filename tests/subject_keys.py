"""Public keys of the seven types of which a certificate may be, and blobs that are nearly such keys.

The plain keys are of ssh-keygen 9.2p1, which threw their private halves away. Those of security keys have the same
points: PROTOCOL.u2f puts a curve and a point, or the 32 bytes, before the application.
"""
import base64

from asking import string

MADE = {
    "ssh-ed25519": "AAAAC3NzaC1lZDI1NTE5AAAAIDY7Xoj0SOFirhI7EUI8TPtAuDUFBH9InsYDB5JT+PV3",
    "ecdsa-sha2-nistp256":
        "AAAAE2VjZHNhLXNoYTItbmlzdHAyNTYAAAAIbmlzdHAyNTYAAABBBBsobLTum33UiAiB79P/yIbmmoojt+KaLUKFbFdTTAJu4BDwCZKEKVG9"
        "K5jlDTbucBpNn/n9KoeU/bfQSUCWuo4=",
    "ecdsa-sha2-nistp384":
        "AAAAE2VjZHNhLXNoYTItbmlzdHAzODQAAAAIbmlzdHAzODQAAABhBAi7Caj63/hCCviLhYEEkovGBt5jOSIis9QjO4X1V8o9VHuHLEpMlF7M"
        "jHcfvWzZxH1Y0o89hteJlJbTjn63ETi6IsviCkUakjjcB7de0jpOkkcHDLnqZg/tKTMu+qs0jA==",
    "ecdsa-sha2-nistp521":
        "AAAAE2VjZHNhLXNoYTItbmlzdHA1MjEAAAAIbmlzdHA1MjEAAACFBAD1k1U0U5ud5HMOZp/Eauhn2iOr3AWhGngHgsUDt/sv4SpOBckeq/tR"
        "TBV8TxkNeS2AF9oqn5/Yyrx3fEXXb2WpaAFw34G64A4AX2Qv5HAOAeiP/OCM/ZrYQpulpS/CkxqjDlHi+h0/8KRfRtQqPtfXk+FZt4CLuYQr"
        "YfIWp98CBZXX7w==",
    "ssh-rsa":
        "AAAAB3NzaC1yc2EAAAADAQABAAABAQDIP37oH8AqbFMYS4uK4SGa7mBcIhe8ofjUZBo4JJuLVYOGBgQdK/V/DuczXlnfJVVpBpftw40LbJWN"
        "faZv4pOpmrGF3hvXkJmbDKBuBTXQwPUVjdwUbq2LGV9OlQbi9327H6x18Wt2yMyR7LzZVzrp3zDHFXiKX5bxbx46O25p8118WTGt1Y8Vrd1u"
        "VzLw5ZrlJen6CHRY8Hzu4Ck1KN5f8bWsX4n/WOiRdXFqZnApjGGMJgDd4uPz+Apve9Ip6BD0cBmHjHBTZhg3JNTpWeIAPd1beSnBNR4kt/lb"
        "eou/jVepi7xmITfnHlWkO3+5/8m+56ZbN+5S+X+jEoF55K9J",
}


def strings_of(blob):
    """The strings of a key blob."""
    found = []
    while blob:
        size = 4 + int.from_bytes(blob[:4], "big")
        found.append(blob[4:size])
        blob = blob[size:]
    return found


def of_made(kind):
    """The strings of a made key behind the type's name."""
    return strings_of(base64.b64decode(MADE[kind]))[1:]


ED25519, SK_ED25519, RSA = "ssh-ed25519", "sk-ssh-ed25519@openssh.com", "ssh-rsa"
P256, P384, P521 = (f"ecdsa-sha2-nistp{size}" for size in (256, 384, 521))
SK_P256 = "sk-ecdsa-sha2-nistp256@openssh.com"
KEYS = {kind: of_made(kind) for kind in MADE} | {SK_ED25519: [*of_made(ED25519), b"ssh:"],
                                                 SK_P256: [*of_made(P256), b"ssh:"]}
# The name of the certificates for a type (PROTOCOL.certkeys, PROTOCOL.u2f).
CERTIFICATES = {
    ED25519: "ssh-ed25519-cert-v01@openssh.com", SK_ED25519: "sk-ssh-ed25519-cert-v01@openssh.com",
    P256: "ecdsa-sha2-nistp256-cert-v01@openssh.com", P384: "ecdsa-sha2-nistp384-cert-v01@openssh.com",
    P521: "ecdsa-sha2-nistp521-cert-v01@openssh.com", SK_P256: "sk-ecdsa-sha2-nistp256-cert-v01@openssh.com",
    RSA: "ssh-rsa-cert-v01@openssh.com",
}


def line_of(kind, strings, name=None):
    """The public-key line with a blob of these strings, behind the type's name or another one."""
    blob = string((name or kind).encode()) + b"".join(map(string, strings))
    return f"{kind} {base64.b64encode(blob).decode()}"


LINES = {kind: line_of(kind, strings) for kind, strings in KEYS.items()}


def mpint(number):
    """A number over zero in its shortest form (RFC 4251, section 5)."""
    return number.to_bytes(number.bit_length() // 8 + 1, "big")


POINT, EXPONENT, MODULUS = KEYS[P256][1], *KEYS[RSA]
# Other keys on this side of each limit, and what is beyond it.
MORE = [
    (SK_ED25519, [*of_made(ED25519), b"ssh:" + b"~" * 251]), (SK_P256, [*of_made(P256), b"ssh: work"]),
    *[(RSA, [mpint(number), MODULUS]) for number in (3, 127, 128, 2 ** 63 - 1)],
    *[(RSA, [EXPONENT, mpint(number)]) for number in (
        2 ** 2047, 2 ** 2048 - 1, 2 ** 2048, 2 ** 2055 - 1, 2 ** 2055, 2 ** 16383 - 1, 2 ** 16383, 2 ** 16384 - 1)],
    # Not on the curve: nobody looks.
    (P256, [b"nistp256", b"\4" + bytes(64)]),
]
NO_KEYS = [
    (ED25519, [KEYS[ED25519][0][:31]]), (ED25519, [KEYS[ED25519][0] + b"\0"]),
    (SK_ED25519, [KEYS[ED25519][0][:31], b"ssh:"]), (SK_ED25519, [KEYS[ED25519][0], b""]),
    *[(SK_ED25519, [KEYS[ED25519][0], it]) for it in (
        b"ssh", b"ssx:", b"https://x", b"ssh:" + b"a" * 252, b"ssh:\x1f", b"ssh:\x7f", b"ssh:\xc3\xa9")],
    (P256, [b"nistp384", POINT]), (P256, [b"nistp384", KEYS[P384][1]]), (P256, [b"nistp256", KEYS[P384][1]]),
    (P384, [b"nistp384", POINT]), (P521, [b"nistp521", KEYS[P384][1]]),
    *[(P256, [b"nistp256", it]) for it in (b"", b"\0", POINT[1:], POINT[:-1], POINT + b"\0", b"\2" + POINT[1:33],
                                           b"\6" + POINT[1:], b"\4" + POINT[1:33])],
    (SK_P256, [b"nistp256", POINT, b"x"]), (SK_P256, [b"nistp384", POINT, b"ssh:"]),
    (SK_P256, [b"nistp256", b"\2" + POINT[1:33], b"ssh:"]),
    *[(RSA, [it, MODULUS]) for it in (b"", b"\0", b"\1", b"\2", b"\0\3", b"\x80", b"\xff\xff", b"\0\1\0\1",
                                      mpint(2 ** 63), b"\0" + b"\x80" + bytes(7))],
    *[(RSA, [EXPONENT, it]) for it in (b"", b"\0", b"\0" + MODULUS, MODULUS[1:], mpint(2 ** 2047 - 1), mpint(2 ** 1023),
                                       mpint(2 ** 16384))],
]
# With a string too many or too few.
MISCOUNTED = [*((kind, [*strings, b""]) for kind, strings in KEYS.items()),
              *((kind, strings[:-1]) for kind, strings in KEYS.items())]
