"""Certificates: the bodies that are issued, byte for byte, beside the format and beside ssh-keygen.

An office whose CA, first serial and nonces are those of certificates that ssh-keygen made issues their bodies. Given
their signatures it shows their lines, and it renews them to the same bytes with another nonce, serial and validity.
The last part has ssh-keygen sign certificates for fresh keys at each run.
"""
import base64

import pytest

from asking import (CERTIFICATE_NAME, EVERYTHING, LAST_SERIAL, LATEST, deliver, department, digest_of, exchange, get,
                    issue, key_blob, key_line, post, renew, string)
from running import applied, new_key, run

pytestmark = pytest.mark.rows

# A body of the trial office: what stands before its options, the options, the extensions, and what stands behind them.
FRONT = (string(CERTIFICATE_NAME) + string(b"\x33" * 32) + string(b"\x22" * 32) +
         bytes.fromhex("0000000000000001 00000001") + string(b"web/alice") + string(string(b"alice")) +
         bytes.fromhex("00000000000003e8 00000000000007d0"))
END = string(b"") + string(key_blob(0x11))
NONE = bytes(4)
PTY = bytes.fromhex("0000000a 7065726d69742d707479 00000000")
COMMAND = bytes.fromhex("0000000d 666f7263652d636f6d6d616e64 0000000d 00000009 2f62696e2f74727565")
THREE = bytes.fromhex("00000015 7065726d69742d5831312d666f7277617264696e67 00000000"
                      "00000017 7065726d69742d6167656e742d666f7277617264696e67 00000000") + PTY

# The options and the extensions of an issue, and the body with its length.
WORKED = [
    ((), (), FRONT + NONE + NONE + END, 229),
    ((), ("permit-pty",), FRONT + NONE + string(PTY) + END, 247),
    (("force-command /bin/true",), (), FRONT + string(COMMAND) + NONE + END, 263),
    ((), ("permit-pty", "permit-X11-forwarding", "permit-agent-forwarding"), FRONT + NONE + string(THREE) + END, 307),
]

# Certificates that `ssh-keygen -s ca` of OpenSSH 9.2p1 made, with these words before the file of the subject's key.
# Each nonce and each key stands in the certificate itself.
#
#     -I web/alice -n alice,deploy@example.org -z 7 -V 0x3e8:0x7d0 -O clear -O force-command='/usr/bin/uptime -p'
#     -O source-address=10.0.0.0/8,192.168.1.0/24 -O verify-required -O no-touch-required -O permit-X11-forwarding
#     -O permit-agent-forwarding -O permit-port-forwarding -O permit-pty -O permit-user-rc
USER = (
    "AAAAIHNzaC1lZDI1NTE5LWNlcnQtdjAxQG9wZW5zc2guY29tAAAAIFAIJrq0zosVNWHObclT4mjq+n92FEEdBMW6rnRE/kZoAAAAIHegNZkmBLWU"
    "IVqsuMF1O/Hv2jOqbe954jyE5porIdXmAAAAAAAAAAcAAAABAAAACXdlYi9hbGljZQAAAB8AAAAFYWxpY2UAAAASZGVwbG95QGV4YW1wbGUub3Jn"
    "AAAAAAAAA+gAAAAAAAAH0AAAAHUAAAANZm9yY2UtY29tbWFuZAAAABYAAAASL3Vzci9iaW4vdXB0aW1lIC1wAAAADnNvdXJjZS1hZGRyZXNzAAAA"
    "HQAAABkxMC4wLjAuMC84LDE5Mi4xNjguMS4wLzI0AAAAD3ZlcmlmeS1yZXF1aXJlZAAAAAAAAACbAAAAEW5vLXRvdWNoLXJlcXVpcmVkAAAAAAAA"
    "ABVwZXJtaXQtWDExLWZvcndhcmRpbmcAAAAAAAAAF3Blcm1pdC1hZ2VudC1mb3J3YXJkaW5nAAAAAAAAABZwZXJtaXQtcG9ydC1mb3J3YXJkaW5n"
    "AAAAAAAAAApwZXJtaXQtcHR5AAAAAAAAAA5wZXJtaXQtdXNlci1yYwAAAAAAAAAAAAAAMwAAAAtzc2gtZWQyNTUxOQAAACDd1wz4NBz3LtIMMX2W"
    "mtJCoqocHtbrncC8ypvIDydwvQAAAFMAAAALc3NoLWVkMjU1MTkAAABANqc9pUVmGFxrLVTi0S2C2+/OXVaP7tEllcJGMeas2kDWcWUVQofNbikE"
    "2TzZO1MMmwWOUw09kgO+H78BL8j5AA==")
#     -h -I db/node-1 -n node-1.example.org -z 9223372036854775806 -V 0x0:0x3afff4417f
HOST = (
    "AAAAIHNzaC1lZDI1NTE5LWNlcnQtdjAxQG9wZW5zc2guY29tAAAAIJvNfBf8g1pW33/KjXWgFw1ww96sGTOx4gcUuEDf3cLBAAAAIBaIrRXMQfVj"
    "01oz4gyL8U1XO6BfRU4yEIJWClNZDYypf/////////4AAAACAAAACWRiL25vZGUtMQAAABYAAAASbm9kZS0xLmV4YW1wbGUub3JnAAAAAAAAAAAA"
    "AAA6//RBfwAAAAAAAAAAAAAAAAAAADMAAAALc3NoLWVkMjU1MTkAAAAg3dcM+DQc9y7SDDF9lprSQqKqHB7W653AvMqbyA8ncL0AAABTAAAAC3Nz"
    "aC1lZDI1NTE5AAAAQKAbpw3rGR0NLUhR4KqWaMhvek21KUjq811eO7BCCdUdy0XdeTHhIzCpJ2+1vO4LBXTDSY0HuW02O7fDKaLxzgo=")

# A certificate is a body, and a string that is a blob of 83 bytes with the signature at its end. In a body stand the
# nonce from byte 40, the key from byte 76, the serial from byte 108 on, and at its end the CA's key.
SIGNED = 4 + 83
DEPARTMENTS = (department("web", principals="alice,*@example.org", **EVERYTHING),
               department("db", kind="host", principals="*.example.org", maxlife=LATEST))
# A certificate of ssh-keygen, the issue that asks for the same but for the key, and its line of the table.
MADE = {
    "user": (USER, dict(
        keyid="web/alice", principals="alice,deploy@example.org", after=1000, before=2000,
        options=("verify-required", "source-address 10.0.0.0/8,192.168.1.0/24", "force-command /usr/bin/uptime -p"),
        extensions="permit-user-rc,permit-pty,permit-X11-forwarding,permit-agent-forwarding,permit-port-forwarding,"
                   "no-touch-required"),
        b"                  7  user  signed           1000          2000  web/alice"),
    "host": (HOST, dict(keyid="db/node-1", principals="node-1.example.org", after=0, before=LATEST),
             b"9223372036854775806  host  signed              0  253402300799  db/node-1"),
}


def said(serial, body):
    """The reply to an issue of this body."""
    return f"issued {serial}\ndigest {digest_of(body)}\n".encode()


@pytest.mark.parametrize(("options", "extensions", "body", "size"), WORKED)
def test_a_body_has_these_bytes(program, room, options, extensions, body, size):
    message = issue("web/alice", after=1000, before=2000, options=options, extensions=extensions)
    assert size == len(body)
    assert [said(1, body), body] == [it.body for it in applied(program, [
        exchange(post("ana", "i1", message), 1000, 0x33), exchange(get("/v1/certs/1/body"), 1000, 0x33)])]


# ---- certificates that ssh-keygen made

class Made:
    """A certificate of ssh-keygen, and an office of its CA that has one serial before it, and one behind it if there is
    one. `given` is what the issue of this certificate was answered."""

    def __init__(self, make_office, name):
        certificate, self.words, self.row = MADE[name]
        whole = base64.b64decode(certificate)
        self.body, self.signature = whole[:-SIGNED], whole[-64:]
        nonce, key, self.serial = self.body[40:72], self.body[76:108], int.from_bytes(self.body[108:116], "big")
        self.line = b"%s %s %s\n" % (CERTIFICATE_NAME, certificate.encode(), self.words["keyid"].encode())
        self.office = make_office(ca=key_line(self.body[-32:]), first=self.serial - 1,
                                  last=min(self.serial + 1, LAST_SERIAL))
        message = issue(key=key_line(key), **self.words)
        asked = [post("root", f"d{place}", it) for place, it in enumerate(DEPARTMENTS)]
        self.apply([exchange(it, 1000, 0) for it in [*asked, post("ana", "before", message)]])
        self.given, = self.apply([exchange(post("ana", "this", message), 1000, nonce)])

    def apply(self, exchanges):
        return [it.body for it in self.office.apply(exchanges)]

    def deliver(self):
        return exchange(post("station", "s", deliver(self.serial, digest_of(self.body), self.signature)), 1000, 0)

    def shown(self, serial, what=""):
        return exchange(get(f"/v1/certs/{serial}{what}"), 1000, 0)


@pytest.fixture(params=MADE)
def made(request, make_office):
    return Made(make_office, request.param)


def test_a_certificate_of_ssh_keygen_is_issued(made):
    assert [said(made.serial, made.body), made.body] == [made.given, *made.apply([made.shown(made.serial, "/body")])]


def test_with_its_signature_the_line_is_ssh_keygens(made):
    assert [b"signed %d\n" % made.serial, made.line] == made.apply([made.deliver(), made.shown(made.serial)])


def test_the_table_has_its_fields(made):
    made.apply([made.deliver()])
    assert [made.row] == [it for it in made.office.table().splitlines() if b" signed " in it]


def replaced(data, place, part):
    return data[:place] + part + data[place + len(part):]


def test_a_renewal_has_its_other_fields(make_office):
    made = Made(make_office, "user")
    made.apply([made.deliver()])
    body = replaced(replaced(made.body, 40, b"\x44" * 32), 108, (made.serial + 1).to_bytes(8, "big"))
    body = body.replace(bytes.fromhex("00000000000003e8 00000000000007d0"),
                        bytes.fromhex("00000000000005dc 00000000000009c4"))
    renewal = exchange(post("ana", "r", renew(made.serial, after=1500, before=2500)), 1600, 0x44)
    assert [said(made.serial + 1, body), body] == made.apply([renewal, made.shown(made.serial + 1, "/body")])


# ---- certificates that ssh-keygen makes at each run

# The comment of the key, the key id, the principals, options and extensions.
FRESH = [
    ("alice@example.org", "web/alice", "alice", (), ()),
    ("", "web/2", "alice,deploy@example.org", (), ("permit-pty",)),
    ("Zoë's key, 2nd", "web/~", "alice", (), ("permit-X11-forwarding", "permit-agent-forwarding", "permit-pty")),
    ("x", "web/alice", "b@example.org,alice", ("force-command=/usr/bin/uptime -p",), ("permit-pty",)),
    ("y", "web/alice", "alice", ("force-command=/bin/true",), ()),
]


@pytest.mark.parametrize(("comment", "key_id", "principals", "options", "extensions"), FRESH)
def test_the_body_is_that_of_ssh_keygen(program, room, comment, key_id, principals, options, extensions):
    """The trial office's body is that of ssh-keygen's certificate with the same nonce, but for the CA's key."""
    _, key = new_key("ca"), new_key("user", comment)
    words = [word for it in (*options, *extensions) for word in ("-O", it)]
    run(["ssh-keygen", "-q", "-s", "ca", "-I", key_id, "-n", principals, "-z", 1, "-V", "0x3e8:0x7d0", "-O", "clear",
         *words, "user.pub"], check=True)
    certificate = base64.b64decode((room / "user-cert.pub").read_text().split()[1])
    body = certificate[:-SIGNED - 32] + key_blob(0x11)[-32:]
    message = issue(key_id, key=key, principals=principals, after=1000, before=2000,
                    options=[it.replace("=", " ", 1) for it in options], extensions=extensions)
    assert [said(1, body), body] == [it.body for it in applied(program, [
        exchange(post("ana", "issue", message), 1000, certificate[40:72]), exchange(get("/v1/certs/1/body"), 1000, 0)])]
