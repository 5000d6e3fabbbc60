"""What callers ask an office: the texts of messages, the bytes of requests, and files of exchanges."""
import base64
import collections
import hashlib
import random
import time

LATEST = 253402300799
LAST_SERIAL = 2 ** 63 - 2
CERTIFICATE_NAME = b"ssh-ed25519-cert-v01@openssh.com"
# The names that `ssh-keygen -L` prints.
OPTIONS = "force-command", "source-address", "verify-required"
EXTENSIONS = ("no-touch-required", "permit-X11-forwarding", "permit-agent-forwarding", "permit-port-forwarding",
              "permit-pty", "permit-user-rc")
# What a department permits that permits everything.
EVERYTHING = {"options": OPTIONS, "extensions": EXTENSIONS, "maxlife": LATEST}


# ---- keys and signatures

def string(data):
    """A string of RFC 4251: its length in four bytes, and then its bytes."""
    return len(data).to_bytes(4, "big") + data


def key_blob(key):
    """The blob of an Ed25519 key of these 32 bytes, or of 32 times one byte."""
    return string(b"ssh-ed25519") + string(bytes([key]) * 32 if isinstance(key, int) else key)


def key_line(key, comment=None):
    """The public line of a key of these 32 bytes, or of 32 times one byte."""
    line = f"ssh-ed25519 {base64.b64encode(key_blob(key)).decode()}"
    return line if comment is None else f"{line} {comment}"


def signature_blob(signature=0x44):
    """The blob of a signature of these 64 bytes, or of 64 times one byte, in base64."""
    signature = bytes([signature]) * 64 if isinstance(signature, int) else signature
    return base64.b64encode(string(b"ssh-ed25519") + string(signature)).decode()


# The prime of the field of Ed25519 (RFC 8032, section 5.1).
PRIME = 2 ** 255 - 19
# Each y of a point whose order divides 8, as libsodium and others list them. Many readers take p and p + 1 as 0 and 1.
SMALL_ORDER_YS = [0, 1, PRIME - 1, PRIME, PRIME + 1,
                  2707385501144840649318225287225658788936804267575313519463743609750303402022,
                  55188659117513257062467267217118295137698188065244968500265048394206261417927]


def encoded(y, sign):
    """The 32 bytes of a point, by its y and the sign of its x."""
    return (y | sign << 255).to_bytes(32, "little")


# The keys for which everybody can sign.
SMALL_ORDER_KEYS = [encoded(y, sign) for y in SMALL_ORDER_YS for sign in (0, 1)]

# The CA and the subject of the worked rows. Nobody has the private halves.
CA, OTHER_CA, KEY = key_line(0x11), key_line(0x12), key_line(0x22)


# ---- certificates' bodies

def body(serial=1, *, ca, key_id="web/alice", principals=("alice",), after=None, before=None, kind=1, options=(),
         extensions=(), key=bytes([0x22]) * 32, nonce=bytes([0x33]) * 32, reserved=b"", type_name=CERTIFICATE_NAME):
    """A certificate's body as a CA signs it, by PROTOCOL.certkeys. An option is a name and a value. A key is its only
    string, or all its strings."""
    now = int(time.time())
    after, before = (now - 60 if after is None else after), (now + 3600 if before is None else before)
    return b"".join([
        string(type_name), string(nonce), *map(string, [key] if isinstance(key, bytes) else key),
        serial.to_bytes(8, "big"),
        kind.to_bytes(4, "big"), string(key_id.encode()), string(b"".join(string(it.encode()) for it in principals)),
        after.to_bytes(8, "big"), before.to_bytes(8, "big"),
        string(b"".join(string(name.encode()) + string(string(value.encode()) if value else b"")
                        for name, value in options)),
        string(b"".join(string(it.encode()) + string(b"") for it in extensions)), string(reserved), string(ca)])


def batch(*bodies):
    """Bodies as the input of `sshstation judge` has them."""
    return b"judge %d\n" % len(bodies) + b"".join(b"%d\n" % len(it) + it for it in bodies)


def digest_of(text):
    return hashlib.sha256(text).hexdigest()


# The digest of the first certificate's body of the worked rows.
DIGEST = digest_of(body(1, ca=key_blob(0x11), after=1000, before=2000))


def blob_of(line):
    """The key blob of a public-key line."""
    return base64.b64decode(line.split()[1])


# ---- messages

def joined(some):
    """A list as a message has it: a text as it stands, or texts with commas between them."""
    return some if isinstance(some, str) else ",".join(some)


def line_of(word, some):
    """A line of a list; that of an empty list is the word alone."""
    return f"{word} {joined(some)}".rstrip(" ") + "\n"


def department(name="web", *, kind="user", admins="ana", principals="alice", options=(), musts=(), extensions=(),
               key_types=(), maxlife=86400, namespaces=()):
    """The text of a department. What its certificates must have, and the types of their keys, have no lines if none are
    given."""
    return (f"department {name}\nkind {kind}\n" + line_of("admins", admins) + line_of("principals", principals)
            + line_of("options", options) + "".join(f"must {it}\n" for it in musts)
            + line_of("extensions", extensions) + (line_of("key-types", key_types) if key_types else "")
            + f"maxlife {maxlife}\n" + line_of("namespaces", namespaces))


# What a department may have beside its eight lines and its words, by what then stands in its text.
ADDITIONS = {"own names": "{name}", "demands": "\nmust ", "key types": "\nkey-types "}


def additions_in(text):
    """Which of them are in the texts of departments."""
    return [name for name, it in ADDITIONS.items() if it in text]


def lasting(seconds, since=-60):
    """The validity of a certificate from a minute ago on, for so many seconds from now, as `after` and `before`."""
    now = int(time.time())
    return {"after": now + since, "before": now + seconds}


def issue(keyid="web/alice", *, department=None, key=KEY, principals="alice", after=4102400000, before=4102444800,
          options=(), extensions=()):
    """An issue of the key id's department. An option is a text, such as `force-command /bin/true`."""
    lines = "".join(f"option {it}\n" for it in options)
    return (f"issue {department or keyid.partition('/')[0]}\nkeyid {keyid}\nkey {key}\n"
            + line_of("principals", principals) + f"after {after}\nbefore {before}\n{lines}"
            + line_of("extensions", extensions))


def renew(serial=1, *, after=4102400000, before=4102444800):
    return f"renew {serial}\nafter {after}\nbefore {before}\n"


def deliver(serial, digest, signature=0x44):
    """A delivery of a signature of these 64 bytes, or of 64 times one byte. An office looks at no signature."""
    return f"deliver {serial}\ndigest {digest}\nsignature {signature_blob(signature)}\n"


def revoke_serial(serial):
    return f"revoke-serial {serial}\n"


def revoke_range(first, last):
    return f"revoke-range {first} {last}\n"


def revoke_keyid(keyid):
    return f"revoke-keyid {keyid}\n"


def rollover(key=OTHER_CA):
    return f"rollover {key}\n"


# ---- requests and responses

def as_bytes(text):
    return text.encode() if isinstance(text, str) else text


def post(caller, key, message):
    """The request that posts a message of a caller under a request key."""
    message = as_bytes(message)
    return (f"POST /v1/callers/{caller}/requests/{key} HTTP/1.1\r\ncontent-length: {len(message)}\r\n\r\n".encode()
            + message)


def get(path, method="GET"):
    """The request for a page, by its whole path, such as `/v1/krl`."""
    return as_bytes(method) + b" " + as_bytes(path) + b" HTTP/1.1\r\n\r\n"


class Response(bytes):
    """The bytes of a response, or none where nothing came."""

    @property
    def bytes(self):
        return bytes(self)

    @property
    def status(self):
        """The number in its first line, or None."""
        words = self.split(b" ", 2)
        return int(words[1]) if len(words) == 3 and words[0] == b"HTTP/1.1" else None

    @property
    def head(self):
        return self.partition(b"\r\n\r\n")[0]

    @property
    def body(self):
        return self.partition(b"\r\n\r\n")[2]

    @property
    def text(self):
        return self.body.decode()

    def whole(self):
        """The response, or None where its body isn't as long as its head says, or no head is there."""
        lengths = [it[16:] for it in self.head.split(b"\r\n") if it.startswith(b"content-length: ")]
        return self if b"\r\n\r\n" in self and lengths and len(self.body) == int(lengths[0]) else None


# ---- exchange files

# A request with the moment and the nonce that come with it.
Exchange = collections.namedtuple("Exchange", "request moment nonce")


def exchange(request, moment=1, nonce=None):
    """An exchange of these bytes; each has a nonce of its own, if none is given. A nonce may be 32 times one byte."""
    nonce = random.randbytes(32) if nonce is None else bytes([nonce]) * 32 if isinstance(nonce, int) else nonce
    return Exchange(as_bytes(request), moment, nonce)


def record(request, moment=1, nonce=None):
    """The bytes of a record of an exchange file."""
    one = exchange(request, moment, nonce)
    return f"exchange {one.moment} {one.nonce.hex()} {len(one.request)}\n".encode() + one.request


def write_exchanges(path, exchanges):
    """Writes an exchange file of requests, or of requests with their moments and nonces. Returns the path."""
    with open(path, "wb") as file:
        for one in exchanges:
            file.write(record(one) if isinstance(one, (bytes, str)) else record(*one))
    return path


def exchanges_of(file):
    """The exchanges of an exchange file's bytes."""
    found, place = [], 0
    while place < len(file):
        end = file.index(b"\n", place)
        word, moment, nonce, length = file[place:end].split(b" ")
        assert word == b"exchange", f"no record: {file[place:end]!r}"
        place = end + 1 + int(length)
        found.append(Exchange(file[end + 1:place], int(moment), bytes.fromhex(nonce.decode())))
    return found


def answers(printed):
    """What `apply` printed, cut into a response for each exchange; None is a fault."""
    found, place = [], 0
    while place < len(printed):
        end = printed.index(b"\n", place)
        line, place = printed[place:end], end + 1
        if line == b"fault":
            found.append(None)
            continue
        word, length = line.split(b" ")
        assert word == b"answer" and place + int(length) <= len(printed), f"no answer: {line!r}"
        found.append(Response(printed[place:place + int(length)]))
        place += int(length)
    return found
