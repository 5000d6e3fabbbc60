"""Lists of what is revoked, statements of them as ssh-keygen signs them, and the file that a front gives of both."""
import base64
import hashlib
import pathlib
import time

import lists
from asking import string
from running import run

NAMESPACE = "krl@vethlumi"
CA = string(b"ssh-ed25519") + string(32 * b"\x11")
OTHER_CA = string(b"ssh-ed25519") + string(32 * b"\x12")
HIGHEST = 2 ** 63 - 1


def key_line(blob, comment="a CA"):
    return f"ssh-ed25519 {base64.b64encode(blob).decode()} {comment}\n"


def section(ca, serials=(), key_ids=(), ranges=()):
    """A section of a list: of serials, of ranges of them, and of key ids."""
    parts = [lists.single(*serials)] if serials else []
    parts += [lists.ranged(*it) for it in ranges]
    parts += [lists.key_ids(*(it.encode() for it in key_ids))] if key_ids else []
    return lists.section(None, *parts, blob=ca)


def krl(version, revoked=(), ca=CA, *, key_ids=(), ranges=(), more=b"", date=1000):
    """A list of this version, with these serials, key ids and ranges under a CA, and more sections behind."""
    some = section(ca, revoked, key_ids, ranges) if [*revoked, *key_ids, *ranges] else b""
    return lists.header(version, date) + some + more


def bitmaps(version, ca=CA, count=1000):
    """A list of 2 MB for which ssh-keygen needs 520 MB: serials that are no neighbours, 8192 in each bitmap."""
    parts = b"".join(b"\x22" + string((1 + 16384 * it).to_bytes(8, "big") + string(b"\0" + 2047 * b"\xaa" + b"\xab"))
                     for it in range(count))
    return krl(version, more=lists.section(None, parts, blob=ca))


LIST, NEWER = krl(3, [1, 2, 9]), krl(4, [1, 2, 9, 11])


def statement(data, *, version=None, moment=None, digest=None):
    """What a guard states of a list."""
    version = int.from_bytes(data[12:20], "big") if version is None else version
    moment = int(time.time()) if moment is None else moment
    return f"list {digest or hashlib.sha256(data).hexdigest()} {version} {moment}\n".encode()


class Signer:
    """Whoever signs statements, with a key in the file `name`; `allowed` is the file that has the key's line."""

    def __init__(self, name="signer", namespaces=NAMESPACE, principal="krl"):
        run(["ssh-keygen", "-q", "-t", "ed25519", "-N", "", "-C", name, "-f", name], check=True)
        self.key, self.allowed = pathlib.Path(name).absolute(), pathlib.Path(f"{name}.allowed").absolute()
        self.allowed.write_text(f'{principal} namespaces="{namespaces}" {pathlib.Path(f"{name}.pub").read_text()}')

    def sign(self, text, namespace=NAMESPACE):
        """An armored signature, by ssh-keygen."""
        words = ["ssh-keygen", "-q", "-Y", "sign", "-f", self.key, "-n", namespace]
        return run(words, input=text, stdin=None, check=True).stdout

    def published(self, data, **how):
        """The file that a station publishes: a statement, its signature, and the list."""
        text = statement(data, **how)
        return text + self.sign(text) + data


def is_signed(text, signature, allowed):
    """Whether ssh-keygen takes a signature for one of those who may state lists."""
    pathlib.Path("signature").write_bytes(signature)
    words = ["ssh-keygen", "-Y", "verify", "-f", allowed, "-I", "krl", "-n", NAMESPACE, "-s", "signature"]
    return run(words, input=text, stdin=None).returncode == 0


def parted(published):
    """The statement, the signature and the list of what was published."""
    text, _, rest = published.partition(b"\n")
    end = rest.index(b"-----END SSH SIGNATURE-----\n") + 28
    return text + b"\n", rest[:end], rest[end:]
