"""What a host and the registrar agree on about a renewal: the statement that the host's own key signs."""
import hashlib
import re
from typing import NamedTuple

from vethlumi_common.ssh import BadFormat

# What `ssh-keygen -Y sign -n` is given, so that no other signature of the key is one of a renewal.
NAMESPACE = "renewal@vethlumi"
# How many seconds the time of a statement may be from the registrar's.
LONGEST_AGE = 60
FORM = re.compile(r"renewal\naudience ([!-~]{1,400})\ntime (0|[1-9][0-9]{0,11})\nkey ([0-9a-f]{64})\n", re.ASCII)


class Statement(NamedTuple):
    """For whom it is, the office's URL; when it was made; and the SHA-256 of the key that asks, in hexadecimal."""
    audience: str
    moment: int
    key: str

    @classmethod
    def of(cls, text):
        found = FORM.fullmatch(text)
        if not found:
            raise BadFormat("not a renewal statement")
        return cls(found[1], int(found[2]), found[3])


def statement(audience, moment, blob):
    """The text of a statement, for the key of this blob."""
    return f"renewal\naudience {audience}\ntime {moment}\nkey {hashlib.sha256(blob).hexdigest()}\n"
