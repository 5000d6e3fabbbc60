"""The pages about certificates and CAs: the table of all certificates, and the CAs (docs/FORMATS.md, Reports).

A table may have millions of rows. So it stays in a file, and its rows are read from there each time.
"""
import re
from dataclasses import dataclass

from vethlumi.formats import BadFormat, date

ROW = re.compile(rb" *([1-9][0-9]{0,18})  (user|host)  (revoked|signed |pending)  +([0-9]{1,20})  +([0-9]{1,20})  "
                 rb"([!-~]{1,97})\n")
TOTAL = re.compile(rb"total ([0-9]{1,19}) version ([0-9]{1,20})\n")
CA = re.compile(r"([1-8]) ([1-9][0-9]{0,18}) (SHA256:[A-Za-z0-9+/]{43})\n", re.ASCII)
# How many bytes of rows are read at once, and the most of a line.
PIECE, LONGEST_ROW = 1 << 20, 200


@dataclass(frozen=True)
class Row:
    """A line of the table: state is `pending`, `signed` or `revoked`."""
    serial: int
    kind: str
    state: str
    after: int
    before: int
    key_id: str

    @classmethod
    def of(cls, line):
        found = ROW.fullmatch(line)
        if not found:
            raise BadFormat("the table has an unexpected line")
        serial, kind, state, after, before, key_id = map(bytes.decode, found.groups())
        return cls(int(serial), kind, state.strip(), int(after), int(before), key_id)

    @property
    def department(self):
        return self.key_id.partition("/")[0]

    def is_valid(self, moment):
        """Whether a server would accept the certificate at a moment."""
        return self.state == "signed" and self.after <= moment < self.before

    def as_record(self):
        return {"serial": str(self.serial), "kind": self.kind, "state": self.state, "after": date(self.after),
                "before": date(self.before), "keyid": self.key_id, "department": self.department}


class Table:
    """A table in a file, which was looked through and is whole. Each loop over it reads the rows again."""

    def __init__(self, file):
        self.file, self.count, self.last, self.total = file, 0, 0, b""
        for row in self:
            self.count, self.last = self.count + 1, max(self.last, row.serial)
        total = TOTAL.fullmatch(self.total)
        if not total or int(total[1]) != self.count:
            raise BadFormat("the table was cut off, or isn't a table")
        self.version = int(total[2])

    def __len__(self):
        return self.count

    def __iter__(self):
        at = 0
        while True:
            # Between two rows somebody else may have read.
            self.file.seek(at)
            piece = self.file.read(PIECE) + self.file.readline(LONGEST_ROW)
            at += len(piece)
            for line in piece.splitlines(keepends=True):
                if line.startswith(b"total "):
                    self.total = line + piece.partition(line)[2] + self.file.read(1)
                    return
                yield Row.of(line)
            if not piece:
                raise BadFormat("the table was cut off, or isn't a table")


def cas(data):
    """The CAs of their page: number, first serial, fingerprint."""
    lines = data.decode("ascii").splitlines(keepends=True)
    found = [CA.fullmatch(it) for it in lines]
    if None in found or [int(it[1]) for it in found] != [*range(1, len(found) + 1)] or not found:
        raise BadFormat("the page has an unexpected line, or no CA")
    return [(int(it[1]), int(it[2]), it[3]) for it in found]
