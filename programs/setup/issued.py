"""What an office has issued: the rows of its table, and whom a certificate is for. docs/FORMATS.md has the forms."""
import re
import time
from dataclasses import dataclass

import policies
from setting_up import Fault
from vethlumi_common.ssh import BadFormat
from vethlumi_common.subjects import at_serial

ROW = re.compile(rb"^ *([1-9][0-9]{0,18})  (user|host)  (revoked|signed |pending)  +([0-9]{1,20})  +([0-9]{1,20})  "
                 rb"([!-~]{1,97})\n", re.M)
TOTAL = re.compile(rb"^total ([0-9]{1,19}) version ([0-9]{1,20})\n\Z", re.M)
# How many rows are shown to people.
MOST_SHOWN = 50


@dataclass(frozen=True)
class Row:
    serial: int
    kind: str
    state: str
    before: int
    key_id: str

    @property
    def department(self):
        return self.key_id.partition("/")[0]

    @property
    def name(self):
        return self.key_id.partition("/")[2].partition("/")[0]

    def __str__(self):
        return f"serial {self.serial}, {self.key_id}"


class Table:
    """The rows of a table, and the version of the list of revoked certificates."""

    def __init__(self, data):
        self.rows = [Row(int(it[1]), it[2].decode(), it[3].decode().strip(), int(it[5]), it[6].decode())
                     for it in ROW.finditer(data)]
        total = TOTAL.search(data)
        if not total or int(total[1]) != len(self.rows):
            raise Fault("the office's table was cut off, or is none")
        self.version = int(total[2])

    @property
    def last(self):
        """The highest serial, or 0."""
        return max((it.serial for it in self.rows), default=0)

    def usable(self):
        """The rows of what can still be used, or will be once it is signed."""
        now = time.time()
        return [it for it in self.rows if it.state != "revoked" and it.before > now]


def table_of(door):
    return Table(door.read("/v1/table"))


def principals_of(body):
    """The principals of a certificate's body: after a serial, a type and the key ID."""
    try:
        it = at_serial(body)
        it.take(8 + 4)
        it.string()
        return [name.decode(errors="replace") for name in it.strings()]
    except BadFormat:
        raise Fault("a certificate of the office is truncated") from None


def principals_in(door, kind):
    """What can still be used of a kind: each row, with the principals of the certificate."""
    return [(it, principals_of(door.read(f"/v1/certs/{it.serial}/body"))) for it in table_of(door).usable()
            if it.kind == kind]


def of_user(door, user):
    """What can still be used of a user's: each row, with its other principals. The user's are the name, and those that
    departments with {name} have for it. In these the key ID's name counts too: their rules may have been others."""
    texts = ["".join(it) for _, it in policies.blocks(door.departments())]
    own = {user}.union(*(policies.principals_by(it, user) for it in texts))
    by_name = {policies.fields_of(it)["department"][0] for it in texts if policies.means_names(it)}
    found = []
    for row, principals in principals_in(door, "user"):
        is_named = row.name == user and row.department in by_name
        if is_named or own & {*principals}:
            # One of an earlier rule is the user's too: nobody else needs another certificate for it.
            mine = f"{user}@" if is_named else ()
            found.append((row, [it for it in principals if it not in own and not it.startswith(mine)]))
    return found


def of_host(door, host, department):
    """The same of a host's: whatever its own department has issued, and what has its name in others."""
    is_own = policies.goes_with(door.department(department), host)
    own = [(it, []) for it in table_of(door).usable() if is_own and it.department == department]
    return own + [(row, [it for it in principals if it != host]) for row, principals in principals_in(door, "host")
                  if not (is_own and row.department == department) and host in principals]


def shown(rows):
    """The first rows, for people."""
    yield from rows[:MOST_SHOWN]
    if len(rows) > MOST_SHOWN:
        yield f"and {len(rows) - MOST_SHOWN} more"
