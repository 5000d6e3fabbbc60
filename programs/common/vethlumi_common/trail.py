"""The audit trail: lines of JSON that say what became of a message, a signature, a list or a sign-on. docs/FORMATS.md
has their fields."""
import json
import re
import time

# The fields of a line, in their order. `at`, `source`, `event` and `outcome` are in each.
FIELDS = ("at", "source", "event", "outcome", "reason", "repeated", "caller", "from", "request", "message",
          "department", "keyid", "kind", "principals", "of", "serial", "last", "after", "before", "digest", "version",
          "ca", "issuer", "subject", "count", "id")
NUMBERS = "of", "serial", "last", "after", "before", "version", "count"
AT = re.compile(r"[0-9]{4}-[0-9]{2}-[0-9]{2}T[0-9]{2}:[0-9]{2}:[0-9]{2}Z", re.ASCII)
# The most letters of a text, of the texts in a list, and of a line that is read: one with more isn't the trail's.
LONGEST_TEXT, MOST_TEXTS, LONGEST_LINE = 300, 16, 1 << 14


def moment(seconds=None):
    """A time as the trail has it."""
    return time.strftime("%Y-%m-%dT%H:%M:%SZ", time.gmtime(seconds))


def line_of(source, event, outcome, **fields):
    """A line, with its LF. Fields without a value aren't in it, and it has only ASCII: no text steers a terminal."""
    record = {"at": moment(), "source": source, "event": event, "outcome": outcome} | fields
    if unknown := {*record} - {*FIELDS}:
        raise ValueError(f"no fields of a line: {unknown}")
    found = {it: cut(record[it]) for it in FIELDS if record.get(it) or type(record.get(it)) is int}
    return json.dumps(found, separators=(", ", ": ")) + "\n"


def cut(value):
    if isinstance(value, str):
        return value[:LONGEST_TEXT]
    if isinstance(value, (list, tuple)):
        return [it[:LONGEST_TEXT] for it in value[:MOST_TEXTS]]
    return value


def record_of(line):
    """The fields of a line, or None if it is none of the trail. Whoever wrote it may have been anybody."""
    if len(line) > LONGEST_LINE or not line.startswith("{"):
        return None
    try:
        found = json.loads(line)
    except (ValueError, RecursionError):
        return None
    texts = ("at", "source", "event", "outcome")
    is_one = isinstance(found, dict) and all(isinstance(found.get(it), str) for it in texts)
    return found if is_one and all(is_field(name, it) for name, it in found.items() if name in FIELDS) else None


def is_field(name, value):
    """Whether a field has a value of its kind."""
    if name in NUMBERS:
        return isinstance(value, int) and not isinstance(value, bool) and 0 <= value < 1 << 64
    if name == "principals":
        return isinstance(value, list) and all(isinstance(it, str) for it in value)
    if name == "repeated":
        return isinstance(value, bool)
    return isinstance(value, str) and (name != "at" or AT.fullmatch(value) is not None)
