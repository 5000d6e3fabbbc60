"""Where two values differ, for the complaint of a failed test."""
import difflib
import os


def difference(wanted, got, at=""):
    """Lines that tell both sides where they differ. Of a value that has parts, only those that do."""
    if isinstance(wanted, dict) and isinstance(got, dict) and wanted.keys() == got.keys():
        parts = [(f"{at}[{name!r}]", it, got[name]) for name, it in wanted.items()]
    elif are_alike(wanted, got, (list, tuple)) and len(wanted) == len(got):
        parts = [(f"{at}[{place}]", *both) for place, both in enumerate(zip(wanted, got))]
    elif are_alike(wanted, got, (bytes, str)):
        yield from texts_apart(wanted, got, f"{at} ".lstrip())
        return
    else:
        yield from (f"{at} {name} {side!r:.500}".lstrip() for name, side in (("left ", wanted), ("right", got)))
        return
    for place, one, other in parts:
        if one != other:
            yield from difference(one, other, place)


def are_alike(one, other, kinds):
    return any(isinstance(one, kind) and isinstance(other, kind) for kind in kinds)


def texts_apart(wanted, got, at):
    """Of texts of short lines the lines that differ, and of other bytes those around the first that does."""
    try:
        sides = [bytes(side).decode() if isinstance(side, bytes) else side for side in (wanted, got)]
    except UnicodeDecodeError:
        sides = ["\0"]
    sides = [side.splitlines(keepends=True) for side in sides]
    if not any("\0" in line or len(line) > 200 for side in sides for line in side):
        yield f"{at}- left, + right"
        yield from (line[0] + repr(line[1:]) for line in list(difflib.unified_diff(*sides, n=1))[2:] if line[0] != "@")
        return
    place = len(os.path.commonprefix([wanted, got]))
    first = max(0, place - 8)
    for name, side in (("left ", wanted), ("right", got)):
        part = side[first:place + 24]
        shown = bytes(part).hex(" ", -4) if isinstance(part, bytes) else repr(part)
        yield f"{at}{name} {len(side)} long, from {first} {shown}"
