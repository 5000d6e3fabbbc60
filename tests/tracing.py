"""What programs do with files and with connections, in the order in which they do it, as strace sees it."""
import os
import re
from dataclasses import dataclass

from running import run

WRITES = "write", "pwrite64", "writev", "sendfile", "copy_file_range", "ftruncate"
MOVES = "rename", "renameat", "renameat2", "link", "linkat"
CALLS = ",".join([*WRITES, *MOVES, "fsync,fdatasync,mkdir,mkdirat,connect,sendto"])
LINE = re.compile(r"(\d+) +(?:<\.\.\. )?(\w+)(?: resumed>|\()(.*)")
# A file or folder that is open is shown with its path: `3</tmp/a>`.
OPEN = re.compile(r"-?\w+<(/[^>]*)>")
# The words of a call that names paths: `AT_FDCWD</tmp>, "a"` or `"a"`.
NAMED = re.compile(r'(?:\w+<(/[^>]*)>, )?"((?:[^"\\]|\\.)*)"')


@dataclass(frozen=True)
class Event:
    """A call: when it began and ended, counted in lines, and the paths that it is about."""
    begun: int
    ended: int
    name: str
    paths: tuple
    words: str


def paths_of(name, words, folder):
    """The paths that a call is about: of an open file, or those that it names."""
    if name in (*MOVES, "mkdir", "mkdirat"):
        return tuple(os.path.normpath(os.path.join(base or folder, path)) for base, path in NAMED.findall(words))
    found = OPEN.match(words)
    return (found[1],) if found else ()


def events(text, folder):
    """The calls of a trace that ended well, or that were begun, if they are about connections."""
    begun, found = {}, []
    for number, line in enumerate(text.splitlines()):
        parts = LINE.fullmatch(line)
        if not parts:
            continue
        process, name, words = parts.groups()
        at, before = begun.pop((process, name), (number, "")) if "resumed>" in line else (number, "")
        if words.endswith("<unfinished ...>"):
            begun[process, name] = number, words
        elif re.search(r"\) += -1 ", words) is None or name in ("connect", "sendto"):
            found.append(Event(at, number, name, paths_of(name, before + words, folder), before + words))
    return found


class Trace:
    """What a program and those that it begins did."""

    def __init__(self, words, **how):
        folder, file = os.getcwd(), os.path.abspath("trace")
        self.done = run(["strace", "-f", "-y", "-s", "0", "-e", f"trace={CALLS}", "-e", "signal=none", "-o", file, "--",
                         *words], **how)
        with open(file, encoding="utf-8", errors="replace") as it:
            self.text = it.read()
        self.events = events(self.text, folder)

    def of(self, path, *names):
        return [it for it in self.events if it.name in names and path in it.paths]

    def lacks(self, path):
        """What a file lacks to be on disk, whole, under its name, whenever the machine stops: a text for each."""
        path = os.path.abspath(path)
        moves = [it for it in self.of(path, *MOVES) if it.paths[-1] == path]
        if not moves:
            return ["it isn't put in place by a rename"]
        move = moves[-1]
        before = self.before(move)
        written = [it.ended for it in before if it.name in WRITES]
        synced = [it for it in before if it.name in ("fsync", "fdatasync") and it.begun > max(written, default=-1)]
        folders = [it for it in self.of(os.path.dirname(path), "fsync") if it.begun > move.ended]
        return ["its bytes aren't synced before the rename"] * (not synced) + \
            ["its folder isn't synced after it"] * (not folders)

    def before(self, move):
        """What was done with a file before it was renamed, under all names that it had."""
        found, name, end = [], move.paths[0], move.begun
        while True:
            renames = [it for it in self.events if it.name.startswith("rename") and it.ended < end
                       and (name == it.paths[-1] or name.startswith(f"{it.paths[-1]}/"))]
            begun = renames[-1].ended if renames else -1
            found += [it for it in self.of(name, *WRITES, "fsync", "fdatasync") if begun < it.begun and it.ended < end]
            if not renames:
                return found
            name, end = renames[-1].paths[0] + name[len(renames[-1].paths[-1]):], renames[-1].begun

    def ready(self, path):
        """When the folder was synced after the file came into it: a number to compare with those of events."""
        path = os.path.abspath(path)
        moved = max(it.ended for it in self.of(path, *MOVES))
        return min(it.ended for it in self.of(os.path.dirname(path), "fsync") if it.begun > moved)

    def first_sent(self):
        """When the first connection was begun by an address: a socket of a file isn't the office, nor one of the
        kernel. A shell asks nscd by such a socket who its user is, if its environment doesn't say so."""
        return min(it.begun for it in self.events if it.name == "connect" and "sa_family=AF_INET" in it.words)

    def unsynced_folders(self):
        """The folders that were made and of which the one above wasn't synced after."""
        made = [(path, it.ended) for it in self.events if it.name in ("mkdir", "mkdirat") for path in it.paths[-1:]]
        return [path for path, at in made
                if not any(it.begun > at for it in self.of(os.path.dirname(path), "fsync"))]
