"""Messages that were sent and whose answer isn't here yet, each kept on disk under its request ID.

A file of the outbox has the request ID on its first line, and then the message. It is on disk before the message is
sent, and is removed when the answer has been put to use. Whatever happens in between, the same command finds it and
sends the same bytes under the same ID, so the office answers as it did the first time, and nothing happens twice.
"""
import contextlib
import os
import re
import secrets
import time

from vethlumi.formats import NAME
from vethlumi.settings import BadSettings
from vethlumi_common import files

# The lines of a message that differ when the same command runs again later.
MOMENTS = re.compile(r"^(after|before) (\d+)$", re.M | re.ASCII)


class Kept:
    """A message in the outbox."""

    def __init__(self, path, key, message):
        self.path, self.key, self.message = path, key, message

    def drop(self):
        with contextlib.suppress(FileNotFoundError):
            os.unlink(self.path)


def likeness(message):
    """A message without its moments, and the length of its validity: the same command makes the same."""
    moments = {name: int(value) for name, value in MOMENTS.findall(message)}
    return MOMENTS.sub("", message), moments.get("before", 0) - moments.get("after", 0)


class Outbox:
    def __init__(self, folder):
        self.folder = folder

    def check(self):
        """Refuses a folder in which somebody else can put messages: they would be sent with this user's certificate. Of
        one that isn't there, what counts is the folder above that is."""
        nearest = self.folder
        while not os.path.lexists(nearest):
            nearest = os.path.dirname(nearest)
        if why := files.distrust(nearest):
            raise BadSettings(f"the outbox can't be used: {why}. Set HOME or XDG_STATE_HOME to folders of your own")

    def all(self):
        """The messages that are kept, the oldest first."""
        self.check()
        found = []
        with contextlib.suppress(FileNotFoundError):
            for entry in sorted(os.scandir(self.folder), key=lambda it: (it.stat().st_mtime_ns, it.name)):
                if NAME.fullmatch(entry.name) and entry.is_file():
                    with open(entry.path, encoding="utf-8", newline="") as it:
                        key, _, message = it.read().partition("\n")
                    if key == entry.name:
                        found.append(Kept(entry.path, key, message))
        return found

    def find(self, message):
        """The kept message that this one repeats, if there is one."""
        return next((it for it in self.all() if likeness(it.message) == likeness(message)), None)

    def keep(self, message):
        """Keeps a message under a new request ID, on disk before this returns. One that it repeats takes its place."""
        found = self.find(message)
        if found:
            return found
        files.make_folder(self.folder)
        self.check()
        # A name with a dot is no message's, so half a file is never read. One that a kill left goes after a day.
        for entry in os.scandir(self.folder):
            if "." in entry.name and time.time() - entry.stat(follow_symlinks=False).st_mtime > 86400:
                os.unlink(entry.path)
        key = secrets.token_hex(16)
        path = os.path.join(self.folder, key)
        files.put(path, f"{key}\n{message}".encode(), 0o600)
        return Kept(path, key, message)
