"""The office, asked at its door by root of its machine: only root and the front may open the socket."""
import contextlib
import http.client
import re
import secrets
import socket
import time

import policies
from setting_up import Fault

DOOR = "/run/office-door.sock"
# In seconds: how long one answer may take, and how long the same is asked again until one comes.
LONGEST_ANSWER, LONGEST_WAIT = 60, 60
AWAY = "see journalctl -u office, and run this again"


class Refused(Fault):
    """An office's refusal: its number, and its name."""

    def __init__(self, text):
        super().__init__(f"the office refuses it: {text.strip()}")
        self.number = int((re.match(r"refused (\d+) ", text) or [0, 0])[1])


class Connection(http.client.HTTPConnection):
    """A connection to a socket in a file."""

    def __init__(self, path):
        super().__init__("office", timeout=LONGEST_ANSWER)
        self.path = path

    def connect(self):
        self.sock = socket.socket(socket.AF_UNIX, socket.SOCK_STREAM)
        self.sock.settimeout(self.timeout)
        self.sock.connect(self.path)


class Door:
    """An office at its door, asked in the name of its root."""

    def __init__(self, root="root"):
        self.path, self.root = str(DOOR), root

    def ask(self, path, message=None):
        """The status and the bytes of one answer, which came whole."""
        with contextlib.closing(Connection(self.path)) as asked:
            asked.request("POST" if message else "GET", path, message)
            answer = asked.getresponse()
            if answer.length is None:
                raise http.client.HTTPException("the answer was cut off")
            return answer.status, answer.read()

    def answered(self, path, message=None):
        """The same, asked again until an answer comes: nothing happens twice."""
        end = time.monotonic() + LONGEST_WAIT
        while True:
            try:
                status, data = self.ask(path, message)
                if status < 500:
                    return status, data
                why = f"it answers {status}"
            except (OSError, http.client.HTTPException) as fault:
                why = str(fault) or type(fault).__name__
            if time.monotonic() > end:
                raise Fault(f"the office doesn't answer ({why}): {AWAY}")
            time.sleep(0.2)

    def read(self, path):
        status, data = self.answered(path)
        if status != 200:
            raise Refused(data.decode(errors="replace"))
        return data

    def send(self, message):
        """Sends a message in root's name, under a request ID of its own, and returns the reply."""
        key = secrets.token_hex(12)
        status, data = self.answered(f"/v1/callers/{self.root}/requests/{key}", message.encode())
        text = data.decode(errors="replace")
        if status != 200:
            raise Refused(text)
        return text

    # ---- departments

    def departments(self):
        """The texts of all departments, as a policy has them."""
        return self.read("/v1/departments").decode()

    def put(self, name, old, new):
        """Has the office take a department, if it has the old one still."""
        if self.department(name) not in (old, new):
            raise Fault(f"the department {name} was changed meanwhile: run this again")
        if self.department(name) != new and self.send(new) != f"department {name}\n":
            raise Fault(f"the office refused the department {name}")

    def department(self, name):
        text = self.departments()
        return next(("".join(it) for _, it in policies.blocks(text) if it[0] == f"department {name}\n"), "")
