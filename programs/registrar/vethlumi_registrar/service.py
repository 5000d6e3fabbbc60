"""The registrar over HTTP: behind the front, at a socket that systemd opens, or at a port of this machine.

Each request ends as one line of JSON on standard output, which is the journal. No line has a token in it.
"""
import json
import re
import signal
import socket
import sys
import threading
import time

import waitress

from vethlumi_registrar import renewals
from vethlumi_registrar.logins import Refusal

# The longest body of a login, a token of 8 KB among it, or of a renewal.
LONGEST_BODY = 16384
THREADS, BACKLOG, MOST_CONNECTIONS = 64, 256, 512
# Seconds for which a client may be silent.
SILENT = 30
# Only the front reaches the socket, so it may say whom it asks for.
ADDRESS = re.compile(r"[0-9a-fA-F.:]{2,45}", re.ASCII)
ROUTE = re.compile(r"/v1/(login|renewal|settings|certificates/([1-9][0-9]{0,18}))", re.ASCII)
STATUSES = {200: "OK", 400: "Bad Request", 401: "Unauthorized", 403: "Forbidden", 404: "Not Found",
            405: "Method Not Allowed", 409: "Conflict", 413: "Payload Too Large", 429: "Too Many Requests",
            500: "Internal Server Error", 502: "Bad Gateway", 503: "Service Unavailable"}
# In bytes: how much is written at once of what anybody can have written, and how much a second in the long run. It is
# far less than journald takes in such a time.
ROOM_AT_ONCE, ROOM_A_SECOND = 1 << 20, 1 << 10
# By the paths to which something is sent: what it is called in the audit trail, and the texts that it has.
SENT = {"/v1/login": ("sign-on", ("department", "token", "public_key")),
        "/v1/renewal": ("renewal", ("certificate", "statement", "signature"))}
LAST_SERIAL = 9223372036854775806
# The first file that systemd passes to a service (sd_listen_fds).
PASSED = 3


class Journal:
    """Lines that are whole, also of threads that write at once. Of too many lines journald drops any. So what anybody
    can have written, without a token that is believed, is written as far as there is room for it, and the next line
    says how many were left out."""

    def __init__(self, file, clock=time.monotonic):
        self.file, self.lock, self.clock = file, threading.Lock(), clock
        self.room, self.since, self.left_out = ROOM_AT_ONCE, clock(), 0

    def write(self, record, is_always=True):
        with self.lock:
            now = self.clock()
            self.room = min(ROOM_AT_ONCE, self.room + (now - self.since) * ROOM_A_SECOND)
            self.since = now
            line = json.dumps(record | ({"left_out": self.left_out} if self.left_out else {})) + "\n"
            if not is_always and len(line) > self.room:
                self.left_out += 1
                return
            self.room -= 0 if is_always else len(line)
            self.left_out = 0
            self.file.write(line)
            self.file.flush()


def is_limited(record):
    """Whether a record is of a login or renewal that was counted, of which each account has a few in an hour."""
    return "request" in record and record["status"] not in (429, 503)


def asked_of(environ, names):
    """The texts of these names that were sent."""
    length = environ.get("CONTENT_LENGTH") or "0"
    if not length.isdecimal() or int(length) > LONGEST_BODY:
        raise Refusal(413, "TooLong", f"a body has at most {LONGEST_BODY} bytes")
    try:
        asked = json.loads(environ["wsgi.input"].read(int(length)).decode())
    except (ValueError, RecursionError):
        raise Refusal(400, "BadRequest", "the body is no JSON") from None
    if not isinstance(asked, dict) or {*asked} != {*names} or not all(isinstance(it, str) for it in asked.values()):
        raise Refusal(400, "BadRequest",
                      f"the body isn't an object with the strings {', '.join(names[:2])} and {names[2]}")
    return [asked[it] for it in names]


class Service:
    """A WSGI application."""

    def __init__(self, registrar, journal):
        self.registrar, self.journal = registrar, journal

    def __call__(self, environ, start):
        begun, method, path = time.monotonic(), environ["REQUEST_METHOD"], environ["PATH_INFO"]
        # Somebody may have put a token into another path.
        record = {"at": time.strftime("%FT%TZ", time.gmtime()), "from": address_of(environ), "method": method[:8],
                  "path": path if ROUTE.fullmatch(path) else "another"}
        pause = 0
        try:
            status, kind, text = 200, *self.answer(environ, method, path, record)
        except Refusal as refusal:
            status, kind, pause = refusal.status, "application/json", refusal.pause
            text = as_json({"error": refusal.name, "detail": refusal.detail})
            record |= {"error": refusal.name, "why": refusal.why[:300]}
        except Exception as fault:
            # A fault of ours. Its text might have what was sent, so the journal gets its kind and its place alone.
            status, kind = 500, "application/json"
            text = as_json({"error": "Fault", "detail": "a fault in the registrar: see its journal"})
            record |= {"error": "Fault", "why": place_of(fault)}
        if path in SENT:
            # A line of the audit trail, too.
            record |= {"source": "registrar", "event": SENT[path][0], "outcome": outcome_of(status)}
            record |= {"reason": record["error"]} if "error" in record else {}
        record |= {"status": status, "ms": round(1000 * (time.monotonic() - begun), 1)}
        self.journal.write(record, is_limited(record))
        data = text.encode()
        start(f"{status} {STATUSES[status]}", [
            ("Content-Type", kind), ("Content-Length", str(len(data))), ("Cache-Control", "no-store"),
            *([("Retry-After", str(pause))] if pause else [])])
        return [data]

    def answer(self, environ, method, path, record):
        """The type and the text of what is answered."""
        found = ROUTE.fullmatch(path)
        if environ.get("QUERY_STRING") or not found:
            raise Refusal(404, "NoRoute", "there is no such path")
        wanted = "POST" if path in SENT else "GET"
        if method != wanted:
            raise Refusal(405, "WrongMethod", f"this path is for {wanted}")
        if path == "/v1/settings":
            return "application/json", as_json(self.registrar.public())
        if path in SENT:
            asked = asked_of(environ, SENT[path][1])
            serial, line = self.registrar.login(*asked, record) if path == "/v1/login" \
                else renewals.renew(self.registrar, *asked, record)
            return "application/json", as_json({"serial": serial, "certificate": line and line.rstrip("\n")})
        serial = int(found[2])
        line = self.registrar.certificate(serial, record["from"]) if serial <= LAST_SERIAL else None
        if line is None:
            raise Refusal(404, "NoCertificate", "no certificate with this serial yet, or it isn't available here")
        return "text/plain", line


def outcome_of(status):
    """What became of a login. Without an answer of the office it may have got a certificate."""
    return "accepted" if status == 200 else "unanswered" if status >= 500 else "refused"


def as_json(value):
    return json.dumps(value) + "\n"


def address_of(environ):
    found = environ.get("HTTP_X_REAL_IP", "")
    return found if ADDRESS.fullmatch(found) else environ.get("REMOTE_ADDR", "")


def place_of(fault):
    """The kind of a fault, and where it came from."""
    at = fault.__traceback__
    while at.tb_next:
        at = at.tb_next
    return f"{type(fault).__name__} at {at.tb_frame.f_code.co_name}:{at.tb_lineno}"


def listener(port, passed):
    """The socket to listen at: that of systemd, or a port of this machine."""
    return socket.socket(fileno=PASSED) if passed else socket.create_server(("127.0.0.1", port), backlog=BACKLOG)


def server_of(registrar, at, out, threads=THREADS):
    """A server at a socket, which doesn't run yet. It reads each request whole before a thread has it."""
    return waitress.create_server(
        Service(registrar, Journal(out)), sockets=[at], threads=threads, connection_limit=MOST_CONNECTIONS,
        channel_timeout=SILENT, cleanup_interval=10, ident=None, max_request_body_size=2 * LONGEST_BODY,
        max_request_header_size=8192, log_socket_errors=False, backlog=BACKLOG, clear_untrusted_proxy_headers=True)


def serve(registrar, port, passed):
    """Serves until the process is told to end."""
    at = listener(port, passed)
    made = server_of(registrar, at, sys.stdout)
    # Also before the server runs, which then ends in good order.
    signal.signal(signal.SIGTERM, lambda *_: sys.exit())
    if not passed:
        print(f"listening {at.getsockname()[1]}", file=sys.stderr, flush=True)
    made.run()
