"""The office, as one of its callers reaches it: a message goes out, and a certificate's line comes back."""
import threading
import time

from vethlumi import formats, table
from vethlumi.formats import BadFormat
from vethlumi.office import PAUSE, pause_of
from vethlumi.refusals import Refused, refusal_of, said_by
from vethlumi_signon.web import NoAnswer, fetch

# Seconds for an answer to a message, and for a line.
LONGEST_ISSUE, LONGEST_READ = 20, 10
# Seconds until the office is asked again which CAs it has, and between two attempts for one that isn't known.
FRESH, BETWEEN = 300, 10
# How many wait for its CAs. Strangers can have as many wait, and logins need the other threads.
MOST_WAITING = 16


class NoOffice(Exception):
    """No answer came from the office, or one that says to ask again, after so many seconds."""

    def __init__(self, why, pause=PAUSE):
        super().__init__(why)
        self.pause = pause


class BadOffice(Exception):
    """What came is unexpected answer from the office."""


class Office:
    def __init__(self, settings):
        self.url, self.caller = settings.office, settings.caller
        self.certificate, self.trusted = settings.certificate or None, settings.cacert or None

    def ask(self, method, path, data=None, seconds=LONGEST_READ):
        """The body of an answer. A refusal of the office is raised as the client has it."""
        try:
            found = fetch(method, self.url + path, data, self.certificate, self.trusted, seconds)
        except NoAnswer as fault:
            raise NoOffice(str(fault)) from None
        text = found.body.decode("utf-8", "replace")
        if found.status in ((201, 204) if method == "PUT" else (200,)):
            return found.body
        if found.status == 429 or found.status >= 500:
            raise NoOffice(said_by(found.status, text), pause_of(found.fields))
        raise refusal_of(found.status, text)

    def issue(self, request, message):
        """The serial that an issue or a renewal got under this request ID, now or when it came first."""
        path = f"/v1/callers/{self.caller}/requests/{request}" if self.caller else f"/v1/requests/{request}"
        found = self.ask("POST", path, message.encode(), LONGEST_ISSUE)
        try:
            return int(formats.reply_to(message, found)[1])
        except BadFormat as fault:
            raise BadOffice(str(fault)) from None

    def put_evidence(self, token, name):
        """Gives the front the token of a login, under a name. An office without a front has no place for it."""
        if not self.caller:
            self.ask("PUT", f"/evidence/{name}", token.encode())

    def line(self, serial):
        """A certificate's line and its fields. The office refuses one that isn't signed, or isn't there."""
        try:
            line = formats.certificate_line(self.ask("GET", f"/v1/certs/{serial}"))
            found = formats.Certificate.of_line(line)
        except BadFormat as fault:
            raise BadOffice(str(fault)) from None
        if found.serial != serial:
            raise BadOffice(f"the certificate has serial {found.serial}, not {serial}")
        return line, found

    def cas(self):
        """The fingerprints of its CAs."""
        try:
            return {fingerprint for _, _, fingerprint in table.cas(self.ask("GET", "/v1/cas"))}
        except (BadFormat, UnicodeDecodeError) as fault:
            raise BadOffice(str(fault)) from None


class Cas:
    """Which CAs the office has. Whoever names CAs that it hasn't has it asked once in a while, and no more often."""

    def __init__(self, office, clock=time.monotonic):
        self.office, self.clock, self.lock = office, clock, threading.Lock()
        self.known, self.came, self.tried = None, 0, None
        self.places = threading.Semaphore(MOST_WAITING)

    def has(self, fingerprint):
        if not self.places.acquire(blocking=False):
            raise NoOffice("many wait for the office to say which CAs it has")
        try:
            return self.is_one(fingerprint)
        finally:
            self.places.release()

    def is_one(self, fingerprint):
        with self.lock:
            now = self.clock()
            if self.known is None or now - self.came >= FRESH or fingerprint not in self.known:
                self.look(now)
            return fingerprint in self.known

    def look(self, now):
        """Asks again, unless that was a moment ago."""
        if self.tried is not None and now - self.tried < BETWEEN:
            if self.known is None:
                raise NoOffice("the office didn't say a moment ago which CAs it has")
            return
        self.tried = now
        try:
            self.known, self.came = self.office.cas(), now
        except (NoOffice, BadOffice, Refused):
            if self.known is None:
                raise
