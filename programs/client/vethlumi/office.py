"""The office, as its routes show it: messages go out, and reports come back, each with limits of time and size.

Whoever holds the front, or the way to it, answers what they like. So nothing is read beyond a limit, no redirect is
followed, nothing is decompressed, and what isn't of the form that an office writes is no answer.
"""
import io
import re
import socket
import tempfile
import time
from typing import NamedTuple

from vethlumi import formats, lists, table
from vethlumi.formats import BadFormat
from vethlumi.refusals import Refused, refusal_of, said_by
from vethlumi_common import deadlines, web
from vethlumi_common.addresses import addresses

# The most bytes that are read: of a table, over three million certificates; of a list as servers do, and of the
# signers; of any other answer.
LONGEST_TABLE, LONGEST_LIST, LONGEST_ANSWER = 1 << 29, 1 << 25, 1 << 16
# How many of them are read at once. A table up to this length stays in memory.
PIECE, MOST_IN_MEMORY = 1 << 16, 1 << 24
# Seconds until a connection is made, and until the next bytes of an answer come.
PATIENCE = 10, 60
# Seconds for a whole answer: for a short one, and for any once the time to wait is over.
LONGEST_REQUEST, LAST_REQUEST = 60, 1
# Seconds until the next attempt, and the most of them that the front may ask for.
PAUSE, LONGEST_PAUSE = 1, 60


class NoAnswer(Exception):
    """No answer came, or one that says to ask again later. Its text says why, and `pause` how many seconds later, or
    None if there is no point in asking again."""

    def __init__(self, why, pause=PAUSE):
        super().__init__(why)
        self.pause = pause


class Answer(NamedTuple):
    """The status, the header fields, and a file with the body, at its beginning."""
    status: int
    fields: dict
    file: object

    def body(self):
        return self.file.read()


def at_most(seconds, work):
    """What a function returns, or NoAnswer if it takes longer."""
    try:
        return deadlines.at_most(seconds, work)
    except deadlines.Overlong:
        raise NoAnswer(f"no complete answer within {round(seconds) or 1} s") from None


class Server:
    """A server that may answer what it likes. What takes long ends at a time of time.monotonic."""

    def __init__(self, url, ends, certificate=None, cacert=None):
        # By this name the library looks for the server's addresses.
        socket.getaddrinfo = lambda host, port, *_, **how: addresses(host, port)
        self.url, self.ends = url, ends
        self.session = web.session_of("vethlumi", certificate, cacert)

    def time_left(self, most):
        """How many seconds the next answer may take, of at most so many."""
        return min(most, max(self.ends - time.monotonic(), LAST_REQUEST))

    def ask(self, method, path, data=None, longest=LONGEST_ANSWER, fields=None):
        """What the server answers, whole. Of an answer that isn't 200 the beginning will do. `fields` are further ones
        of the request's head."""
        # A long page may take as long as there is time.
        seconds = self.time_left(float("inf") if longest > LONGEST_ANSWER else LONGEST_REQUEST)
        try:
            return at_most(seconds, lambda: self.answered(method, path, data, longest, fields))
        except NoAnswer:
            raise
        except Exception as fault:
            # Whatever the library makes of an answer, a ValueError too, is a fault of that answer.
            raise NoAnswer(f"{self.url}: {root_of(fault)}") from None

    def answered(self, method, path, data, longest, fields):
        file = tempfile.SpooledTemporaryFile(MOST_IN_MEMORY) if longest > LONGEST_LIST else io.BytesIO()
        with self.session.request(method, f"{self.url}{path}", data=data, timeout=PATIENCE, stream=True,
                                  allow_redirects=False, headers=fields) as answer:
            is_page = answer.status_code == 200
            longest = longest if is_page else LONGEST_ANSWER
            if answer.headers.get("content-encoding", "identity").lower() != "identity":
                if is_page:
                    raise NoAnswer(f"{path}: the answer is compressed, which wasn't requested", None)
                return Answer(answer.status_code, answer.headers, file)
            while file.tell() <= longest and (
                    piece := answer.raw.read(min(PIECE, longest + 1 - file.tell()), decode_content=False)):
                file.write(piece)
            whole = answer.headers.get("content-length", str(file.tell()))
            if file.tell() > longest and is_page:
                raise NoAnswer(f"{path}: the answer is longer than {longest} bytes", None)
            if file.tell() <= longest and whole != str(file.tell()):
                raise NoAnswer(f"{path}: the answer was cut off")
            file.seek(0)
            return Answer(answer.status_code, answer.headers, file)

    def answer(self, method, path, data=None, longest=LONGEST_ANSWER):
        """An answer that isn't a refusal."""
        found = self.ask(method, path, data, longest)
        if found.status == 200:
            return found
        text = found.body().decode("utf-8", "replace")
        if found.status == 429 or found.status >= 500:
            raise NoAnswer(said_by(found.status, text), pause_of(found.fields))
        raise refusal_of(found.status, text)

    def page(self, path, read, longest=LONGEST_ANSWER):
        """What a page says, by the function that reads its file."""
        found = self.answer("GET", path, longest=longest)
        try:
            return read(found)
        except (BadFormat, ValueError) as fault:
            raise NoAnswer(f"{path}: unexpected answer from the office: {fault}", None) from None


class Office(Server):
    """An office behind its front, or without one."""

    def __init__(self, settings, ends):
        super().__init__(settings.url(), ends, settings.file("certificate"), settings.file("cacert"))
        self.caller = settings.caller

    def post(self, kept):
        """The reply to a message of the outbox, as words: `issued 1` and its digest are four."""
        sender = f"callers/{self.caller}/requests" if self.caller else "requests"
        found = self.answer("POST", f"/v1/{sender}/{kept.key}", kept.message.encode())
        try:
            return formats.reply_to(kept.message, found.body())
        except BadFormat as fault:
            raise NoAnswer(f"unexpected answer from the office: {fault}", None) from None

    def table(self):
        """The certificates, and the version of the list."""
        found = self.page("/v1/table", lambda it: table.Table(it.file), LONGEST_TABLE)
        return found, found.version

    def cas(self):
        """The CAs: number, first serial, fingerprint."""
        return self.page("/v1/cas", lambda it: table.cas(it.body()))

    def krl(self):
        """The bytes of the list, and what they say."""
        def read(found):
            data = found.file.getvalue()
            return data, lists.RevocationList.of(data)
        return self.page("/v1/krl", read, LONGEST_LIST)

    def signers(self):
        """The allowed signers, for ssh-keygen -Y verify."""
        return self.page("/v1/signers", lambda it: formats.signers(it.file.getvalue()), LONGEST_LIST)

    def body(self, serial):
        """The fields of a certificate, signed or not."""
        return self.page(f"/v1/certs/{serial}/body",
                         lambda it: of_serial(formats.Certificate.of_bytes(it.body()), serial))

    def line(self, serial):
        """The line of a certificate, and its fields, or None while it has no signature."""
        def read(found):
            line = formats.certificate_line(found.body())
            return line, of_serial(formats.Certificate.of_line(line), serial)
        try:
            return self.page(f"/v1/certs/{serial}", read)
        except Refused as refused:
            if refused.name != "NotSigned":
                raise
            return None


def of_serial(certificate, serial):
    """A certificate, which has to have this serial."""
    if certificate.serial != serial:
        raise BadFormat(f"the certificate has serial {certificate.serial}, not {serial}")
    return certificate


def pause_of(fields):
    """How long the front wants its clients to wait (RFC 9110, Retry-After), in seconds and within reason."""
    asked = fields.get("retry-after", "")
    return min(int(asked), LONGEST_PAUSE) if re.fullmatch(r"[1-9]\d{0,9}", asked, re.ASCII) else PAUSE


def root_of(fault):
    """The innermost cause of a fault, which says more to people than what is around it."""
    while fault.__cause__ or fault.__context__:
        fault = fault.__cause__ or fault.__context__
    return " ".join(str(fault)[:300].split()) or type(fault).__name__


def trying(ask, until, tell):
    """What `ask` gives, tried again until it answers or until a time of time.monotonic. `tell` gets each failure."""
    while True:
        try:
            return ask()
        except NoAnswer as fault:
            left = until - time.monotonic()
            if left <= 0 or fault.pause is None:
                raise
            tell(str(fault))
            time.sleep(min(fault.pause, left))
