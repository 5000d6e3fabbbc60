"""What is asked of the office, or of its front."""
import base64
import contextlib
import http.client
import io
import re
import select
import socket
import ssl
import subprocess
import threading
import time
import urllib.parse

from vethlumi_common.addresses import addresses, numeric

from .addresses import fronts_at
from .faults import Fault
from .files import check_secret, state_of
from .journal import printable
from .limits import (LONGEST_BODY, LONGEST_CONNECTING, LONGEST_EVIDENCE, LONGEST_LIST, LONGEST_PENDING,
                     LONGEST_PUBLISHING, LONGEST_REPLY, LONGEST_REQUEST, MOST_FRONTS, PIECE)
from .wire import SIGNATURE_BLOB

PENDING = re.compile(rb"[1-9][0-9]{0,18} [0-9a-f]{64}\n")
# What stays as it is in a path.
OF_PATHS = "!$%&'()*+,/:;=@~"


def innermost(fault):
    """What the system says of a fault. What Python says around it would fill the line."""
    while fault.__context__ and not fault.__suppress_context__:
        fault = fault.__context__
    return printable(fault) or type(fault).__name__


def beginning(stream, most):
    """At most so many bytes of a stream."""
    text = bytearray()
    while len(text) < most and (piece := stream.read(min(PIECE, most - len(text)))):
        text += piece
    return bytes(text)


class Limit:
    """The time that something may take, however it passes."""

    def __init__(self, seconds):
        self.seconds, self.end = seconds, time.monotonic() + seconds

    def left(self):
        """The seconds that are left, or a fault."""
        left = self.end - time.monotonic()
        if left <= 0:
            raise OSError(f"not within {self.seconds} seconds") from None
        return left


class Coming(io.RawIOBase):
    """What comes by a socket within a time, for http.client."""

    def __init__(self, peer, limit):
        self.peer, self.limit = peer, limit

    def makefile(self, _):
        return io.BufferedReader(self)

    def readable(self):
        return True

    def readinto(self, buffer):
        self.peer.settimeout(self.limit.left())
        return self.peer.recv_into(buffer)


class Connection:
    """A connection to the office. It stays open from one request to the next, if the office lets it, and one thread
    uses it. `only` is the one address that it may go to, if it isn't any; by `looks_up` it finds the addresses anew."""

    def __init__(self, office, only=None, looks_up=False):
        self.office, self.only, self.looks_up = office, only, looks_up
        self.peer, self.turn = None, office.turn

    def close(self):
        if self.peer:
            self.peer.close()
        self.peer = None

    def is_open(self):
        """Whether the connection of the last request is still there, and to the address whose turn it is."""
        if self.peer and (self.turn != self.office.turn or select.select([self.peer], [], [], 0)[0]):
            self.close()
        self.turn = self.office.turn
        return self.peer is not None

    def connect(self, limit):
        """Connects to one of the office's addresses."""
        office, fault = self.office, OSError(f"{self.office.host} has no address")
        if office.cert:
            check_secret(office.cert)
        for family, kind, protocol, _, place in office.places(self, limit):
            # A machine that is off takes no connection, and leaves time for the next address.
            seconds = min(LONGEST_CONNECTING, limit.left()) if office.has_several else limit.left()
            try:
                self.peer = socket.socket(family, kind, protocol)
                self.peer.settimeout(seconds)
                self.peer.connect(place)
                break
            except OSError as why:
                self.close()
                fault = why
        if not self.peer:
            raise fault
        self.peer.setsockopt(socket.IPPROTO_TCP, socket.TCP_NODELAY, 1)
        if office.is_tls:
            self.peer.settimeout(limit.left())
            self.peer = office.tls().wrap_socket(self.peer, server_hostname=office.host)

    def answer(self, method, request, longest, limit):
        """An answer, and at most so many bytes of its body and one more. A front may close a connection that was kept
        as the next request is on its way. Then it is sent once more: whatever is asked here may be asked twice."""
        was_open = self.is_open()
        try:
            return self.answer_once(method, request, longest, limit)
        except ConnectionError:
            if not was_open:
                raise
        self.close()
        return self.answer_once(method, request, longest, limit)

    def answer_once(self, method, request, longest, limit):
        if not self.peer:
            self.connect(limit)
        self.peer.settimeout(limit.left())
        for it in request:
            self.peer.sendall(it)
        answer = http.client.HTTPResponse(Coming(self.peer, limit), method=method)
        answer.begin()
        # Of a refusal the beginning says enough.
        text = beginning(answer, longest + 1 if answer.status == 200 else min(longest, LONGEST_REPLY) + 1)
        if answer.will_close or not answer.isclosed():
            self.close()
        return answer, text

    def ask(self, path, longest, data=None, method="GET", seconds=LONGEST_REQUEST, may_be_cut=False):
        """The whole answer to a request, or the beginning of a longer one, if that will do."""
        limit, request, answer = Limit(seconds), self.office.request(method, path, data), None
        try:
            answer, text = self.answer(method, request, longest, limit)
        except TimeoutError:
            limit.left()
            raise
        except (OSError, Fault):
            raise
        except Exception as fault:
            # Whatever Python makes of an answer, a ValueError too, is a fault of that answer.
            raise OSError(str(fault) or type(fault).__name__) from None
        finally:
            if not answer:
                self.close()
            if not self.only and (not answer or answer.status >= 500):
                self.office.turn_from(self.turn)
        if answer.status not in ((201, 204) if method == "PUT" else (200,)):
            raise OSError(f"{answer.status} {printable(text.decode(errors='replace').strip())}".strip())
        if len(text) > longest:
            if may_be_cut:
                return text[:longest]
            raise OSError(f"an answer of more than {longest} bytes")
        if str(len(text)) != answer.getheader("content-length", str(len(text))):
            raise OSError("incomplete answer")
        return text

    def tag(self, path):
        """What tells a file of the front from what it was before: its ETag, or None if it doesn't give one."""
        answer = None
        try:
            answer, _ = self.answer("HEAD", self.office.request("HEAD", path, None), 0, Limit(LONGEST_REQUEST))
        except (OSError, Fault):
            raise
        except Exception as fault:
            raise OSError(str(fault)) from None
        finally:
            if not answer:
                self.close()
        return answer.getheader("etag") if answer.status == 200 else None


class Office:
    """The office, or its front. What it answers is bounded in time and in length, and no redirect is followed. It is
    asked by several threads, each with a connection of its own."""

    def __init__(self, given):
        self.url = given.office.rstrip("/")
        parts = urllib.parse.urlsplit(self.url)
        self.is_tls = parts.scheme == "https"
        try:
            self.host, self.port = parts.hostname.encode("idna").decode(), parts.port or (443 if self.is_tls else 80)
        except (ValueError, AttributeError):
            raise Fault(f"no URL: {given.office}") from None
        named = f"[{self.host}]" if ":" in self.host else self.host
        self.name = named if parts.port is None else f"{named}:{parts.port}"
        self.path = urllib.parse.quote(parts.path, safe=OF_PATHS)
        self.requests = "requests" if self.is_tls else f"callers/{given.caller}/requests"
        self.cert, self.cacert = given.cert, given.cacert
        # The addresses of its name when they were last looked up, whether these are several, with which of them the
        # next connection begins, and the kinds of addresses with a way to them.
        self.found, self.has_several, self.turn, self.routed = [], True, 0, set()
        self.lock, self.seen, self.context = threading.Lock(), None, None
        # That of the thread which looks up names: a program that asks for them is ended with it.
        self.own = Connection(self, looks_up=True)

    def request(self, method, path, data):
        """The bytes of a request, in pieces: a long body isn't copied."""
        head = f"{method} {self.path}{path} HTTP/1.1\r\nHost: {self.name}\r\nUser-Agent: station\r\n" \
               "Accept-Encoding: identity\r\n"
        if data is None:
            return [f"{head}\r\n".encode()]
        head = f"{head}Content-Length: {len(data)}\r\n\r\n".encode()
        return [head + data] if len(data) < PIECE else [head, data]

    def places(self, connection, limit):
        """The addresses that a connection may go to, in the form of socket.getaddrinfo and in their turn."""
        if connection.only:
            return numeric(connection.only, self.port)
        if connection.looks_up:
            self.found = self.looked_up(limit)
        first = self.turn % len(self.found) if self.found else 0
        return self.found[first:] + self.found[:first]

    def looked_up(self, limit):
        try:
            found = addresses(self.host, self.port, limit.left())
        except subprocess.TimeoutExpired:
            raise OSError(f"not within {limit.seconds} seconds") from None
        self.has_several = len(found) > 1
        return found

    def turn_from(self, turn):
        """The next request is sent to another address of the name than in this turn. The front there may have hung."""
        with self.lock:
            if turn == self.turn:
                self.turn += 1

    def tls(self):
        """What TLS is set to. A certificate that was renewed counts from the next connection on."""
        seen = [state_of(it) for it in (self.cert, self.cacert) if it]
        with self.lock:
            if self.context is None or seen != self.seen:
                context = ssl.create_default_context(cafile=self.cacert)
                if self.cert:
                    context.load_cert_chain(self.cert, password="")
                self.seen, self.context = seen, context
            return self.context

    def pending(self):
        """The rows of the certificates that wait for a signature, and whether these are all. A row is a line with a
        serial and a digest: a million pairs of texts would take twice the memory. Each line is looked at before the
        next one is read: millions of short ones would take many times the memory of these."""
        text = self.own.ask("/v1/pending", LONGEST_PENDING, may_be_cut=True)
        is_whole = len(text) < LONGEST_PENDING
        rows = {}
        for line in io.BytesIO(text):
            if PENDING.fullmatch(line):
                rows[line[:-1].decode()] = None
            elif is_whole or line.endswith(b"\n"):
                raise OSError("the answer isn't a list of pending certificates")
        return list(rows), is_whole

    def body(self, serial, connection):
        return connection.ask(f"/v1/certs/{serial}/body", LONGEST_BODY)

    def evidence(self, name, connection):
        """What the registrar has put at a front under this name, or None. Of several fronts, one has it."""
        others = [place[0] for *_, place in self.found] if self.has_several else []
        for address in [None, *others[:MOST_FRONTS]]:
            it = Connection(self, only=address) if address else connection
            try:
                return it.ask(f"/evidence/{name}", LONGEST_EVIDENCE)
            except OSError as fault:
                if not str(fault).startswith("404"):
                    raise
            finally:
                if address:
                    it.close()
        return None

    def list(self, connection):
        return connection.ask("/v1/krl", LONGEST_LIST, seconds=LONGEST_PUBLISHING)

    def publish(self, file):
        """Gives the bytes of a file to the front at each address, in the place of the one that it has. Returns whether
        one took it, and what is said of those that didn't."""
        found = fronts_at(self.looked_up(Limit(LONGEST_REQUEST)), self.routed)
        if not found:
            raise OSError(f"{self.host} has no address")
        fronts, said, end = found[:MOST_FRONTS], [], time.monotonic() + LONGEST_PUBLISHING
        for place, address in enumerate(fronts):
            try:
                self.put(file, address, max(1, round((end - time.monotonic()) / (len(fronts) - place))))
            except OSError as fault:
                where = f" at {address}" if len(found) > 1 else ""
                said.append(f"the list isn't published{where}: {innermost(fault)}")
        is_taken = len(said) < len(fronts)
        if found != fronts:
            where = f"{len(found) - len(fronts)} of the {len(found)} addresses of {self.host}"
            said.append(f"the list isn't published at {where}: it goes to {len(fronts)}")
        return is_taken, said

    def put(self, file, address, seconds):
        """Gives the bytes of a file to the front at an address, by a connection that isn't one to another address."""
        end = time.monotonic() + seconds
        for is_last in (False, True):
            with contextlib.closing(Connection(self, only=address)) as connection:
                try:
                    return connection.ask("/published", LONGEST_REPLY, file, "PUT", seconds)
                except OSError as fault:
                    # A front takes one at a time. If it has two addresses, the first may not be over yet.
                    seconds = int(end - time.monotonic()) - 1
                    if is_last or seconds < 1 or not str(fault).startswith("429"):
                        raise
            time.sleep(1)

    def deliver(self, serial, digest, signature, connection):
        blob = base64.b64encode(SIGNATURE_BLOB + signature).decode()
        message = f"deliver {serial}\ndigest {digest}\nsignature {blob}\n"
        answer = connection.ask(f"/v1/{self.requests}/sign-{serial}", LONGEST_REPLY, message.encode(), "POST")
        if answer != f"signed {serial}\n".encode():
            raise OSError(f"the answer to the delivery is {printable(answer.decode(errors='replace'))}")
