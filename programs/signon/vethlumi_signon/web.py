"""One request over HTTP: to nobody but whom it names, at most so long an answer, and whole within a time.

Whoever answers may be slow in any way: silent, or with one byte after the other. So a clock of our own closes the
connection. Redirects, proxies of the environment, cookies and compression are not followed, used, kept or taken.
"""
import contextlib
import io
import socket
import threading
from typing import NamedTuple

import urllib3
from requests.adapters import HTTPAdapter

from vethlumi_common import web

# Seconds until a connection is made, and until the next bytes of an answer come.
PATIENCE = 5, 10


class NoAnswer(Exception):
    """No whole answer came. Its text says why, for the journal."""


class Answer(NamedTuple):
    """The status, the header fields, and the body."""
    status: int
    fields: dict
    body: bytes


class Deadline:
    """Closes what was opened when a time is over."""

    def __init__(self, seconds):
        self.is_over, self.opened = False, []
        self.timer = threading.Timer(seconds, self.end)
        self.timer.daemon = True

    def __enter__(self):
        self.timer.start()
        return self

    def __exit__(self, *_):
        self.timer.cancel()
        for it in self.opened:
            it.close()

    def end(self):
        self.is_over = True
        for it in [*self.opened]:
            with contextlib.suppress(OSError):
                it.shutdown(socket.SHUT_RDWR)

    def watch(self, opened):
        self.opened.append(opened)
        if self.is_over:
            self.end()


class Watched(HTTPAdapter):
    """Tells a deadline of each connection that it makes."""

    def __init__(self, deadline):
        self.deadline = deadline
        super().__init__()

    def init_poolmanager(self, *words, **more):
        super().init_poolmanager(*words, **more)
        self.watch(self.poolmanager)

    def proxy_manager_for(self, *words, **more):
        return self.watch(super().proxy_manager_for(*words, **more))

    def watch(self, manager):
        manager.pool_classes_by_scheme = {
            "http": self.watching(urllib3.HTTPConnectionPool), "https": self.watching(urllib3.HTTPSConnectionPool)}
        return manager

    def watching(self, pool):
        deadline = self.deadline

        class Connection(pool.ConnectionCls):
            def _new_conn(self):
                # Before TLS, which may be slow as well. What it is wrapped in has another object for the socket.
                made = super()._new_conn()
                deadline.watch(made.dup())
                return made

        return type("Pool", (pool,), {"ConnectionCls": Connection})


def session_of(deadline, certificate, trusted, proxy):
    made = web.session_of("vethlumi-registrar", certificate, trusted)
    made.headers["Connection"] = "close"
    made.proxies = {"http": proxy, "https": proxy} if proxy else {}
    for scheme in ("https://", "http://"):
        made.mount(scheme, Watched(deadline))
    return made


def fetch(method, url, data=None, certificate=None, trusted=None, seconds=10, longest=1 << 16, proxy=None):
    """What is answered, whole. `certificate` is a file with a key, `trusted` one with authorities, and `proxy` the URL
    of the only proxy that is asked."""
    with Deadline(seconds) as deadline:
        try:
            with session_of(deadline, certificate, trusted, proxy) as session:
                return answered(session, method, url, data, longest)
        except NoAnswer:
            raise
        except Exception as fault:
            # Whatever the library makes of an answer is a fault of that answer.
            why = f"no whole answer within {seconds} s" if deadline.is_over else type(fault).__name__
            raise NoAnswer(f"{url}: {why}") from None


def answered(session, method, url, data, longest):
    with session.request(method, url, data=data, timeout=PATIENCE, stream=True, allow_redirects=False) as answer:
        if answer.headers.get("content-encoding", "identity").lower() != "identity":
            raise NoAnswer(f"{url}: the answer is compressed, which wasn't requested")
        body = io.BytesIO()
        while body.tell() <= longest and (piece := answer.raw.read(longest + 1 - body.tell(), decode_content=False)):
            body.write(piece)
        if body.tell() > longest:
            raise NoAnswer(f"{url}: the answer is longer than {longest} bytes")
        if answer.headers.get("content-length", str(body.tell())) != str(body.tell()):
            raise NoAnswer(f"{url}: the answer was cut off")
        return Answer(answer.status_code, answer.headers, body.getvalue())
