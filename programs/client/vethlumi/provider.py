"""The identity provider: a login by OpenID Connect's code flow, with PKCE (RFC 7636) and a loopback address (RFC 8252).

What the provider answers, and what comes to the loopback address, may be from anybody. The ID token isn't verified
here: it comes from the provider itself, by TLS (OpenID Connect Core, 3.1.3.7), and the registrar judges it.
"""
import contextlib
import hashlib
import hmac
import http.server
import queue
import re
import secrets
import subprocess
import sys
import threading
import time
import urllib.parse

from vethlumi.cli import waiting
from vethlumi.office import NoAnswer, Server, at_most, trying
from vethlumi.printing import say
from vethlumi.refusals import Refused
from vethlumi.services import ask_json, complaint
from vethlumi.settings import BadSettings, is_secure
from vethlumi_common.signon import nonce_of, url64

# Where browsers are sent back to; and the port that is named if any will do, and nobody listens.
CALLBACK, ANY_PORT = "/callback", 8400
# Seconds for somebody to log in, and for the provider to say where that is, or to give the token: whoever types ssh
# without a network isn't to wait for long, and a code counts once, and for a minute or less.
PATIENCE, LONGEST_ANSWERS = 300, 30
# The most bytes of an address that is pasted, of an ID token, and the most fields of an address.
LONGEST_ADDRESS, LONGEST_TOKEN, MOST_FIELDS = 1 << 14, 1 << 14, 20
TOKEN = re.compile(r"[A-Za-z0-9_-]+\.[A-Za-z0-9_-]+\.[A-Za-z0-9_-]+", re.ASCII)
# What the provider tells a browser that it sends back, beside the state; and what it says of a failure.
ANSWERS = ("code", "error", "error_description", "iss")
COMPLAINT = ("error", "error_description")
# How many browsers the listener serves at once, and for how many seconds one that says nothing.
MOST_PEERS, SILENCE = 32, 5
PAGE = """<!DOCTYPE html>
<html lang="en"><meta charset="utf-8"><title>vethlumi</title>
<p>{}. You may close this window, and go on in the terminal.</p></html>
"""


# ---- the browser and the loopback address

class Listener(http.server.ThreadingHTTPServer):
    """Takes one answer of the provider, by a browser of this machine, and nothing else. Each connection has a thread,
    since browsers open some that stay silent."""
    daemon_threads, block_on_close, request_queue_size = True, False, 16
    # Two can't listen at one port by this, but without it the port is unusable for a minute after a login.
    allow_reuse_address = True

    def __init__(self, port, state):
        super().__init__(("127.0.0.1", port), Handler)
        self.state, self.found, self.places = state, queue.SimpleQueue(), threading.Semaphore(MOST_PEERS)
        self.is_open = threading.Semaphore(1)

    def process_request(self, request, client_address):
        if self.places.acquire(blocking=False):
            super().process_request(request, client_address)
        else:
            self.shutdown_request(request)

    def process_request_thread(self, request, client_address):
        try:
            super().process_request_thread(request, client_address)
        finally:
            self.places.release()

    def handle_error(self, request, client_address):
        """Whoever goes away tells nobody."""

    def taken(self, address):
        """What the provider's answer in an address says, if it is the first one of this login, and else None."""
        found = answer_in(address, self.state)
        return found if found and self.is_open.acquire(blocking=False) else None


class Handler(http.server.BaseHTTPRequestHandler):
    timeout, server_version, sys_version = SILENCE, "vethlumi", ""

    def do_GET(self):
        is_asked = self.headers.get("host") == f"127.0.0.1:{self.server.server_port}"
        found = self.server.taken(self.path) if is_asked and self.path.startswith(f"{CALLBACK}?") else None
        try:
            self.answer(found)
        finally:
            # Only now: the program may end at once.
            if found:
                self.server.found.put(found)

    def answer(self, found):
        text = "Not found" if not found else "The login was refused" if "code" not in found else "You are logged in"
        data = PAGE.format(text).encode()
        self.send_response(200 if found else 404)
        for name, value in {"content-type": "text/html; charset=utf-8", "content-length": len(data),
                            "cache-control": "no-store", "referrer-policy": "no-referrer", "connection": "close",
                            "content-security-policy": "default-src 'none'"}.items():
            self.send_header(name, str(value))
        self.end_headers()
        self.wfile.write(data)

    def log_message(self, *_):
        pass


def answer_in(address, state):
    """What the provider says in the address to which it sends a browser, or None if that is of no login, or of another
    one."""
    try:
        pairs = urllib.parse.parse_qsl(urllib.parse.urlsplit(address).query, max_num_fields=MOST_FIELDS)
    except ValueError:
        return None
    names = [name for name, _ in pairs]
    found = dict(pairs)
    if len(names) != len({*names}) or not hmac.compare_digest(found.get("state", "").encode("utf-8", "replace"),
                                                              state.encode()):
        return None
    return {name: found[name] for name in ANSWERS if name in found} if {"code", "error"} & {*found} else None


def listening(ports, state):
    """A listener at the first of these ports that is free."""
    for port in ports:
        with contextlib.suppress(OSError):
            return Listener(port, state)
    raise BadSettings(f"each port of `ports` in the settings is in use: {', '.join(map(str, ports))}")


def redirect_to(port):
    """The address to which the provider sends a browser back."""
    return f"http://127.0.0.1:{port or ANY_PORT}{CALLBACK}"


def open_browser(url):
    """Opens a URL in the user's browser, which neither writes to this terminal nor is waited for."""
    subprocess.Popen([sys.executable, "-I", "-m", "webbrowser", url], stdin=subprocess.DEVNULL,
                     stdout=subprocess.DEVNULL, stderr=subprocess.DEVNULL, start_new_session=True)


def by_browser(listener, url, ends):
    """What the provider says by the browser that it sends back to this machine."""
    threading.Thread(target=listener.serve_forever, args=(0.05,), daemon=True).start()
    try:
        say(f"if no browser opens, log in at\n  {url}")
        open_browser(url)
        seconds = max(min(PATIENCE, ends - time.monotonic()), 1)
        with waiting("waiting for the login in the browser") as tell:
            tell(f"for {round(seconds)} s at most")
            return listener.found.get(timeout=seconds)
    except queue.Empty:
        raise NoAnswer("nobody has logged in") from None
    finally:
        listener.shutdown()


def by_paste(state, url, ends):
    """What the provider says in an address that is typed in."""
    say(f"log in by any browser at the address below. It ends at a page that can't be reached: paste the address of "
        f"that page here\n  {url}")
    try:
        address = at_most(max(ends - time.monotonic(), 1), lambda: sys.stdin.readline(LONGEST_ADDRESS)).strip()
    except NoAnswer:
        address = ""
    if not address:
        raise NoAnswer("no address was pasted")
    found = answer_in(address, state)
    if not found:
        raise Refused(0, "", "this address belongs to a different login", "")
    return found


# ---- the login

class Provider:
    """The provider of the settings."""

    def __init__(self, settings, ends):
        self.issuer, self.client_id = settings.secure_url("provider"), settings.needed("client_id")
        self.ports, self.scope = settings.redirect_ports(), settings.scope
        self.cacert, self.ends = settings.file("provider_cacert"), ends
        if "openid" not in self.scope.split():
            raise BadSettings(f"scope: {self.scope!r} has no word openid")

    def ask(self, url, *request):
        return ask_json(Server(url, self.ends, cacert=self.cacert), "the provider", COMPLAINT, *request)

    def tried(self, what, read):
        with waiting(what) as tell:
            return trying(read, min(self.ends, time.monotonic() + LONGEST_ANSWERS), tell)

    def endpoints(self):
        """Where people log in, and where a code is exchanged for a token (OpenID Connect Discovery)."""
        def read():
            found = self.ask(self.issuer.rstrip("/"), "GET", "/.well-known/openid-configuration")
            if found.get("issuer") != self.issuer:
                raise NoAnswer("the provider's issuer differs from `provider` in the settings", None)
            urls, scheme = [found.get(it) for it in ("authorization_endpoint", "token_endpoint")], self.issuer[:5]
            if not all(is_secure(it) and it.startswith(scheme) for it in urls):
                raise NoAnswer("the provider names no https:// URLs for logins", None)
            return urls
        return self.tried("waiting for the provider", read)

    def url_of_login(self, endpoint, redirect, state, nonce, verifier):
        """Where people log in."""
        asked = {"response_type": "code", "client_id": self.client_id, "redirect_uri": redirect, "scope": self.scope,
                 "state": state, "nonce": nonce, "code_challenge_method": "S256",
                 "code_challenge": url64(hashlib.sha256(verifier.encode()).digest())}
        return f"{endpoint}{'&' if '?' in endpoint else '?'}{urllib.parse.urlencode(asked)}"

    def token(self, blob, is_pasted):
        """An ID token for a public key, by a person who logs in."""
        login, exchange = self.endpoints()
        state, verifier, nonce = secrets.token_urlsafe(24), secrets.token_urlsafe(48), nonce_of(blob)
        if is_pasted:
            redirect = redirect_to(self.ports[0])
            found = by_paste(state, self.url_of_login(login, redirect, state, nonce, verifier), self.ends)
        else:
            with listening(self.ports, state) as listener:
                redirect = redirect_to(listener.server_port)
                found = by_browser(listener, self.url_of_login(login, redirect, state, nonce, verifier), self.ends)
        # RFC 9207: whose answer it is.
        if found.get("iss", self.issuer) != self.issuer:
            raise Refused(0, "", "the answer to the login came from a different provider", "")
        if "code" not in found:
            raise Refused(0, "", f"the provider: {complaint(found, COMPLAINT)}", "")
        return self.exchanged(exchange, found["code"], redirect, verifier)

    def exchanged(self, endpoint, code, redirect, verifier):
        """The ID token for a code. A code counts once, so if the answer is lost, the login was for nothing."""
        def read():
            found = self.ask(endpoint, "POST", "", {
                "grant_type": "authorization_code", "code": code, "redirect_uri": redirect,
                "client_id": self.client_id, "code_verifier": verifier})
            token = found.get("id_token")
            if not isinstance(token, str) or len(token) > LONGEST_TOKEN or not TOKEN.fullmatch(token):
                raise NoAnswer("the provider gives no ID token", None)
            return token
        return self.tried("waiting for the provider's token", read)
