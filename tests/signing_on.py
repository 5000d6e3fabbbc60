"""What a test of sign-on needs: a provider and a registrar that answer as they should, or as a test likes; somebody's
browser; and an ssh-agent. Tokens are of RS256 by `cryptography`, and certificates are made by `ssh-keygen`."""
import base64
import contextlib
import hashlib
import json
import os
import pathlib
import re
import secrets
import subprocess
import tempfile
import time
import urllib.parse

from cryptography.hazmat.primitives import hashes
from cryptography.hazmat.primitives.asymmetric import padding, rsa

from fetching import response
from recording import Recorder, whole_request
from running import CLIENT, new_key, run

# A key of RSA takes long to make, and no test needs a second one.
KEY = rsa.generate_private_key(65537, 2048)


def url64(data):
    return base64.urlsafe_b64encode(data).rstrip(b"=").decode()


def unpacked(text):
    return base64.urlsafe_b64decode(text + "=" * (-len(text) % 4))


def as_json(value, status="200 OK"):
    return response(json.dumps(value).encode(), status)


def redirect(where):
    return f"HTTP/1.1 302 Found\r\nlocation: {where}\r\ncontent-length: 0\r\nconnection: close\r\n\r\n".encode()


class Answering(Recorder):
    """A server whose routes are methods: what they return is sent. `instead` has other answers, by path: bytes, or a
    function that gets the connection. The requests are kept by path."""

    def __init__(self):
        self.instead, self.asked = {}, []
        super().__init__()
        self.url = f"http://127.0.0.1:{self.port}"

    def finish_request(self, peer, address):
        request = whole_request(peer)
        head, _, body = request.partition(b"\r\n\r\n")
        if not head:
            return
        method, target, _ = head.split(b"\r\n")[0].decode().split(" ")
        path, _, query = target.partition("?")
        self.asked.append((method, path, head.decode("latin-1")))
        peer.settimeout(60)
        other = self.instead.get(path)
        if isinstance(other, list):
            other = other.pop(0) if other else None
        # A client that has gone is what some tests want.
        with contextlib.suppress(OSError):
            if callable(other):
                other(peer)
            else:
                peer.sendall(self.answer_to(method, path, dict(urllib.parse.parse_qsl(query)), body)
                             if other is None else other)

    def times(self, path):
        return sum(it[1] == path for it in self.asked)


class Provider(Answering):
    """Logs everybody in as `who`, and gives a code for PKCE, and a token for that code, once."""

    def __init__(self):
        super().__init__()
        self.issuer, self.who, self.codes, self.tokens, self.refuses = f"{self.url}/realm", "ana", {}, [], ""
        self.returns = {}

    def answer_to(self, method, path, query, body):
        if path == "/realm/.well-known/openid-configuration":
            return as_json({"issuer": self.issuer, "authorization_endpoint": f"{self.url}/authorize",
                            "token_endpoint": f"{self.url}/token", "jwks_uri": f"{self.url}/keys"})
        if path == "/keys":
            public = KEY.public_key().public_numbers()
            numbers = {name: url64(it.to_bytes((it.bit_length() + 7) // 8, "big"))
                       for name, it in (("n", public.n), ("e", public.e))}
            return as_json({"keys": [{"kty": "RSA", "kid": "first", "use": "sig", "alg": "RS256"} | numbers]})
        if path == "/authorize":
            return redirect(self.back(query))
        if path == "/token" and method == "POST":
            return self.token(dict(urllib.parse.parse_qsl(body.decode())))
        return response(b"no\n", "404 Not Found")

    def back(self, query):
        """Where the browser is sent back to."""
        assert ("code", "vethlumi", "S256") == tuple(
            query[it] for it in ("response_type", "client_id", "code_challenge_method"))
        assert "openid" in query["scope"].split()
        code = secrets.token_urlsafe(16)
        self.codes[code] = query
        said = {"error": self.refuses} if self.refuses else {"code": code, "iss": self.issuer}
        return f"{query['redirect_uri']}?{urllib.parse.urlencode(said | {'state': query['state']} | self.returns)}"

    def token(self, asked):
        query = self.codes.pop(asked.get("code"), None)
        if not query or asked["redirect_uri"] != query["redirect_uri"] or asked["client_id"] != query["client_id"] \
                or url64(hashlib.sha256(asked["code_verifier"].encode()).digest()) != query["code_challenge"]:
            return as_json({"error": "invalid_grant"}, "400 Bad Request")
        now = int(time.time())
        claims = {"iss": self.issuer, "aud": "vethlumi", "sub": f"sub-{self.who}", "exp": now + 300, "iat": now,
                  "nonce": query["nonce"], "preferred_username": self.who}
        head = url64(json.dumps({"alg": "RS256", "kid": "first"}).encode())
        signed = f"{head}.{url64(json.dumps(claims).encode())}"
        self.tokens.append(f"{signed}.{url64(KEY.sign(signed.encode(), padding.PKCS1v15(), hashes.SHA256()))}")
        return as_json({"access_token": "secret", "token_type": "Bearer", "id_token": self.tokens[-1]})


class Registrar(Answering):
    """Verifies tokens, and has ssh-keygen sign. `looks` is how often a certificate is looked for before it is there,
    and `words` are further words of ssh-keygen."""

    def __init__(self, folder, ca="ca"):
        super().__init__()
        self.folder, self.ca, self.looks, self.lines = pathlib.Path(folder), ca, 0, {}
        self.kind, self.validity, self.key_id, self.first = "user", "-1m:+10h", "{}/{}/aaaabbbbccccdddd", 1
        self.changes = lambda answer: answer

    def answer_to(self, method, path, query, body):
        if (method, path) == ("POST", "/v1/login"):
            return self.login(json.loads(body))
        serial = re.fullmatch(r"/v1/certificates/(\d+)", path)
        if serial and int(serial[1]) in self.lines:
            self.looks -= 1
            if self.looks < 0:
                return response(self.lines[int(serial[1])].encode())
        return as_json({"error": "not_found", "detail": "no such certificate"}, "404 Not Found")

    def login(self, asked):
        assert {"department", "token", "public_key"} == {*asked}
        signed, _, signature = asked["token"].rpartition(".")
        KEY.public_key().verify(unpacked(signature), signed.encode(), padding.PKCS1v15(), hashes.SHA256())
        claims = json.loads(unpacked(signed.partition(".")[2]))
        kind, blob = asked["public_key"].split()
        if kind != "ssh-ed25519" or claims["nonce"] != url64(hashlib.sha256(base64.b64decode(blob)).digest()):
            return as_json({"error": "token_refused", "detail": "the token isn't for this key"}, "401 Unauthorized")
        serial = self.first + len(self.lines)
        self.lines[serial] = self.certificate(asked, claims["preferred_username"], serial)
        return as_json(self.changes({"serial": serial, "certificate": None if self.looks else self.lines[serial]}))

    def certificate(self, asked, name, serial):
        with tempfile.TemporaryDirectory(dir=self.folder) as folder:
            file = pathlib.Path(folder) / "key"
            file.with_suffix(".pub").write_text(f"{asked['public_key']}\n")
            key_id = self.key_id.format(asked["department"], name)
            run(["ssh-keygen", "-q", "-s", self.folder / self.ca, "-I", key_id, "-n", name, "-z", serial, "-V",
                 self.validity, *["-h"] * (self.kind == "host"), file.with_suffix(".pub")], check=True)
            kind, blob, *_ = pathlib.Path(f"{file}-cert.pub").read_text().split()
        return f"{kind} {blob} {key_id}\n"


class Agent:
    """An ssh-agent of its own, in a folder of its own."""

    def __init__(self, folder):
        self.socket = pathlib.Path(folder) / "agent"
        self.process = subprocess.Popen(["ssh-agent", "-D", "-a", self.socket], stdin=subprocess.DEVNULL,
                                        stdout=subprocess.DEVNULL, stderr=subprocess.DEVNULL)
        while not self.socket.exists():
            time.sleep(0.01)

    def add(self, *words):
        return run(["ssh-add", *words], env=os.environ | {"SSH_AUTH_SOCK": str(self.socket)})

    def keys(self):
        """The lines that ssh-add prints of what the agent has."""
        return [it for it in self.add("-L").stdout.decode().splitlines() if it.startswith("ssh-")]

    def end(self):
        self.process.kill()
        self.process.wait()


class Person:
    """Somebody with a home, a session, an agent and a browser, and with settings for sign-on."""

    def __init__(self, folder, provider, registrar, **settings):
        self.home, self.provider, self.registrar = pathlib.Path(folder), provider, registrar
        self.runtime = self.home / "runtime"
        for it in (self.home, self.home / ".config", self.runtime):
            it.mkdir(mode=0o700)
        self.agent = Agent(self.runtime)
        self.settings = {"provider": provider.issuer, "client_id": "vethlumi", "registrar": registrar.url,
                         "department": "people", "ports": "0", "cas": str(registrar.folder / "ca.pub")} | settings
        self.write_settings()
        # It opens what it is told to, as a browser follows redirects, and keeps the page at which that ends.
        self.browser = self.home / "browser"
        self.opened, self.page = self.home / "opened", self.home / "page"
        self.browser.write_text(f'#!/bin/sh\necho "$1" >>{self.opened}\nexec curl -sL --max-time 30 -o {self.page} '
                                '"$1"\n')
        self.browser.chmod(0o700)

    def write_settings(self, **more):
        self.settings |= more
        (self.home / ".config/vethlumi.toml").write_text(
            "".join(f"{name} = {json.dumps(value)}\n" for name, value in self.settings.items()))

    def environment(self, **more):
        kept = {name: value for name, value in os.environ.items()
                if not name.startswith(("VETHLUMI", "XDG", "SSH_", "DISPLAY", "WAYLAND"))}
        return kept | {"HOME": str(self.home), "PYTHONPATH": CLIENT, "COLUMNS": "100", "BROWSER":
                       f"{self.browser} %s", "SSH_AUTH_SOCK": str(self.agent.socket),
                       "XDG_RUNTIME_DIR": str(self.runtime)} | more

    def words(self, *words):
        return ["/usr/bin/python3", "-B", "-m", "vethlumi", *map(str, words)]

    def __call__(self, *words, given=b"", **environment):
        """The status, the output and what was told."""
        done = run(self.words(*words), env=self.environment(**environment), stdin=None, input=given)
        return done.returncode, done.stdout.decode(), done.stderr.decode()

    def begin(self, *words, **environment):
        return subprocess.Popen(self.words(*words), env=self.environment(**environment), stdin=subprocess.DEVNULL,
                                stdout=subprocess.PIPE, stderr=subprocess.PIPE, text=True)

    def windows(self):
        """The addresses that the browser was opened with."""
        return self.opened.read_text().splitlines() if self.opened.exists() else []

    def end(self):
        self.agent.end()


def make_cas(folder):
    for name in ("ca", "other"):
        new_key(pathlib.Path(folder) / name)
