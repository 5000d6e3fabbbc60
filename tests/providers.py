"""A provider that signs tokens, an office in Python that answers over HTTP, and a registrar between them.

Keys and signatures are those of jwcrypto, which the registrar doesn't use.
"""
import base64
import contextlib
import hashlib
import hmac
import http.server
import json
import os
import socketserver
import subprocess
import sys
import threading
import time
import urllib.parse

import requests
from jwcrypto import jwk, jws
from waitress import wasyncore

from asking import department, key_blob, key_line
from plain_office import PlainOffice
from recording import whole_request
from running import PROGRAMS, end, free_port, run, until
from stations import new_station

sys.path[:0] = [str(PROGRAMS / it) for it in ("registrar", "client", "common", "signon")]
from vethlumi_registrar import logins, service  # noqa: E402
from vethlumi_registrar.settings import read_settings  # noqa: E402
CLIENT_ID = "vethlumi"
ALGORITHMS = {"EC": {"P-256": "ES256", "P-384": "ES384", "P-521": "ES512"}, "RSA": "RS256", "OKP": "EdDSA"}


# ---- tokens

def encoded(data):
    """Unpadded base64url of bytes, or of a value's JSON."""
    data = data if isinstance(data, bytes) else json.dumps(data).encode()
    return base64.urlsafe_b64encode(data).decode().rstrip("=")


def nonce_of(line):
    """The nonce for a public key's line: SHA-256 of its blob, unpadded base64url."""
    return encoded(hashlib.sha256(base64.b64decode(line.split()[1])).digest())


def audience_of(line):
    return "vethlumi:" + hashlib.sha256(base64.b64decode(line.split()[1])).hexdigest()


def new_key(kid="k1", kind="EC", **more):
    """A private key for signatures, with an ID."""
    more = {"EC": {"crv": "P-256"}, "RSA": {"size": 2048}, "OKP": {"crv": "Ed25519"}}[kind] | more
    return jwk.JWK.generate(kty=kind, kid=kid, use="sig", **more)


def algorithm_of(key):
    found = ALGORITHMS[key["kty"]]
    return found[key["crv"]] if isinstance(found, dict) else found


def public(key):
    return json.loads(key.export_public())


def signed(claims, key, **head):
    """A token. None as a value leaves a claim, or a field of the header, out."""
    head = {"alg": algorithm_of(key), "kid": key["kid"], "typ": "JWT"} | head
    is_object = isinstance(claims, dict)
    text = json.dumps({k: v for k, v in claims.items() if v is not None}) if is_object else claims
    # Its core signs any header, also one that no JWS may have.
    made = jws.JWSCore(head["alg"], key, json.dumps({k: v for k, v in head.items() if v is not None}), text).sign()
    return f"{made['protected']}.{made['payload'].decode()}.{made['signature']}"


def hashed_by(secret, claims, kid="k1"):
    """A token of HS256, by any secret."""
    text = f"{encoded({'alg': 'HS256', 'kid': kid, 'typ': 'JWT'})}.{encoded(claims)}"
    return f"{text}.{encoded(hmac.digest(secret, text.encode(), 'sha256'))}"


# ---- a provider

class Provider(http.server.ThreadingHTTPServer):
    """Shows who it is, and its keys. `before` runs before each answer with the handler, and may answer itself."""
    daemon_threads = True

    def __init__(self, *keys):
        super().__init__(("127.0.0.1", 0), Pages)
        self.issuer, self.keys, self.asked = f"http://127.0.0.1:{self.server_port}", [*keys], []
        self.before, self.more, self.count = None, {}, 0
        threading.Thread(target=self.serve_forever, daemon=True).start()

    def claims(self, line, name="ana", **more):
        """The claims of a login for this public key."""
        now = int(time.time())
        return {"iss": self.issuer, "sub": f"subject of {name}", "aud": CLIENT_ID, "exp": now + 300, "iat": now,
                "nonce": nonce_of(line), "preferred_username": name, "groups": ["ops", "others"]} | more

    def log_in(self, line, name="ana", **more):
        return signed(self.claims(line, name, **more), self.keys[0])

    def work(self, line, subject="job:site", **more):
        """A workload's token, bound to this public key."""
        self.count += 1
        now = int(time.time())
        return signed({"iss": self.issuer, "sub": subject, "aud": audience_of(line), "exp": now + 300, "iat": now,
                       "nbf": now, "jti": f"token {self.count}"} | more, self.keys[0], typ=None)

    def handle_error(self, request, address):
        """A registrar that has gone away is no fault of the provider."""

    def __enter__(self):
        return self

    def __exit__(self, *_):
        self.shutdown()
        self.server_close()


class Cloud(Provider):
    """The issuer of a cloud's machines, which gives each a token for any audience at /identity, as a metadata server
    does. `given` has these audiences."""
    SUBJECT = "107517467455664443765"

    def __init__(self):
        super().__init__(new_key("c1", "RSA"))
        self.given, self.before = [], self.identity

    def instance(self, audience, **more):
        """The token of a machine for an audience."""
        now = int(time.time())
        return signed({"aud": audience, "azp": self.SUBJECT, "email": "1@developer.gserviceaccount.com",
                       "email_verified": True, "exp": now + 3600, "iat": now, "iss": self.issuer, "sub": self.SUBJECT,
                       "google": {"compute_engine": {"instance_id": "1529", "instance_name": "web"}}} | more,
                      self.keys[0], typ="JWT")

    def identity(self, handler):
        path, _, query = handler.path.partition("?")
        if not path.endswith("/identity"):
            return False
        self.given.append(dict(urllib.parse.parse_qsl(query))["audience"])
        handler.say(self.instance(self.given[-1]).encode())
        return True


class Pages(http.server.BaseHTTPRequestHandler):
    def do_GET(self):
        self.server.asked.append(self.path)
        if self.server.before and self.server.before(self):
            return
        if self.path.endswith("/.well-known/openid-configuration"):
            self.say({"issuer": self.server.issuer, "jwks_uri": f"{self.server.issuer}/keys"} | self.server.more)
        else:
            self.say({"keys": [it if isinstance(it, dict) else public(it) for it in self.server.keys]})

    def say(self, value, status=200, **fields):
        data = value if isinstance(value, bytes) else json.dumps(value).encode()
        self.send_response(status)
        for name, it in {"Content-Type": "application/json", "Content-Length": str(len(data)), **fields}.items():
            self.send_header(name.replace("_", "-"), it)
        self.end_headers()
        self.wfile.write(data)

    def log_message(self, *_):
        pass


# ---- an office

PEOPLE = department("people", admins="registrar", principals="ana,ben,eve,postgres,*@group,*@example.org",
                    extensions=["permit-pty"], maxlife=36060)
OPERATORS = department("operators", admins="registrar", principals="root@operators", maxlife=3660)
JOBS = department("jobs", admins="registrar", principals="*@jobs", maxlife=3660)
CI = department("ci", admins="registrar", principals="*@ci", maxlife=960)


def evidence_name(key_id, line, after):
    """Where the token of a login is left, as docs/FORMATS.md has it."""
    key = hashlib.sha256(base64.b64decode(line.split()[1])).hexdigest()
    return hashlib.sha256(f"keyid {key_id}\nkey {key}\nafter {after}\n".encode()).hexdigest()


def tag(issuer, subject):
    """By coreutils, as docs/FORMATS.md has it."""
    text = f"printf '%s\\n%s' '{issuer}' '{subject}' | sha256sum | cut -c1-20 | xxd -r -p | base32 | tr A-Z a-z"
    return run(["sh", "-c", text], check=True).stdout.decode().strip()


class StandIn(socketserver.ThreadingTCPServer):
    """An office in Python that answers over HTTP, and a station that signs at once with `signs`, or by sign(). `answer`
    takes the place of all its answers."""
    allow_reuse_address = daemon_threads = True
    request_queue_size = 1024

    def __init__(self, *departments, signs=True, ca=key_blob(0x11)):
        self.office, self.lock, self.signs = PlainOffice(ca), threading.Lock(), signs
        self.answer, self.requests = None, []
        for number, text in enumerate(departments):
            self.office.settle("root", f"department-{number}", text.encode(), 0, b"")
        super().__init__(("127.0.0.1", 0), None)
        self.url = f"http://127.0.0.1:{self.server_address[1]}"
        threading.Thread(target=self.serve_forever, daemon=True).start()

    def finish_request(self, peer, address):
        request = whole_request(peer)
        if not request:
            return
        with self.lock:
            self.requests.append(request.decode())
            made = self.answer
            if made is None:
                made = self.office.answer(request, int(time.time()), os.urandom(32))
            if self.signs:
                self.sign()
        peer.sendall(made)

    def sign(self):
        """Signs what is pending. Nobody verifies the signatures."""
        for _, it in self.office.waiting():
            it.signature = self.signature_of(it.body)

    def signature_of(self, _):
        return os.urandom(64)

    def messages(self):
        """The texts of the issues that came, in order, with their request IDs."""
        return [(it.split(" ")[1].rpartition("/")[2], it.partition("\r\n\r\n")[2]) for it in self.requests
                if it.startswith("POST")]

    def handle_error(self, request, address):
        """A registrar that has gone away is no fault of the office."""

    def __enter__(self):
        return self

    def __exit__(self, *_):
        self.shutdown()
        self.server_close()


# ---- a registrar

# Tables of settings, of a registrar or a witness. A witness also needs to know where the keys are.
CORP = """\
[provider.corp]
issuer = "{issuer}"
client_id = "vethlumi"
algorithms = ["ES256"]
name = "preferred_username"
groups = "groups"
"""
OF_PEOPLE = """
[department.people]
provider = "corp"
life = "10h"
principals = ["{{name}}"]
groups = {{ ops = "ops@group", dba = ["dba@group", "postgres"] }}
extensions = ["permit-pty"]
"""


def jobs_of(workloads):
    """The department of jobs, whose tokens come from these workloads."""
    return f"""
[department.jobs]
workloads = "{workloads}"
life = "1h"
principals = ["{{{{name}}}}@jobs"]
"""


def machines_of_cloud(name, life, host="web.example.org"):
    """The department of this name for a machine that brings tokens of a cloud."""
    return f"""
[workloads.cloud]
issuer = "{{issuer}}"
algorithms = ["RS256"]
names = {{{{ "{Cloud.SUBJECT}" = "{host}" }}}}

[department.{name}]
workloads = "cloud"
life = "{life}"
principals = ["{{{{name}}}}"]
"""


LOGINS = CORP + OF_PEOPLE + """
[department.operators]
provider = "corp"
life = "1h"
need = ["ops"]
groups = {{ ops = "root@operators" }}
"""
SETTINGS = """\
office = "{office}"
caller = "registrar"
wait = {wait}
{more}
""" + LOGINS + """
[workloads.cluster]
issuer = "{issuer}"
algorithms = ["ES256"]
names = {{ "job:site" = "site", "job:backup" = "backup" }}
""" + jobs_of("cluster") + """
[workloads.ci]
issuer = "{issuer}"
algorithms = ["ES256"]
unbound = true
audience = "https://office.example.org"
name = "project"

[department.ci]
workloads = "ci"
life = "15m"
principals = ["{{name}}@ci"]
"""


def words(*more):
    return [str(PROGRAMS / "registrar/vethlumi-registrar"), *map(str, more)]


class Registrar:
    """A registrar that runs. It writes its journal into a file."""

    def __init__(self, folder, office, issuer, more="", wait=1, text=SETTINGS, port=0):
        self.settings, self.journal = folder / "registrar.toml", folder / "journal"
        self.settings.write_text(text.format(office=office, issuer=issuer, more=more, wait=wait))
        self.port, self.url, self.trusted = port, "", None
        self.begin()

    def begin(self):
        """Begins it, at the port that it had before, if it ran before."""
        begun = words("serve", "--settings", self.settings, "--port", self.port)
        with open(self.journal, "a") as file:
            self.process = subprocess.Popen(begun, stdout=file, stderr=subprocess.PIPE, start_new_session=True)
        line = self.process.stderr.readline().decode()
        assert line.startswith("listening "), line + self.process.stderr.read().decode()
        self.port = int(line.split()[1])
        self.url = self.url or f"http://127.0.0.1:{self.port}"

    def kill(self):
        self.process.kill()
        self.process.wait()
        self.process.stderr.close()

    def end(self):
        end(self.process)
        self.process.stderr.close()

    def post(self, token, public_key, department="people", **how):
        """The status and the object that come."""
        body = {"department": department, "token": token, "public_key": public_key}
        return self.ask("POST", "/v1/login", json=body, **how)

    def ask(self, method, path, **how):
        with contextlib.closing(requests.Session()) as session:
            session.trust_env, session.verify = False, self.trusted
            asked = session.prepare_request(requests.Request(method, self.url, **how))
            # As it is written: the library would take a path like //v1/login for another.
            asked.url = self.url + path
            found = session.send(asked, timeout=60, verify=self.trusted)
        is_json = found.headers["content-type"] == "application/json" and found.content
        return found.status_code, found.json() if is_json else found.text

    def lines(self, count=0):
        """The lines of the journal, once there are so many."""
        until(lambda: len(self.journal.read_text().splitlines()) >= count)
        return [json.loads(it) for it in self.journal.read_text().splitlines()]


def registrar_behind(front, sshstation, room, issuer, tables, departments, witness=""):
    """A registrar between a front and its office, with these tables of settings, and a station, whose witness has some
    of its own. `post` asks the front, as clients do."""
    if not front.certificate("registrar").exists():
        front.make("caller", "registrar")
    for text in departments:
        assert 200 == front.session("root").post(f"{front.url}/v1/requests/{text.split()[1]}", data=text).status_code
    port, trusted, certificate = free_port(), front.authority / "ca.crt", front.certificate("registrar")
    front.configure(("unix:/run/vethlumi-registrar.sock", f"127.0.0.1:{port}"))
    front.reload()
    head = f'office = "{front.url}"\ncertificate = "{certificate}"\ncacert = "{trusted}"\n\n'
    made = Registrar(room, front.url, issuer, text=head + tables, port=port)
    made.url, made.trusted, made.front = front.url, str(trusted), front
    made.station = new_station(sshstation, front.office, front.url, policy="".join(departments), trusted=trusted,
                               certificate=front.certificate("station"))
    if witness:
        (room / "witness.toml").write_text(witness.format(issuer=issuer))
        made.station.words += ["--witness", "witness.toml"]
    return made


class Inside(Registrar):
    """A registrar in threads of the test, which begins at once."""

    def begin(self):
        self.file = open(self.journal, "a")
        made = logins.Registrar(read_settings(self.settings))
        at = service.listener(0, False)
        self.url = f"http://127.0.0.1:{at.getsockname()[1]}"
        self.port, self.server = at.getsockname()[1], service.server_of(made, at, self.file, 24)
        self.thread = threading.Thread(target=self.server.run, daemon=True)
        self.thread.start()

    def end(self):
        # In the thread that looks after the sockets. If that is awake, it has closed what would have woken it.
        with contextlib.suppress(OSError):
            self.server.trigger.pull_trigger(lambda: wasyncore.close_all(self.server._map))
        self.thread.join(60)
        self.server.task_dispatcher.shutdown(timeout=10)
        self.file.close()


def new_line():
    """The public line of a new key. Nobody needs its private half."""
    return key_line(os.urandom(32))
