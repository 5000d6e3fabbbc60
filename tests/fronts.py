"""An office behind nginx with programs/front."""
import contextlib
import functools
import os
import pathlib
import pwd
import re
import shutil
import signal
import socket
import ssl

import requests

from running import PROGRAMS, end, free_port, is_listening, rest, run, until

# The clients of whom `front` has a certificate.
CLIENTS = (("caller", "ana"), ("root",), ("station",), ("reader", "watch"))
# The bytes of memory that a connection may take.
MOST_OF_A_CONNECTION = 115_000
# How many processes of nginx serve.
WORKERS = int(re.search(r"^worker_processes (\d+);$", (PROGRAMS / "front/nginx.conf").read_text(), re.M)[1])


def new_authority(folder):
    """Makes the authority of a front, and a certificate for each of the clients."""
    authority = PROGRAMS / "front/authority"
    run([authority, "new", folder, "localhost", "127.0.0.1"], check=True)
    for job, *name in CLIENTS:
        run([authority, job, folder, *name], check=True)
    return folder


def has_ipv6():
    """Whether a program of this machine may listen on IPv6's loopback address."""
    with contextlib.suppress(OSError), socket.create_server(("::1", 0), family=socket.AF_INET6):
        return True
    return False


class Front:
    """nginx before an office, as programs/front sets it up.

    `authority` is the folder of its certificates, `conf` the folder of its configuration, and `state` where nginx
    writes. `edits` are texts of nginx.conf, each with what takes its place. A front `beside` another has its port
    and another address."""

    def __init__(self, programs, folder, authority, office_port, *, edits=(), address="127.0.0.1", beside=None):
        self.port, self.office_port, self.programs = beside.port if beside else free_port(), office_port, programs
        self.address = address
        self.url = f"https://localhost:{self.port}"
        folder = pathlib.Path(folder).absolute()
        self.authority, self.conf, self.state = (folder / it for it in ("authority", "conf", "state"))
        shutil.copytree(authority, self.authority)
        self.conf.mkdir()
        self.state.mkdir()
        for name in ("server.crt", "server.key", "ca.crt", "crl.pem"):
            shutil.copy(self.authority / name, self.conf)
        by_ipv6 = f"listen [::1]:{self.port}" if has_ipv6() and not beside else "# listen"
        self.configure(("server 127.0.0.1:8022;", f"server 127.0.0.1:{office_port};"),
                       ("server 127.0.0.1:8022 max_conns", f"server 127.0.0.1:{office_port} max_conns"),
                       ("listen 8443", f"listen {address}:{self.port}"), ("listen [::]:8443", by_ipv6),
                       ("/etc/vethlumi/front;", f"{self.conf};"),
                       ("/usr/local/share/office/page", str(PROGRAMS / "front/page")),
                       ("/usr/local/share/office/trail.js", str(PROGRAMS / "front/trail.js")), *edits)
        self.begin()

    def configure(self, *edits):
        """Writes nginx.conf anew, with a text in the place of another, which has to stand there once."""
        file = self.conf / "nginx.conf"
        text = (file if file.exists() else PROGRAMS / "front/nginx.conf").read_text()
        for old, new in edits:
            assert text.count(old) == 1, f"{old} stands {text.count(old)} times in nginx.conf"
            text = text.replace(old, new)
        file.write_text(text)

    def __getstate__(self):
        """What another process needs to ask the front."""
        return {name: getattr(self, name) for name in ("address", "port", "url", "authority", "conf", "state")}

    def begin(self):
        """Starts nginx, and waits until it listens and has begun all of its processes: those of its settings, and one
        that looks after the pages that are kept. Before, a signal to read its files again would end it, or reach some
        of them alone."""
        user = pwd.getpwuid(os.getuid()).pw_name
        words = ["nginx", "-p", self.state, "-c", self.conf / "nginx.conf", "-g", f"user {user}; daemon off;"]
        with open(self.state / "nginx.faults", "ab") as faults:
            self.process = self.programs.begin(words, stderr=faults)
        until(functools.partial(is_listening, self.port, self.address))
        until(lambda: len(self.workers()) > WORKERS)

    def end(self):
        end(self.process)

    def workers(self):
        """The processes that nginx's first process has begun."""
        children = pathlib.Path(f"/proc/{self.process.pid}/task/{self.process.pid}/children")
        return [int(it) for it in children.read_text().split()]

    def reload(self):
        """Has nginx read its files again, and waits until the processes of before are gone."""
        old = self.workers()
        self.process.send_signal(signal.SIGHUP)
        until(lambda: not set(old) & set(self.workers()))

    def certificate(self, name):
        """The file with a client's key and certificate."""
        return self.authority / f"{name}.pem"

    def make(self, job, *name):
        """Has the authority make a certificate, such as `make("caller", "bob")`, or take one back."""
        return run([PROGRAMS / "front/authority", job, self.authority, *name], check=True).stdout.decode().strip()

    def session(self, name=None):
        """A session of the client of this name, or of one without a certificate."""
        made = requests.Session()
        made.verify = str(self.authority / "ca.crt")
        made.cert = str(self.certificate(name)) if name else None
        made.trust_env = False
        return made

    def connect_plainly(self, address="127.0.0.1"):
        """A connection before TLS."""
        plain = socket.create_connection((self.address, self.port), timeout=60, source_address=(address, 0))
        plain.setsockopt(socket.IPPROTO_TCP, socket.TCP_NODELAY, 1)
        return plain

    def connect(self, name=None, address="127.0.0.1"):
        """A connection of the client of this name, by which bytes go as they are."""
        of = ssl.create_default_context(cafile=self.authority / "ca.crt")
        if name:
            of.load_cert_chain(self.certificate(name))
        return of.wrap_socket(self.connect_plainly(address), server_hostname="localhost")

    def ask(self, request, name=None):
        """All that comes back for these bytes, until the connection ends."""
        with self.connect(name) as peer:
            # The front may have answered, and closed, before it was sent all.
            with contextlib.suppress(OSError):
                peer.sendall(request)
            return rest(peer)
