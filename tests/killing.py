"""A station and its guard that are killed at random while callers ask an office for certificates, and what came of
it."""
import collections
import contextlib
import os
import re
import signal
import socketserver
import threading
import time
from dataclasses import dataclass

from cryptography.exceptions import InvalidSignature
from cryptography.hazmat.primitives.asymmetric.ed25519 import Ed25519PublicKey

from asking import blob_of, department, digest_of, issue, lasting
from running import new_key, until
from stations import children, new_station

CALLERS = 64
# What is killed.
KINDS = ("station", "guard", "both")
# The line of a delivery: the serial, the digest and the signature.
DELIVERY = re.compile(rb"\r\n\r\ndeliver (\d+)\ndigest ([0-9a-f]{64})\nsignature (\S+)\n\Z")


def department_of(caller):
    """A department has at most 16 administrators."""
    return f"d{caller // 16}"


class Way(socketserver.ThreadingTCPServer):
    """Is between station and office, and notes each signature before the office has it."""
    allow_reuse_address = daemon_threads = True
    request_queue_size = 1024

    def __init__(self, served):
        self.served, self.delivered = served, []
        super().__init__(("127.0.0.1", 0), None)
        self.url = f"http://127.0.0.1:{self.server_address[1]}"
        threading.Thread(target=self.serve_forever, daemon=True).start()

    def finish_request(self, peer, address):
        came = b""
        with contextlib.suppress(OSError):
            while not (head := came.partition(b"\r\n\r\n"))[1] or len(head[2]) < length_in(head[0]):
                if not (piece := peer.recv(65536)):
                    return
                came += piece
            if found := DELIVERY.search(came):
                self.delivered.append((int(found[1]), found[2].decode(), found[3]))
            peer.sendall(self.served.ask(came).bytes)


def length_in(head):
    found = re.search(rb"\r\ncontent-length: *(\d+)", head, re.IGNORECASE)
    return int(found[1]) if found else 0


class Callers:
    """Each asks for one certificate after the other, and waits until it has it. `have` has the line of each by its
    serial."""

    def __init__(self, served, key):
        self.served, self.key, self.have, self.faults, self.is_over = served, key, {}, [], threading.Event()
        self.end_of_patience = float("inf")
        self.threads = [threading.Thread(target=self.ask, args=(it,), daemon=True) for it in range(CALLERS)]
        for it in self.threads:
            it.start()

    def ask(self, caller):
        try:
            for number in range(1 << 30):
                if self.is_over.is_set():
                    return
                self.ask_for_one(caller, number)
        except Exception as fault:
            self.faults.append(repr(fault))

    def ask_for_one(self, caller, number):
        of = department_of(caller)
        message = issue(f"{of}/c{caller}-{number}", department=of, key=self.key, **lasting(3600))
        answer = self.served.post(f"c{caller}", f"r{number}", message)
        assert 200 == answer.status, answer.text
        serial, pause = int(answer.text.split()[1]), 0.03
        # Where stations are killed faster than they sign, it may have to wait for many of them.
        while (found := self.served.get(f"/v1/certs/{serial}")).status != 200:
            assert found.status == 409 and time.monotonic() < self.end_of_patience, f"serial {serial}: {found.text}"
            time.sleep(pause)
            pause = min(1, 1.3 * pause)
        assert serial not in self.have
        self.have[serial] = found.text

    def end(self):
        """Each gets the certificate for which it waits, within four minutes."""
        self.is_over.set()
        self.end_of_patience = time.monotonic() + 240
        for it in self.threads:
            it.join()


def is_gone(pid):
    """Whether a process has ended, or nobody has waited for it yet."""
    try:
        return open(f"/proc/{pid}/stat").read().rpartition(")")[2].split()[0] == "Z"
    except OSError:
        return True


def guards_of(process):
    """The guard that a station has begun, if it hasn't ended."""
    with contextlib.suppress(OSError):
        return children(process.pid)
    return []


def kill(process, kind):
    """Kills a station, its guard, or both. What is left of them ends by itself."""
    guards = guards_of(process)
    with contextlib.suppress(ProcessLookupError):
        if kind == "both":
            os.killpg(process.pid, signal.SIGKILL)
        for it in guards if kind == "guard" else [process.pid] if kind == "station" else []:
            os.kill(it, signal.SIGKILL)
    if kind == "guard" and not guards:
        process.kill()
    process.wait(120)
    until(lambda: all(map(is_gone, guards)))


@dataclass
class Outcome:
    """What came of the kills. `lost` are serials that were issued, and whose callers have no certificate of the body,
    `twice` those with two signatures, `unkept` those of which a signature was on its way before the guard's file had
    the body, and `false` those whose signature isn't the CA's."""
    kills: collections.Counter
    certificates: int
    signatures: int
    lost: list
    twice: list
    unkept: list
    false: list
    faults: list


class Killing:
    """An office that 64 callers ask, and its station, whose guard has their departments. `chance` is where its choices
    come from, and `said` the file of what stations say."""

    def __init__(self, served, sshstation, programs, chance, said):
        self.served, self.programs, self.chance, self.said = served, programs, chance, said
        self.kinds, self.unkept, self.seen = collections.Counter(), set(), 0
        policy = ""
        for it in range(CALLERS // 16):
            policy += (of := department(f"d{it}", admins=[f"c{it * 16 + place}" for place in range(16)]))
            assert 200 == served.post("root", f"put-d{it}", of).status
        self.way = Way(served)
        self.station = new_station(sshstation, served.office, self.way.url, policy=policy)
        self.callers = Callers(served, new_key("user"))

    def begin(self):
        with open(self.said, "ab") as said:
            return self.station.begin(self.programs, stdout=said, stderr=said)

    def once(self):
        """Begins a station and kills something of it: every other time among signatures, and not only as it begins.
        Then the guard's file has to have every body of which a signature was on its way."""
        process, before = self.begin(), len(self.way.delivered)
        until(lambda: guards_of(process) or process.poll() is not None)
        if sum(self.kinds.values()) % 2:
            until(lambda: len(self.way.delivered) > before or process.poll() is not None)
        time.sleep(self.chance.uniform(0, 0.3))
        kind = self.chance.choice(KINDS)
        kill(process, kind)
        self.kinds[kind] += 1
        delivered = self.way.delivered[:]
        kept = {int(serial): digest for serial, digest, *_ in self.station.guard.bodies()}
        self.unkept |= {serial for serial, digest, _ in delivered[self.seen:] if kept.get(serial) != digest}
        self.seen = len(delivered)

    def outcome(self):
        """Has a last station sign what is left, and looks at each serial that was issued."""
        self.begin()
        self.callers.end()
        with contextlib.suppress(AssertionError):
            until(lambda: self.served.get("/v1/pending").body == b"")
        self.way.shutdown()
        self.way.server_close()
        ca = Ed25519PublicKey.from_public_bytes(blob_of(self.served.office.ca.read_text())[-32:])
        signatures = collections.defaultdict(set)
        for serial, digest, signature in self.way.delivered:
            signatures[serial].add((digest, signature))
        issued = int(self.served.get("/v1/table").text.split("total ")[1].split()[0])
        bodies = {it: self.served.get(f"/v1/certs/{it}/body").body for it in range(1, issued + 1)}
        have = {serial: blob_of(line) for serial, line in self.callers.have.items()}
        return Outcome(
            self.kinds, issued, len(self.way.delivered),
            lost=[it for it, body in bodies.items() if not have.get(it, b"").startswith(body)],
            twice=[it for it, some in signatures.items() if len(some) > 1], unkept=sorted(self.unkept),
            false=[serial for serial, some in signatures.items()
                   if not all(is_of(ca, bodies.get(serial), *it) for it in some)], faults=self.callers.faults)


def is_of(ca, body, digest, signature):
    """Whether a delivery is of this body, and its signature the CA's."""
    try:
        # The last 64 bytes are Ed25519's.
        ca.verify(blob_of(f"x {signature.decode()}")[-64:], body)
    except InvalidSignature:
        return False
    return digest_of(body) == digest
