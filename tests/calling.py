#!/usr/bin/python3
"""Callers that ask an office without pause, behind fronts of several addresses, and write down every answer.

    tests/calling.py FOLDER ADDRESS..

FOLDER has the clients' certificates and ca.crt, as `authority` makes them. Each answer is a line of JSON on standard
output: when the message was sent first and when it was answered, the caller, the request key, the message, the reply,
and what came instead before. A message that got no answer is sent again, to the next address, with the same bytes. It
goes on until its standard input ends. Lines on it: `rest` and `go` have the callers rest and go on, and in between
`again N M` has M of the last N messages and M of those before them, drawn by lot, sent once more: a reply that differs
is a line with `was`. Each of these lines is answered by one that has its word, once it is done.
"""
import http.client
import itertools
import json
import os
import random
import socket
import ssl
import sys
import threading
import time
import traceback
from concurrent.futures import ThreadPoolExecutor

from asking import deliver, issue, lasting, renew, revoke_serial

HOST, PORT = "office.example.org", 8443
# Seconds until a connection is made, and until an answer comes: longer than a front waits.
CONNECTING, ANSWERING = 3, 200
# How many ask at once, the seconds between an answer and the next message, and those after which one says what it
# waits for.
CALLERS, PAUSE, LONG = 4, 0.1, 30


class Fronts:
    """The fronts, as one client sees them."""

    def __init__(self, folder, name, addresses):
        self.context = ssl.create_default_context(cafile=f"{folder}/ca.crt")
        self.context.load_cert_chain(f"{folder}/{name}.pem")
        self.addresses = addresses

    def ask(self, method, path, body, address):
        """The status and the bytes of an answer."""
        plain = socket.create_connection((address, PORT), timeout=CONNECTING)
        try:
            # A handshake waits as long as a connection does.
            peer = self.context.wrap_socket(plain, server_hostname=HOST)
            peer.settimeout(ANSWERING)
            # It ends some seconds after the other machine is gone, as that of a careful client.
            for option, seconds in ((socket.TCP_KEEPIDLE, 3), (socket.TCP_KEEPINTVL, 1), (socket.TCP_KEEPCNT, 5)):
                peer.setsockopt(socket.IPPROTO_TCP, option, seconds)
            peer.setsockopt(socket.SOL_SOCKET, socket.SO_KEEPALIVE, 1)
            peer.setsockopt(socket.IPPROTO_TCP, socket.TCP_USER_TIMEOUT, 8000)
            # An HTTPSConnection would read all CAs of the machine here, which takes seconds on a busy one; and a front
            # waits ten for a request.
            asking = http.client.HTTPConnection(HOST, PORT)
            asking.sock = peer
            asking.request(method, path, body)
            answer = asking.getresponse()
            return answer.status, answer.read()
        finally:
            plain.close()

    def until_answered(self, method, path, body=None, is_over=lambda: False):
        """The status and the text of the first answer of an office, and what came instead before."""
        instead, said = [], time.time()
        at = random.randrange(len(self.addresses))
        while not is_over():
            address, begun = self.addresses[at % len(self.addresses)], time.time()
            try:
                status, came = self.ask(method, path, body, address)
                if status < 500:
                    return status, came.decode(), instead
            except (OSError, http.client.HTTPException) as fault:
                status = type(fault).__name__
            instead.append([address, status, round(time.time() - begun, 1)])
            at += 1
            if time.time() - said > LONG:
                said = time.time()
                print(f"calling: {method} {path} has no answer: {instead[-4:]}", file=sys.stderr)
            time.sleep(0.2)
        return None, None, instead


class Callers:
    def __init__(self, folder, addresses):
        self.fronts = {name: Fronts(folder, name, addresses) for name in ("ana", "root", "station")}
        self.lock, self.answered, self.over = threading.Lock(), [], threading.Event()
        # An office refuses another message under a key that these callers had when they ran before.
        self.serials, self.count, self.own = [], itertools.count(), os.urandom(4).hex()
        # Whether the callers are to rest, and how many do.
        self.turn, self.is_rest, self.resting = threading.Condition(), False, 0

    def say(self, record):
        with self.lock:
            print(json.dumps(record), flush=True)

    def send(self, caller, message):
        """Sends a message until it is answered, and writes the answer down."""
        key, begun = f"k-{self.own}-{next(self.count)}", time.time()
        status, reply, instead = self.fronts[caller].until_answered(
            "POST", f"/v1/requests/{key}", message.encode(), self.over.is_set)
        if status is None:
            return None
        record = {"begun": begun, "ended": time.time(), "caller": caller, "key": key, "message": message,
                  "status": status, "reply": reply, "instead": instead}
        with self.lock:
            self.answered.append(record)
        self.say(record)
        return reply

    def one(self, number):
        """A message of a kind that is drawn by lot."""
        serial = random.choice(self.serials[-40:]) if self.serials else None
        kind = random.random()
        if serial is None or kind < 0.5:
            reply = self.send("ana", issue(f"web/{number}-{next(self.count)}", **lasting(3600)))
        elif kind < 0.6:
            reply = self.send("ana", renew(serial, **lasting(3600)))
        elif kind < 0.9:
            status, body, _ = self.fronts["station"].until_answered("GET", "/v1/pending", None, self.over.is_set)
            waiting = [it.split() for it in (body or "").splitlines()] if status == 200 else []
            if waiting:
                serial, digest = random.choice(waiting)
                reply = self.send("station", deliver(serial, digest, os.urandom(64)))
            return
        else:
            reply = self.send("root", revoke_serial(serial))
        if reply and reply.startswith("issued "):
            self.serials.append(int(reply.split()[1]))

    def go_on(self, number):
        try:
            self.until_over(number)
        except Exception:
            traceback.print_exc()
            os._exit(1)

    def until_over(self, number):
        while not self.over.is_set():
            self.wait_for_turn()
            self.one(number)
            time.sleep(PAUSE)

    def wait_for_turn(self):
        """Waits while the callers rest."""
        with self.turn:
            self.resting += 1
            self.turn.notify_all()
            self.turn.wait_for(lambda: not self.is_rest)
            self.resting -= 1

    def rest(self):
        """Waits until nobody asks any more."""
        with self.turn:
            self.is_rest = True
            self.turn.wait_for(lambda: self.resting == CALLERS)
        self.say({"done": "rest"})

    def go(self):
        with self.turn:
            self.is_rest = False
            self.turn.notify_all()
        self.say({"done": "go"})

    def again(self, last, some):
        """Sends some of what was answered once more, and says where the reply differs."""
        at = len(self.answered) - last
        asked = [message for part in (self.answered[at:], self.answered[:at])
                 for message in random.sample(part, min(some, len(part)))]
        with ThreadPoolExecutor(CALLERS) as pool:
            differ = sum(pool.map(self.differs, asked))
        self.say({"done": "again", "asked": len(asked), "differ": differ})

    def differs(self, it):
        """Whether the reply to a message isn't what it was. What was refused wasn't accepted, so a later answer may be
        another."""
        status, reply, _ = self.fronts[it["caller"]].until_answered(
            "POST", f"/v1/requests/{it['key']}", it["message"].encode(), self.over.is_set)
        if it["status"] != 200 or (status, reply) == (200, it["reply"]):
            return False
        self.say({"was": it, "status": status, "reply": reply})
        return True


def main():
    folder, *addresses = sys.argv[1:]
    callers = Callers(folder, addresses)
    made = [threading.Thread(target=callers.go_on, args=(it,), daemon=True) for it in range(CALLERS)]
    for it in made:
        it.start()
    for line in sys.stdin:
        match line.split():
            case ["rest"]:
                callers.rest()
            case ["go"]:
                callers.go()
            case ["again", last, some]:
                callers.again(int(last), int(some))
    callers.over.set()
    callers.go()
    for it in made:
        it.join(5)


main()
