"""An office that records what it is sent, and the bytes of requests to a front."""
import re
import socketserver
import threading
import time

HEARD = b"HTTP/1.1 200 OK\r\ncontent-type: text/plain\r\ncontent-length: 6\r\nconnection: close\r\n\r\nheard\n"


def whole_request(peer):
    """The request that comes from a peer, and what comes right behind it, if anything does."""
    came = b""
    while b"\r\n\r\n" not in came:
        piece = peer.recv(65536)
        if not piece:
            return came
        came += piece
    length = re.search(rb"\r\ncontent-length: *(\d+)", came, re.IGNORECASE)
    end = came.index(b"\r\n\r\n") + 4 + (int(length[1]) if length else 0)
    while len(came) < end:
        piece = peer.recv(65536)
        if not piece:
            return came
        came += piece
    peer.settimeout(0.02)
    try:
        came += peer.recv(65536)
    except OSError:
        pass
    return came


class Recorder(socketserver.ThreadingTCPServer):
    """Answers every request alike, `seconds` after it came. `requests` has the bytes of each."""
    allow_reuse_address = True
    daemon_threads = True
    request_queue_size = 1024

    def __init__(self, answer=HEARD, seconds=0, port=0, address="127.0.0.1"):
        self.requests, self.answer, self.seconds = [], answer, seconds
        super().__init__((address, port), None)
        self.port = self.server_address[1]
        threading.Thread(target=self.serve_forever, daemon=True).start()

    def __enter__(self):
        return self

    def __exit__(self, *_):
        self.shutdown()
        self.server_close()

    def finish_request(self, peer, address):
        request = whole_request(peer)
        # A test sees whether the port is open by a connection on which nothing comes.
        if request:
            self.requests.append(request)
            time.sleep(self.seconds)
            peer.sendall(self.answer)

    def handle_error(self, request, client_address):
        """A front that has gone away is no fault of the office."""


def composed(line, body=b"", length=True):
    """The bytes that a front is to write for a request of this line."""
    head = f"{line} HTTP/1.1\r\nHost: office\r\nConnection: close\r\n".encode()
    return head + (b"Content-Length: %d\r\n" % len(body) if length else b"") + b"\r\n" + body


# ---- requests to a front

def posting(target, body=b"hello", *lines):
    """The request that posts a body with these header lines. A length is added, unless a line says how long it is."""
    head = [f"POST {target} HTTP/1.1".encode(), b"Host: localhost", b"Connection: close", *lines]
    if not any(line.lower().startswith((b"content-length", b"transfer-encoding")) for line in lines):
        head.append(b"Content-Length: %d" % len(body))
    return b"\r\n".join(head) + b"\r\n\r\n" + body


def getting(target, method="GET", *lines):
    head = [f"{method} {target} HTTP/1.1".encode(), b"Host: localhost", b"Connection: close", *lines]
    return b"\r\n".join(head) + b"\r\n\r\n"


def staying(request):
    """The request with a connection that stays open."""
    return request.replace(b"Connection: close\r\n", b"", 1)


def statuses(answer):
    """The status of each of the responses."""
    return [int(status) for status in re.findall(rb"^HTTP/1\.1 (\d{3}) ", answer, re.MULTILINE)]
