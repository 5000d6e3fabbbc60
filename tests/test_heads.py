"""After which byte of a request's head it is told whether a head comes.

`heads_tool` tells it by the places of the bytes, as a server does, and by parsing all bytes after each one. Of heads
that are changed at random places both have to tell the same. `--heads N` takes more of them than the 100,000 of the
check, or fewer, and `--hypothesis-seed` the same ones as before.
"""
import collections
import random

import pytest

from running import run

# Heads as clients send them, and what is put into them: what ends names, values and lines, and what may stand nowhere
# or in few places.
HEADS = [
    b"GET /v1/krl HTTP/1.1\r\n\r\n",
    b"POST /v1/callers/ana/requests/i1 HTTP/1.1\r\ncontent-length: 162\r\n\r\n",
    b"POST /v1/callers/ana/requests/i1 HTTP/1.1\r\nHost: 127.0.0.1:8022\r\nUser-Agent: curl/7.88.1\r\nAccept: */*\r\n"
    b"Content-Length: 162\r\nContent-Type: application/x-www-form-urlencoded\r\n\r\n",
    b"GET /v1/certs/1/body HTTP/1.0\nHost: 127.0.0.1:8022\nx:\n\n",
    b"\r\n\nGET / HTTP/1.1\r\na:\tb \r\n\r\n",
]
LONG = b"PUT / HTTP/1.1\r\n" + b"a:b\r\n" * 31
BYTES = [b"\r", b"\n", b"\r\n", b"\r\n\r\n", b" ", b"\t", b":", b"/", b"A", b"H", b"0", b"2", b"a", b"z", b"-", b"\0",
         b"\x1f", b"\x7f", b"\x80", b"\xc3\xa9", b"\xff", b"(", b"@", b"[", b"HTTP/1.0", b"HTTP/1.1\r\n", b"a: b\r\n"]

# After so many bytes of these it is told that a head is there, or that none can come, or nothing is told (RFC 9112).
TOLD = [
    (b"GET /v1/krl HTTP/1.1\r\n\r\n", 24, "whole"),
    (b"GET /v1/krl HTTP/1.1\r\n\r\nGET /", 24, "whole"),
    (b"GET /v1/krl HTTP/1.1\n\n", 22, "whole"),
    (b"GET /v1/krl HTTP/1.1\r\n" + b"a: b\r\n" * 32 + b"\r\n", 216, "whole"),
    (b"GET /v1/krl HTTP/1.1\r\n", 22, "waits"),
    (b"", 0, "waits"),
    (b"GET /v1/krl HTTP/2.0\r\n\r\n", 18, "hopeless"),
    (b"G@T /v1/krl HTTP/1.1\r\n\r\n", 2, "hopeless"),
    (b"GET /v1/krl HTTP/1.1\r\na b: c\r\n\r\n", 24, "hopeless"),
    (b"GET /v1/krl HTTP/1.1\r\na: b\0c\r\n\r\n", 27, "hopeless"),
    (b"GET /v1/k\x7frl HTTP/1.1\r\n\r\n", 10, "hopeless"),
    # At the end of the line 33.
    (LONG + b"c:d\r\n" * 2 + b"\r\n", 181, "hopeless"),
]


def changed(head, chance):
    """The head with some of its bytes left out or others put in or in their place, and perhaps cut off."""
    for _ in range(chance.choice([0, 1, 1, 1, 2, 4])):
        at, piece = chance.randrange(len(head) + 1), chance.choice(BYTES)
        head = head[:at] + chance.choice([piece, b""]) + head[at + chance.choice([0, 1]):]
    return head[:chance.randrange(len(head) + 1)] if chance.random() < 0.1 else head


def heads(count, chance):
    for _ in range(count):
        head = chance.choice(HEADS) if chance.random() < 0.95 else LONG + b"c:d\r\n" * chance.randrange(3) + b"\r\n"
        yield changed(head, chance)


def told(heads_tool, room, some):
    """What is told of each by places, and what by parsing: after so many bytes, a word."""
    (room / "heads").write_text("".join(f"{head.hex()}\n" for head in some))
    lines = run([heads_tool, "heads"], check=True).stdout.decode().splitlines()
    assert len(some) == len(lines)
    for line in lines:
        words = line.split()
        yield (int(words[0]), words[1]), (int(words[2]), words[3])


def test_changed_heads_are_told_as_by_parsing_each_byte(heads_tool, request, room):
    count, seed = request.config.getoption("--heads"), request.config.option.hypothesis_seed
    some = [*heads(count, random.Random(f"heads {seed}"))]
    found = [*told(heads_tool, room, some)]
    assert [] == [(head, *both) for head, both in zip(some, found) if both[0] != both[1]][:3]
    words = collections.Counter(word for (_, word), _ in found)
    assert {"whole", "hopeless", "waits"} == {word for word, times in words.items() if times > count / 100}, words


@pytest.mark.rows
def test_heads_are_told(heads_tool, room):
    found = told(heads_tool, room, [head for head, _, _ in TOLD])
    assert [(head, (size, word), (size, word)) for head, size, word in TOLD] == [
        (head, *both) for (head, _, _), both in zip(TOLD, found)]


def padded(size):
    """A GET with a head of so many bytes."""
    line = b"GET /v1/krl HTTP/1.1\r\nx: "
    return line + b"y" * (size - len(line) - 4) + b"\r\n\r\n"


def test_a_long_head_is_not_read_anew_at_each_byte(make_office):
    """A processor works for it twenty times as long as for a short one at most."""
    with make_office().serving() as server:
        short, long = (server.work_of(lambda: [server.ask(padded(size)) for _ in range(20)]) for size in (40, 8192))
    assert (True, short, long) == (long < 20 * short, short, long)
