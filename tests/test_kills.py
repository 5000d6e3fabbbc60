"""Kills the program with SIGKILL while it writes, a hundred times as a command and a hundred times as a server.

After each kill the same message is sent again under the same key. If the killed program had answered, the answer has to
come again byte by byte; and in any case one certificate, and no second one, has to come of the message. At the end the
file has to be sound, and to have one certificate and one kept request for each message.
"""
import contextlib
import os
import random
import signal
import subprocess
import time

import pytest

from asking import answers, department, issue, post, write_exchanges
from running import sql

pytestmark = [pytest.mark.slow, pytest.mark.once]

ROUNDS = 100


def asked(key):
    return post("ana", key, issue(f"web/{key}"))


@pytest.fixture
def used(office):
    office.apply([post("root", "web", department())])
    return office


def is_issued(answer):
    return answer is not None and b"\nissued " in answer


def is_one_each(office, count):
    """The file is sound, with one certificate and one kept request for each message, and that of the department."""
    serials = [str(serial) for serial in range(1, count + 1)]
    assert serials == sql(office.db, "SELECT serial FROM cert ORDER BY serial").splitlines()
    assert [str(count + 1), "ok"] == sql(
        office.db, "SELECT count(*) FROM request", "PRAGMA integrity_check").splitlines()


def first_answer(printed):
    """The answer that a killed command printed, or None where it isn't there whole."""
    line, _, rest = printed.partition(b"\n")
    is_whole = line.startswith(b"answer ") and len(rest) == int(line[7:])
    return answers(printed)[0] if is_whole else None


def test_commands_are_killed(used):
    """Each of these commands issues one certificate, and is killed at some moment of its run."""
    begun = time.monotonic()
    used.apply([post("root", "again", department())])
    usual = time.monotonic() - begun
    for number in range(ROUNDS):
        request = asked(f"command-{number}")
        file = write_exchanges("exchanges", [request])
        process = subprocess.Popen([used.program, "apply", "--db", used.db, file], stdout=subprocess.PIPE,
                                   stderr=subprocess.DEVNULL)
        time.sleep(random.uniform(0, 1.2 * usual))
        process.send_signal(signal.SIGKILL)
        first = first_answer(process.communicate()[0])
        second, = used.apply([request])
        assert is_issued(second), f"command {number} after a kill: {second}"
        assert first in (None, second), f"command {number} is answered as before the kill"
    assert "" == sql(used.db, "DELETE FROM request WHERE key = 'again'")
    is_one_each(used, ROUNDS)


def whole(served, request):
    """The whole response, or None where the connection failed."""
    with contextlib.suppress(OSError):
        return served.ask(request).whole()
    return None


def kill_soon(process):
    """A process that kills another one within a twentieth of a second."""
    end = time.monotonic() + random.uniform(0, 0.05)
    child = os.fork()
    if child == 0:
        time.sleep(max(0, end - time.monotonic()))
        os.kill(process.pid, signal.SIGKILL)
        os._exit(0)
    return child


def test_servers_are_killed(used):
    """Each of these servers is killed at some moment between or during requests."""
    given = {}
    number = 0
    for _ in range(ROUNDS):
        with used.serving() as served:
            child = kill_soon(served.process)
            while answer := whole(served, asked(f"server-{number}")):
                given[number] = answer
                number += 1
            os.waitpid(child, 0)
        # The one that failed is sent again, and some that were answered.
        with used.serving() as served:
            for again in [number, *random.sample(sorted(given), min(5, len(given)))]:
                answer = whole(served, asked(f"server-{again}"))
                assert is_issued(answer), f"request {again} after a kill: {answer}"
                assert given.setdefault(again, answer) == answer, f"request {again} is answered as before the kill"
        number += 1
    with used.serving() as served:
        assert given == {again: whole(served, asked(f"server-{again}")) for again in given}
    is_one_each(used, len(given))
