#!/usr/bin/python3
"""Runs commands of vethlumi, the client, some side by side, each in a process of its own that has the modules already:
to load them takes longer than most commands.

    PYTHONPATH=programs/client:programs/common tests/often.py SECONDS

A line of standard input is a JSON list of commands, each with its words, environment and folder. It gets a line with a
list: the status of each, the seconds that it took, and the bytes of memory that it used at most. Its output is in the
files `out` and `told` of its folder. What takes longer than SECONDS is killed, and nothing gets more memory than MOST.
"""
import json
import os
import resource
import signal
import sys
import time
import traceback

from vethlumi import certificates, departments, login, people, reports, revocations  # noqa: F401
from vethlumi.cli import main

# Bytes of addresses, of which some are never used.
MOST = 1 << 30


def become(command):
    """Does a command in this process, and ends it."""
    os.chdir(command["folder"])
    os.environ.clear()
    os.environ.update(command["environment"])
    resource.setrlimit(resource.RLIMIT_AS, (MOST, MOST))
    for number, name in enumerate(("/dev/null", "out", "told")):
        os.dup2(os.open(name, os.O_RDWR | os.O_CREAT | os.O_TRUNC), number)
    try:
        main(command["words"], prog_name="vethlumi")
    except SystemExit as it:
        status = it.code
    except BaseException:
        traceback.print_exc()
        status = 99
    sys.stdout.flush()
    sys.stderr.flush()
    os._exit(int(status or 0))


def run(commands, seconds):
    begun, children, found = time.monotonic(), [], {}
    for it in commands:
        child = os.fork()
        if not child:
            become(it)
        children.append(child)

    def end(*_):
        for it in {*children} - {*found}:
            os.kill(it, signal.SIGKILL)
    signal.signal(signal.SIGALRM, end)
    signal.alarm(seconds)
    while len(found) < len(children):
        child, status, usage = os.wait4(-1, 0)
        found[child] = {"status": os.waitstatus_to_exitcode(status), "seconds": time.monotonic() - begun,
                        "memory": usage.ru_maxrss << 10}
    signal.alarm(0)
    return [found[it] for it in children]


if __name__ == "__main__":
    for line in sys.stdin:
        print(json.dumps(run(json.loads(line), int(sys.argv[1]))), flush=True)
