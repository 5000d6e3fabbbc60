"""What tests of the scripts that fetch have in common: a server that answers anything, and a disk that is small."""
import contextlib
import os
import shutil
import socket
import tempfile

from recording import Recorder, whole_request
from running import command, run


def response(body, status="200 OK", length=None):
    """A response with this body; its head may name another length, or "" for none."""
    length = len(body) if length is None else length
    return f"HTTP/1.1 {status}\r\nconnection: close\r\n".encode() + (
        b"" if length == "" else f"content-length: {length}\r\n".encode()) + b"\r\n" + body


class Web(Recorder):
    """A server that answers each request by `answer`, and goes on for ever with `endless`, if that isn't empty."""
    endless = b""

    @property
    def url(self):
        return f"http://127.0.0.1:{self.port}"

    def finish_request(self, peer, address):
        self.requests.append(whole_request(peer))
        peer.settimeout(60)
        with contextlib.suppress(OSError):
            peer.sendall(self.answer)
            while self.endless:
                peer.sendall(self.endless)


@contextlib.contextmanager
def silent(address):
    """A listener that takes no more connections, and doesn't say so."""
    with contextlib.ExitStack() as kept, socket.socket() as listener:
        listener.bind(address)
        listener.listen(0)
        for peer in [kept.enter_context(socket.socket()) for _ in range(4)]:
            peer.setblocking(False)
            with contextlib.suppress(BlockingIOError):
                peer.connect(address)
        yield


def script(name, *words, **how):
    """Status, output, and the lines of errors of a command of programs/ or examples/."""
    done = run([command(name), *words], **how)
    return done.returncode, done.stdout.decode(), done.stderr.decode(errors="replace").splitlines()


# Stands for a program: does something before it and after it.
AROUND = """#!/bin/sh
{before}
{program} "$@"
status=$?
{after}
exit $status
"""


def around(folder, name, before=":", after=":"):
    """The environment in which these commands run before and after a program, by a stand-in in this folder."""
    file = folder / "bin" / name
    file.parent.mkdir(exist_ok=True)
    file.write_text(AROUND.format(program=shutil.which(name), before=before, after=after))
    file.chmod(0o755)
    return os.environ | {"PATH": f"{file.parent}:{os.environ['PATH']}"}


@contextlib.contextmanager
def folder_of_nobody():
    """A folder of the user nobody, in which root runs a program. Everybody may enter those above it."""
    with tempfile.TemporaryDirectory(dir="/var/tmp") as folder:
        os.chmod(folder, 0o755)
        shutil.chown(folder, "nobody")
        yield folder


def shown(folder="."):
    """The files of a folder, but for those that begin with a dot."""
    return [it for it in os.listdir(folder) if not it.startswith(".")]


@contextlib.contextmanager
def small_disk(folder, kilobytes=64):
    """A file system of so many kilobytes. Its `fill(left)` leaves so many of its blocks free."""
    folder.mkdir()
    run(["mount", "-t", "tmpfs", "-o", f"size={kilobytes}k", "tmpfs", folder], check=True)

    def fill(left):
        (folder / "filling").unlink(missing_ok=True)
        (folder / "filling").write_bytes(bytes(4096 * (os.statvfs(folder).f_bavail - left)))
    try:
        yield fill
    finally:
        run(["umount", folder], check=True)
