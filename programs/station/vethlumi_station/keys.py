"""The CA's private key: in a file, in an agent or in a token."""
import contextlib
import json
import os
import pathlib
import socket
import subprocess
import sys

from cryptography.exceptions import UnsupportedAlgorithm
from cryptography.hazmat.primitives.asymmetric.ed25519 import Ed25519PrivateKey
from cryptography.hazmat.primitives.serialization import load_pem_private_key

from vethlumi_common.deadlines import at_most
from vethlumi_common.ssh import string

from .ending import held_off
from .faults import Fault, WrongPin
from .files import check_secret, keys_of, state_of
from .journal import printable
from .limits import LONGEST_REPLY, LONGEST_SIGNING
from .token import OF_TOKEN, PIN_REFUSED, SIGNED
from .wire import SIGNATURE_BLOB, string_in

# The numbers of the ssh-agent's protocol for a request of a signature, and for its answer.
SIGN_REQUEST, SIGN_RESPONSE = 13, 14


class KeyFile:
    """A private key in a file. It is read again if somebody has put another one there."""

    def __init__(self, path):
        self.path, self.key, self.seen = path, None, None

    def be_ready(self):
        """Raises a fault if the file has no such key."""
        check_secret(self.path)
        if (seen := state_of(self.path)) == self.seen:
            return
        try:
            self.key = load_pem_private_key(pathlib.Path(self.path).read_bytes(), password=None)
        except (ValueError, TypeError, UnsupportedAlgorithm):
            raise Fault(f"{self.path} has no private key in PKCS #8 without a passphrase") from None
        if not isinstance(self.key, Ed25519PrivateKey):
            raise Fault(f"{self.path} has a private key that isn't Ed25519")
        self.seen = seen

    def sign(self, body):
        self.be_ready()
        return self.key.sign(body)


class AgentKey:
    """A key in an ssh-agent, by a connection that stays open."""

    def __init__(self, key):
        self.key, self.said = key, None

    def be_ready(self):
        """The agent may come later."""

    def sign(self, body):
        request = string(bytes([SIGN_REQUEST]) + string(self.key) + string(body) + bytes(4))
        try:
            answer = at_most(LONGEST_SIGNING, lambda: self.asked(request))
        except BaseException:
            self.close()
            raise
        wanted = bytes([SIGN_RESPONSE]) + (83).to_bytes(4, "big") + SIGNATURE_BLOB
        if len(answer) != len(wanted) + 64 or not answer.startswith(wanted):
            raise OSError("the agent refused to sign with this key")
        return answer[-64:]

    def asked(self, request):
        """The agent's answer. One that was started again has closed the connection, and is asked by a new one."""
        for is_last in (not self.said, True):
            try:
                self.said = self.said or self.connected()
                self.said.write(request)
                self.said.flush()
                return string_in(self.said, LONGEST_REPLY)
            except (ConnectionError, EOFError):
                self.close()
                if is_last:
                    raise OSError("the agent closed the connection") from None

    @staticmethod
    def connected():
        with socket.socket(socket.AF_UNIX) as agent:
            agent.connect(os.environ["SSH_AUTH_SOCK"])
            return agent.makefile("rwb")

    def close(self):
        if self.said:
            with contextlib.suppress(OSError):
                self.said.close()
        self.said = None


class TokenKey:
    """A key in a token, which a process of its own asks, in one session: if the token's module hangs or crashes, that
    process ends, and not the station."""

    def __init__(self, given, pin):
        self.settings = {"module": given.pkcs11, "id": given.id, "token": given.token, "slot": given.slot,
                         "pin": pin.hex()}
        self.process = None

    def be_ready(self):
        """Raises a fault if the token refuses the PIN. The token itself may come later."""
        with contextlib.suppress(OSError):
            at_most(LONGEST_SIGNING, self.begin)

    def begin(self):
        words = [sys.executable, "-I", "-B", os.path.realpath(sys.argv[0]), OF_TOKEN]
        with held_off():
            self.process = subprocess.Popen(words, stdin=subprocess.PIPE, stdout=subprocess.PIPE,
                                            stderr=subprocess.DEVNULL)
        self.asked(json.dumps(self.settings).encode())

    def sign(self, body):
        def signed():
            if not self.process:
                self.begin()
            return self.asked(body)

        try:
            return at_most(LONGEST_SIGNING, signed)
        except BaseException:
            # It has the answer to this body, or none. What comes next is asked of a new one.
            self.end()
            raise

    def asked(self, data):
        """What the process answers."""
        try:
            self.process.stdin.write(string(data))
            self.process.stdin.flush()
            answer = string_in(self.process.stdout, LONGEST_REPLY)
        except (ConnectionError, EOFError):
            raise OSError("the token's module has crashed") from None
        kind, text = answer[:1], answer[1:]
        if kind == SIGNED:
            return text
        self.end()
        said = printable(text.decode(errors="replace"))
        raise WrongPin(f"the token refuses the PIN: {said}") if kind == PIN_REFUSED else OSError(said)

    def end(self):
        if self.process:
            self.process.kill()
            self.process.wait()
        self.process = None


def signer(given):
    """The key that the command line names."""
    if given.key:
        check_secret(given.key)
        return KeyFile(given.key)
    if given.agent:
        if "SSH_AUTH_SOCK" not in os.environ:
            raise Fault("SSH_AUTH_SOCK names no agent")
        return AgentKey(keys_of(given.agent)[0])
    check_secret(given.pin_file)
    pin = pathlib.Path(given.pin_file).read_bytes().partition(b"\n")[0]
    if b"\0" in pin:
        raise Fault(f"the first line of {given.pin_file} is no PIN")
    return TokenKey(given, pin)
