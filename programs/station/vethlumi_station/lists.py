"""The list of what is revoked."""
import base64
import contextlib
import hashlib
import re
import resource
import signal
import subprocess
import sys
import textwrap
import time
from concurrent.futures import Future, wait

from vethlumi_common.ssh import SSHSIG, signed_bytes, string

from .asking import Connection
from .faults import Refused
from .files import keys_of, unusable_database
from .journal import Said, print_line, printable
from .limits import (LAST_VERSION, LONGEST_INTERVAL, LONGEST_READING, LONGEST_STATING, MOST_MEMORY, MOST_READING,
                     PAUSE_OF_LISTS)
from .running import PROGRAMS, Memory, output_of
from .wire import SIGNATURE_BLOB, verifies
from .workers import Workers

STATEMENT = re.compile(rb"list ([0-9a-f]{64}) ([0-9]{1,20}) [0-9]{1,20}\n")
# PROTOCOL.sshsig: what a signature begins with, what it is for, and by which digest.
NAMESPACE, HASH = b"krl@vethlumi", b"sha512"
# How ssh-keygen ends if memory is refused.
NO_MEMORY = re.compile(rb"(memory allocation failed|out of memory)\s*\Z")


def limited(words):
    """The words that run a program with limits of memory and of a processor's time, so that one that needs too much
    ends by itself. The unit's limit would end the station with it. Another program sets the limits: this one may be
    larger than that already."""
    _, most = resource.getrlimit(resource.RLIMIT_AS)
    most = MOST_MEMORY if most == resource.RLIM_INFINITY else min(most, MOST_MEMORY)
    # At the first of these seconds it gets a signal of its own, by which the station knows why it ended.
    return ["prlimit", f"--as={most}", f"--cpu={MOST_READING}:{MOST_READING + 1}", "--core=0", "--", *words]


class Lists:
    """Publishes the office's list, if its guard states that it is the next one. A thread does what takes its time,
    beside the signing of certificates. The key signs the statement in between, since it is asked for one signature at
    a time."""

    def __init__(self, given, key, office, room, trail):
        self.given, self.key, self.office, self.said, self.trail = given, key, office, Said(room), trail
        self.due, self.is_published, self.shown, self.readable = time.monotonic(), False, None, None
        # What comes of the thread's work, and what is done with that.
        self.thread, self.under_way, self.then = Workers(1, lambda: Connection(office, looks_up=True)), None, None
        self.keys()

    def keys(self):
        """The keys of the CAs that a list may speak of."""
        return list(dict.fromkeys(key for path in self.given.list_ca for key in keys_of(path)))

    def go_on(self):
        """Begins to publish if it is time, and goes on if the thread has done its part. It waits for the key alone."""
        if not self.under_way and time.monotonic() >= self.due:
            self.begin(self.judged, self.sign)
        while self.under_way and self.under_way.done():
            done, self.under_way = self.under_way, None
            try:
                self.then(*done.result())
            except (Refused, OSError, subprocess.SubprocessError) as fault:
                if isinstance(fault, Refused):
                    self.trail.of_list("refused", reason=fault.args[0].removeprefix("refused as "))
                why = f"the list isn't published: {printable(fault)}"
                self.finish({why: why}, {why} if isinstance(fault, Refused) else ())

    def go_to_the_end(self):
        """Publishes, or ends what it has begun of that. Returns whether the last list was published."""
        self.go_on()
        while self.under_way:
            wait([self.under_way], LONGEST_INTERVAL)
            self.go_on()
        return self.is_published

    def begin(self, work, then, *values):
        """Has the thread do something, and says what comes after it."""
        self.under_way, self.then = Future(), then
        self.thread.do(self.under_way, work, *values)

    def judged(self, connection):
        """What the guard states of the office's list, the list's version, the list, and the keys of its CAs."""
        data, keys = self.office.list(connection), self.keys()
        return *self.stated(data, keys), data, keys

    def sign(self, statement, version, data, keys):
        self.begin(self.send, self.tell, statement + self.signature_of(statement, keys) + data, version,
                   hashlib.sha256(data).hexdigest())

    def send(self, file, version, digest, _):
        return version, digest, *self.office.publish(file)

    def tell(self, version, digest, is_taken, said):
        """Says which list is published, and which fronts didn't take it."""
        if is_taken:
            self.trail.of_list("published", version=version, digest=digest)
        if is_taken and version != self.shown:
            print_line(f"published {version}", sys.stdout)
            self.shown = version
        self.finish({it: it for it in said})

    def finish(self, said, own=()):
        """Says why the list isn't published, if it isn't, and notes when it is published next."""
        self.is_published = self.said.say(said, own)
        pause = self.given.publish_every
        self.due = time.monotonic() + (pause if self.is_published else min(pause, PAUSE_OF_LISTS))

    def stated(self, data, keys):
        """What the guard states of a list, and the list's version."""
        digest, version = hashlib.sha256(data).hexdigest(), int.from_bytes(data[12:20], "big")
        lines = [f"ssh-ed25519 {base64.b64encode(key).decode()}\n".encode() for key in keys]
        with contextlib.ExitStack() as kept:
            whole, *cas = [kept.enter_context(Memory(it)) for it in (data, *lines)]
            if digest != self.readable:
                self.see_that_servers_can_read(whole, version)
                self.readable = digest
            words = ["sshstation", "list", "--db", self.given.lists]
            words += [word for it in cas for word in ("--ca", it.path)]
            handles = [it.handle for it in (whole, *cas)]
            answer = self.answer_of([*words, whole.path], handles)
        found = STATEMENT.fullmatch(answer)
        if answer.startswith(b"refuse "):
            raise Refused("refused as " + answer.decode(errors="replace").split()[1])
        if not found or (found[1].decode(), int(found[2])) != (digest, version):
            raise OSError("sshstation's output isn't a statement of this list")
        return answer, version

    def answer_of(self, words, handles):
        """What the guard of lists prints. Of a fault, the file is said too: the others are memory."""
        try:
            # It ends by itself, with its file as it has to be.
            return output_of(words, LONGEST_STATING, ends_itself=True, pass_fds=handles)
        except OSError as fault:
            if why := unusable_database(self.given.lists):
                raise OSError(f"{fault}: {why}") from None
            raise

    def see_that_servers_can_read(self, whole, version):
        """The guard would approve some that they can't, and then refuse the office's own as ones that forget."""
        words = limited(["ssh-keygen", "-Q", "-l", "-f", whole.path])
        try:
            done = PROGRAMS.run(words, LONGEST_READING, stdout=subprocess.DEVNULL, pass_fds=[whole.handle])
        except subprocess.TimeoutExpired:
            raise OSError(f"ssh-keygen reads it for more than {LONGEST_READING} seconds") from None
        if done.stderr.startswith(b"prlimit: "):
            raise OSError(done.stderr.decode(errors="replace").strip())
        if done.returncode == -signal.SIGXCPU:
            raise OSError(f"ssh-keygen reads it for more than {MOST_READING} seconds of a processor, and sshd would at "
                          "each login")
        if done.returncode < 0 or NO_MEMORY.search(done.stderr):
            raise OSError("ssh-keygen was killed, or needs too much memory for it")
        if done.returncode:
            raise Refused("refused as NotAList")
        if version > LAST_VERSION:
            raise Refused("refused as BadVersion")

    def signature_of(self, statement, keys):
        """The armored signature of a statement, as ssh-keygen reads it."""
        signed = signed_bytes(NAMESPACE, HASH, statement)
        signature = self.key.sign(signed)
        signer = next((it for it in keys if verifies(signed, it[-32:], signature)), None)
        if signer is None:
            raise OSError("the key is none of --list-ca: its signature doesn't verify")
        blob = (SSHSIG + (1).to_bytes(4, "big") + string(signer) + string(NAMESPACE) + string(b"") + string(HASH)
                + string(SIGNATURE_BLOB + signature))
        lines = textwrap.wrap(base64.b64encode(blob).decode(), 70)
        return "\n".join(["-----BEGIN SSH SIGNATURE-----", *lines, "-----END SSH SIGNATURE-----", ""]).encode()
