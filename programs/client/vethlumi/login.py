"""Commands of sign-on for everybody: login, logout."""
import base64
import contextlib
import errno
import fcntl
import json
import os
import resource
import stat
import sys
import time

import click

from vethlumi import agent, formats, signon
from vethlumi.cli import counted, main, pass_job, waiting
from vethlumi.formats import BadFormat, Certificate
from vethlumi.office import NoAnswer, Server, trying
from vethlumi.printing import plain, say
from vethlumi.services import accepted, ask, ask_json
from vethlumi.settings import NO_ANSWER, NOT_SIGNED, REFUSED, BadSettings
from vethlumi_common.subjects import point_of

# Seconds between two looks at a lock, and between two at a certificate that isn't signed yet.
LOCK_PAUSE, SIGNATURE_PAUSE = 0.1, 0.5
# Seconds by which this machine's clock may be behind. Certificates begin a minute in the past.
SLOW_CLOCK = 60
# What the registrar is called, and what it writes about a failure.
WHO, COMPLAINT = "the registrar", ("error", "detail")


def end(why, status=REFUSED):
    say(why)
    sys.exit(status)


# ---- one login at a time

def own_folder():
    """A folder in which nobody else can do anything: that of the user's session, or that of the agent. Whoever may read
    a folder can lock it, and so keep its user waiting."""
    for it in (os.environ.get("XDG_RUNTIME_DIR", ""), f"/run/user/{os.geteuid()}", os.path.dirname(agent.path())):
        with contextlib.suppress(OSError):
            found = os.stat(it)
            if os.path.isabs(it) and stat.S_ISDIR(found.st_mode) and found.st_uid == os.geteuid() \
                    and not found.st_mode & 0o066:
                return it
    raise BadSettings("no folder for this session: set XDG_RUNTIME_DIR to one that belongs to you alone")


def is_locked(handle):
    """Whether this takes a lock that nobody else has."""
    try:
        fcntl.flock(handle, fcntl.LOCK_EX | fcntl.LOCK_NB)
    except OSError as fault:
        if fault.errno != errno.EWOULDBLOCK:
            raise
        return False
    return True


@contextlib.contextmanager
def alone(ends):
    """One login at a time. The lock is that of a folder, so it needs no file. Gives whether another login was waited
    for."""
    handle, has_waited = os.open(own_folder(), os.O_RDONLY | os.O_DIRECTORY | os.O_CLOEXEC), False
    try:
        if not is_locked(handle):
            has_waited = True
            with waiting("waiting for another login of yours") as tell:
                tell("which has begun before")
                while not is_locked(handle):
                    if time.monotonic() > ends:
                        raise NoAnswer("another login of yours hasn't ended")
                    time.sleep(LOCK_PAUSE)
        yield has_waited
    finally:
        os.close(handle)


# ---- the registrar

class Registrar:
    """The service that turns an ID token and a public key into a certificate, and renews those of hosts."""

    def __init__(self, settings, ends):
        url = settings.secure_url("registrar" if settings.registrar else "office").rstrip("/")
        self.server, self.ends = Server(url, ends, cacert=settings.file("cacert")), ends

    def certificate(self, department, token, line):
        """The serial and the line of a certificate by a token."""
        return self.obtained("/v1/login", department=department, token=token, public_key=line)

    def obtained(self, path, **asked):
        """The serial and the line of a certificate, waited for until it is signed. The same request again is answered
        by the same certificate."""
        body = json.dumps(asked).encode()
        with waiting("waiting for the registrar") as tell:
            serial, found = trying(lambda: self.issued(path, body), self.ends, tell)
        if found is None:
            with waiting(f"serial {serial} waits for its signature") as tell:
                found = self.signed(serial, tell)
        return serial, found

    def issued(self, path, body):
        fields = {"Content-Type": "application/json"}
        found = ask_json(self.server, WHO, COMPLAINT, "POST", path, body, fields=fields)
        serial, line = found.get("serial"), found.get("certificate")
        if type(serial) is not int or not 1 <= serial <= formats.LAST_SERIAL or not isinstance(line, str | None):
            raise NoAnswer(f"{WHO}: the answer is neither a certificate nor the serial of one", None)
        return serial, line

    def signed(self, serial, tell):
        """The line of a certificate, once it is signed."""
        def read():
            answer = ask(self.server, WHO, "GET", f"/v1/certificates/{serial}")
            if answer.status == 404:
                return None
            return accepted(answer, WHO, COMPLAINT).body().decode("ascii", "replace")
        tell("by the signing station")
        while (found := trying(read, self.ends, tell)) is None:
            if time.monotonic() > self.ends:
                end(f"serial {serial} has no signature yet: log in again once the signing station runs", NOT_SIGNED)
            time.sleep(SIGNATURE_PAUSE)
        return found


def looked_through(serial, line, public, department, cas):
    """The bytes of a certificate that has come, and its fields, if it is the one that was asked for."""
    from vethlumi import keys
    try:
        found, blob = Certificate.of_line(line), base64.b64decode(line.split()[1])
        if found.key != public or found.serial != serial:
            raise BadFormat("it is for a different key, or has a different serial")
        if not signon.is_of(found, department, cas) or not formats.KEY_ID.fullmatch(found.key_id):
            raise BadFormat(f"its department or kind is a different one, or its CA {formats.fingerprint(found.ca)} "
                            "isn't trusted here")
        body, signature = formats.signed_parts(blob)
        keys.verify(found.ca[-32:], signature, body)
        if not found.after - SLOW_CLOCK <= time.time() < found.before:
            raise BadFormat(f"it is valid from {formats.date(found.after)} to {formats.date(found.before)}. Check this "
                            "machine's clock")
    except BadFormat as fault:
        raise NoAnswer(f"the answer isn't a certificate for this login: {fault}", None) from None
    return blob, found


def forget(but=None, department=None):
    """Has the agent forget what logins have given to it: of a department, or all; but not one certificate. Returns how
    many."""
    return sum(agent.remove(blob) for blob, it, comment in agent.certificates()
               if blob != but and comment.startswith(f"{signon.MARK} ")
               and department in (None, it.key_id.partition("/")[0]))


def get_certificate(job, department, cas, is_pasted):
    """Logs in, and gives the agent a new key and its certificate. The key is nowhere else, and on no disk."""
    from vethlumi import keys, provider
    # Nor is it in what the system would write of a process that crashes.
    resource.setrlimit(resource.RLIMIT_CORE, (0, 0))
    registrar, whoever = Registrar(job.settings, job.ends), provider.Provider(job.settings, job.ends)
    seed, line = keys.new_key()
    token = whoever.token(base64.b64decode(line.split()[1]), is_pasted)
    serial, text = registrar.certificate(department, token, line)
    blob, found = looked_through(serial, text, point_of(line), department, cas)
    agent.add(seed, blob, f"{signon.MARK} {found.key_id}", max(int(found.before - time.time()), 1))
    # sshd lets six keys be tried, so an earlier certificate would be in the way.
    forget(blob, department)
    return found


def has_browser():
    """Whether there is a browser, for which this user's session has said where it shows itself."""
    return any(os.environ.get(it) for it in ("BROWSER", "DISPLAY", "WAYLAND_DISPLAY"))


@main.command(short_help="Log in at the identity provider, with a key in ssh-agent.")
@click.option("--if-needed", is_flag=True, help="do nothing if ssh-agent has a certificate of the department that is "
                                                "valid for another 5 minutes: for `Match exec` of ssh_config")
@click.option("--department", metavar="NAME", help="the department [default: `department` of the settings]")
@click.option("--paste", "is_pasted", is_flag=True, help="for a machine without a browser: log in with one elsewhere, "
                                                         "and paste the address at which that ends")
@pass_job
def login(job, if_needed, department, is_pasted):
    """Log in at the identity provider, and give ssh-agent a key with a certificate.

    A browser opens. The key is made in memory, and goes into the agent with its certificate, for as long as that is
    valid; nothing is written to a disk. The provider and the registrar are those of the settings.
    """
    department = department or job.settings.needed("department")
    if not formats.NAME.fullmatch(department):
        raise BadSettings(f"{department!r} isn't a valid department")
    cas = signon.believed_cas(job.settings)

    def is_done():
        return if_needed and bool(signon.present(department, cas, time.time()))

    if is_done():
        return
    # Without an agent, nobody has to log in.
    agent.certificates()
    if not is_pasted and not has_browser():
        end("no browser here: run `vethlumi login --paste`")
    try:
        with alone(job.ends) as has_waited:
            if is_done():
                return
            if if_needed and has_waited:
                # It was for all that wait: a login that has failed isn't begun again for each of them.
                end("the other login ended without a certificate: run `vethlumi login`")
            found = get_certificate(job, department, cas, is_pasted)
    except KeyboardInterrupt:
        end("interrupted: nobody is logged in", NO_ANSWER)
    click.echo(plain(f"{found.key_id} serial {found.serial} until {formats.date(found.before)}"))


@main.command(short_help="Remove the keys of logins from ssh-agent.")
@click.option("--department", metavar="NAME", help="only those of this department")
def logout(department):
    """Have ssh-agent forget the keys and certificates of logins.

    The session at the identity provider goes on until you end it there.
    """
    click.echo(f"ssh-agent has forgotten {counted(forget(department=department), 'certificate')}")
