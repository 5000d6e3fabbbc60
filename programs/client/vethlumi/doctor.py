"""What a machine needs to work with an office, looked at from that machine."""
import collections
import email.utils
import glob
import hashlib
import os
import re
import socket
import ssl
import stat
import subprocess
import time
import urllib.parse

from vethlumi import formats, lists, signon
from vethlumi.formats import BadFormat, Certificate
from vethlumi.office import LONGEST_ANSWER, LONGEST_LIST, NoAnswer, at_most
from vethlumi.refusals import Refused
from vethlumi.settings import BadSettings

Finding = collections.namedtuple("Finding", "state what found advice")
AMISS = NoAnswer, Refused, BadFormat, ValueError
# Why it isn't known when a certificate ends.
NO_END = OSError, ValueError, KeyError, NoAnswer
STATEMENT = re.compile(rb"list ([0-9a-f]{64}) \d+ (\d+)\n")

# Seconds by which clocks may differ: certificates begin a minute in the past.
CLOCKS = 30
# Seconds for which a certificate may wait for its signature.
LONGEST_WAIT = 300
# Seconds for the front's certificate.
LONGEST_HANDSHAKE = 10


def ok(what, found):
    return Finding("ok", what, found, "")


def ending(what, moment, within, advice):
    """What is found of something that ends at a moment."""
    left = moment - time.time()
    text = f"valid until {formats.date(int(moment))}"
    if left <= 0:
        return Finding("bad", what, text.replace("valid until", "ended at"), advice)
    return Finding("warn", what, text, advice) if left < within else ok(what, text)


def front_findings(job, within):
    """The front's certificate, by a connection of its own, and the client's certificate."""
    url = urllib.parse.urlsplit(job.settings.url())
    pem = job.settings.file("certificate")
    if url.scheme != "https":
        return [Finding("warn", "front", f"{url.geturl()} has no TLS",
                        "without a front anybody on that machine is any caller, root too: docs/OPERATING.md, A front")]
    found = []
    try:
        found.append(ending("front's certificate", front_end(job), within, "on the front's machine: authority renew"))
    except NO_END as fault:
        found.append(Finding("bad", "front's certificate", str(fault), "check `office` and `cacert` in the settings"))
    if pem:
        found.append(pem_finding(pem, within))
    return found


def front_end(job):
    """When the front's certificate ends."""
    url, pem = urllib.parse.urlsplit(job.settings.url()), job.settings.file("certificate")
    context = ssl.create_default_context(cafile=job.settings.file("cacert"))
    if pem:
        context.load_cert_chain(pem)
    return at_most(job.office.time_left(LONGEST_HANDSHAKE),
                   lambda: end_of_certificate(context, url.hostname, url.port or 443))


def end_of_certificate(context, host, port):
    """When the certificate ends that a front shows."""
    with socket.create_connection((host, port), timeout=LONGEST_HANDSHAKE) as plain, \
            context.wrap_socket(plain, server_hostname=host) as secured:
        return ssl.cert_time_to_seconds(secured.getpeercert()["notAfter"])


def pem_end(pem):
    """When the certificate in a file ends."""
    done = subprocess.run(["openssl", "x509", "-in", pem, "-noout", "-enddate"], capture_output=True, text=True)
    name, _, end = done.stdout.strip().partition("=")
    if done.returncode or name != "notAfter":
        raise ValueError(f"{pem} has none")
    return ssl.cert_time_to_seconds(end)


def pem_finding(pem, within):
    try:
        return ending("client's certificate", pem_end(pem), within,
                      "ask whoever keeps the front's authority for a new bundle")
    except FileNotFoundError:
        return Finding("warn", "client's certificate", "not looked at: the program openssl isn't here",
                       "install OpenSSL for this")
    except ValueError as fault:
        return Finding("bad", "client's certificate", str(fault), "copy the bundle from the authority again")


def clock_finding(job):
    """This machine's clock beside the front's, as its answer is dated."""
    try:
        fields = job.office.ask("GET", "/v1/cas").fields
        theirs = email.utils.parsedate_to_datetime(fields["date"]).timestamp()
    except (NoAnswer, LookupError, TypeError, ValueError, ArithmeticError):
        return []
    apart = round(abs(time.time() - theirs))
    if apart > CLOCKS:
        return [Finding("bad", "clock", f"{apart} s from the front's", "set both clocks: timedatectl set-ntp true")]
    return [ok("clock", f"{apart} s from the front's")]


def office_findings(job, within):
    try:
        cas = job.office.cas()
        found = [ok("office", f"answers; {len(cas)} of 8 CAs")]
    except AMISS as fault:
        return [Finding("bad", "office", str(fault).partition("\n")[0], "see whether it runs: systemctl status office")]
    try:
        rows, version = job.office.table()
    except AMISS as fault:
        return [*found, Finding("warn", "table", str(fault).partition("\n")[0], "it takes a client's certificate")]
    now = time.time()
    waiting = sum(it.state == "pending" and it.after < now - LONGEST_WAIT for it in rows)
    found.append(ok("signing station", "nothing has waited for five minutes") if not waiting else
                 Finding("warn", "signing station", f"{waiting} unsigned for five minutes", "see whether it runs"))
    soon = sum(it.is_valid(now) and it.before < now + within for it in rows)
    return [*found, ok("list", f"version {version} at the office"),
            ok("certificates", f"{soon} end soon: vethlumi certs --ends-within TIME")]


def settings_of(*words):
    """What `sshd -T` or `ssh -G` prints, as a dictionary; None where it isn't here or this user may not ask."""
    # Without an agent, nobody has to log in before ssh says it.
    environment = {name: value for name, value in os.environ.items() if name != "SSH_AUTH_SOCK"}
    try:
        done = subprocess.run(words, stdin=subprocess.DEVNULL, capture_output=True, text=True, timeout=10,
                              env=environment | {"PATH": f"{os.environ.get('PATH', '')}:/usr/sbin:/sbin"})
    except (OSError, subprocess.TimeoutExpired):
        return None
    found = {name: value for name, _, value in (line.partition(" ") for line in done.stdout.splitlines())}
    return None if done.returncode else found


def ssh_findings(job, krl, fresh):
    """The settings of sshd, and the lists by which sshd and ssh refuse keys here."""
    settings = settings_of("sshd", "-T")
    if settings is None:
        found = [ok("sshd", "not looked at: it isn't here, or only root may ask it")]
    elif settings.get("trustedusercakeys", "none") == "none" and not krl:
        found, settings = [ok("sshd", "trusts no CA for users")], None
    else:
        found = [server_setting(settings, "trustedusercakeys", "TrustedUserCAKeys"),
                 server_setting(settings, "revokedkeys", "RevokedKeys")]
    of_sshd = krl or (settings or {}).get("revokedkeys", "none")
    of_ssh = (settings_of("ssh", "-G", "any.host") or {}).get("revokedhostkeys", "none")
    return found + [it for file in dict.fromkeys([of_sshd, of_ssh]) if file != "none"
                    for it in list_findings(job, file, fresh)]


def server_setting(settings, name, word):
    value = settings.get(name, "none")
    if value == "none":
        return Finding("bad", f"sshd {word}", "isn't set", f"set {word} in sshd_config: docs/OPERATING.md")
    if not os.path.exists(value):
        return Finding("bad", f"sshd {word}", f"{value} isn't there", "fetch it: sshd refuses certificates meanwhile")
    return ok(f"sshd {word}", value)


def read_whole(path, longest):
    """The bytes of a file that the user who fetches may have put there, and when it was changed: nobody is waited for
    at the other end of a pipe."""
    handle = os.open(path, os.O_RDONLY | os.O_NONBLOCK | os.O_NOCTTY | os.O_CLOEXEC)
    try:
        found = os.fstat(handle)
        if not stat.S_ISREG(found.st_mode) or found.st_size > longest:
            raise BadFormat(f"{path} isn't a regular file, or is over {longest} bytes")
        with open(handle, "rb", closefd=False) as it:
            return it.read(longest), found.st_mtime
    finally:
        os.close(handle)


def list_findings(job, krl, fresh):
    try:
        data, changed = read_whole(krl, LONGEST_LIST)
        here, age = lists.RevocationList.of(data), time.time() - changed
    except (OSError, BadFormat) as fault:
        return [Finding("bad", "list here", str(fault), "fetch it: fetch-list")]
    text = f"version {here.version}, fetched {round(age)} s ago"
    found = [ok("list here", text) if age <= fresh else
             Finding("bad", "list here", text, "see why office-list.timer doesn't fetch it")]
    found.append(statement_finding(f"{krl}.statement", data, fresh))
    try:
        _, theirs = job.office.krl()
    except AMISS:
        return found
    if theirs.version > here.version:
        found.append(Finding("warn", "list here", f"the office is at version {theirs.version}", "fetch it"))
    return found


def statement_finding(path, data, fresh):
    """The station's statement of the list, which fetch-list keeps beside it once its signature was verified."""
    try:
        stated = STATEMENT.match(read_whole(path, LONGEST_ANSWER)[0])
    except OSError:
        return Finding("warn", "list's statement", "there is none", "have the station publish lists")
    except BadFormat as fault:
        return Finding("bad", "list's statement", str(fault), "fetch it: fetch-list")
    if not stated or stated[1].decode() != hashlib.sha256(data).hexdigest():
        return Finding("bad", "list's statement", "is of another list", "fetch it: fetch-list")
    age = round(time.time() - int(stated[2]))
    state, advice = ("ok", "") if age <= fresh else ("bad", "see whether the station publishes lists")
    return Finding(state, "list's statement", f"made {age} s ago", advice)


# Where this host's certificate is that vethlumi-host renews, and all that are looked at.
OF_THIS_HOST = "/etc/vethlumi/host-cert.pub"
CERTIFICATES = "~/.ssh/*-cert.pub", "/etc/ssh/*-cert.pub", OF_THIS_HOST


def local_findings(within):
    """The certificates of this user and of this host."""
    found = []
    for path in sorted(path for it in CERTIFICATES for path in glob.glob(os.path.expanduser(it))):
        try:
            with open(path, encoding="utf-8") as it:
                certificate = Certificate.of_line(it.read())
        except (OSError, BadFormat, UnicodeDecodeError):
            continue
        advice = "journalctl -u vethlumi-host says why" if path == OF_THIS_HOST else f"vethlumi renew {path}"
        found.append(ending(path, certificate.before, within, advice))
    return found


def login_findings(settings):
    """The certificates of logins that ssh-agent has, if people log in here."""
    if not settings.provider:
        return []
    try:
        found = signon.present(settings.needed("department"), signon.believed_cas(settings), time.time(), 0)
    except BadSettings as fault:
        return [Finding("bad", "login", str(fault), "check the settings, and that ssh-agent runs")]
    return [ok("login", f"{it.key_id} until {formats.date(it.before)}") for it in found] or [
        ok("login", "no certificate now: vethlumi login")]


def findings(job, within, krl, fresh):
    """All that was looked at."""
    try:
        job.settings.url()
    except BadSettings as fault:
        return [Finding("bad", "settings", str(fault), "")]
    return [*front_findings(job, within), *clock_finding(job), *office_findings(job, within),
            *ssh_findings(job, krl, fresh), *local_findings(within), *login_findings(job.settings)]
