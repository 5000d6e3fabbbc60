"""A signing station: signs pending certificates with one CA's key, if the guard on this machine approves them.

station [OPTION..] --db FILE --policy FILE --key PEM OFFICE
station [OPTION..] --db FILE --policy FILE --agent KEY.pub OFFICE
station [OPTION..] --db FILE --policy FILE --pkcs11 MODULE --id ID --pin-file FILE OFFICE
station witness [--db FILE [--forget KID] | --check FILE]

OFFICE is the URL of the front (the reverse proxy), or of an office on this machine.

  --db FILE        the guard's database, created by `sshstation init`
  --policy FILE    what may be signed: departments
  --ahead SECONDS  how far in the future a validity may begin [default: 3600]
  --key PEM        the CA's private key, in PKCS #8, without a passphrase
  --agent KEY.pub  or a key in the ssh-agent, given by its public-key line
  --pkcs11 MODULE  or a key in a token, with this module
  --id ID          the key's ID in the token, in hexadecimal
  --pin-file FILE  a file whose first line is the token's PIN
  --token LABEL    the token's label, if the module has several tokens
  --slot N         the number of the token's slot, in place of a label
  --lists FILE     also publish the KRL: the database of the guard of lists
  --list-ca FILE   with --lists: all CAs that the office has had
  --publish-every SECONDS
                   how often to publish [default: 60]
  --witness FILE   let a witness look at each login: its settings
  --other-ca FILE  CAs for which other stations sign; may be repeated
  --cert PEM       the station's key and certificate in one file
  --cacert FILE    the authority that issued the front's certificate
  --caller NAME    its name at an office without a front [default: station]
  --events         also print the audit trail: one line of JSON for each event
  --copy FILE      make FILE, a copy of the guard's database, if it is missing
  --once           look for pending certificates once, and exit
  --interval N     how often to look, in seconds [default: 0.05]

Exit status: 0 if it was stopped by SIGTERM; 1, with the reason on standard error; 2 for invalid arguments; 3 if a token
refuses the PIN.

Notes:

A front's URL is for example https://office.example.org:8443, an office's http://127.0.0.1:8022. By http the
station only asks an office on this machine. A change of the policy takes effect at the next certificate. A token needs
the package python3-pykcs11, and a module such as /usr/lib/softhsm/libsofthsm2.so. An agent is the one at SSH_AUTH_SOCK.

The station signs, and verifies each signature, in its own process, except that a token's module runs in a second one,
which is ended if it hangs. What was approved, signed and verified is one piece of memory: no file holds it. If a token
refuses the PIN, the station ends with status 3 and doesn't try the PIN again, since tokens lock after a few tries.

A file with a private key or a PIN is refused if its mode lets others use it. If it is root's and the station runs as
another user, its group may read it. The station looks at the start, and at a private key again before each use. The
files of --db and --lists with their logs, --policy, --other-ca, --list-ca, --witness and --cacert are refused, at the
start, each second and before something new is signed, if their group or others can write them, or if they belong to
another user than root and the station's own.

The database of --lists is created by `sshstation lists --init`. A file of --list-ca has the public-key lines of CAs,
including the station's own; the option may be repeated. The files are read again each time.

A file of --other-ca has public-key lines, too. Certificates for these CAs are skipped silently. The files are read
again each second, and before something new is signed. Without --cacert, all authorities that this system trusts count.
--copy makes its file whenever it isn't there, because the guard keeps its own locked. Remove FILE for a new one, which
comes once nothing is being judged. --events prints a line for each certificate that is signed, approved without a
signature or refused, and for each list that is published or refused. --interval only counts unless the front, at each
address of its name, says when to look for pending certificates. Then the station looks every N seconds, but 50 times a
second in the minute after one has come.

With --witness, a witness looks at each certificate before the guard does. FILE has settings in TOML: identity
providers, and the departments whose people log in there. Each department for users is witnessed unless its table says
`witness = false`. In one that is, a certificate is signed only if a token, which the registrar has left at the front
for exactly this key, gives it: key ID, principals, options, extensions, and both ends of its validity. The token has to
be signed by a key of the provider, which the station asks by one https URL, if necessary by a proxy, or reads from a
file. If there is no token yet, the station asks for it each second, and after a minute it reports NoEvidence. What the
witness refuses is reported as NotWitnessed, with the reason. docs/FORMATS.md has the settings. It needs the packages
python3-jwt and python3-requests.

The provider's keys are kept next to the file of --db, each with its first and last sight. A key counts for tokens that
were issued until an hour after its last sight.

  station witness --db FILE               prints these keys
  station witness --db FILE --forget KID  drops those of this ID for good, even if the provider shows them again
  station witness --check FILE            reads settings, and prints each department and its provider

For each pending certificate, the station fetches the unsigned certificate, checks its digest and its serial, asks the
guard (`sshstation judge`, which has to be on the PATH), signs, verifies the signature, delivers it, and prints `signed
SERIAL`. The guard gets up to 64 at once. If the office doesn't take the signature, the station prints that at once on
standard error. If the certificates that it didn't sign for a reason have changed, it prints their number and serials on
standard error. What a front can make up or repeat is printed up to 64 KiB at once, and 64 bytes a second in the long
run; the first refusal of each kind by the guard and the first `signed` of a serial always are. It tries what it didn't
sign again after a pause that grows to a minute, and at once if the policy or a file of --other-ca has changed, but
always after all new ones. If over 64 MiB of certificates are pending, it takes the first. After a list that is long, or
an office that doesn't answer, it looks less often: at least once a second.

At the start, and then every --publish-every seconds, the station fetches the office's KRL, of at most 32 MiB. It goes
on signing certificates meanwhile. If `ssh-keygen -Q -l` can read the KRL, within five seconds of processor time and
400 MiB of memory, the station asks the guard of lists (`sshstation list`) whether it revokes everything that the last
approved one does. If so, the station signs a statement of the KRL's digest, version and time, in the form of
`ssh-keygen -Y sign -n krl@vethlumi`, and sends the front one file, by PUT of /published: the statement, the signature
and the KRL. It prints `published VERSION` if it is new. If a KRL isn't published, the reason is printed on standard
error, and the station tries again every ten seconds. A KRL whose version is too high for the number of its revocations
is refused as VersionJumps.

If the front's name has several addresses, the file is sent to each of them, at most eight, and together they get a
minute. Each that doesn't take it is named on standard error, with the reason, and all of them get the file again after
ten seconds. If this machine has had a route to addresses of IPv4 only, or of IPv6 only, the others are left out.

A station that is told to end, by SIGTERM, SIGINT, SIGHUP or SIGQUIT, lets its guards end first, which copy the logs of
their files: the guard gets one minute, and the guard of lists two. What else it has begun is killed. A second signal
changes nothing.

Exit status in full: 0 if it was stopped by SIGTERM, 129, 130 or 131 if by SIGHUP, SIGINT or SIGQUIT; 1, with the reason
on standard error, if the guard has exited, for example with `BadPolicy N`, if a file of CAs can't be read, if a file with
a private key can't be read, if a file is refused for its mode or its owner, or if the output can't be written; 2 for
invalid arguments; 3 if a token refuses the PIN. With --once: 0 if no certificate is pending except for other stations,
and the KRL was published at each address; 1 if one is still pending, the KRL wasn't, or the office doesn't answer.
"""
import argparse
import contextlib
import os
import re
import shutil
import signal
import sys

from vethlumi_common.helps import on_a_screen

from .ending import ENDINGS, end_once
from .faults import Fault
from .files import check_readable, check_secret
from .journal import print_line
from .rounds import Station
from .token import OF_TOKEN, ask_token
from .witnessing import of_witness

# By http, an office on another machine could be anybody on the way to it.
LOCAL = re.compile(r"http://(localhost|127(\.[0-9]{1,3}){3}|\[::1\])(:[0-9]{1,5})?(/\S*)?", re.ASCII)


def words():
    """The command line's arguments; bad ones end the program with status 2."""
    usage = "station --db FILE --policy FILE --key PEM OFFICE (station --help explains all)"
    parser = argparse.ArgumentParser(prog="station", usage=usage, add_help=False, allow_abbrev=False)
    parser.add_argument("-h", "--help", action="store_true")
    for name in ("db", "policy", "key", "agent", "pkcs11", "id", "pin-file", "token", "cert", "cacert", "lists",
                 "copy", "witness"):
        parser.add_argument(f"--{name}")
    parser.add_argument("--slot", type=int)
    for name in ("other-ca", "list-ca"):
        parser.add_argument(f"--{name}", action="append", default=[])
    parser.add_argument("--publish-every", type=int, default=60)
    parser.add_argument("--caller", default="station")
    for name in ("once", "events"):
        parser.add_argument(f"--{name}", action="store_true")
    parser.add_argument("--interval", type=float, default=0.05)
    parser.add_argument("--ahead", type=int, default=3600)
    parser.add_argument("office", nargs="?")
    given = parser.parse_args()
    if given.help:
        print(on_a_screen(__doc__, "station"), end="")
        sys.exit()
    check(parser, given)
    return given


def check(parser, given):
    for name in ("db", "policy", "office"):
        if not getattr(given, name):
            parser.error(f"{'OFFICE' if name == 'office' else f'--{name}'} is missing")
    if [given.key, given.agent, given.pkcs11].count(None) != 2:
        parser.error("one of --key, --agent and --pkcs11 is wanted")
    if bool(given.pkcs11) != bool(given.id and given.pin_file):
        parser.error("--pkcs11 needs --id and --pin-file")
    if given.id and not re.fullmatch("([0-9A-Fa-f]{2})+", given.id):
        parser.error(f"--id is hexadecimal: {given.id}")
    if not given.pkcs11 and (given.token is not None or given.slot is not None):
        parser.error("--token and --slot are for --pkcs11")
    if not re.fullmatch(r"https?://\S+", given.office):
        parser.error(f"no URL: {given.office}")
    if given.office.startswith("http:") and not LOCAL.fullmatch(given.office):
        parser.error(f"http is only for an office on this machine: {given.office}")
    if not re.fullmatch("[a-z0-9-]{1,32}", given.caller):
        parser.error(f"no caller's name: {given.caller}")
    if not 0.01 <= given.interval <= 86400 or given.ahead < 0:
        parser.error("--interval is 0.01 to 86400, and --ahead at least 0")
    if bool(given.lists) != bool(given.list_ca):
        parser.error("--lists needs --list-ca, and --list-ca needs --lists")
    if given.copy and os.path.realpath(given.copy) in map(os.path.realpath, filter(None, (given.db, given.lists))):
        parser.error("--copy is another file than --db and --lists")
    if given.publish_every < 1:
        parser.error("--publish-every is at least 1")


def programs(given):
    """Those that the station needs."""
    return ["sshstation", "getent", *["ssh-keygen", "prlimit"] * bool(given.lists)]


def main():
    os.umask(0o077)
    if sys.argv[1:] == [OF_TOKEN]:
        with contextlib.suppress(EOFError, BrokenPipeError):
            ask_token()
        return
    if sys.argv[1:2] == ["witness"]:
        sys.exit(of_witness(sys.argv[2:], on_a_screen(__doc__, "station")))
    given = words()
    for it in ENDINGS:
        # What whoever began the station has it ignore, as nohup does, it ignores.
        if signal.getsignal(it) != signal.SIG_IGN:
            signal.signal(it, end_once)
    try:
        for program in programs(given):
            if not shutil.which(program):
                raise Fault(f"{program} is missing")
        if given.cert:
            check_secret(given.cert)
        if given.cacert:
            check_readable(given.cacert)
        sys.exit(Station(given).run())
    except Fault as fault:
        with contextlib.suppress(Fault):
            print_line(f"station: {fault}", sys.stderr)
        sys.exit(fault.status)
