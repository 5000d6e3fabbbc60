"""The command line: `vethlumi-registrar serve` and `vethlumi-registrar check`."""
import argparse
import logging
import os
import sys

from vethlumi_signon.settings import HERE, BadSettings

from vethlumi_registrar import settings as of_settings
from vethlumi_registrar.settings import read_settings

ABOUT = """\
Turns logins at an identity provider, and the tokens of workloads, into SSH
certificates of an office.

The registrar verifies a token, that it was issued for the public key that
comes with it, and asks the office for a certificate as one of its callers. It
keeps nothing on disk, and may be stopped, killed or run twice at any time.
"""
SERVE = """\
Serves logins. Under systemd it takes the socket that vethlumi-registrar.socket
opens; otherwise it listens at a port of 127.0.0.1, and the front has to reach
it there. Each request is a line of JSON on standard output.
"""
CHECK = """\
Reads the settings, and says what they mean: who gets which principals, for how
long. It asks nobody.
"""
COMMANDS = """\
Commands:
  serve  serves logins
  check  says what the settings mean

"""
STATUSES = """\
Exit status: 0, 1 if the settings can't be used, with the reason on standard
error, 2 for invalid arguments.
"""


def words_of(names):
    return ", ".join(names) or "none"


def said_of(department):
    """What a department means, in lines."""
    issuer = department.issuer
    if issuer.client:
        yield f"department {department.name}: people of provider {issuer.label}, {issuer.url}, client {issuer.client}"
    else:
        how = f"for the audience {issuer.audience}, one certificate for each token" if issuer.audience \
            else "each token for one public key"
        yield f"department {department.name}: workloads {issuer.label}, {issuer.url}, {how}"
    yield f"  signed by {words_of(issuer.algorithms)}, at most {issuer.oldest} seconds ago"
    yield f"  a certificate lasts {department.life} seconds from its token on"
    yield from said_of_names(issuer)
    for name, value in issuer.require.items():
        yield f"  only if the claim {name} is {value!r}"
    if department.need:
        yield f"  only for members of one of: {words_of(department.need)}"
    if department.templates:
        yield f"  all of them get: {words_of(it.replace(HERE, '<name>') for it in department.templates)}"
    for group, principals in department.groups.items():
        yield f"  members of {group} also get: {words_of(principals)}"
    yield f"  options: {words_of(department.options)}; extensions: {words_of(department.extensions)}"
    if department.renews:
        yield "  hosts renew their certificates by their own keys, without a token"
    if department.is_witnessed:
        yield "  the front gets each token, for a witness beside the station's guard"


def said_of_names(issuer):
    if not issuer.names:
        yield f"  <name> is the claim {issuer.name}: who can change it can become anybody"
    for value, name in issuer.names.items():
        yield f"  <name> is {name} if the claim {issuer.name} is {value}"


def warnings_of(settings):
    """What is allowed, and seldom meant."""
    by_template = {}
    for it in settings.departments.values():
        for template in it.templates:
            if HERE in template:
                by_template.setdefault(template, {}).setdefault(it.issuer.label, it.name)
    for template, names in by_template.items():
        if len(names) > 1:
            yield f"{template} of departments {words_of(names.values())}: a name of one issuer is that of the others"
    for it in settings.departments.values():
        if it.issuer.audience:
            yield f"department {it.name}: whoever gets hold of a token before its workload gets the certificate"


def check(path):
    settings = read_settings(path)
    who = f"caller {settings.caller}" if settings.caller else f"the certificate {settings.certificate}"
    print(f"office {settings.office}, as {who}")
    print(f"at most {settings.certificates} new certificates and {settings.requests} requests for a person and hour")
    for department in settings.departments.values():
        print("\n".join(["", *said_of(department)]))
    for line in warnings_of(settings):
        print(f"warning: {line}", file=sys.stderr)


def parser():
    form = argparse.RawDescriptionHelpFormatter
    made = argparse.ArgumentParser("vethlumi-registrar", description=ABOUT, epilog=COMMANDS + STATUSES,
                                   formatter_class=form)
    below = made.add_subparsers(dest="command", required=True, metavar="COMMAND")
    one = below.add_parser("serve", description=SERVE, epilog=STATUSES, formatter_class=form)
    one.add_argument("--port", type=port_of, default=8023, help="the port of 127.0.0.1 [default: 8023]")
    two = below.add_parser("check", description=CHECK, epilog=STATUSES, formatter_class=form)
    for it in (one, two):
        it.add_argument("--settings", default=of_settings.FILE, metavar="FILE",
                        help=f"the settings [default: {of_settings.FILE}]")
    return made


def port_of(text):
    found = int(text)
    if not 0 <= found <= 65535:
        raise ValueError
    return found


def passed_by_systemd():
    """Whether systemd has passed the socket to this process (sd_listen_fds)."""
    return os.environ.get("LISTEN_PID") == str(os.getpid()) and os.environ.get("LISTEN_FDS") == "1"


def main(words):
    given = parser().parse_args(words)
    logging.basicConfig(stream=sys.stderr, level=logging.ERROR, format="vethlumi-registrar: %(message)s")
    try:
        if given.command == "check":
            check(given.settings)
        else:
            from vethlumi_registrar import logins, service
            service.serve(logins.Registrar(read_settings(given.settings)), given.port, passed_by_systemd())
    except BadSettings as fault:
        print(f"vethlumi-registrar: {given.settings}: {fault}", file=sys.stderr)
        return 1
    except OSError as fault:
        print(f"vethlumi-registrar: {fault}", file=sys.stderr)
        return 1
    return 0
