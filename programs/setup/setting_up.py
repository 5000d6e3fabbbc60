"""What the set-up commands share: bundles, questions, and steps that are shown before they are done.

A bundle is a text that one set-up command makes for another. Its parts begin with lines such as `[office]`. Lines with
public keys before the first part are CAs', so `cat ca.pub server.bundle` is a bundle too.
"""
import argparse
import grp
import json
import os
import pathlib
import pwd
import re
import stat
import subprocess
import sys
import time

sys.dont_write_bytecode = True
# In a clone. Debian's package has it where Python looks.
sys.path.append(os.path.join(os.path.dirname(os.path.dirname(os.path.realpath(__file__))), "common"))
from vethlumi_common import files
from vethlumi_common.helps import of_screen
from vethlumi_common.ssh import ED25519_LINE as CA_LINE
from vethlumi_common.ssh import blob_of, fingerprint
from vethlumi_common.texts import plain

LAST_SERIAL = 9223372036854775806
ETC = pathlib.Path("/etc/vethlumi")
PARTS = ("office", "caller", "host", "department", "authority", "certificate", "ca", "policy")
# A public key somewhere in a line: its type and the key.
KEY = re.compile(r"(?:^|(?<=\s))[a-z][a-z0-9@.-]+ AAAA[A-Za-z0-9+/]+={0,2}(?=\s|$)", re.ASCII)
FINGERPRINT = re.compile(r"SHA256:[A-Za-z0-9+/]{43}", re.ASCII)
# A name that begins with - would be taken for an option.
NAME = re.compile(r"[a-z0-9][a-z0-9-]{0,31}", re.ASCII)
# Parts of one line. Root writes them into settings, and names files by them, so nothing else may stand there.
FORMS = {"office": ("URL of a front", re.compile(r"https://[A-Za-z0-9.:\[\]/~_-]{1,300}")),
         "caller": ("name of a caller", NAME), "department": ("name of a department", NAME),
         "host": ("name of a host", re.compile(r"(?=.{1,253}$)[A-Za-z0-9:]([A-Za-z0-9.:-]*[A-Za-z0-9:])?"))}
# The names of servers as callers begin with this, and no others do.
HOST_PREFIX = "host-"
# Closes a database of SQLite whose log is left.
CLOSE = """
import sqlite3, sys
database = sqlite3.connect(sys.argv[1])
database.execute("PRAGMA wal_checkpoint(TRUNCATE)")
database.close()
"""
# Where the list of revoked certificates is, and how long the first one is waited for, in seconds.
LIST, LONGEST_WAIT = pathlib.Path("/var/lib/office-list"), 60
# A file for each unit that has to read what changed, until it has.
UNREAD = pathlib.Path("/var/lib/vethlumi-unread")
# Why a list isn't taken, if no later one comes of itself that is: after the loss of an office, for instance.
LASTING = re.compile(r"refused as (OlderVersion|OtherBytes|Forgets)\b")
# In bytes: more than any file that set-up reads. Some are in folders of other users.
LONGEST_TEXT = 1 << 24


class Fault(Exception):
    """Why a set-up can't go on. `status` is that of a program that failed."""
    status = None


class BadWords(Fault):
    """Why the arguments are none."""


# ---- bundles

def bundle(**parts):
    """The text of a bundle."""
    return "".join(f"[{name}]\n{text.strip()}\n" for name, text in parts.items() if text)


def read_bundle(path):
    """The parts of a bundle in a file, or of standard input for `-`; none for None."""
    if path is None:
        return {}
    try:
        text = sys.stdin.read() if path == "-" else pathlib.Path(path).read_text()
    except (OSError, UnicodeDecodeError) as fault:
        raise Fault(f"can't read {path}: {fault}") from None
    found, part, headings = {}, "ca", set()
    for line in text.splitlines():
        heading = re.fullmatch(r"\[([a-z]+)\]", line)
        if heading and heading[1] not in PARTS:
            raise Fault(f"{path} isn't a valid bundle: it has a part {line}")
        if heading:
            part = heading[1]
            headings.add(part)
        elif line.strip() or part == "policy":
            found[part] = f"{found.get(part, '')}{line}\n"
    for line in found.get("ca", "").splitlines():
        if not CA_LINE.fullmatch(line):
            raise Fault(f"{path} isn't a valid bundle: this line isn't a CA's public key: {line[:60]!r}")
    if not found:
        raise Fault(f"{path} is empty")
    if "ca" in headings and headings - {"ca", "policy"}:
        raise Fault(f"{path} isn't a valid bundle: it has a part [ca], which only a station makes")
    for name in FORMS:
        if name in found:
            check_line(name, found[name].strip())
    return found


def check_line(name, text):
    what, form = FORMS[name]
    if not form.fullmatch(text):
        raise Fault(f"no {what}: {text[:60]!r}")


def own_department(host):
    """The name of a host's own department, if it has one: the host's name with - for each dot."""
    return host.lower().replace(".", "-")


def name_of_host(host, department=None):
    """The host's name as the caller host-NAME, who has at most 32 bytes. In a department of its own, it is that
    department's. In one of all hosts it is what stands before the first dot."""
    check_line("host", host)
    own = own_department(host)
    name = host.lower().partition(".")[0] if department not in (None, own) else own
    if not NAME.fullmatch(name) or not NAME.fullmatch(HOST_PREFIX + name):
        raise Fault(f"{host} gives no name of 1 to 27 of a-z, 0-9 and -")
    return name


def part_of(parts, name, what):
    if not parts.get(name, "").strip():
        raise Fault(f"the bundle has no part [{name}]: {what}")
    return parts[name]


def certificate_of(parts):
    """The caller's key and certificate for the front. One without its key helps nobody, and TLS's own fault says
    nothing of it."""
    text = part_of(parts, "certificate", "the caller's key and certificate")
    for it in ("CERTIFICATE", "PRIVATE KEY"):
        if not re.search(rf"^-----BEGIN [A-Z ]*{it}-----$", text, re.M):
            raise Fault(f"the part [certificate] of the bundle has no {it}, and needs a private key and a certificate. "
                        "Whoever made the request for the certificate has the key: put its text before the certificate")
    return text


def cas_of(parts, named, known=()):
    """The fingerprints of the CAs whose keys stand before a bundle. Whoever makes bundles could put another key there,
    so each is named by an option or known, unless there is one key and nothing to compare it with."""
    found = [*keys_in(parts.get("ca", ""))]
    others = [it for it in found if it not in {*named, *known}]
    if others and (named or known or len(found) > 1):
        raise Fault(f"before the bundle there is the key of a CA that isn't known: {', '.join(others)}. If it is "
                    "one of yours, name each CA by --ca SHA256:..")
    return found


def public_keys_in(path):
    """The text of a file with public keys by which hosts enrol, and with no private one; `-` is standard input."""
    try:
        text = sys.stdin.read() if path == "-" else pathlib.Path(path).read_text()
    except (OSError, UnicodeDecodeError) as fault:
        raise Fault(f"can't read {path}: {fault}") from None
    try:
        keys = json.loads(text)["keys"]
        is_public = bool(keys) and all(it["kty"] and it["kid"] and "d" not in it for it in keys)
    except (ValueError, KeyError, TypeError):
        is_public = False
    if not is_public:
        raise Fault(f"{path} has no public keys such as `vethlumi enrol --new-key` prints")
    return text


# ---- which CAs a machine trusts

def keys_in(text):
    """The public keys in the lines of a text, by their fingerprints."""
    found = {}
    for line in text.splitlines():
        for it in [] if line.startswith("#") else KEY.findall(line):
            if blob := blob_of(it):
                found[fingerprint(blob)] = it
    return found


def trusted_before():
    """The CAs that this machine trusts, by their fingerprints: each with its key, or None if that hasn't come. A server
    names them; a client that was set up before there was a file for them has them as signers of lists."""
    named = re.findall(r"^(?:[0-9]+ )?(SHA256:\S{43})(?: |$)", text_of(ETC / "ca-fingerprints"), re.M)
    keys = keys_in(text_of(ETC / "trusted-cas"))
    if named:
        return {it: keys.get(it) for it in named}
    return keys or keys_in(text_of(ETC / "list-signers")) or keys_in(text_of(ETC / "list-cas"))


class Trust:
    """Which CAs this machine trusts from now on: exactly those that are named, or else those of before. One that trusts
    none takes the one whose key stands before the bundle. /etc/vethlumi/trusted-cas has their keys, and is what sshd
    reads; all other files that say which CAs count are made from it."""

    def __init__(self, parts, named, pattern=None):
        if wrong := [it for it in named if not FINGERPRINT.fullmatch(it)]:
            raise BadWords(f"no fingerprint: {wrong[0]}")
        self.before = trusted_before()
        found = cas_of(parts, named, self.before)
        others = [it for it in keys_in(text_of(ETC / "list-signers")) if it not in self.before]
        if others and not named:
            raise Fault(f"{ETC}/list-signers names a CA that {ETC}/ca-fingerprints doesn't: {', '.join(others)}. Name "
                        "each CA to trust by --ca SHA256:..")
        # Keys count by their fingerprints, so it doesn't matter where they come from.
        known = {it: key for text in (*(text_of(ETC / it) for it in ("list-signers", "list-cas")),
                                      text_of(LIST / "cas.pub"), text_of(ETC / "trusted-cas"), parts.get("ca", ""))
                 for it, key in keys_in(text).items()}
        self.keys = {it: known.get(it) for it in [*named] or [*self.before] or found}
        # All that were ever trusted, and those that aren't any more.
        self.every = keys_in(text_of(ETC / "list-cas")) | {it: known[it] for it in self.before if it in known}
        self.gone = [it for it in self.before if it not in self.keys]
        hosts = re.findall(r"^@cert-authority (\S+) ", text_of(ETC / "known_hosts"), re.M)
        self.patterns = [*dict.fromkeys([*hosts, *([pattern] if pattern else [])])]

    def missing(self):
        """The CAs whose keys haven't come."""
        return [it for it, key in self.keys.items() if not key]

    def former(self):
        """The keys of CAs that aren't trusted any more."""
        return [key for it, key in self.every.items() if it not in self.keys]

    def files(self):
        """The files that are made from the keys that are trusted, with their texts. Whoever has a CA's key may state
        which list is the office's. A list goes on naming certificates of CAs that have ended, so `list-cas` keeps
        them. ssh refuses them whatever else it reads."""
        keys, every = [*self.keys.values()], {**self.every, **self.keys}.values()
        found = {ETC / "list-signers": [f'krl namespaces="krl@vethlumi" {it}' for it in keys], ETC / "list-cas": every}
        if self.patterns:
            found[ETC / "known_hosts"] = [*(f"@cert-authority {it} {key}" for it in self.patterns for key in keys),
                                          *(f"@revoked * {key}" for key in self.former())]
        return {path: "".join(f"{it}\n" for it in lines) for path, lines in found.items()}

    def add_to(self, steps, is_server):
        """The steps that write the files. What isn't trusted any more is taken out before anything is fetched."""
        for it in self.gone:
            steps.add(f"no longer believe the CA {it}", lambda: None)
        for it in self.keys:
            if is_server or it not in self.before:
                steps.add(f"believe the CA {it}", lambda: None)
        if is_server or (ETC / "ca-fingerprints").exists():
            # First: the timer makes the next file from this one.
            steps.file(ETC / "ca-fingerprints", "".join(f"{it}\n" for it in self.keys))
        keys = [key for key in self.keys.values() if key]
        if keys:
            steps.file(ETC / "trusted-cas", "".join(f"{it}\n" for it in keys))
        for path, text in {} if self.missing() else self.files().items():
            steps.file(path, text)

    def fetch(self):
        """Has the timer's unit fetch the keys that haven't come, and makes the files from them. If none is missing, it
        doesn't matter what the front offers."""
        fault = None
        try:
            start("office-ca-keys.service")
        except Fault as why:
            fault = why
        came = keys_in(text_of(ETC / "trusted-cas"))
        if {*came} != {*self.keys}:
            raise fault or Fault(f"{ETC}/trusted-cas has other CAs than those that are named: {', '.join(came)}")
        if fault:
            tell(f"  {fault}")
        self.keys = {it: came[it] for it in self.keys}
        for path, text in self.files().items():
            if text_of(path) != text:
                put(path, text, 0o644)


# ---- questions and steps

def answer(question, given, default=None, option="--help"):
    """What an option gave, or what the person at the terminal answers. Without a terminal the default counts."""
    if given:
        return given
    if sys.stdin.isatty():
        shown = f" [{default}]" if default else ""
        told = input(f"{question}{shown}: ").strip()
        if told or default:
            return told or default
    elif default:
        return default
    raise BadWords(f"{question}? Not a terminal. Pass {option}")


def run(words, shown=None, **how):
    """Runs a program; what it prints is part of the fault if it fails. `shown` are the words that the fault names."""
    done = subprocess.run([str(it) for it in words], text=True, errors="replace",
                          **({"stdin": subprocess.DEVNULL, "capture_output": True} | how))
    if done.returncode:
        # What it has printed may be part of a private key. Some programs give their reason there, but none that is
        # killed.
        printed = done.stdout or ""
        is_secret = done.returncode < 0 or "PRIVATE KEY" in printed
        said = (done.stderr or ("" if is_secret else printed)).strip()[-600:] or f"status {done.returncode}"
        fault = Fault(f"{shown or ' '.join(map(str, words))} failed: {said}")
        fault.status = done.returncode
        raise fault
    return done.stdout


def as_user(user, *words):
    return run(["runuser", "-u", user, "--", *words])


def put(path, text, mode, user="root", group=None):
    """Puts a text into a file, whole or not at all. The folder may be that of a user who isn't root."""
    path = pathlib.Path(path)
    files.put(path, text.encode(errors="surrogateescape"), mode, owner_of(user, group), f".{path.name}.")


def owner_of(user, group):
    """The numbers of a user and a group, if root asks."""
    return None if os.getuid() else (pwd.getpwnam(user).pw_uid, grp.getgrnam(group or user).gr_gid)


def put_database(user, path, make):
    """Makes a database by another name, as this user, and gives it its own name once it is whole. A set-up that is
    killed before that leaves a file that the next one removes, and never one that would be taken for a whole one."""
    new = f"{path}.new"

    def remove():
        as_user(user, "rm", "-f", new, f"{new}-wal", f"{new}-shm")
    remove()
    try:
        make(new)
        # Its log becomes a part of it, so that one name is that of all. -I: this user runs no module of the folder in
        # which the command was typed.
        as_user(user, "/usr/bin/python3", "-I", "-c", CLOSE, new)
        if pathlib.Path(f"{new}-wal").exists():
            raise Fault(f"{new} is in use")
        as_user(user, "mv", "--no-target-directory", new, str(path))
        as_user(user, "sync", str(pathlib.Path(path).parent))
    except BaseException:
        remove()
        raise


def text_of(path):
    """The text of a file; none if it isn't there, or is a link or too long."""
    try:
        text = files.bytes_of(path, LONGEST_TEXT).decode(errors="surrogateescape")
        # As Python reads a text from a file.
        return text.replace("\r\n", "\n").replace("\r", "\n")
    except OSError:
        return ""


def is_of(path, mode, user, group):
    """Whether a file has this mode and, if root asks, belongs to this user."""
    found = os.lstat(path)
    owner = owner_of(user, group)
    return stat.S_IMODE(found.st_mode) == mode and owner in (None, (found.st_uid, found.st_gid))


def marks_of(names):
    return [UNREAD / it for it in names]


def mark_unread(names):
    """Keeps that these units have to read what changed, until they have: a run that is cut off before that has the next
    one do it."""
    UNREAD.mkdir(mode=0o755, parents=True, exist_ok=True)
    for mark in marks_of(names):
        mark.touch()


def is_unread(*names):
    return any(it.exists() for it in marks_of(names))


def have_read(how, names):
    """Has units read what changed, by a command of systemctl."""
    run(["systemctl", *how, *names])
    for mark in marks_of(names):
        mark.unlink(missing_ok=True)


class Steps:
    """What a set-up will do. A step that is done already isn't shown, so a second run shows nothing but changes."""

    def __init__(self, given, program):
        self.given, self.program, self.steps, self.changed = given, program, [], set()
        # What has to be there before the first step: each folder and its mode.
        self.folders = {}
        # The units that will have to read what changes.
        self.readers = []

    def add(self, what, do):
        self.steps.append((what, do))

    def file(self, path, text, mode=0o644, user="root", group=None, what=""):
        """A step that writes a file, unless it has this text, and is as it should be otherwise."""
        is_written = text_of(path) == text
        if is_written and (not os.path.lexists(path) or is_of(path, mode, user, group)):
            return
        self.changed.add(str(path))
        does = f"give {path} the mode {mode:o} and its owner {user}" if is_written else f"write {path}"
        self.add(f"{does}{f' ({what})' if what else ''}", lambda: put(path, text, mode, user, group))

    def lines(self, path, lines, mode=0o644, user="root", group=None, what=""):
        """A step that adds those of the lines to a file that it lacks."""
        old = text_of(path)
        new = [it for it in lines if it not in old.splitlines()]
        if new and old and not old.endswith("\n"):
            old += "\n"
        self.file(path, old + "".join(f"{it}\n" for it in new), mode, user, group, what)

    def database(self, user, path, what, make):
        """A step that makes a database, unless it is there."""
        if path.exists():
            return
        # The new one would be read with this log, and be the old one again.
        log = pathlib.Path(f"{path}-wal")
        if log.exists() and log.stat().st_size:
            raise Fault(f"{log} is the log of a file that isn't there: put {path} back, or the log where that is now")
        left = "" if not pathlib.Path(f"{path}.new").exists() else (
            f"; an earlier run was interrupted and left {path}.new, which is made again")
        self.add(f"make {what} {path}{left}", lambda: put_database(user, path, make))

    def units(self, *names):
        """A step that enables units and starts them, and one that has those that run read what changed, in this run or
        in an earlier one that was cut off."""
        states = subprocess.run(["systemctl", "is-active", *names], capture_output=True, text=True).stdout.split()
        enabled = subprocess.run(["systemctl", "is-enabled", *names], capture_output=True, text=True).stdout.split()
        run_already = [name for name, state in zip(names, states) if state == "active"]
        if [*names] != run_already or {*enabled} != {"enabled"}:
            self.add(f"start {' and '.join(names)}, now and at each boot",
                     lambda: run(["systemctl", "enable", "--now", *names]))
        if run_already and (self.changed or is_unread(*run_already)):
            self.readers += run_already
            self.add(f"have {' and '.join(run_already)} read what changed",
                     lambda: have_read(["reload-or-restart"], run_already))

    def carry_out(self):
        """Shows the steps, asks, and does them."""
        if not self.steps:
            tell("everything is as it should be")
            return
        tell(f"{self.program} will do this:")
        for what, _ in self.steps:
            tell(f"  {what}")
        if not self.given.yes:
            if not sys.stdin.isatty():
                raise BadWords("Not a terminal. Pass --yes to confirm.")
            if input("Go on? [y/N] ").strip().lower() not in ("y", "yes"):
                raise Fault("nothing was done")
        for folder, mode in self.folders.items():
            folder.mkdir(mode=mode, parents=True, exist_ok=True)
        if self.readers:
            mark_unread(self.readers)
        for what, do in self.steps:
            try:
                do()
            except OSError as fault:
                raise Fault(f"{what}: {fault.filename or ''} {fault.strerror}") from None
            except Fault as fault:
                raise Fault(f"{what}: {fault}") from None


def number(low, high, what):
    """Reads an option that is a number: a type for argparse."""
    def read(text):
        if not re.fullmatch("[1-9][0-9]{0,18}", text, re.ASCII) or not low <= int(text) <= high:
            raise argparse.ArgumentTypeError(f"{what} is a number from {low} to {high}: {text!r}")
        return int(text)
    return read


SERIAL, PORT = number(1, LAST_SERIAL, "a serial"), number(1, 65535, "a port")


# ---- the list of revoked certificates, on servers and clients

def list_settings(steps, office, authority, is_unsigned):
    """What the units that fetch the list and the CAs' keys read."""
    check_line("office", office)
    unsigned = f"LIST_FROM=--unsigned --ca {ETC}/list-cas"
    old = [it for it in text_of(ETC / "server.env").splitlines() if not it.startswith("OFFICE=") and it != unsigned]
    if is_unsigned and not any(it.startswith("LIST_FROM=") for it in old):
        old.append(unsigned)
    steps.file(ETC / "server.env", "".join(f"{it}\n" for it in [f"OFFICE={office}", *old]))
    steps.file(ETC / "ca.crt", authority)


def start(unit):
    """Runs a unit that ends by itself. A run that its timer has begun read the settings of before, and is ended. Its
    journal says why it failed."""
    try:
        run(["systemctl", "restart", unit])
    except Fault:
        words = ["journalctl", "--quiet", "--no-pager", "--unit", unit, "--output", "cat", "--lines", "20"]
        told = subprocess.run(words, capture_output=True, text=True, errors="replace").stdout.splitlines()
        # Without what systemd says of it.
        of_systemd = re.compile(rf"{re.escape(unit)}: |(Start|Stop|Finish|Fail|Depend|Deactiv)\w* ")
        own = [it for it in told if not of_systemd.match(it)]
        why = own[-1] if own else f"journalctl -u {unit} says why"
        raise Fault(f"{unit} failed: {why}") from None


def fetch_list():
    end = time.monotonic() + LONGEST_WAIT
    while True:
        try:
            return start("office-list.service")
        except Fault as fault:
            # The station publishes the first list within seconds.
            if time.monotonic() > end or LASTING.search(str(fault)):
                raise
        time.sleep(2)


def tell(text):
    """Tells people something beside the output."""
    print(plain(text), file=sys.stderr, flush=True)


def main(program, doc, options, do, is_for_root=True, passes_on=False):
    """Reads the words of a set-up command, and does it. It ends with 0 if all is done, with 1 if not, and with 2 for
    bad arguments. Options that it doesn't know are for another command, if it passes them on."""
    shown, more = of_screen(doc.strip(), program)
    usage, _, description = shown.partition("\n\n")
    parser = argparse.ArgumentParser(prog=program, usage=usage.removeprefix("usage: "), description=description,
                                     epilog=more, formatter_class=argparse.RawDescriptionHelpFormatter,
                                     allow_abbrev=not passes_on)
    options(parser)
    parser.add_argument("--yes", action="store_true", help="don't ask for confirmation")
    given, given.further = parser.parse_known_args()
    if given.further and not passes_on:
        parser.error(f"unrecognized arguments: {' '.join(given.further)}")
    try:
        if is_for_root and os.getuid():
            raise Fault("this has to be run as root")
        do(given, Steps(given, program))
    except (Fault, EOFError, KeyboardInterrupt) as fault:
        tell(f"{program}: {fault or 'given up'}")
        return 2 if isinstance(fault, BadWords) else 1
    except (OSError, UnicodeError) as fault:
        tell(f"{program}: {fault}")
        return 1
    return 0
