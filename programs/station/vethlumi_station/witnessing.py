"""The command `station witness`: the keys of providers that are kept, and what settings mean."""
import argparse
import contextlib
import os
import sys

from .faults import Fault
from .files import check_kept
from .journal import print_line


NEEDED = "the witness needs the packages python3-jwt and python3-requests"


def say(fault):
    """Says why the command fails, and returns its status."""
    with contextlib.suppress(Fault):
        print_line(f"station: {fault}", sys.stderr)
    return 1


def words(given, help_text):
    usage = "station witness [--db FILE [--forget KID] | --check FILE] (station --help explains all)"
    parser = argparse.ArgumentParser(prog="station witness", usage=usage, add_help=False, allow_abbrev=False)
    parser.add_argument("-h", "--help", action="store_true")
    for name in ("db", "forget", "check"):
        parser.add_argument(f"--{name}")
    found = parser.parse_args(given)
    if found.help:
        print(help_text, end="")
        sys.exit()
    if bool(found.db) == bool(found.check) or (found.forget and not found.db):
        parser.error("one of --db and --check is wanted, and --forget needs --db")
    return found


def become_owner(db):
    """If root asks, goes on as the user whose guard this is, so that the station may read what is written."""
    try:
        owner = os.stat(db)
    except OSError as fault:
        raise Fault(f"{db}: {fault.strerror}") from None
    if not os.getuid() and owner.st_uid:
        os.setgroups([])
        os.setgid(owner.st_gid)
        os.setuid(owner.st_uid)


def date(moment):
    from vethlumi.formats import date as of_moment
    return of_moment(moment)


def show(db):
    """Prints the keys of the provider that are kept."""
    from .sights import file_of_forgotten, file_of_keys, read_forgotten, read_kept
    check_kept(file_of_keys(db))
    forgotten = read_forgotten(file_of_forgotten(db))
    for issuer, keys in read_kept(file_of_keys(db)).items():
        for mark, it in keys.items():
            dropped = " dropped" if mark in forgotten else ""
            line = f"{it['key']['kid']} {mark} {date(it['first'])} {date(it['last'])} {issuer}{dropped}"
            print("".join(letter if letter.isprintable() else "?" for letter in line))


def check(path):
    """Prints the departments of settings, each with its provider, or with - if no witness looks at it."""
    from vethlumi_signon.settings import BadSettings, read_file

    from .witness import departments_of
    try:
        found = read_file(path, departments_of)
    except BadSettings as fault:
        raise Fault(f"{path}: {fault}") from None
    for name, it in found.items():
        print(name, it.issuer.label if it else "-")


def drop(db, kid):
    from .sights import forget
    if not (count := forget(db, kid)):
        raise Fault(f"no key of the ID {kid!r} is kept")
    print(f"dropped {count}")


def of_witness(given, help_text):
    """The status with which the command ends."""
    found = words(given, help_text)
    try:
        if found.check:
            check(found.check)
            return 0
        become_owner(found.db)
        if found.forget:
            drop(found.db, found.forget)
        else:
            show(found.db)
    except ImportError as fault:
        return say(f"{NEEDED}: {fault}")
    except (Fault, OSError) as fault:
        return say(fault)
    return 0
