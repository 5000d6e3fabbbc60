"""Commands of sign-on for administrators: leave, people."""
import collections
import json
import re
import sys
import time

import click

from vethlumi import formats
from vethlumi.cli import as_json, ask, counted, main, pass_job, without_asking
from vethlumi.departments import of_office
from vethlumi.formats import BadFormat
from vethlumi.printing import plain, print_json, print_table, say
from vethlumi.refusals import Refused
from vethlumi.settings import REFUSED
from vethlumi_common.signon import tag_of

# The key ID of somebody who has logged in: department, name, and the tag of the account, which is nobody else's ever.
NAME, TAG = r"[a-z0-9._@-]{1,40}", r"[a-z2-7]{16}"
KEY_ID = re.compile(rf"([a-z0-9-]{{1,32}})/({NAME})/({TAG})", re.ASCII)
BOTH = ("disable the account at the identity provider too, and end its sessions there. Neither is enough alone: a "
        "session may go on after the account is disabled, and an account that stays may get another name")


class Account:
    """What the table has of a tag: the names and departments of its key IDs, and what can still be used."""

    def __init__(self):
        self.names, self.departments, self.living = set(), set(), []


def accounts_of(rows, now, departments=()):
    """The accounts of a table by their tags: of these departments, or of all."""
    found = collections.defaultdict(Account)
    for row in rows:
        match = KEY_ID.fullmatch(row.key_id)
        if match and (not departments or match[1] in departments):
            account = found[match[3]]
            account.departments.add(match[1])
            account.names.add(match[2])
            if row.state != "revoked" and row.before > now:
                account.living.append(row)
    return found


def signon_departments(job, named):
    """The departments of which people get certificates by logins: those named, those of the settings, or else all
    departments for users that the office has."""
    found = [*named] or [it for it in job.settings.signon.replace(" ", "").split(",") if it]
    if wrong := [it for it in found if not formats.NAME.fullmatch(it)]:
        raise BadFormat(f"{wrong[0]!r} isn't a valid department")
    return found or [name for name, it in of_office(job).items() if it.kind == "user"]


# ---- somebody leaves

class Leaving:
    """Whose access ends, and which key IDs that takes."""

    def __init__(self, job, name, departments, is_limited):
        self.job, self.name, self.departments, self.is_limited = job, name, departments, is_limited
        self.accounts = accounts_of(job.office.table()[0], time.time(), departments if is_limited else ())

    def key_ids(self, tag):
        """The key IDs of an account: in each department, under each name that it had. Those of certificates that can
        still be used come first."""
        account = self.accounts.get(tag) or Account()
        departments = dict.fromkeys([*self.departments, *sorted(account.departments)])
        found = [f"{department}/{name}/{tag}" for department in departments
                 for name in sorted({self.name, *account.names})]
        living = {it.key_id for it in account.living}
        return sorted(found, key=lambda it: it not in living)

    def tags_by_name(self):
        """The tag of the account that has the name, if it is the only one; none if its key IDs are all revoked."""
        tags = [tag for tag, account in self.accounts.items() if self.name in account.names]
        if not tags:
            raise BadFormat(f"no certificate has a key ID DEPARTMENT/{self.name}/TAG. If the name is right, pass "
                            "--subject")
        _, revoked = self.job.office.krl()
        gone = {it for section in revoked.sections for it in section.key_ids()}
        left = [it for it in tags if not gone.issuperset(self.key_ids(it))]
        if len(left) > 1:
            raise BadFormat(f"several accounts had the name {self.name}: pass --tag {' or --tag '.join(left)}, "
                            "or --subject")
        return left

    def all_key_ids(self, tag):
        """The key IDs to revoke: of the account with this tag, or else of the one with the name."""
        return [key_id for it in ([tag] if tag else self.tags_by_name()) for key_id in self.key_ids(it)]

    def living(self, key_ids):
        return sum(row.key_id in key_ids for it in self.accounts.values() for row in it.living)


def revoke_all(job, key_ids):
    """Revokes key IDs, one after the other. Whether none was refused."""
    are_done = True
    for it in key_ids:
        try:
            kept, reply = job.send(f"revoke-keyid {it}\n")
        except Refused as refused:
            say(f"{it}: {refused}")
            are_done = False
            continue
        kept.drop()
        click.echo(f"{it} revoked; the list has version {reply[2]}")
    return are_done


@main.command(short_help="Revoke all access by sign-on of somebody who has left.")
@click.argument("name", metavar="NAME")
@click.option("--subject", metavar="SUB", help="the account's `sub` at the provider of the settings: for somebody "
                                               "who has no certificate yet, or a name that several had")
@click.option("--tag", metavar="TAG", help="the last part of the account's key IDs")
@click.option("--department", "departments", metavar="NAME", multiple=True,
              help="only in this department; may be repeated [default: `signon` of the settings, or all for users]")
@without_asking
@pass_job
def leave(job, name, subject, tag, departments, yes):
    """Revoke all access by sign-on of somebody who has left, permanently.

    Revokes the key IDs of the account that has NAME, in each department, with or without certificates there, and under
    each name that it had. No later login of this account gets a certificate, unless the provider gives it a new name.
    """
    if not re.fullmatch(NAME, name, re.ASCII):
        raise BadFormat(f"{name!r} isn't a valid name: 1 to 40 of a-z, 0-9, `.`, `_`, `@` and `-`")
    if (subject and tag) or (tag and not re.fullmatch(TAG, tag, re.ASCII)):
        raise BadFormat("give --subject, or --tag with 16 letters of a key ID")
    tag = tag_of(job.settings.secure_url("provider"), subject) if subject else tag
    leaving = Leaving(job, name, signon_departments(job, departments), bool(departments))
    key_ids = leaving.all_key_ids(tag)
    if not key_ids:
        click.echo(f"all key IDs of {name} are revoked already")
        say(BOTH)
        return
    if not yes:
        click.echo(plain("\n".join(key_ids)))
        ask(f"Revoke {counted(len(key_ids), 'key ID')} permanently, with "
            f"{counted(leaving.living(key_ids), 'certificate')} that can still be used?", yes)
    are_done = revoke_all(job, key_ids)
    say(BOTH)
    sys.exit(0 if are_done else REFUSED)


# ---- who has access

def users_of(text):
    """The names in an export of the provider's users: a name on each line, or a JSON list of names."""
    if text.lstrip().startswith("["):
        try:
            found = json.loads(text)
        except (ValueError, RecursionError):
            raise BadFormat("the file isn't JSON") from None
        if not all(isinstance(it, str) for it in found):
            raise BadFormat("the file is a JSON list, but not of names")
    else:
        found = [it for it in text.splitlines() if it]
    if not found:
        raise BadFormat("the file has no names, so it isn't an export of all users")
    return {*found}


@main.command(short_help="Compare the identity provider's users with certificates.")
@click.argument("file", metavar="FILE", type=click.File(encoding="utf-8-sig"))
@click.option("--department", "departments", metavar="NAME", multiple=True,
              help="only in this department; may be repeated [default: all]")
@as_json
@pass_job
def people(job, file, departments, as_json):
    """Compare the users of the identity provider with those who have certificates by sign-on.

    FILE is an export of the users: a name on each line, or a JSON list of names; `-` is standard input. Shows who can
    still use a certificate and isn't in FILE, and ends with status 1 if there is somebody.
    """
    users, now = users_of(file.read()), time.time()
    rows, _ = job.office.table()
    found = []
    for tag, account in sorted(accounts_of(rows, now, departments).items()):
        by_name = collections.defaultdict(list)
        for row in account.living:
            by_name[KEY_ID.fullmatch(row.key_id)[2]].append(row)
        found += [(name, tag, some) for name, some in by_name.items() if name not in users]
    records = [{"name": name, "tag": tag, "departments": sorted({it.department for it in some}),
                "certificates": len(some), "until": formats.date(max(it.before for it in some))}
               for name, tag, some in sorted(found, key=lambda it: it[:2])]
    if as_json:
        for it in records:
            print_json(it)
    else:
        print_table(("name", "tag", "departments", "certificates", "until"), [
            (*[it["name"], it["tag"], ",".join(it["departments"])], str(it["certificates"]), it["until"])
            for it in records], "each of them is a user")
    sys.exit(REFUSED if records else 0)
