"""Policies as set-up commands read them: the departments in one, which line of it isn't valid, and how two texts of a
department differ. docs/FORMATS.md has the form of each line.
"""
import collections
import ipaddress
import itertools
import re

import setting_up
from setting_up import HOST_PREFIX, Fault
from vethlumi_common.subjects import unverified

NAME, ADMINISTRATOR = "[a-z0-9-]{1,32}", r"[a-z0-9-]{1,32}|[a-z0-9-]{0,31}\{name\}"
RULE = r"[a-z0-9._@-]{1,64}|\*[a-z0-9._@-]{1,63}|\{name\}([.@][a-z0-9._@-]{1,62})?"
OPTIONS = "force-command|source-address|verify-required"
EXTENSIONS = "no-touch-required|permit-(X11|agent|port)-forwarding|permit-pty|permit-user-rc"
KEY_TYPES = (r"(sk-)?ssh-ed25519(@openssh\.com)?|(sk-)?ecdsa-sha2-nistp256(@openssh\.com)?|ecdsa-sha2-nistp(384|521)|"
             "ssh-rsa")
LATEST = 253402300799
LONGEST_PRINCIPAL = 64


def listed(form, least, most):
    """Whether a value is a list of distinct elements of this form, at least and at most so many of them."""
    def is_one(value):
        found = value.split(",") if value else []
        return (least <= len(found) <= most and len({*found}) == len(found)
                and all(re.fullmatch(form, it, re.ASCII) for it in found))
    return is_one


def is_lifetime(value):
    return bool(re.fullmatch("[1-9][0-9]{0,11}", value, re.ASCII)) and int(value) <= LATEST


def is_network(text):
    """Whether a text is a network of IPv4, in its one form."""
    try:
        return str(ipaddress.IPv4Network(text)) == text
    except ValueError:
        return False


def is_demand(value):
    """Whether this is what certificates may have to have: an option's name, and perhaps a value that it can have."""
    name, space, wanted = value.partition(" ")
    networks = wanted.split(",")
    return bool(re.fullmatch(OPTIONS, name)) and (not space or bool(
        name == "force-command" and re.fullmatch("[ -~]{1,200}", wanted)
        or name == "source-address" and len(networks) <= 8 and all(map(is_network, networks))))


# The lines of a department: the word of each, whether a value fits, and what would fit.
LINES = {
    "department": (listed(NAME, 1, 1), "a name: 1 to 32 of a-z, 0-9 and -"),
    "kind": (listed("user|host", 1, 1), "`user` or `host`"),
    "admins": (listed(ADMINISTRATOR, 0, 16),
               "at most 16 callers, joined by commas without spaces; {name} may be the end of one"),
    "principals": (listed(RULE, 1, 16),
                   "1 to 16 principals, joined by commas without spaces; * may be the first letter of one, or {name} "
                   "stand before its . or @"),
    "options": (listed(OPTIONS, 0, 3), "names of critical options, joined by commas without spaces"),
    "extensions": (listed(EXTENSIONS, 0, 6), "names of extensions, joined by commas without spaces"),
    "maxlife": (is_lifetime, f"a number of seconds from 1 to {LATEST}"),
    "namespaces": (listed("[a-z0-9._@-]{1,32}", 0, 8), "at most 8 namespaces, joined by commas without spaces"),
}
# What may stand behind a line: what certificates must have, in the order of their names, and the types of their keys.
BEHIND = {"options": "must", "extensions": "key-types"}
FURTHER = {
    "must": (is_demand, "the name of a critical option, and perhaps a space and its value: a command for "
                        "force-command, 1 to 8 networks such as 10.0.0.0/8 for source-address, none for "
                        "verify-required"),
    "key-types": (lambda value: listed(KEY_TYPES, 1, 7)(value) and all(
        it.startswith("sk-") == it.endswith("@openssh.com") for it in value.split(",")),
        "1 to 7 types of keys, joined by commas without spaces"),
}
# The department of a host, which may ask for its own name.
HOST = """department {name}
kind host
admins host-{name}
principals {host}
options
extensions
maxlife 2592000
namespaces
"""
# The department of all hosts of a domain: each may ask for its own name.
HOSTS = """department {name}
kind host
admins host-{{name}}
principals {{name}}{suffix}
options
extensions
maxlife 2592000
namespaces
"""
# A department that permits nothing any more.
CLOSED = """department {name}
kind {kind}
admins
principals nobody
options
extensions
maxlife 1
namespaces
"""
# Stands in a department for the name in a key ID.
OWN = "{name}"
# What a department for hosts has none of.
OF_USERS = ("options", "must", "extensions", "namespaces")


def blocks(text):
    """The number of the first line of each department, and its lines, up to the one of its namespaces: what is between
    empty lines and comments, as the guard reads a policy."""
    lines, at = re.findall(r"[^\n]*\n|[^\n]+", text), 0
    while at < len(lines):
        if lines[at] == "\n" or lines[at].startswith("#"):
            at += 1
        else:
            end = next((it + 1 for it in range(at, len(lines)) if lines[it].startswith("namespaces")), len(lines))
            yield at + 1, lines[at:end]
            at = end


def words_of(block):
    """The words of a department's lines, with those that may be there and are."""
    words = []
    for word in LINES:
        words.append(word)
        further = BEHIND.get(word)
        while further and block[len(words):] and block[len(words)].startswith(f"{further} ") and (
                further == "must" or further not in words):
            words.append(further)
    return words


def fault_of(block, at):
    """Why a line of a department isn't valid, or None if it is."""
    words = words_of(block)
    if at >= len(words):
        return "the department ends with its line `namespaces ..`"
    word = words[at]
    fits, form = (LINES | FURTHER)[word]
    if at >= len(block):
        return f"the file ends before the line `{word} ..`"
    line = block[at].removesuffix("\n")
    if line.partition(" ")[0] != word:
        return f"this has to be the line `{word} ..`"
    value = line[len(word) + 1:]
    if line == f"{word} " or not fits(value):
        return f"after `{word}` there has to be {form}"
    if word == "must" and any(it.split()[1] >= value.split()[0] for it in block[words.index("must"):at]):
        return "lines `must ..` stand in the order of the options' names"
    if word in OF_USERS and value and block[1] == "kind host\n":
        return f"a department for hosts has no {word}"
    if word == "namespaces" and value and "{name}" in block[3].removesuffix("\n")[len("principals "):].split(","):
        return "a department with {name} alone among its principals has no namespaces"
    return None if block[at].endswith("\n") else "the last line of the file has no line feed"


def explain(text, number):
    """What a policy has in a line that isn't valid: its department, its number, what it has, and what is wrong."""
    # The line after a department may be the first one of the next.
    start, block = [(number, []), *(it for it in blocks(text) if it[0] <= number <= it[0] + len(it[1]))][-1]
    # What begins as another message is read as one, so another line than its first may be named.
    at = 0 if fault_of(block, 0) else number - start
    line = block[at].removesuffix("\n") if at < len(block) else ""
    name = f"the department {block[0].removeprefix('department ').strip()}, " if at and block else ""
    why = fault_of(block, at) or "another department has this name already"
    return f"{name}line {start + at}, {line[:200]!r}: {why}"


def departments_of(text, where="the policy"):
    """The departments of a policy: the lines of each, by its name. The policies of several keys may follow each
    other, if they agree."""
    found = {}
    for start, block in blocks(text):
        for at in range(max(len(block), len(words_of(block)))):
            if fault_of(block, at):
                raise Fault(f"{where} isn't valid: {explain(text, start + at)}")
        name, department = block[0].split()[1], "".join(block)
        if found.setdefault(name, department) != department:
            raise Fault(f"{where} has the department {name} twice, with different lines. If these are the policies of "
                        "several keys, change them so that they agree, or name one key by --name")
    return found


def changes(old, new):
    """The lines by which two texts of a department differ: each of the old one after -, and of the new one after +."""
    pairs = [it for it in itertools.zip_longest(old.splitlines(), new.splitlines()) if len({*it}) > 1]
    return [f"{sign} {line}" for pair in pairs for sign, line in zip("-+", pair) if line is not None]


def warnings(text):
    """What people should know of the departments in a policy that is valid."""
    for _, block in blocks(text):
        found = fields_of("".join(block))
        yield from unverified(",".join(found["department"]), found["key-types"], found["must"])


# ---- who may ask

def fields_of(text):
    """The lists of a department, by their words: an empty one for a word that isn't there."""
    pairs = (line.partition(" ") for line in text.splitlines())
    return collections.defaultdict(list, {word: value.split(",") if value else [] for word, _, value in pairs})


def is_met(principal, rule):
    """Whether a rule permits a principal, whatever the key ID."""
    return principal == rule or (rule.startswith("*") and principal.endswith(rule[1:]) and len(principal) >= len(rule))


def principal_by(rule, name):
    """The principal by which a rule with {name} permits whoever has this name; None if it permits nobody of it."""
    principal = name + rule.removeprefix(OWN)
    is_one = rule.startswith(OWN) and len(principal) <= LONGEST_PRINCIPAL and (rule, name) != (OWN, "root")
    return principal if is_one else None


def is_meant(caller, administrator):
    """Whether a caller is an administrator, if only for certificates of its own name."""
    prefix, own, _ = administrator.partition(OWN)
    return caller.startswith(prefix) if own else caller == administrator


def means_names(text):
    """Whether a department has lists with {name}, so that the names in its key IDs count."""
    found = fields_of(text)
    return any(OWN in it for it in [*found["admins"], *found["principals"]])


def principals_by(text, name):
    """The principals by which a department's rules with {name} permit whoever has this name."""
    return [it for rule in fields_of(text)["principals"] if (it := principal_by(rule, name))]


def is_own(text, host):
    """Whether a department is one of this host alone, in which it may ask for its own name."""
    found = fields_of(text)
    return (found["kind"] == ["host"] and HOST_PREFIX + found["department"][0] in found["admins"]
            and any(is_met(host, it) for it in found["principals"]))


def goes_with(text, host):
    """Whether a department goes with this host: it is the host's own and no other's, or is closed already."""
    found = fields_of(text)
    return (is_own(text, host) and not any(OWN in it for it in found["admins"])
            or text == CLOSED.format(name=setting_up.own_department(host), kind="host"))


def is_of_all(text, host):
    """Whether a department is one in which each host of this one's domain may ask for its own name."""
    found, label = fields_of(text), host.partition(".")[0]
    return (found["kind"] == ["host"] and HOST_PREFIX + OWN in found["admins"]
            and host in principals_by(text, label) and bool(setting_up.NAME.fullmatch(HOST_PREFIX + label)))


def departments_for(departments, host):
    """The names of the departments in which a host may ask for its own name: first the one of its own."""
    own = setting_up.own_department(host)
    return [*(it for it in [own] if it in departments and is_own(departments[it], host)),
            *(it for it, text in departments.items() if it != own and is_of_all(text, host))]
