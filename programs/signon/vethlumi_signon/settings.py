"""Settings in TOML that say who gets what by a token: issuers and departments. Each bad setting is refused by a name,
with its line and its key."""
import ipaddress
import os
import re
import tomllib
import urllib.parse
from dataclasses import dataclass, field

from vethlumi import formats

from vethlumi_signon.keys import ALGORITHMS
from vethlumi_signon.tokens import AUDIENCE

# Names of people and workloads are taken byte for byte: none is folded or cut.
PERSON = re.compile(r"[a-z0-9._@-]{1,40}", re.ASCII)
PRINCIPAL = re.compile(r"[a-z0-9._@-]{1,64}", re.ASCII)
LONGEST_NAME, LONGEST_PRINCIPAL, MOST_PRINCIPALS = 40, 64, 16
# Nobody is called so, whatever a provider says.
NOBODY = ("root",)
HERE = "{name}"
EXTENSIONS = ("no-touch-required", "permit-X11-forwarding", "permit-agent-forwarding", "permit-port-forwarding",
              "permit-pty", "permit-user-rc")
LONGEST_LIFE, LEAST_LIFE = 366 * 86400, 60
LONGEST_AGE = 86400


class BadSettings(Exception):
    """A setting that can't be used: the name of the fault, the key and the line of the setting, and why."""

    def __init__(self, name, place, why, line=0):
        self.name, self.place, self.why, self.line = name, place, why, line
        super().__init__(": ".join([name, *([f"line {line}"] if line else []), *([place] if place else []), why]))


@dataclass(frozen=True)
class Issuer:
    """Who signs tokens. A provider of people has a client ID. Workloads have none: their tokens are bound to a key by
    the audience, or have one audience and are unbound. `name` is a claim, and `names` may have a name for each of its
    values."""
    label: str
    url: str
    algorithms: tuple
    oldest: int
    client: str = ""
    audience: str = ""
    keys_url: str = ""
    trusted: str = ""
    name: str = ""
    names: dict = field(default_factory=dict)
    groups: str = ""
    scopes: tuple = ()
    require: dict = field(default_factory=dict)
    proxy: str = ""

    def name_in(self, claims):
        """The name that a token gives, or None."""
        found = claims.get(self.name)
        if not isinstance(found, str):
            return None
        return self.names.get(found) if self.names else found


@dataclass(frozen=True)
class Department:
    """What the people or the workloads of one issuer get. A template of a principal has `{name}` in it."""
    name: str
    issuer: Issuer
    life: int
    templates: tuple
    groups: dict
    need: tuple
    options: tuple
    extensions: tuple
    # Whether a witness beside the station's guard looks at the tokens.
    is_witnessed: bool = True
    # Whether its hosts renew their certificates by their own keys.
    renews: bool = False


def fixed_of(departments):
    """What no name may give: the principals of groups, and those that everybody of a department has; and templates, for
    the principals that each of them gives to other names."""
    return {it for one in departments.values() for some in (one.templates, *one.groups.values()) for it in some}


# ---- reading

class Table:
    """A table of the file. What is taken from it is of the right form; what is left in the end is no setting."""

    def __init__(self, values, place=""):
        if not isinstance(values, dict):
            raise BadSettings("WrongType", place, "this is a table")
        self.values, self.place = dict(values), place

    def at(self, key):
        return f"{self.place}.{key}" if self.place else key

    def refuse(self, name, key, why):
        raise BadSettings(name, self.at(key), why)

    def take(self, key, kind, default=None):
        if key not in self.values:
            if default is None:
                self.refuse("Missing", key, "this setting is required")
            return default
        found = self.values.pop(key)
        if type(found) is not kind:
            words = {str: "a text", int: "a whole number", bool: "true or false", list: "a list", dict: "a table"}
            self.refuse("WrongType", key, f"this is {words[kind]}")
        return found

    def text(self, key, default=None):
        found = self.take(key, str, default)
        if not found.isprintable() or (not found and default is None):
            self.refuse("WrongType", key, "this is a text of characters that can be printed")
        return found

    def texts(self, key, default=None):
        found = self.take(key, list, default)
        if not all(isinstance(it, str) and it and it.isprintable() for it in found):
            self.refuse("WrongType", key, "this is a list of texts")
        if len({*found}) != len(found):
            self.refuse("Repeated", key, "each of a list is named once")
        return tuple(found)

    def number(self, key, least, most, default):
        found = self.take(key, int, default)
        if not least <= found <= most:
            self.refuse("BadNumber", key, f"this is {least} to {most}")
        return found

    def seconds(self, key, least, most, default=None):
        found = self.text(key, default)
        try:
            length = formats.seconds_of(found)
        except formats.BadFormat as fault:
            self.refuse("BadTime", key, str(fault))
        if not least <= length <= most:
            self.refuse("BadTime", key, f"this is {least} seconds to {most}")
        return length

    def url(self, key, default=None, schemes=("https",)):
        """A URL by https, or by one of these; plain HTTP is for tests on one machine otherwise."""
        found = self.text(key, default)
        try:
            parts = urllib.parse.urlsplit(found)
            is_url = (parts.scheme in schemes or parts.scheme == "http" and parts.hostname == "127.0.0.1") \
                and parts.hostname and parts.port != 0 and not parts.query and not parts.fragment \
                and parts.username is None and " " not in found and found.isascii()
        except ValueError:
            is_url = False
        if not is_url:
            self.refuse("BadUrl", key, f"{found!r} isn't a valid {schemes[0]} URL with a host and a path")
        return found

    def file(self, key, default=None):
        found = self.text(key, default)
        if found and not (found.startswith("/") and os.access(found, os.R_OK) and os.path.isfile(found)):
            self.refuse("NoFile", key, f"{found} isn't the absolute path of a readable file")
        return found

    def tables(self, key):
        """The tables below a table, by their names."""
        below = self.take(key, dict, {})
        return {name: Table(it, f"{self.at(key)}.{name}") for name, it in below.items()}

    def end(self):
        for key in self.values:
            self.refuse("UnknownSetting", key, "there is no such setting")


def read_principals(table, key, values, may_have_name):
    for it in values:
        bare = it.replace(HERE, "", 1) if may_have_name else it
        if not PRINCIPAL.fullmatch(bare) and not (bare == "" and may_have_name):
            table.refuse("BadPrincipal", key, f"{it!r} isn't a valid principal" + (
                f", also with a name for {HERE}" if may_have_name else f": a group has no {HERE} and no star"))
        if it != bare and len(bare) + LONGEST_NAME > LONGEST_PRINCIPAL:
            table.refuse("BadPrincipal", key, f"{it!r} is over {LONGEST_PRINCIPAL} bytes with a name of {LONGEST_NAME}")
    return tuple(values)


def read_names(table):
    names = table.take("names", dict, {})
    for value, name in names.items():
        if not isinstance(name, str) or not PERSON.fullmatch(name) or name in NOBODY:
            table.refuse("BadName", "names",
                         f"{name!r} isn't a valid name: 1 to {LONGEST_NAME} of a-z 0-9 . _ @ -, not root")
        if not value or not value.isprintable():
            table.refuse("BadName", "names", f"{value!r} isn't a valid value of a claim")
    return names


def read_require(table):
    found = table.take("require", dict, {})
    for name, value in found.items():
        if type(value) not in (str, int, bool):
            table.refuse("WrongType", f"require.{name}", "this is a text, a whole number, true or false")
    return found


def read_algorithms(table):
    found = table.texts("algorithms")
    if not found or not {*found} <= {*ALGORITHMS}:
        table.refuse("BadAlgorithm", "algorithms", f"these are some of {', '.join(ALGORITHMS)}")
    return found


def read_common(table):
    """What people's providers and the issuers of workloads have in common."""
    url = table.url("issuer")
    keys = table.values.get("keys", "")
    keys = table.file("keys", "") if str(keys).startswith("/") else table.url("keys") if keys else ""
    return {"url": url, "keys_url": keys, "algorithms": read_algorithms(table), "trusted": table.file("cacert", ""),
            "oldest": table.seconds("oldest", 60, LONGEST_AGE, "10m"), "require": read_require(table),
            "proxy": table.url("proxy", None, ("http",)) if "proxy" in table.values else ""}


def read_provider(label, table):
    made = Issuer(label=label, **read_common(table), client=table.text("client_id"), name=table.text("name"),
                  groups=table.text("groups", ""), scopes=table.texts("scopes", ["openid"]))
    if "openid" not in made.scopes:
        table.refuse("BadScope", "scopes", "without the scope openid there is no ID token")
    table.end()
    return made


def read_workloads(label, table):
    unbound = table.take("unbound", bool, False)
    audience = table.text("audience") if unbound else ""
    names = read_names(table)
    if names and "name" in table.values:
        table.refuse("TwoNames", "names", "names come from a table of a claim's values or from a whole claim, not both")
    name = table.text("names_of", "sub") if names else table.text("name")
    made = Issuer(label=label, **read_common(table), audience=audience, name=name, names=names)
    table.end()
    return made


def read_options(table):
    """Critical options as an issue has them."""
    made = []
    for name, value in table.take("options", dict, {}).items():
        key = f"options.{name}"
        if name == "verify-required" and value is True:
            made.append(name)
        elif name == "force-command" and isinstance(value, str) and re.fullmatch(r"[ -~]{1,200}", value):
            made.append(f"{name} {value}")
        elif name == "source-address" and isinstance(value, str) and is_networks(value.split(",")):
            made.append(f"{name} {value}")
        else:
            table.refuse("BadOption", key, "options are verify-required = true, force-command, and source-address with "
                                           "up to eight networks such as 10.0.0.0/8")
    return tuple(made)


def is_networks(texts):
    try:
        return len(texts) <= 8 and all(str(ipaddress.IPv4Network(it)) == it for it in texts)
    except ValueError:
        return False


def read_groups(table, issuer):
    found = table.take("groups", dict, {})
    if found and not issuer.groups:
        table.refuse("NoGroups", "groups", f"{issuer.label} has no claim for groups: a workload has none, and a "
                                           "provider needs the setting groups")
    below = Table({group: [names] if isinstance(names, str) else names for group, names in found.items()},
                  table.at("groups"))
    return {group: read_principals(below, group, below.texts(group), False) for group in found}


def read_issuer(table, issuers):
    """The one issuer of a department."""
    kinds = [kind for kind in issuers if kind in table.values]
    if len(kinds) != 1 or isinstance(table.values[kinds[0]], list):
        table.refuse("TwoProviders" if kinds else "Missing", kinds[0] if kinds else "provider",
                     "a department has one issuer: provider = \"NAME\" or workloads = \"NAME\"")
    label = table.text(kinds[0])
    if label not in issuers[kinds[0]]:
        table.refuse("NoProvider", kinds[0], f"there is no table [{kinds[0]}.{label}]")
    return issuers[kinds[0]][label]


def read_department(name, table, issuers):
    if not formats.NAME.fullmatch(name):
        raise BadSettings("BadDepartment", table.place, "a department's name has 1 to 32 of a-z 0-9 -")
    issuer = read_issuer(table, issuers)
    templates = read_principals(table, "principals", table.texts("principals", []), True)
    groups = read_groups(table, issuer)
    need = table.texts("need", [])
    if need and not issuer.groups:
        table.refuse("NoGroups", "need", f"{issuer.label} has no claim for groups")
    if not templates and not groups:
        table.refuse("NoPrincipals", "principals", "nobody would get a certificate: there are no principals, no groups")
    if len(templates) > MOST_PRINCIPALS:
        table.refuse("NoPrincipals", "principals", f"a certificate has at most {MOST_PRINCIPALS}")
    extensions = table.texts("extensions", [])
    if not {*extensions} <= {*EXTENSIONS}:
        table.refuse("BadExtension", "extensions", f"these are some of {', '.join(EXTENSIONS)}")
    # A token that isn't bound to a key would be evidence for every key.
    is_witnessed = table.take("witness", bool, not issuer.audience)
    if is_witnessed and issuer.audience:
        table.refuse("Unbound", "witness", f"tokens of {issuer.label} aren't bound to a key, so they aren't evidence")
    made = Department(name, issuer, table.seconds("life", LEAST_LIFE, LONGEST_LIFE), templates, groups, need,
                      read_options(table), extensions, is_witnessed, table.take("renew", bool, False))
    table.end()
    return made


def refuse_mixed(issuers):
    """An audience of workloads that is a client of people would let one's tokens be the other's."""
    for workload in issuers["workloads"].values():
        for provider in issuers["provider"].values():
            if workload.audience == provider.client:
                raise BadSettings("AudienceOfClient", f"workloads.{workload.label}.audience",
                                  f"this is the client ID of provider.{provider.label}")
    for provider in issuers["provider"].values():
        if provider.client.startswith(AUDIENCE):
            raise BadSettings("AudienceOfClient", f"provider.{provider.label}.client_id",
                              f"audiences that begin with {AUDIENCE} are those of workloads")


def read_departments(table, read=read_department):
    """The departments of a file, each with its issuer."""
    issuers = {"provider": {name: read_provider(name, it) for name, it in table.tables("provider").items()},
               "workloads": {name: read_workloads(name, it) for name, it in table.tables("workloads").items()}}
    refuse_mixed(issuers)
    departments = {name: read(name, it, issuers) for name, it in table.tables("department").items()}
    if not departments:
        table.refuse("NoDepartment", "department", "there is no table [department.NAME]")
    return departments


def read_file(path, make):
    """What a function makes of the values of a TOML file. A bad setting is refused with its line."""
    try:
        with open(path, "rb") as file:
            text = file.read().decode()
        values = tomllib.loads(text)
    except OSError as fault:
        raise BadSettings("NoFile", "", f"{fault.strerror}") from None
    except ValueError as fault:
        raise BadSettings("NotToml", "", str(fault)) from None
    try:
        return make(values)
    except BadSettings as fault:
        raise BadSettings(fault.name, fault.place, fault.why, line_of(text, fault.place)) from None


def line_of(text, place):
    """The line of a setting, or of the table in which it is missing; 0 if the file has it in another form."""
    best, header = (0, 0), ""
    for number, line in enumerate(text.splitlines(), 1):
        line = line.strip()
        if found := re.match(r"\[\s*([^\[\]]+?)\s*\]", line):
            header, key = found[1].replace('"', ""), ""
        elif found := re.match(r"([\w.-]+|\"[^\"]*\")\s*=", line):
            key = found[1].replace('"', "")
        else:
            continue
        whole = f"{header}.{key}".strip(".")
        if (whole == place or place.startswith(f"{whole}.")) and len(whole) > best[0]:
            best = len(whole), number
    return best[1]
