"""Who somebody is, and what they may log in as, by the claims of a token and the settings alone."""
from vethlumi_common.signon import tag_of

from vethlumi_signon import settings as limits

# A certificate begins a minute before its token, for servers whose clocks are behind.
BEFORE_TOKEN = 60


class NoRight(Exception):
    """Why a token gives no certificate: a name and a sentence for who asks, and why for the journal."""

    def __init__(self, name, detail, why=""):
        super().__init__(detail)
        self.name, self.detail, self.why = name, detail, why or detail


def key_id_of(department, claims, name):
    """The key ID of somebody's certificates of a department."""
    return f"{department.name}/{name}/{tag_of(claims['iss'], claims['sub'])}"


def times_of(department, claims):
    """When a certificate begins and ends. Some issuers have fractions of seconds."""
    issued = int(claims["iat"])
    return issued - BEFORE_TOKEN, issued + department.life


def groups_of(department, claims):
    """The groups that a token has: a list of texts, one text, or none."""
    claim = department.issuer.groups
    found = claims.get(claim, []) if claim else []
    found = [found] if isinstance(found, str) else found
    links = claims.get("_claim_names")
    if not isinstance(found, list) or not all(isinstance(it, str) for it in found) or (
            claim and isinstance(links, dict) and claim in links):
        raise NoRight("BadGroups", "the provider didn't send your groups as a list of strings")
    return found


def name_of(department, claims):
    """The name, byte for byte. None is folded or cut into one."""
    found = department.issuer.name_in(claims)
    if found is None:
        raise NoRight("BadName", "the token gives no name that the settings know",
                      f"the claim {department.issuer.name} gives no name")
    if not limits.PERSON.fullmatch(found) or found in limits.NOBODY:
        raise NoRight("BadName", "the name in the token can't be a name here: it has other characters than "
                      f"a-z 0-9 . _ @ -, has over {limits.LONGEST_NAME}, or is root", f"name {found[:64]!r}")
    return found


def is_anothers(principal, name, template, fixed):
    """Whether a principal that a template gives to a name is what another template, no shorter, gives to another name:
    by `{name}`, ana@people would get what `{name}@people` gives to ana."""
    for it in fixed:
        before, here, behind = it.partition(limits.HERE)
        if here and it != template and len(it) >= len(template) \
                and principal.startswith(before) and principal.endswith(behind):
            other = principal[len(before):len(principal) - len(behind)]
            if other != name and limits.PERSON.fullmatch(other):
                return True
    return False


def principals_of(department, name, groups, fixed):
    """What somebody of this name and of these groups may log in as."""
    if department.need and not {*department.need} & {*groups}:
        raise NoRight("NotInGroup", f"{name} isn't in any of the groups that are permitted here")
    own = [it.replace(limits.HERE, name) for it in department.templates]
    if taken := [it for it, rule in zip(own, department.templates) if it != rule and it in fixed]:
        # A name that gives what the settings give to a group would be that group.
        raise NoRight("BadName", f"{name} can't be a name here: the principal {taken[0]} is a group's")
    if taken := [it for it, rule in zip(own, department.templates)
                 if it != rule and is_anothers(it, name, rule, fixed)]:
        raise NoRight("BadName", f"{name} can't be a name here: the principal {taken[0]} belongs to another name")
    given = {it for group in groups for it in department.groups.get(group, ())}
    found = own + sorted(given - {*own})
    if not found:
        raise NoRight("NoPrincipals", f"{name} is in no group that gives anything here")
    if len(found) > limits.MOST_PRINCIPALS:
        raise NoRight("TooManyPrincipals", f"{name} has {len(found)} principals: a certificate has at most "
                                                f"{limits.MOST_PRINCIPALS}")
    return found
