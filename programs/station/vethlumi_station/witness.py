"""The witness beside the guard: no certificate of a person is signed without the person's token for this very key. It
believes the provider's signature, and neither the registrar nor the front nor the office."""
from vethlumi.formats import BadFormat, Certificate
from vethlumi_common.signon import evidence_name
from vethlumi_signon import tokens
from vethlumi_signon.keys import NoProvider
from vethlumi_signon.rights import (BEFORE_TOKEN, NoRight, groups_of, key_id_of, name_of, principals_of, times_of)
from vethlumi_signon.settings import BadSettings, Table, fixed_of, read_department, read_departments, read_file
from vethlumi_signon.tokens import BadToken

from .faults import Fault, NoEvidence, Refused
from .files import state_of
from .sights import Sights


def read_witnessed(name, table, issuers):
    """A department, or None for one that no witness looks at, of which nothing else has to be said."""
    if table.values == {"witness": False}:
        return None
    made = read_department(name, table, issuers)
    if made.issuer.audience:
        raise BadSettings("Unbound", table.at("witness"), f"tokens of {made.issuer.label} are for no key, so they are "
                                                          "no evidence: say witness = false, and nothing else")
    if made.is_witnessed and not made.issuer.keys_url:
        raise BadSettings("Missing", f"department.{name}", f"{made.issuer.label} has no setting keys: one URL, which "
                                                           "alone is asked, or a file")
    return made if made.is_witnessed else None


def departments_of(values):
    """The departments in the values of a file. None is for those that no witness looks at."""
    table = Table(values)
    found = read_departments(table, read_witnessed)
    table.end()
    return found


class At:
    """The keys of an issuer as they count at a moment."""

    def __init__(self, sights, issuer, moment):
        self.sights, self.issuer, self.moment = sights, issuer, moment

    def key(self, kid, algorithm):
        return self.sights.key(self.issuer, kid, algorithm, self.moment)


class Witness:
    """Looks at bodies before the guard does. It has settings of its own, which are read again when they change."""

    def __init__(self, given):
        self.path, self.sights, self.state = given.witness, Sights(given.db), None
        # The departments, and the principals that no name may give.
        self.known = {}, set()
        self.read()

    def read(self):
        """Reads the settings, if they have changed."""
        try:
            state = state_of(self.path)
            if state == self.state:
                return
            found = read_file(self.path, departments_of)
        except OSError as fault:
            raise Fault(f"can't read {self.path}: {fault.strerror}") from None
        except BadSettings as fault:
            raise Fault(f"{self.path}: {fault}") from None
        # At once: threads look at bodies meanwhile.
        self.known, self.state = (found, fixed_of({name: it for name, it in found.items() if it})), state

    def files(self):
        """The files that decide what it believes."""
        issuers = [it.issuer for it in self.known[0].values() if it]
        of_issuers = [path for it in issuers for path in (it.trusted, it.keys_url) if path.startswith("/")]
        return [self.path, self.sights.path, self.sights.dropped, *dict.fromkeys(of_issuers)]

    def look(self, body, evidence_of):
        """Raises why a body isn't to be signed. `evidence_of` gives the bytes that are there under a name, or None. A
        host's certificate lets nobody log in, and the guard knows which departments are for hosts."""
        try:
            fields = Certificate.of_bytes(body)
        except BadFormat:
            raise Refused("refused as NotWitnessed NotABody") from None
        name, (departments, fixed) = fields.key_id.partition("/")[0], self.known
        if name not in departments and fields.kind != "host":
            raise Refused("refused as NotWitnessed NoDepartment")
        department = departments.get(name)
        if not department:
            return
        evidence = evidence_of(evidence_name(fields.key_id, fields.blob, fields.after))
        if evidence is None:
            raise NoEvidence
        if why := self.objection(department, fixed, fields, evidence.decode("ascii", "replace")):
            raise Refused(f"refused as NotWitnessed {why}")

    def objection(self, department, fixed, fields, token):
        """Why a token isn't evidence for a certificate, or None if it is."""
        moment = fields.after + BEFORE_TOKEN
        try:
            claims = tokens.verify(token, department.issuer, At(self.sights, department.issuer, moment),
                                   fields.blob, moment)
            name = name_of(department, claims)
            principals = principals_of(department, name, groups_of(department, claims), fixed)
        except BadToken as fault:
            return f"BadToken, {fault}"
        except NoRight as fault:
            return fault.name
        except NoProvider as fault:
            raise OSError(f"the provider's keys: {fault}") from None
        return self.difference(department, fields, claims, name, principals)

    @staticmethod
    def difference(department, fields, claims, name, principals):
        """What a certificate has that the token doesn't give it, or None."""
        after, before = times_of(department, claims)
        options = sorted(it.partition(" ")[::2] for it in department.options)
        equal = {
            "OtherKind": fields.kind == "user", "OtherKeyId": fields.key_id == key_id_of(department, claims, name),
            "OtherPrincipals": bool(fields.principals) and {*fields.principals} <= {*principals},
            "OtherOptions": sorted(fields.options) == options,
            "OtherExtensions": sorted(fields.extensions) == sorted(department.extensions),
            "OtherStart": fields.after == after, "OtherEnd": fields.before == before,
        }
        return next((why for why, is_so in equal.items() if not is_so), None)
