"""Why something isn't done."""


class Fault(Exception):
    """Why the station ends, or why a round does."""
    status = 1


class WrongPin(Fault):
    """Why a token doesn't take the PIN. Whoever tries it again may lock the token."""
    status = 3


class Refused(Exception):
    """Why the guard refuses a body or a list, or the witness a body."""


class NoEvidence(Exception):
    """What shows that a body is a login's hasn't come."""


class OtherCa(Exception):
    """The CA that a body names, or None if it is for another station."""
