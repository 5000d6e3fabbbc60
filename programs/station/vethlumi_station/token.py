"""The process that asks a token."""
import functools
import json
import sys

from vethlumi_common.ssh import string

from .limits import LONGEST_BODY, LONGEST_REPLY
from .wire import string_in

# The word that has this program be that process, and how its answers begin.
OF_TOKEN, SIGNED, PIN_REFUSED, FAILED = "--asks-a-token", b"+", b"!", b"-"


def answer_of(work):
    """The answer to what the station asks, and whether it may ask more."""
    import PyKCS11

    of_pins = {getattr(PyKCS11, f"CKR_{it}") for it in (
        "PIN_INCORRECT", "PIN_INVALID", "PIN_LEN_RANGE", "PIN_EXPIRED", "PIN_LOCKED", "USER_PIN_NOT_INITIALIZED")}
    try:
        return SIGNED + work(), True
    except PyKCS11.PyKCS11Error as fault:
        kind = PIN_REFUSED if fault.value in of_pins else FAILED
        return kind + str(fault).encode(), False
    except OSError as fault:
        return FAILED + str(fault).encode(), False


def ask_token():
    """Signs what comes by standard input with a key in a token, until the input ends or the token fails."""
    asked, answers = sys.stdin.buffer, sys.stdout.buffer

    def tell(answer):
        answers.write(string(answer))
        answers.flush()

    try:
        import PyKCS11
    except ImportError:
        tell(FAILED + b"the package python3-pykcs11 is missing")
        return
    session = []
    goes_on, settings = True, json.loads(string_in(asked, LONGEST_REPLY))
    work = functools.partial(open_session, PyKCS11, settings, session)
    while goes_on:
        answer, goes_on = answer_of(work)
        tell(answer)
        if goes_on:
            body = string_in(asked, LONGEST_BODY)
            work = functools.partial(signed_by, session, body, PyKCS11.Mechanism(PyKCS11.CKM_EDDSA, None))


def signed_by(session, body, mechanism):
    """The signature of a body, by C_Sign with the whole of it."""
    return bytes(session[0].sign(session[1], body, mechanism))


def open_session(pkcs11, settings, session):
    """Logs in to a token, and puts its session and the key's handle into a list."""
    library = pkcs11.PyKCS11Lib()
    library.load(settings["module"])
    opened = library.openSession(slot_of(pkcs11, library, settings))
    opened.login(bytes.fromhex(settings["pin"]))
    found = opened.findObjects([(pkcs11.CKA_CLASS, pkcs11.CKO_PRIVATE_KEY),
                                (pkcs11.CKA_ID, bytes.fromhex(settings["id"]))])
    if len(found) != 1:
        raise OSError(f"the token has {len(found) or 'no'} private keys with the ID {settings['id']}")
    # The library is kept too: without it the session would end.
    session[:] = opened, found[0], library
    return b""


def slot_of(pkcs11, library, settings):
    """The slot that is named, that of the token that is named, or that of the only token: the PIN is tried at no
    other."""
    labels = {}
    for slot in library.getSlotList(tokenPresent=True):
        told = library.getTokenInfo(slot)
        if told.flags & pkcs11.CKF_TOKEN_INITIALIZED:
            labels[slot] = str(told.label).rstrip(" \0")
    found = [slot for slot, label in labels.items()
             if settings["slot"] in (None, slot) and settings["token"] in (None, label)]
    if len(found) != 1:
        named = ", ".join(f"{label!r} in slot {slot}" for slot, label in labels.items())
        if not found:
            raise OSError(f"no such token: {named}" if labels else "no token found")
        raise OSError(f"several tokens: choose one with --token or --slot: {named}")
    return found[0]
