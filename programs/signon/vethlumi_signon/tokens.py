"""Tokens: the ID tokens of people (OpenID Connect Core 1.0, 3.1.3.7) and the tokens of workloads, verified with PyJWT.

What isn't expected is refused. A token is believed for one public key: that of people has the key's hash as its nonce,
and that of a workload has it in its audience.
"""
import base64
import hashlib
import json
import re
import time

import jwt

from vethlumi_common.signon import nonce_of, url64

from vethlumi_signon.keys import UnknownKey

LONGEST_TOKEN = 8192
FORM = re.compile(r"[A-Za-z0-9_-]+\.[A-Za-z0-9_-]+\.[A-Za-z0-9_-]+", re.ASCII)
# How many seconds the clocks of an issuer and of this machine may differ.
SKEW = 30
# No time of a token is later: seconds since 1970, far over any that an office takes.
LAST_TIME = 1 << 40
LONGEST_TEXT = 1024
AUDIENCE = "vethlumi:"


class BadToken(Exception):
    """Why a token isn't believed. Its text is for the journal, and never has the token."""


def audience_of(blob):
    """The audience by which a workload's token is one for this public key alone."""
    return AUDIENCE + hashlib.sha256(blob).hexdigest()


def decoded(part):
    """The bytes of a part of a token, which has one text alone."""
    try:
        data = base64.urlsafe_b64decode(part + "=" * (-len(part) % 4))
    except ValueError:
        raise BadToken("a part isn't base64url") from None
    if url64(data) != part:
        raise BadToken("a part has bits beyond its bytes")
    return data


def read_object(data, what):
    """An object in JSON, in which each name occurs once."""
    def distinct(pairs):
        found = dict(pairs)
        if len(found) != len(pairs):
            raise ValueError
        return found

    def no_number(text):
        raise ValueError(text)

    try:
        found = json.loads(data.decode(), object_pairs_hook=distinct, parse_constant=no_number)
    except (ValueError, RecursionError):
        raise BadToken(f"the {what} is no JSON, or a name occurs twice in it") from None
    if not isinstance(found, dict):
        raise BadToken(f"the {what} isn't an object")
    return found


def is_time(value):
    return isinstance(value, (int, float)) and not isinstance(value, bool) and 0 <= value < LAST_TIME


def is_text(value, longest=LONGEST_TEXT):
    """Whether a claim is a text that has bytes: JSON can name halves of characters, which have none."""
    return isinstance(value, str) and 1 <= len(value) <= longest and not re.search("[\ud800-\udfff]", value)


def header_of(token, algorithms):
    """The header of a token in compact form that an issuer with these algorithms may have signed."""
    if not isinstance(token, str) or len(token) > LONGEST_TOKEN or not FORM.fullmatch(token):
        raise BadToken("no JWT in compact form")
    header, *_ = [decoded(it) for it in token.split(".")]
    found = read_object(header, "header")
    if found.get("alg") not in algorithms:
        raise BadToken("another algorithm")
    if not is_text(found.get("kid")):
        raise BadToken("no key ID")
    if "crit" in found or "b64" in found:
        raise BadToken("an extension of the header")
    # An access token or a logout token is signed by the same key.
    if not isinstance(found.get("typ", "JWT"), str) or found.get("typ", "JWT").upper() != "JWT":
        raise BadToken("a token of a different type")
    return found


def signed_claims(token, issuer, keys):
    """The claims of a token that this issuer has signed."""
    header = header_of(token, issuer.algorithms)
    try:
        key = keys.key(header["kid"], header["alg"])
    except UnknownKey:
        raise BadToken("an unknown key") from None
    try:
        # The signature. Everything else is judged below: PyJWT takes times as texts, and several audiences.
        jwt.decode(token, key, algorithms=[header["alg"]], options={
            "verify_signature": True, "verify_exp": False, "verify_iat": False, "verify_nbf": False,
            "verify_aud": False, "verify_iss": False})
    except (jwt.PyJWTError, ValueError, RecursionError) as fault:
        raise BadToken(f"PyJWT: {type(fault).__name__}") from None
    return read_object(decoded(token.split(".")[1]), "claims")


def judge_times(claims, oldest, now):
    """Refuses what has ended, begins later, or was issued long ago."""
    if not is_time(claims.get("exp")) or not is_time(claims.get("iat")) or not is_time(claims.get("nbf", 0)):
        raise BadToken("a time is missing or invalid")
    if now >= claims["exp"] + SKEW:
        raise BadToken("ended")
    if claims["iat"] > now + SKEW or claims.get("nbf", 0) > now + SKEW:
        raise BadToken("not yet valid: compare the clocks")
    if now > claims["iat"] + oldest:
        raise BadToken("issued too long ago")


def verify(token, issuer, keys, blob, now=None):
    """The claims of a token, if it is this issuer's, for this office, and for the key of this blob."""
    claims = signed_claims(token, issuer, keys)
    judge_times(claims, issuer.oldest, time.time() if now is None else now)
    if claims.get("iss") != issuer.url:
        raise BadToken("another issuer")
    if not is_text(claims.get("sub")):
        raise BadToken("no subject")
    bound = issuer.client or issuer.audience or audience_of(blob)
    # A token for several audiences is in others' hands as well.
    if claims.get("aud") not in (bound, [bound]):
        raise BadToken("for another client or key")
    if issuer.client and claims.get("azp", issuer.client) != issuer.client:
        raise BadToken("requested by another client")
    if issuer.client and claims.get("nonce") != nonce_of(blob):
        raise BadToken("the nonce isn't that of this key")
    if issuer.audience and not is_text(claims.get("jti")):
        raise BadToken("no ID of the token")
    for name, value in issuer.require.items():
        # To Python, 1 equals true.
        if type(claims.get(name)) is not type(value) or claims[name] != value:
            raise BadToken(f"the claim {name} isn't as the settings require")
    return claims
