"""The keys by which an issuer signs its tokens: fetched from it, kept for a while, and fetched again as they change."""
import json
import threading
import time

import jwt
from cryptography.hazmat.primitives.asymmetric.rsa import RSAPublicKey

from vethlumi_signon.web import NoAnswer, fetch

# The type of key of each algorithm, and its curve. A key is only used with its own algorithms, so a public key is never
# the secret of an HMAC.
ALGORITHMS = {
    "RS256": ("RSA", None), "RS384": ("RSA", None), "RS512": ("RSA", None),
    "PS256": ("RSA", None), "PS384": ("RSA", None), "PS512": ("RSA", None),
    "ES256": ("EC", "P-256"), "ES384": ("EC", "P-384"), "ES512": ("EC", "P-521"), "EdDSA": ("OKP", "Ed25519"),
}
# What is taken of a key that an issuer shows: only the public half, whatever else its page has.
PUBLIC = ("kty", "crv", "x", "y", "n", "e")
LEAST_RSA_BITS = 2048
LONGEST_PAGE = 1 << 18
# Seconds: until known keys are fetched again, until they aren't believed any more though the issuer is away, between
# two attempts to fetch, and for one page.
FRESH, KEPT, PAUSE, LONGEST_FETCH = 300, 3600, 10, 5
# How many logins wait for one fetch of keys.
MOST_WAITING = 16


class NoProvider(Exception):
    """The issuer doesn't answer, or not as an issuer does. Its text is for the journal."""


class UnknownKey(Exception):
    """The issuer has no such key: it was asked after the token came."""


def since_boot():
    """Seconds that also pass while the machine sleeps."""
    return time.clock_gettime(time.CLOCK_BOOTTIME)


def page(url, trusted, proxy=None):
    """An object in JSON. `url` may be the path of a file."""
    try:
        if url.startswith("/"):
            with open(url, "rb") as file:
                data = file.read(LONGEST_PAGE)
        else:
            answer = fetch("GET", url, trusted=trusted, proxy=proxy, seconds=LONGEST_FETCH, longest=LONGEST_PAGE)
            if answer.status != 200:
                raise NoProvider(f"{url}: status {answer.status}")
            data = answer.body
        found = json.loads(data)
    except (NoAnswer, OSError, ValueError, RecursionError) as fault:
        raise NoProvider(str(fault) if isinstance(fault, NoAnswer) else f"{url}: {type(fault).__name__}") from None
    if not isinstance(found, dict):
        raise NoProvider(f"{url}: no object")
    return found


def is_for(entry, algorithm):
    """Whether a key of a page may verify signatures of this algorithm."""
    kind, curve = ALGORITHMS[algorithm]
    return (entry.get("kty") == kind and (curve is None or entry.get("crv") == curve)
            and entry.get("use", "sig") == "sig" and entry.get("alg", algorithm) == algorithm
            and "verify" in entry.get("key_ops", ["verify"]))


def keys_of(found, algorithms):
    """The keys of a page, by ID and algorithm."""
    known, entries = {}, found.get("keys")
    for entry in entries if isinstance(entries, list) else []:
        if not isinstance(entry, dict) or not isinstance(entry.get("kid"), str):
            continue
        try:
            chosen = [it for it in algorithms if is_for(entry, it)]
            public = {name: entry[name] for name in PUBLIC if name in entry}
            for algorithm in chosen:
                key = jwt.PyJWK(public, algorithm=algorithm).key
                if isinstance(key, RSAPublicKey) and key.key_size < LEAST_RSA_BITS:
                    continue
                if (entry["kid"], algorithm) in known:
                    raise NoProvider("two keys have one ID")
                known[entry["kid"], algorithm] = key
        except (jwt.PyJWTError, ValueError, TypeError, KeyError):
            # A key that can't be read verifies nothing.
            continue
    return known


class Keys:
    """The keys of one issuer."""

    def __init__(self, issuer, algorithms, keys_url=None, trusted=None, proxy=None, clock=since_boot):
        self.issuer, self.algorithms, self.keys_url = issuer, algorithms, keys_url
        self.trusted, self.proxy = trusted, proxy
        self.clock, self.changed = clock, threading.Condition()
        self.known, self.fetched, self.tried, self.fault = {}, None, None, "not asked yet"
        self.is_fetching, self.waiting = False, 0

    def fetch(self):
        """The keys as the issuer shows them now. It has to name itself exactly as the settings do."""
        url = self.keys_url
        if not url:
            found = page(self.issuer.rstrip("/") + "/.well-known/openid-configuration", self.trusted, self.proxy)
            if found.get("issuer") != self.issuer:
                raise NoProvider("the issuer names itself otherwise")
            url = found.get("jwks_uri")
            if not isinstance(url, str) or not url.startswith(self.issuer.partition(":")[0] + "://"):
                raise NoProvider("the issuer names no page of keys, or none by https")
        return keys_of(page(url, self.trusted, self.proxy), self.algorithms)

    def key(self, kid, algorithm):
        """The key of this ID, which isn't believed much longer than the issuer shows it."""
        asked = self.clock()
        with self.changed:
            if (kid, algorithm) in self.known and asked - self.fetched < FRESH:
                return self.known[kid, algorithm]
            if self.is_fetching and self.waiting >= MOST_WAITING:
                # Strangers can have as many wait. That keeps nobody out whose key is known.
                if (kid, algorithm) not in self.known:
                    raise NoProvider("many wait for the issuer's keys")
            elif self.is_fetching:
                self.wait()
            elif self.tried is None or asked - self.tried >= PAUSE:
                self.fetch_now()
            found = self.known.get((kid, algorithm))
            if found and self.clock() - self.fetched < KEPT:
                return found
            if self.fetched is not None and self.fetched >= asked:
                raise UnknownKey
            raise NoProvider(self.fault or "an unknown key, and the keys were fetched just before")

    def wait(self):
        """Waits for the fetch that is under way."""
        self.waiting += 1
        self.changed.wait_for(lambda: not self.is_fetching, 3 * LONGEST_FETCH)
        self.waiting -= 1

    def fetch_now(self):
        """Fetches the keys, without holding up those that need none."""
        self.is_fetching, self.tried = True, self.clock()
        begun = self.tried
        self.changed.release()
        known, fault = None, ""
        try:
            known = self.fetch()
        except NoProvider as it:
            fault = str(it)
        finally:
            self.changed.acquire()
            self.is_fetching = False
            if known is not None:
                self.known, self.fetched = known, begun
            self.fault = fault
            self.changed.notify_all()

