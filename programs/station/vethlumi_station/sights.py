"""The keys by which providers sign tokens, each with its first and last sight. They are kept in a file: a station that
was away, or can't reach a provider, judges tokens of that time all the same."""
import base64
import contextlib
import fcntl
import hashlib
import json
import os
import pathlib
import re
import threading
import time

from vethlumi_signon.keys import PAUSE, PUBLIC, NoProvider, UnknownKey, keys_of, page, since_boot

from .faults import Fault
from .files import check_readable

# In seconds: how long after its last sight a key counts without another look at the provider, and how long it counts if
# the provider can't be reached, or doesn't show it any more.
FRESH, COUNTS = 300, 3600
# How many keys are kept, and for how many seconds after the last sight: no certificate lasts longer.
MOST_KEYS, KEPT = 1000, 367 * 86400
# What the JSON Web Key of each type is known by (RFC 7638, section 3.2).
REQUIRED = {"EC": ("crv", "kty", "x", "y"), "RSA": ("e", "kty", "n"), "OKP": ("crv", "kty", "x")}
FORGOTTEN = re.compile(r"([A-Za-z0-9_-]{43}) .*")


def file_of_keys(db):
    return f"{db}-witness"


def file_of_forgotten(db):
    return f"{db}-forgotten"


def thumbprint(key):
    """The thumbprint of a key, by RFC 7638; None if it isn't one of these types."""
    names = REQUIRED.get(key.get("kty"), ())
    if not names or not all(isinstance(key.get(it), str) for it in names):
        return None
    text = json.dumps({it: key[it] for it in names}, sort_keys=True, separators=(",", ":"))
    return base64.urlsafe_b64encode(hashlib.sha256(text.encode()).digest()).rstrip(b"=").decode()


def shown_by(found):
    """The keys of a provider's page by their thumbprints: what is public of them, and what they are for."""
    entries, shown = found.get("keys"), {}
    for it in entries if isinstance(entries, list) else []:
        if isinstance(it, dict) and isinstance(it.get("kid"), str) and (mark := thumbprint(it)):
            shown[mark] = {name: it[name] for name in (*PUBLIC, "kid", "use", "alg", "key_ops") if name in it}
    return shown


def read_kept(path):
    """The keys that are kept: by issuer and thumbprint, each with the seconds of its first and last sight."""
    if not os.path.exists(path):
        return {}
    check_readable(path)
    try:
        found = json.loads(pathlib.Path(path).read_text())
        return {issuer: {mark: {"key": dict(it["key"]), "first": int(it["first"]), "last": int(it["last"])}
                         for mark, it in keys.items()} for issuer, keys in found.items()}
    except (ValueError, TypeError, KeyError, AttributeError, RecursionError):
        raise Fault(f"{path} isn't what the witness has written: if you remove it, it is made anew by the keys that "
                    "the provider shows now") from None


def read_forgotten(path):
    """The thumbprints of the keys that were dropped."""
    with contextlib.suppress(FileNotFoundError):
        return {it[1] for it in map(FORGOTTEN.fullmatch, pathlib.Path(path).read_text().splitlines()) if it}
    return set()


def forget(db, kid):
    """Drops the keys of an ID for good, also if the provider shows them again. Returns how many there are."""
    found = [mark for keys in read_kept(file_of_keys(db)).values() for mark, it in keys.items()
             if it["key"]["kid"] == kid]
    shown = "".join(it if it.isprintable() else "?" for it in kid)
    with open(file_of_forgotten(db), "a") as file:
        fcntl.flock(file, fcntl.LOCK_EX)
        file.write("".join(f"{mark} {shown}\n" for mark in found))
        file.flush()
        os.fsync(file.fileno())
    return len(found)


class Sights:
    """Keys of the issuers. `key` is asked by threads. Only this process writes the file of keys, and only `forget` that
    of the ones that were dropped."""

    def __init__(self, db, clock=time.time):
        self.path, self.dropped, self.clock = file_of_keys(db), file_of_forgotten(db), clock
        self.lock, self.kept, self.tried, self.fault = threading.Lock(), read_kept(self.path), {}, {}

    def key(self, issuer, kid, algorithm, moment):
        """The key of an ID with which a token may have been signed at a moment."""
        with self.lock:
            last, found = self.believed(issuer, kid, algorithm)
            is_seen = (found is None or moment > last + FRESH) and self.look(issuer)
            if is_seen:
                last, found = self.believed(issuer, kid, algorithm)
            if found is not None and moment < last + COUNTS:
                return found
            if is_seen:
                raise UnknownKey
            raise NoProvider(self.fault.get(issuer.url) or "an unknown key, and the keys were fetched just before")

    def believed(self, issuer, kid, algorithm):
        """The last sight of the key of an ID, and the key. Of several with one ID it is the one seen last."""
        forgotten = read_forgotten(self.dropped)
        kept = [it for mark, it in self.kept.get(issuer.url, {}).items()
                if it["key"]["kid"] == kid and mark not in forgotten]
        for it in sorted(kept, key=lambda it: -it["last"])[:1]:
            return it["last"], keys_of({"keys": [it["key"]]}, issuer.algorithms).get((kid, algorithm))
        return 0, None

    def look(self, issuer):
        """Looks at what the issuer shows, unless it has just been tried. Returns whether it was seen."""
        now = since_boot()
        if now - self.tried.get(issuer.url, float("-inf")) < PAUSE:
            return False
        self.tried[issuer.url] = now
        try:
            shown = shown_by(page(issuer.keys_url, issuer.trusted or None, issuer.proxy or None))
            self.fault[issuer.url] = "" if shown else f"{issuer.keys_url}: no keys"
        except NoProvider as fault:
            shown, self.fault[issuer.url] = {}, str(fault)
        if shown:
            self.note(issuer.url, shown, int(self.clock()))
        return bool(shown)

    def note(self, url, shown, now):
        """Notes a sight of these keys."""
        before = self.kept.get(url, {})
        new = {mark: {"key": it, "first": before.get(mark, {"first": now})["first"], "last": now}
               for mark, it in shown.items()}
        every = sorted({**before, **new}.items(), key=lambda it: -it[1]["last"])
        self.kept[url] = {mark: it for mark, it in every[:MOST_KEYS] if it["last"] > now - KEPT}
        self.save()

    def save(self):
        new = f"{self.path}.new"
        with open(new, "w") as file:
            json.dump(self.kept, file, indent=1)
            file.flush()
            os.fsync(file.fileno())
        os.rename(new, self.path)
