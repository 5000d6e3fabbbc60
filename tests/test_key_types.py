"""Logins with keys of all seven types: certificates that an office issues and a station signs, at an sshd.

The security keys are those of peers/authenticator.c, which ssh and ssh-keygen load in the place of a device's library.
What a department doesn't permit is refused by the office, and not signed by the station. Touch and PIN are for sshd to
ask for, by what the certificate says. Hosts have the five types that ssh-keygen makes without a device.
"""
import collections
import dataclasses
import itertools
import os
import pathlib

import pytest

from asking import EVERYTHING, department, issue, lasting
from running import TOP, Office, Programs, new_key, run
from stations import Guard, Station
from subject_keys import CERTIFICATES, ED25519, P256, P384, P521, RSA, SK_ED25519, SK_P256
from test_station import Sshd

pytestmark = [pytest.mark.slow, pytest.mark.xdist_group("key types")]

# How ssh-keygen makes each key, by its name. Each is of the type that its name begins with.
KINDS = {"ed25519": ED25519, "p256": P256, "p384": P384, "p521": P521, "rsa": RSA, "sk": SK_ED25519, "skp256": SK_P256}
PLAIN = {"ed25519": ["ed25519"], "p256": ["ecdsa", "-b", 256], "p384": ["ecdsa", "-b", 384],
         "p521": ["ecdsa", "-b", 521], "rsa-2048": ["rsa", "-b", 2048], "rsa-3072": ["rsa", "-b", 3072],
         "rsa-4096": ["rsa", "-b", 4096]}
TOUCHED = {"sk": ["ed25519-sk"], "skp256": ["ecdsa-sk"]}
# Keys that their owner made to ask for the PIN too, or not even for a touch.
PINNED = {f"{name}-pin": [*words, "-O", "verify-required"] for name, words in TOUCHED.items()}
UNTOUCHED = {f"{name}-untouched": [*words, "-O", "no-touch-required"] for name, words in TOUCHED.items()}
KEYS = PLAIN | TOUCHED | PINNED | UNTOUCHED

USERS = "alice,bob"
VERIFY, COMMAND = "verify-required", "force-command echo forced"
HARDWARE = [SK_ED25519, SK_P256]
POLICY = {
    "any": department("any", principals=USERS, key_types=[*CERTIFICATES], **EVERYTHING),
    "plain": department("plain", principals=USERS, **EVERYTHING),
    "others": department("others", principals=USERS, key_types=[it for it in CERTIFICATES if it != ED25519]),
    "hardware": department("hardware", principals=USERS, musts=[VERIFY], key_types=HARDWARE),
    "forced": department("forced", principals=USERS, musts=[COMMAND], key_types=[*CERTIFICATES]),
    "hosts": department("hosts", kind="host", principals="127.0.0.1", key_types=[ED25519, P256, P384, P521, RSA]),
}

# A certificate: its department, the name of its key, its options and extensions, and its principal.
Asked = collections.namedtuple("Asked", "department key options extensions principal", defaults=[(), (), "alice"])
GRANTED, FORCED = "granted\n", "forced\n"
# What sshd says of a signature that isn't enough, and ssh of a key that signs nothing.
NO_TOUCH = "user presence (authenticator touch) requirement not met"
NO_PIN = "user verification requirement not met"
NOTHING_SIGNED = "signing failed for"
# bob's line in sshd's file of principals says that he needs no touch. His certificate has to say so, too.
NO_TOUCH_FOR_BOB = "alice\nno-touch-required bob\n"

# A certificate, what the authenticator has, the PIN that is typed, and what comes of the login.
LOGINS = [
    *((Asked("any", key), "touch", "", GRANTED) for key in [*PLAIN, *TOUCHED]),
    *((Asked("plain", key), "", "", GRANTED) for key in ["ed25519"]),
    *((Asked("others", key), "touch", "", GRANTED) for key in [*PLAIN, *TOUCHED] if key != "ed25519"),
    # a certificate with a command, which must be
    *((Asked("forced", key, (COMMAND,)), "touch", "", FORCED) for key in [*PLAIN, *TOUCHED]),
    # touch
    *((Asked("any", key), "pin", "1234", NOTHING_SIGNED) for key in TOUCHED),
    *((Asked("any", key), "", "", NO_TOUCH) for key in UNTOUCHED),
    *((Asked("any", key, (), ("no-touch-required",)), "", "", NO_TOUCH) for key in UNTOUCHED),
    *((Asked("any", key, (), (), "bob"), "", "", NO_TOUCH) for key in UNTOUCHED),
    *((Asked("any", key, (), ("no-touch-required",), "bob"), "", "", GRANTED) for key in UNTOUCHED),
    # PIN
    *((Asked("hardware", key, (VERIFY,)), "touch pin", "1234", GRANTED) for key in PINNED),
    *((Asked("hardware", key, (VERIFY,)), "touch pin", "0000", NOTHING_SIGNED) for key in PINNED),
    *((Asked("hardware", key, (VERIFY,)), "touch", "", NO_PIN) for key in PINNED),
    *((Asked("hardware", key, (VERIFY,)), "touch pin", "1234", NO_PIN) for key in TOUCHED),
    *((Asked("any", key), "touch pin", "1234", GRANTED) for key in PINNED),
    # of other keys sshd asks for no PIN, whatever the certificate says
    *((Asked("any", key, (VERIFY,)), "", "", GRANTED) for key in PLAIN),
]
CERTIFIED = [*dict.fromkeys(it[0] for it in LOGINS)]

HOSTS = [Asked("hosts", key, principal="127.0.0.1") for key in PLAIN if key not in ("rsa-2048", "rsa-4096")]

# What a department doesn't permit: another type, no PIN, no command, another command.
REFUSED = [
    *(Asked("plain", key) for key in KEYS if key != "ed25519"), Asked("others", "ed25519"),
    *(Asked("hardware", key, (VERIFY,)) for key in PLAIN), *(Asked("hardware", key) for key in [*TOUCHED, *PINNED]),
    *(Asked("forced", key) for key in [*PLAIN, *TOUCHED]),
    *(Asked("forced", key, ("force-command echo other",)) for key in [*PLAIN, *TOUCHED]),
    *(Asked("forced", key, (COMMAND, VERIFY)) for key in TOUCHED),
    *(Asked("hosts", key, principal="127.0.0.1") for key in TOUCHED),
]


@dataclasses.dataclass
class Site:
    """An office that serves with its station, and then an sshd that trusts its CA, in the folder of the keys."""
    folder: pathlib.Path
    office: Office
    served: object
    guard: Guard
    sshd: Sshd = None
    numbers: object = dataclasses.field(default_factory=itertools.count)

    def ask(self, asked):
        """What the office answers to a request for a certificate."""
        return self.served.post("ana", f"k{next(self.numbers)}", issue(
            f"{asked.department}/alice", key=(self.folder / f"{asked.key}.pub").read_text().strip(),
            principals=asked.principal, options=asked.options, extensions=asked.extensions, **lasting(7200))).text

    def sign(self):
        """What the station signs and says."""
        return Station(self.guard, self.served.url, ["--key", self.office.ca_key]).once()

    def certify(self, some):
        """Has certificates issued and signed, and writes each into a file that its serial names."""
        told = [self.ask(it) for it in some]
        assert ["issued"] * len(some) == [it.split()[0] for it in told], told
        serials = [it.split()[1] for it in told]
        assert (0, [f"signed {it}" for it in serials], []) == self.sign()
        files = [self.folder / f"{it}.cert" for it in serials]
        for serial, file in zip(serials, files):
            file.write_bytes(self.served.get(f"/v1/certs/{serial}").body)
        return dict(zip(some, files))


@pytest.fixture(scope="module")
def authenticator(tmp_path_factory):
    """A library that is a security key."""
    library = tmp_path_factory.mktemp("authenticator") / "authenticator.so"
    source = TOP / "tests/peers/authenticator.c"
    run(["cc", "-shared", "-fPIC", "-O1", "-o", library, source, "-lcrypto"], check=True)
    return library


@pytest.fixture(scope="module")
def keys(authenticator, tmp_path_factory):
    """The folder in which a key of each name is, and a program that tells ssh the PIN."""
    folder = tmp_path_factory.mktemp("keys")
    for name, words in KEYS.items():
        device = [] if name in PLAIN else ["-w", authenticator]
        line = new_key(folder / name, "", *words, *device, input=b"1234\n", stdin=None,
                       env=os.environ | {"AUTHENTICATOR": "touch pin"})
        assert KINDS[name.split("-")[0]] == line.split()[0]
    (folder / "askpass").write_text("#!/bin/sh\necho $PIN\n")
    (folder / "askpass").chmod(0o755)
    return folder


@pytest.fixture(scope="module")
def site(program, sshstation, keys, tmp_path_factory):
    folder, programs = tmp_path_factory.mktemp("site"), Programs()
    office = Office(program, folder / "office.db")
    guard = Guard(sshstation, folder / "guard.db", office.ca, "".join(POLICY.values()))
    try:
        with office.serving() as served:
            for name, text in POLICY.items():
                assert 200 == served.post("root", name, text).status
            site = Site(keys, office, served, guard)
            site.sshd = Sshd(programs, folder, [office.ca.read_text()], *host_lines(site.certify(HOSTS)))
            (folder / "principals").write_text(NO_TOUCH_FOR_BOB)
            yield site
    finally:
        programs.end_all()


@pytest.fixture(scope="module")
def certificates(site):
    """The file of each user's certificate."""
    return site.certify(CERTIFIED)


# ---- logins

@pytest.mark.parametrize("place", range(len(LOGINS)), ids=[
    f"{it[0].department}, {it[0].key}: {it[3].strip()}" for it in LOGINS])
def test_who_logs_in(site, certificates, authenticator, place):
    asked, has, pin, due = LOGINS[place]
    before = site.sshd.log.stat().st_size
    done = site.sshd.login(site.folder / asked.key, certificates[asked], "-o", f"SecurityKeyProvider={authenticator}",
                           AUTHENTICATOR=has, SSH_ASKPASS=str(site.folder / "askpass"), SSH_ASKPASS_REQUIRE="force",
                           PIN=pin)
    told = done.stderr.decode() + site.sshd.log.read_text()[before:]
    assert due in (done.stdout.decode() or told), told
    assert (due in (GRANTED, FORCED)) == bool(done.stdout), told


@pytest.mark.parametrize("asked", REFUSED, ids=[f"{it.department}, {it.key}, {len(it.options)}" for it in REFUSED])
def test_an_office_refuses_what_the_department_does_not_permit(site, asked):
    assert "refused 14 NotPermitted\n" == site.ask(asked)


# ---- hosts

def host_lines(certificates):
    """The settings of an sshd with a key and a certificate of each."""
    return [line for asked, file in certificates.items()
            for line in (f"HostKey {file.parent}/{asked.key}", f"HostCertificate {file}")]


# By which names of algorithms a client asks for a certificate, and for a key.
ALGORITHMS = [(name.replace("ssh-rsa", "rsa-sha2-512"), kind.replace("ssh-rsa", "rsa-sha2-256"))
              for kind, name in CERTIFICATES.items() if kind not in HARDWARE]


@pytest.mark.parametrize("certified, plain", ALGORITHMS, ids=[it for _, it in ALGORITHMS])
def test_a_client_knows_a_host_by_its_certificate_alone(site, certificates, room, certified, plain):
    """With a key of each type that sshd has without a device."""
    asked = Asked("plain", "ed25519")
    (room / "known_hosts").write_text(f"@cert-authority * {site.office.ca.read_text()}")
    known = ["-o", f"UserKnownHostsFile={room}/known_hosts", "-o", "StrictHostKeyChecking=yes"]
    done = [site.sshd.login(site.folder / asked.key, certificates[asked], *known, "-o", f"HostKeyAlgorithms={it}")
            for it in (certified, plain)]
    assert [b"granted\n", b""] == [it.stdout for it in done], done
    assert b"Host key verification failed" in done[1].stderr


# ---- the station

NARROW = department("any", principals=USERS, musts=[VERIFY], key_types=[SK_ED25519], **EVERYTHING)


def test_a_station_signs_no_key_that_its_policy_does_not_permit(sshstation, served, keys, room):
    """The office permits all of these, and the policy one alone."""
    site = Site(keys, served.office, served, Guard(sshstation, room / "narrow.db", served.office.ca, NARROW))
    served.post("root", "any", POLICY["any"])
    some = [Asked("any", "p256"), Asked("any", "skp256", (VERIFY,)), Asked("any", "sk"), Asked("any", "sk", (VERIFY,))]
    assert [f"issued {it}" for it in (1, 2, 3, 4)] == [site.ask(it).split("\n")[0] for it in some]
    assert (1, ["signed 4"], ["station: not signed: 3, refused as NotPermitted: 1-3"]) == site.sign()
