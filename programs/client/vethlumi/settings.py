"""Settings: where the office is, and who asks. Options of the command line override those of a TOML file."""
import os
import pathlib
import re
import tomllib
import urllib.parse
from dataclasses import dataclass, fields

import platformdirs

from vethlumi_common import files

# The statuses with which a command ends, beside 0.
REFUSED, BAD_WORDS, NO_ANSWER, NOT_SIGNED = 1, 2, 3, 4
# By http, an office on another machine could be anybody on the way to it.
LOCAL = re.compile(r"localhost|127(\.[0-9]{1,3}){3}|::1", re.ASCII)
# What a URL consists of (RFC 3986), without the quotes of a shell.
URL = re.compile(r"https?://[A-Za-z0-9._~:/?@!$&()*+,;=%\[\]-]+", re.ASCII)
# How many ports the provider may send a browser back to.
MOST_PORTS = 16


class BadSettings(Exception):
    """A file of settings that can't be used, or a setting that is missing. Its text says which."""


def folder(found, usual):
    """A folder of this user as platformdirs gives it: on Linux the usual one, unless a variable names another. This
    counts only if it is absolute (XDG Base Directory Specification)."""
    return found if os.path.isabs(found) else os.path.expanduser(usual)


def shown(path):
    """A path as people write it."""
    home = os.path.expanduser("~")
    return f"~{path.removeprefix(home)}" if path.startswith(f"{home}/") else path


def files_of_settings():
    """Where settings may be: for this user, there too where earlier versions looked, and for all users."""
    own = folder(platformdirs.user_config_dir(), "~/.config")
    return [*dict.fromkeys(map(shown, (f"{own}/vethlumi.toml", os.path.expanduser("~/.config/vethlumi.toml")))),
            "/etc/vethlumi/client.toml"]


FILES = files_of_settings()


@dataclass
class Settings:
    """office: the URL of the front, such as https://office.example.org:8443, or of the office itself. certificate: a
    PEM file with a client's key and certificate. cacert: a PEM file with the authority of the front's certificate.
    policy: a file of departments. caller: who asks, if `office` is an office without a front.

    For sign-on: provider: the issuer's URL, as ID tokens have it. client_id: what this client is called there.
    provider_cacert: a PEM file with the authority of the provider's certificate, if that isn't a public one. scope and
    ports: what a login asks for, and the ports to which the provider may send a browser back. registrar: its URL, if
    that isn't the front's. department: for which department a login is. cas: a file with the public keys of the CAs
    whose certificates are taken. signon: the departments whose certificates come from sign-on, for administrators."""
    office: str = ""
    certificate: str = ""
    cacert: str = ""
    policy: str = ""
    caller: str = ""
    provider: str = ""
    client_id: str = ""
    provider_cacert: str = ""
    scope: str = "openid"
    ports: str = "8400,8401,8402"
    registrar: str = ""
    department: str = ""
    cas: str = "/etc/vethlumi/trusted-cas"
    signon: str = ""

    def url(self):
        if not self.office.startswith(("https://", "http://")):
            raise BadSettings(f"no office: set `office` to its URL in {FILES[0]}, or use --office" if not self.office
                              else f"{self.office!r} isn't a URL that begins with https:// or http://")
        if not is_url(self.office):
            raise BadSettings(f"{self.office!r} isn't a URL with a host name, and a port after any colon")
        if is_in_the_open(self.office):
            raise BadSettings(f"{self.office!r}: http is only for an office on this machine")
        return self.office.rstrip("/")

    def secure_url(self, name):
        """The URL of a setting, of a server to which tokens are sent."""
        url = self.needed(name)
        if not is_secure(url):
            raise BadSettings(f"{name}: {url!r} isn't a URL that begins with https://")
        return url

    def needed(self, name):
        """A setting without which there is no sign-on."""
        if not getattr(self, name):
            raise BadSettings(f"no sign-on here: `{name}` isn't set in {FILES[0]} or {FILES[-1]}")
        return getattr(self, name)

    def redirect_ports(self):
        """The ports of this machine to which the provider may send a browser back; 0 is any that is free."""
        found = self.ports.replace(" ", "").split(",")
        are_ports = [re.fullmatch(r"\d{1,5}", it, re.ASCII) and int(it) < 65536 for it in found]
        if len(found) > MOST_PORTS or not all(are_ports):
            raise BadSettings(f"ports: {self.ports!r} isn't a list of ports such as 8400,8401,8402")
        return [*map(int, found)]

    def file(self, name):
        """The path of a setting that names a file, or None where it isn't set."""
        path = getattr(self, name)
        if not path:
            return None
        path = pathlib.Path(path).expanduser()
        if not os.access(path, os.R_OK):
            raise BadSettings(f"can't read {path}, which the setting {name} names")
        return str(path)


def is_url(text):
    """Whether a text is a URL with a host's name, and a port if there is a colon."""
    try:
        found = urllib.parse.urlsplit(text)
        return bool(found.hostname) and found.port != 0 and text.isprintable() and " " not in text
    except ValueError:
        return False


def is_in_the_open(url):
    """Whether others may be on the way to a URL: by http, to another machine."""
    found = urllib.parse.urlsplit(url)
    return found.scheme == "http" and not LOCAL.fullmatch(found.hostname)


def is_secure(text):
    """Whether a text is a URL to which tokens are sent and browsers are led."""
    return (isinstance(text, str) and bool(URL.fullmatch(text)) and is_url(text) and not is_in_the_open(text)
            and "@" not in urllib.parse.urlsplit(text).netloc)


def read_settings(path=None, **given):
    """The settings of a file, or of the first of the usual ones that exists, under what was given."""
    made = Settings()
    names = [it.name for it in fields(Settings)]
    paths = [pathlib.Path(it).expanduser() for it in ([path] if path else FILES)]
    for file in [it for it in paths if path or it.exists()][:1]:
        try:
            # Who names a file by --config chooses whose it is.
            if why := "" if path else files.distrust(file, 0o002):
                raise BadSettings(f"the settings can't be used: {why}. Set HOME to your own folder, or use --config")
            with open(file, "rb") as it:
                found = tomllib.load(it)
        except (OSError, ValueError) as fault:
            raise BadSettings(f"{file}: {fault}") from None
        for name, value in found.items():
            if name not in names or not isinstance(value, str):
                raise BadSettings(f"{file}: {name} isn't a setting, or its value isn't a string; settings are "
                                  f"{', '.join(names)}")
            setattr(made, name, value)
    for name, value in given.items():
        if value:
            setattr(made, name, value)
    return made


def config_folder():
    """The folder of this user's certificates and keys."""
    return os.path.join(os.path.abspath(folder(platformdirs.user_config_dir(), "~/.config")), "vethlumi")


def state_folder():
    """The folder of the outbox."""
    return os.path.abspath(folder(platformdirs.user_state_dir("vethlumi"), "~/.local/state/vethlumi"))
