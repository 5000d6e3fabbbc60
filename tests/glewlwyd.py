"""glewlwyd, an identity provider as Debian has it: set up by its own administrators' API, with people who have a
password and one-time codes (RFC 6238). Its pages are used by Chromium, or by the same requests as its pages make."""
import base64
import contextlib
import gzip
import hmac
import pathlib
import re
import secrets
import shutil
import sqlite3
import struct
import time
import urllib.parse

import requests
from jwcrypto import jwk
from selenium.common.exceptions import StaleElementReferenceException

from running import free_port, is_listening, until

DOC, SHARE = "usr/share/doc/glewlwyd", "usr/share/glewlwyd"
PEOPLE = {"ana": ["ops", "dba"], "ben": ["web"]}
# Some of its settings are documented by their labels alone.
PLUGIN = {
    "subject-type": "public", "allowed-scope": ["openid"], "jwks-show": True,
    "client-sign_kid-parameter": "sign_kid", "access-token-duration": 300, "refresh-token-duration": 43200,
    "code-duration": 60, "refresh-token-rolling": False, "refresh-token-one-use": "always", "allow-non-oidc": False,
    "auth-type-code-enabled": True, "auth-type-code-revoke-replayed": True, "auth-type-token-enabled": False,
    "auth-type-password-enabled": False, "auth-type-client-enabled": False, "auth-type-refresh-enabled": False,
    "auth-type-device-enabled": False, "auth-type-none-enabled": False, "auth-type-implicit-enabled": False,
    "pkce-allowed": True, "pkce-method-plain-allowed": False, "pkce-required": True,
    "pkce-required-public-client": True, "oauth-as-iss-id": True, "name-claim": "on-demand",
    "email-claim": "mandatory", "scope-claim": "no",
    "claims": [{"name": name, "user-property": of, "type": "string", "mandatory": True, "on-demand": False, "scope": []}
               for name, of in (("groups", "groups"), ("preferred_username", "username"))],
    "introspection-revocation-allowed": True, "introspection-revocation-allow-target-client": True,
    "introspection-revocation-auth-scope": [], "session-management-allowed": False, "oauth-dpop-allowed": False,
}


def is_installed():
    return bool(shutil.which("glewlwyd")) and pathlib.Path("/", DOC).exists()


def totp(secret, step=30):
    """A one-time code of six digits, as authenticator apps show it."""
    mac = hmac.digest(base64.b32decode(secret), struct.pack(">Q", int(time.time()) // step), "sha1")
    at = mac[-1] & 15
    return f"{(struct.unpack('>I', mac[at:at + 4])[0] & 0x7fffffff) % 10 ** 6:06}"


def session():
    made = requests.Session()
    made.trust_env = False
    return made


class Glewlwyd:
    """A provider that runs in a folder, with people and a public client `vethlumi`. `begin` is given its words. It may
    be that of another machine whose files are below `top`, where browsers reach it by another URL."""

    def __init__(self, begin, folder, top="/", url=None):
        self.top, self.folder, self.port = pathlib.Path(top), pathlib.Path(folder), free_port()
        here = f"http://127.0.0.1:{self.port}"
        self.url, self.api, self.keys = url or here, f"{here}/api", [new_key("key-1")]
        self.issuer = f"{self.url}/api/oidc"
        self.people, self.admin = {}, session()
        self.write_settings()
        self.process = begin(["glewlwyd", f"--config-file={self.folder}/glewlwyd.conf"])
        until(lambda: is_listening(self.port))
        self.set_up()

    def write_settings(self):
        written = self.top / self.folder.relative_to("/")
        written.mkdir()
        # A folder that Debian has in the place of a file.
        shutil.copytree(self.top / SHARE / "webapp", written / "webapp", ignore=shutil.ignore_patterns("config.json"))
        shutil.copy(self.top / SHARE / "templates/config.json", written / "webapp/config.json")
        # SQLite opens no file by a path of /proc, as those of another machine have.
        with contextlib.closing(sqlite3.connect(":memory:")) as database:
            database.executescript(gzip.open(self.top / DOC / "database/init.sqlite3.sql.gz", "rt").read())
            (written / "glewlwyd.db").write_bytes(database.serialize())
        text = gzip.open(self.top / DOC / "glewlwyd.conf.sample.gz", "rt").read()
        for form, new in (("^port=.*", f"port={self.port}"), ("^external_url=.*", f'external_url="{self.url}"'),
                          ("^#? *bind_address=.*", 'bind_address="127.0.0.1"'), ("^cookie_secure=1", "cookie_secure=0"),
                          ("^static_files_path=.*", f'static_files_path="{self.folder}/webapp/"'),
                          ("^cookie_domain=.*", ""), ("/var/cache/glewlwyd/glewlwyd.db", f"{self.folder}/glewlwyd.db")):
            text, count = re.subn(form, new, text, flags=re.M)
            assert count, form
        (written / "glewlwyd.conf").write_text(text)

    def ask(self, method, path, **body):
        answer = self.admin.request(method, self.api + path, json=body, timeout=60)
        assert 200 == answer.status_code, f"{method} {path}: {answer.status_code} {answer.text[:300]}"
        return answer.json() if answer.text else None

    def set_up(self):
        """What an administrator does at its pages: users with groups, one-time codes, OpenID Connect, a client."""
        self.ask("POST", "/auth/", username="admin", password="password")
        module = self.ask("GET", "/mod/user/database")
        module["parameters"]["data-format"]["groups"] = {
            "multiple": True, "read": True, "write": True, "profile-read": True, "profile-write": False}
        self.ask("PUT", "/mod/user/database", **module)
        self.ask("PUT", "/mod/user/database/reset")
        self.ask("POST", "/mod/scheme/", module="otp", name="totp", display_name="One-time code", expiration=36000,
                 max_use=0, parameters={"issuer": "example", "secret-minimum-size": 16, "otp-length": 6,
                                        "hotp-allow": False, "totp-allow": True, "totp-window": 1,
                                        "totp-start-offset": 0})
        scope = self.ask("GET", "/scope/openid")
        scope.update(password_required=True, password_max_age=36000, scheme_required={"second": 1},
                     scheme={"second": [{"scheme_type": "otp", "scheme_name": "totp"}]})
        self.ask("PUT", "/scope/openid", **scope)
        self.ask("POST", "/mod/plugin/", module="oidc", name="oidc", display_name="OpenID Connect",
                 parameters=PLUGIN | self.own_parameters())
        self.ask("POST", "/client/", client_id="vethlumi", name="vethlumi login", enabled=True, confidential=False,
                 scope=[], authorization_type=["code"], token_endpoint_auth_method=["none"],
                 redirect_uri=[f"http://127.0.0.1:{port}/callback" for port in (8400, 8401, 8402)])
        for name, groups in PEOPLE.items():
            self.add(name, groups)

    def own_parameters(self):
        return {"iss": self.issuer, "jwks-private": jwks(self.keys), "default-kid": self.keys[0]["kid"]}

    def add(self, name, groups):
        secret = base64.b32encode(secrets.token_bytes(20)).decode()
        self.people[name] = {"password": secrets.token_hex(8), "totp": secret}
        self.ask("POST", "/user/", username=name, name=name.title(), email=f"{name}@example.org", enabled=True,
                 scope=["openid", "g_profile"], password=self.people[name]["password"], groups=groups)
        self.ask("POST", f"/delegate/{name}/profile/scheme/register/", username=name, scheme_type="otp",
                 scheme_name="totp", value={"type": "TOTP", "secret": secret, "time_step_size": 30})

    def rotate(self):
        """A new signing key, in front of the old ones."""
        self.keys.insert(0, new_key(f"key-{len(self.keys) + 1}"))
        plugin = self.ask("GET", "/mod/plugin/oidc")
        plugin["parameters"].update(self.own_parameters())
        self.ask("PUT", "/mod/plugin/oidc", **plugin)
        self.ask("PUT", "/mod/plugin/oidc/reset")

    def disable(self, name):
        user = self.ask("GET", f"/user/{name}")
        self.ask("PUT", f"/user/{name}", **user | {"enabled": False})


def new_key(kid):
    return jwk.JWK.generate(kty="EC", crv="P-256", kid=kid, alg="ES256", use="sig")


def jwks(keys):
    return '{"keys": [%s]}' % ", ".join(it.export() for it in keys)


class Browser:
    """What a person's browser sends to glewlwyd's pages, without a window: a session that has logged in."""

    def __init__(self, provider, name):
        self.provider, self.name, self.session = provider, name, session()

    def post(self, method, path, **body):
        return self.session.request(method, self.provider.api + path, json=body, timeout=60).status_code

    def log_in(self):
        """The password, the one-time code, and the consent for the client: the status of each."""
        known = self.provider.people[self.name]
        return [self.post("POST", "/auth/", username=self.name, password=known["password"]),
                self.post("POST", "/auth/", username=self.name, scheme_type="otp", scheme_name="totp",
                          value={"value": totp(known["totp"])}),
                self.post("PUT", "/auth/grant/vethlumi", scope="openid")]

    def open(self, url):
        """Opens the address of a login, and follows it to the client's own port."""
        # Its login page goes on with this once a session is valid.
        answer = self.session.get(f"{url}&g_continue", allow_redirects=False, timeout=60)
        back = answer.headers.get("location", "")
        assert back.startswith("http://127.0.0.1:84"), (answer.status_code, back or answer.text[:300])
        self.session.get(back, timeout=60)
        return dict(urllib.parse.parse_qsl(urllib.parse.urlsplit(back).query))


# ---- its pages

# The fields and buttons that are shown, each with its name and its text.
SHOWN = """return [...document.querySelectorAll("input,button")].filter(it => it.offsetParent)
  .map(it => [it, it.id, it.innerText.trim()])"""


def log_in_at_the_pages(browser, provider, name, url, pause=1):
    """The password, the code and the consent, as a person gives them at glewlwyd's own pages. Returns what was given,
    in order."""
    known, given = provider.people[name], []

    def is_back():
        # What was found may be of a page that has gone meanwhile.
        with contextlib.suppress(StaleElementReferenceException):
            give(browser, name, known, given)
        return browser.current_url.startswith("http://127.0.0.1:84")
    browser.get(url)
    until(is_back, 120, pause)
    return given


def give(browser, name, known, given):
    """What the page that is shown wants next."""
    found = browser.execute_script(SHOWN)
    shown = {of: it for it, of, _ in found}
    # The consent for this client, once, and what leads on.
    buttons = [(it, text) for it, _, text in found if text in ("Continue", "Grant", "OK")]
    if {"username", "password"} <= {*shown} and "password" not in given:
        shown["username"].send_keys(name)
        shown["password"].send_keys(known["password"] + "\n")
        given.append("password")
    elif {"value", "but"} <= {*shown} and "code" not in given:
        shown["value"].send_keys(totp(known["totp"]))
        shown["but"].click()
        given.append("code")
    elif buttons and not {"value", "username"} & {*shown}:
        (button, text), *_ = buttons
        given.append(text)
        button.click()
