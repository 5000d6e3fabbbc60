"""Sessions of HTTP with somebody who may answer what he likes."""
import http.cookiejar

import requests


def session_of(agent, certificate=None, trusted=None):
    """A session that follows, keeps and takes nothing that it wasn't told to. `certificate` is a file with a key,
    `trusted` one with authorities."""
    made = requests.Session()
    # Neither proxies nor passwords come from the environment.
    made.trust_env = False
    # Even of a redirect that isn't followed, the library would read the whole answer.
    made.get_redirect_target = lambda answer: None
    made.cookies.set_policy(http.cookiejar.DefaultCookiePolicy(allowed_domains=[]))
    made.headers = {"Accept-Encoding": "identity", "User-Agent": agent}
    made.cert, made.verify = certificate, trusted or True
    return made
