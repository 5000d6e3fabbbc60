"""Chromium, and a relay that gives it a client's certificate."""
import contextlib
import http.server
import json
import os
import threading

from selenium import webdriver
from selenium.webdriver.chrome.service import Service

from running import run

# nginx gives these itself, or they belong to one connection.
OWN_LINES = ("connection", "content-length", "transfer-encoding", "date", "server")


def new_browser(folder, driver="/usr/bin/chromedriver", words=()):
    """Headless Chromium with a profile of its own in the folder, begun by this driver, with further words."""
    options = webdriver.ChromeOptions()
    options.binary_location = "/usr/bin/chromium"
    for word in ("--headless=new", "--no-sandbox", "--disable-gpu", "--disable-dev-shm-usage", "--no-first-run",
                 "--disable-background-networking", "--disable-component-update", "--hide-scrollbars",
                 f"--user-data-dir={folder}/browser", *words):
        options.add_argument(word)
    options.set_capability("goog:loggingPrefs", {"browser": "ALL"})
    service = Service(str(driver), env=os.environ | {"HOME": str(folder), "LANG": "C.UTF-8"})
    return webdriver.Chrome(service=service, options=options)


# Chromium reads its policies in /etc, so it gets an /etc/chromium of its own.
DRIVER = """#!/bin/sh
exec unshare --map-root-user --mount sh -c 'mount -t tmpfs none /etc/chromium &&
  mkdir -p /etc/chromium/policies/managed &&
  cp "$0" /etc/chromium/policies/managed/front.json && exec /usr/bin/chromedriver "$@"' "{policy}" "$@"
"""


def trust(folder, authority):
    """Has a browser with its profile in the folder trust this authority. Returns what it keeps its keys in."""
    keys = folder / ".pki/nssdb"
    keys.mkdir(parents=True)
    run(["certutil", "-d", f"sql:{keys}", "-N", "--empty-password"], check=True)
    run(["certutil", "-d", f"sql:{keys}", "-A", "-t", "C,,", "-n", "front", "-i", authority], check=True)
    return f"sql:{keys}"


def new_browser_of_client(folder, front, name):
    """Headless Chromium that has this client's certificate, and shows it to the front without asking anybody."""
    keys, packed = trust(folder, front.authority / "ca.crt"), folder / f"{name}.p12"
    run(["openssl", "pkcs12", "-export", "-in", front.certificate(name), "-name", name, "-passout", "pass:", "-out",
         packed], check=True)
    run(["pk12util", "-d", keys, "-i", packed, "-W", ""], check=True)
    policy, driver = folder / "policy.json", folder / "driver"
    choice = json.dumps({"pattern": front.url, "filter": {}})
    policy.write_text(json.dumps({"AutoSelectCertificateForUrls": [choice]}))
    driver.write_text(DRIVER.replace("{policy}", str(policy)))
    driver.chmod(0o755)
    return new_browser(folder, driver)


class Relay(http.server.ThreadingHTTPServer):
    """Carries a browser's requests to a front with a client's certificate, since a browser takes one by hand alone.

    `asked` has the requests, and `instead` the answers that the relay gives itself, by path: a status, or 0 for none,
    and a body. `session` is the client's; another one may be put in its place."""
    daemon_threads = True

    def __init__(self, front, name):
        self.front, self.asked, self.instead = front, [], {}
        self.session = front.session(name)
        super().__init__(("127.0.0.1", 0), Carrier)
        self.port = self.server_address[1]
        self.url = f"http://127.0.0.1:{self.port}"
        threading.Thread(target=self.serve_forever, daemon=True).start()

    def end(self):
        self.shutdown()
        self.server_close()


class Carrier(http.server.BaseHTTPRequestHandler):
    def log_message(self, *_):
        pass

    def do_GET(self):
        relay = self.server
        if self.path in relay.instead:
            status, body = relay.instead[self.path]
            lines = {"Content-Type": "text/plain"}
        else:
            answer = relay.session.get(relay.front.url + self.path, timeout=60)
            status, lines, body = answer.status_code, answer.headers, answer.content
        with contextlib.suppress(OSError):
            if status:
                self.send_response(status)
                for name, value in lines.items():
                    if name.lower() not in OWN_LINES:
                        self.send_header(name, value)
                self.send_header("Content-Length", str(len(body)))
                self.end_headers()
                self.wfile.write(body)
        relay.asked.append((self.command, self.path, status))

    def do_POST(self):
        self.server.asked.append((self.command, self.path, None))
        self.send_error(501)
