"""Pages that post to the front in a browser which has a caller's certificate.

A browser shows the certificate to the front whoever's page has made the request. The office is a real one, and so is
Chromium."""
import contextlib
import functools
import http.server
import threading

import pytest
from selenium.common.exceptions import TimeoutException

from asking import department, issue, post
from browsing import new_browser_of_client
from fronts import Front
from running import Office, Programs, left_out, run, until

pytestmark = [pytest.mark.front, pytest.mark.browser, pytest.mark.xdist_group("front_browser")]


class Page(http.server.BaseHTTPRequestHandler):
    """An empty page, whatever is asked for."""
    def do_GET(self):
        self.send_response(200)
        self.send_header("Content-Type", "text/html")
        self.send_header("Content-Length", "15")
        self.end_headers()
        self.wfile.write(b"<!doctype html>")

    def log_message(self, *_):
        pass


@pytest.fixture(scope="module")
def another_site():
    """The URL of a site that isn't the front's."""
    site = http.server.ThreadingHTTPServer(("127.0.0.1", 0), Page)
    threading.Thread(target=site.serve_forever, daemon=True).start()
    yield f"http://127.0.0.1:{site.server_address[1]}/"
    site.shutdown()
    site.server_close()


@pytest.fixture(scope="module")
def browsed(program, authority, tmp_path_factory):
    """A front with ana's browser before an office that serves, in which ana has three certificates."""
    if run(["unshare", "--map-root-user", "--mount", "true"]).returncode:
        left_out("this user may not give Chromium a folder of policies of its own")
    room = tmp_path_factory.mktemp("browsed")
    office = Office(program, room / "office.db")
    office.apply([post("root", "web", department()), *[post("ana", it, issue(f"web/{it}")) for it in ("a", "b", "c")]])
    programs = Programs()
    with office.serving() as served:
        front = Front(programs, room / "front", authority, served.port)
        front.browser = new_browser_of_client(room, front, "ana")
        front.browser.set_script_timeout(60)
        front.browser.set_page_load_timeout(25)
        yield front
        front.browser.quit()
        programs.end_all()


def show(browser, url):
    """Leads the browser to a page. On a busy machine its driver may miss that the page has come: then once more."""
    for _ in range(3):
        with contextlib.suppress(TimeoutException):
            browser.get(url)
            return
    raise AssertionError(f"{url} isn't shown")


def line_of(front, key):
    """The line of the front's log for a request key."""
    lines = (front.state / "asked.log").read_text().splitlines()
    return next((line for line in lines if f"/v1/requests/{key} " in line), None)


# What a page does, as a script that is given the URL of a message and what to call in the end.
TRIES = {
    "fetch": """fetch(url, {method: "POST", mode: "no-cors", credentials: "include", body: "revoke-serial 1\\n"})
                .then(done, done)""",
    "fetch-keepalive": """fetch(url, {method: "POST", mode: "no-cors", credentials: "include", keepalive: true,
                          referrerPolicy: "no-referrer", body: "revoke-serial 1\\n"}).then(done, done)""",
    "request": """const asked = new XMLHttpRequest(); asked.open("POST", url); asked.withCredentials = true;
                  asked.onloadend = done; asked.send("revoke-serial 1\\n")""",
    "beacon": """navigator.sendBeacon(url, new Blob(["revoke-serial 1\\n"], {type: "text/plain"})); done()""",
    "form": """const form = document.createElement("form"), field = document.createElement("textarea");
               Object.assign(form, {method: "POST", enctype: "text/plain", action: url});
               field.name = "revoke-serial 1\\n"; form.append(field); document.documentElement.append(form);
               done(); form.submit()""",
    "frame": """const frame = document.createElement("iframe"); frame.sandbox = "allow-scripts";
                frame.srcdoc = `<script>fetch("${url}", {method: "POST", mode: "no-cors", credentials: "include",
                  body: "revoke-serial 1\\\\n"})<` + `/script>`;
                document.documentElement.append(frame); done()""",
}


@pytest.mark.parametrize("way", TRIES)
def test_a_page_of_another_site_posts_nothing_as_the_caller(browsed, another_site, way):
    show(browsed.browser, another_site)
    refused_by_the_front(browsed, f"foreign-{way}", TRIES[way])


@pytest.mark.parametrize("way", ["fetch", "request", "beacon"])
def test_the_front_s_own_page_posts_nothing_either(browsed, way):
    show(browsed.browser, f"{browsed.url}/page/")
    assert "Vethlumi: SSH certificate office" == browsed.browser.title
    refused_by_the_front(browsed, f"own-{way}", TRIES[way])


def refused_by_the_front(front, key, script):
    """Has the page send its message under this key, of which the front knows that ana's certificate came with it."""
    front.browser.execute_async_script(f"const [url, done] = arguments; {script}", f"{front.url}/v1/requests/{key}")
    line = until(functools.partial(line_of, front, key), seconds=30)
    assert '"CN=ana" "ana"' in line
    assert ' 403 office=- ' in line
    assert "pending" == state_of(front)


def state_of(front, serial=1):
    """What the office says of a certificate to the station, which is given no kept page."""
    table = front.session("station").get(f"{front.url}/v1/table").text
    return table.splitlines()[serial - 1].split()[2]


def test_a_page_of_another_site_reads_nothing(browsed, another_site):
    """Neither as a script, nor as a picture, nor by a fetch whose answer it can't see."""
    show(browsed.browser, another_site)
    came = browsed.browser.execute_async_script("""
        const [url, done] = arguments, script = document.createElement("script");
        script.onload = () => done("came"); script.onerror = () => done("refused");
        script.src = url; document.documentElement.append(script)""", f"{browsed.url}/v1/table")
    fetched = browsed.browser.execute_async_script("""
        const [url, done] = arguments;
        fetch(url, {mode: "no-cors", credentials: "include"}).then(() => done("came"), () => done("refused"))""",
                                                   f"{browsed.url}/v1/table")
    assert ("refused", "refused") == (came, fetched)


def test_a_page_of_another_site_uses_up_no_limit(browsed, another_site):
    """However often it asks, the front answers the reader: it counts none of that."""
    show(browsed.browser, another_site)
    browsed.browser.execute_async_script("""
        const [url, done] = arguments, asked = [];
        for (let it = 0; it < 300; it++) asked.push(fetch(url, {mode: "no-cors", credentials: "include"}));
        Promise.allSettled(asked).then(done)""", f"{browsed.url}/v1/certs/1/body")
    assert 200 == browsed.session("ana").get(f"{browsed.url}/v1/certs/1/body").status_code

    def lines():
        found = [it for it in (browsed.state / "asked.log").read_text().splitlines() if "/v1/certs/1/body " in it]
        return found[-1:] and " 200 office=200 " in found[-1] and found
    found = until(lines, seconds=30)
    assert '"CN=ana" "ana" "GET /v1/certs/1/body HTTP/1.1" 403 office=- ' in found[0]
    assert 1 == sum(" office=200 " in it for it in found)


def test_the_front_s_own_page_is_shown_what_it_asks_for(browsed):
    show(browsed.browser, f"{browsed.url}/page/")
    came = browsed.browser.execute_async_script("""
        const done = arguments[0], paths = ["/v1/table", "/v1/pending", "/v1/krl", "/v1/cas", "/v1/signers",
          "/v1/certs/1/body", "/page/page.css"];
        Promise.all(paths.map((it) => fetch(it, {cache: "no-store"}).then((answer) => answer.status))).then(done)""")
    assert [200] * 7 == came


def test_a_program_posts_as_the_caller(browsed):
    """What the front refuses is the browser, and not the message."""
    answer = browsed.session("ana").post(f"{browsed.url}/v1/requests/program", data="revoke-serial 2\n")
    assert (200, "revoked") == (answer.status_code, state_of(browsed, 2))


def test_without_a_front_a_page_of_any_site_is_root(browsed, another_site):
    """Why no browser may run on a machine where the office's port can be reached."""
    show(browsed.browser, another_site)
    url = f"http://127.0.0.1:{browsed.office_port}/v1/callers/root/requests/page"
    browsed.browser.execute_async_script("""
        const [url, done] = arguments;
        fetch(url, {method: "POST", mode: "no-cors", body: "revoke-serial 3\\n"}).then(done, done)""", url)
    assert "revoked" == state_of(browsed, 3)
