"""The page in headless Chromium: an office, the front before it, and what the browser then shows.

What is to be shown is read from the office's routes, as docs/FORMATS.md gives their forms, and compared with the page's
elements. A relay carries the browser's requests to the front with a reader's certificate.
"""
import base64
import calendar
import collections
import contextlib
import datetime
import hashlib
import re
import struct
import time
import zoneinfo

import pytest
from selenium.webdriver.common.by import By
from selenium.webdriver.common.keys import Keys

from asking import CA, LATEST, OTHER_CA, deliver, department, exchange, issue, post, revoke_keyid, revoke_range
from asking import revoke_serial, rollover
from browsing import Relay, new_browser
from fronts import Front
from running import PROGRAMS, Office, Programs, free_port, until

pytestmark = [pytest.mark.front, pytest.mark.browser, pytest.mark.slow, pytest.mark.xdist_group("page")]

ROUTES = ("pending", "table", "krl", "cas", "signers")
ZONE = "America/St_Johns"
PLACE = zoneinfo.ZoneInfo(ZONE)
STATES = ("waiting", "signed", "revoked", "expired")
POLICY = ("default-src 'none'; script-src 'self'; style-src 'self'; connect-src 'self'; base-uri 'none'; "
          "form-action 'none'; frame-ancestors 'none'; require-trusted-types-for 'script'; trusted-types 'none'")


# ---- the offices

NOW = int(time.time())
HOUR, DAY = 3600, 86400
# Department, the rest of the key id, the validity's two ends from now on, and whether it is signed.
CERTIFICATES = [
    ("web", "alice", -400 * DAY, -35 * DAY, True), ("web", "bob", -60 * DAY, 305 * DAY, True),
    ("hosts", "db1.example.org", -59 * DAY, 306 * DAY, True), ("hosts", "db2.example.org", -59 * DAY, 306 * DAY, True),
    ("backup", "nightly", -40 * DAY, -10 * DAY, True), ("web", "carol@example.org", -30 * DAY, 60 * DAY, True),
    ("hosts", "www.example.org", -21 * DAY, 344 * DAY, True), ("web", "dave", -20 * DAY, 10 * DAY, True),
    ("web", "alice", -9 * DAY, 21 * DAY, True), ("backup", "nightly", -8 * DAY, 22 * DAY, True),
    ("web", "erin", -6 * DAY, 24 * DAY, True), ("hosts", "build.example.org", -4 * DAY, 361 * DAY, True),
    ("web", "frank", -2 * DAY, -DAY, False), ("web", "grace", -9 * HOUR, 15 * HOUR, True),
    ("hosts", "mail.example.org", -2 * HOUR, 363 * DAY, False), ("web", "alice/laptop", -1500, 7 * HOUR, True),
    ("backup", "weekly", -600, 30 * DAY, False), ("web", "heidi", 2 * HOUR, 10 * HOUR, False),
]
# The same number of rests of key ids: what a browser might take for HTML, and what it might decode.
HOSTILE = [
    "<script>hit()</script>", "<script/src=//evil.example/x.js></script>", "<img/src=x/onerror=hit()>",
    "<svg/onload=hit()>", "\"><img/src=x/onerror=hit()>", "'onfocus='hit()'autofocus='",
    "</td></tr></table><h1>gone</h1>", "&lt;b&gt;&amp;&#60;&quot;", "<!--", "]]>",
    "<iframe/src=javascript:hit()>", "</code><style>*{display:none}</style>",
    "javascript:hit()", "<a/href=javascript:hit()>x</a>", "${hit()}{{hit()}}", "\\u003cb\\u003e%3Cb%3E", "__proto__",
    "<" + 63 * "<",
]


class Shown:
    """An office in a file, to which messages are applied at moments that are chosen, and that is served at a port."""

    def __init__(self, program, folder, name, port):
        self.office, self.port, self.keys = Office(program, folder / f"{name}.db", ca=CA), port, 0
        self.serving = contextlib.ExitStack()

    def apply(self, messages):
        """Applies (caller, message, moment) while the office isn't served. Each has to be accepted."""
        asked = []
        for caller, message, moment in messages:
            self.keys += 1
            asked.append(exchange(post(caller, f"k-{self.keys}", message), moment))
        given = self.office.apply(asked)
        assert [200] * len(asked) == [it.status for it in given], given[-1]

    def begin(self):
        self.served = self.serving.enter_context(self.office.serving(port=self.port))

    def end(self):
        self.serving.close()

    def get(self, route):
        return self.served.get(f"/v1/{route}").body

    def deliveries(self):
        """Deliveries for all that waits, by serial. An office looks at no signature."""
        self.begin()
        pending = [line.split() for line in self.get("pending").decode().splitlines()]
        self.end()
        return {int(serial): deliver(serial, digest) for serial, digest in pending}


def of_department(name, kind, principals, namespaces=""):
    return department(name, kind=kind, principals=principals, maxlife=LATEST, namespaces=namespaces)


def of_certificate(key_id, after, before):
    principal = "db.example.org" if key_id.startswith("hosts/") else "alice"
    return issue(key_id, principals=principal, after=after, before=before)


def fill(office, rests):
    """Puts departments and certificates; three are revoked, and a second CA serves the last five."""
    moment = NOW - 401 * DAY
    office.apply([("root", message, moment) for message in (
        of_department("web", "user", "alice,*@example.org", "file,git"),
        of_department("hosts", "host", "*.example.org"),
        of_department("backup", "user", "alice", "restic"), of_department("constructor", "user", "nobody", "email"))])
    for place, ((name, _, after, before, _), rest) in enumerate(zip(CERTIFICATES, rests)):
        if place == len(CERTIFICATES) - 5:
            office.apply([("root", rollover(OTHER_CA), NOW - DAY)])
        office.apply([("ana", of_certificate(f"{name}/{rest}", NOW + after, NOW + before), moment)])
    deliveries = office.deliveries()
    office.apply([("station", deliveries[place], NOW) for place, it in enumerate(CERTIFICATES, 1) if it[4]])
    office.apply([("ana", revoke_serial(4), NOW - 3 * DAY), ("ana", revoke_keyid(f"web/{rests[7]}"), NOW - 2 * DAY),
                  ("root", revoke_range(10, 10), NOW - 5 * HOUR)])


def fill_with_many(office):
    """10,000 certificates, of which 1000 were signed and 200 are revoked."""
    moment = NOW - 400 * DAY
    issues = [("ana", of_certificate(f"web/user-{place}", moment, NOW + (place - 5000) * 600), moment)
              for place in range(1, 10000)]
    office.apply([("root", of_department("web", "user", "alice", "git"), moment), *issues])
    office.apply([("ana", of_certificate("web/user-10000", moment, NOW + DAY), moment)])
    deliveries = office.deliveries()
    office.apply([("station", deliveries[place], moment) for place in range(4501, 5501)])
    office.apply([("root", revoke_range(4401, 4600), NOW - HOUR)])


# ---- what the routes say

ROW = re.compile(r"(.{19})  (user|host)  (.{7})  (.{12})  (.{12})  (.+)")


def table_of(text):
    *lines, total = text.decode("ascii").splitlines()
    rows = []
    for line in lines:
        serial, kind, state, after, before, key_id = ROW.fullmatch(line).groups()
        rows.append((serial.strip(), kind, state.strip(), int(after), int(before), key_id))
    assert total.split()[1] == str(len(rows))
    return rows, total.split()[3]


def shown_state(row):
    _, _, state, _, before, _ = row
    if state == "signed":
        return "signed" if before > time.time() else "expired"
    return {"revoked": "revoked", "pending": "waiting"}[state]


def date(seconds):
    """A moment as it is to be shown: for machines, in the reader's time zone, and in UTC."""
    there = datetime.datetime.fromtimestamp(seconds, PLACE)
    minutes = round(there.utcoffset().total_seconds() / 60)
    hours, rest = divmod(abs(minutes), 60)
    offset = f"GMT{'−' if minutes < 0 else '+'}{hours}{f':{rest:02}' if rest else ''}"
    universal = datetime.datetime.fromtimestamp(seconds, datetime.timezone.utc)
    return [f"{universal:%Y-%m-%dT%H:%M:%SZ}", f"{there:%Y-%m-%d %H:%M:%S} {offset}",
            f"{universal:%Y-%m-%d %H:%M:%S} UTC"]


def authority(serial, cas):
    return [number for number, since, _ in cas if int(since) <= int(serial)][-1]


def certificate_cells(row, cas):
    serial, kind, _, after, before, key_id = row
    return [serial, key_id, kind, shown_state(row), date(after), date(before), authority(serial, cas)]


def wanted_of(office):
    """The tables as they are to be shown, newest certificates first."""
    rows, version = table_of(office.get("table"))
    cas = [line.split() for line in office.get("cas").decode().splitlines()]
    by_serial = {row[0]: row for row in rows}
    waiting = []
    for line in office.get("pending").decode().splitlines():
        serial, digest = line.split()
        _, _, _, after, before, key_id = by_serial[serial]
        waiting.append([serial, key_id, date(after), date(before), digest])
    counts = collections.defaultdict(lambda: [None, 0, 0, 0, 0])
    for row in rows:
        count = counts[row[5].partition("/")[0]]
        count[0] = row[1]
        count[1 + STATES.index(shown_state(row))] += 1
    ends = [str(int(since) - 1) for _, since, _ in cas[1:]] + [None]
    served = [sum(authority(row[0], cas) == ca[0] for row in rows) for ca in cas]
    newest = cas[-1][0]
    signers = []
    for line in office.get("signers").decode().splitlines():
        principals, rest, _, blob = line.split(" ")
        mark = base64.b64encode(hashlib.sha256(base64.b64decode(blob)).digest()).decode().rstrip("=")
        number = {fingerprint: number for number, _, fingerprint in cas}[f"SHA256:{mark}"]
        signers.append([principals, re.fullmatch(r'cert-authority,namespaces="(.*)"', rest)[1], number])
    krl = office.get("krl")
    list_version, changed = struct.unpack(">QQ", krl[12:28])
    return {
        "waiting": waiting,
        "cas": [[number + (" (active)" if number == newest else ""), f"{since} to {end}" if end else f"{since} and up",
                 str(count), mark]
                for (number, since, mark), end, count in zip(cas, ends, served)],
        "departments": [[name, kind, *map(str, count)] for name, (kind, *count) in sorted(counts.items())],
        "certificates": [certificate_cells(row, cas) for row in reversed(rows)],
        "signers": signers,
        "list": ["Version", str(list_version), "Length", f"{len(krl)} bytes", "Changed", date(changed),
                 "Revoked", f"{sum(row[2] == 'revoked' for row in rows)} certificates, at version {version}"],
        "counts": [str(len(rows)), *(str(sum(shown_state(row) == state for row in rows)) for state in STATES)],
    }


# ---- the browser

LOOK = """(() => {
  const cell = (it) => {
    const time = it.querySelector("time");
    return time ? [time.dateTime, time.firstChild.data, time.querySelector("small").textContent] : it.textContent;
  };
  const rows = (id) => [...document.querySelectorAll(`#${id} tbody tr`)].map((row) => [...row.cells].map(cell));
  const names = {};
  for (const it of document.querySelectorAll("*")) names[it.localName] = (names[it.localName] ?? 0) + 1;
  const shown = (it) => it.checkVisibility() ? it.textContent : "";
  return {
    ...Object.fromEntries([...document.querySelectorAll("table")].map(({id}) => [id, rows(id)])),
    list: [...document.querySelectorAll("#list > *")].map(cell),
    counts: [...document.querySelectorAll("[data-count]")].map((it) => it.textContent),
    faults: [...document.querySelectorAll("#faults p")].map((it) => it.textContent),
    read: document.getElementById("read").textContent, found: document.getElementById("found").textContent,
    more: Object.fromEntries([...document.querySelectorAll("button[id$=-more]")].map((it) => [it.id, shown(it)])),
    old: [...document.querySelectorAll(".old, .never")].map((it) =>
      `${it.className.split(" ").pop()} ${it.dataset.route}`),
    title: document.title, hit: typeof window.hit, names,
  };
})()"""


class Page:
    """The page in the browser, behind a relay, with the office whose routes it shows."""

    def __init__(self, program, folder, authority):
        self.programs, self.port = Programs(), free_port()
        self.front = Front(self.programs, folder, authority, self.port)
        self.relay, self.driver = Relay(self.front, "watch"), new_browser(folder)
        self.program, self.folder, self.office = program, folder, None
        self.command("Accessibility.enable")
        self.command("Emulation.setTimezoneOverride", timezoneId=ZONE)
        self.window(1440, 900)

    def end(self):
        if self.office:
            self.office.end()
        self.driver.quit()
        self.relay.end()
        self.programs.end_all()

    def show(self, name, fill, *rests):
        """Shows another office: once it is served, and nothing of the one before is kept by the front."""
        if self.office:
            self.office.end()
            # nginx counts whole seconds.
            time.sleep(3.1)
        self.office = Shown(self.program, self.folder, name, self.port)
        fill(self.office, *rests)
        self.office.begin()
        self.relay.asked.clear()
        self.go()
        return self

    def command(self, name, **words):
        return self.driver.execute_cdp_cmd(name, words)

    def value(self, expression):
        return self.driver.execute_script(f"return {expression}")

    def look(self):
        return self.value(LOOK)

    def shown(self):
        """What is compared with the routes."""
        names = ("waiting", "cas", "departments", "certificates", "signers", "list", "counts")
        look = self.look()
        return {name: look[name] for name in names}

    def must_show(self, wanted, seconds=60):
        end = time.monotonic() + seconds
        while (got := self.shown()) != wanted and time.monotonic() < end:
            time.sleep(0.05)
        assert wanted == got

    def go(self):
        """Leads to the page anew, and forgets what the browser complained of before."""
        self.driver.get("about:blank")
        self.driver.get_log("browser")
        self.driver.get(f"{self.relay.url}/page/")

    def window(self, width, height, scheme="light"):
        self.command("Emulation.setDeviceMetricsOverride", width=width, height=height, deviceScaleFactor=1,
                     mobile=False)
        self.command("Emulation.setEmulatedMedia", features=[{"name": "prefers-color-scheme", "value": scheme}])

    def type(self, text):
        """Puts a text into the filter in the place of what is there."""
        field = self.driver.find_element(By.ID, "text")
        field.send_keys(Keys.CONTROL, "a")
        field.send_keys(text or Keys.DELETE)

    def choose(self, state):
        self.value(f"document.querySelector('input[name=state][value=\"{state}\"]').click()")

    def read_again(self):
        """Presses the button once nothing is being read, and waits until all was answered."""
        is_idle = "document.getElementById('main').ariaBusy === 'false'"
        until(lambda: self.value(is_idle), 70)
        self.value("document.getElementById('again').click()")
        until(lambda: self.value(is_idle), 70)

    def complaints(self):
        """What the browser has written to its console, but for answers with a status of fault."""
        return [it for it in self.driver.get_log("browser") if "Failed to load resource" not in it["message"]]

    def count(self):
        """How many reading routes were asked for."""
        return sum(path.startswith("/v1/") for _, path, _ in self.relay.asked)

    def faults(self):
        """Of each fault the route, its cause, and the seconds since it was seen and since what is shown was read."""
        found = {}
        for text in self.look()["faults"]:
            what, since, cause, at = FAULT.fullmatch(text).groups()
            ages = [it and calendar.timegm(time.strptime(it, "%Y-%m-%d %H:%M:%S")) for it in (since, at)]
            found[{name: route for route, name in WHAT.items()}[what]] = cause, ages
        return found


FAULT = re.compile(r"(.+) can't be read since (\S+ \S+) \S+: (.+)\. "
                   r"(?:The data shown is old: it was read at (\S+ \S+) \S+|It was never read)\.")
WHAT = {"pending": "The pending certificates", "table": "The table of certificates", "krl": "The revocation list", "cas": "The CAs",
        "signers": "The allowed signers"}


@pytest.fixture(scope="module")
def browsed(program, authority, tmp_path_factory):
    page = Page(program, tmp_path_factory.mktemp("page"), authority)
    yield page
    page.end()


@pytest.fixture(scope="module")
def harmless(browsed):
    """The page of an office with certificates of each state."""
    return browsed.show("first", fill, [it[1] for it in CERTIFICATES])


@pytest.fixture
def page(harmless):
    """That page, led to anew, once it shows what the routes say."""
    harmless.go()
    harmless.must_show(wanted_of(harmless.office))
    return harmless


# ---- who is given the page

HEAD = ("Content-Type", "Content-Security-Policy", "X-Content-Type-Options", "Cache-Control")


@pytest.mark.parametrize(("path", "kind", "file"), [
    ("/page/", "text/html", "index.html"), ("/page", "text/html", "index.html"),
    ("/page/page.css", "text/css", "page.css"), ("/page/page.js", "text/javascript", "page.js")])
def test_the_front_gives_the_files_of_the_page(browsed, path, kind, file):
    """With their types and the policy. A browser that has one is told so."""
    session, url = browsed.front.session("watch"), browsed.front.url + path
    answer = session.get(url)
    assert (200, [f"{kind}; charset=utf-8", POLICY, "nosniff", "no-cache"]) == (
        answer.status_code, [answer.headers[it] for it in HEAD])
    assert (PROGRAMS / "front/page" / file).read_bytes() == answer.content
    answer = session.get(url, headers={"If-None-Match": answer.headers["ETag"]})
    assert (304, b"", POLICY) == (answer.status_code, answer.content, answer.headers["Content-Security-Policy"])


@pytest.mark.parametrize("name", [None, "bob"], ids=["no certificate", "one that was taken back"])
def test_there_is_no_page_without_a_certificate(browsed, name):
    front = browsed.front
    if name:
        front.make("caller", name)
        front.make("revoke", front.certificate(name))
        (front.conf / "crl.pem").write_bytes((front.authority / "crl.pem").read_bytes())
        front.reload()
    session = front.session(name)
    assert [403] * 3 == [session.get(front.url + it).status_code for it in ("/page/", "/page/page.js", "/v1/table")]


@pytest.mark.parametrize("path", [
    "/page/index.html", "/page/page.js?x", "/page/%70age.js", "/page/../page/page.js", "/page//page.js", "/pages",
    "/page/x", "/page/page.js/", "/page/../front/server.key", "/", "/favicon.ico"])
def test_other_paths_are_nothing(browsed, path):
    request = f"GET {path} HTTP/1.1\r\nHost: localhost\r\nConnection: close\r\n\r\n".encode()
    answer = browsed.front.ask(request, "watch")
    assert (404, b"front: no such path\n") == (answer.status, answer.body)


@pytest.mark.parametrize("method", ["POST", "HEAD", "PUT"])
def test_the_page_is_read_by_get_alone(browsed, method):
    assert 405 == browsed.front.session("watch").request(method, f"{browsed.front.url}/page/").status_code


# ---- an office with certificates of each state

def test_each_table_shows_what_the_routes_say(harmless):
    harmless.must_show(wanted_of(harmless.office))
    look, office = harmless.look(), harmless.office
    assert "0" not in look["counts"], "no state is without a certificate"
    assert (True, [], []) == (look["read"].startswith("Read at "), look["faults"], look["old"])
    assert [[f"/v1/{it}", str(len(office.get(it)))] for it in ROUTES] == [[it[0], it[2]] for it in look["routes"]]
    rows, _ = table_of(office.get("table"))
    links = harmless.value("[...document.querySelectorAll('#certificates a')].map((it) => it.getAttribute('href'))")
    assert [f"/v1/certs/{row[0]}" for row in reversed(rows) if row[2] == "signed"] == links, "those that are signed"


def test_it_asks_for_its_own_files_and_the_reading_routes_alone(page):
    page.relay.asked.clear()
    page.go()
    page.must_show(wanted_of(page.office))
    assert sorted(["/page/", "/page/page.css", "/page/page.js", *(f"/v1/{it}" for it in ROUTES)]) == sorted(
        path for _, path, _ in page.relay.asked if path != "/favicon.ico")
    assert [] == page.complaints()


@pytest.mark.parametrize("state", STATES)
def test_a_state_alone(page, state):
    page.choose(state)
    assert [it for it in wanted_of(page.office)["certificates"] if it[3] == state] == page.look()["certificates"]


@pytest.mark.parametrize("text", ["web/alice", "HOSTS example", "15", "nothing-has-this", "backup/ user"])
def test_a_text_in_the_filter(page, text):
    certificates = wanted_of(page.office)["certificates"]
    page.type(text)
    found = [it for it in certificates
             if all(word in f"{it[0]} {it[1]} {it[2]}".lower() for word in text.lower().split())]
    look = page.look()
    assert (found or [["none"]], f"{len(found)} of {len(certificates)} certificates") == (
        look["certificates"], look["found"])


@pytest.mark.parametrize(("order", "column"), [("end", 4), ("name", 5)])
def test_the_table_is_ordered_by_a_column(page, order, column):
    rows, _ = table_of(page.office.get("table"))
    page.driver.execute_script("const it = document.getElementById('order'); it.value = arguments[0]; "
                               "it.dispatchEvent(new Event('input', {bubbles: true}))", order)
    wanted = [row[0] for row in sorted(rows, key=lambda row: row[column])]
    assert wanted == [it[0] for it in page.look()["certificates"]]


def test_a_departments_name_shows_its_certificates(page):
    rows, _ = table_of(page.office.get("table"))
    page.value("document.querySelector('#departments button').click()")
    assert sorted(row[0] for row in rows if row[5].startswith("backup/")) == sorted(
        it[0] for it in page.look()["certificates"])
    assert [] == page.complaints()


# ---- names, headings and colours, for those who don't see, and for those who see little

def test_each_element_has_a_name(page):
    nodes = [(it["role"]["value"], it.get("name", {}).get("value", "")) for it in
             page.command("Accessibility.getFullAXTree")["nodes"] if not it.get("ignored")]
    roles = collections.Counter(role for role, _ in nodes)
    tables = "Allowed signers", "CAs", "Certificates", "Departments", "Waiting for a signature", "What was read"
    assert [*tables] == sorted(name for role, name in nodes if role == "table")
    heads = page.value("[...document.querySelectorAll('th')].map((it) => it.scope)")
    assert ({"col", "row"}, heads.count("col"), heads.count("row")) == (
        set(heads), roles["columnheader"], roles["rowheader"])
    pressed = "button", "searchbox", "combobox", "radio", "link"
    assert [] == [it for it in nodes if it[0] in pressed and not it[1].strip()]
    assert {"all", "waiting", "signed", "revoked", "expired", "Text"} == {
        re.sub(r" \d+$", "", name) for role, name in nodes if role in ("radio", "searchbox")}
    assert {*STATES} == {*page.value("[...document.querySelectorAll('.state')].map((it) => it.textContent)")}


def luminance(colour):
    parts = [int(it) / 255 for it in re.findall(r"\d+", colour)[:3]]
    parts = [it / 12.92 if it <= 0.04045 else ((it + 0.055) / 1.055) ** 2.4 for it in parts]
    return 0.2126 * parts[0] + 0.7152 * parts[1] + 0.0722 * parts[2]


COLOURS = """[...document.querySelectorAll("body *")]
  .filter((it) => it.checkVisibility() && [...it.childNodes].some((child) => child.data?.trim())).map((it) => {
    const clear = (one) => getComputedStyle(one).backgroundColor === "rgba(0, 0, 0, 0)";
    let below = it;
    while (below.parentElement && clear(below)) below = below.parentElement;
    return [it.localName + "." + it.className, getComputedStyle(it).color, getComputedStyle(below).backgroundColor];
  })"""


@pytest.mark.parametrize("scheme", ["light", "dark"])
def test_each_text_has_a_contrast(page, scheme):
    page.window(1440, 900, scheme)
    colours = page.value(COLOURS)
    page.window(1440, 900)
    least = min(((max(a, b) + 0.05) / (min(a, b) + 0.05), name) for name, over, below in colours
                for a, b in [(luminance(over), luminance(below))])
    assert least >= (4.5, "")


def test_on_a_narrow_screen_nothing_but_a_tables_frame_is_wider(page):
    page.window(400, 800)
    width = page.value("document.documentElement.scrollWidth")
    page.window(1440, 900)
    assert 400 == width


# ---- a route that fails alone, or whose answer isn't whole

def cut(page):
    return page.office.get("table").splitlines(keepends=True)


# A route, what its status and body are made of, and the cause that is shown.
UNREADABLE = [
    ("table", lambda page: (200, b"".join(cut(page)[:-2])), "the answer is cut off, or has another form"),
    ("table", lambda page: (200, b"".join(cut(page)[1:])), "the table has 17 lines, and its end says 18"),
    ("table", lambda page: (403, b"front: only a client with a certificate may read this\n"),
     "403 front: only a client with a certificate may read this"),
    ("krl", lambda page: (200, page.office.get("krl")[:43]), "the answer isn't a revocation list"),
    ("krl", lambda page: (200, b"<html>sign in to the network</html>" + bytes(44)),
     "the answer isn't a revocation list"),
    ("krl", lambda page: (200, page.office.get("krl")[:20] + b"\xff" * 8 + bytes(16)),
     "the answer isn't a revocation list"),
    ("table", lambda page: (200, b"".join(cut(page)).replace(b"  user  ", b"  User  ", 1)),
     "the answer is cut off, or has another form"),
    ("table", lambda page: (200, b""), "the table has 0 lines, and its end says nothing"),
    ("cas", lambda page: (200, b"1 1 SHA256:short\n"), "the answer is cut off, or has another form"),
    ("pending", lambda page: (200, b"1 82e0\n"), "the answer is cut off, or has another form"),
    ("signers", lambda page: (0, b""), "no answer"),
]


@pytest.mark.parametrize(("route", "answer", "cause"), UNREADABLE)
def test_a_route_that_can_not_be_read(page, route, answer, cause):
    wanted = wanted_of(page.office)
    offset = round(datetime.datetime.now(PLACE).utcoffset().total_seconds())
    page.relay.instead[f"/v1/{route}"] = answer(page)
    page.read_again()
    faults, look = page.faults(), page.look()
    page.relay.instead.clear()
    assert {route: cause} == {name: it[0] for name, it in faults.items()}
    _, (since, at) = faults[route]
    assert (True, True, [f"old {route}"]) == (
        0 <= time.time() + offset - since < 30, at <= since and time.time() + offset - at < 60, sorted({*look["old"]}))
    assert "Some data can't be read." == look["read"]
    assert wanted == page.shown(), "what was read stays"
    page.read_again()
    assert ([], []) == (page.look()["faults"], page.look()["old"]), "the next answer takes the fault away"


def test_an_office_that_is_away_and_back(page):
    wanted = wanted_of(page.office)
    page.office.end()
    time.sleep(11)
    page.read_again()
    cause = "502 front: no answer came from the office; send the same bytes again"
    first = page.faults()
    assert dict.fromkeys(ROUTES, cause) == {name: it[0] for name, it in first.items()}
    assert wanted == page.shown(), "what was read stays"
    time.sleep(1.1)
    before = page.count()
    page.read_again()
    assert (before + 5, first) == (page.count(), page.faults()), "asked again, it says since when as before"
    page.go()
    until(lambda: len(page.look()["faults"]) == 5)
    look = page.look()
    assert (5, {"never"}, [["not read"]]) == (
        "".join(look["faults"]).count("It was never read."), {it.split()[0] for it in look["old"]},
        look["certificates"]), "a page that never read says so"
    page.office.begin()
    page.read_again()
    assert [] == page.look()["faults"]
    assert wanted_of(page.office) == page.shown()


# ---- key ids that a browser might take for HTML, and answers that no office gives

@pytest.fixture(scope="module")
def hostile(harmless):
    """The page of the same office with other key ids, and the elements that it had with harmless ones."""
    harmless.go()
    harmless.must_show(wanted_of(harmless.office))
    harmless.names = harmless.look()["names"]
    return harmless.show("second", fill, HOSTILE)


def test_hostile_key_ids_stand_there_as_they_are(hostile):
    hostile.must_show(wanted_of(hostile.office))
    look = hostile.look()
    assert [*reversed(HOSTILE)] == [it[1].partition("/")[2] for it in look["certificates"]]
    assert hostile.names == look["names"], "no element is there that harmless key ids don't have"
    assert ("undefined", "Vethlumi: SSH certificate office") == (look["hit"], look["title"]), "nothing of them was run"
    assert {path for _, path, _ in hostile.relay.asked} <= {
        "/page/", "/page/page.css", "/page/page.js", "/favicon.ico", *(f"/v1/{it}" for it in ROUTES)}
    hostile.type("<img/src=x/onerror=hit()>")
    assert 2 == len(hostile.look()["certificates"]), "a text with brackets is looked for as it is"
    hostile.type("")
    assert [] == hostile.complaints()


LINE = f"{'1':>19}  user  signed   {'1000':>12}  {'2000':>12}  web/"


@pytest.mark.parametrize(("status", "body"), [
    (500, b"<img src=x onerror=hit()><script>hit()</script>"),
    (200, f"{LINE}<img src=x onerror=hit()>\ntotal 1 version 0\n".encode()),
    (200, LINE.encode() + b"\xff\ntotal 1 version 0\n")],
    ids=["a fault's text with elements", "a key id with a space", "bytes that are no text"])
def test_what_an_office_never_says_is_a_fault(hostile, status, body):
    hostile.relay.instead["/v1/table"] = status, body
    hostile.read_again()
    look = hostile.look()
    hostile.relay.instead.clear()
    assert (1, {"old table"}) == (len(look["faults"]), {*look["old"]})
    assert ("undefined", {*hostile.names, "p"}) == (look["hit"], {*look["names"]}), "it makes no element"
    assert status == 200 or f": 500 {body.decode()}. The data" in look["faults"][0], "it is shown as text"
    hostile.read_again()
    assert [] == hostile.look()["faults"]


def test_the_page_can_not_make_html_of_a_text_nor_ask_another_place(hostile):
    said = hostile.driver.execute_script(
        "try { document.body.innerHTML = '<b>bold</b>'; return 'made' } catch (it) { return String(it) }")
    assert "TrustedHTML" in said
    asked = f"fetch('http://127.0.0.1:{hostile.port}/v1/cas').then(() => 'given', () => 'refused')"
    assert "refused" == hostile.driver.execute_async_script(f"{asked}.then(arguments[0])")


# ---- ten thousand certificates

@pytest.fixture(scope="module")
def full(hostile):
    return hostile.show("third", fill_with_many)


def timed(page, action):
    """The milliseconds that an action of the page takes, with the layout after it."""
    return page.driver.execute_script(f"const begun = performance.now(); {action}; document.body.offsetHeight; "
                                      "return Math.round(performance.now() - begun)")


@pytest.mark.alone
def test_ten_thousand_certificates(full):
    """Run with `-s` this prints the times that docs/GROWING.md shows."""
    wanted = wanted_of(full.office)
    begun = time.monotonic()
    full.go()
    until(lambda: full.value("document.querySelector('[data-count=\"\"]')?.textContent === '10000'"), 60, 0.01)
    print(f"figure: 10,000 certificates are shown {time.monotonic() - begun:.1f} s after the page was asked for")
    full.must_show({**wanted, "certificates": wanted["certificates"][:100], "waiting": wanted["waiting"][:10]})
    more = full.look()["more"]
    assert ("100 of 10000 are shown: show 1000", f"10 of {len(wanted['waiting'])} are shown: show 100") == (
        more["certificates-more"], more["waiting-more"])
    for text in ("u", "us", "user-77", "web/user-9999"):
        took = timed(full, f"document.getElementById('text').value = '{text}'; "
                     "document.getElementById('filter').dispatchEvent(new Event('input'))")
        assert [it for it in wanted["certificates"] if text in it[1]][:100] == full.look()["certificates"], text
        print(f"figure: a letter in the filter took {took} ms")
        assert took < 500
    full.type("")
    full.choose("revoked")
    assert wanted["counts"][3] == full.look()["found"].split()[0]
    full.choose("")
    took = [timed(full, "document.getElementById('certificates-more').click()") for _ in range(2)]
    print(f"figure: 1000 rows took {took[0]} ms, 2000 {took[1]} ms")
    look = full.look()
    assert (wanted["certificates"][:2000], "2000 of 10000 are shown: show 3000") == (
        look["certificates"], look["more"]["certificates-more"])
    assert [] == full.complaints()
