"""The fixtures of the tests. tests/README.md says what each is."""
import collections
import functools
import json
import os
import pathlib
import random
import re
import signal

import pytest

from browsing import Relay, new_browser
from differences import difference
from fronts import Front, new_authority
from running import TOP, Office, Programs, left_out
from stations import new_station


# The fixtures of programs that are built, the last one by the test itself.
BUILT = {"program", "sshstation", "krl_tool", "trial", "heads_tool", "bad_lines", "earlier", "earlier_station"}

# A shell that starts the tests in the background has them ignore interrupts, and so would each program that they start.
if signal.getsignal(signal.SIGINT) == signal.SIG_IGN:
    signal.signal(signal.SIGINT, signal.default_int_handler)
    signal.signal(signal.SIGQUIT, signal.SIG_DFL)


def pytest_addoption(parser):
    group = parser.getgroup("office")
    for option, name in (("--program", "sshoffice"), ("--krl-tool", "krl_tool"), ("--sshstation", "sshstation"),
                         ("--trial", "trial"), ("--heads-tool", "heads_tool")):
        group.addoption(option, metavar="PATH", type=pathlib.Path, default=TOP / f"crates/{name}/out/{name}",
                        help=f"the {name} to test")
    for option, name in (("--earlier", "sshoffice"), ("--earlier-station", "sshstation")):
        group.addoption(option, metavar="PATH", type=pathlib.Path,
                        help=f"the {name} of an earlier version, for test_earlier (without it: left out)")
    group.addoption("--steps", type=int, default=5000, help="how many random exchanges test_registers asks (5000)")
    group.addoption("--rounds", type=int, default=0,
                    help="how many faults test_three_machines has happen (0: left out)")
    group.addoption("--minutes", type=int, default=0,
                    help="after how many minutes none of these faults begins any more (0: all of them do)")
    group.addoption("--patience", type=int, default=1,
                    help="how many times as long as promised a takeover may take, beside other work (1)")
    group.addoption("--sites", type=int, default=1,
                    help="how many sets of machines have these faults side by side, each with 6 GB of memory (1)")
    group.addoption("--fleet", type=int, default=5, help="how many machines test_fleet sets up (5)")
    group.addoption("--earlier-packages", metavar="FOLDER", type=pathlib.Path,
                    help="the packages of an earlier version, from which test_upgrade upgrades machines")
    group.addoption("--judgements", type=int, default=100_000,
                    help="how many random bodies test_guard has judged (100000)")
    group.addoption("--lists", type=int, default=600, help="how many random lists test_list_guard has judged (600)")
    group.addoption("--pieces", type=int, default=1000, help="how many random requests test_pieces sends (1000)")
    group.addoption("--station-kills", type=int, default=50,
                    help="how often test_station_kills kills station or guard (50)")
    group.addoption("--waiting", type=int, default=50, help="how many messages wait for an office in test_way (50)")
    group.addoption("--waiting-seconds", type=int, default=5, help="for how many seconds they wait (5)")
    group.addoption("--heads", type=int, default=100_000, help="how many changed heads test_heads compares (100000)")
    group.addoption("--registrar-kills", type=int, default=10, help="how often test_registrar kills it (10)")
    group.addoption("--mutations", type=int, default=5000,
                    help="how many random changes of tokens test_registrar_tokens tries (5000)")
    group.addoption("--counts", action="store_true", help="end with the lines of counts that ./check reads")
    group.addoption("--outcomes", metavar="FILE", type=pathlib.Path,
                    help="a file for the names of the tests that passed, of those that failed but the ones marked "
                         "`once`, and the seconds of each, as JSON")


@pytest.hookimpl(tryfirst=True)
def pytest_configure(config):
    if config.option.hypothesis_seed is None:
        config.option.hypothesis_seed = str(random.randrange(2 ** 32))
    os.environ["PATH"] += ":/usr/sbin:/sbin"
    os.environ["TZ"] = "UTC"
    # Whoever ends pytest ends what the tests have begun as well.
    signal.signal(signal.SIGTERM, signal.default_int_handler)


def pytest_report_header(config):
    return f"random histories: --hypothesis-seed={config.option.hypothesis_seed}"


def name_of(report):
    return re.sub(r"@[^@\]]+$", "", report.nodeid)


def seconds_of_tests(reporter):
    """How long each test took, with its fixtures. What is reported of the fixtures alone has no outcome."""
    seconds = collections.Counter()
    for how in ("", "passed", "failed", "error"):
        for report in reporter.stats.get(how, []):
            seconds[name_of(report)] += getattr(report, "duration", 0)
    return seconds


def pytest_unconfigure(config):
    """Prints how many tests passed, failed and were left out, since this machine can't run them. Any other skip is a
    failure."""
    reporter = config.pluginmanager.get_plugin("terminalreporter")
    if not config.getoption("--counts") or reporter is None or hasattr(config, "workerinput"):
        return
    passed = reporter.stats.get("passed", [])
    left_out = [it for it in reporter.stats.get("skipped", []) if "left out: " in str(it.longrepr)]
    skipped = [it for it in reporter.stats.get("skipped", []) if it not in left_out]
    reports = [it for how in ("failed", "error") for it in reporter.stats.get(how, [])]
    failed = len(reports) + len(skipped)
    if config.getoption("--outcomes"):
        # A file that can't be read has no keywords. Side by side, a name ends with that of its group.
        again = [it for it in [*reports, *skipped] if "once" not in getattr(it, "keywords", ())]
        parts = {"failed": again, "passed": passed}
        names = {it: [name_of(report) for report in parts[it]] for it in parts}
        config.getoption("--outcomes").write_text(json.dumps(names | {"seconds": seconds_of_tests(reporter)}))
    print(f"{sum('rows' in it.keywords for it in passed)} worked rows")
    print(f"{len(left_out)} left out")
    print(f"{len(passed)} passed, {failed} failed", flush=True)


@pytest.fixture(autouse=True)
def kept_umask():
    """Scripts that a test runs in its own process may change it, which the next test isn't to meet."""
    before = os.umask(0o022)
    os.umask(before)
    yield
    os.umask(before)


def pytest_collection_modifyitems(config, items):
    """Marks tests by what they use, gives slow ones more time, and leaves out what only root can run."""
    for item in items:
        if item.get_closest_marker("volume"):
            minutes = config.getoption("--minutes") or 2 * config.getoption("--rounds")
            item.add_marker(pytest.mark.timeout(60 * (15 + minutes)))
        if not BUILT & {*getattr(item, "fixturenames", ())}:
            item.add_marker("early")
        if item.get_closest_marker("slow") and not item.get_closest_marker("timeout"):
            item.add_marker(pytest.mark.timeout(1500))
        for name in ("front", "browser"):
            if {name, f"make_{name}"} & {*getattr(item, "fixturenames", ())}:
                item.add_marker(name)
        if item.get_closest_marker("root") and os.getuid():
            item.add_marker(pytest.mark.skip(reason="left out: root alone can run it"))
    # Side by side, the tests that take long come first, so that no processor is idle at the end.
    if "PYTEST_XDIST_WORKER" in os.environ:
        items.sort(key=lambda item: item.get_closest_marker("slow") is None)


def pytest_assertrepr_compare(op, left, right):
    """Says of two values where they differ, which for long bytes is shorter than both."""
    if op == "==":
        return ["the values differ", *list(difference(left, right))[:40]]
    return None


def built(path):
    if not os.access(path, os.X_OK):
        pytest.fail(f"{path} isn't there: tests/README.md says what makes it", pytrace=False)
    return path.resolve()


@pytest.fixture(scope="session")
def program(request):
    return built(request.config.getoption("--program"))


@pytest.fixture(scope="session")
def krl_tool(request):
    return built(request.config.getoption("--krl-tool"))


@pytest.fixture(scope="session")
def trial(request):
    return built(request.config.getoption("--trial"))


@pytest.fixture(scope="session")
def heads_tool(request):
    return built(request.config.getoption("--heads-tool"))


@pytest.fixture(scope="session")
def sshstation(request):
    return built(request.config.getoption("--sshstation"))


def of_before(request, option):
    """A program of an earlier version."""
    path = request.config.getoption(option)
    return built(path) if path else left_out(f"{option} names no program of an earlier version")


@pytest.fixture(scope="session")
def earlier(request):
    return of_before(request, "--earlier")


@pytest.fixture(scope="session")
def earlier_station(request):
    return of_before(request, "--earlier-station")


@pytest.fixture
def room(tmp_path, monkeypatch):
    monkeypatch.chdir(tmp_path)
    return tmp_path


@pytest.fixture
def programs():
    begun = Programs()
    yield begun
    begun.end_all()


@pytest.fixture
def make_office(program, room):
    return functools.partial(Office, program)


@pytest.fixture
def office(make_office):
    return make_office()


@pytest.fixture
def served(office):
    with office.serving() as made:
        yield made


@pytest.fixture(scope="session")
def authority(tmp_path_factory):
    """The folder of a front's authority with its clients' certificates, of which each front gets a copy."""
    return new_authority(tmp_path_factory.mktemp("authority") / "front")


@pytest.fixture
def make_front(programs, authority, room):
    """Makes fronts: `make_front(port)` sets nginx before what listens at this port."""
    numbers = iter(range(100))
    return lambda port, **options: Front(programs, room / f"front{next(numbers) or ''}", authority, port, **options)


@pytest.fixture
def front(served, make_front):
    made = make_front(served.port)
    made.served, made.office = served, served.office
    return made


@pytest.fixture
def station(sshstation, front):
    return new_station(sshstation, front.office, front.url, certificate=front.certificate("station"),
                       trusted=front.authority / "ca.crt")


@pytest.fixture
def browser(room):
    made = new_browser(room)
    yield made
    made.quit()


@pytest.fixture
def make_relay():
    """Makes relays: `make_relay(front, "watch")` has a URL that asks the front with this client's certificate."""
    made = []

    def make(front, name):
        made.append(Relay(front, name))
        return made[-1]

    yield make
    for it in made:
        it.end()
