"""The units of programs/units and programs/volume, as systemd-analyze and systemd-sysusers read them. test_boxes.py
and test_three_machines.py run them."""
import os
import re
import shutil

import pytest

from fronts import MOST_OF_A_CONNECTION
from running import PROGRAMS, TOP, left_out, run
from stations import part

UNITS, VOLUME = PROGRAMS / "units", PROGRAMS / "volume"
NAMES = sorted(it.name for it in UNITS.iterdir() if it.suffix in (".service", ".socket", ".timer"))
SERVICES = [it for it in NAMES if it.endswith(".service")]
# The most that systemd may say of a unit: 1.5 of 10.
MOST_EXPOSURE = 15


def settings(unit, name):
    """The values of a setting, one for each line that has it."""
    return re.findall(rf"^{name}=(.*)$", (UNITS / unit).read_text(), re.M)


@pytest.fixture
def analyze():
    if not shutil.which("systemd-analyze"):
        left_out("systemd-analyze isn't installed")
    return lambda *words: run(["systemd-analyze", *words])


def test_systemd_finds_no_fault(analyze, room):
    """The programs are none of this machine's, so others stand for them."""
    for name in NAMES:
        text = (UNITS / name).read_text()
        (room / name).write_text(re.sub(r"/usr/local/bin/\S+|/usr/sbin/nginx", "/bin/true", text))
    ended = analyze("verify", "--man=no", *(room / it for it in NAMES))
    assert (0, b"") == (ended.returncode, ended.stderr)


def test_systemd_finds_no_fault_in_those_of_a_volume(analyze, room):
    """With what they add to the others."""
    places = {it.name: it for folder in (UNITS, VOLUME) for it in folder.iterdir()
              if it.suffix in (".service", ".socket", ".timer")}
    added = {it.stem: it for kind in ("service", "socket") for it in VOLUME.glob(f"*.{kind}.conf")}
    assert {*added} < {*places} and 4 == len(added)
    places |= {f"{unit}.d/volume.conf": it for unit, it in added.items()}
    for name, it in places.items():
        (room / name).parent.mkdir(exist_ok=True)
        text = re.sub(r"/usr/local/bin/\S+|/usr/sbin/nginx|/usr/bin/ceph-fuse", "/bin/true", it.read_text())
        (room / name).write_text(text)
    ended = analyze("verify", "--man=no", *(room / it for it in places if ".d/" not in it))
    assert (0, b"") == (ended.returncode, ended.stderr)


def test_each_unit_of_a_volume_is_enabled_by_the_page_and_disabled_again():
    page, script = (TOP / "docs/GROWING.md").read_text(), (VOLUME / "office-volume").read_text()
    wanted = {it.name.removesuffix(".service") for kind in ("service", "timer") for it in VOLUME.glob(f"*.{kind}")
              if "[Install]" in it.read_text()}
    enabled = {word for words in re.findall(r"^systemctl enable --now (.*)$", page, re.M) for word in words.split()}
    [disabled] = re.findall(r"^leave\(\) \{\n.*\n  for it in (.*); do$", script, re.M)
    assert 4 == len(wanted) and wanted <= enabled and wanted <= {*disabled.split()}
    assert "programs/volume/*.{service,timer} \\\n  /etc/systemd/system" in page


@pytest.mark.parametrize("unit", SERVICES)
def test_exposure_is_low(analyze, unit):
    ended = analyze("security", "--offline=true", f"--threshold={MOST_EXPOSURE}", UNITS / unit)
    assert 0 == ended.returncode, ended.stdout.decode().splitlines()[-1]


@pytest.mark.parametrize("unit", SERVICES)
def test_no_memory_image_is_written_and_memory_is_limited(unit):
    assert ["0"] == settings(unit, "LimitCORE")
    assert 1 == len(settings(unit, "MemoryMax"))


def test_a_station_goes_on_if_a_program_of_its_own_is_killed_for_memory():
    """Otherwise systemd stops the station with it. If it was the guard, the station ends, and is started again."""
    unit = "office-station@.service"
    assert (["continue"], ["always"]) == tuple(settings(unit, it) for it in ("OOMPolicy", "Restart"))


def test_a_station_ends_its_guards_by_itself():
    """systemd tells it alone, and waits longer than the station does for both guards."""
    station = part("limits")
    longest = station.LONGEST_STATING + station.LONGEST_ENDING
    assert ["mixed"] == settings("office-station@.service", "KillMode")
    [patience] = settings("office-station@.service", "TimeoutStopSec")
    assert longest < int(patience.removesuffix("s"))


def seconds(text):
    """What systemd means by a time such as 2min or 20s."""
    number, unit = re.fullmatch(r"(\d+)(s|min|)", text).groups()
    return int(number) * (60 if unit == "min" else 1)


# How often a timer runs its unit, in seconds, at most how much later, and what the pages say of it.
TIMERS = [
    ("office-list.timer", 120, 20, "docs/OPERATING.md", "fetches the KRL every two minutes"),
    ("office-list.timer", 120, 20, "docs/INSTALLING.md", "the server fetches it within two and a half more"),
    ("office-list.timer", 120, 20, "docs/THREATS.md", "at the server's next fetch, within two and a half minutes"),
    ("office-ca-keys.timer", 600, 20, "docs/OPERATING.md", "whose fingerprints you have named, every ten minutes"),
    ("office-ca-keys.timer", 600, 20, "docs/THREATS.md", "at the next run of `office-ca-keys`, within ten minutes"),
    ("vethlumi-host.timer", 60, 10, "docs/OPERATING.md", "checks the host's certificate each minute"),
    ("vethlumi-figures.timer", 60, 10, "docs/OPERATING.md", "for node_exporter, each minute"),
]


@pytest.mark.parametrize("unit, every, later, page, says", TIMERS, ids=[f"{it[0]} {it[3]}" for it in TIMERS])
def test_a_timer_is_as_the_pages_say(unit, every, later, page, says):
    """A list that is fetched every twenty minutes would keep a revocation from servers for as long."""
    [between], [random] = settings(unit, "OnUnitInactiveSec"), settings(unit, "RandomizedDelaySec") or ["0"]
    assert (every, True) == (seconds(between), seconds(random) <= later)
    assert ["timers.target"] == settings(unit, "WantedBy")
    assert says in " ".join((TOP / page).read_text().split())


def test_root_signs_for_a_host_and_copies_for_sshd():
    """The step between them, which reads the network, has no right to the host's key."""
    unit, steps = "vethlumi-host.service", ("ExecStartPre", "ExecStart", "ExecStartPost")
    assert [["+/usr/local/bin/vethlumi-host --sign"], ["/usr/local/bin/vethlumi-host"],
            ["+/usr/local/bin/vethlumi-host --reload"]] == [settings(unit, it) for it in steps]


@pytest.mark.parametrize("unit", ["office.service", "office-door.service"])
def test_what_is_for_this_machine_alone_reaches_no_address(unit):
    assert (["any"], ["localhost"]) == (settings(unit, "IPAddressDeny"), settings(unit, "IPAddressAllow"))


# What root's own jobs need: to read what belongs to other users, and to become them; or to give a file to a group.
OF_BACKUPS = "CAP_DAC_READ_SEARCH CAP_DAC_OVERRIDE CAP_CHOWN CAP_FOWNER CAP_SETUID CAP_SETGID"
RIGHTS = {"office-front.service": "CAP_NET_BIND_SERVICE", "office-backup.service": OF_BACKUPS,
          "office-station-backup.service": OF_BACKUPS, "office-front-tls.service": "CAP_CHOWN CAP_FOWNER"}


@pytest.mark.parametrize("unit", SERVICES)
def test_only_the_front_has_a_right_of_root(unit):
    """And the jobs that root runs by a timer, which have no network."""
    assert [RIGHTS.get(unit, "")] == settings(unit, "CapabilityBoundingSet")
    is_front = unit == "office-front.service"
    assert ([RIGHTS[unit]] if is_front else []) == settings(unit, "AmbientCapabilities")
    if unit in RIGHTS and not is_front:
        assert (["yes"], ["AF_UNIX"], []) == tuple(settings(unit, it) for it in (
            "PrivateNetwork", "RestrictAddressFamilies", "User"))


def test_each_connection_of_the_front_may_have_two_files_open():
    """One to the client, and one to the office while it is asked."""
    [most] = re.findall(r"^ +worker_connections (\d+);$", (PROGRAMS / "front/nginx.conf").read_text(), re.M)
    assert [True] == [2 * int(most) < int(it) for it in settings("office-front.service", "LimitNOFILE")]


def test_all_connections_of_the_front_fit_into_its_memory():
    """Each takes at most what test_front_load measures. A tenth is left for nginx itself."""
    text = (PROGRAMS / "front/nginx.conf").read_text()
    [processes], [connections] = (re.findall(rf"^ *{it} (\d+);$", text, re.M) for it in (
        "worker_processes", "worker_connections"))
    assert ["1G"] == settings("office-front.service", "MemoryMax")
    assert int(processes) * int(connections) * MOST_OF_A_CONNECTION <= 0.9 * 2 ** 30


@pytest.mark.root
def test_sysusers_makes_the_users_of_the_units(room):
    (room / "etc").mkdir()
    run(["systemd-sysusers", f"--root={room}", UNITS / "sysusers.conf"])
    made = {line.split(":")[0] for line in (room / "etc/passwd").read_text().splitlines()}
    # sshd runs vethlumi-principals as one more.
    assert {user for unit in SERVICES for user in settings(unit, "User")} | {"office-principals"} == made
    assert 0 == os.stat(room / "etc/passwd").st_uid
