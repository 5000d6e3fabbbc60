"""The Ansible collection of programs/fleet, without machines: its form, what its pages and its roles say of each other,
and its module over set-up commands that stand for the real ones. machines/test_fleet.py has it set up machines."""
import contextlib
import io
import json
import os
import re
import shutil

import pytest
import yaml

from running import PROGRAMS, TOP, left_out, loaded, run

COLLECTION = PROGRAMS / "fleet"
ROLES = sorted(it.name for it in (COLLECTION / "roles").iterdir())
TEXTS = sorted(COLLECTION.rglob("*.yml"))
# Modules of ansible-core and of the collection: a Debian machine has no others without more collections.
MODULES = re.compile(r"ansible\.builtin\.\w+|vethlumi\.fleet\.\w+")
LINT = """extends: default
rules:
  line-length: {max: 120}
  truthy: {allowed-values: ['true', 'false']}
"""


def read(path):
    return yaml.safe_load((COLLECTION / path).read_text())


def options_of(role):
    return read(f"roles/{role}/meta/argument_specs.yml")["argument_specs"]["main"]["options"]


def tasks_of(role):
    return read(f"roles/{role}/tasks/main.yml")


# ---- form

@pytest.fixture(scope="module")
def installed(tmp_path_factory):
    """An environment in which Ansible finds the collection as `ansible-galaxy` installs it, and nothing of the user's.
    """
    if not shutil.which("ansible-galaxy"):
        left_out("ansible-core isn't installed")
    home = tmp_path_factory.mktemp("ansible")
    environment = os.environ | {"HOME": str(home), "ANSIBLE_COLLECTIONS_PATH": f"{home}/collections"}
    done = run(["ansible-galaxy", "collection", "install", "--offline", "-p", home / "collections", COLLECTION],
               env=environment)
    assert 0 == done.returncode, (done.stdout + done.stderr).decode()
    return environment


def test_it_has_the_version_of_the_packages():
    version = re.match(r"vethlumi \((.*?)\)", (TOP / "debian/changelog").read_text())[1]
    assert version == read("galaxy.yml")["version"]


def test_yamllint_finds_nothing(room):
    if not shutil.which("yamllint"):
        left_out("yamllint isn't installed")
    (room / "lint.yml").write_text(LINT)
    done = run(["yamllint", "--strict", "-c", room / "lint.yml", COLLECTION])
    assert (0, "") == (done.returncode, done.stdout.decode())


def test_the_playbook_is_one_with_the_inventory_of_the_example(installed, room):
    """Also that Ansible knows each role, module and parameter that it names."""
    shutil.copytree(COLLECTION / "examples", room / "site")
    (room / "site/vethlumi.asc").write_text("a key\n")
    done = run(["ansible-playbook", "-i", room / "site/inventory.yml", "--syntax-check", "vethlumi.fleet.site"],
               env=installed)
    assert (0, "[WARNING]: running playbook inside collection vethlumi.fleet\n") == (
        done.returncode, done.stderr.decode())


def test_the_module_has_a_page_with_each_parameter(installed):
    done = run(["ansible-doc", "--json", "vethlumi.fleet.set_up"], env=installed)
    assert 0 == done.returncode, done.stderr.decode()
    documented = json.loads(done.stdout)["vethlumi.fleet.set_up"]["doc"]["options"]
    text = (COLLECTION / "plugins/modules/set_up.py").read_text()
    declared = re.findall(r'^        "(\w+)": \{', text, re.M)
    assert sorted(declared) == sorted(documented) and 6 < len(declared)


@pytest.mark.parametrize("role", ROLES)
def test_each_task_has_a_name_and_a_module_that_debian_has(role):
    for task in tasks_of(role):
        modules = [it for it in task if MODULES.fullmatch(it)]
        assert task.get("name") and 1 == len(modules), task


@pytest.mark.parametrize("role", ROLES)
def test_no_private_key_is_shown_or_lies_on_a_disk_on_its_way(role):
    """A bundle is read by a task that shows nothing, and is handed over by one that goes through a pipe."""
    for task in tasks_of(role):
        if ".bundle" in str(task.get("ansible.builtin.slurp", "")):
            assert task["no_log"] is True, task
        if "vethlumi_bundle" in str(task.get("vethlumi.fleet.set_up", "")):
            assert task["vars"]["ansible_pipelining"] is True, task


@pytest.mark.parametrize("role", ROLES)
def test_each_variable_of_a_role_is_documented_and_has_its_default(role):
    options = options_of(role)
    page = (COLLECTION / f"roles/{role}/README.md").read_text()
    assert [*options] == re.findall(r"^\| `(vethlumi_\w+)` \|", page, re.M)
    assert {it for it in options if not options[it].get("required")} == {*read(f"roles/{role}/defaults/main.yml")}
    for name, default in read(f"roles/{role}/defaults/main.yml").items():
        assert options[name].get("default", default) == default, name
        assert ("default" in options[name]) == ("{{" not in str(default)), name


# What tasks set by themselves: results, and what one role tells another.
OWN = {"vethlumi_source", "vethlumi_folder", "vethlumi_part", "vethlumi_bundle", "vethlumi_public", "vethlumi_callers",
       "vethlumi_host"}
# The roles whose tasks are run by others, which have their variables too.
WITHIN = {"host": ["server"]}


@pytest.mark.parametrize("role", ROLES)
def test_each_variable_of_a_role_is_one_that_its_tasks_have(role):
    """And the other way round."""
    files = [COLLECTION / f"roles/{it}/tasks/main.yml" for it in [role, *WITHIN.get(role, [])]]
    used = {it for file in files for it in re.findall(r"\bvethlumi_\w+", file.read_text())}
    assert {*options_of(role)} == used - OWN


def test_the_inventory_of_the_example_has_all_that_is_required():
    text = (COLLECTION / "examples/inventory.yml").read_text()
    required = {name for role in ROLES for name, it in options_of(role).items() if it.get("required")}
    assert {"vethlumi_policy", "vethlumi_caller", "vethlumi_client_hosts"} == required
    assert [] == sorted(it for it in required if f"{it}:" not in text)


def test_the_guard_reads_the_policy_of_the_example(sshstation):
    assert 0 == run([sshstation, "policy", COLLECTION / "examples/policy"]).returncode


# ---- the module

# A set-up command that writes a file, beside what it looks at each time; its plan and its questions are the real ones.
COMMAND = """#!/usr/bin/python3
'vethlumi-server-setup BUNDLE'
import os, pathlib, sys
sys.path.append({setup!r})
import setting_up
ROOM = pathlib.Path({room!r})

def options(parser):
    parser.add_argument("bundle", nargs="?")
    parser.add_argument("--text", default="text")
    parser.add_argument("--ca", action="append")

def do(given, steps):
    assert not os.isatty(0)
    if given.text == "bad":
        raise setting_up.Fault("this text is bad")
    (ROOM / "given").write_text(sys.stdin.read() if given.bundle == "-" else "")
    (ROOM / "words").write_text(" ".join(sys.argv[1:]))
    if given.text != "none":
        steps.file(ROOM / "etc/file", given.text, 0o600, **({{"user": "root"}} if not os.getuid() else {{}}))
    if {looks}:
        steps.add("fetch the list", lambda: (ROOM / "etc/looked").write_text("mended"))
    steps.carry_out()
    print("all of it")

sys.exit(setting_up.main("vethlumi-server-setup", __doc__, options, do, is_for_root=False))
"""
HOST = "[office]\nhttps://a:8443\n[caller]\nhost-db\n[host]\ndb.example.org\n[certificate]\nPRIVATE KEY of db\n"


@pytest.fixture
def module(room, monkeypatch):
    """The module, over a command that stands for a set-up command: a function of its parameters. It returns whether it
    went well, and its result."""
    if not shutil.which("ansible"):
        left_out("ansible-core isn't installed")
    from ansible.module_utils import basic
    made = loaded(COLLECTION / "plugins/modules/set_up.py")
    (room / "etc").mkdir()
    (room / "bin").mkdir()
    monkeypatch.setattr(made, "WRITTEN", [str(room / "etc")])
    monkeypatch.setattr(made, "TRUSTED", room / "etc/trusted-cas")
    monkeypatch.setenv("PATH", f"{room}/bin:{os.environ['PATH']}")

    def run_it(check=False, looks=False, **parameters):
        command = room / "bin/vethlumi-server-setup"
        if looks is not None:
            command.write_text(COMMAND.format(setup=str(PROGRAMS / "setup"), room=str(room), looks=looks))
            command.chmod(0o755)
        arguments = {"command": command.name, "_ansible_check_mode": check} | parameters
        monkeypatch.setattr(basic, "_ANSIBLE_ARGS", json.dumps({"ANSIBLE_MODULE_ARGS": arguments}).encode())
        out = io.StringIO()
        with contextlib.redirect_stdout(out), pytest.raises(SystemExit) as ended:
            made.main()
        return not ended.value.code, json.loads(out.getvalue())
    return run_it


def test_a_command_is_run_once_and_changes_nothing_the_second_time(module, room):
    well, found = module(check=True)
    assert (True, True, [f"write {room}/etc/file"]) == (well, found["changed"], found["plan"])
    assert [] == [*(room / "etc").iterdir()]
    well, found = module()
    assert (True, True, "text") == (well, found["changed"], (room / "etc/file").read_text())
    assert "all of it" in found["said"] and f"write {room}/etc/file\n" == found["diff"]["prepared"]
    for check in (True, False):
        well, found = module(check)
        assert (True, False, []) == (well, found["changed"], found["plan"]) and "diff" not in found
    well, found = module(words=["--text", "$HOME ~ *"])
    assert (True, True, "$HOME ~ *") == (well, found["changed"], (room / "etc/file").read_text())


def test_what_is_looked_at_each_time_changes_only_what_it_mends(module, room):
    module()
    well, found = module(looks=True)
    assert (True, True, "mended") == (well, found["changed"], (room / "etc/looked").read_text())
    well, found = module(looks=True)
    assert (True, False, ["fetch the list"]) == (well, found["changed"], found["plan"])
    (room / "etc/looked").write_text("spoiled")
    well, found = module(True, looks=True)
    assert (True, False, "spoiled") == (well, found["changed"], (room / "etc/looked").read_text())
    well, found = module(looks=True)
    assert (True, True, "mended") == (well, found["changed"], (room / "etc/looked").read_text())


@pytest.mark.parametrize("check", [False, True])
def test_a_command_that_fails_says_why(module, room, check):
    well, found = module(check, words=["--text", "bad"])
    assert (False, "vethlumi-server-setup: this text is bad") == (well, found["msg"])
    assert [] == [*(room / "etc").iterdir()]


def test_what_is_not_there_yet_is_a_change_in_check_mode_alone(module):
    for parameters, why in (({"looks": None}, "vethlumi-server-setup isn't installed"),
                            ({"bundle": ""}, "what another machine has to make for this one isn't there")):
        well, found = module(True, **parameters)
        assert (True, True, f"{why} yet: it would be set up then") == (well, found["changed"], found["msg"])
        well, found = module(**parameters)
        assert (False, why) == (well, found["msg"])


def test_a_bundle_is_handed_over_and_not_shown(module, room):
    well, found = module(bundle=HOST, host="db.example.org")
    assert (True, HOST) == (well, (room / "given").read_text())
    assert "--yes -" == (room / "words").read_text()
    assert "PRIVATE KEY" not in json.dumps(found)


@pytest.mark.parametrize("bundle, whose, why", [
    (HOST, {"host": "web.example.org"}, "the bundle of the host db.example.org, and not of web.example.org"),
    (HOST, {}, "the bundle of the caller host-db, and not of -"),
    (HOST, {"caller": "host-db"}, "the bundle of the host db.example.org, and not of -"),
    (HOST.replace("host-db", "root"), {"host": "db.example.org"}, "the bundle of the caller root, and not of -"),
    (HOST + "[caller]\nroot\n", {"host": "db.example.org"}, "the bundle of the caller host-db, root, and not of -"),
    (HOST + "[host]\nweb.example.org\n", {"host": "db.example.org"}, "the host db.example.org, web.example.org, and"),
    ("[caller]\nroot\n", {"caller": "admin"}, "the bundle of the caller root, and not of admin"),
    ("[office]\nhttps://a\n", {"caller": "admin"}, "the bundle of the caller -, and not of admin"),
    ("ssh-ed25519 AAAA\n" + HOST, {"host": "db.example.org"}, "isn't a valid bundle"),
])
def test_a_bundle_of_somebody_else_is_refused(module, room, bundle, whose, why):
    """A front that was taken could make the bundle of another, or bring a CA of its own."""
    well, found = module(bundle=bundle, **whose)
    assert (False, True) == (well, why in found["msg"]), found["msg"]
    assert not (room / "given").exists()


@pytest.fixture
def cas(room):
    """Three CAs' lines, by the fingerprints that ssh-keygen gives them."""
    found = {}
    for name in ("one", "two", "three"):
        run(["ssh-keygen", "-q", "-t", "ed25519", "-N", "", "-C", f"the CA {name}", "-f", room / name], check=True)
        fingerprint = run(["ssh-keygen", "-l", "-f", room / f"{name}.pub"]).stdout.decode().split()[1]
        found[fingerprint] = (room / f"{name}.pub").read_text()
    return found


# The CAs that a machine trusts, those of the station, those that are named, and those that are handed over.
CHOSEN = [("", "1", "", "1"), ("", "12", "", "12"), ("1", "12", "", "1"), ("12", "123", "", "12"),
          ("1", "12", "2", "2"), ("1", "12", "21", "21"), ("3", "12", "2", "2")]


@pytest.mark.parametrize("trusted, station, named, due", CHOSEN)
def test_which_cas_a_machine_gets(module, room, cas, trusted, station, named, due):
    """Those that are named, those that it trusts, or all of the station's: set-up then takes a single one."""
    (room / "etc/trusted-cas").write_text(of(cas, trusted))
    trust = [[*cas][int(it) - 1] for it in named]
    well, found = module(bundle=HOST, host="db.example.org", cas=of(cas, station), trust=trust)
    assert well, found
    assert of(cas, due) + HOST == (room / "given").read_text()
    assert " ".join(["--yes", *(word for it in trust for word in ("--ca", it)), "-"]) == (room / "words").read_text()


@pytest.mark.parametrize("trusted, station, named, why", [
    ("", "12", "3", "the station has no CA {3}, but {1}, {2}"), ("", "", "1", "the station has no CA {1}, but none"),
    ("3", "12", "", "this machine trusts other CAs than the station's: name each in vethlumi_cas: {1}, {2}"),
])
def test_no_machine_gets_another_ca(module, room, cas, trusted, station, named, why):
    (room / "etc/trusted-cas").write_text(of(cas, trusted))
    trust = [[*cas][int(it) - 1] for it in named]
    well, found = module(bundle=HOST, host="db.example.org", cas=of(cas, station), trust=trust)
    assert (False, why.format("", *cas)) == (well, found["msg"])
    assert not (room / "given").exists()


def of(cas, numbers):
    """The lines of the CAs of these numbers."""
    return "".join([*cas.values()][int(it) - 1] for it in numbers)
