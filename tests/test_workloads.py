"""Workloads by all programs: `vethlumi workload` and a host that brings tokens, at the registrar, between a front and
its office and a station with a witness."""
import base64
import hashlib
import os
import re
import time

import pytest

from asking import department
from providers import Cloud, jobs_of, machines_of_cloud, new_line, registrar_behind, signed
from running import CLIENT, run
from running import new_key as new_pair
from test_host import AS_A_CLIENT, Host

HOSTS = department("hosts", kind="host", admins="registrar", principals="*.example.org", maxlife=86460)
JOBS = department("jobs", admins="registrar", principals="*@jobs", maxlife=3660)
SITE = """
[workloads.jobs]
issuer = "{issuer}"
algorithms = ["RS256"]
names = {{ "project_path:corp/site:ref_type:branch:ref:main" = "site" }}
require = {{ ref_protected = "true" }}
"""
WITNESS = SITE + 'keys = "{issuer}/keys"\n' + jobs_of("jobs")


def job(provider, audience, **more):
    """The token of a job, as GitLab gives it to the job's environment."""
    now = int(time.time())
    return signed({"iss": provider.issuer, "sub": "project_path:corp/site:ref_type:branch:ref:main", "aud": audience,
                   "nbf": now - 5, "exp": now + 3600, "iat": now, "jti": os.urandom(8).hex(), "project_id": "22",
                   "ref_protected": "true"} | more, provider.keys[0], typ="JWT")


@pytest.fixture
def provider():
    with Cloud() as made:
        yield made


@pytest.fixture
def cloud(front, sshstation, provider, room):
    """A registrar between a front and its office, and a station with a witness."""
    # The witness looks at certificates of users alone.
    tables = machines_of_cloud("hosts", "24h") + SITE + jobs_of("jobs")
    made = registrar_behind(front, sshstation, room, provider.issuer, tables, [HOSTS, JOBS], WITNESS)
    (room / "client.toml").write_text(f'office = "{front.url}"\ncacert = "{made.trusted}"\ncas = "{room}/cas"\n')
    (room / "cas").write_text(front.office.ca.read_text())
    yield made
    made.end()


def workload(*words, **environment):
    done = run(["/usr/bin/python3", "-B", "-m", "vethlumi", "--config", "client.toml", "--wait", "30", "workload",
                *words], env=os.environ | {"PYTHONPATH": CLIENT} | environment)
    return done.returncode, done.stdout.decode(), done.stderr.decode()


# ---- the client

def test_a_job_gets_a_certificate_by_its_token(cloud, provider, room, programs):
    cloud.station.begin(programs)
    new_pair("key")
    status, audience, errors = workload("key.pub", "--audience")
    line = (room / "key.pub").read_text()
    digest = hashlib.sha256(base64.b64decode(line.split()[1])).hexdigest()
    assert (0, f"vethlumi:{digest}\n", "") == (status, audience, errors)
    (room / "token").write_text(job(provider, audience.strip()) + "\n")
    assert (0, "key-cert.pub serial 1\n", "") == workload("key.pub", "--department", "jobs", "--token", "token")
    said = run(["ssh-keygen", "-L", "-f", "key-cert.pub"], check=True).stdout.decode()
    assert "user certificate" in said and "site@jobs" in said and 'Key ID: "jobs/site/' in said
    # The same token again is the same certificate, and a fresh one renews it.
    assert (0, "key-cert.pub serial 1\n", "") == workload("key.pub", "--department", "jobs", "--token", "token")
    (room / "fresh").write_text(job(provider, audience.strip(), iat=int(time.time()) - 9))
    assert (0, "key-cert.pub serial 2\n", "") == workload("key.pub", "--department", "jobs", "--token", "fresh")


# The words of the command, and what is said. Nothing is asked for, and no file is made.
BAD = {
    "no token": (["--department", "jobs"], "pass either --token or --token-command", 2),
    "two tokens": (["--department", "jobs", "--token", "token", "--token-command", "cat token"],
                   "pass either --token or --token-command", 2),
    "no department": (["--token", "token"], "department", 2),
    "no file": (["--department", "jobs", "--token", "nowhere"], "nowhere: No such file or directory", 2),
    "an empty file": (["--department", "jobs", "--token", "empty"], "empty has no token", 2),
    "two words": (["--department", "jobs", "--token", "two"], "two has no token", 2),
    "a long one": (["--department", "jobs", "--token", "long"], "long has no token", 2),
    "a command that fails": (["--department", "jobs", "--token-command", "echo secret; echo why >&2; exit 3"],
                             "the token command failed: why", 3),
    "a command that fails without a word": (["--department", "jobs", "--token-command", "echo secret; exit 3"],
                                            "the token command failed: status 3", 3),
    "a command that says nothing": (["--department", "jobs", "--token-command", "true"], "the command has no token",
                                    2),
    "another key": (["--department", "jobs", "--token", "token"], "the registrar: BadToken: the token isn't valid", 1),
    "another department": (["--department", "none", "--token", "token"], "the registrar: NoDepartment", 1),
}


@pytest.mark.parametrize("row", BAD)
def test_what_is_no_token_gets_nothing(cloud, provider, room, row):
    words, why, status = BAD[row]
    new_pair("key")
    (room / "token").write_text(job(provider, f"vethlumi:{64 * '0'}"))
    for name, text in (("empty", ""), ("two", "a b"), ("long", 8193 * "a")):
        (room / name).write_text(text)
    found, out, errors = workload("key.pub", *words)
    assert (status, "") == (found, out) and why in errors and "secret" not in errors
    assert not (room / "key-cert.pub").exists() and "total 0 " in cloud.front.served.get("/v1/table").text


@pytest.mark.parametrize("claims, why", [
    ({"ref_protected": "false"}, "BadToken"), ({"sub": "project_path:corp/site:ref_type:branch:ref:other"}, "BadName"),
    ({"sub": "project_path:corp/site2:ref_type:branch:ref:main"}, "BadName"),
])
def test_a_job_of_another_branch_or_project_gets_nothing(cloud, provider, room, claims, why):
    new_pair("key")
    (room / "token").write_text(job(provider, workload("key.pub", "--audience")[1].strip(), **claims))
    status, out, errors = workload("key.pub", "--department", "jobs", "--token", "token")
    assert (1, "") == (status, out) and f"the registrar: {why}" in errors


def test_a_certificate_of_another_ca_is_not_taken(cloud, provider, room, programs):
    cloud.station.begin(programs)
    new_pair("key")
    new_pair("other")
    (room / "cas").write_text((room / "other.pub").read_text())
    (room / "token").write_text(job(provider, workload("key.pub", "--audience")[1].strip()))
    status, out, errors = workload("key.pub", "--department", "jobs", "--token", "token")
    assert (3, "") == (status, out) and "isn't trusted here" in errors and not (room / "key-cert.pub").exists()


# ---- hosts

def settle(host, cloud, how, department_name="hosts", principals="web.example.org"):
    (host.etc / "host.toml").write_text(f'office = "{cloud.front.url}"\ncacert = "{cloud.trusted}"\n'
                                        f'cas = "{host.room}/cas.pub"\n')
    (host.etc / "host.env").write_text(f"DEPARTMENT={department_name}\nPRINCIPALS={principals}\n"
                                       f"KEY={host.room}/host.pub\n{how}\n")
    (host.room / "cas.pub").write_text(cloud.front.office.ca.read_text())


def test_a_host_that_boots_has_its_certificate_and_renews_it_by_a_fresh_token(cloud, provider, room, programs):
    cloud.station.begin(programs)
    host = Host(room, AS_A_CLIENT)
    settle(host, cloud, f'TOKEN_COMMAND=curl -sSfG --data-urlencode "audience=$AUDIENCE" {provider.issuer}/identity')
    assert (0, "") == host() and 1 == host.serial()
    said = run(["ssh-keygen", "-L", "-f", host.present]).stdout.decode()
    assert "host certificate" in said and "web.example.org" in said
    assert re.search('Key ID: "hosts/web.example.org/[a-z2-7]{16}"', said)
    # It isn't due, so no token is asked for.
    assert (0, "") == host() and 1 == len(provider.given)
    time.sleep(1)
    assert (0, "") == host("--now") and (2, 1) == (host.serial(), host.serial(host.old))
    assert 2 == len(provider.given) and 1 == len({*provider.given})


def test_a_host_reads_a_file_that_others_keep_fresh(cloud, provider, room, programs):
    """As of a service account of a cluster, which has it in a volume."""
    cloud.station.begin(programs)
    host = Host(room, AS_A_CLIENT)
    settle(host, cloud, f"TOKEN={room}/token")
    status, told = host()
    assert 1 == status and f"{room}/token: No such file or directory" in told
    audience = workload(host.room / "host.pub", "--audience")[1].strip()
    (room / "token").write_text(provider.instance(audience))
    assert (0, "") == host() and 1 == host.serial()
    # A token that is used again gives the same certificate, which ends no later.
    status, told = host("--now")
    assert 1 == status and "it ends no later than the old one" in told and 1 == host.serial()


def test_a_host_gets_no_name_that_its_token_does_not_give(cloud, provider, room, programs):
    cloud.station.begin(programs)
    host = Host(room, AS_A_CLIENT)
    command = f'TOKEN_COMMAND=curl -sSfG --data-urlencode "audience=$AUDIENCE" {provider.issuer}/identity'
    settle(host, cloud, command, principals="db.example.org")
    status, told = host()
    assert 1 == status and not host.present.exists()
    assert "rejected the new certificate: it is for web.example.org" in told


def test_a_host_takes_no_certificate_of_another_department(cloud, provider, room, programs):
    """The registrar may be one who gives another than was asked for."""
    cloud.station.begin(programs)
    host = Host(room, AS_A_CLIENT)
    command = f'TOKEN_COMMAND=curl -sSfG --data-urlencode "audience=$AUDIENCE" {provider.issuer}/identity'
    settle(host, cloud, command)
    assert (0, "") == host()
    kept = host.present.read_bytes()
    # From then on it is a host of another department, and the client brings what it has brought before.
    shim = room / "bin/vethlumi"
    shim.write_text(f'#!/bin/sh\nwhile [ $# -gt 1 ]; do [ "$1" != --out ] || cp {host.present} "$2"; shift; done\n')
    settle(host, cloud, command, department_name="others")
    status, told = host()
    assert 1 == status and "it belongs to a different department: hosts/web.example.org/" in told
    assert kept == host.present.read_bytes()


@pytest.mark.parametrize("text, why", [
    ("PRINCIPALS=a\nKEY=k\nTOKEN=/t\n", "has no DEPARTMENT"), ("DEPARTMENT=a\nKEY=k\nTOKEN=/t\n", "has no PRINCIPALS"),
    ("DEPARTMENT=a\nPRINCIPALS=a\nTOKEN_COMMAND=x\n", "has no KEY"),
    ("DEPARTMENT=a\nPRINCIPALS=a\nKEY=k\n", "has no KEYID"),
])
def test_settings_of_a_host_that_miss_something_are_named(room, text, why):
    host = Host(room, AS_A_CLIENT)
    (host.etc / "host.env").write_text(text)
    status, told = host()
    assert 1 == status and why in told


def test_nobody_else_uses_the_token_of_a_machine(cloud, provider):
    """It is for the key of this host alone."""
    token = provider.instance(f"vethlumi:{hashlib.sha256(b'another').hexdigest()}")
    status, answer = cloud.post(token, new_line(), "hosts")
    assert (401, "BadToken") == (status, answer["error"])
