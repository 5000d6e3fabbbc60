#!/usr/bin/python3
"""Runs a set-up command of Vethlumi, and says whether it has changed anything."""
import base64
import contextlib
import hashlib
import pathlib
import re

from ansible.module_utils.basic import AnsibleModule

DOCUMENTATION = r"""
module: set_up
short_description: runs a set-up command of Vethlumi
description:
  - Runs C(vethlumi-station-setup), C(vethlumi-front-setup), C(vethlumi-office-setup), C(vethlumi-server-setup) or
    C(vethlumi-client-setup), and hands over on its standard input what another machine has made for this one.
  - First it asks the command for its plan, which changes nothing. If the plan is empty, nothing else is done. In check
    mode nothing else is done either.
  - The plan is shown with C(--diff). What is handed over is neither shown nor logged.
author: Vethlumi maintainers
options:
  command:
    description: the command, which the machine's package has
    type: str
    required: true
    choices: [vethlumi-station-setup, vethlumi-front-setup, vethlumi-office-setup, vethlumi-server-setup,
              vethlumi-client-setup]
  words:
    description: the command's options and arguments
    type: list
    elements: str
    default: []
  bundle:
    description: what another machine has made for this one. If it is empty, that machine is not set up yet, which is
      an error except in check mode
    type: str
  cas:
    description: the CAs' public-key lines, as the station's machine has them
    type: str
    default: ""
  trust:
    description: the fingerprints of the CAs to trust from now on, and no other. Without it, the command keeps those
      that the machine trusts, or takes the only one of O(cas)
    type: list
    elements: str
    default: []
  caller:
    description: the caller whose bundle it has to be. A bundle that names a caller is refused without it
    type: str
  host:
    description: the host whose bundle it has to be. A bundle that names a host is refused without it
    type: str
attributes:
  check_mode:
    support: full
  diff_mode:
    support: full
"""

EXAMPLES = r"""
- name: Set up the front
  vethlumi.fleet.set_up:
    command: vethlumi-front-setup
    words: [office.example.org]
"""

RETURN = r"""
plan:
  description: the lines of the command's plan
  type: list
  returned: always
said:
  description: what the command has printed otherwise
  type: list
  returned: when it was run
"""

NOTHING, ASKS = "everything is as it should be", "Not a terminal. Pass --yes to confirm."
# What vethlumi-server-setup does each time: it looks, and mends what it finds. The files say whether it did.
LOOKS = ("believe the CA ", "leave the account ", "fetch the ", "have sshd ", "ask for the certificate of the host ",
         "open accounts of people to ")
WRITTEN = ("/etc/vethlumi", "/etc/ssh/sshd_config.d", "/etc/ssh/ssh_config.d")
TRUSTED = pathlib.Path("/etc/vethlumi/trusted-cas")


class Fault(Exception):
    """Why the command isn't run, or what it said when it failed."""


def fingerprint(line):
    blob = base64.b64decode(line.split()[1])
    return "SHA256:" + base64.b64encode(hashlib.sha256(blob).digest()).decode().rstrip("=")


def chosen(lines, trust):
    """Those of the CAs' lines that are named, or else those that the machine trusts: another one of the station's may
    be retired, or lost. A machine that trusts none gets all of them, and takes a single one."""
    found = {fingerprint(it): it for it in lines.splitlines() if len(it.split()) > 1}
    trusted = TRUSTED.read_text() if TRUSTED.exists() else ""
    known = [it for it, line in found.items() if line.split()[1] in trusted]
    if missing := [it for it in trust if it not in found]:
        raise Fault(f"the station has no CA {missing[0]}, but {', '.join(found) or 'none'}")
    if found and trusted and not trust and not known:
        raise Fault(f"this machine trusts other CAs than the station's: name each in vethlumi_cas: {', '.join(found)}")
    return "".join(f"{found[it]}\n" for it in trust or known or found)


def check_whose(bundle, caller, host):
    """Refuses somebody else's bundle, which would take the place of this caller's files: the machine that makes bundles
    may have been taken."""
    if not bundle.startswith("["):
        raise Fault("what another machine made for this one isn't a valid bundle")
    for part, due in (("caller", caller), ("host", host)):
        said = re.findall(rf"^\[{part}\]\n(.*)", bundle, re.M)
        if host and part == "caller":
            is_due = len(said) == 1 and said[0].startswith("host-")
        else:
            is_due = said == ([due] if due else [])
        if not is_due:
            raise Fault(f"this is the bundle of the {part} {', '.join(said) or '-'}, and not of {due or '-'}")


def state():
    """The files that set-up commands write, by their digests, owners and modes."""
    found = {}
    for it in (path for folder in WRITTEN for path in pathlib.Path(folder).rglob("*")):
        # A timer may put a new file in the place of one meanwhile.
        with contextlib.suppress(FileNotFoundError):
            stat = it.lstat()
            text = it.read_bytes() if it.is_file() else b""
            found[str(it)] = stat.st_uid, stat.st_gid, stat.st_mode, hashlib.sha256(text).hexdigest()
    return found


class Command:
    """A set-up command with its words, and what it gets on its standard input."""

    def __init__(self, module):
        given = module.params
        self.module, self.name, self.path = module, given["command"], module.get_bin_path(given["command"])
        self.input = ""
        self.words = [*given["words"], *(word for it in given["trust"] for word in ("--ca", it))]
        if given["bundle"]:
            check_whose(given["bundle"], given["caller"], given["host"])
            self.input = chosen(given["cas"], given["trust"]) + given["bundle"]
            self.words.append("-")

    def lacks(self):
        """What has to be there first, and isn't."""
        if not self.path:
            return f"{self.name} isn't installed"
        return "what another machine has to make for this one isn't there" if self.module.params["bundle"] == "" else ""

    def run(self, *further):
        """The status of the command, and the lines that it has printed. Its standard input is never a terminal, at
        which it would ask."""
        status, out, faults = self.module.run_command([self.path, *further, *self.words], data=self.input or "\n",
                                                      binary_data=True, expand_user_and_vars=False)
        return status, [*out.splitlines(), *faults.splitlines()]

    def plan(self):
        """The lines of its plan. Without a terminal and without --yes the command shows it, and ends."""
        status, lines = self.run()
        if NOTHING in lines and not status:
            return []
        if not lines or not lines[-1].endswith(ASKS):
            raise Fault("\n".join(lines) or f"{self.name} ended with status {status}")
        return [it[2:] for it in lines if it.startswith("  ")]

    def carry_out(self):
        status, lines = self.run("--yes")
        if status:
            raise Fault("\n".join(lines[-20:]) or f"{self.name} ended with status {status}")
        return [it for it in lines if not it.startswith("  ")]


def set_up(module):
    command = Command(module)
    if lacks := command.lacks():
        if not module.check_mode:
            raise Fault(lacks)
        return {"changed": True, "plan": [], "msg": f"{lacks} yet: it would be set up then"}
    plan = command.plan()
    changes = [it for it in plan if not it.startswith(LOOKS)]
    result = {"changed": bool(changes), "plan": plan}
    if plan and not module.check_mode:
        before = state()
        result |= {"said": command.carry_out(), "changed": bool(changes) or before != state()}
    if result["changed"]:
        result["diff"] = {"prepared": "".join(f"{it}\n" for it in plan)}
    return result


def main():
    module = AnsibleModule(supports_check_mode=True, argument_spec={
        "command": {"type": "str", "required": True, "choices": [
            f"vethlumi-{it}-setup" for it in ("station", "front", "office", "server", "client")]},
        "words": {"type": "list", "elements": "str", "default": []},
        "bundle": {"type": "str", "no_log": True},
        "cas": {"type": "str", "default": ""},
        "trust": {"type": "list", "elements": "str", "default": []},
        "caller": {"type": "str"},
        "host": {"type": "str"},
    })
    try:
        module.exit_json(**set_up(module))
    except Fault as fault:
        module.fail_json(msg=str(fault))


if __name__ == "__main__":
    main()
