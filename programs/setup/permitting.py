"""What changes in a policy from day to day: a user, a caller or a server comes or goes.

Each function takes the text of a policy, or of the office's departments, and returns the text with the change, and what
people should know. All other lines stay as they are, comments too. The same change again changes nothing.
"""
import re

import policies
import setting_up
from setting_up import BadWords, Fault

PRINCIPAL = re.compile("[a-z0-9._@-]{1,64}", re.ASCII)
# The principal of a department that permits nobody: the list may not be empty.
NOBODY = "nobody"
# How many callers administer a department, and how many principals it names, at most.
MOST = 16
# What an option of both commands means.
OF_DEPARTMENT = "the department, for a caller one of hosts too [default: people, or the only one; to remove, all]"


def lines_of(text):
    return re.findall(r"[^\n]*\n", text)


class Policy:
    """The departments of a text, by their names: each with the number of its first line, and its lines."""

    def __init__(self, text):
        # Whoever reads the text next says what else isn't valid in it.
        if text and not text.endswith("\n"):
            raise Fault("the policy's last line has no line feed")
        self.lines = lines_of(text)
        found = [(start - 1, block) for start, block in policies.blocks(text)
                 if len(block) == len(policies.words_of(block))]
        self.blocks = {block[0].removesuffix("\n").partition(" ")[2]: at for at, block in found}
        self.words = {block[0].removesuffix("\n").partition(" ")[2]: policies.words_of(block) for _, block in found}

    @property
    def text(self):
        return "".join(self.lines)

    def department(self, name):
        at = self.blocks[name]
        return "".join(self.lines[at:at + len(self.words[name])])

    def value(self, name, word):
        return self.lines[self.at(name, word)].removesuffix("\n").partition(" ")[2]

    def listed(self, name, word):
        value = self.value(name, word)
        return value.split(",") if value else []

    def put(self, name, word, values):
        self.lines[self.at(name, word)] = f"{word} {','.join(values)}".rstrip(" ") + "\n"

    def at(self, name, word):
        at = self.blocks[name] + self.words[name].index(word)
        if self.lines[at].removesuffix("\n").partition(" ")[0] != word:
            raise Fault(f"the department {name} has no line `{word} ..` in its place")
        return at

    def put_department(self, name, text):
        """Puts a department's lines in the place of those of before, or at the end."""
        if name in self.blocks:
            self.lines[self.blocks[name]:self.blocks[name] + len(self.words[name])] = lines_of(text)
        else:
            self.lines += ["\n"] * bool(self.lines) + lines_of(text)
        self.__init__(self.text)

    def of_kind(self, kind):
        return [it for it in self.blocks if self.value(it, "kind") == kind]

    def chosen(self, named):
        """The department for users that is meant: the one that is named, `people`, or the only one."""
        users = self.of_kind("user")
        if named:
            if named not in users:
                raise Fault(f"there is no department {named} for users. Departments: {', '.join(users) or 'none'}")
            return named
        if "people" in users:
            return "people"
        if len(users) != 1:
            raise BadWords(f"choose the department with --department: {', '.join(users) or 'there is none for users'}")
        return users[0]

    def administered(self, named):
        """The department whose administrators are meant: the one that is named, of hosts too, or one for users."""
        if named and named not in self.blocks:
            raise Fault(f"there is no department {named}, but {', '.join(self.blocks) or 'none'}")
        return named or self.chosen(None)


def rules_for(policy, department, user):
    """The rules of a department that permit a user without naming the user. One with {name} permits everybody, by a
    principal of this form."""
    return [it for it in policy.listed(department, "principals")
            if it != user and (policies.is_met(user, it) or policies.principal_by(it, user))]


def add_to(policy, department, word, value):
    found = policy.listed(department, word)
    if value in found:
        return
    if len(found) >= MOST:
        raise Fault(f"the department {department} has {MOST} {word}, and takes no more")
    policy.put(department, word, [*found, value])


def check_user(user):
    if not PRINCIPAL.fullmatch(user):
        raise BadWords(f"no name of a user: {user!r}: 1 to 64 of a-z, 0-9, `.`, `_`, `@` and -")
    if user == NOBODY:
        raise BadWords("the principal nobody stands for a department without users")


def check_length(policy, department, user):
    """Refuses a name that is too long for the department's rules with {name}: listed by itself, it would be a principal
    for everybody's key IDs."""
    found = policy.listed(department, "principals")
    for rule in [it for it in found if it.startswith(policies.OWN) and user not in found]:
        if len(user + rule) - len(policies.OWN) > policies.LONGEST_PRINCIPAL:
            raise BadWords(f"{user} is too long for the rule {rule} of the department {department}: a principal has at "
                           f"most {policies.LONGEST_PRINCIPAL} bytes, so choose a shorter name")


def check_caller(caller):
    if not setting_up.NAME.fullmatch(caller) or caller.startswith("host-"):
        raise BadWords(f"no name of a caller: {caller!r}: 1 to 32 of a-z, 0-9 and -, and not with host- before it")
    if caller in ("root", "station", "server"):
        raise BadWords(f"{caller} isn't a valid caller name")


# ---- what comes and goes

def add_user(text, user, department=None):
    check_user(user)
    policy = Policy(text)
    name = policy.chosen(department)
    if rules := rules_for(policy, name, user):
        return text, [f"the department {name} permits {user} by the rule {rules[0]}: nothing is added"]
    check_length(policy, name, user)
    if policy.listed(name, "principals") == [NOBODY]:
        policy.put(name, "principals", [user])
    add_to(policy, name, "principals", user)
    return policy.text, []


def remove_user(text, user, department=None):
    check_user(user)
    policy, notes = Policy(text), []
    for name in [policy.chosen(department)] if department else policy.of_kind("user"):
        found = policy.listed(name, "principals")
        if user in found:
            policy.put(name, "principals", [it for it in found if it != user] or [NOBODY])
        if rules := rules_for(policy, name, user):
            notes.append(f"the department {name} still permits {user} by the rule {', '.join(rules)}")
    return policy.text, notes


def add_caller(text, caller, department=None):
    check_caller(caller)
    policy = Policy(text)
    add_to(policy, policy.administered(department), "admins", caller)
    return policy.text, []


def remove_caller(text, caller, department=None):
    check_caller(caller)
    policy = Policy(text)
    for name in [policy.administered(department)] if department else policy.blocks:
        found = policy.listed(name, "admins")
        if caller in found:
            policy.put(name, "admins", [it for it in found if it != caller])
    return policy.text, []


def add_server(text, host, _=None):
    """A department in which the host may ask for its own name, and nobody for anything else; unless there is one of all
    hosts of its domain."""
    host = host.lower()
    setting_up.check_line("host", host)
    name, policy = setting_up.own_department(host), Policy(text)
    is_closed = name in policy.blocks and policy.department(name) == policies.CLOSED.format(name=name, kind="host")
    permitting = departments_for(policy, host)
    if permitting and permitting != [name]:
        of_all = next(it for it in permitting if it != name)
        return text, [f"the department {of_all} permits {host} by a rule with {{name}}: nothing is added"]
    if name not in policy.blocks or is_closed:
        name = setting_up.name_of_host(host)
        policy.put_department(name, policies.HOST.format(name=name, host=host))
    elif not permitting:
        raise Fault(f"the department {name} is there, and isn't one in which {host} asks for its own name: it needs "
                    f"`kind host`, `admins host-{name}` and `principals {host}`")
    return policy.text, []


def departments_for(policy, host):
    return policies.departments_for({it: policy.department(it) for it in policy.blocks}, host)


def remove_server(text, host, _=None):
    """No message removes a department, so the host's own is closed."""
    host = host.lower()
    setting_up.check_line("host", host)
    name, policy = setting_up.own_department(host), Policy(text)
    notes = [f"the department {it} still permits {host} by a rule with {{name}}, if somebody gives it a bundle again"
             for it in departments_for(policy, host) if it != name]
    if name not in policy.blocks:
        return text, notes or [f"there is no department {name}"]
    if policies.goes_with(policy.department(name), host):
        policy.put_department(name, policies.CLOSED.format(name=name, kind="host"))
    elif not notes:
        raise Fault(f"the department {name} isn't that of {host} alone, so it stays. If it is to be closed, change it "
                    "as the office's root, by vethlumi department put, and in the station's policy")
    return policy.text, notes


JOBS = {"add-user": add_user, "remove-user": remove_user, "add-caller": add_caller, "remove-caller": remove_caller,
        "add-server": add_server, "remove-server": remove_server}


def changed(old, new):
    """The departments that two texts have otherwise: the text of each before and after, by its name. `""` is none."""
    before, after = Policy(old), Policy(new)
    found = {it: (before.department(it) if it in before.blocks else "", after.department(it)) for it in after.blocks}
    return {name: it for name, it in found.items() if it[0] != it[1]}


def job_options(parser):
    """What both commands take that change departments: the job, and whom it is about."""
    parser.add_argument("job", choices=JOBS, metavar="JOB", help=f"one of {', '.join(JOBS)}")
    parser.add_argument("name", metavar="NAME", help="the user (a principal), the caller, or the server's host name")
    parser.add_argument("--department", metavar="NAME", help=OF_DEPARTMENT)
