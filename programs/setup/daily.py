"""What `vethlumi-install` does from day to day: the commands that it runs on each machine when a user, a caller or a
server comes or goes, when servers are to enrol themselves, and when a restored office is recovered."""
import re

from setting_up import FINGERPRINT, HOST_PREFIX, NAME, BadWords, Fault

# Each job, with whom it is about.
JOBS = {"add-user": "NAME", "remove-user": "NAME", "add-caller": "NAME", "remove-caller": "NAME",
        "add-server": "MACHINE", "remove-server": "HOST", "leave": "NAME", "enrolment": "FILE", "recover": ""}
# The jobs that an option is for.
OPTIONS = {"department": ("add-user", "remove-user", "add-caller", "remove-caller", "enrolment"),
           "server": ("add-user", "remove-user", "leave", "recover"), "client": ("add-user", "add-caller"),
           "caller": ("leave",), "most": ("recover",), "to": ("recover",), "name": (), "first": (),
           "ca": ("add-server", "add-user", "add-caller")}
# The caller who requests certificates for servers that enrol, their department unless one is named, and the packages.
REGISTRAR, HOSTS = "registrar", "hosts"
OF_REGISTRAR = ["vethlumi-common", "vethlumi-client", "vethlumi-registrar"]
# The clients of a front that each set-up of it makes.
OF_SET_UP = ("root", "station", "admin", "watch", "server")
# The set-up command that gets further options.
SET_UPS = {"add-server": "vethlumi-server-setup", "add-user": "vethlumi-client-setup",
           "add-caller": "vethlumi-client-setup"}
# What the front takes back with whom.
TAKEN_BACK = {"remove-caller": "--remove", "remove-server": "--remove", "remove-user": "--remove-user"}
USER = re.compile("[a-z0-9._@-]{1,64}", re.ASCII)
ACCOUNT = re.compile(r"[a-z_][a-z0-9_-]{0,31}", re.ASCII)
# Stops at an account that isn't a person's: one whose user ID `vethlumi-principals` doesn't take.
OF_PERSON = """uid=$(getent passwd {0} | cut -d : -f 3) uid=${{uid:-1000}}
if [ $uid -ge 61184 ] && [ $uid -le 65535 ] || [ $uid -lt 1000 ] || [ $uid -ge 4294967294 ]; then
  echo "the account {0} has the user ID $uid, so it isn't a person's, and stays: leave out --server" >&2
  exit 1
fi
"""
# An account that has ended, by a day that is over, is one that nobody enters: its files stay.
ADD_ACCOUNT = OF_PERSON + """if ! getent passwd {0} >/dev/null; then
  useradd --create-home --shell /bin/bash --password '*' {0}
elif [ "$(getent shadow {0} | cut -d : -f 8)" = 1 ]; then usermod --expiredate '' {0}; fi"""
END_ACCOUNT = OF_PERSON + """if getent passwd {0} >/dev/null; then
  usermod --expiredate 1 {0}; pkill -KILL -u {0} || true; fi"""
# Prints what the guards have approved, each with its CA. A guard's file is locked while its station runs.
GUARDS = """set -e
systemctl stop 'office-station@*'
for it in /etc/vethlumi/station/*.pub; do
  name=${it##*/} guard=/var/lib/office-station/${it##*/}
  [ "$name" != cas.pub ] && [ -e "${guard%.pub}.db" ] || continue
  echo "[guard $(ssh-keygen -l -f "$it" | cut -d ' ' -f 2)]"
  runuser -u office-station -- sshstation bodies --db "${guard%.pub}.db"
done"""
LIST = "echo '[list]'; ssh-keygen -Q -l -f /var/lib/office-list/revoked.krl"
START = """for it in /etc/systemd/system/multi-user.target.wants/office-station@*.service; do
  [ ! -e "$it" ] || systemctl start "${it##*/}"
done"""
# In bytes: what is read of a guard or a list. In seconds: until a station has stopped, and its guards are read.
LONGEST, LONGEST_STOP = 1 << 26, 900


def options(parser):
    parser.add_argument("--department", metavar="NAME",
                        help="the department [default: people; hosts, for enrolment]")
    parser.add_argument("--server", action="append", default=[], metavar="MACHINE",
                        help="an account's server, or one to recover from (repeatable)")
    parser.add_argument("--client", metavar="MACHINE", help="the machine to set up for a new user or caller")
    parser.add_argument("--most", metavar="N", help="how many serials may be missing, for `recover`")
    parser.add_argument("--to", metavar="N", help="the last serial to recover")


def check(given):
    """Refuses words that no machine has to see."""
    job, who = given.role, given.machine
    if JOBS[job] and not who:
        raise BadWords(f"{job} needs {JOBS[job]} right after it")
    if job == "recover" and who:
        raise BadWords(f"recover takes no name: {who}")
    for name, jobs in OPTIONS.items():
        if getattr(given, name) and job not in jobs:
            raise BadWords(f"{job} takes no --{name}")
    if given.department and not NAME.fullmatch(given.department):
        raise BadWords(f"invalid department name: {given.department!r}")
    # Without a machine there is nothing to set up.
    is_without = job in ("add-user", "add-caller") and not given.client
    if given.further and (job not in SET_UPS or is_without):
        raise BadWords(f"{job} has no option {given.further[0]}")
    if given.ca and is_without:
        raise BadWords(f"{job} takes no --ca without --client")
    if job == "add-user" and given.client and (who in (*OF_SET_UP, REGISTRAR) or not NAME.fullmatch(who)):
        raise BadWords(f"{who} isn't a valid caller name: leave out --client")
    if job in ("remove-caller", "leave") and (given.caller or who) in OF_SET_UP:
        raise BadWords(f"{given.caller or who} is a name that set-up makes, and nobody's who leaves")
    if job in ("add-caller", "remove-caller", "leave") and not NAME.fullmatch(given.caller or who):
        raise BadWords(f"no name of a caller: {given.caller or who!r}"
                       + (f": for somebody who is none, type remove-user {who}" if job == "leave" else ""))
    if job in ("add-user", "remove-user", "leave") and not USER.fullmatch(who):
        raise BadWords(f"no name of a user: {who!r}")
    if job in ("add-user", "remove-user", "leave") and who.startswith(HOST_PREFIX):
        raise BadWords(f"no name of a user: {who!r}: only servers have names that begin with {HOST_PREFIX}. For a "
                       "server, type add-server or remove-server, and its host name")
    if who == "root" and (job == "leave" or given.server):
        raise BadWords("root isn't a person's account, so it stays. For the principal root, type "
                       f"{'add' if job == 'add-user' else 'remove'}-user root without --server")
    if given.server and job != "recover" and not ACCOUNT.fullmatch(who):
        raise BadWords(f"{who} isn't a valid account name: leave out --server")
    if job == "recover" and not given.server:
        raise BadWords("recover needs --server: a machine that has the list of revoked certificates")
    for name in ("most", "to"):
        if getattr(given, name) and not re.fullmatch("[1-9][0-9]{0,18}", getattr(given, name), re.ASCII):
            raise BadWords(f"--{name} is a serial: {getattr(given, name)!r}")


def jobs_of(given):
    """The jobs that a command consists of, each with its name."""
    if given.role == "enrolment":
        return [("add-caller", REGISTRAR)]
    if given.role in ("add-server", "remove-server"):
        # ssh asks for a host in small letters, whatever was typed.
        return [(given.role, given.machine.rpartition("@")[2].lower())]
    if given.role != "leave":
        return [(given.role, given.machine)]
    return [("remove-user", given.machine), ("remove-caller", given.caller or given.machine)]


def steps_of(given, set_up, machines):
    """Adds the steps of a job: for the station, the office, the front, and for each server that is named."""
    named = ["--department", given.department] if given.department else []
    jobs = jobs_of(given)
    for job, name in jobs:
        set_up(machines["station"], ["vethlumi-station-policy", job, name, *named, "--yes"])
    # The front comes before what is revoked: whom a department for everybody permits could ask again in between.
    taken_back = {name: TAKEN_BACK[job] for job, name in jobs if job in TAKEN_BACK and is_client(job, name)}
    if taken_back:
        words = [word for name, option in taken_back.items() for word in (option, name)]
        set_up(machines["office"], ["vethlumi-front-setup", *words, "--yes"])
    for job, name in jobs:
        set_up(machines["office"], ["vethlumi-office-root", job, name, *named, "--yes"])
        if job in ("add-user", "remove-user"):
            script = (ADD_ACCOUNT if job == "add-user" else END_ACCOUNT).format(name)
            for it in machines["servers"]:
                set_up(it, ["sh", "-c", script], what=(
                    f"create the account {name}, without a password, unless it is there" if job == "add-user" else
                    f"end the account {name} and its sessions, and keep its files"))


def is_client(job, name):
    """Whether a name may be one of a front's clients."""
    return job != "remove-user" or bool(NAME.fullmatch(name)) and name not in OF_SET_UP


# ---- an office that is restored

def is_known(text):
    return bool(re.fullmatch(rf"(\[guard {FINGERPRINT.pattern}\]\n([0-9]+ [0-9a-f]{{64}} [0-9]+ [!-~]+\n)*)+", text,
                             re.ASCII))


def recover(given, machines):
    """The words of the office's command, and a function that reads its input from the guards and the servers."""
    words = ["vethlumi-office-root", "recover", *[it for name in ("most", "to") if getattr(given, name)
                                                  for it in (f"--{name}", getattr(given, name))], "--yes"]

    def read():
        guards = machines["station"].run("sh", "-c", GUARDS, seconds=LONGEST_STOP, most=LONGEST)
        if not is_known(guards):
            raise Fault(f"{machines['station'].host} has no guard, or its answer isn't a list of what it approved")
        return guards + "".join(it.run("sh", "-c", LIST, most=LONGEST) for it in machines["servers"])
    return words, read
