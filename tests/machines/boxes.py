#!/usr/bin/python3
"""Boxes: machines of Debian 12, each with a systemd of its own, for tests of units and of pages.

    tests/machines/boxes.py prepare           makes the folder that every box starts from, unless it is there, and that
                                              of a fleet. This takes some minutes
    tests/machines/boxes.py prepare volume    makes that of boxes with a volume, too
    tests/machines/boxes.py folder            prints where the first is: $OFFICE_BOXES, or /var/cache/sshoffice-boxes

The boxes of a `Rack` have a network of their own. They run in namespaces that end with the process that made the rack,
however it ends: then the kernel ends every box, and their files, which are in memory, are gone.
"""
import contextlib
import ctypes
import fcntl
import hashlib
import itertools
import os
import pathlib
import shutil
import signal
import subprocess
import sys
import time
import uuid

FOLDER = pathlib.Path(os.environ.get("OFFICE_BOXES", "/var/cache/sshoffice-boxes"))
RELEASE = "bookworm"
PACKAGES = """systemd systemd-sysv dbus libpam-systemd iproute2 procps logrotate cron nginx-light libnginx-mod-http-js
openssh-client python3-requests python3-cffi-backend python3-cryptography
openssh-server openssl curl sqlite3 python3 ca-certificates""".split()
# What our packages depend on.
NEEDED = """python3-click python3-rich nginx libnginx-mod-http-js curl sqlite3 openssl logrotate openssh-client
python3-requests python3-cryptography python3-jwt python3-platformdirs python3-waitress""".split()
# Boxes of a fleet have that already, and what Ansible needs on both sides. They start from a folder of their own, which
# the first test that needs it makes.
OF_FLEET = FOLDER.with_name(f"{FOLDER.name}-fleet"), [*PACKAGES, *NEEDED, "python3-apt", "ansible-core"]
# So do boxes of an office on a volume.
OF_VOLUME = (FOLDER.with_name(f"{FOLDER.name}-ceph"),
             [*PACKAGES, "ceph", "ceph-mds", "ceph-fuse"])
TOOLS = "debootstrap systemd-nspawn unshare nsenter ip mount".split()
ENVIRONMENT = {"PATH": "/usr/local/sbin:/usr/local/bin:/usr/sbin:/usr/bin:/sbin:/bin", "HOME": "/root", "USER": "root",
               "LANG": "C.UTF-8", "TZ": "UTC"}
DOMAIN = "example.org"
# Debian's own timers of which one may come due in any test, and then has apt's lock, or fails for want of a network.
TIMERS_OFF = ("apt-daily", "apt-daily-upgrade", "dpkg-db-backup")
# What setns(2) is told of a network. Python has it from 3.12 on.
CLONE_NEWNET = 0x40000000
# With this status systemd-nspawn says that the box wants to be started again.
REBOOT = 133
NETWORK = "[Match]\nName=host0\n[Network]\nAddress={}/24\nLinkLocalAddressing=no\nIPv6AcceptRA=no\n"
# The first process of a rack. It ends when nobody holds the other end of its standard input any more. systemd-nspawn
# has a folder for each name of a box, so a rack has such folders of its own: boxes of other racks may have these names.
KEEPER = """set -e
mount --make-rprivate /
mount -t tmpfs -o mode=755 rack "$1"
mkdir -p /run/systemd/nspawn
mount -t tmpfs -o mode=755 nspawn /run/systemd/nspawn
ip link set lo up
ip link add rack type bridge
ip link set rack up
echo ready
exec cat >/dev/null
"""
# Copies a folder, and installs packages in the copy. It starts nothing.
INSTALL = """cp -a "$1" "$2"
root=$2
shift 2
mount -t proc proc "$root/proc"
mount --bind /dev "$root/dev"
mkdir -p "$root/var/cache/apt/archives/partial"
cp /etc/resolv.conf "$root/etc/resolv.conf"
printf '#!/bin/sh\\nexit 101\\n' >"$root/usr/sbin/policy-rc.d"
chmod 755 "$root/usr/sbin/policy-rc.d"
chroot "$root" apt-get -qq update
chroot "$root" apt-get -qq install --no-install-recommends "$@"
rm "$root/usr/sbin/policy-rc.d"
"""
# Enters the folders of control groups that are named, and becomes systemd-nspawn.
ENTER = 'for it in $GROUPS_OF_BOX; do echo 0 >"$it/cgroup.procs"; done; unset GROUPS_OF_BOX; exec "$@"'


class CannotBoot(Exception):
    """Why this machine can't boot a box."""


def why_none():
    """Why this machine can't boot a box, or None."""
    if os.getuid():
        return "only root can boot a box"
    missing = [it for it in TOOLS if not shutil.which(it, path=ENVIRONMENT["PATH"])]
    return f"{', '.join(missing)} missing" if missing else None


# ---- the folder that every box starts from

def stamp(packages):
    return hashlib.sha256(" ".join([RELEASE, *packages]).encode()).hexdigest()


def is_prepared(folder, packages):
    with contextlib.suppress(OSError):
        return (folder / "stamp").read_text() == stamp(packages)
    return False


def prepare(folder=FOLDER, packages=PACKAGES):
    """Makes the folder of a Debian with its packages, unless it is there. Several processes may call this at once."""
    if is_prepared(folder, packages):
        return folder / "root"
    if reason := why_none():
        raise CannotBoot(reason)
    folder.mkdir(parents=True, exist_ok=True)
    with open(folder / "lock", "w") as lock:
        fcntl.flock(lock, fcntl.LOCK_EX)
        if not is_prepared(folder, packages):
            make_root(folder, packages)
    return folder / "root"


def make_root(folder, packages):
    new, root = folder / "new", folder / "root"
    for it in (folder / "stamp", new, root):
        shutil.rmtree(it) if it.is_dir() else it.unlink(missing_ok=True)
    further = [it for it in packages if it not in PACKAGES]
    if further:
        # debootstrap can't find the order of all of these.
        make("sh", "-ec", INSTALL, "sh", prepare(), new, *further)
    else:
        make("debootstrap", "--variant=minbase", f"--include={','.join(packages)}", RELEASE, new)
    shutil.rmtree(new / "var/cache/apt/archives", ignore_errors=True)
    new.rename(root)
    (folder / "stamp").write_text(stamp(packages))


def make(*words):
    """Runs a command that makes a folder. What it mounts ends with it, also if it is killed."""
    environment = ENVIRONMENT | {"DEBIAN_FRONTEND": "noninteractive"}
    made = subprocess.run(["unshare", "--mount", *words], capture_output=True, text=True, env=environment)
    if made.returncode:
        raise CannotBoot(f"{words[0]} failed: {(made.stdout + made.stderr)[-800:]}")


# ---- control groups

def group_folders():
    """Where this process may make control groups: in the one hierarchy of version 2, or in those of version 1 that
    systemd needs to run and to limit memory."""
    top = pathlib.Path("/sys/fs/cgroup")
    if (top / "cgroup.controllers").exists():
        found = [(top, "")]
    else:
        found = [(top / "unified", ""), (top / "systemd", "name=systemd"), (top / "memory", "memory")]
    own = dict(line.split(":")[1:] for line in pathlib.Path("/proc/self/cgroup").read_text().splitlines())
    return [place / own.get(name, "/").lstrip("/") for place, name in found if place.is_dir()]


def remove_group(folder, seconds=5.0):
    """Removes the folder of a control group that has ended. The kernel keeps it for a moment after its last process."""
    end = time.monotonic() + seconds
    while folder.exists() and time.monotonic() < end:
        # Somebody else may remove the same folders.
        with contextlib.suppress(FileNotFoundError):
            for it in [*sorted(folder.rglob("*/"), key=lambda it: -len(it.parts)), folder]:
                with contextlib.suppress(OSError):
                    it.rmdir()
        time.sleep(0.02)


def remove_old_groups():
    """Removes what a process that was killed has left: empty folders that have its number."""
    for place in group_folders():
        for it in place.glob("sshoffice-box-*"):
            if not pathlib.Path("/proc", it.name.split("-")[2]).exists():
                remove_group(it, 0.1)


def allow_many_boxes():
    """A box's systemd and D-Bus take five or so of the system's inotify instances, which all count as root's. By default
    there are 128, and a box that gets none of them never ends its boot."""
    limit = pathlib.Path("/proc/sys/fs/inotify/max_user_instances")
    with contextlib.suppress(OSError):
        if int(limit.read_text()) < 4096:
            limit.write_text("4096")


def children(pid):
    with contextlib.suppress(OSError):
        return [int(it) for it in pathlib.Path(f"/proc/{pid}/task/{pid}/children").read_text().split()]
    return []


def descendants(pid):
    for it in children(pid):
        yield it
        yield from descendants(it)


def wait_until(is_so, what, seconds=180):
    """Waits until a function returns something true, and returns that."""
    end = time.monotonic() + seconds
    while time.monotonic() < end:
        if found := is_so():
            return found
        time.sleep(0.1)
    raise AssertionError(f"not within {seconds} s: {what}")


def enter_network(namespace):
    """Has this thread, and no other one, be in the network of an open file of /proc."""
    libc = ctypes.CDLL(None, use_errno=True)
    if libc.setns(namespace.fileno(), CLONE_NEWNET):
        raise OSError(ctypes.get_errno(), os.strerror(ctypes.get_errno()))


# ---- boxes

class Rack:
    """A network with boxes, each of which reaches the others by NAME.example.org. `kept` is a folder of boxes that were
    kept by `keep`: a box that has the name of one of them begins with its files."""

    def __init__(self, room, base=None, kept=None):
        self.base, self.kept = base or prepare(), kept
        self.room = pathlib.Path(room)
        self.boxes = {}
        self.numbers = itertools.count(2)
        remove_old_groups()
        allow_many_boxes()
        words = ["unshare", "--mount", "--net", "--pid", "--fork", "--mount-proc", "sh", "-c", KEEPER, "sh", self.room]
        self.keeper = subprocess.Popen(words, stdin=subprocess.PIPE, stdout=subprocess.PIPE, stderr=subprocess.PIPE,
                                       env=ENVIRONMENT)
        if self.keeper.stdout.readline() != b"ready\n":
            self.keeper.stdin.close()
            raise CannotBoot(self.keeper.stderr.read().decode(errors="replace").strip())
        self.first = children(self.keeper.pid)[0]
        # The rack's files, as this process sees them.
        self.files = pathlib.Path(f"/proc/{self.first}/root{self.room}")
        self.make_key()

    def make_key(self):
        """The key by which the boxes that have it log in to all others as root."""
        key = self.files / "key"
        subprocess.run(["ssh-keygen", "-q", "-t", "ed25519", "-N", "", "-C", "admin", "-f", key], check=True)
        self.key, self.public = key.read_bytes(), key.with_suffix(".pub").read_bytes()

    def enter(self, *words, **how):
        """Starts a command in the rack's namespaces."""
        into = ["nsenter", "-t", str(self.first), "-m", "-n", "-p", "--"]
        return subprocess.Popen([*into, *words], **({"env": ENVIRONMENT, "stdin": subprocess.DEVNULL} | how))

    def add(self, *names):
        """Makes boxes and boots them side by side."""
        made = [Box(self, name, f"10.80.0.{next(self.numbers)}") for name in names]
        self.boxes |= {it.name: it for it in made}
        for it in self.boxes.values():
            it.write("etc/hosts", self.hosts())
        for it in made:
            self.furnish(it)
            it.start()
        for it in made:
            it.wait_until_up()
        return made

    def furnish(self, box):
        """What a box of this rack gets before it starts for the first time."""

    def hosts(self):
        lines = ["127.0.0.1 localhost", "::1 localhost"]
        return "".join(f"{it}\n" for it in lines + [f"{it.address} {it.host}" for it in self.boxes.values()])

    def keep(self, folder):
        """Switches all boxes off, and keeps their files in a folder."""
        for box in self.boxes.values():
            box.switch_off()
        for box in self.boxes.values():
            box.running.wait(240)
            subprocess.run(["cp", "-a", self.files / box.name / "over", folder / box.name], check=True)

    def end(self):
        """Ends every box at once, as if the plug were pulled."""
        self.keeper.stdin.close()
        self.keeper.wait(120)
        for pipe in (self.keeper.stdout, self.keeper.stderr):
            pipe.close()
        for box in self.boxes.values():
            box.forget()


class Box:
    """A machine. Its files lie over those of the folder that every box starts from, and stay while it is off."""

    def __init__(self, rack, name, address):
        self.rack, self.name, self.address, self.host = rack, name, address, f"{name}.{DOMAIN}"
        self.files = rack.files / name / "root"
        # One name in all hierarchies: systemd-nspawn takes that of version 2 for version 1 too.
        group = f"sshoffice-box-{os.getpid()}-{name}-{uuid.uuid4().hex[:8]}"
        self.groups = [it / group for it in group_folders()]
        self.running = self.init = None
        # Words for systemd-nspawn: disks of its own, and devices.
        self.disks = []
        self.make_files()

    def add_disk(self, place, size):
        """Gives the box a disk of its own at a folder, before it starts. What is on it stays while the box is off."""
        disk = self.rack.room / self.name / f"disk{len(self.disks)}"
        (self.rack.files / self.name / disk.name).mkdir()
        (self.files / place.lstrip("/")).mkdir(parents=True, exist_ok=True)
        if self.rack.enter("mount", "-t", "tmpfs", "-o", f"size={size},mode=755", "disk", disk).wait():
            raise CannotBoot("this machine mounts no tmpfs")
        self.disks.append(f"--bind={disk}:{place}")

    def make_files(self):
        here = self.rack.room / self.name
        for it in ("over", "work", "root"):
            (self.rack.files / self.name / it).mkdir(parents=True)
        lower = [self.rack.base]
        if self.rack.kept and (self.rack.kept / self.name).exists():
            lower.insert(0, self.rack.kept / self.name)
        options = f"lowerdir={':'.join(map(str, lower))},upperdir={here}/over,workdir={here}/work"
        mount = ["mount", "-t", "overlay", "box", "-o", options]
        if self.rack.enter(*mount, here / "root").wait():
            raise CannotBoot("this machine mounts no overlay")
        # The file is the image's, and may not be written.
        (self.files / "etc/machine-id").unlink()
        self.write("etc/machine-id", uuid.uuid4().hex + "\n")
        self.write("etc/hostname", self.name + "\n")
        self.write("etc/systemd/journald.conf.d/box.conf", "[Journal]\nStorage=volatile\n")
        self.write("etc/systemd/network/10-host0.network", NETWORK.format(self.address))
        for target, unit in (("multi-user", "systemd-networkd"), ("network-online", "systemd-networkd-wait-online")):
            wants = self.files / f"etc/systemd/system/{target}.target.wants"
            wants.mkdir(parents=True, exist_ok=True)
            with contextlib.suppress(FileExistsError):
                (wants / f"{unit}.service").symlink_to(f"/lib/systemd/system/{unit}.service")
        for it in TIMERS_OFF:
            with contextlib.suppress(FileExistsError):
                (self.files / f"etc/systemd/system/{it}.timer").symlink_to("/dev/null")
        self.write("root/.ssh/authorized_keys", self.rack.public, 0o600)

    def write(self, path, text, mode=0o644):
        """Writes a file of the box."""
        file = self.files / path
        file.parent.mkdir(parents=True, exist_ok=True)
        file.write_bytes(text if isinstance(text, bytes) else text.encode())
        file.chmod(mode)

    def may_log_in(self):
        """Lets root of this box log in to the others."""
        self.write("root/.ssh/id_ed25519", self.rack.key, 0o600)
        self.write("root/.ssh/config", "Host *.example.org\n  StrictHostKeyChecking accept-new\n", 0o600)

    def start(self):
        for it in self.groups:
            it.mkdir(exist_ok=True)
        root = self.rack.room / self.name / "root"
        words = ["systemd-nspawn", "-D", root, "-M", self.name, "--boot", "--register=no", "--keep-unit",
                 "--network-bridge=rack", "-q", "--console=pipe",
                 # Without these systemd can't filter addresses in the box.
                 "--capability=CAP_BPF", "--system-call-filter=bpf", *self.disks]
        self.init = None
        with open(self.rack.files / self.name / "log", "wb") as log:
            self.running = self.rack.enter("sh", "-c", ENTER, "sh", *words, stdout=log, stderr=subprocess.STDOUT,
                                           env=ENVIRONMENT | {"GROUPS_OF_BOX": " ".join(map(str, self.groups))})

    def wait_until_up(self):
        try:
            self.init = wait_until(self.find_init, f"{self.name} begins")
            wait_until(self.is_up, f"{self.name} is up", seconds=400)
        except AssertionError as fault:
            said = (self.rack.files / self.name / "log").read_text(errors="replace")
            raise CannotBoot(f"{fault}: {said[-800:]}") from None

    def find_init(self):
        """The number of the box's first process, as this process sees it: it is 1 in the box's own namespace."""
        if self.running.poll() is not None:
            raise AssertionError(f"{self.name} ended with {self.running.returncode}")
        for pid in descendants(self.running.pid):
            with contextlib.suppress(OSError):
                status = pathlib.Path(f"/proc/{pid}/status").read_text()
                numbers = next(it for it in status.splitlines() if it.startswith("NSpid:")).split()[1:]
                if len(numbers) == 3 and numbers[-1] == "1":
                    return pid
        return None

    def is_up(self):
        # On a machine that does other work a box may need minutes.
        with contextlib.suppress(subprocess.TimeoutExpired):
            return self.run("systemctl is-system-running --wait", False).stdout.strip() in ("running", "degraded")
        return False

    def words(self, *words):
        return ["nsenter", "-t", str(self.init), "-a", "--", *words]

    @contextlib.contextmanager
    def network(self):
        """Has this thread, and what it begins meanwhile, be in the box's network, with the files of this machine."""
        with open("/proc/thread-self/ns/net") as own, open(f"/proc/{self.init}/ns/net") as network:
            enter_network(network)
            try:
                yield
            finally:
                enter_network(own)

    def run(self, command, check=True, timeout=400):
        """Runs a command of bash as root. Its standard output and faults are one text."""
        done = subprocess.run(self.words("bash", "-euo", "pipefail", "-c", f"cd; {command}"), stdin=subprocess.DEVNULL,
                              stdout=subprocess.PIPE, stderr=subprocess.STDOUT, text=True, errors="replace",
                              env=ENVIRONMENT, timeout=timeout)
        if check and done.returncode:
            raise AssertionError(f"{self.name}: {command}\nended with {done.returncode}:\n{done.stdout}")
        return done

    def says(self, command):
        """What a command prints."""
        return self.run(command).stdout.strip()

    def limit_memory(self):
        """Has systemd limit the memory of units in this box. systemd-nspawn gives the box control groups of version 1
        for reading only."""
        memory = "/sys/fs/cgroup/memory"
        self.run(f"[ ! -e {memory} ] || mount -o remount,bind,rw,nosuid,nodev,noexec {memory}; systemctl daemon-reexec")

    def reboot(self):
        with contextlib.suppress(AssertionError):
            self.run("systemctl reboot")
        ended = self.running.wait(240)
        assert ended == REBOOT, f"{self.name} ended with {ended}"
        self.start()
        self.wait_until_up()

    def switch_off(self):
        """Has the box end as by `poweroff`. For a first process this signal means that."""
        os.kill(self.init, signal.SIGRTMIN + 4)

    def pull_the_plug(self):
        """Ends the box within a moment. Its files stay as they are."""
        with contextlib.suppress(ProcessLookupError):
            os.kill(self.init, 9)
        self.running.wait(120)
        self.init = None

    def forget(self):
        self.running.wait(120)
        for it in self.groups:
            remove_group(it)


class Shell:
    """A shell of a user in a box, which keeps its folder and its variables from one text of commands to the next."""

    MARK = "---- these commands have ended ----"

    def __init__(self, box, user="root"):
        self.box, self.user, self.count = box, user, itertools.count(1)
        words = ["bash", "-euo", "pipefail"] if user == "root" else [
            "runuser", "-u", user, "--", "env", f"HOME=/home/{user}", f"USER={user}", "bash", "-euo", "pipefail"]
        self.running = subprocess.Popen(box.words(*words), stdin=subprocess.PIPE, stdout=subprocess.PIPE,
                                        stderr=subprocess.STDOUT, env=ENVIRONMENT)
        self.send("cd")

    def send(self, line):
        self.running.stdin.write(f"{line}\n".encode())
        self.running.stdin.flush()

    def run(self, commands):
        """Runs a text of commands, and returns what they print. A command that fails ends the shell."""
        # Any user may read it, and it is in nobody's folder.
        path = f"srv/commands-{self.user}-{next(self.count)}"
        self.box.write(path, commands)
        self.send(f". /{path} </dev/null\necho; echo '{self.MARK}'")
        said = []
        for line in self.running.stdout:
            text = line.decode(errors="replace")
            if text.strip() == self.MARK:
                return "".join(said)
            said.append(text)
        if commands.startswith("poweroff"):
            return "".join(said)
        raise AssertionError(f"{self.box.name}: these commands failed:\n{commands}\nthey printed:\n{''.join(said)}")

    def end(self):
        with contextlib.suppress(OSError):
            self.running.stdin.close()
        # It ends at the end of its input, unless it is still in a command.
        with contextlib.suppress(subprocess.TimeoutExpired):
            self.running.wait(2)
        self.running.kill()
        self.running.wait(120)
        self.running.stdout.close()


def main():
    match sys.argv[1:]:
        case ["prepare", *more] if more in ([], ["volume"]):
            try:
                print(prepare())
                print(prepare(*OF_FLEET))
                if more:
                    print(prepare(*OF_VOLUME))
            except CannotBoot as reason:
                print(f"boxes: {reason}", file=sys.stderr)
                return 1
        case ["folder"]:
            print(FOLDER)
        case _:
            print(__doc__, end="", file=sys.stderr)
            return 2
    return 0


if __name__ == "__main__":
    sys.exit(main())
