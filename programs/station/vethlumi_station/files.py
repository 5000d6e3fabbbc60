"""Files that the station reads, and who may read or change them."""
import contextlib
import fcntl
import os
import pathlib
import pwd
import stat
import struct

from vethlumi_common.ssh import blob_of

from .faults import Fault
from .limits import LONGEST_POLICY
from .wire import KEY_BLOB

# Where a guard locks its file, and how many bytes of it: SQLite's pending, reserved and shared locks.
LOCK = 1 << 30, 512
# A lock of fcntl(2): its type, from where its beginning counts, its beginning, its length, and whose it is.
FLOCK = struct.Struct("hhqqi0q")


def keys_of(path):
    """The key blobs of a file of public-key lines."""
    try:
        lines = pathlib.Path(path).read_text(errors="replace").splitlines()
    except OSError as fault:
        raise Fault(f"can't read {path}: {fault.strerror}") from None
    keys = [blob_of(it) or b"" for it in lines if it and not it.startswith("#")]
    if not keys or not all(len(it) == len(KEY_BLOB) + 32 and it.startswith(KEY_BLOB) for it in keys):
        raise Fault(f"{path} has another line than those of Ed25519 public keys")
    return keys


def state_of(path):
    """What tells a file from another that was put in its place."""
    found = os.stat(path)
    return found.st_dev, found.st_ino, found.st_size, found.st_mtime_ns, found.st_ctime_ns


def check_readable(path):
    if not os.access(path, os.R_OK):
        raise Fault(f"can't read {path}")


def check_secret(path):
    """Sees that the station reads a private key or a PIN, and nobody else does. Root may let a service read one of its
    files, by the file's group or, as systemd does with credentials, by an access list, which shows as the group's."""
    check_readable(path)
    found = os.stat(path)
    others = stat.S_IRWXG | stat.S_IRWXO
    if os.getuid() and not found.st_uid:
        others &= ~stat.S_IRGRP
    if found.st_mode & others:
        raise Fault(f"{path} has mode {stat.S_IMODE(found.st_mode):o}, which lets others use it: chmod 600 {path}")


def check_kept(path):
    """Sees that nobody but root and the station's user can change a file that decides what is signed. If it isn't
    there, whoever reads it says so."""
    with contextlib.suppress(OSError):
        found = os.stat(path)
        if found.st_uid not in (0, os.getuid()):
            raise Fault(f"{path} belongs to the user {found.st_uid}, who can change it: chown root {path}")
        if found.st_mode & (stat.S_IWGRP | stat.S_IWOTH):
            mode = stat.S_IMODE(found.st_mode)
            raise Fault(f"{path} has mode {mode:o}, which lets others change it: chmod go-w {path}")


# ---- which file it is, of a guard that says only what is wrong

def user_name(number):
    try:
        return pwd.getpwuid(number).pw_name
    except KeyError:
        return f"the user {number}"


def is_missing(path, fault):
    """Why nothing is known of a path: it, what it leads to or a folder above it isn't there, or can't be entered."""
    closed = next((it for it in [*pathlib.Path(path).absolute().parents][::-1] if not os.access(it, os.X_OK)), None)
    if closed and os.path.exists(closed):
        return f"{path} can't be reached: {user_name(os.geteuid())} may not enter {closed}"
    if os.path.islink(path):
        return f"{path} is a link to {os.readlink(path)}: {fault.strerror}"
    return f"{path}: {fault.strerror}"


def locked(path):
    """Which other process keeps a guard's file locked, or "" if none does."""
    handle = os.open(path, os.O_RDONLY | os.O_NONBLOCK | os.O_CLOEXEC)
    try:
        asked = FLOCK.pack(fcntl.F_WRLCK, os.SEEK_SET, *LOCK, 0)
        kind, *_, process = FLOCK.unpack(fcntl.fcntl(handle, fcntl.F_GETLK, asked))
    finally:
        os.close(handle)
    if kind == fcntl.F_UNLCK:
        return ""
    name = "another program"
    with contextlib.suppress(OSError):
        name = pathlib.Path(f"/proc/{process}/comm").read_text().strip()
    return f"{path} is locked by {name}, process {process}: only one program at a time can use it"


def unusable(path, is_database):
    """Why a guard can't use its policy or its database, as this user sees it, or "" if it can. The guard says what is
    wrong and not with which file."""
    try:
        found = os.stat(path)
        if not stat.S_ISREG(found.st_mode):
            return f"{path} isn't a regular file"
        if not os.access(path, os.R_OK | os.W_OK * is_database):
            can = "read and write" if is_database else "read"
            return (f"{user_name(os.geteuid())} can't {can} {path}: it belongs to {user_name(found.st_uid)}, and has "
                    f"mode {stat.S_IMODE(found.st_mode):o}")
        if not is_database:
            is_long = found.st_size > LONGEST_POLICY
            return f"{path} has {found.st_size} bytes, and a policy at most {LONGEST_POLICY}" if is_long else ""
        if found.st_nlink != 1:
            return f"{path} has {found.st_nlink} names, and a guard's file only one"
        return locked(path)
    except OSError as fault:
        return is_missing(path, fault)


def unusable_database(path):
    """The same of a database, with its log, which is made if it is missing."""
    if why := unusable(path, True):
        return why
    folder = os.path.dirname(os.path.realpath(path))
    if os.path.lexists(f"{path}-wal"):
        return unusable(f"{path}-wal", True)
    may_make = os.access(folder, os.W_OK | os.X_OK)
    return "" if may_make else f"{user_name(os.geteuid())} can't write in {folder}, where {path} needs a log"
