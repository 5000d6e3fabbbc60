"""Files that are whole and on disk, or as they were; whose they are; and what another user may have put there."""
import contextlib
import errno
import fcntl
import os
import pwd
import stat
import tempfile

# What a file that is being written is called until it is whole.
UNFINISHED = ".vethlumi-"


def sync(handle):
    """Puts on disk what a file or a folder has. On macOS fsync alone leaves it in the disk's own cache."""
    try:
        fcntl.fcntl(handle, fcntl.F_FULLFSYNC)
    except (AttributeError, OSError):
        os.fsync(handle)


def sync_path(path):
    """Puts on disk what a file has, or which names a folder has."""
    handle = os.open(path, os.O_RDONLY)
    try:
        sync(handle)
    finally:
        os.close(handle)


def make_folder(path):
    """Makes a folder that its owner alone may enter, and those above it that are missing. They are on disk then."""
    if os.path.isdir(path):
        return
    above = os.path.dirname(path)
    make_folder(above)
    try:
        os.mkdir(path, 0o700)
    except FileExistsError:
        return
    sync_path(above)


def write(file, data, mode, owner=None):
    """Writes bytes to an open file, which then has this mode and, if root asks, belongs to this user and group. They
    are on disk when this returns."""
    file.write(data)
    file.flush()
    if owner and not os.getuid():
        os.fchown(file.fileno(), *owner)
    os.fchmod(file.fileno(), mode)
    sync(file.fileno())


def put(path, data, mode, owner=None, prefix=UNFINISHED, check=lambda new: None):
    """Puts bytes into a file, whole or not at all. They are on disk when this returns. Until then they are in a new
    file beside it, whose name begins with `prefix`, and which `check` gets before it takes its place: what that raises
    leaves everything as it was. The folder may be that of a user who isn't root."""
    named, path = os.fspath(path), os.path.abspath(path)
    folder = os.path.dirname(path)
    try:
        handle, new = tempfile.mkstemp(prefix=prefix, dir=folder)
    except OSError as fault:
        raise OSError(fault.errno, fault.strerror, named) from None
    try:
        with open(handle, "wb") as it:
            write(it, data, mode, owner)
            check(new)
        os.rename(new, path)
    except BaseException:
        # It may have half a private key.
        with contextlib.suppress(FileNotFoundError):
            os.unlink(new)
        raise
    sync_path(folder)


def bytes_of(path, longest):
    """The bytes of a file that another user may have put there: no link is followed, and nobody is waited for at the
    other end of a pipe. What is no regular file, or a longer one, is a fault of the system's kind."""
    handle = os.open(path, os.O_RDONLY | os.O_NOFOLLOW | os.O_NONBLOCK | os.O_NOCTTY | os.O_CLOEXEC)
    try:
        if not stat.S_ISREG(os.fstat(handle).st_mode):
            raise OSError(errno.EINVAL, "not a regular file", str(path))
        with open(handle, "rb", closefd=False) as it:
            data = it.read(longest + 1)
    finally:
        os.close(handle)
    if len(data) > longest:
        raise OSError(errno.EFBIG, f"it has more than {longest} bytes", str(path))
    return data


def become_owner(folder):
    """If root runs this, goes on as the user whose folder it is: that user could put links in root's way, and files of
    root's would be in the way of the user's own runs. Returns whether it did."""
    owner = os.stat(folder)
    if os.getuid() or not owner.st_uid:
        return False
    os.setgroups([])
    os.setgid(owner.st_gid)
    os.setuid(owner.st_uid)
    return True


def distrust(path, writable_by=0o022):
    """Why somebody else may have written a file, or in a folder; "" if they can't have. Root may."""
    found, user = os.stat(path), os.geteuid()
    if found.st_uid not in (0, user):
        return f"{path} belongs to {user_name(found.st_uid)}, and {user_name(user)} runs this"
    # In a folder like /tmp, nobody removes or renames what is another's.
    if found.st_mode & writable_by and not found.st_mode & stat.S_ISVTX:
        return f"others than its owner can write {path}"
    return ""


def user_name(number):
    try:
        return pwd.getpwuid(number).pw_name
    except KeyError:
        return f"user {number}"
