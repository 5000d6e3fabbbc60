/* A disk that fails, a process that dies, and an output that takes no more, at the call that the environment names.
   To be preloaded.

   DISK    the path of a database. Its log has -wal behind that name, and both lie in a folder
   FAIL    FILE CALL FIRST LAST HOW: which calls fail, counted from 1. FILE is db, log, folder or any; CALL is one of
           those below, or any; LAST is 0 where there is no last one. HOW is the number of an error; or short, and a
           read or a write moves half of its bytes; or kill, and the process dies before the call; or torn, and the
           process dies after half of a write
   AFTER   FILE CALL: calls are counted only from the first of these on
   ROOM    WHERE COUNT: out, the standard output, or peer, a socket, takes so many bytes. Then each write of the
           standard output fails, or one of the socket: the next is that of another connection
   MARK    a file that gets a line for each call that failed
   SYNCED  a folder. The files db and log in it are what the disk holds once the power has failed
   SEED    a number, from which random bytes are made, so that the same calls leave the same bytes
   MOMENT  what the system's clock says

   No sync goes on to the system, since nobody pulls the plug here. As under Linux, what a failed sync has not brought
   to the disk no later sync brings there. */
#define _GNU_SOURCE
#include <dlfcn.h>
#include <errno.h>
#include <fcntl.h>
#include <signal.h>
#include <stdarg.h>
#include <stdio.h>
#include <stdlib.h>
#include <string.h>
#include <sys/socket.h>
#include <sys/stat.h>
#include <sys/syscall.h>
#include <time.h>
#include <unistd.h>

enum { NONE, DB, LOG, FOLDER };
static const char *const NAMES[] = {"none", "db", "log", "folder"};

enum { MOST = 4096 };
static unsigned char files[MOST];
/* By file: what was written since the last sync, and a copy of what was synced. */
static long low[4] = {-1, -1, -1, -1}, high[4];
static int copies[4];

static const char *value(const char *name) {
    const char *found = getenv(name);
    return found ? found : "";
}

static int file_of(int fd) { return fd >= 0 && fd < MOST ? files[fd] : NONE; }

static int file_at(const char *path) {
    const char *disk = value("DISK");
    size_t length = strlen(disk);
    const char *slash = strrchr(disk, '/');
    if (!length || !slash) return NONE;
    if (strlen(path) == (size_t)(slash - disk) && !strncmp(path, disk, slash - disk)) return FOLDER;
    if (strncmp(path, disk, length)) return NONE;
    if (!path[length] || !strcmp(path + length, "-journal")) return DB;
    return strcmp(path + length, "-wal") ? NONE : LOG;
}

static void mark(const char *file, const char *call) {
    char line[64];
    int length = snprintf(line, sizeof line, "%s %s\n", file, call);
    int fd = syscall(SYS_openat, AT_FDCWD, value("MARK"), O_WRONLY | O_CREAT | O_APPEND, 0600);
    if (fd < 0 || syscall(SYS_write, fd, line, length) != length) abort();
    syscall(SYS_close, fd);
}

static char how[16];

/* Whether calls are counted by now. */
static int is_counting(int file, const char *call) {
    static int is_begun;
    char words[64];
    snprintf(words, sizeof words, "%s %s", NAMES[file], call);
    if (!*value("AFTER") || !strcmp(value("AFTER"), words)) is_begun = 1;
    return is_begun;
}

/* Whether the call fails. It sets the error, and a call that is to kill the process doesn't come back. */
static int fails(int file, const char *call) {
    static char wanted[16], kind[16];
    static long count, first = -1, last;
    if (first < 0 && sscanf(value("FAIL"), "%15s %15s %ld %ld %15s", wanted, kind, &first, &last, how) != 5) first = 0;
    if (!first || file == NONE || !is_counting(file, call)) return 0;
    if (strcmp(wanted, "any") && strcmp(wanted, NAMES[file])) return 0;
    if (strcmp(kind, "any") && strcmp(kind, call)) return 0;
    if (++count < first || (last && count > last)) return 0;
    mark(NAMES[file], call);
    if (!strcmp(how, "kill")) kill(getpid(), SIGKILL);
    errno = atoi(how);
    return 1;
}

/* What the disk holds of a file becomes what is written. */
static void bring(int fd, int file) {
    static char bytes[1 << 16];
    struct stat found;
    if (copies[file] <= 0 || syscall(SYS_fstat, fd, &found)) return;
    syscall(SYS_ftruncate, copies[file], found.st_size);
    long end = high[file] < found.st_size ? high[file] : found.st_size;
    for (long at = low[file]; at >= 0 && at < end;) {
        long size = end - at < (long)sizeof bytes ? end - at : (long)sizeof bytes;
        long got = syscall(SYS_pread64, fd, bytes, size, at);
        if (got <= 0 || syscall(SYS_pwrite64, copies[file], bytes, got, at) != got) abort();
        at += got;
    }
    low[file] = -1;
}

int open(const char *path, int flags, ...) {
    va_list rest;
    va_start(rest, flags);
    int mode = va_arg(rest, int), file = file_at(path);
    va_end(rest);
    if (fails(file, "open")) return -1;
    int fd = syscall(SYS_openat, AT_FDCWD, path, flags, mode);
    if (fd < 0 || fd >= MOST || file == NONE) return fd;
    files[fd] = file;
    if (file != FOLDER && !copies[file] && *value("SYNCED")) {
        char copy[4096];
        snprintf(copy, sizeof copy, "%s/%s", value("SYNCED"), NAMES[file]);
        copies[file] = syscall(SYS_openat, AT_FDCWD, copy, O_RDWR | O_CREAT | O_TRUNC | O_CLOEXEC, 0600);
        low[file] = 0, high[file] = 1L << 62;
        bring(fd, file);
    }
    return fd;
}

int close(int fd) {
    int file = file_of(fd);
    int is_failed = fails(file, "close"), error = errno;
    if (file != NONE) files[fd] = NONE;
    int status = syscall(SYS_close, fd);
    if (is_failed) errno = error;
    return is_failed ? -1 : status;
}

char *realpath(const char *path, char *resolved) {
    char *(*next)(const char *, char *) = (char *(*)(const char *, char *))dlsym(RTLD_NEXT, "realpath");
    return fails(file_at(path), "name") ? NULL : next(path, resolved);
}

int statx(int folder, const char *restrict path, int flags, unsigned mask, struct statx *restrict found) {
    return fails(*path ? file_at(path) : file_of(folder), "size") ? -1
           : syscall(SYS_statx, folder, path, flags, mask, found);
}

int fcntl(int fd, int command, ...) {
    va_list rest;
    va_start(rest, command);
    void *with = va_arg(rest, void *);
    va_end(rest);
    if (command == F_OFD_SETLK && fails(file_of(fd), "lock")) return -1;
    return syscall(SYS_fcntl, fd, command, with);
}

int posix_fadvise(int fd, off_t offset, off_t length, int advice) {
    if (fails(file_of(fd), "advise")) return errno;
    return syscall(SYS_fadvise64, fd, offset, length, advice) ? errno : 0;
}

ssize_t pread(int fd, void *bytes, size_t size, off_t offset) {
    int is_failed = fails(file_of(fd), "read");
    if (is_failed && strcmp(how, "short")) return -1;
    return syscall(SYS_pread64, fd, bytes, is_failed ? (size + 1) / 2 : size, offset);
}

ssize_t pwrite(int fd, const void *bytes, size_t size, off_t offset) {
    int file = file_of(fd), is_failed = fails(file, "write");
    if (is_failed && strcmp(how, "short") && strcmp(how, "torn")) return -1;
    ssize_t put = syscall(SYS_pwrite64, fd, bytes, is_failed ? (size + 1) / 2 : size, offset);
    if (is_failed && !strcmp(how, "torn")) kill(getpid(), SIGKILL);
    if (put > 0 && file != NONE) {
        if (low[file] < 0) low[file] = offset, high[file] = 0;
        if (offset < low[file]) low[file] = offset;
        if (offset + put > high[file]) high[file] = offset + put;
    }
    return put;
}

int ftruncate(int fd, off_t length) { return fails(file_of(fd), "cut") ? -1 : syscall(SYS_ftruncate, fd, length); }

static int synced(int fd, int (*next)(int)) {
    int file = file_of(fd);
    if (file == NONE) return next(fd);
    if (fails(file, "sync")) {
        low[file] = -1;
        return -1;
    }
    if (file != FOLDER) bring(fd, file);
    return 0;
}

int fsync(int fd) { return synced(fd, (int (*)(int))dlsym(RTLD_NEXT, "fsync")); }

int fdatasync(int fd) { return synced(fd, (int (*)(int))dlsym(RTLD_NEXT, "fdatasync")); }

int fchown(int fd, uid_t owner, gid_t group) {
    return fails(file_of(fd), "own") ? -1 : syscall(SYS_fchown, fd, owner, group);
}

int fchmod(int fd, mode_t mode) { return fails(file_of(fd), "own") ? -1 : syscall(SYS_fchmod, fd, mode); }

/* How many of so many bytes an output takes, or -1 with the error. */
static long room_for(const char *where, long size, int error) {
    static char which[8];
    static long room = -2;
    if (room == -2 && sscanf(value("ROOM"), "%7s %ld", which, &room) != 2) room = -1;
    if (room < 0 || strcmp(which, where) || !size) return size;
    if (!room) {
        mark(where, "write");
        if (!strcmp(where, "peer")) room = -1;
        errno = error;
        return -1;
    }
    if (size > room) size = room;
    room -= size;
    return size;
}

ssize_t write(int fd, const void *bytes, size_t size) {
    long taken = fd == 1 ? room_for("out", size, ENOSPC) : (long)size;
    return taken < 0 ? -1 : syscall(SYS_write, fd, bytes, taken);
}

ssize_t send(int fd, const void *bytes, size_t size, int flags) {
    long taken = room_for("peer", size, ECONNRESET);
    return taken < 0 ? -1 : syscall(SYS_sendto, fd, bytes, taken, flags, NULL, 0);
}

int getentropy(void *bytes, size_t size) {
    static unsigned long made;
    if (!*value("SEED")) return syscall(SYS_getrandom, bytes, size, 0) == (long)size ? 0 : -1;
    for (size_t place = 0; place < size; place++)
        ((unsigned char *)bytes)[place] = ((made++ * 1024 + atol(value("SEED"))) * 0x9e3779b97f4a7c15UL) >> 56;
    return 0;
}

int clock_gettime(clockid_t clock, struct timespec *now) {
    int status = syscall(SYS_clock_gettime, clock, now);
    if (!status && clock == CLOCK_REALTIME && *value("MOMENT")) now->tv_sec = atol(value("MOMENT"));
    return status;
}
