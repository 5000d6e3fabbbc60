/* A system that isn't as it should be, in what the environment names. To be preloaded.

     EARLY_CLOCK      the time is before 1970
     MOMENT=N         the time is N seconds after the beginning of 1970, and it can't be told where N is `none`
     MOMENT_FILE=FILE the same, with the number that the file has whenever the time is read
     TICK=N           the clock of waits goes on by N milliseconds whenever it is read, and it fails where N is `none`
     HURRIED=N        a socket waits for the Nth part of the time that was set
     WAITS=FILE       each time that is set is added to this file: `read` or `write`, and its microseconds
     UNACCEPTED=N     the first N times no connection can be accepted
     INTERRUPTED=N    signals interrupt the first N reads of 32 bytes
     SMALL_SOCKETS    a connection that is accepted holds few bytes that its peer doesn't read
     TURNED_BYTES     the first byte of all that a socket gives is another one
     TURNED_END       so is the last, of more than one
     LATE_BYTE        the first socket that ends gives a byte more
     ENDLESS          a socket that has given all gives zeros, and never ends */
#include <errno.h>
#include <stdio.h>
#include <stdlib.h>
#include <string.h>
#include <sys/socket.h>
#include <sys/syscall.h>
#include <sys/time.h>
#include <time.h>
#include <unistd.h>

static int fail(int number) {
    errno = number;
    return -1;
}

int clock_gettime(clockid_t clock, struct timespec *now) {
    static long long read_before;
    int status = syscall(SYS_clock_gettime, clock, now);
    if (status != 0) return status;
    if (clock == CLOCK_REALTIME) {
        const char *moment = getenv("MOMENT"), *path = getenv("MOMENT_FILE");
        char text[32];
        FILE *file = path ? fopen(path, "r") : NULL;
        if (file) {
            if (fgets(text, sizeof text, file)) moment = text;
            fclose(file);
        }
        if (moment && !strcmp(moment, "none")) return fail(EINVAL);
        if (moment) *now = (struct timespec){strtoll(moment, NULL, 10), 0};
        if (getenv("EARLY_CLOCK")) now->tv_sec = -1;
    }
    if (clock == CLOCK_MONOTONIC) {
        const char *tick = getenv("TICK");
        if (tick && !strcmp(tick, "none")) return fail(EINVAL);
        if (tick) {
            long long milliseconds = 7000 + read_before++ * strtoll(tick, NULL, 10);
            *now = (struct timespec){milliseconds / 1000, milliseconds % 1000 * 1000000};
        }
    }
    return status;
}

int setsockopt(int socket, int level, int name, const void *value, socklen_t size) {
    struct timeval wait;
    if (level == SOL_SOCKET && (name == SO_RCVTIMEO || name == SO_SNDTIMEO) && size == sizeof wait) {
        const char *file = getenv("WAITS"), *part = getenv("HURRIED");
        memcpy(&wait, value, size);
        long long set = wait.tv_sec * 1000000LL + wait.tv_usec;
        FILE *waits = file ? fopen(file, "a") : NULL;
        if (waits) {
            fprintf(waits, "%s %lld\n", name == SO_RCVTIMEO ? "read" : "write", set);
            fclose(waits);
        }
        if (part) {
            set = set / atoi(part) + 1;
            wait = (struct timeval){set / 1000000, set % 1000000};
        }
        value = &wait;
    }
    return syscall(SYS_setsockopt, socket, level, name, value, size);
}

int accept4(int socket, struct sockaddr *address, socklen_t *size, int flags) {
    static int failed;
    const char *most = getenv("UNACCEPTED");
    if (most && failed < atoi(most)) {
        failed++;
        return fail(EMFILE);
    }
    int made = syscall(SYS_accept4, socket, address, size, flags), few = 1;
    if (made >= 0 && getenv("SMALL_SOCKETS"))
        syscall(SYS_setsockopt, made, SOL_SOCKET, SO_SNDBUF, &few, sizeof few);
    return made;
}

ssize_t recv(int socket, void *bytes, size_t size, int flags) {
    static int ended;
    char *given = bytes;
    ssize_t got = syscall(SYS_recvfrom, socket, bytes, size, flags, NULL, NULL);
    if (got > 0 && getenv("TURNED_BYTES")) given[0] ^= 1;
    if (got > 1 && getenv("TURNED_END")) given[got - 1] ^= 1;
    if (got == 0 && size > 0 && getenv("LATE_BYTE") && !ended++) {
        given[0] = 0;
        got = 1;
    }
    if (got <= 0 && getenv("ENDLESS")) {
        memset(bytes, 0, size);
        got = size;
    }
    return got;
}

ssize_t read(int file, void *bytes, size_t size) {
    static int interrupted;
    const char *most = getenv("INTERRUPTED");
    if (most && size == 32 && interrupted < atoi(most)) {
        interrupted++;
        return fail(EINTR);
    }
    return syscall(SYS_read, file, bytes, size);
}
