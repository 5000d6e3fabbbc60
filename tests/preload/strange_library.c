/* A C library that isn't as it should be, in what the environment names. To be preloaded.

     SILENT_NAME=NAME  whoever asks for the addresses of this name waits for ever, also after a signal: so the GNU C
                       library waits for a name server that takes a connection and sends nothing
     NO_LIMITS         no process can be given another limit of its memory
     NO_IPV6           the system has no IPv6 */
#define _GNU_SOURCE
#include <dlfcn.h>
#include <errno.h>
#include <netdb.h>
#include <stdlib.h>
#include <string.h>
#include <sys/resource.h>
#include <sys/socket.h>
#include <unistd.h>

int getaddrinfo(const char *name, const char *service, const struct addrinfo *hints, struct addrinfo **found) {
    const char *silent = getenv("SILENT_NAME");
    int is_asked = name && silent && !strcmp(name, silent) && !(hints && hints->ai_flags & AI_NUMERICHOST);
    while (is_asked) pause();
    __typeof__(getaddrinfo) *next = dlsym(RTLD_NEXT, "getaddrinfo");
    return next(name, service, hints, found);
}

int socket(int family, int type, int protocol) {
    if (family == AF_INET6 && getenv("NO_IPV6")) {
        errno = EAFNOSUPPORT;
        return -1;
    }
    __typeof__(socket) *next = dlsym(RTLD_NEXT, "socket");
    return next(family, type, protocol);
}

static int limit(pid_t process, int resource, const struct rlimit *new, struct rlimit *old) {
    if (new && resource == RLIMIT_AS && getenv("NO_LIMITS")) {
        errno = EPERM;
        return -1;
    }
    __typeof__(prlimit) *next = dlsym(RTLD_NEXT, "prlimit");
    return next(process, resource, new, old);
}

int prlimit(pid_t process, enum __rlimit_resource resource, const struct rlimit *new, struct rlimit *old) {
    return limit(process, resource, new, old);
}

int prlimit64(pid_t process, enum __rlimit_resource resource, const struct rlimit64 *new, struct rlimit64 *old) {
    return limit(process, resource, (const struct rlimit *)new, (struct rlimit *)old);
}

int setrlimit(__rlimit_resource_t resource, const struct rlimit *new) { return limit(0, resource, new, NULL); }

int setrlimit64(__rlimit_resource_t resource, const struct rlimit64 *new) {
    return limit(0, resource, (const struct rlimit *)new, NULL);
}
