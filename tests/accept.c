/* Has calls fail by which a program takes connections in; it is preloaded (LD_PRELOAD). ACCEPTS has the numbers of errors for the calls that accept a
 * connection, one behind another, with 0 for a call that is made; SETS has them for those that say how long a connection's writes wait. All calls behind the
 * last number are made. One thread at a time takes connections in. */
#include <errno.h>
#include <stdlib.h>
#include <sys/socket.h>
#include <sys/syscall.h>
#include <unistd.h>

static const char *accepts;
static const char *sets;

__attribute__((constructor)) static void begin(void) {
    accepts = getenv("ACCEPTS");
    sets = getenv("SETS");
}

/* Whether a call fails, by the next number of a list. */
static int fails(const char **list) {
    char *rest;
    if (!*list) {
        return 0;
    }
    long number = strtol(*list, &rest, 10);
    *list = rest;
    if (number) {
        errno = (int)number;
    }
    return number != 0;
}

int accept4(int listener, struct sockaddr *address, socklen_t *length, int flags) {
    if (fails(&accepts)) {
        return -1;
    }
    return (int)syscall(SYS_accept4, listener, address, length, flags);
}

int setsockopt(int connection, int level, int name, const void *value, socklen_t length) {
    if (level == SOL_SOCKET && name == SO_SNDTIMEO && fails(&sets)) {
        return -1;
    }
    return (int)syscall(SYS_setsockopt, connection, level, name, value, length);
}
