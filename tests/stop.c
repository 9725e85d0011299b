/* Ends a program at one call that changes a file, the one whose number is in STOP, counted from 1; it is preloaded (LD_PRELOAD). With HALF set, a
 * write does half of its work first. Where there were fewer calls it says so on standard error, so that a sweep over all of them knows its
 * end. With FAIL set, each such call fails on a file whose path has the text of FAIL in it, from when on there is a file at WHEN, or from the
 * one whose number among these is AFTER. With HOLD and WHEN set, each such call on a file whose path has the text of HOLD in it waits while
 * there is a file at WHEN. With SLOW set, each such call takes so many microseconds more. Standard output, standard error and sockets are no
 * files here. The calls of all threads are counted together. */
#include <errno.h>
#include <stddef.h>
#include <stdio.h>
#include <stdlib.h>
#include <string.h>
#include <sys/stat.h>
#include <sys/syscall.h>
#include <sys/types.h>
#include <unistd.h>

static unsigned long wanted;
static unsigned long made;
static int halves;
static const char *failing;
static const char *held;
static const char *since;
static unsigned long after;
static unsigned long tried;
static unsigned slow;

__attribute__((constructor)) static void begin(void) {
    const char *word = getenv("STOP");
    wanted = word ? strtoul(word, NULL, 10) : 0;
    halves = getenv("HALF") != NULL;
    failing = getenv("FAIL");
    held = getenv("HOLD");
    since = getenv("WHEN");
    word = getenv("AFTER");
    after = word ? strtoul(word, NULL, 10) : 0;
    word = getenv("SLOW");
    slow = word ? (unsigned)strtoul(word, NULL, 10) : 0;
    made = 0;
}

__attribute__((destructor)) static void end(void) {
    static const char text[] = "fewer calls\n";
    if (made < wanted) {
        made = wanted;
        syscall(SYS_write, 2, text, sizeof text - 1);
    }
}

/* How a program with threads ends, which no destructor sees. */
void _exit(int status) {
    end();
    for (;;) {
        syscall(SYS_exit_group, status);
    }
}

static int is_file(int file) {
    struct stat found;
    return file > 2 && fstat(file, &found) == 0 && S_ISREG(found.st_mode);
}

/* Whether the path of a file has this text in it. */
static int is_of(int file, const char *text) {
    char link[64];
    char path[4096];
    snprintf(link, sizeof link, "/proc/self/fd/%d", file);
    ssize_t length = readlink(link, path, sizeof path - 1);
    if (length < 0) {
        return 0;
    }
    path[length] = 0;
    return strstr(path, text) != NULL;
}

/* Whether a call on this file fails; a call that is slow or held waits before. */
static int fails(int file) {
    if (slow) {
        usleep(slow);
    }
    while (held && since && access(since, F_OK) == 0 && is_of(file, held)) {
        usleep(1000);
    }
    if (!failing || !is_of(file, failing)) {
        return 0;
    }
    int is_since = since && access(since, F_OK) == 0;
    int is_after = after && __atomic_add_fetch(&tried, 1, __ATOMIC_SEQ_CST) >= after;
    if (!is_since && !is_after) {
        return 0;
    }
    errno = EIO;
    return 1;
}

static int is_last(void) {
    return __atomic_add_fetch(&made, 1, __ATOMIC_SEQ_CST) == wanted;
}

ssize_t write(int file, const void *octets, size_t count) {
    if (is_file(file)) {
        if (fails(file)) {
            return -1;
        }
        if (is_last()) {
            if (halves) {
                syscall(SYS_write, file, octets, count / 2);
            }
            _exit(99);
        }
    }
    return syscall(SYS_write, file, octets, count);
}

ssize_t pwrite(int file, const void *octets, size_t count, off_t at) {
    if (fails(file)) {
        return -1;
    }
    if (is_last()) {
        if (halves) {
            syscall(SYS_pwrite64, file, octets, count / 2, at);
        }
        _exit(99);
    }
    return syscall(SYS_pwrite64, file, octets, count, at);
}

int ftruncate(int file, off_t length) {
    if (fails(file)) {
        return -1;
    }
    if (is_last()) {
        _exit(99);
    }
    return (int)syscall(SYS_ftruncate, file, length);
}

int fsync(int file) {
    if (fails(file)) {
        return -1;
    }
    if (is_last()) {
        _exit(99);
    }
    return (int)syscall(SYS_fsync, file);
}

int fdatasync(int file) {
    if (fails(file)) {
        return -1;
    }
    if (is_last()) {
        _exit(99);
    }
    return (int)syscall(SYS_fdatasync, file);
}
