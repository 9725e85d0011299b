/* Notes the calls by which a program changes files, in their order, in the file whose path is in TRACE, which it makes longer; it is preloaded
 * (LD_PRELOAD). A record has an octet for its kind, one for the length of the file's name, an offset and a length in eight octets each, and then
 * the name and, of a write, what was written:
 *
 *     W write   C change of the length   S sync   F sync of a folder   M a file that was made
 *     R a file that got this name, of which the octets are the name before   U a file that was removed
 *     T something is told next, on standard output or to a peer
 *
 * A call that fails is not noted. With FAILS set, the call of this number, counted from 1, fails, and each later one; with ONCE set, only that one.
 * The calls of all threads stand one behind another. */
#define _GNU_SOURCE
#include <errno.h>
#include <fcntl.h>
#include <pthread.h>
#include <stdarg.h>
#include <stdint.h>
#include <stdio.h>
#include <stdlib.h>
#include <string.h>
#include <sys/socket.h>
#include <sys/stat.h>
#include <sys/syscall.h>
#include <sys/types.h>
#include <sys/uio.h>
#include <unistd.h>

static pthread_mutex_t alone = PTHREAD_MUTEX_INITIALIZER;
static int trace = -1;
static unsigned long failing;
static unsigned long made;
static int once;

__attribute__((constructor)) static void begin(void) {
    const char *path = getenv("TRACE");
    if (path) {
        trace = (int)syscall(SYS_openat, AT_FDCWD, path, O_WRONLY | O_APPEND | O_CLOEXEC, 0);
    }
    const char *word = getenv("FAILS");
    failing = word ? strtoul(word, NULL, 10) : 0;
    once = getenv("ONCE") != NULL;
}

static int fails(void) {
    made++;
    if (!failing || made < failing || (once && made > failing)) {
        return 0;
    }
    errno = EIO;
    return 1;
}

/* The last part of a path. */
static const char *last_of(const char *path) {
    return strrchr(path, '/') ? strrchr(path, '/') + 1 : path;
}

/* One that can't be written ends the program: a call that is missing would be taken for one that wasn't made. */
static void note_name(char kind, const char *name, uint64_t at, uint64_t length, const void *octets) {
    char head[18];
    if (trace < 0) {
        return;
    }
    head[0] = kind;
    head[1] = (char)strlen(name);
    memcpy(head + 2, &at, 8);
    memcpy(head + 10, &length, 8);
    struct iovec parts[] = {{head, sizeof head}, {(void *)name, strlen(name)}, {(void *)octets, octets ? length : 0}};
    size_t whole = parts[0].iov_len + parts[1].iov_len + parts[2].iov_len;
    if (syscall(SYS_writev, trace, parts, 3) != (long)whole) {
        syscall(SYS_exit_group, 98);
    }
}

static void note(char kind, int file, uint64_t at, uint64_t length, const void *octets) {
    char link[64], path[4096] = "";
    if (kind != 'T') {
        snprintf(link, sizeof link, "/proc/self/fd/%d", file);
        ssize_t found = readlink(link, path, sizeof path - 1);
        path[found < 0 ? 0 : found] = 0;
    }
    note_name(kind, last_of(path), at, length, octets);
}

static mode_t kind_of(int file) {
    struct stat found;
    return fstat(file, &found) == 0 ? found.st_mode & S_IFMT : 0;
}

static ssize_t put(int file, const void *octets, size_t count, off_t at) {
    pthread_mutex_lock(&alone);
    ssize_t done = fails() ? -1 : syscall(SYS_pwrite64, file, octets, count, at);
    if (done > 0) {
        note('W', file, (uint64_t)at, (uint64_t)done, octets);
    }
    pthread_mutex_unlock(&alone);
    return done;
}

static long change(char kind, long call, int file, off_t length) {
    pthread_mutex_lock(&alone);
    long done = fails() ? -1 : syscall(call, file, length);
    if (done == 0) {
        note(kind == 'S' && kind_of(file) == S_IFDIR ? 'F' : kind, file, 0, (uint64_t)length, NULL);
    }
    pthread_mutex_unlock(&alone);
    return done;
}

static void tells(int file) {
    if (file == 1 || kind_of(file) == S_IFSOCK) {
        pthread_mutex_lock(&alone);
        note('T', file, 0, 0, NULL);
        pthread_mutex_unlock(&alone);
    }
}

ssize_t pwrite(int file, const void *octets, size_t count, off_t at) {
    return put(file, octets, count, at);
}

ssize_t pwrite64(int file, const void *octets, size_t count, off_t at) {
    return put(file, octets, count, at);
}

/* A file that is written to in any other way has no offset here. */
ssize_t write(int file, const void *octets, size_t count) {
    if (file > 2 && kind_of(file) == S_IFREG) {
        syscall(SYS_exit_group, 97);
    }
    tells(file);
    return syscall(SYS_write, file, octets, count);
}

ssize_t writev(int file, const struct iovec *parts, int count) {
    if (file > 2 && kind_of(file) == S_IFREG) {
        syscall(SYS_exit_group, 97);
    }
    tells(file);
    return syscall(SYS_writev, file, parts, count);
}

ssize_t send(int file, const void *octets, size_t count, int flags) {
    tells(file);
    return syscall(SYS_sendto, file, octets, count, flags, NULL, 0);
}

int ftruncate(int file, off_t length) {
    return (int)change('C', SYS_ftruncate, file, length);
}

int ftruncate64(int file, off_t length) {
    return (int)change('C', SYS_ftruncate, file, length);
}

int fsync(int file) {
    return (int)change('S', SYS_fsync, file, 0);
}

int fdatasync(int file) {
    return (int)change('S', SYS_fdatasync, file, 0);
}

int rename(const char *old, const char *name) {
    pthread_mutex_lock(&alone);
    int done = fails() ? -1 : (int)syscall(SYS_rename, old, name);
    if (done == 0) {
        note_name('R', last_of(name), 0, strlen(last_of(old)), last_of(old));
    }
    pthread_mutex_unlock(&alone);
    return done;
}

int unlink(const char *path) {
    pthread_mutex_lock(&alone);
    int done = (int)syscall(SYS_unlink, path);
    if (done == 0) {
        note_name('U', last_of(path), 0, 0, NULL);
    }
    pthread_mutex_unlock(&alone);
    return done;
}

static int opened(int folder, const char *path, int flags, mode_t mode) {
    pthread_mutex_lock(&alone);
    int file = (int)syscall(SYS_openat, folder, path, flags, mode);
    /* Who makes a file asks that there be none. */
    if (file >= 0 && (flags & O_CREAT) && (flags & O_EXCL)) {
        note('M', file, 0, 0, NULL);
    } else if (file >= 0 && (flags & (O_CREAT | O_TRUNC))) {
        syscall(SYS_exit_group, 97);
    }
    pthread_mutex_unlock(&alone);
    return file;
}

#define OPENS(NAME, HEAD, FOLDER)                    \
    int NAME(HEAD const char *path, int flags, ...) { \
        mode_t mode = 0;                              \
        if (flags & O_CREAT) {                        \
            va_list rest;                             \
            va_start(rest, flags);                    \
            mode = va_arg(rest, mode_t);              \
            va_end(rest);                             \
        }                                             \
        return opened(FOLDER, path, flags, mode);     \
    }
#define FROM int folder,
#define NONE
OPENS(open, NONE, AT_FDCWD)
OPENS(open64, NONE, AT_FDCWD)
OPENS(openat, FROM, folder)
OPENS(openat64, FROM, folder)
