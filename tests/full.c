/* Has a disk be full for the files whose path has the text of FULL in it, or at its end if END is set; it is preloaded (LD_PRELOAD). The file whose path
 * is in SPACE has eight octets, a signed number in the machine's order: by so many octets these files may still grow, all together. A write past the
 * end of a file takes from it; it does what there is room for, and with no room it fails, as a longer length does. A write over octets that are there is
 * made; but with a number below 0 it fails too, as on a disk that copies what it writes. The number may be changed from outside at any time. */
#include <errno.h>
#include <fcntl.h>
#include <stddef.h>
#include <stdint.h>
#include <stdio.h>
#include <stdlib.h>
#include <string.h>
#include <sys/mman.h>
#include <sys/stat.h>
#include <sys/syscall.h>
#include <sys/types.h>
#include <unistd.h>

static const char *full;
static int at_end;
static int64_t *space;

__attribute__((constructor)) static void begin(void) {
    const char *path = getenv("SPACE");
    full = getenv("FULL");
    at_end = getenv("END") != NULL;
    int file = path && full ? open(path, O_RDWR | O_CLOEXEC) : -1;
    if (file < 0) {
        return;
    }
    void *found = mmap(NULL, sizeof *space, PROT_READ | PROT_WRITE, MAP_SHARED, file, 0);
    close(file);
    space = found == MAP_FAILED ? NULL : found;
}

/* The length of a file of this disk, or -1 of another. */
static off_t length_of(int file) {
    char link[64];
    char path[4096];
    struct stat found;
    if (!space || file <= 2 || fstat(file, &found) != 0 || !S_ISREG(found.st_mode)) {
        return -1;
    }
    snprintf(link, sizeof link, "/proc/self/fd/%d", file);
    ssize_t length = readlink(link, path, sizeof path - 1);
    if (length < 0) {
        return -1;
    }
    path[length] = 0;
    const char *at = strstr(path, full);
    return at && (!at_end || !at[strlen(full)]) ? found.st_size : -1;
}

/* So many of these octets there is room for; they are taken. */
static int64_t taken(int64_t wanted) {
    int64_t left = __atomic_load_n(space, __ATOMIC_SEQ_CST);
    for (;;) {
        int64_t some = left < wanted ? left : wanted;
        if (some <= 0) {
            return 0;
        }
        if (__atomic_compare_exchange_n(space, &left, left - some, 0, __ATOMIC_SEQ_CST, __ATOMIC_SEQ_CST)) {
            return some;
        }
    }
}

ssize_t pwrite(int file, const void *octets, size_t count, off_t at) {
    off_t length = length_of(file);
    if (length >= 0 && count && __atomic_load_n(space, __ATOMIC_SEQ_CST) < 0) {
        errno = ENOSPC;
        return -1;
    }
    if (length >= 0 && at + (off_t)count > length) {
        int64_t grows = at + (int64_t)count - (at > length ? at : length);
        int64_t lacks = grows - taken(grows);
        if (lacks > 0 && lacks == (int64_t)count) {
            errno = ENOSPC;
            return -1;
        }
        count -= (size_t)lacks;
    }
    return syscall(SYS_pwrite64, file, octets, count, at);
}

ssize_t pwrite64(int file, const void *octets, size_t count, off_t at) {
    return pwrite(file, octets, count, at);
}

ssize_t write(int file, const void *octets, size_t count) {
    /* A store is written at offsets alone. */
    if (length_of(file) >= 0) {
        syscall(SYS_exit_group, 97);
    }
    return syscall(SYS_write, file, octets, count);
}

int ftruncate(int file, off_t to) {
    off_t length = length_of(file);
    if (length >= 0 && to > length && taken(to - length) < to - length) {
        errno = ENOSPC;
        return -1;
    }
    return (int)syscall(SYS_ftruncate, file, to);
}

int ftruncate64(int file, off_t to) {
    return ftruncate(file, to);
}
