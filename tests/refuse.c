/* Refuses one allocation of a program, the one whose number is in REFUSE, counted from 1; it is preloaded (LD_PRELOAD). Where there were
 * fewer it says so on standard error, so that a sweep over all of them knows its end. The allocations of all threads are counted together; with WHEN
 * set, while there is a file at WHEN, or at COUNT if that is set too. Allocations of the C library for a new thread are not counted. If THREADS is set, each new thread has
 * a line on standard error. With THREAD set, the thread of this number, counted from 1, is not made. */
#define _GNU_SOURCE
#include <dlfcn.h>
#include <errno.h>
#include <pthread.h>
#include <stddef.h>
#include <stdlib.h>
#include <string.h>
#include <sys/syscall.h>
#include <unistd.h>

extern void *__libc_malloc(size_t);
extern void *__libc_calloc(size_t, size_t);
extern void *__libc_realloc(void *, size_t);
extern void *__libc_memalign(size_t, size_t);

static unsigned long wanted;
static unsigned long made;
static const char *since;
static unsigned long unmade;
static unsigned long threads;
static __thread int makes_thread;

__attribute__((constructor)) static void begin(void) {
    const char *word = getenv("REFUSE");
    wanted = word ? strtoul(word, NULL, 10) : 0;
    since = getenv("COUNT") ? getenv("COUNT") : getenv("WHEN");
    word = getenv("THREAD");
    unmade = word ? strtoul(word, NULL, 10) : 0;
    made = 0;
}

__attribute__((destructor)) static void end(void) {
    static const char text[] = "fewer allocations\n";
    if (made < wanted) {
        made = wanted;
        syscall(SYS_write, 2, text, sizeof text - 1);
    }
}

/* How a program with threads ends, which no destructor sees. */
void _exit(int status) {
    end();
    for (;;) {
        syscall(SYS_exit_group, status);
    }
}

int pthread_create(pthread_t *thread, const pthread_attr_t *attributes, void *(*does)(void *), void *argument) {
    int (*make)(pthread_t *, const pthread_attr_t *, void *(*)(void *), void *) = dlsym(RTLD_NEXT, "pthread_create");
    if (__atomic_add_fetch(&threads, 1, __ATOMIC_SEQ_CST) == unmade) {
        return EAGAIN;
    }
    makes_thread = 1;
    int status = make(thread, attributes, does, argument);
    makes_thread = 0;
    if (status == 0 && getenv("THREADS")) {
        static const char text[] = "a thread was made\n";
        syscall(SYS_write, 2, text, sizeof text - 1);
    }
    return status;
}

static int is_refused(void) {
    if (makes_thread || (since && access(since, F_OK) != 0)) {
        return 0;
    }
    if (__atomic_add_fetch(&made, 1, __ATOMIC_SEQ_CST) != wanted) {
        return 0;
    }
    errno = ENOMEM;
    return 1;
}

void *malloc(size_t size) {
    return is_refused() ? NULL : __libc_malloc(size);
}

void *calloc(size_t count, size_t size) {
    return is_refused() ? NULL : __libc_calloc(count, size);
}

void *realloc(void *block, size_t size) {
    return is_refused() ? NULL : __libc_realloc(block, size);
}

void *aligned_alloc(size_t alignment, size_t size) {
    return is_refused() ? NULL : __libc_memalign(alignment, size);
}

int posix_memalign(void **block, size_t alignment, size_t size) {
    if (is_refused()) {
        return 12;
    }
    *block = __libc_memalign(alignment, size);
    return *block ? 0 : 12;
}
