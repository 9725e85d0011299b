/* Has the clock of the system stand at a moment that is steered from outside; it is preloaded (LD_PRELOAD). The file whose path is in CLOCK has eight
 * octets, a signed number in the machine's order: the seconds since 1970 at which the clock stands, 0 for the system's own clock, and the least number for a
 * clock that can't be read. The file may change at any time. The clock that only runs on (CLOCK_MONOTONIC) is the system's. */
#include <errno.h>
#include <fcntl.h>
#include <stddef.h>
#include <stdint.h>
#include <stdlib.h>
#include <sys/mman.h>
#include <sys/syscall.h>
#include <sys/time.h>
#include <time.h>
#include <unistd.h>

static volatile const int64_t *stands;

__attribute__((constructor)) static void begin(void) {
    const char *path = getenv("CLOCK");
    int file = path ? open(path, O_RDONLY | O_CLOEXEC) : -1;
    if (file < 0) {
        return;
    }
    void *found = mmap(NULL, sizeof *stands, PROT_READ, MAP_SHARED, file, 0);
    close(file);
    stands = found == MAP_FAILED ? NULL : found;
}

int clock_gettime(clockid_t clock, struct timespec *time) {
    int64_t moment = stands && (clock == CLOCK_REALTIME || clock == CLOCK_REALTIME_COARSE) ? *stands : 0;
    if (!moment) {
        return (int)syscall(SYS_clock_gettime, clock, time);
    }
    if (moment == INT64_MIN) {
        errno = EINVAL;
        return -1;
    }
    *time = (struct timespec){.tv_sec = moment};
    return 0;
}

int gettimeofday(struct timeval *restrict now, void *restrict zone) {
    struct timespec found;
    (void)zone;
    if (clock_gettime(CLOCK_REALTIME, &found) != 0) {
        return -1;
    }
    *now = (struct timeval){.tv_sec = found.tv_sec, .tv_usec = found.tv_nsec / 1000};
    return 0;
}

time_t time(time_t *to) {
    struct timespec found;
    time_t moment = clock_gettime(CLOCK_REALTIME, &found) == 0 ? found.tv_sec : -1;
    if (to) {
        *to = moment;
    }
    return moment;
}
