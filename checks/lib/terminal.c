/* Preloaded into a process, makes of its streams and its clock what a check asks for: the streams whose numbers stand in
   TERMINALS are terminals, and no others, the clock that only goes on is at 1,000 seconds when it is read first and CLOCK_STEP
   milliseconds further at each reading, and standard output takes MOST_PUT bytes at once, and OUT_ROOM bytes in all, where that is
   set: then its disk is full. */
#include <errno.h>
#include <stdatomic.h>
#include <stdlib.h>
#include <string.h>
#include <sys/syscall.h>
#include <time.h>
#include <unistd.h>

static atomic_long read_times;
static atomic_long taken;

static long number_of(const char *name) {
    const char *number = getenv(name);
    return number ? strtol(number, NULL, 10) : 0;
}

int isatty(int stream) {
    const char *streams = getenv("TERMINALS");
    return streams && strchr(streams, '0' + stream) != NULL;
}

int clock_gettime(clockid_t clock, struct timespec *now) {
    if (clock != CLOCK_MONOTONIC) {
        return (int)syscall(SYS_clock_gettime, clock, now);
    }
    long at = 1000000 + number_of("CLOCK_STEP") * atomic_fetch_add(&read_times, 1);
    now->tv_sec = at / 1000;
    now->tv_nsec = at % 1000 * 1000000;
    return 0;
}

ssize_t write(int stream, const void *bytes, size_t count) {
    if (stream != STDOUT_FILENO) {
        return syscall(SYS_write, stream, bytes, count);
    }
    long most = number_of("MOST_PUT");
    if (getenv("OUT_ROOM")) {
        long room = number_of("OUT_ROOM") - taken;
        if (room <= 0) {
            errno = ENOSPC;
            return -1;
        }
        most = room < most ? room : most;
    }
    ssize_t done = syscall(SYS_write, stream, bytes, (size_t)most < count ? (size_t)most : count);
    taken += done > 0 ? done : 0;
    return done;
}
