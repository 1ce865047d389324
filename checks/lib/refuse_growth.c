/* Preloaded into a process, refuses one growth of its memory: the one with the number REFUSED_GROWTH, counted from 1
   over all threads. Where the process comes to that growth, the file GROWTH_MET is made. A growth is a call of malloc,
   calloc, realloc, memalign, aligned_alloc or posix_memalign. In the end the file THREADS_STARTED has a byte for each
   thread that was started, and the file FILES_CHANGED one for each call that changes what a disk has: s for fsync, r for
   rename, u for unlink, in their order. Before the call with the number KILLED_CHANGE of these, counted from 1, the process is
   killed, and so it is before the call of write with the number KILLED_WRITE. */
#define _GNU_SOURCE
#include <dlfcn.h>
#include <errno.h>
#include <fcntl.h>
#include <pthread.h>
#include <signal.h>
#include <stdatomic.h>
#include <stdlib.h>
#include <sys/syscall.h>
#include <unistd.h>

/* The C library's own names of the four that give memory. */
void *__libc_malloc(size_t size);
void *__libc_calloc(size_t count, size_t size);
void *__libc_realloc(void *place, size_t size);
void *__libc_memalign(size_t alignment, size_t size);

static atomic_ulong growths;
static atomic_ulong changes;
static atomic_ulong writes;
static unsigned long refused;
static unsigned long killed;
static unsigned long killed_write;
static const char *met;
static int started = -1;
static int changed = -1;
static int (*create)(pthread_t *, const pthread_attr_t *, void *(*)(void *), void *);

/* Runs before main: what the loader took is not counted. */
__attribute__((constructor)) static void begin(void) {
    const char *number = getenv("REFUSED_GROWTH");
    const char *threads = getenv("THREADS_STARTED");
    const char *files = getenv("FILES_CHANGED");
    const char *change = getenv("KILLED_CHANGE");
    const char *write_call = getenv("KILLED_WRITE");
    met = getenv("GROWTH_MET");
    killed = change ? strtoul(change, NULL, 10) : 0;
    killed_write = write_call ? strtoul(write_call, NULL, 10) : 0;
    create = (int (*)(pthread_t *, const pthread_attr_t *, void *(*)(void *), void *))dlsym(RTLD_NEXT, "pthread_create");
    started = threads ? open(threads, O_WRONLY | O_CREAT | O_TRUNC | O_CLOEXEC, 0666) : -1;
    changed = files ? open(files, O_WRONLY | O_CREAT | O_TRUNC | O_CLOEXEC, 0666) : -1;
    growths = 0;
    refused = number && met ? strtoul(number, NULL, 10) : 0;
}

static int is_refused(void) {
    if (atomic_fetch_add(&growths, 1) + 1 != refused) {
        return 0;
    }
    close(open(met, O_WRONLY | O_CREAT, 0666));
    errno = ENOMEM;
    return 1;
}

void *malloc(size_t size) { return is_refused() ? NULL : __libc_malloc(size); }

void *calloc(size_t count, size_t size) { return is_refused() ? NULL : __libc_calloc(count, size); }

void *realloc(void *place, size_t size) { return is_refused() ? NULL : __libc_realloc(place, size); }

void *memalign(size_t alignment, size_t size) { return is_refused() ? NULL : __libc_memalign(alignment, size); }

void *aligned_alloc(size_t alignment, size_t size) { return memalign(alignment, size); }

int posix_memalign(void **place, size_t alignment, size_t size) {
    void *found = memalign(alignment, size);
    if (!found) {
        return ENOMEM;
    }
    *place = found;
    return 0;
}

int pthread_create(pthread_t *thread, const pthread_attr_t *how, void *(*work)(void *), void *of) {
    int status = create(thread, how, work, of);
    if (!status && started >= 0 && write(started, ".", 1) != 1) {
        abort();
    }
    return status;
}

static void end_at(unsigned long number, atomic_ulong *calls) {
    if (atomic_fetch_add(calls, 1) + 1 == number) {
        raise(SIGKILL);
    }
}

static void note(const char *call) {
    end_at(killed, &changes);
    if (changed >= 0 && write(changed, call, 1) != 1) {
        abort();
    }
}

int fsync(int file) {
    note("s");
    return ((int (*)(int))dlsym(RTLD_NEXT, "fsync"))(file);
}

int rename(const char *from, const char *to) {
    note("r");
    return ((int (*)(const char *, const char *))dlsym(RTLD_NEXT, "rename"))(from, to);
}

int unlink(const char *path) {
    note("u");
    return ((int (*)(const char *))dlsym(RTLD_NEXT, "unlink"))(path);
}

/* The program calls write by two names. */
ssize_t write(int file, const void *bytes, size_t count) {
    end_at(killed_write, &writes);
    return syscall(SYS_write, file, bytes, count);
}

ssize_t __write(int file, const void *bytes, size_t count) { return write(file, bytes, count); }
