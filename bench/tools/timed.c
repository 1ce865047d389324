/* Run a program COUNT times, one run after another, and append a line to FILE: the seconds that all runs took by the
 * clock, their processor seconds (user and system), and the peak memory of a run, in KB. Each run must end with STATUS.
 *   timed FILE COUNT STATUS PROGRAM [WORD...] */
#include <spawn.h>
#include <stdio.h>
#include <stdlib.h>
#include <sys/resource.h>
#include <sys/wait.h>
#include <time.h>

extern char **environ;

static double seconds(struct timeval time)
{
    return (double)time.tv_sec + (double)time.tv_usec / 1e6;
}

static double clock_now(void)
{
    struct timespec now;
    clock_gettime(CLOCK_MONOTONIC, &now);
    return (double)now.tv_sec + (double)now.tv_nsec / 1e9;
}

/* The status of one run, or -1 if it was not started or was killed. */
static int run(char **words)
{
    pid_t process;
    int status;
    if (posix_spawnp(&process, words[0], NULL, NULL, words, environ) != 0 || waitpid(process, &status, 0) != process)
        return -1;
    return WIFEXITED(status) ? WEXITSTATUS(status) : -1;
}

int main(int count, char **words)
{
    if (count < 5) {
        fprintf(stderr, "usage: timed FILE COUNT STATUS PROGRAM [WORD...]\n");
        return 2;
    }
    const int runs = atoi(words[2]), wanted = atoi(words[3]);
    const double began = clock_now();
    for (int k = 0; k < runs; k++) {
        const int status = run(words + 4);
        if (status != wanted) {
            fprintf(stderr, "timed: %s: expected status %d, found %d\n", words[4], wanted, status);
            return 1;
        }
    }
    const double taken = clock_now() - began;
    struct rusage used;
    getrusage(RUSAGE_CHILDREN, &used);
    FILE *file = fopen(words[1], "a");
    if (file == NULL || fprintf(file, "%.6f %.6f %ld\n", taken, seconds(used.ru_utime) + seconds(used.ru_stime),
                                used.ru_maxrss) < 0 || fclose(file) != 0) {
        perror(words[1]);
        return 1;
    }
    return 0;
}
