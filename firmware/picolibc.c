/* What picolibc needs below it: the three streams over the simulator's console, `_exit`, and what `raise`, and with it
 * `abort` and `assert`, come to. Its `sbrk` takes the heap from the linker script. Link with --crt0=hosted: the default
 * start-up code spins for ever once `main` returns, and the run ends by its budget; the hosted one calls `exit`, which
 * comes to `_exit` below. */
#include <signal.h>
#include <stdio.h>
#include <unistd.h>
#include "rvfleet.h"

static int put(char byte, FILE *stream)
{
    (void)stream;
    CONSOLE = (unsigned char)byte;
    return (unsigned char)byte;
}

static int get(FILE *stream)
{
    unsigned byte = CONSOLE;
    (void)stream;
    return byte == SCRIPT_END ? _FDEV_EOF : (int)byte;
}

static FILE script = FDEV_SETUP_STREAM(NULL, get, NULL, _FDEV_SETUP_READ);
static FILE printer = FDEV_SETUP_STREAM(put, NULL, NULL, _FDEV_SETUP_WRITE);
FILE *const stdin = &script;
FILE *const stdout = &printer;
FILE *const stderr = &printer;

void _exit(int code)
{
    finish((unsigned)code);
}

__attribute__((weak)) pid_t getpid(void)
{
    return 1;
}

/* A signal that the program does not catch ends it, with the code that a shell gives such an end: 134 for SIGABRT. */
__attribute__((weak)) int kill(pid_t process, int signal)
{
    (void)process;
    _exit(128 + signal);
}
