/* The interface of the simulator for firmware in C, C++ and assembler: a console with scripted input, the exit call, and FENCE.I. */
#ifndef RVFLEET_H
#define RVFLEET_H

#ifdef __ASSEMBLER__

/* The addresses of the console. A word load from CONSOLE returns the next byte of the script, or SCRIPT_END at the end of the
 * script. A word store to CONSOLE prints the low byte. A word load from CONSOLE_LEFT returns how many bytes of the script are
 * left. */
#define CONSOLE 0x10000000
#define CONSOLE_LEFT 0x10000004
#define SCRIPT_END 0xffffffff
#define EXIT_CALL 93

/* Ends the run with the given code, or with the code in a0 if none is given. */
    .macro finish code
    .ifnb \code
    li a0, \code
    .endif
    li a7, EXIT_CALL
    ecall
    .endm

/* FENCE.I. It can be used with any -march. */
    .macro fence_i
    .insn i 0x0f, 1, x0, x0, 0
    .endm

#else

#ifdef __cplusplus
extern "C" {
#endif

/* The console. Reading it returns the next byte of the script, or SCRIPT_END at the end of the script. Writing it prints the low
 * byte. */
#define CONSOLE (*(volatile unsigned *)0x10000000)
#define SCRIPT_END 0xffffffffu

/* The number of bytes of the script that are left (read-only). */
#define CONSOLE_LEFT (*(const volatile unsigned *)0x10000004)

static inline void print(const char *text)
{
    while (*text)
        CONSOLE = (unsigned char)*text++;
}

/* Ends the run with this code: the exit call is ECALL with 93 in a7. */
__attribute__((noreturn)) static inline void finish(unsigned code)
{
    register unsigned a0 __asm__("a0") = code;
    register unsigned a7 __asm__("a7") = 93;
    __asm__ volatile("ecall" : : "r"(a0), "r"(a7) : "memory");
    __builtin_unreachable();
}

/* Instructions that were stored before this call can be executed after it. Zifencei is enabled only for this instruction, in the
 * assembler. So -march need not name it: Debian's C libraries have no directory for an -march with zifencei. */
static inline void fence_i(void)
{
    __asm__ volatile(".option push\n\t.option arch, +zifencei\n\tfence.i\n\t.option pop" : : : "memory");
}

#ifdef __cplusplus
}
#endif

#endif

#endif
