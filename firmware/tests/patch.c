/* Writes over one of its own instructions. Code is read only, but for a job whose region says otherwise: patch.keys. */
#include "rvfleet.h"

__asm__(".globl answer\n"
        ".balign 4\n"
        "answer:\n"
        "    .option push\n"
        "    .option norvc\n"
        "    li a0, 1\n"
        "    ret\n"
        "    .option pop\n");

extern unsigned answer[2];

#define LI_A0(number) (0x00000513u | (number) << 20) /* addi a0, zero, number */

int main(void)
{
    *(volatile unsigned *)answer = LI_A0(42u);
    fence_i();
    return ((int (*)(void))(void *)answer)();
}
