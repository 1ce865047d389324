/* Writes a function and calls it without FENCE.I: the fetch of what was stored since the last one must end the run. */
#include "rvfleet.h"

#define LI_A0(number) (0x00000513u | (number) << 20) /* addi a0, zero, number */
#define RET 0x00008067u

static unsigned code[2];

static unsigned run_with(unsigned number)
{
    code[0] = LI_A0(number);
    code[1] = RET;
    return ((unsigned (*)(void))(void *)code)();
}

int main(void)
{
    return run_with(5) == 5 && run_with(6) == 6 ? 0 : 1;
}
