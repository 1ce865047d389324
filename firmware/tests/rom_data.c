/* Initialised data is copied from the ROM, which no store can change. */
#include "rvfleet.h"

static const unsigned table[] = { 2, 3, 5, 7 };
static unsigned copied[] = { 2, 3, 5, 7 };
static unsigned cleared[4];

int main(void)
{
    for (int at = 0; at < 4; at++) {
        if (copied[at] != table[at] || cleared[at] != 0)
            return 1;
        copied[at]++;
        cleared[at]--;
    }
    *(volatile unsigned *)&table[0] = 1; /* ends the run */
    return 0;
}
