/* Prints 65,472 bytes, 1,023 lines of 64: the console takes 65,536 in a run, and a byte more ends it. */
#include "rvfleet.h"

int main(void)
{
    for (int line = 0; line < 1023; line++) {
        for (int column = 0; column < 63; column++)
            CONSOLE = (unsigned char)('!' + (line + column) % 94);
        print("\n");
    }
    return 0;
}
