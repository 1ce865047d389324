/* Reads through a null pointer, and must crash: the region begins at 0x8000_0000. */
#include "rvfleet.h"

static unsigned *volatile nowhere;

int main(void)
{
    print("before\n");
    unsigned found = *nowhere;
    print("behind\n");
    return (int)found;
}
