/* A driver of a device that answers by bytes, the script being the device: a frame is a length, so many bytes, and their
 * sum modulo 256. Says each frame, and exits with how many were bad. */
#include <stdio.h>
#include "rvfleet.h"

static int bad;

static void read_frame(unsigned length)
{
    unsigned sum = 0;
    if (CONSOLE_LEFT < length + 1) {
        printf("cut off: %u of %u bytes\n", CONSOLE_LEFT, length + 1);
        while (CONSOLE_LEFT)
            (void)CONSOLE;
        bad++;
        return;
    }
    for (unsigned at = 0; at < length; at++)
        sum += CONSOLE;
    if ((sum & 255) == CONSOLE) {
        printf("good: %u bytes\n", length);
    } else {
        printf("bad: %u bytes\n", length);
        bad++;
    }
}

int main(void)
{
    for (unsigned length = CONSOLE; length != SCRIPT_END; length = CONSOLE)
        read_frame(length);
    return bad;
}
