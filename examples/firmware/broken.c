/* Fails in the way that the first byte of the console asks for: n calls through a null pointer, s lets the stack grow out of
 * its memory, p copies a text to a bad pointer, and h waits for what never comes. */
#include "rvfleet.h"

/* As the compiler would keep them in a program of more files. */
#define KEPT __attribute__((noipa))

struct device {
    void (*start)(struct device *);
    volatile unsigned ready;
};

static struct device uart;

static KEPT void start_device(struct device *device)
{
    device->start(device);
}

static KEPT unsigned depth(unsigned left)
{
    volatile unsigned room[1024];
    room[0] = left;
    return left == 0 ? 0 : depth(left - 1) + room[0];
}

static KEPT void copy(char *to, const char *from)
{
    while ((*to++ = *from++) != 0) {
    }
}

static KEPT void wait_until_ready(struct device *device)
{
    while (!device->ready) {
    }
}

int main(void)
{
    switch (CONSOLE) {
    case 'n':
        start_device(&uart);
        break;
    case 's':
        return (int)depth(1000);
    case 'p':
        copy((char *)0x40, "text");
        break;
    case 'h':
        wait_until_ready(&uart);
        break;
    }
    return 0;
}
