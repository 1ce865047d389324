/* The heap: what is taken does not overlap, what is given back is given again, and want of memory is told. picolibc's malloc
 * clears what it gives, at four steps a byte. */
#include <stdio.h>
#include <stdlib.h>
#include <string.h>

/* Volatile, so that the compiler, which knows what malloc does, takes and keeps what is asked for. */
static char *volatile first, *volatile second;

int main(void)
{
    first = malloc(1000);
    second = malloc(1000);
    if (!first || !second)
        return 1;
    memset(first, 'a', 1000);
    memset(second, 'b', 1000);
    if (first[0] != 'a' || first[999] != 'a' || second[0] != 'b')
        return 2;
    free(first);
    free(second);
    /* More, taken together, than the heap has. */
    for (int round = 0; round < 60; round++) {
        first = malloc(10000);
        if (!first)
            return 3;
        free(first);
    }
    second = malloc(1 << 20);
    printf("a megabyte: %s\n", second ? "given" : "not given");
    return 0;
}
