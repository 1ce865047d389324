/* A failed assert prints its line and exits with 134. */
#include <assert.h>

static volatile int two = 2;

int main(void)
{
    assert(two == 3);
    return 0;
}
