/* Calls and returns: Fibonacci's numbers by two calls each, and calls through a table. */
static unsigned __attribute__((noinline)) fibonacci(unsigned n)
{
    return n < 2 ? n : fibonacci(n - 1) + fibonacci(n - 2);
}

static unsigned __attribute__((noinline)) twice(unsigned n) { return n + n; }
static unsigned __attribute__((noinline)) next(unsigned n) { return n + 1; }
static unsigned __attribute__((noinline)) mixed(unsigned n) { return n ^ (n >> 3); }
static unsigned __attribute__((noinline)) same(unsigned n) { return n; }

unsigned run(void)
{
    unsigned (*volatile table[4])(unsigned) = { twice, next, mixed, same };
    unsigned sum = fibonacci(31);
    for (unsigned i = 0; i < 1000000; i++)
        sum = table[i & 3](sum);
    return sum;
}
