/* Arithmetic and branches: how many steps of the Collatz walk the numbers below a limit take. */
unsigned run(void)
{
    unsigned steps = 0;
    for (unsigned first = 1; first < 120000; first++) {
        unsigned n = first;
        while (n != 1) {
            n = (n & 1) ? n + (n << 1) + 1 : n >> 1;
            steps++;
        }
    }
    return steps;
}
