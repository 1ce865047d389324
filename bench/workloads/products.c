/* Products, quotients and remainders: greatest common divisors, and powers modulo a prime. */
static unsigned divisor(unsigned a, unsigned b)
{
    while (b) {
        unsigned rest = a % b;
        a = b;
        b = rest;
    }
    return a;
}

static unsigned power(unsigned base, unsigned exponent, unsigned modulus)
{
    unsigned result = 1;
    while (exponent) {
        if (exponent & 1)
            result = result * base % modulus;
        base = base * base % modulus;
        exponent >>= 1;
    }
    return result;
}

unsigned run(void)
{
    unsigned sum = 0;
    for (unsigned i = 1; i < 500000; i++) {
        sum += divisor(i * 2654435761u, i);
        sum += power(i & 0x7fff, 65521 - 2, 65521);
        sum += (unsigned)((int)(sum - i) / (int)(i | 1));
        sum ^= (unsigned)(((unsigned long long)sum * i) >> 32);
    }
    return sum;
}
