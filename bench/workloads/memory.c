/* Loads and stores: a sieve of bytes, and sums over words that move through a buffer. */
#define SIEVE 65536
#define WORDS 4096

static unsigned char composite[SIEVE];
static unsigned buffer[WORDS];

static unsigned primes(void)
{
    unsigned count = 0;
    for (unsigned i = 0; i < SIEVE; i++)
        composite[i] = 0;
    for (unsigned i = 2; i < SIEVE; i++) {
        if (composite[i])
            continue;
        count++;
        for (unsigned j = i + i; j < SIEVE; j += i)
            composite[j] = 1;
    }
    return count;
}

static unsigned moved(unsigned seed)
{
    unsigned sum = seed;
    for (unsigned i = 0; i < WORDS; i++)
        buffer[i] += sum ^ i;
    for (unsigned i = 0; i + 7 < WORDS; i++) {
        buffer[i] = buffer[i + 7] + 1;
        sum += buffer[i];
    }
    return sum;
}

unsigned run(void)
{
    unsigned sum = 0;
    for (unsigned round = 0; round < 40; round++) {
        sum += primes();
        for (unsigned k = 0; k < 10; k++)
            sum = moved(sum);
    }
    return sum;
}
