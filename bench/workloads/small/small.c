/* A small firmware test: sorts eight words by insertion, and exits with their sum, weighted by position. It uses no
 * console, so that it runs on other machines too. */
static unsigned words[8] = { 0x5eed, 0x1c07, 0xbead, 0x0bad, 0xf00d, 0x2bad, 0xcafe, 0x0dad };

static void sort(unsigned *from, unsigned count)
{
    for (unsigned k = 1; k < count; k++) {
        unsigned word = from[k], at = k;
        for (; at > 0 && from[at - 1] > word; at--)
            from[at] = from[at - 1];
        from[at] = word;
    }
}

unsigned run(void)
{
    unsigned sum = 0;
    sort(words, 8);
    for (unsigned k = 0; k < 8; k++)
        sum += (k + 1) * words[k];
    return sum;
}
