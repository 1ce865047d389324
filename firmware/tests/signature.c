/* Leaves its results in memory, between the two symbols that a signature is read from. The linker script keeps sections
 * named .signature, in the order of what follows in their names, though nothing may refer to the last one. */
unsigned begin_signature[4] __attribute__((section(".signature.1")));
unsigned end_signature[1] __attribute__((section(".signature.2")));

int main(void)
{
    unsigned term = 1, next = 1;
    for (int at = 0; at < 4; at++) {
        begin_signature[at] = term;
        unsigned sum = term + next;
        term = next;
        next = sum;
    }
    begin_signature[3] |= 0xabcd0000;
    return 0;
}
