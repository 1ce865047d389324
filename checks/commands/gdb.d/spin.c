/* Counts without an end: the budget is used up behind 1,000,000,000 steps. */
volatile unsigned count;
volatile unsigned never;
int main(void)
{
    for (;;)
        count++;
}
