/* Calls itself until the stack is full, and must end at the first store below it. */
static volatile int more = 1;

__attribute__((noinline)) static int down(int level)
{
    volatile int room[16];
    room[0] = level;
    return more ? down(level + 1) + room[0] : 0;
}

int main(void)
{
    return down(0);
}
