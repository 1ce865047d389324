/* Waits for an event that never comes, and must use up its budget. */
static volatile int ready;

int main(void)
{
    while (!ready) {
    }
    return 0;
}
