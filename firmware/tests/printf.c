/* printf and its like, as picolibc has them. */
#include <stdio.h>

int main(void)
{
    char text[16];
    printf("%d %u %x %c %s|%5d|%-5s|\n", -7, 7u, 0xcafe, 'c', "text", 42, "ab");
    snprintf(text, sizeof text, "%.3f", 3.14159);
    puts(text);
    return 0;
}
