/* Prints what the console gives in capital letters, and exits with the number of letters that it changed. */
#include "rvfleet.h"

static char prompt[] = "> ";
static unsigned changed;

int main(void)
{
    prompt[0] = '#';
    print(prompt);
    for (unsigned byte = CONSOLE; byte != SCRIPT_END; byte = CONSOLE) {
        if (byte >= 'a' && byte <= 'z') {
            byte -= 'a' - 'A';
            changed++;
        }
        CONSOLE = byte;
    }
    print("\n");
    return (int)changed;
}
