/* A state machine, a turnstile, driven by the script: a coin unlocks it, a push passes. Exits with how many passed.
 * Each script of states.cases is a job. */
#include "rvfleet.h"

enum state { LOCKED, UNLOCKED };

int main(void)
{
    enum state state = LOCKED;
    int passed = 0;
    for (unsigned event = CONSOLE; event != SCRIPT_END; event = CONSOLE) {
        if (event == 'c') {
            state = UNLOCKED;
        } else if (event == 'p' && state == UNLOCKED) {
            state = LOCKED;
            passed++;
        }
        print(state == LOCKED ? "L" : "U");
    }
    return passed;
}
