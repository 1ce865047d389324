/* What C++ needs below it, since Debian has no C++ library for RV32: `new` and `delete` over malloc, and what is called where
 * there is no function to call. Each may be defined anew by a test. */
#include "rvfleet.h"

#define MAY_BE_ANOTHER extern "C++" __attribute__((weak))

#if __STDC_HOSTED__
#include <stdlib.h>

MAY_BE_ANOTHER void *operator new(size_t size)
{
    void *room = malloc(size ? size : 1);
    if (!room)
        abort();
    return room;
}

MAY_BE_ANOTHER void *operator new[](size_t size)
{
    return operator new(size);
}

MAY_BE_ANOTHER void operator delete(void *room)
{
    free(room);
}

MAY_BE_ANOTHER void operator delete[](void *room)
{
    free(room);
}

MAY_BE_ANOTHER void operator delete(void *room, size_t)
{
    free(room);
}

MAY_BE_ANOTHER void operator delete[](void *room, size_t)
{
    free(room);
}
#else
/* The run ends behind `main` by the exit call: destructors of static objects do not run without a C library. */
extern "C" {
void *__dso_handle;

int __cxa_atexit(void (*)(void *), void *, void *)
{
    return 0;
}
}
#endif

extern "C" void __cxa_pure_virtual(void)
{
    print("a pure virtual function is called\n");
    finish(134);
}
