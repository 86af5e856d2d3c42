/* A program of the functions in USES alone, so that its size is that of the library's code and constants, and of what the C compiler's library adds to them. */
#include "hubplan.h"

#define FUNCTION(name) (void (*)(void))name,
static void (*const volatile used[])(void) = {USES};

void reset(void)
{
    for (unsigned i = 0; i < sizeof used / sizeof *used; i++)
        used[i]();
}
