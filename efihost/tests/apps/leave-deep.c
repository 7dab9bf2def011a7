/* Leaves a block that is made below many functions. */
#include "app.h"

__attribute__((noinline)) static unsigned made_below(unsigned depth)
{
    if (depth == 0)
        return pool(40) != NULL;
    return made_below(depth - 1) + depth;
}

static EFI_STATUS application(void)
{
    return made_below(12) == 79 ? EFI_SUCCESS : EFI_ABORTED;
}
