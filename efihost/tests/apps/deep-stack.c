/* Calls itself until the stack is used up. */
#include "app.h"

static uint64_t deeper(uint64_t depth)
{
    volatile uint8_t room[512];

    room[depth % 512] = (uint8_t)depth;
    return depth == UINT64_MAX ? 0 : deeper(depth + 1) + room[depth % 512];
}

static EFI_STATUS application(void)
{
    return deeper(0);
}
