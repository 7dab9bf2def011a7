/* Reads a block of no bytes, which --guard alone sees. */
#include "app.h"

static EFI_STATUS application(void)
{
    volatile uint32_t *block = (volatile uint32_t *)(void *)pool(0);
    uint32_t word = *block;

    (void)word;
    return boot->FreePool((void *)(uintptr_t)block);
}
