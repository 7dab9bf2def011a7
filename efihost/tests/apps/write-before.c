/* Writes the byte before a block. */
#include "app.h"

static EFI_STATUS application(void)
{
    uint8_t *block = pool(40);

    block[-1] = 1;
    return boot->FreePool(block);
}
