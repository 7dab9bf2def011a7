/* Writes the byte behind a block. */
#include "app.h"

static EFI_STATUS application(void)
{
    uint8_t *block = pool(40);

    block[40] = 1;
    return boot->FreePool(block);
}
