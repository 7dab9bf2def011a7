/* Frees an address in a block, where none begins. */
#include "app.h"

static EFI_STATUS application(void)
{
    uint8_t *block = pool(40);

    boot->FreePool(block + 8);
    return boot->FreePool(block);
}
