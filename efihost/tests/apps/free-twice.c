/* Frees a block twice. */
#include "app.h"

static EFI_STATUS application(void)
{
    uint8_t *block = pool(40);

    MUST(boot->FreePool(block));
    boot->FreePool(block);
    return EFI_SUCCESS;
}
