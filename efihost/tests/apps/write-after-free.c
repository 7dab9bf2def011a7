/* Writes a block after it is freed, while another keeps its page. */
#include "app.h"

static EFI_STATUS application(void)
{
    uint8_t *kept = pool(40), *block = pool(40);

    boot->FreePool(block);
    block[3] = 1;
    return boot->FreePool(kept);
}
