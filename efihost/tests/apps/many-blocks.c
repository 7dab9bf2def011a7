/* Has 36,000 blocks at the same time, and frees them. */
#include "app.h"

#define COUNT 36000

static void *blocks[COUNT];

static EFI_STATUS application(void)
{
    for (unsigned i = 0; i < COUNT; i++) {
        MUST(boot->AllocatePool(4, 40 + i % 3, &blocks[i]));
        *(uint8_t *)blocks[i] = 1;
    }
    for (unsigned i = 0; i < COUNT; i++)
        MUST(boot->FreePool(blocks[i]));
    print("many blocks are right\r\n");
    return EFI_SUCCESS;
}
