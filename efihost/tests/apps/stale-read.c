/* Reads a freed block, after another of its size was made. */
#include "app.h"

static EFI_STATUS application(void)
{
    volatile uint8_t *old, *new;

    old = pool(40);
    MUST(boot->FreePool((void *)old));
    new = pool(40);
    if (old[3] == 1)
        print("one\r\n");
    return boot->FreePool((void *)new);
}
