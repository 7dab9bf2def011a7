/* Writes a freed block through a pointer that is left, after another block of its size was made. */
#include "app.h"

static EFI_STATUS application(void)
{
    uint8_t *old, *new;

    old = pool(40);
    MUST(boot->FreePool(old));
    new = pool(40);
    boot->SetMem(new, 40, 7);
    old[3] = 1;
    print(new[3] == 7 ? "unharmed\r\n" : "harmed\r\n");
    for (unsigned i = 0; i < 100; i++)
        MUST(boot->FreePool(pool(1000)));
    print("the end\r\n");
    return boot->FreePool(new);
}
