/* Ends the boot services and then uses all memory, which is right. */
#include "loader.h"

static EFI_STATUS application(void)
{
    volatile uint8_t *kept = pool(40), *freed = pool(40);
    UINTN key;

    MUST(boot->FreePool((void *)freed));
    MUST(get_key(&key));
    MUST(boot->ExitBootServices(self, key));
    freed[3] = kept[40] = kept[41] = 1;
    *(volatile uint8_t *)0x2000000 = 1;
    __asm__ volatile("cli; hlt");
    return EFI_ABORTED;
}
