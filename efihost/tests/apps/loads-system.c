/* Ends the boot services as it should, and then takes the processor. */
#include "loader.h"

static EFI_STATUS application(void)
{
    UINTN key;

    print("loading\r\n");
    MUST(get_key(&key));
    MUST(boot->ExitBootServices(self, key));
    __asm__ volatile("cli; hlt");
    return EFI_ABORTED;
}
