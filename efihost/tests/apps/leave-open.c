/* Ends with a protocol that is not closed. */
#include "app.h"

static EFI_STATUS application(void)
{
    void *interface;

    return boot->OpenProtocol(table->ConsoleOutHandle, &(EFI_GUID){0x387477c2, 0x69c7, 0x11d2,
                              {0x8e, 0x39, 0x00, 0xa0, 0xc9, 0x69, 0x72, 0x3b}},
                              &interface, self, NULL, 0x20);
}
