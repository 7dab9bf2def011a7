/* Ends by Exit. */
#include "app.h"

static EFI_STATUS application(void)
{
    print("before\r\n");
    boot->Exit(self, EFI_SUCCESS, 0, NULL);
    print("behind\r\n");
    return EFI_ABORTED;
}
