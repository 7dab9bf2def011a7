/* Calls a function that is not there. */
#include "app.h"

static EFI_STATUS application(void)
{
    EFI_STATUS(EFIAPI * volatile nothing)(void) = (EFI_STATUS(EFIAPI *)(void))0x7000000000ULL;

    return nothing();
}
