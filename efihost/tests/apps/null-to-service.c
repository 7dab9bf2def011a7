/* Has a service write to a null pointer. */
#include "app.h"

static EFI_STATUS application(void)
{
    boot->SetMem(NULL, 16, 0);
    return EFI_SUCCESS;
}
