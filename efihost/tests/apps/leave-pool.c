/* Ends with a block that is not freed. */
#include "app.h"

static EFI_STATUS application(void)
{
    return pool(40) == NULL ? EFI_OUT_OF_RESOURCES : EFI_SUCCESS;
}
