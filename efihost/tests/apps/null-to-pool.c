/* Has AllocatePool write the block's address to where no memory is. */
#include "app.h"

static EFI_STATUS application(void)
{
    return boot->AllocatePool(4, 40, (void **)8);
}
