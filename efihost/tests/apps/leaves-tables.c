/* Leaves what is to stay: a configuration table, and memory that the operating system keeps. */
#include "app.h"

static EFI_STATUS application(void)
{
    void *block;
    uint64_t pages;

    MUST(boot->InstallConfigurationTable(&test_guid, pool(100)));
    MUST(boot->AllocatePool(6, 40, &block));
    MUST(boot->AllocatePages(0, 9, 2, &pages));
    return EFI_SUCCESS;
}
