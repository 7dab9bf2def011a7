#include <rafkudin.h>

#include <inttypes.h>
#include <stdio.h>

int main(void)
{
    /* An EFI_MEMORY_DESCRIPTOR: 1,024 conventional pages from address 0x100000 on. */
    static const uint64_t record[5] = {RAFKUDIN_CONVENTIONAL, 0x100000, 0, 1024, 0xf};
    struct rafkudin *core = NULL;
    uint64_t memory = 0;

    if (RafkudinMake((const uint8_t *)record, sizeof record, sizeof record, 1, NULL, 0, &core) !=
        RAFKUDIN_SUCCESS)
        return 1;
    if (RafkudinAllocatePages(core, RAFKUDIN_ANY_PAGES, RAFKUDIN_LOADER_DATA, 10, &memory) ==
        RAFKUDIN_SUCCESS)
        printf("ten pages at 0x%" PRIx64 "\n", memory);
    RafkudinFree(core);
    return 0;
}
