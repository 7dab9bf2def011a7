/* A program that uses the installed libraries of regions, in C99 and in C++. */
#include <rafkudin_region.h>

#include <stdio.h>

static unsigned char region[1 << 16], other[1 << 13];

int main(void)
{
    /* One block of 256 free pages from page 1 on, as GetMemoryMap writes it. */
    static const uint8_t record[RAFKUDIN_DESCRIPTOR_SIZE] = {
        7, 0, 0, 0, 0, 0, 0, 0, 0, 0x10, 0, 0, 0, 0, 0, 0, 0, 0, 0, 0, 0, 0, 0, 0, 0, 1, 0, 0, 0,
        0, 0, 0, 0xf};
    struct rafkudin *core = NULL;
    uint64_t memory = 0, found = 0, size = 0;

    if (RafkudinVersion() != RAFKUDIN_VERSION)
        return 1;
    if (RafkudinMakeIn(region, sizeof region, record, sizeof record, sizeof record, 1, NULL, 0,
                       &core) != RAFKUDIN_SUCCESS)
        return 2;
    if (RafkudinPlaceIn(other, sizeof other, record, sizeof record, sizeof record, 1,
                        RAFKUDIN_LOADER_DATA, 10, UINT64_MAX, &found) != RAFKUDIN_SUCCESS)
        return 3;
    if (RafkudinAllocatePages(core, RAFKUDIN_ANY_PAGES, RAFKUDIN_LOADER_DATA, 10, &memory) !=
        RAFKUDIN_SUCCESS)
        return 4;
    printf("%s at 0x%llx and 0x%llx\n",
           RafkudinStatusName(RafkudinGetMemoryMap(core, &size, NULL, NULL, NULL, NULL)),
           (unsigned long long)memory, (unsigned long long)found);
    RafkudinFree(core);
    return 0;
}
