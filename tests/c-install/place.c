/* A program that uses the installed library of placement alone, in C99 and in C++. */
#include <rafkudin_place.h>

#include <stdio.h>

static unsigned char region[RAFKUDIN_PLACE_ROOM(RAFKUDIN_DESCRIPTOR_SIZE)];

int main(void)
{
    /* One block of 256 free pages from page 1 on, as GetMemoryMap writes it. */
    static const uint8_t record[RAFKUDIN_DESCRIPTOR_SIZE] = {
        7, 0, 0, 0, 0, 0, 0, 0, 0, 0x10, 0, 0, 0, 0, 0, 0, 0, 0, 0, 0, 0, 0, 0, 0, 0, 1, 0, 0, 0,
        0, 0, 0, 0xf};
    uint64_t found = 0;

    if (RafkudinPlaceIn(region, sizeof region, record, sizeof record, sizeof record, 1,
                        RAFKUDIN_LOADER_DATA, 10, UINT64_MAX, &found) != RAFKUDIN_SUCCESS)
        return 1;
    printf("0x%llx\n", (unsigned long long)found);
    return 0;
}
