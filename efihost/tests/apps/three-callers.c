/* Three functions write behind blocks of one allocation function, and a line in a loop does so five
 * times; then three write to memory that nobody placed by one function. */
#include "app.h"

#define ALONE __attribute__((noinline))

ALONE static uint8_t *take(UINTN size)
{
    void *block = NULL;
    uint8_t space[64];

    space[0] = 0;
    boot->AllocatePool(4, size + space[0], &block);
    return block;
}

ALONE static void give(uint8_t *block)
{
    boot->FreePool(block);
}

ALONE static void one(void)
{
    uint8_t *block = take(40);

    block[40] = 1;
    give(block);
}

ALONE static void two(void)
{
    uint8_t *block = take(40);

    block[41] = 1;
    give(block);
}

ALONE static void three(void)
{
    uint8_t *block = take(40);

    block[42] = 1;
    give(block);
}

ALONE static void put(uint64_t at)
{
    *(volatile uint8_t *)at = 1;
}

ALONE static void four(void)
{
    put(0x2000000);
}

ALONE static void five(void)
{
    put(0x2001000);
}

ALONE static EFI_STATUS application(void)
{
    one();
    two();
    three();
    for (unsigned i = 0; i < 5; i++) {
        uint8_t *block = take(40 + i);

        block[40 + i] = 1;
        print(i == 3 ? "a longer text\r\n" : "text\r\n");
        give(block);
    }
    four();
    five();
    for (unsigned i = 0; i < 5; i++)
        put(0x2002000 + 4096 * i);
    return EFI_SUCCESS;
}
