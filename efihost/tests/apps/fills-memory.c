/* Takes all memory in pieces of one kind after the other, and prints how many there are. */
#include "app.h"

#define MOST 20000U

static uint64_t taken[MOST];

static void say(unsigned number)
{
    char text[12] = {0};
    unsigned at = 10;

    text[10] = ' ';
    do
        text[--at] = (char)('0' + number % 10);
    while ((number /= 10) != 0);
    print(text + at);
}

static EFI_STATUS blocks(UINTN size)
{
    unsigned count = 0;
    void *block;

    while (count < MOST && boot->AllocatePool(2, size, &block) == EFI_SUCCESS)
        taken[count++] = (uint64_t)(uintptr_t)block;
    say(count);
    while (count > 0)
        MUST(boot->FreePool((void *)(uintptr_t)taken[--count]));
    return EFI_SUCCESS;
}

static EFI_STATUS runs(UINTN pages)
{
    unsigned count = 0;

    while (count < MOST && boot->AllocatePages(0, 2, pages, &taken[count]) == EFI_SUCCESS)
        count++;
    say(count);
    while (count > 0)
        MUST(boot->FreePages(taken[--count], pages));
    return EFI_SUCCESS;
}

static EFI_STATUS application(void)
{
    MUST(blocks(1 << 20));
    MUST(blocks(10000));
    MUST(blocks(1000));
    MUST(runs(1));
    MUST(blocks(100000));
    MUST(runs(1));
    print("all is right\r\n");
    return EFI_SUCCESS;
}
