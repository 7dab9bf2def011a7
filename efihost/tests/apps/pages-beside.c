/* Names pages beside its own: frees pages that are not its own, more than there are, and places the
 * page before a run. It prints the statuses. */
#include "app.h"

#define PAGE 4096ULL

static void say(EFI_STATUS status)
{
    char text[] = "0 ";

    text[0] = (char)('0' + (status & 31));
    print(text);
}

static EFI_STATUS application(void)
{
    uint64_t run = 0, before, many = 1ULL << 52;
    uint8_t *block = pool(5 * PAGE);

    MUST(boot->AllocatePages(0, 2, 3, &run));
    say(boot->FreePages(run - PAGE, 1));
    say(boot->FreePages(run - PAGE, 4));
    say(boot->FreePages(run - PAGE, 2));
    say(boot->FreePages(run, many + 1));
    say(boot->FreePages(run, many + 3));
    say(boot->FreePages(run, many - run / PAGE));
    say(boot->FreePages(run, many - run / PAGE + 1));
    say(boot->FreePages(run, 1ULL << 51));
    say(boot->FreePages(run, ~0ULL));
    say(boot->FreePages(run, 0));
    say(boot->FreePages(run + 1, 1));
    say(boot->FreePages((uint64_t)(uintptr_t)block, 1));
    say(boot->FreePages(~0ULL << 12, 1));
    say(boot->FreePages(~0ULL << 12, 2));
    before = run - PAGE;
    say(boot->AllocatePages(2, 2, 1, &before));
    say(boot->AllocatePages(2, 2, 1, &before));
    before = run - 3 * PAGE;
    say(boot->AllocatePages(2, 2, 2, &before));
    say(boot->AllocatePages(2, 2, many, &before));
    say(boot->AllocatePages(2, 2, many + 1, &before));
    say(boot->FreePages(run - 2 * PAGE, 4));
    say(boot->FreePages(run - 3 * PAGE, 1));
    say(boot->FreePages(run + 2 * PAGE, 1));
    say(boot->FreePages(run + 2 * PAGE, 1));
    return boot->FreePool(block);
}
