/* Takes as many blocks, of as many bytes, as its two arguments say; blocks of 4,096 bytes and more
 * are pages. It writes all of them, and waits for a key. */
#include "app.h"

/* The number after the blanks at *text, which then is behind it. */
static UINTN number(const CHAR16 **text)
{
    UINTN number = 0;

    while (**text != 0 && **text != ' ')
        ++*text;
    while (**text == ' ')
        ++*text;
    for (const CHAR16 *at = *text; *at >= '0' && *at <= '9'; at++)
        number = 10 * number + (*at - '0');
    return number;
}

static EFI_STATUS take(UINTN size)
{
    void *block;

    if (size < 4096)
        MUST(boot->AllocatePool(4, size, &block));
    else
        MUST(boot->AllocatePages(0, 4, size / 4096, (uint64_t *)&block));
    boot->SetMem(block, size, 1);
    return EFI_SUCCESS;
}

static EFI_STATUS application(void)
{
    EFI_LOADED_IMAGE_PROTOCOL *loaded;
    const CHAR16 *text;
    UINTN count, size, index;

    MUST(boot->HandleProtocol(self, &loaded_guid, (void **)&loaded));
    text = loaded->LoadOptions;
    count = number(&text);
    size = number(&text);
    for (UINTN i = 0; i < count; i++)
        MUST(take(size));
    print("taken\r\n");
    return boot->WaitForEvent(1, &table->ConIn->WaitForKey, &index);
}
