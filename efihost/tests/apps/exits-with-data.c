/* Ends by Exit with a text in a pool block, which is its caller's from then on. */
#include "app.h"

static const CHAR16 why[] = {'w', 'h', 'y', 0};

static EFI_STATUS application(void)
{
    CHAR16 *text = (CHAR16 *)(void *)pool(sizeof why);

    boot->CopyMem(text, why, sizeof why);
    boot->Exit(self, EFI_ABORTED, sizeof why, text);
    return EFI_SUCCESS;
}
