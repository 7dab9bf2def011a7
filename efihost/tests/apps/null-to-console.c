/* Prints a text that is no memory. */
#include "app.h"

static EFI_STATUS application(void)
{
    return table->ConOut->OutputString(table->ConOut, (const CHAR16 *)8);
}
