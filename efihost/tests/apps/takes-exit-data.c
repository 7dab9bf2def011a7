/* Starts an image that exits with a text, and frees the text; and starts it without asking for it. */
#include "beside.h"

static EFI_STATUS application(void)
{
    EFI_HANDLE image;
    CHAR16 *text = NULL;
    UINTN size = 0;

    MUST(load_beside("exits-with-data.efi", &image));
    if (boot->StartImage(image, &size, &text) != EFI_ABORTED || size != 8 || text[0] != 'w')
        return EFI_ABORTED;
#ifndef KEEPS
    MUST(boot->FreePool(text));
#endif
    MUST(load_beside("exits-with-data.efi", &image));
    if (boot->StartImage(image, NULL, NULL) != EFI_ABORTED)
        return EFI_ABORTED;
    print("exits are right\r\n");
    return EFI_SUCCESS;
}
