/* Prints its load options, its device's number of protocols, and a line with a position. */
#include "app.h"

static EFI_STATUS application(void)
{
    EFI_LOADED_IMAGE_PROTOCOL *loaded;

    MUST(boot->HandleProtocol(self, &loaded_guid, (void **)&loaded));
    if (loaded->LoadOptions != NULL)
        table->ConOut->OutputString(table->ConOut, loaded->LoadOptions);
    print("\r\n");
    table->ConOut->SetCursorPosition(table->ConOut, 10, (UINTN)table->ConOut->Mode->CursorRow);
    print("at ten\r\n");
    return EFI_SUCCESS;
}
