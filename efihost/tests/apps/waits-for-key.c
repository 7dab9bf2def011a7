/* Waits for a key, and prints it. */
#include "app.h"

static EFI_STATUS application(void)
{
    EFI_INPUT_KEY key = {0, 0};
    UINTN index;

    do {
        char text[] = "key ?\r\n";

        MUST(boot->WaitForEvent(1, &table->ConIn->WaitForKey, &index));
        MUST(table->ConIn->ReadKeyStroke(table->ConIn, &key));
        text[4] = key.ScanCode != 0 ? (char)(char)(key.ScanCode + 64) : (char)key.UnicodeChar;
        print(text);
    } while (key.ScanCode != 0x17);
    return EFI_SUCCESS;
}
