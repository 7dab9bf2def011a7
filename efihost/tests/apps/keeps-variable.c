/* Counts in a variable how often it ran. */
#include "app.h"

static EFI_STATUS application(void)
{
    static const CHAR16 name[] = {'R', 'u', 'n', 's', 0};
    char text[] = "run 0\r\n";
    uint8_t runs = 0;
    UINTN size = 1;

    table->RuntimeServices->GetVariable(name, &test_guid, NULL, &size, &runs);
    runs++;
    text[4] = (char)(text[4] + runs);
    print(text);
    return table->RuntimeServices->SetVariable(name, &test_guid, 7, 1, &runs);
}
