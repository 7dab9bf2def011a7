/* Has GetVariable read the name of a variable from where no memory is. */
#include "app.h"

static EFI_STATUS application(void)
{
    static const CHAR16 name[] = {'o', 'n', 'e', 0};
    UINTN size = 0;

    MUST(table->RuntimeServices->SetVariable(name, &test_guid, 2, 4, "one"));
    return table->RuntimeServices->GetVariable((const CHAR16 *)8, &test_guid, NULL, &size, NULL);
}
