/* Says whether its variable is whole, and writes it until it is killed. */
#include "app.h"

#define SIZE 40000U

static EFI_STATUS application(void)
{
    static const CHAR16 text[] = {'T', 'e', 'x', 't', 0}, kept[] = {'K', 'e', 'p', 't', 0};
    static uint8_t bytes[SIZE];
    EFI_RUNTIME_SERVICES *runtime = table->RuntimeServices;
    UINTN size = SIZE;
    EFI_STATUS status = runtime->GetVariable(text, &test_guid, NULL, &size, bytes);
    bool whole = size == SIZE && status == EFI_SUCCESS;

    for (UINTN i = 0; whole && i < SIZE; i++)
        whole = bytes[i] == bytes[0];
    if (runtime->GetVariable(kept, &test_guid, NULL, &size, NULL) == EFI_NOT_FOUND)
        print("first\r\n");
    else
        print(whole ? "whole\r\n" : "broken\r\n");
    MUST(runtime->SetVariable(text, &test_guid, 7, SIZE, bytes));
    MUST(runtime->SetVariable(kept, &test_guid, 7, 4, bytes));
    print("writing\r\n");
    boot->Stall(1);
    for (uint8_t letter = 0;; letter++) {
        for (UINTN i = 0; i < SIZE; i++)
            bytes[i] = letter;
        MUST(runtime->SetVariable(text, &test_guid, 7, SIZE, bytes));
    }
}
