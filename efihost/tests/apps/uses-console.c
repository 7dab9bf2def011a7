/* Calls each service of the console, before and after the boot services end. */
#include "loader.h"

static const CHAR16 text[] = {'t', 'e', 'x', 't', 0};
static const EFI_GUID text_in_ex_guid = {
    0xdd9e7534, 0x7762, 0x4698, {0x8c, 0x14, 0xf5, 0x85, 0x17, 0xa6, 0x25, 0xaa}};
static EFI_SIMPLE_TEXT_INPUT_EX_PROTOCOL *in_ex;

static EFI_STATUS EFIAPI notified(EFI_KEY_DATA *key)
{
    (void)key;
    return EFI_SUCCESS;
}

/* Whether all services return this. */
static BOOLEAN all_return(EFI_STATUS status)
{
    EFI_SIMPLE_TEXT_OUTPUT_PROTOCOL *out = table->ConOut;
    EFI_SIMPLE_TEXT_INPUT_PROTOCOL *in = table->ConIn;
    EFI_KEY_DATA key = {{0, 'x'}, {0, 0}};
    void *handle = NULL;
    uint8_t state = 0;
    UINTN columns, rows;

    return out->Reset(out, 0) == status && out->OutputString(out, text) == status &&
           out->TestString(out, text) == status &&
           out->QueryMode(out, 0, &columns, &rows) == status && out->SetMode(out, 0) == status &&
           out->SetAttribute(out, 7) == status && out->ClearScreen(out) == status &&
           out->SetCursorPosition(out, 1, 1) == status && out->EnableCursor(out, 1) == status &&
           in->Reset(in, 0) == status && in_ex->Reset(in_ex, 0) == status &&
           in_ex->SetState(in_ex, &state) == status &&
           in_ex->RegisterKeyNotify(in_ex, &key, notified, &handle) == status &&
           in_ex->UnregisterKeyNotify(in_ex, handle) == status;
}

static EFI_STATUS application(void)
{
    EFI_INPUT_KEY key;
    UINTN map_key;

    MUST(boot->HandleProtocol(table->ConsoleInHandle, &text_in_ex_guid, (void **)&in_ex));
    if (!all_return(EFI_SUCCESS))
        return EFI_ABORTED;
    MUST(get_key(&map_key));
    MUST(boot->ExitBootServices(self, map_key));
    if (!all_return(EFI_UNSUPPORTED) ||
        table->ConIn->ReadKeyStroke(table->ConIn, &key) != EFI_UNSUPPORTED)
        return EFI_ABORTED;
    return EFI_SUCCESS;
}
