/* Is notified of Control and C, and of F1, which stay to be read; after it unregisters it is not. */
#include "app.h"

static const EFI_GUID text_in_ex_guid = {
    0xdd9e7534, 0x7762, 0x4698, {0x8c, 0x14, 0xf5, 0x85, 0x17, 0xa6, 0x25, 0xaa}};
static unsigned letters, functions;

static EFI_STATUS EFIAPI on_letter(EFI_KEY_DATA *key)
{
    letters += key->Key.UnicodeChar == 'c';
    return EFI_SUCCESS;
}

static EFI_STATUS EFIAPI on_function(EFI_KEY_DATA *key)
{
    functions += key->Key.ScanCode == 11;
    return EFI_SUCCESS;
}

static EFI_STATUS read(EFI_SIMPLE_TEXT_INPUT_EX_PROTOCOL *it, CHAR16 letter, uint16_t scan)
{
    EFI_KEY_DATA key;
    UINTN index;

    MUST(boot->WaitForEvent(1, &it->WaitForKeyEx, &index));
    MUST(it->ReadKeyStrokeEx(it, &key));
    return key.Key.UnicodeChar == letter && key.Key.ScanCode == scan ? EFI_SUCCESS : EFI_ABORTED;
}

static EFI_STATUS application(void)
{
    EFI_KEY_DATA letter = {{0, 'c'}, {0x80000008, 0}}, function = {{11, 0}, {0, 0}};
    EFI_SIMPLE_TEXT_INPUT_EX_PROTOCOL *it;
    void *one, *other;

    MUST(boot->LocateProtocol(&text_in_ex_guid, NULL, (void **)&it));
    MUST(it->RegisterKeyNotify(it, &letter, on_letter, &one));
    MUST(it->RegisterKeyNotify(it, &function, on_function, &other));
    MUST(read(it, 'c', 0));
    MUST(read(it, 3, 0));
    MUST(read(it, 0, 11));
    MUST(it->UnregisterKeyNotify(it, one));
    MUST(read(it, 3, 0));
    MUST(it->UnregisterKeyNotify(it, other));
    if (letters != 1 || functions != 1 || it->UnregisterKeyNotify(it, it) == EFI_SUCCESS)
        return EFI_ABORTED;
    print("keys are right\r\n");
    return EFI_SUCCESS;
}
