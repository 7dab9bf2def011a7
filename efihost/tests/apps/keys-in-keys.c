/* A function that is notified of a key unregisters the next one and itself, and registers others:
 * the first key is notified to it and to the last one, the second to those that it registered. */
#include "app.h"

static const EFI_GUID text_in_ex_guid = {
    0xdd9e7534, 0x7762, 0x4698, {0x8c, 0x14, 0xf5, 0x85, 0x17, 0xa6, 0x25, 0xaa}};
static EFI_SIMPLE_TEXT_INPUT_EX_PROTOCOL *keys;
static EFI_KEY_DATA letter = {{0, 'k'}, {0, 0}};
static void *first_key, *next_key, *last_key, *made[4];
static unsigned firsts, nexts, lasts, others;

static EFI_STATUS EFIAPI other(EFI_KEY_DATA *key)
{
    (void)key;
    others++;
    return EFI_SUCCESS;
}

static EFI_STATUS EFIAPI first(EFI_KEY_DATA *key)
{
    (void)key;
    firsts++;
    MUST(keys->UnregisterKeyNotify(keys, next_key));
    MUST(keys->UnregisterKeyNotify(keys, first_key));
    for (unsigned i = 0; i < 4; i++)
        MUST(keys->RegisterKeyNotify(keys, &letter, other, &made[i]));
    return EFI_SUCCESS;
}

static EFI_STATUS EFIAPI next(EFI_KEY_DATA *key)
{
    (void)key;
    nexts++;
    return EFI_SUCCESS;
}

static EFI_STATUS EFIAPI last(EFI_KEY_DATA *key)
{
    (void)key;
    lasts++;
    return EFI_SUCCESS;
}

static EFI_STATUS read(void)
{
    EFI_KEY_DATA key;
    UINTN index;

    MUST(boot->WaitForEvent(1, &keys->WaitForKeyEx, &index));
    return keys->ReadKeyStrokeEx(keys, &key);
}

static EFI_STATUS application(void)
{
    MUST(boot->LocateProtocol(&text_in_ex_guid, NULL, (void **)&keys));
    MUST(keys->RegisterKeyNotify(keys, &letter, first, &first_key));
    MUST(keys->RegisterKeyNotify(keys, &letter, next, &next_key));
    MUST(keys->RegisterKeyNotify(keys, &letter, last, &last_key));
    MUST(read());
    if (firsts != 1 || nexts != 0 || lasts != 1 || others != 0)
        return EFI_ABORTED;
    MUST(read());
    if (firsts != 1 || nexts != 0 || lasts != 2 || others != 4)
        return EFI_ABORTED;
    if (keys->UnregisterKeyNotify(keys, first_key) != EFI_INVALID_PARAMETER)
        return EFI_ABORTED;
    for (unsigned i = 0; i < 4; i++)
        MUST(keys->UnregisterKeyNotify(keys, made[i]));
    MUST(keys->UnregisterKeyNotify(keys, last_key));
    print("keys are right\r\n");
    return EFI_SUCCESS;
}
