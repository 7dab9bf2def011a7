/* Keys as both protocols of text input have them, and those that are notified. */
#include "host.h"

#include <stdlib.h>
#include <string.h>

#define CONTROL_PRESSED 0xcU /* the left or the right key, among the shift states */
#define MARK 0x59454b0000000000ULL /* a notification's number is above it, and no address can be */

static const EFI_GUID text_in_guid = {
    0x387477c1, 0x69c7, 0x11d2, {0x8e, 0x39, 0x00, 0xa0, 0xc9, 0x69, 0x72, 0x3b}};
static const EFI_GUID text_in_ex_guid = {
    0xdd9e7534, 0x7762, 0x4698, {0x8c, 0x14, 0xf5, 0x85, 0x17, 0xa6, 0x25, 0xaa}};

/* Those that were registered first come first. To an image each is a number that is never used
 * again. */
static struct notified {
    EFI_KEY_DATA key;
    EFI_KEY_NOTIFY_FUNCTION notify;
    uint64_t number;
    struct notified *next;
} *notified_keys;
static uint64_t notified_numbers;

static EFI_STATUS EFIAPI reset_in(EFI_SIMPLE_TEXT_INPUT_PROTOCOL *this, BOOLEAN extended)
{
    SERVICE("SimpleTextInput.Reset", NUMBER(this), extended);
    ANSWER(EFI_SUCCESS);
}

/* An image that asks again and again, without waiting, is kept from burning a processor. */
static EFI_STATUS read_any_key(EFI_INPUT_KEY *key)
{
    static unsigned in_vain;

    dispatch();
    if (next_key(key)) {
        in_vain = 0;
        return EFI_SUCCESS;
    }
    if (++in_vain > 50)
        idle(true);
    return EFI_NOT_READY;
}

static EFI_STATUS EFIAPI read_key(EFI_SIMPLE_TEXT_INPUT_PROTOCOL *this, EFI_INPUT_KEY *key)
{
    SERVICE("ReadKeyStroke", NUMBER(this), NUMBER(key));

    ANSWER(key == NULL ? EFI_INVALID_PARAMETER : read_any_key(key));
}

static EFI_STATUS EFIAPI reset_in_ex(EFI_SIMPLE_TEXT_INPUT_EX_PROTOCOL *this, BOOLEAN extended)
{
    SERVICE("SimpleTextInputEx.Reset", NUMBER(this), extended);
    ANSWER(EFI_SUCCESS);
}

static EFI_STATUS EFIAPI read_key_ex(EFI_SIMPLE_TEXT_INPUT_EX_PROTOCOL *this, EFI_KEY_DATA *key)
{
    SERVICE("ReadKeyStrokeEx", NUMBER(this), NUMBER(key));

    if (key == NULL)
        ANSWER(EFI_INVALID_PARAMETER);
    *key = (EFI_KEY_DATA){0};
    ANSWER(read_any_key(&key->Key));
}

static EFI_STATUS EFIAPI set_state(EFI_SIMPLE_TEXT_INPUT_EX_PROTOCOL *this, uint8_t *state)
{
    SERVICE("SetState", NUMBER(this), NUMBER(state));
    ANSWER(EFI_SUCCESS);
}

/* ---- Keys that are notified ---- */

static EFI_STATUS EFIAPI register_key(EFI_SIMPLE_TEXT_INPUT_EX_PROTOCOL *this, EFI_KEY_DATA *key,
                                      EFI_KEY_NOTIFY_FUNCTION notify, void **handle)
{
    SERVICE("RegisterKeyNotify", NUMBER(this), NUMBER(key), NUMBER(notify));
    struct notified *it, **end = &notified_keys;

    if (key == NULL || notify == NULL || handle == NULL)
        ANSWER(EFI_INVALID_PARAMETER);
    it = malloc(sizeof *it);
    if (it == NULL)
        ANSWER(EFI_OUT_OF_RESOURCES);
    *it = (struct notified){*key, notify, ++notified_numbers, NULL};
    while (*end != NULL)
        end = &(*end)->next;
    *end = it;
    *handle = POINTER(MARK + it->number);
    ANSWER(EFI_SUCCESS);
}

static EFI_STATUS EFIAPI unregister_key(EFI_SIMPLE_TEXT_INPUT_EX_PROTOCOL *this, void *handle)
{
    SERVICE("UnregisterKeyNotify", NUMBER(this), NUMBER(handle));

    for (struct notified **link = &notified_keys; *link != NULL; link = &(*link)->next)
        if (MARK + (*link)->number == NUMBER(handle)) {
            struct notified *gone = *link;

            *link = gone->next;
            free(gone);
            ANSWER(EFI_SUCCESS);
        }
    ANSWER(EFI_INVALID_PARAMETER);
}

/* A letter that is asked for with the control key is one of the first 26 of a terminal. */
static bool is_key(const EFI_KEY_DATA *wanted, const EFI_INPUT_KEY *key)
{
    CHAR16 letter = wanted->Key.UnicodeChar;

    if ((wanted->KeyState.KeyShiftState & CONTROL_PRESSED) != 0 && letter >= '@' && letter < 127)
        letter &= 0x1f;
    return letter == key->UnicodeChar && wanted->Key.ScanCode == key->ScanCode;
}

/* The first notification that is wanted for a key, of those with numbers above one. */
static const struct notified *next_notified(const EFI_INPUT_KEY *key, uint64_t above)
{
    const struct notified *it = notified_keys;

    while (it != NULL && (it->number <= above || !is_key(&it->key, key)))
        it = it->next;
    return it;
}

/* A key is notified when it comes, and stays to be read. A function that is called may register and
 * unregister any: what it registers is for the next key. */
void notify_keys(void)
{
    const uint64_t last = notified_numbers;
    const EFI_TPL before = host.tpl;
    const struct notified *it;
    uint64_t number = 0;
    EFI_INPUT_KEY key;

    if (notified_keys == NULL || host.tpl >= TPL_CALLBACK || !key_comes(&key))
        return;
    while ((it = next_notified(&key, number)) != NULL && it->number <= last) {
        EFI_KEY_DATA data = it->key;

        number = it->number;
        host.tpl = TPL_CALLBACK;
        it->notify(&data);
    }
    host.tpl = before;
}

void make_text_in(void)
{
    static const uint8_t path[] = {2,    1, 12, 0, 0xd0, 0x41, 3, 5,
                                   0,    0, 0,  0, 0x7f, 0xff, 4, 0};
    const EFI_EVENT key = make_key_event();
    const EFI_SIMPLE_TEXT_INPUT_PROTOCOL functions = {reset_in, read_key, key};
    const EFI_SIMPLE_TEXT_INPUT_EX_PROTOCOL functions_ex = {
        reset_in_ex, read_key_ex, key, set_state, register_key, unregister_key};
    void *text_in = need_structure("SimpleTextInput", &functions, sizeof functions);
    void *text_in_ex = need_structure("SimpleTextInputEx", &functions_ex, sizeof functions_ex);
    void *shown_path = machine_copy(path, sizeof path);
    uint64_t in = 0;

    install_one(&in, &text_in_guid, 0, NUMBER(text_in));
    install_one(&in, &text_in_ex_guid, 0, NUMBER(text_in_ex));
    install_one(&in, &device_path_guid, 0, NUMBER(shown_path));
    host.table->ConsoleInHandle = HANDLE(in);
    host.table->ConIn = text_in;
}
