/* A serial port, whose output goes to a file of the host's and whose input comes from another. */
#include "host.h"

#define INPUT_EMPTY 0x100U
#define OUTPUT_EMPTY 0x200U

static const EFI_GUID serial_guid = {
    0xbb25cf6f, 0xf1d4, 0x11d2, {0x9a, 0x0c, 0x00, 0x90, 0x27, 0x3f, 0xc1, 0xfd}};
static const uint8_t serial_path[] = {2,    1, 12, 0, 0xd0, 0x41, 1, 5,
                                      0,    0, 0,  0, 0x7f, 0xff, 4, 0};
static EFI_SERIAL_IO_MODE mode = {0, 1000000, 115200, 1, 8, 1, 1};
static EFI_SERIAL_IO_MODE *shown; /* what images see of it */
static FILE *output, *input;

static EFI_STATUS EFIAPI reset(EFI_SERIAL_IO_PROTOCOL *this)
{
    SERVICE("SerialIo.Reset", NUMBER(this));
    ANSWER(EFI_SUCCESS);
}

static EFI_STATUS EFIAPI set_attributes(EFI_SERIAL_IO_PROTOCOL *this, uint64_t rate,
                                        uint32_t depth, uint32_t timeout, uint32_t parity,
                                        uint8_t data_bits, uint32_t stop_bits)
{
    SERVICE("SerialIo.SetAttributes", NUMBER(this), rate, depth, timeout);

    mode.BaudRate = rate == 0 ? 115200 : rate;
    mode.ReceiveFifoDepth = depth == 0 ? 1 : depth;
    mode.Timeout = timeout == 0 ? 1000000 : timeout;
    mode.Parity = parity == 0 ? 1 : parity;
    mode.DataBits = data_bits == 0 ? 8 : data_bits;
    mode.StopBits = stop_bits == 0 ? 1 : stop_bits;
    set_structure(shown, &mode, sizeof mode);
    ANSWER(EFI_SUCCESS);
}

static EFI_STATUS EFIAPI set_control(EFI_SERIAL_IO_PROTOCOL *this, uint32_t control)
{
    SERVICE("SerialIo.SetControl", NUMBER(this), control);

    mode.ControlMask = control;
    set_structure(shown, &mode, sizeof mode);
    ANSWER(EFI_SUCCESS);
}

/* Whether there is input left. */
static bool has_input(void)
{
    int letter = input == NULL ? EOF : fgetc(input);

    return letter != EOF && ungetc(letter, input) != EOF;
}

/* All that was written is gone. */
static EFI_STATUS EFIAPI get_control(EFI_SERIAL_IO_PROTOCOL *this, uint32_t *control)
{
    SERVICE("SerialIo.GetControl", NUMBER(this), NUMBER(control));

    if (control == NULL)
        ANSWER(EFI_INVALID_PARAMETER);
    *control = OUTPUT_EMPTY | (has_input() ? 0 : INPUT_EMPTY);
    ANSWER(EFI_SUCCESS);
}

static EFI_STATUS EFIAPI write_bytes(EFI_SERIAL_IO_PROTOCOL *this, UINTN *size, const void *bytes)
{
    SERVICE("SerialIo.Write", NUMBER(this), size == NULL ? 0 : *size, NUMBER(bytes));

    if (size == NULL || bytes == NULL)
        ANSWER(EFI_INVALID_PARAMETER);
    touch(bytes, *size, false);
    fwrite(bytes, 1, *size, output);
    fflush(output);
    ANSWER(EFI_SUCCESS);
}

static EFI_STATUS EFIAPI read_bytes(EFI_SERIAL_IO_PROTOCOL *this, UINTN *size, void *bytes)
{
    SERVICE("SerialIo.Read", NUMBER(this), size == NULL ? 0 : *size, NUMBER(bytes));
    uint8_t *to = bytes;
    UINTN asked, count = 0;

    if (size == NULL || bytes == NULL)
        ANSWER(EFI_INVALID_PARAMETER);
    asked = *size;
    while (count < asked && has_input())
        to[count++] = (uint8_t)fgetc(input);
    *size = count;
    ANSWER(count == asked ? EFI_SUCCESS : EFI_TIMEOUT);
}

/* The names are those of the files, or null. */
void make_serial(const char *to, const char *from)
{
    EFI_SERIAL_IO_PROTOCOL functions = {0x10000,     reset,       set_attributes, set_control,
                                        get_control, write_bytes, read_bytes,     NULL};
    uint64_t handle = 0;
    void *serial, *path;

    if (to == NULL && from == NULL)
        return;
    output = fopen(to == NULL ? "/dev/null" : to, "w");
    if (output == NULL)
        refuse("cannot write %s", to);
    input = from == NULL ? NULL : fopen(from, "r");
    if (from != NULL && input == NULL)
        refuse("cannot read %s", from);
    functions.Mode = shown = need_structure("SerialIo.Mode", &mode, sizeof mode);
    serial = need_structure("SerialIo", &functions, sizeof functions);
    path = machine_copy(serial_path, sizeof serial_path);
    install_one(&handle, &serial_guid, 0, NUMBER(serial));
    install_one(&handle, &device_path_guid, 0, NUMBER(path));
}
