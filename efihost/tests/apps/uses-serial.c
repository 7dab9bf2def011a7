/* Writes what it reads from the serial port, until nothing comes any more. */
#include "app.h"

static const EFI_GUID serial_guid = {
    0xbb25cf6f, 0xf1d4, 0x11d2, {0x9a, 0x0c, 0x00, 0x90, 0x27, 0x3f, 0xc1, 0xfd}};

static EFI_STATUS application(void)
{
    EFI_SERIAL_IO_PROTOCOL *port;
    uint32_t control = 0;
    UINTN size = 1;
    char letter;

    MUST(boot->LocateProtocol(&serial_guid, NULL, (void **)&port));
    for (;;) {
        MUST(port->GetControl(port, &control));
        if ((control & 0x100) != 0)
            break;
        MUST(port->Read(port, &size, &letter));
        MUST(port->Write(port, &size, &letter));
    }
    return port->Read(port, &size, &letter) == EFI_TIMEOUT && size == 0 ? EFI_SUCCESS
                                                                        : EFI_ABORTED;
}
