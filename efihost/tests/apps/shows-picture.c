/* Goes through the modes of the screen, fills it, draws a square, and reads it back. */
#include "app.h"

static const EFI_GUID graphics_guid = {
    0x9042a9de, 0x23dc, 0x4a38, {0x96, 0xfb, 0x7a, 0xde, 0xd0, 0x80, 0x51, 0x6a}};

/* Enters each mode and writes its last pixel into the frame buffer. */
static EFI_STATUS try_modes(EFI_GRAPHICS_OUTPUT_PROTOCOL *it)
{
    EFI_GRAPHICS_OUTPUT_MODE_INFORMATION *mode;
    UINTN size;

    for (uint32_t i = it->Mode->MaxMode; i-- > 0;) {
        uint32_t last;

        MUST(it->QueryMode(it, i, &size, &mode));
        MUST(it->SetMode(it, i));
        last = mode->VerticalResolution * mode->PixelsPerScanLine - 1;
        ((uint32_t *)(uintptr_t)it->Mode->FrameBufferBase)[last] = i;
        if (it->Mode->Info->HorizontalResolution != mode->HorizontalResolution ||
            it->Mode->FrameBufferSize != (last + 1) * sizeof last)
            return EFI_ABORTED;
        MUST(boot->FreePool(mode));
    }
    return it->SetMode(it, it->Mode->MaxMode) == EFI_UNSUPPORTED ? EFI_SUCCESS : EFI_ABORTED;
}

static EFI_STATUS application(void)
{
    static uint32_t square[100], back[100];
    EFI_GRAPHICS_OUTPUT_PROTOCOL *it;
    EFI_GRAPHICS_OUTPUT_MODE_INFORMATION *mode;
    uint32_t blue = 0x000000ff;
    UINTN size;

    for (unsigned i = 0; i < 100; i++)
        square[i] = 0x00ff0000;
    MUST(boot->LocateProtocol(&graphics_guid, NULL, (void **)&it));
    MUST(try_modes(it));
    MUST(it->QueryMode(it, 0, &size, &mode));
    if (mode->HorizontalResolution != 800 || mode->VerticalResolution != 600)
        return EFI_ABORTED;
    MUST(boot->FreePool(mode));
    MUST(it->Blt(it, &blue, BLT_VIDEO_FILL, 0, 0, 0, 0, 800, 600, 0));
    MUST(it->Blt(it, square, BLT_BUFFER_TO_VIDEO, 0, 0, 20, 30, 10, 10, 0));
    MUST(it->Blt(it, NULL, BLT_VIDEO_TO_VIDEO, 20, 30, 21, 31, 10, 10, 0));
    MUST(it->Blt(it, back, BLT_VIDEO_TO_BUFFER, 21, 31, 0, 0, 10, 10, 0));
    if (it->Blt(it, &blue, BLT_VIDEO_FILL, 0, 0, 790, 0, 11, 1, 0) != EFI_INVALID_PARAMETER)
        return EFI_ABORTED;
    return back[99] == 0x00ff0000 ? EFI_SUCCESS : EFI_ABORTED;
}
