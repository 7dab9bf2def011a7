/* A graphics output in memory, where --picture asks for it; the picture is saved at the end, and when
 * the process gets SIGUSR1. */
#include "host.h"

#include <stdlib.h>
#include <string.h>
#include <sys/mman.h>
#include <unistd.h>

#define MAX_PIXELS (1920U * 1080U)

static const EFI_GUID graphics_guid = {
    0x9042a9de, 0x23dc, 0x4a38, {0x96, 0xfb, 0x7a, 0xde, 0xd0, 0x80, 0x51, 0x6a}};
static const struct {
    uint32_t width, height;
} sizes[] = {{800, 600}, {640, 480}, {1024, 768}, {1280, 720}, {1280, 1024}, {1920, 1080}};
/* What the host goes by, and what images see of it. */
static EFI_GRAPHICS_OUTPUT_MODE_INFORMATION information, *shown_information;
static EFI_GRAPHICS_OUTPUT_PROTOCOL_MODE mode = {
    LENGTH(sizes), 0, NULL, sizeof information, 0, 0}, *shown;
static uint32_t *pixels;
static FILE *picture;

static EFI_GRAPHICS_OUTPUT_MODE_INFORMATION information_of(uint32_t number)
{
    return (EFI_GRAPHICS_OUTPUT_MODE_INFORMATION){
        0, sizes[number].width, sizes[number].height, 1, {0}, sizes[number].width};
}

static EFI_STATUS EFIAPI query_mode(EFI_GRAPHICS_OUTPUT_PROTOCOL *this, uint32_t number,
                                    UINTN *size, EFI_GRAPHICS_OUTPUT_MODE_INFORMATION **to)
{
    SERVICE("GraphicsOutput.QueryMode", NUMBER(this), number);
    EFI_GRAPHICS_OUTPUT_MODE_INFORMATION it;
    void *block = NULL;
    EFI_STATUS status;

    if (number >= LENGTH(sizes) || size == NULL || to == NULL)
        ANSWER(EFI_INVALID_PARAMETER);
    status = host_pool(RAFKUDIN_BOOT_SERVICES_DATA, sizeof information, &block);
    if (status != EFI_SUCCESS)
        ANSWER(status);
    it = information_of(number);
    *to = memcpy(block, &it, sizeof it);
    *size = sizeof it;
    ANSWER(EFI_SUCCESS);
}

static void enter_mode(uint32_t number)
{
    mode.Mode = number;
    information = information_of(number);
    mode.FrameBufferSize = (UINTN)information.HorizontalResolution *
                           information.VerticalResolution * sizeof *pixels;
    memset(pixels, 0, mode.FrameBufferSize);
    set_structure(shown_information, &information, sizeof information);
    set_structure(shown, &mode, sizeof mode);
}

static EFI_STATUS EFIAPI set_mode(EFI_GRAPHICS_OUTPUT_PROTOCOL *this, uint32_t number)
{
    SERVICE("GraphicsOutput.SetMode", NUMBER(this), number);

    if (number >= LENGTH(sizes))
        ANSWER(EFI_UNSUPPORTED);
    enter_mode(number);
    ANSWER(EFI_SUCCESS);
}

/* A rectangle lies on the screen. */
static bool on_screen(UINTN x, UINTN y, UINTN width, UINTN height)
{
    UINTN columns = information.HorizontalResolution, rows = information.VerticalResolution;

    return x <= columns && y <= rows && width <= columns - x && height <= rows - y;
}

/* A rectangle of a buffer whose rows have this many pixels ends at an address that there may be. */
static bool in_addresses(const uint32_t *buffer, const UINTN place[2], const UINTN size[2],
                         UINTN row)
{
    UINTN last, bytes, end;

    return !__builtin_add_overflow(place[1], size[1], &last) &&
           !__builtin_mul_overflow(last, row, &last) &&
           !__builtin_add_overflow(last, place[0], &last) &&
           !__builtin_add_overflow(last, size[0], &last) &&
           !__builtin_mul_overflow(last, sizeof *buffer, &bytes) &&
           !__builtin_add_overflow(NUMBER(buffer), bytes, &end);
}

static EFI_STATUS EFIAPI transfer(EFI_GRAPHICS_OUTPUT_PROTOCOL *this, uint32_t *buffer,
                                  uint32_t operation, UINTN from_x, UINTN from_y, UINTN to_x,
                                  UINTN to_y, UINTN width, UINTN height, UINTN delta)
{
    SERVICE("GraphicsOutput.Blt", NUMBER(this), NUMBER(buffer), operation, delta);
    UINTN row = delta == 0 ? width : delta / 4, screen_row = information.PixelsPerScanLine;
    const UINTN from_place[2] = {from_x, from_y}, to_place[2] = {to_x, to_y};
    const UINTN size[2] = {width, height};

    if (operation > BLT_VIDEO_TO_VIDEO || width == 0 || height == 0 ||
        (buffer == NULL && operation != BLT_VIDEO_TO_VIDEO) ||
        (operation != BLT_VIDEO_TO_BUFFER && !on_screen(to_x, to_y, width, height)) ||
        ((operation == BLT_VIDEO_TO_BUFFER || operation == BLT_VIDEO_TO_VIDEO) &&
         !on_screen(from_x, from_y, width, height)) ||
        (operation == BLT_VIDEO_TO_BUFFER && !in_addresses(buffer, to_place, size, row)) ||
        (operation == BLT_BUFFER_TO_VIDEO && !in_addresses(buffer, from_place, size, row)))
        ANSWER(EFI_INVALID_PARAMETER);
    for (UINTN i = 0; i < height; i++) {
        UINTN y = operation == BLT_VIDEO_TO_VIDEO && to_y > from_y ? height - 1 - i : i;
        uint32_t *to = operation == BLT_VIDEO_TO_BUFFER
                           ? buffer + (to_y + y) * row + to_x
                           : pixels + (to_y + y) * screen_row + to_x;
        const uint32_t *from = operation == BLT_BUFFER_TO_VIDEO
                                   ? buffer + (from_y + y) * row + from_x
                                   : pixels + (from_y + y) * screen_row + from_x;

        if (operation == BLT_VIDEO_FILL)
            for (UINTN x = 0; x < width; x++)
                to[x] = *buffer;
        else {
            touch(from, width * 4, false);
            touch(to, width * 4, true);
            memmove(to, from, width * 4);
        }
    }
    ANSWER(EFI_SUCCESS);
}

static void install_graphics(void)
{
    EFI_GRAPHICS_OUTPUT_PROTOCOL functions = {query_mode, set_mode, transfer, NULL};
    uint64_t out = NUMBER(host.table->ConsoleOutHandle);
    void *graphics;

    mode.Info = shown_information =
        need_structure("GraphicsOutput.Mode.Info", &information, sizeof information);
    functions.Mode = shown = need_structure("GraphicsOutput.Mode", &mode, sizeof mode);
    graphics = need_structure("GraphicsOutput", &functions, sizeof functions);
    enter_mode(0);
    install_one(&out, &graphics_guid, 0, NUMBER(graphics));
}

/* The frame buffer lies below 4 GiB where the machine has nothing there. */
void make_graphics(void)
{
    int flags = MAP_PRIVATE | MAP_ANONYMOUS | MAP_NORESERVE;
    size_t size = MAX_PIXELS * sizeof *pixels;
    void *at = MAP_FAILED;

    if (host.options.picture == NULL)
        return;
    picture = fopen(host.options.picture, "wb");
    if (picture == NULL)
        refuse("cannot write %s", host.options.picture);
    if (machine_range_at(0xc0000000) == NULL)
        at = mmap(POINTER(0xc0000000), size, PROT_READ | PROT_WRITE,
                  flags | MAP_FIXED_NOREPLACE, -1, 0);
    if (at == MAP_FAILED)
        at = mmap(NULL, size, PROT_READ | PROT_WRITE, flags, -1, 0);
    if (at == MAP_FAILED)
        refuse("no memory for the screen");
    pixels = at;
    mode.FrameBufferBase = NUMBER(at);
    install_graphics();
}

void save_picture(void)
{
    if (picture == NULL || ftruncate(fileno(picture), 0) != 0)
        return;
    rewind(picture);
    write_picture(picture, pixels, information.HorizontalResolution,
                  information.VerticalResolution);
    fflush(picture);
}
