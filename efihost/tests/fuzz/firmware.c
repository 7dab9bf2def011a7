/* Firmware volumes, with sections that LZMA packs. */
#include "fuzz.h"

#include "../../src/firmware.c"

#define ROOM ((size_t)1 << 18) /* for what an input unpacks to, so that each takes a short time */

int LLVMFuzzerTestOneInput(const uint8_t *data, size_t size)
{
    uint8_t *bytes = copy_of(data, size);

    unpacked_size = MAX_UNPACKED_SIZE - ROOM;
    too_large = false;
    keep_buffer(bytes);
    read_volumes(bytes, size, MAX_DEPTH);
    demand(unpacked_size <= MAX_UNPACKED_SIZE);
    for (size_t i = 0; i < image_count; i++) {
        size_t length;
        uint8_t *image = firmware_image(images[i].name, &length);

        demand(image != NULL && strlen(images[i].name) < sizeof images[i].name);
        free(image);
    }
    close_firmware();
    return 0;
}
