/* The names of functions, of a .map or an ELF file. */
#include "fuzz.h"

#include "../../src/symbols.c"

struct image *image_at(uint64_t address)
{
    (void)address;
    return NULL;
}

void peek_debug_file(const uint8_t *file, uint64_t length, struct image *image)
{
    (void)file;
    (void)length;
    (void)image;
}

int LLVMFuzzerTestOneInput(const uint8_t *data, size_t size)
{
    struct image image = {.name = "image", .size = 1 << 20};
    uint8_t *bytes = copy_of(data, size);

    read_bytes(&image, bytes, size);
    for (size_t i = 0; i < image.symbol_count; i++) {
        demand(image.symbols[i].offset < image.size);
        demand(i == 0 || image.symbols[i - 1].offset <= image.symbols[i].offset);
        demand(function_at(&image, image.symbols[i].offset) != NULL);
        place_text(&image, image.symbols[i].offset);
    }
    while (image.symbol_count > 0)
        free(image.symbols[--image.symbol_count].name);
    free(image.symbols);
    free(bytes);
    return 0;
}
