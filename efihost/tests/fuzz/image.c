/* PE32+ images. */
#include "fuzz.h"

#include "../../src/pe.c"

#define MOST_PAGES 512U

static uint8_t *memory; /* of the image */
static uint64_t memory_size;

EFI_STATUS host_plain_pages(uint32_t kind, uint32_t type, uint64_t pages, uint64_t *at)
{
    (void)kind;
    (void)type;
    if (pages > MOST_PAGES)
        return EFI_OUT_OF_RESOURCES;
    memory_size = pages * PAGE;
    memory = must(aligned_alloc(PAGE, memory_size));
    *at = NUMBER(memory);
    return EFI_SUCCESS;
}

EFI_STATUS host_free_pages(uint64_t at, uint64_t pages)
{
    demand(at == NUMBER(memory) && pages * PAGE == memory_size);
    free(memory);
    memory = NULL;
    return EFI_SUCCESS;
}

void protect_memory(uint64_t address, uint64_t size, int rights)
{
    (void)rights;
    demand(address >= NUMBER(memory) && address - NUMBER(memory) <= memory_size &&
           size <= memory_size - (address - NUMBER(memory)));
}

int LLVMFuzzerTestOneInput(const uint8_t *data, size_t size)
{
    struct image image = {.name = "image"}, peeked = {.name = "image"};
    struct headers headers;

    if (read_headers(data, size, &headers) && headers.size <= MOST_PAGES * PAGE)
        peek_debug_file(data, size, &peeked);
    demand(strlen(peeked.debug_file) < sizeof peeked.debug_file);
    if (load_pe(data, size, &image) == EFI_SUCCESS) {
        demand(image.entry - image.base < image.size);
        demand(image.base + image.size <= NUMBER(memory) + memory_size);
        demand(strlen(image.debug_file) < sizeof image.debug_file);
        apply_rights(&image);
        host_free_pages(image.placed, image.pages);
    } else {
        demand(image_fault()[0] != 0 && memory == NULL);
        free(image.sections);
    }
    return 0;
}
