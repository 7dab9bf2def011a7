/* PE32+ images for x86-64: their sections at their places, relocations, and what each section's
 * memory may be used for. */
#include "host.h"

#include <stdlib.h>
#include <string.h>
#include <sys/mman.h>

#define RESOURCES 2U
#define RELOCATIONS 5U
#define DEBUG 6U
#define DEBUG_ENTRY 28U
#define CODEVIEW 2U
#define STRIPPED 1U
#define NX_COMPAT 0x100U
#define MAX_IMAGE_SIZE (1ULL << 30)

struct headers {
    const uint8_t *file, *header, *optional, *sections;
    uint64_t length, image_base, size;
    uint32_t alignment, header_size, directories;
    uint16_t section_count, flags;
};

static char fault[96];

/* Why the last image was not loaded; where it was put into memory, the only cause that is left. */
const char *image_fault(void)
{
    return fault;
}

static bool say(const char *why)
{
    snprintf(fault, sizeof fault, "%s", why);
    return false;
}

static uint16_t get16(const uint8_t *at)
{
    return (uint16_t)(at[0] | at[1] << 8);
}

static uint32_t get32(const uint8_t *at)
{
    return get16(at) | (uint32_t)get16(at + 2) << 16;
}

static uint64_t get64(const uint8_t *at)
{
    return get32(at) | (uint64_t)get32(at + 4) << 32;
}

/* Whether an image is for this processor. */
static bool is_for_x64(uint16_t machine)
{
    static const struct {
        uint16_t number;
        const char *name;
    } others[] = {{0x14c, "IA32"},    {0x1c2, "ARM"},      {0xaa64, "AArch64"},
                  {0xebc, "EBC"},     {0x5064, "RISC-V"},  {0x6264, "LoongArch"}};

    if (machine == 0x8664)
        return true;
    snprintf(fault, sizeof fault, "it is for another processor, 0x%x", machine);
    for (size_t i = 0; i < LENGTH(others); i++)
        if (others[i].number == machine)
            snprintf(fault, sizeof fault, "it is for %s", others[i].name);
    return false;
}

/* Finds the parts of the headers; false where there are none, or they are for another processor. */
static bool find_headers(const uint8_t *file, uint64_t length, struct headers *to)
{
    uint32_t start;

    if (length < 64 || file[0] != 'M' || file[1] != 'Z')
        return say("it is no PE image");
    start = get32(file + 60);
    if (start > length || length - start < 24 + 112 || memcmp(file + start, "PE\0\0", 4) != 0)
        return say("it is no PE image, or cut off in its headers");
    to->file = file;
    to->length = length;
    to->header = file + start;
    to->optional = to->header + 24;
    if (!is_for_x64(get16(to->header + 4)))
        return false;
    return get16(to->optional) == 0x20b || say("it is no PE32+ image");
}

static bool read_headers(const uint8_t *file, uint64_t length, struct headers *to)
{
    if (!find_headers(file, length, to))
        return false;
    to->section_count = get16(to->header + 6);
    to->flags = get16(to->header + 22);
    to->sections = to->optional + get16(to->header + 20);
    to->image_base = get64(to->optional + 24);
    to->alignment = get32(to->optional + 32);
    to->size = get32(to->optional + 56);
    to->header_size = get32(to->optional + 60);
    to->directories = get32(to->optional + 108);
    if ((uint64_t)(to->sections - file) + 40ULL * to->section_count > length ||
        to->header_size > length || to->header_size > to->size)
        return say("its headers go past its end");
    if (to->size == 0 || to->size > MAX_IMAGE_SIZE || get32(to->optional + 16) >= to->size)
        return say("its size or its entry point is out of range");
    return (to->alignment & (to->alignment - 1)) == 0 ||
           say("its alignment is no power of two");
}

/* A directory of the image, its place and its size; false where it has none or it lies outside. */
static bool directory(const struct headers *from, unsigned index, uint32_t *at, uint32_t *size)
{
    const uint8_t *entry = from->optional + 112 + 8 * index;

    if (index >= from->directories || entry + 8 > from->sections)
        return false;
    *at = get32(entry);
    *size = get32(entry + 4);
    return *size != 0 && (uint64_t)*at + *size <= from->size;
}

static uint32_t code_type(uint16_t subsystem)
{
    if (subsystem == 10)
        return RAFKUDIN_LOADER_CODE;
    return subsystem == 11 ? RAFKUDIN_BOOT_SERVICES_CODE : RAFKUDIN_RUNTIME_SERVICES_CODE;
}

/* Places the image's pages; one that can't be relocated goes where it says. */
static EFI_STATUS place(const struct headers *from, struct image *image)
{
    uint32_t type = code_type(image->subsystem);
    uint64_t alignment = from->alignment > PAGE ? from->alignment : PAGE;
    uint64_t at = from->image_base;
    EFI_STATUS status;

    image->sections = calloc(from->section_count + 1U, sizeof *image->sections);
    if (image->sections == NULL)
        return EFI_OUT_OF_RESOURCES;
    image->size = from->size;
    image->pages = (from->size + PAGE - 1) / PAGE;
    if ((from->flags & STRIPPED) != 0) {
        status = host_plain_pages(RAFKUDIN_AT_ADDRESS, type, image->pages, &at);
        if (status != EFI_SUCCESS)
            snprintf(fault, sizeof fault, "it has no relocations, and no memory is free at 0x%lx",
                     at);
        image->placed = image->base = at;
        return status;
    }
    image->pages += (alignment - PAGE) / PAGE;
    status = host_plain_pages(RAFKUDIN_ANY_PAGES, type, image->pages, &at);
    if (status != EFI_SUCCESS)
        snprintf(fault, sizeof fault, "the machine has no %lu free pages in a row", image->pages);
    image->placed = at;
    image->base = (at + alignment - 1) / alignment * alignment;
    return status;
}

/* Copies the sections; false where one lies outside the file or the image. */
static bool copy_sections(const struct headers *from, struct image *image)
{
    uint8_t *to = POINTER(image->base);

    memcpy(to, from->file, from->header_size);
    for (unsigned i = 0; i < from->section_count; i++) {
        const uint8_t *header = from->sections + 40 * i;
        uint64_t virtual_size = get32(header + 8), at = get32(header + 12);
        uint64_t size = get32(header + 16), start = get32(header + 20);
        uint32_t flags = get32(header + 36);

        if (virtual_size != 0 && size > virtual_size)
            size = virtual_size;
        if (at > from->size || size > from->size - at || virtual_size > from->size - at)
            return say("a section lies outside of it");
        if (size != 0 && (start > from->length || size > from->length - start))
            return say("it is cut off in a section");
        memcpy(to + at, from->file + start, size);
        image->sections[image->section_count++] =
            (struct section){at, virtual_size == 0 ? size : virtual_size,
                             (flags & 0x80000000U) != 0, (flags & 0x20000000U) != 0};
    }
    return true;
}

/* Applies one block of relocations, all of a page; false where it is none. */
static bool relocate_page(struct image *image, const uint8_t *block, uint32_t size, uint64_t delta)
{
    uint32_t page = get32(block);
    uint8_t *to = POINTER(image->base);

    for (uint32_t i = 8; i + 2 <= size; i += 2) {
        uint16_t entry = get16(block + i);
        uint64_t at = (uint64_t)page + (entry & 4095), whole;
        uint32_t half;

        if (entry >> 12 == 0)
            continue;
        if (at + 8 > image->size)
            return false;
        if (entry >> 12 == 10) {
            memcpy(&whole, to + at, 8);
            whole += delta;
            memcpy(to + at, &whole, 8);
        } else if (entry >> 12 == 3) {
            memcpy(&half, to + at, 4);
            half += (uint32_t)delta;
            memcpy(to + at, &half, 4);
        } else {
            return false;
        }
    }
    return true;
}

static bool relocate(const struct headers *from, struct image *image)
{
    uint64_t delta = image->base - from->image_base;
    uint32_t at, size, done = 0;

    if (delta == 0 || !directory(from, RELOCATIONS, &at, &size))
        return true;
    while (done + 8 <= size) {
        const uint8_t *block = (const uint8_t *)POINTER(image->base) + at + done;
        uint32_t block_size = get32(block + 4);

        if (block_size == 0)
            return true;
        if (block_size < 8 || block_size > size - done ||
            !relocate_page(image, block, block_size, delta))
            return say("its relocations are damaged");
        done += block_size;
    }
    return true;
}

/* An entry of a directory of resources: that of a name where there is one, or the first. */
static const uint8_t *resource_entry(const uint8_t *start, uint32_t size, uint32_t at,
                                     const char *name)
{
    uint32_t count, length = name == NULL ? 0 : (uint32_t)strlen(name);

    if (size < 24 || at > size - 16)
        return NULL;
    count = (uint32_t)get16(start + at + 12) + get16(start + at + 14);
    for (at += 16; count > 0 && at <= size - 8; at += 8, count--) {
        uint32_t text = get32(start + at) & 0x7fffffff, i = 0;

        if (name == NULL)
            return start + at;
        if (get32(start + at) >> 31 == 0 || text > size - 2 - 2 * length ||
            get16(start + text) != length)
            continue;
        while (name[i] != 0 && get16(start + text + 2 + 2 * i) == (uint16_t)name[i])
            i++;
        if (name[i] == 0)
            return start + at;
    }
    return NULL;
}

/* The HII packages among an image's resources, below the type "HII", or NULL. */
static void *find_packages(const struct headers *from, const struct image *image)
{
    const uint8_t *start, *entry = NULL;
    uint32_t at, size, place = 0;

    if (!directory(from, RESOURCES, &at, &size))
        return NULL;
    start = (const uint8_t *)POINTER(image->base) + at;
    for (unsigned level = 0; level < 3; level++) {
        entry = resource_entry(start, size, place, level == 0 ? "HII" : NULL);
        if (entry == NULL)
            return NULL;
        place = get32(entry + 4) & 0x7fffffff;
    }
    if (size < 16 || place > size - 16 || get32(start + place) >= image->size)
        return NULL;
    return POINTER(image->base + get32(start + place));
}

/* The file that the first debug entry with a name names, which is empty where there is none. */
static void find_debug_file(const struct headers *from, struct image *image)
{
    const uint8_t *entry, *text;
    uint32_t at, size, start, length, front;

    if (!directory(from, DEBUG, &at, &size))
        return;
    entry = (const uint8_t *)POINTER(image->base) + at;
    while (size >= DEBUG_ENTRY && get32(entry + 12) != CODEVIEW) {
        entry += DEBUG_ENTRY;
        size -= DEBUG_ENTRY;
    }
    if (size < DEBUG_ENTRY)
        return;
    length = get32(entry + 16);
    start = get32(entry + 20);
    if (start > image->size || length > image->size - start)
        return;
    text = (const uint8_t *)POINTER(image->base) + start;
    front = length > 24 && memcmp(text, "RSDS", 4) == 0 ? 24 : 16;
    if (length > front && (front == 24 || memcmp(text, "NB10", 4) == 0) &&
        length - front < sizeof image->debug_file)
        memcpy(image->debug_file, text + front, length - front);
}

/* How many sections a page has a byte of, how many of them are for writing and how many for
 * execution; first as what each page has more than the one before. */
struct cover {
    int32_t all, writable, executable;
};

static struct cover *cover_pages(const struct image *image, size_t pages)
{
    struct cover *cover = calloc(pages + 1, sizeof *cover);

    if (cover == NULL)
        return NULL;
    for (size_t i = 0; i < image->section_count; i++) {
        const struct section *section = &image->sections[i];
        size_t first = section->at / PAGE, end = (section->at + section->size + PAGE - 1) / PAGE;

        if (section->size == 0)
            continue;
        cover[first].all++;
        cover[end].all--;
        cover[first].writable += section->writable;
        cover[end].writable -= section->writable;
        cover[first].executable += section->executable;
        cover[end].executable -= section->executable;
    }
    for (size_t i = 1; i < pages; i++) {
        cover[i].all += cover[i - 1].all;
        cover[i].writable += cover[i - 1].writable;
        cover[i].executable += cover[i - 1].executable;
    }
    return cover;
}

static int rights_of(const struct cover *page)
{
    if (page->all == 0)
        return PROT_READ | PROT_WRITE;
    return PROT_READ | (page->writable > 0 ? PROT_WRITE : 0) |
           (page->executable > 0 ? PROT_EXEC : 0);
}

/* Whether sections of different rights share a page. */
static bool is_mixed(const struct cover *page)
{
    return (page->writable != 0 && page->writable != page->all) ||
           (page->executable != 0 && page->executable != page->all);
}

/* Each page may be used for what the flags of the sections on it say, one for all of them. An image
 * without sections, or with more than there is memory to look at, may use all of its memory in every
 * way. */
void apply_rights(struct image *image)
{
    size_t pages = (image->size + PAGE - 1) / PAGE, mixed = 0;
    struct cover *cover = image->section_count == 0 ? NULL : cover_pages(image, pages);

    if (cover == NULL)
        protect_memory(image->base, image->size, PROT_READ | PROT_WRITE | PROT_EXEC);
    for (size_t first = 0, end; cover != NULL && first < pages; first = end) {
        int rights = rights_of(&cover[first]);

        for (end = first; end < pages && rights_of(&cover[end]) == rights; end++)
            mixed += is_mixed(&cover[end]);
        protect_memory(image->base + first * PAGE, (end - first) * PAGE, rights);
    }
    if (host.checks && mixed > 0)
        fprintf(stderr,
                "efihost: %s: sections of different rights share %zu of its %zu pages, on which "
                "these are not checked\n",
                image->name, mixed, pages);
    free(cover);
    free(image->sections);
    image->sections = NULL;
    image->section_count = 0;
}

/* Puts an image into the machine's memory; on an error it keeps nothing there. */
EFI_STATUS load_pe(const uint8_t *file, uint64_t length, struct image *image)
{
    struct headers headers;
    EFI_STATUS status;

    if (!read_headers(file, length, &headers))
        return EFI_UNSUPPORTED;
    image->subsystem = get16(headers.optional + 68);
    if (image->subsystem < 10 || image->subsystem > 12) {
        snprintf(fault, sizeof fault, "its subsystem is %u, which is none of UEFI's",
                 image->subsystem);
        return EFI_UNSUPPORTED;
    }
    image->nx_compatible = (get16(headers.optional + 70) & NX_COMPAT) != 0;
    status = place(&headers, image);
    if (status != EFI_SUCCESS)
        return status;
    memset(POINTER(image->placed), 0, image->pages * PAGE);
    if (!copy_sections(&headers, image) || !relocate(&headers, image)) {
        host_free_pages(image->placed, image->pages);
        return EFI_LOAD_ERROR;
    }
    image->entry = image->base + get32(headers.optional + 16);
    image->packages = find_packages(&headers, image);
    find_debug_file(&headers, image);
    say("the machine has no memory for what goes with it");
    return EFI_SUCCESS;
}

/* Reads what file the debug entry of an image names, without loading it. */
void peek_debug_file(const uint8_t *file, uint64_t length, struct image *image)
{
    struct headers headers;
    void *bytes;

    if (!read_headers(file, length, &headers))
        return;
    bytes = must(calloc(1, headers.size));
    image->sections = must(calloc(headers.section_count + 1U, sizeof *image->sections));
    image->size = headers.size;
    image->base = NUMBER(bytes);
    if (copy_sections(&headers, image))
        find_debug_file(&headers, image);
    free(image->sections);
    free(bytes);
}
