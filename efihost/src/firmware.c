/* The images of a firmware's file, by their names, for --firmware: firmware volumes hold files,
 * files hold sections, and a section that is compressed holds sections again, with volumes in
 * them. */
#include "host.h"

#include <errno.h>
#include <stdlib.h>
#include <string.h>

#define MAX_DEPTH 8U
#define MAX_UNPACKED_SIZE ((size_t)128 << 20) /* of all sections together */
#define VOLUME_HEADER 56U
#define FILE_HEADER 24U
#define PADDING 0xf0
#define LARGE 1U

enum kind { BY_GUID = 2, PE32 = 0x10, NAME = 0x15, VOLUME = 0x17 };

static const EFI_GUID lzma_guid = {
    0xee4e5898, 0x3914, 0x4259, {0x9d, 0x6e, 0xdc, 0x7b, 0xd7, 0x94, 0x03, 0xcf}};

static struct firmware_image {
    char name[64];
    uint8_t *bytes;
    size_t length;
} *images;
static size_t image_count;
static uint8_t **buffers; /* in which the images lie */
static size_t buffer_count;
static size_t unpacked_size; /* of all sections, those that are damaged among them */
static bool too_large;

/* What is found in one file: its image and its name. */
struct contents {
    uint8_t *image;
    size_t length;
    char name[64];
};

static void read_volumes(uint8_t *bytes, size_t count, unsigned depth);

static void keep_buffer(uint8_t *bytes)
{
    buffers = must(realloc(buffers, (buffer_count + 1) * sizeof *buffers));
    buffers[buffer_count++] = bytes;
}

static uint64_t number(const uint8_t *at, unsigned bytes)
{
    uint64_t number = 0;

    while (bytes-- > 0)
        number = number << 8 | at[bytes];
    return number;
}

static void read_sections(uint8_t *bytes, size_t count, struct contents *to, unsigned depth);

/* A section whose GUID says how it is packed: by LZMA, or else as it is. */
static void read_packed(uint8_t *bytes, size_t count, size_t header, struct contents *to,
                        unsigned depth)
{
    size_t start = count < header + 20 ? count : number(bytes + header + 16, 2);
    uint64_t length;
    uint8_t *unpacked;

    if (start >= count)
        return;
    if (!guid_equal(bytes + header, &lzma_guid)) {
        read_sections(bytes + start, count - start, to, depth);
        return;
    }
    length = lzma_size(bytes + start, count - start);
    if (length > MAX_UNPACKED_SIZE - unpacked_size) {
        too_large = true;
        return;
    }
    unpacked_size += length;
    unpacked = lzma_decode(bytes + start, count - start);
    if (unpacked == NULL)
        return;
    keep_buffer(unpacked);
    read_sections(unpacked, (size_t)length, to, depth);
}

static void read_section(uint8_t *bytes, size_t count, size_t header, struct contents *to,
                         unsigned depth)
{
    switch (bytes[3]) {
    case BY_GUID:
        read_packed(bytes, count, header, to, depth);
        break;
    case PE32:
        to->image = bytes + header;
        to->length = count - header;
        break;
    case NAME:
        for (size_t i = 0; i + 1 < sizeof to->name && header + 2 * i + 1 < count; i++)
            to->name[i] = (char)bytes[header + 2 * i];
        break;
    case VOLUME:
        read_volumes(bytes + header, count - header, depth);
        break;
    }
}

static void read_sections(uint8_t *bytes, size_t count, struct contents *to, unsigned depth)
{
    size_t at = 0;

    while (depth > 0 && at + 8 <= count) {
        size_t size = number(bytes + at, 3), header = size == 0xffffff ? 8 : 4;

        if (header == 8)
            size = number(bytes + at + 4, 4);
        if (size < header || size > count - at)
            return;
        read_section(bytes + at, size, header, to, depth - 1);
        at += (size + 3) & ~(size_t)3;
    }
}

static void read_file_of_volume(uint8_t *bytes, size_t count, unsigned depth)
{
    struct contents contents = {NULL, 0, {0}};
    struct firmware_image *image;

    read_sections(bytes, count, &contents, depth);
    if (contents.image == NULL || contents.name[0] == 0)
        return;
    images = must(realloc(images, (image_count + 1) * sizeof *images));
    image = &images[image_count++];
    memcpy(image->name, contents.name, sizeof image->name);
    image->bytes = contents.image;
    image->length = contents.length;
}

/* The files of a volume, one behind the other, up to the first that is none. */
static void read_volume(uint8_t *bytes, size_t count, unsigned depth)
{
    size_t at = number(bytes + 48, 2), extended = number(bytes + 52, 2);

    if (extended != 0 && extended + 20 <= count)
        at = extended + number(bytes + extended + 16, 4);
    for (at = (at + 7) & ~(size_t)7; at + FILE_HEADER + 8 <= count; at = (at + 7) & ~(size_t)7) {
        bool large = (bytes[at + 19] & LARGE) != 0;
        size_t header = large ? FILE_HEADER + 8 : FILE_HEADER;
        size_t size = large ? number(bytes + at + 24, 8) : number(bytes + at + 20, 3);

        if (size < header || size > count - at)
            return;
        if (bytes[at + 18] != PADDING)
            read_file_of_volume(bytes + at + header, size - header, depth);
        at += size;
    }
}

/* The volumes among these bytes: a volume's signature is 40 bytes behind its start. */
static void read_volumes(uint8_t *bytes, size_t count, unsigned depth)
{
    size_t at = 0;

    while (depth > 0 && count >= VOLUME_HEADER && at <= count - VOLUME_HEADER) {
        uint64_t length = number(bytes + at + 32, 8);

        if (memcmp(bytes + at + 40, "_FVH", 4) != 0 || length < VOLUME_HEADER ||
            length > count - at) {
            at += 8;
            continue;
        }
        read_volume(bytes + at, length, depth - 1);
        at += length;
    }
}

void open_firmware(const char *name)
{
    size_t count;
    uint8_t *bytes;

    if (name == NULL)
        return;
    bytes = read_file(name, &count);
    if (bytes == NULL)
        refuse("cannot read %s: %s", name, strerror(errno));
    keep_buffer(bytes);
    read_volumes(bytes, count, MAX_DEPTH);
    if (too_large)
        refuse("%s: its sections unpack to more than %zu MiB", name, MAX_UNPACKED_SIZE >> 20);
    if (image_count == 0)
        refuse("%s: no images in firmware volumes", name);
}

/* A copy of the image of a name, or NULL. */
uint8_t *firmware_image(const char *name, size_t *length)
{
    for (size_t i = 0; i < image_count; i++)
        if (strcmp(images[i].name, name) == 0) {
            *length = images[i].length;
            return memcpy(must(malloc(*length + 1)), images[i].bytes, *length);
        }
    return NULL;
}

/* Frees all but the copies. */
void close_firmware(void)
{
    while (buffer_count > 0)
        free(buffers[--buffer_count]);
    free(images);
    images = NULL;
    image_count = 0;
}
