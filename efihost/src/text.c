/* Texts: UTF-16 and UTF-8, statuses and GUIDs as words, checksums; and memory of the host. */
#include "host.h"

#include <errno.h>
#include <stdlib.h>
#include <string.h>

#define MAX_FILE_SIZE (1ULL << 30)

const EFI_GUID device_path_guid = {
    0x09576e91, 0x6d3f, 0x11d2, {0x8e, 0x39, 0x00, 0xa0, 0xc9, 0x69, 0x72, 0x3b}};
const EFI_GUID loaded_image_guid = {
    0x5b1b31a1, 0x9562, 0x11d2, {0x8e, 0x3f, 0x00, 0xa0, 0xc9, 0x69, 0x72, 0x3b}};
const EFI_GUID loaded_image_path_guid = {
    0xbc62157e, 0x3e33, 0x4fec, {0x99, 0x20, 0x2d, 0x3b, 0x36, 0xd7, 0x50, 0xdf}};
const EFI_GUID driver_binding_guid = {
    0x18a031ab, 0xb443, 0x4d1a, {0xa5, 0xc0, 0x0c, 0x09, 0x26, 0x1e, 0x9f, 0x71}};
const EFI_GUID file_system_guid = {
    0x964e5b22, 0x6459, 0x11d2, {0x8e, 0x39, 0x00, 0xa0, 0xc9, 0x69, 0x72, 0x3b}};
const EFI_GUID block_io_guid = {
    0x964e5b21, 0x6459, 0x11d2, {0x8e, 0x39, 0x00, 0xa0, 0xc9, 0x69, 0x72, 0x3b}};

const EFI_GUID package_list_guid = {
    0x6a1ee763, 0xd47a, 0x43b4, {0xaa, 0xbe, 0xef, 0x1d, 0xe2, 0xab, 0x56, 0xfc}};

/* The last part of a name of the host or of a firmware. */
const char *last_part(const char *name)
{
    const char *part = strrchr(name, '/');

    name = part == NULL ? name : part + 1;
    part = strrchr(name, '\\');
    return part == NULL ? name : part + 1;
}

size_t wide_length(const CHAR16 *text)
{
    size_t length = 0;

    while (text[length] != 0)
        length++;
    return length;
}

/* Whether a letter of four bytes begins here, which UTF-16 has as two halves. */
static bool is_long(const uint8_t *at)
{
    return (at[0] & 0xf8) == 0xf0 && (at[1] & 0xc0) == 0x80 && (at[2] & 0xc0) == 0x80 &&
           (at[3] & 0xc0) == 0x80;
}

/* The letters of a text in UTF-8; bytes that are none become question marks. It has at most as many
 * letters as the text has bytes. */
void widen(CHAR16 *to, const char *text)
{
    const uint8_t *from = (const uint8_t *)text;

    while (*from != 0) {
        if (*from < 0x80 || (*from & 0xc0) == 0x80) {
            *to++ = *from++;
        } else if (*from < 0xe0 && from[1] != 0) {
            *to++ = (CHAR16)((from[0] & 0x1f) << 6 | (from[1] & 0x3f));
            from += 2;
        } else if (*from < 0xf0 && from[1] != 0 && from[2] != 0) {
            *to++ = (CHAR16)((from[0] & 0xf) << 12 | (from[1] & 0x3f) << 6 | (from[2] & 0x3f));
            from += 3;
        } else if (is_long(from)) {
            uint32_t letter = (uint32_t)(from[0] & 7) << 18 | (uint32_t)(from[1] & 0x3f) << 12 |
                              (uint32_t)(from[2] & 0x3f) << 6 | (from[3] & 0x3f);

            *to++ = (CHAR16)(0xd7c0 + (letter >> 10));
            *to++ = (CHAR16)(0xdc00 | (letter & 0x3ff));
            from += 4;
        } else {
            *to++ = '?';
            from++;
        }
    }
    *to = 0;
}

bool wide_equal(const CHAR16 *one, const CHAR16 *other)
{
    while (*one != 0 && *one == *other) {
        one++;
        other++;
    }
    return *one == *other;
}

size_t utf8_of(uint32_t letter, char *to)
{
    if (letter < 0x80) {
        to[0] = (char)letter;
        return 1;
    }
    if (letter < 0x800) {
        to[0] = (char)(0xc0 | letter >> 6);
        to[1] = (char)(0x80 | (letter & 0x3f));
        return 2;
    }
    if (letter < 0x10000) {
        to[0] = (char)(0xe0 | letter >> 12);
        to[1] = (char)(0x80 | (letter >> 6 & 0x3f));
        to[2] = (char)(0x80 | (letter & 0x3f));
        return 3;
    }
    to[0] = (char)(0xf0 | letter >> 18);
    to[1] = (char)(0x80 | (letter >> 12 & 0x3f));
    to[2] = (char)(0x80 | (letter >> 6 & 0x3f));
    to[3] = (char)(0x80 | (letter & 0x3f));
    return 4;
}

/* A letter of a text, which goes on behind it: two halves are one letter. */
static uint32_t next_letter(const CHAR16 **text)
{
    uint32_t first = *(*text)++;

    if (first < 0xd800 || first > 0xdbff || (**text & 0xfc00) != 0xdc00)
        return first;
    return 0x10000 + ((first & 0x3ff) << 10 | (*(*text)++ & 0x3ff));
}

/* Writes a text in UTF-8; false where there is no room for all of it. */
bool narrow_into(char *to, size_t room, const CHAR16 *text)
{
    char letter[4];
    size_t used = 0;

    while (text != NULL && *text != 0) {
        size_t size = utf8_of(next_letter(&text), letter);

        if (used + size >= room)
            break;
        memcpy(to + used, letter, size);
        used += size;
    }
    to[used] = 0;
    return text == NULL || *text == 0;
}

/* The text in UTF-8, cut after some 1,000 bytes. It stays until the fourth call after this. */
const char *narrow(const CHAR16 *text)
{
    static char turns[4][1024];
    static unsigned turn;
    char *to = turns[turn++ % 4];

    narrow_into(to, sizeof turns[0], text);
    return to;
}

const char *status_text(EFI_STATUS status)
{
    static const char *const errors[] = {
        "SUCCESS",           "LOAD_ERROR",      "INVALID_PARAMETER",  "UNSUPPORTED",
        "BAD_BUFFER_SIZE",   "BUFFER_TOO_SMALL", "NOT_READY",         "DEVICE_ERROR",
        "WRITE_PROTECTED",   "OUT_OF_RESOURCES", "VOLUME_CORRUPTED",  "VOLUME_FULL",
        "NO_MEDIA",          "MEDIA_CHANGED",   "NOT_FOUND",          "ACCESS_DENIED",
        "NO_RESPONSE",       "NO_MAPPING",      "TIMEOUT",            "NOT_STARTED",
        "ALREADY_STARTED",   "ABORTED",         "ICMP_ERROR",         "TFTP_ERROR",
        "PROTOCOL_ERROR",    "INCOMPATIBLE_VERSION", "SECURITY_VIOLATION", "CRC_ERROR"};
    static char turns[4][24];
    static unsigned turn;
    uint64_t number = status & ~EFI_ERROR_BIT;
    char *text;

    if ((status == 0 || EFI_ERROR(status)) && number < LENGTH(errors))
        return errors[number];
    text = turns[turn++ % 4];
    snprintf(text, sizeof turns[0], "0x%llx", (unsigned long long)status);
    return text;
}

/* In small letters, as traces have it. It stays until the eighth call after this. */
const char *guid_text(const void *guid)
{
    static char turns[8][40];
    static unsigned turn;
    static const uint8_t order[16] = {3, 2, 1, 0, 5, 4, 7, 6, 8, 9, 10, 11, 12, 13, 14, 15};
    static const char digits[] = "0123456789abcdef";
    const uint8_t *bytes = guid;
    char *text = turns[turn++ % 8], *to = text;

    if (guid == NULL)
        return "00000000-0000-0000-0000-000000000000";
    for (unsigned i = 0; i < 16; i++) {
        *to++ = digits[bytes[order[i]] >> 4];
        *to++ = digits[bytes[order[i]] & 15];
        if (i == 3 || i == 5 || i == 7 || i == 9)
            *to++ = '-';
    }
    *to = 0;
    return text;
}

bool guid_equal(const void *one, const void *other)
{
    uint64_t first[2], second[2];

    memcpy(first, one, sizeof first);
    memcpy(second, other, sizeof second);
    return first[0] == second[0] && first[1] == second[1];
}

uint32_t crc32_of(const void *bytes, size_t count)
{
    uint32_t sum = 0xffffffff;
    const uint8_t *at = bytes;

    while (count-- > 0) {
        sum ^= *at++;
        for (unsigned i = 0; i < 8; i++)
            sum = sum >> 1 ^ (0xedb88320 & (0 - (sum & 1)));
    }
    return ~sum;
}

/* Memory of the host itself, for what it only notes or needs for a moment; without it nothing goes
 * on. Without that for what an image asks for, the service is refused. */
void *must(void *memory)
{
    if (memory == NULL)
        refuse("out of memory");
    return memory;
}

/* The bytes of a file of the host with a zero byte behind, or NULL; one that is very long has
 * none, so that a device without an end is no file. */
uint8_t *read_file(const char *name, size_t *length)
{
    FILE *file = fopen(name, "rb");
    size_t room = 65536, count = 0, more;
    uint8_t *bytes;

    if (file == NULL)
        return NULL;
    bytes = must(malloc(room + 1));
    while (room <= MAX_FILE_SIZE && (more = fread(bytes + count, 1, room - count, file)) > 0) {
        count += more;
        if (count == room)
            bytes = must(realloc(bytes, (room *= 2) + 1));
    }
    if (room > MAX_FILE_SIZE)
        errno = EFBIG;
    if (room > MAX_FILE_SIZE || ferror(file)) {
        free(bytes);
        bytes = NULL;
    } else {
        bytes[count] = 0;
        *length = count;
    }
    fclose(file);
    return bytes;
}
