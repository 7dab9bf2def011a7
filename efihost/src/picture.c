/* Pictures in the format PNG. Rows are compressed by what screens are made of: pixels that are
 * those before them, or those above. */
#include "host.h"

#include <stdlib.h>
#include <string.h>

#define MIN_MATCH 3U
#define MAX_MATCH 258U
#define END 256U
#define FIRST_LENGTH 257U

static uint8_t *put32(uint8_t *to, uint32_t number)
{
    for (int shift = 24; shift >= 0; shift -= 8)
        *to++ = (uint8_t)(number >> shift);
    return to;
}

static void write_chunk(FILE *file, const char *name, const uint8_t *bytes, uint32_t count)
{
    uint8_t *chunk = must(malloc(count + 4)), number[4];

    memcpy(chunk, name, 4);
    memcpy(chunk + 4, bytes, count);
    put32(number, count);
    fwrite(number, 1, 4, file);
    fwrite(chunk, 1, count + 4, file);
    put32(number, crc32_of(chunk, count + 4));
    fwrite(number, 1, 4, file);
    free(chunk);
}

static uint32_t adler_of(const uint8_t *bytes, size_t count)
{
    uint32_t one = 1, two = 0;

    for (size_t i = 0; i < count; i++) {
        one = (one + bytes[i]) % 65521;
        two = (two + one) % 65521;
    }
    return two << 16 | one;
}

/* Rows of pixels: a zero, then red, green and blue of each. */
static uint8_t *rows_of(const uint32_t *pixels, unsigned width, unsigned height)
{
    uint8_t *rows = must(malloc((size_t)height * (3 * width + 1))), *to = rows;

    for (unsigned y = 0; y < height; y++) {
        *to++ = 0;
        for (unsigned x = 0; x < width; x++) {
            uint32_t pixel = pixels[(size_t)y * width + x];

            *to++ = (uint8_t)(pixel >> 16);
            *to++ = (uint8_t)(pixel >> 8);
            *to++ = (uint8_t)pixel;
        }
    }
    return rows;
}

/* ---- The format deflate, one block with its fixed codes ---- */

struct bits {
    uint8_t *at;
    uint32_t held;
    unsigned count;
};

/* Puts a number of at most 16 bits, its lowest bit first. */
static void put_bits(struct bits *to, uint32_t number, unsigned count)
{
    to->held |= number << to->count;
    to->count += count;
    while (to->count >= 8) {
        *to->at++ = (uint8_t)to->held;
        to->held >>= 8;
        to->count -= 8;
    }
}

/* Puts a code, its highest bit first. */
static void put_code(struct bits *to, uint32_t code, unsigned count)
{
    while (count-- > 0)
        put_bits(to, code >> count & 1, 1);
}

/* A byte, the end of the block, or the class of a length. */
static void put_symbol(struct bits *to, unsigned symbol)
{
    if (symbol < 144)
        put_code(to, 0x30 + symbol, 8);
    else if (symbol < END)
        put_code(to, 0x190 + symbol - 144, 9);
    else if (symbol < 280)
        put_code(to, symbol - END, 7);
    else
        put_code(to, 0xc0 + symbol - 280, 8);
}

/* The class of a number from 0 on, where each `step` classes take one bit more behind them than
 * those before, which are in *extra. */
static unsigned class_of(uint32_t number, unsigned step, unsigned *extra)
{
    unsigned shift = 0;

    while (number >> shift >= 2 * step)
        shift++;
    *extra = shift;
    return shift * step + (number >> shift);
}

/* The bytes from here on are those that lie `distance` before, for this length. */
static void put_match(struct bits *to, size_t length, size_t distance)
{
    uint32_t number = (uint32_t)(length - MIN_MATCH);
    unsigned extra, class = class_of(number, 4, &extra);

    if (length == MAX_MATCH) {
        put_symbol(to, FIRST_LENGTH + 28);
    } else {
        put_symbol(to, FIRST_LENGTH + class);
        put_bits(to, number & ((1U << extra) - 1), extra);
    }
    number = (uint32_t)(distance - 1);
    class = class_of(number, 2, &extra);
    put_code(to, class, 5);
    put_bits(to, number & ((1U << extra) - 1), extra);
}

/* How many bytes from `at` on are those that lie `distance` before. */
static size_t match(const uint8_t *bytes, size_t at, size_t count, size_t distance)
{
    size_t length = 0;

    if (distance > at)
        return 0;
    while (length < MAX_MATCH && at + length < count &&
           bytes[at + length] == bytes[at + length - distance])
        length++;
    return length;
}

static uint8_t *stream_of(const uint8_t *rows, size_t count, size_t row, size_t *length)
{
    uint8_t *stream = must(malloc(count + count / 8 + 32));
    struct bits to = {stream + 2, 0, 0};

    memcpy(stream, "\x78\x01", 2);
    put_bits(&to, 3, 3);
    for (size_t at = 0; at < count;) {
        size_t before = match(rows, at, count, 3), above = match(rows, at, count, row);
        size_t best = above > before ? above : before;

        if (best < MIN_MATCH) {
            put_symbol(&to, rows[at++]);
            continue;
        }
        put_match(&to, best, above > before ? row : 3);
        at += best;
    }
    put_symbol(&to, END);
    put_bits(&to, 0, 7);
    *length = (size_t)(put32(to.at, adler_of(rows, count)) - stream);
    return stream;
}

/* Pixels are 32 bits: blue lowest, then green, red. */
void write_picture(FILE *file, const uint32_t *pixels, unsigned width, unsigned height)
{
    uint8_t head[13] = {0}, *rows = rows_of(pixels, width, height), *stream;
    size_t length, row = 3 * (size_t)width + 1;

    fwrite("\x89PNG\r\n\x1a\n", 1, 8, file);
    put32(put32(head, width), height);
    head[8] = 8;
    head[9] = 2;
    write_chunk(file, "IHDR", head, sizeof head);
    stream = stream_of(rows, height * row, row, &length);
    write_chunk(file, "IDAT", stream, (uint32_t)length);
    write_chunk(file, "IEND", head, 0);
    free(stream);
    free(rows);
}
