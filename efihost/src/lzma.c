/* A decoder of LZMA, the compression of firmware volumes: a stream that begins with its properties
 * and the size of what it holds. */
#include "host.h"

#include <stdlib.h>
#include <string.h>

#define HEADER 13U
#define HALF 1024U /* the chance of a bit, of 2048, at first */
#define STATES 12U
#define POSITIONS 16U
#define MAX_LITERAL_BITS 4

typedef uint16_t chance;

struct lengths {
    chance choice, choice2, low[POSITIONS][8], middle[POSITIONS][8], high[256];
};

struct decoder {
    const uint8_t *at, *end;
    uint32_t range, code;
    bool bad;
    unsigned literal_bits, literal_positions, positions, state;
    uint32_t recent[4]; /* distances less 1, the latest first */
    uint8_t *to;
    uint64_t done, size;
    /* All chances lie together, from here on. */
    chance is_match[STATES][POSITIONS], is_recent[STATES], is_later[STATES], is_third[STATES],
        is_fourth[STATES], is_long[STATES][POSITIONS];
    chance slots[4][64], special[128], aligned[16];
    struct lengths match_lengths, recent_lengths;
    chance literals[];
};

static void normalize(struct decoder *it)
{
    if (it->range >> 24 != 0)
        return;
    it->range <<= 8;
    it->code = it->code << 8 | (it->at < it->end ? *it->at : 0);
    it->bad |= it->at++ >= it->end;
}

static unsigned bit(struct decoder *it, chance *of)
{
    uint32_t bound;

    normalize(it);
    bound = (it->range >> 11) * *of;
    if (it->code < bound) {
        it->range = bound;
        *of = (chance)(*of + ((2048 - *of) >> 5));
        return 0;
    }
    it->range -= bound;
    it->code -= bound;
    *of = (chance)(*of - (*of >> 5));
    return 1;
}

/* Bits that are as likely 0 as 1. */
static uint32_t even_bits(struct decoder *it, unsigned count)
{
    uint32_t number = 0;

    while (count-- > 0) {
        normalize(it);
        it->range >>= 1;
        number <<= 1;
        if (it->code >= it->range) {
            it->code -= it->range;
            number |= 1;
        }
    }
    return number;
}

static unsigned tree(struct decoder *it, chance *chances, unsigned count)
{
    unsigned node = 1;

    for (unsigned i = 0; i < count; i++)
        node = node << 1 | bit(it, &chances[node]);
    return node - (1U << count);
}

/* The same, the lowest bit first. */
static unsigned reverse_tree(struct decoder *it, chance *chances, unsigned count)
{
    unsigned node = 1, number = 0;

    for (unsigned i = 0; i < count; i++) {
        unsigned one = bit(it, &chances[node]);

        node = node << 1 | one;
        number |= one << i;
    }
    return number;
}

static unsigned length_of(struct decoder *it, struct lengths *of, unsigned position)
{
    if (bit(it, &of->choice) == 0)
        return 2 + tree(it, of->low[position], 3);
    if (bit(it, &of->choice2) == 0)
        return 10 + tree(it, of->middle[position], 3);
    return 18 + tree(it, of->high, 8);
}

static uint32_t distance_of(struct decoder *it, unsigned length)
{
    unsigned slot = tree(it, it->slots[length > 5 ? 3 : length - 2], 6), count;
    uint32_t distance;

    if (slot < 4)
        return slot;
    count = (slot >> 1) - 1;
    distance = (2 | (slot & 1)) << count;
    if (slot < 14)
        return distance + reverse_tree(it, it->special + distance - slot, count);
    distance += even_bits(it, count - 4) << 4;
    return distance + reverse_tree(it, it->aligned, 4);
}

static void put_literal(struct decoder *it)
{
    uint8_t before = it->done == 0 ? 0 : it->to[it->done - 1];
    uint64_t position = it->done & ((1U << it->literal_positions) - 1);
    chance *chances = it->literals + 0x300 * ((position << it->literal_bits) +
                                              (before >> (8 - it->literal_bits)));
    unsigned symbol = 1;

    if (it->state >= 7) {
        unsigned old = it->to[it->done - it->recent[0] - 1], expected, got;

        do {
            expected = old >> 7 & 1;
            old <<= 1;
            got = bit(it, &chances[((1 + expected) << 8) + symbol]);
            symbol = symbol << 1 | got;
        } while (got == expected && symbol < 0x100);
    }
    while (symbol < 0x100)
        symbol = symbol << 1 | bit(it, &chances[symbol]);
    it->to[it->done++] = (uint8_t)symbol;
    it->state = it->state < 4 ? 0 : it->state < 10 ? it->state - 3 : it->state - 6;
}

/* Puts one of the recent distances first, and returns the length of its match. */
static unsigned recent_match(struct decoder *it, unsigned position)
{
    unsigned which = 0;
    uint32_t distance;

    if (bit(it, &it->is_later[it->state]) == 0) {
        if (bit(it, &it->is_long[it->state][position]) == 0) {
            it->state = it->state < 7 ? 9 : 11;
            return 1;
        }
    } else if (bit(it, &it->is_third[it->state]) == 0) {
        which = 1;
    } else {
        which = 2 + bit(it, &it->is_fourth[it->state]);
    }
    distance = it->recent[which];
    memmove(it->recent + 1, it->recent, which * sizeof *it->recent);
    it->recent[0] = distance;
    it->state = it->state < 7 ? 8 : 11;
    return length_of(it, &it->recent_lengths, position);
}

static unsigned new_match(struct decoder *it, unsigned position)
{
    unsigned length = length_of(it, &it->match_lengths, position);

    memmove(it->recent + 1, it->recent, 3 * sizeof *it->recent);
    it->recent[0] = distance_of(it, length);
    it->state = it->state < 7 ? 7 : 10;
    return length;
}

/* Decodes up to the size that the stream has; false where it is damaged. */
static bool decode(struct decoder *it)
{
    while (it->done < it->size && !it->bad) {
        unsigned position = it->done & ((1U << it->positions) - 1), length;

        if (bit(it, &it->is_match[it->state][position]) == 0) {
            put_literal(it);
            continue;
        }
        length = bit(it, &it->is_recent[it->state]) != 0 ? recent_match(it, position)
                                                         : new_match(it, position);
        if (it->recent[0] >= it->done || length > it->size - it->done)
            return false;
        for (; length > 0; length--, it->done++)
            it->to[it->done] = it->to[it->done - it->recent[0] - 1];
    }
    return !it->bad;
}

/* How many bytes a stream says that it holds; 0 where it is none, or has larger tables than
 * firmwares and other decoders of LZMA have. */
uint64_t lzma_size(const uint8_t *bytes, size_t count)
{
    uint64_t size = 0;

    if (count < HEADER + 5 || bytes[0] >= 9 * 5 * 5 ||
        bytes[0] % 9 + bytes[0] / 9 % 5 > MAX_LITERAL_BITS)
        return 0;
    for (unsigned i = 0; i < 8; i++)
        size |= (uint64_t)bytes[5 + i] << 8 * i;
    return size;
}

/* What a stream holds, which is the caller's to free; NULL where it is damaged. */
uint8_t *lzma_decode(const uint8_t *bytes, size_t count)
{
    uint64_t size = lzma_size(bytes, count);
    struct decoder *it;
    size_t literals;
    uint8_t *to;
    bool good;

    if (size == 0 || bytes[HEADER] != 0)
        return NULL;
    literals = (size_t)0x300 << (bytes[0] % 9 + bytes[0] / 9 % 5);
    it = must(calloc(1, sizeof *it + literals * sizeof(chance)));
    for (chance *chances = &it->is_match[0][0]; chances < it->literals + literals; chances++)
        *chances = HALF;
    it->literal_bits = bytes[0] % 9;
    it->literal_positions = bytes[0] / 9 % 5;
    it->positions = bytes[0] / 45;
    it->range = UINT32_MAX;
    for (unsigned i = 1; i < 5; i++)
        it->code = it->code << 8 | bytes[HEADER + i];
    it->at = bytes + HEADER + 5;
    it->end = bytes + count;
    it->size = size;
    it->to = must(malloc(size));
    good = decode(it);
    to = it->to;
    free(it);
    if (good)
        return to;
    free(to);
    return NULL;
}
