/* JSON in memory: judged once, and then read in place. */
#include "json.h"

#include <math.h>
#include <stdlib.h>
#include <string.h>

/* The most levels of lists and objects. */
#define MAX_LEVELS 127

static bool pass_value(const char **at, unsigned levels);

/* How many bytes more the UTF-8 of a code point has after this first byte, and the least code point
 * of that length; more than 3 for a byte that begins none. */
static unsigned bytes_behind(unsigned char first, uint32_t *least)
{
    static const uint32_t leasts[4] = {0, 0x80, 0x800, 0x10000};
    unsigned count = first < 0x80   ? 0
                     : first < 0xc0 ? 4
                     : first < 0xe0 ? 1
                     : first < 0xf0 ? 2
                     : first < 0xf8 ? 3
                                    : 4;

    *least = count < 4 ? leasts[count] : 0;
    return count;
}

static bool is_utf8(const char *text, size_t length)
{
    const unsigned char *bytes = (const unsigned char *)text;
    size_t at = 0;

    while (at < length) {
        uint32_t least, code;
        unsigned count = bytes_behind(bytes[at], &least);

        if (count > 3 || count >= length - at)
            return false;
        code = count == 0 ? bytes[at] : bytes[at] & (0x3fU >> count);
        for (unsigned behind = 1; behind <= count; behind++) {
            if ((bytes[at + behind] & 0xc0) != 0x80)
                return false;
            code = code << 6 | (bytes[at + behind] & 0x3fU);
        }
        if (code < least || code > 0x10ffff || (code >= 0xd800 && code < 0xe000))
            return false;
        at += count + 1;
    }
    return true;
}

static void pass_blanks(const char **at)
{
    *at += strspn(*at, " \t\r\n");
}

/* Passes a byte where it is next. */
static bool pass_byte(const char **at, char byte)
{
    if (**at != byte)
        return false;
    ++*at;
    return true;
}

/* The number that four hexadecimal digits write. */
static bool read_unit(const char **at, uint32_t *unit)
{
    static const char digits[] = "0123456789abcdefABCDEF";

    *unit = 0;
    for (int count = 0; count < 4; count++) {
        const char *digit = **at != '\0' ? strchr(digits, **at) : NULL;

        if (digit == NULL)
            return false;
        *unit = *unit << 4 | (uint32_t)(digit - digits - (digit - digits > 15 ? 6 : 0));
        ++*at;
    }
    return true;
}

/* Writes a code point in UTF-8, and answers how many bytes that takes. */
static size_t put_code(uint32_t code, char bytes[4])
{
    size_t count = code < 0x80 ? 1 : code < 0x800 ? 2 : code < 0x10000 ? 3 : 4;

    for (size_t at = count; at-- > 1; code >>= 6)
        bytes[at] = (char)(0x80 | (code & 0x3f));
    bytes[0] = (char)(count == 1 ? code : (0xf00U >> count & 0xf0U) | code);
    return count;
}

/* The character of an escape whose backslash and u were passed. Surrogates come in pairs only. */
static bool read_unicode(const char **at, char bytes[4], size_t *count)
{
    uint32_t high, low;

    if (!read_unit(at, &high))
        return false;
    if (high >= 0xd800 && high < 0xe000) {
        if (high >= 0xdc00 || !pass_byte(at, '\\') || !pass_byte(at, 'u') || !read_unit(at, &low))
            return false;
        if (low < 0xdc00 || low >= 0xe000)
            return false;
        high = 0x10000 + ((high - 0xd800) << 10) + (low - 0xdc00);
    }
    *count = put_code(high, bytes);
    return true;
}

/* The bytes that the next part of a string spells: a byte as it is, or an escape. */
static bool read_part(const char **at, char bytes[4], size_t *count)
{
    static const char letters[] = "\"\\/bfnrt";
    static const char meant[] = "\"\\/\b\f\n\r\t";
    const char *letter;

    if ((unsigned char)**at < 0x20)
        return false;
    *count = 1;
    bytes[0] = *(*at)++;
    if (bytes[0] != '\\')
        return true;
    if (pass_byte(at, 'u'))
        return read_unicode(at, bytes, count);
    letter = **at != '\0' ? strchr(letters, **at) : NULL;
    if (letter == NULL)
        return false;
    bytes[0] = meant[letter - letters];
    ++*at;
    return true;
}

static bool pass_string(const char **at)
{
    char bytes[4];
    size_t count;

    if (!pass_byte(at, '"'))
        return false;
    while (!pass_byte(at, '"'))
        if (!read_part(at, bytes, &count))
            return false;
    return true;
}

static bool pass_digits(const char **at)
{
    size_t count = strspn(*at, "0123456789");

    *at += count;
    return count != 0;
}

static bool pass_number(const char **at)
{
    const char *from = *at;

    pass_byte(at, '-');
    if (!pass_byte(at, '0') && !pass_digits(at))
        return false;
    if (pass_byte(at, '.') && !pass_digits(at))
        return false;
    if (**at == 'e' || **at == 'E') {
        ++*at;
        if (**at == '+' || **at == '-')
            ++*at;
        if (!pass_digits(at))
            return false;
    }
    return isfinite(strtod(from, NULL));
}

static bool pass_word(const char **at, const char *word)
{
    size_t length = strlen(word);

    if (strncmp(*at, word, length) != 0)
        return false;
    *at += length;
    return true;
}

/* A name and a colon. */
static bool pass_name(const char **at)
{
    pass_blanks(at);
    if (!pass_string(at))
        return false;
    pass_blanks(at);
    return pass_byte(at, ':');
}

/* What is between the brackets of a list or an object, and the closing one. */
static bool pass_inside(const char **at, char close, unsigned levels)
{
    pass_blanks(at);
    if (pass_byte(at, close))
        return true;
    for (;;) {
        if (close == '}' && !pass_name(at))
            return false;
        if (!pass_value(at, levels))
            return false;
        if (pass_byte(at, close))
            return true;
        if (!pass_byte(at, ','))
            return false;
    }
}

/* A value with the blanks on both sides of it, of a limited number of levels. */
static bool pass_value(const char **at, unsigned levels)
{
    bool passed;

    pass_blanks(at);
    if (**at == '[' || **at == '{') {
        char close = **at == '[' ? ']' : '}';

        ++*at;
        passed = levels != 0 && pass_inside(at, close, levels - 1);
    } else if (**at == '"') {
        passed = pass_string(at);
    } else {
        passed = pass_word(at, "true") || pass_word(at, "false") || pass_word(at, "null") ||
                 pass_number(at);
    }
    if (passed)
        pass_blanks(at);
    return passed;
}

const char *json_root(const char *text, size_t length)
{
    const char *at = text;

    if (!is_utf8(text, length) || !pass_value(&at, MAX_LEVELS) || at != text + length)
        return NULL;
    return text + strspn(text, " \t\r\n");
}

/* The place behind a value and the blanks that follow it. */
static const char *behind(const char *value)
{
    pass_value(&value, MAX_LEVELS);
    return value;
}

/* Whether the string at a place is the name, and the place behind the string. */
static bool is_name(const char **at, const char *name)
{
    bool is_same = true;
    char bytes[4];
    size_t count, length = strlen(name);

    pass_byte(at, '"');
    while (!pass_byte(at, '"')) {
        if (!read_part(at, bytes, &count))
            return false;
        if (is_same && count <= length && memcmp(bytes, name, count) == 0) {
            name += count;
            length -= count;
        } else {
            is_same = false;
        }
    }
    return is_same && length == 0;
}

const char *json_member(const char *value, const char *name)
{
    const char *found = NULL;

    if (*value != '{')
        return NULL;
    do {
        bool is_found;

        ++value;
        pass_blanks(&value);
        if (*value == '}')
            break;
        is_found = is_name(&value, name);
        pass_blanks(&value);
        ++value;
        pass_blanks(&value);
        if (is_found)
            found = value;
        value = behind(value);
    } while (*value == ',');
    return found;
}

bool json_is_list(const char *value)
{
    return *value == '[';
}

const char *json_first(const char *list)
{
    ++list;
    pass_blanks(&list);
    return *list == ']' ? NULL : list;
}

const char *json_next(const char *item)
{
    item = behind(item);
    if (*item != ',')
        return NULL;
    ++item;
    pass_blanks(&item);
    return item;
}

size_t json_count(const char *list)
{
    size_t count = 0;

    for (const char *item = json_first(list); item != NULL; item = json_next(item))
        count++;
    return count;
}

bool json_whole(const char *value, uint64_t *number)
{
    size_t length = strspn(value, "0123456789");

    if (length == 0 || value[length] == '.' || value[length] == 'e' || value[length] == 'E')
        return false;
    *number = 0;
    for (; length != 0; length--, value++) {
        uint64_t digit = (uint64_t)(*value - '0');

        if (*number > (UINT64_MAX - digit) / 10)
            return false;
        *number = *number * 10 + digit;
    }
    return true;
}

bool json_flag(const char *value, bool *flag)
{
    *flag = *value == 't';
    return *value == 't' || *value == 'f';
}

bool json_string(const char *value, char *bytes, size_t room, size_t *length)
{
    char part[4];
    size_t count;

    *length = 0;
    if (!pass_byte(&value, '"'))
        return false;
    while (!pass_byte(&value, '"')) {
        if (!read_part(&value, part, &count) || count > room - *length)
            return false;
        memcpy(bytes + *length, part, count);
        *length += count;
    }
    return true;
}
