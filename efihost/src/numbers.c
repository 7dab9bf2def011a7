/* Numbers and GUIDs as texts. */
#include "numbers.h"

#include <ctype.h>

/* The first three fields are little endian. */
const unsigned char guid_places[16] = {3, 2, 1, 0, 5, 4, 7, 6, 8, 9, 10, 11, 12, 13, 14, 15};

unsigned digit_of(char byte)
{
    if (byte >= '0' && byte <= '9')
        return (unsigned)(byte - '0');
    if (byte >= 'a' && byte <= 'f')
        return (unsigned)(byte - 'a' + 10);
    if (byte >= 'A' && byte <= 'F')
        return (unsigned)(byte - 'A' + 10);
    return 16;
}

bool number_of_digits(const char *bytes, size_t length, unsigned base, uint64_t *number)
{
    *number = 0;
    for (; length != 0; length--, bytes++) {
        unsigned digit = digit_of(*bytes);

        if (digit >= base || *number > (UINT64_MAX - digit) / base)
            return false;
        *number = *number * base + digit;
    }
    return true;
}

bool hexadecimal_number(const char *bytes, size_t length, uint64_t *number)
{
    if (length < 3 || length > 18 || bytes[0] != '0' || bytes[1] != 'x')
        return false;
    return number_of_digits(bytes + 2, length - 2, 16, number);
}

bool guid_has_hyphen(unsigned pair)
{
    return pair == 4 || pair == 6 || pair == 8 || pair == 10;
}

/* The GUID of 32 digits, or of 36 bytes with hyphens. */
static bool read_digits(const char *bytes, bool hyphens, struct rafkudin_guid *guid)
{
    for (unsigned pair = 0; pair < 16; pair++) {
        unsigned high, low;

        if (hyphens && guid_has_hyphen(pair) && *bytes++ != '-')
            return false;
        high = digit_of(*bytes++);
        low = digit_of(*bytes++);
        if (high > 15 || low > 15)
            return false;
        guid->bytes[guid_places[pair]] = (uint8_t)(high << 4 | low);
    }
    return true;
}

static bool begins_urn(const char *bytes)
{
    static const char urn[] = "urn:uuid:";

    for (size_t at = 0; at < sizeof urn - 1; at++)
        if (tolower((unsigned char)bytes[at]) != urn[at])
            return false;
    return true;
}

bool guid_read(const char *bytes, size_t length, struct rafkudin_guid *guid)
{
    switch (length) {
    case 32:
        return read_digits(bytes, false, guid);
    case 36:
        return read_digits(bytes, true, guid);
    case 38:
        return bytes[0] == '{' && bytes[37] == '}' && read_digits(bytes + 1, true, guid);
    case MAX_GUID_LENGTH:
        return begins_urn(bytes) && read_digits(bytes + 9, true, guid);
    default:
        return false;
    }
}
