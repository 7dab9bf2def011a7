/* Numbers and GUIDs as texts (docs/FORMATS.md). */
#ifndef NUMBERS_H
#define NUMBERS_H

#include <rafkudin.h>

#include <stdbool.h>
#include <stddef.h>
#include <stdint.h>

/* The most bytes that a GUID's text has. */
#define MAX_GUID_LENGTH 45

/* The value of a hexadecimal digit of either case, 16 for another byte. */
unsigned digit_of(char byte);

/* The number that digits write, where it is below 2^64. */
bool number_of_digits(const char *bytes, size_t length, unsigned base, uint64_t *number);

/* The number of `0x` and 1 to 16 hexadecimal digits. */
bool hexadecimal_number(const char *bytes, size_t length, uint64_t *number);

/* The GUID of a text: 32 hexadecimal digits; the form with hyphens; that form in braces, or behind
 * `urn:uuid:` in letters of either case. */
bool guid_read(const char *bytes, size_t length, struct rafkudin_guid *guid);

/* The place among a GUID's sixteen bytes of each two digits of its text. */
extern const unsigned char guid_places[16];

/* Whether a hyphen is before these two digits in the form with hyphens. */
bool guid_has_hyphen(unsigned pair);
#endif
