/* JSON in memory: judged once, and then read in place.
 *
 * A text here ends with a zero byte. A value is the place in a valid text where it begins. */
#ifndef JSON_H
#define JSON_H

#include <stdbool.h>
#include <stddef.h>
#include <stdint.h>

/* The root of a text of `length` bytes, a zero byte behind them, or null where it is not JSON: text
 * that is not UTF-8, more than 127 levels, a number that no double reaches and a lone surrogate are
 * refused too. */
const char *json_root(const char *text, size_t length);

/* The value of a name in an object, the last one where the name is there twice. Null where there is
 * none, and where the value is no object. */
const char *json_member(const char *value, const char *name);

bool json_is_list(const char *value);

/* The first item of a list, and the item behind another; null where there is none. */
const char *json_first(const char *list);
const char *json_next(const char *item);

/* How many items a list has. */
size_t json_count(const char *list);

/* Whether a value is a number without sign, point and exponent that is below 2^64, and which. */
bool json_whole(const char *value, uint64_t *number);

/* Whether a value is true or false, and which. */
bool json_flag(const char *value, bool *flag);

/* Whether a value is a string of at most `room` bytes, and which bytes. */
bool json_string(const char *value, char *bytes, size_t room, size_t *length);
#endif
