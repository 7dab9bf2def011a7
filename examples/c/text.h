/* Text that is put together before it is written. */
#ifndef TEXT_H
#define TEXT_H

#include <stddef.h>
#include <stdio.h>

/* All zeros at first. */
struct text {
    char *bytes;
    size_t length;
    size_t room;
};

/* Appends `length` bytes. */
void text_append(struct text *text, const void *bytes, size_t length);

/* Appends what printf would print. */
void text_print(struct text *text, const char *format, ...);

/* Writes the text to a file at once, flushes it, and empties the text. Ends the program where that
 * fails. */
void text_write(struct text *text, FILE *file);

void text_free(struct text *text);
#endif
