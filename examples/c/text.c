/* Text that is put together before it is written. */
#include "text.h"

#include "fault.h"

#include <stdarg.h>
#include <stdlib.h>
#include <string.h>

/* The room that a print has at first. */
#define ROOM 128

/* Makes room for the given number of further bytes. */
static void reserve(struct text *text, size_t length)
{
    if (text->room - text->length >= length)
        return;
    text->room = (text->length + length) * 2;
    text->bytes = grow(text->bytes, text->room);
}

void text_append(struct text *text, const void *bytes, size_t length)
{
    if (length == 0)
        return;
    reserve(text, length);
    memcpy(text->bytes + text->length, bytes, length);
    text->length += length;
}

/* Prints behind the text, cut where the room ends, and answers the whole length. */
static size_t print_cut(struct text *text, const char *format, va_list rest)
{
    int length = vsnprintf(text->bytes + text->length, text->room - text->length, format, rest);

    if (length < 0)
        fail("cannot print");
    return (size_t)length;
}

void text_print(struct text *text, const char *format, ...)
{
    va_list rest;
    size_t length;

    reserve(text, ROOM);
    va_start(rest, format);
    length = print_cut(text, format, rest);
    va_end(rest);
    if (length >= text->room - text->length) {
        reserve(text, length + 1);
        va_start(rest, format);
        print_cut(text, format, rest);
        va_end(rest);
    }
    text->length += length;
}

void text_write(struct text *text, FILE *file)
{
    if (text->length == 0)
        return;
    if (fwrite(text->bytes, 1, text->length, file) != text->length || fflush(file) != 0)
        fail("cannot write");
    text->length = 0;
}

void text_free(struct text *text)
{
    free(text->bytes);
    *text = (struct text){0};
}
