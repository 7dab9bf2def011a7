/* The lines of a trace, their words, and numbers as words. */
#ifndef WORDS_H
#define WORDS_H

#include <stdbool.h>
#include <stddef.h>
#include <stdint.h>
#include <stdio.h>

/* The most bytes of a line, without its line feed, and the most words that these make. */
#define MAX_LINE_LENGTH 65536
#define MAX_WORDS (MAX_LINE_LENGTH / 2)

/* A line. One that is too long is cut one byte past the limit. */
struct line {
    char bytes[MAX_LINE_LENGTH + 1];
    size_t length;
};

/* A word of a line, in place. */
struct word {
    const char *bytes;
    size_t length;
};

/* Reads the next line, without its line feed, and answers whether there is one. Where the file
 * can't be read the program ends. */
bool line_read(struct line *line, FILE *file);

/* The words of a line, which may have a carriage return at its end, from left to right; the answer
 * is how many. */
size_t line_words(const struct line *line, struct word words[MAX_WORDS]);

/* Whether a word is the text. */
bool word_is(struct word word, const char *text);

/* The number of a word, `0x` and 1 to 16 hexadecimal digits or 1 to 20 decimal digits, where it is
 * `most` or less. */
bool word_number(struct word word, uint64_t most, uint64_t *number);
#endif
