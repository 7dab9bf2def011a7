/* The lines of a trace, their words, and numbers as words. */
#include "words.h"

#include "fault.h"
#include "numbers.h"

#include <string.h>

bool line_read(struct line *line, FILE *file)
{
    int byte = 0;

    line->length = 0;
    while (line->length <= MAX_LINE_LENGTH && (byte = getc(file)) != '\n' && byte != EOF)
        line->bytes[line->length++] = (char)byte;
    if (byte == EOF && ferror(file))
        fail("cannot read trace");
    return byte != EOF || line->length != 0;
}

static bool is_blank(char byte)
{
    return byte == ' ' || byte == '\t';
}

size_t line_words(const struct line *line, struct word words[MAX_WORDS])
{
    const char *at = line->bytes;
    const char *end = line->bytes + line->length;
    size_t count = 0;

    if (line->length != 0 && end[-1] == '\r')
        end--;
    while (at != end) {
        const char *from = at;

        while (at != end && !is_blank(*at))
            at++;
        if (at != from)
            words[count++] = (struct word){from, (size_t)(at - from)};
        if (at != end)
            at++;
    }
    return count;
}

bool word_is(struct word word, const char *text)
{
    return word.length == strlen(text) && memcmp(word.bytes, text, word.length) == 0;
}

bool word_number(struct word word, uint64_t most, uint64_t *number)
{
    bool is_number;

    if (word.length >= 2 && word.bytes[0] == '0' && word.bytes[1] == 'x')
        is_number = hexadecimal_number(word.bytes, word.length, number);
    else
        is_number = word.length <= 20 && number_of_digits(word.bytes, word.length, 10, number);
    return is_number && *number <= most;
}
