/* The words with which an application is called, and numbers that it prints. */
#ifndef EFIHOST_WORDS_H
#define EFIHOST_WORDS_H

#include "app.h"

static char words[4000];
static char *at = words;

static inline void read_words(void)
{
    EFI_LOADED_IMAGE_PROTOCOL *loaded;
    const CHAR16 *options;
    unsigned i = 0;

    if (boot->HandleProtocol(self, &loaded_guid, (void **)&loaded) != EFI_SUCCESS)
        return;
    options = loaded->LoadOptions;
    while (options[i] != 0 && i + 1 < sizeof words) {
        words[i] = (char)options[i];
        i++;
    }
}

/* The next word, or NULL. */
static inline char *next_word(void)
{
    char *word;

    while (*at == ' ')
        at++;
    if (*at == 0)
        return NULL;
    word = at;
    while (*at != 0 && *at != ' ')
        at++;
    if (*at != 0)
        *at++ = 0;
    return word;
}

static inline bool is(const char *word, const char *other)
{
    while (*word != 0 && *word == *other) {
        word++;
        other++;
    }
    return *word == *other;
}

static inline void print_number(int64_t number)
{
    char text[24];
    unsigned i = sizeof text - 3;
    uint64_t rest = number < 0 ? 0 - (uint64_t)number : (uint64_t)number;

    text[i] = '\r';
    text[i + 1] = '\n';
    text[i + 2] = 0;
    do
        text[--i] = (char)('0' + rest % 10);
    while ((rest /= 10) != 0);
    if (number < 0)
        text[--i] = '-';
    print(text + i);
}

#endif
