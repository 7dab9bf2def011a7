/* What a signal handler may say: words in a buffer of its own, without the C library's streams. */
#include "host.h"

#include <unistd.h>

/* Adds a text; what has no room is left out. */
void say_text(struct words *to, const char *text)
{
    while (*text != 0 && to->used + 1 < sizeof to->text)
        to->text[to->used++] = *text++;
    to->text[to->used] = 0;
}

void say_number(struct words *to, uint64_t number)
{
    char text[19] = "0x";
    unsigned digits = 1;

    while (digits < 16 && number >> 4 * digits != 0)
        digits++;
    for (unsigned i = 0; i < digits; i++)
        text[2 + i] = "0123456789abcdef"[number >> 4 * (digits - 1 - i) & 15];
    text[2 + digits] = 0;
    say_text(to, text);
}

/* Adds a place: an offset in an image, or an address. */
void say_place(struct words *to, uint64_t address)
{
    const struct image *image = image_at(address);

    if (image != NULL) {
        say_text(to, image->name);
        say_text(to, "+");
        address -= image->base;
    }
    say_number(to, address);
}

/* Writes the words as a line to standard error, and ends the process. */
void end_with(struct words *words, enum ending ending)
{
    ssize_t written;

    words->text[words->used++] = '\n';
    written = write(STDERR_FILENO, words->text, words->used);
    (void)written;
    _exit(ending);
}
