/* The lines of a trace as calls. */
#include "calls.h"

#include "fault.h"
#include "guids.h"

#define MAX_MAP_BUFFER 16777216
#define MAX_READ_SIZE 65536

/* What follows the words that a verb always has. */
enum tail { NOTHING, PAIRS, HANDLES };

/* The words of each verb, a letter for each: i a number of 32 bits, n one of 64, m the size of a
 * buffer for the map, r the length of a read, f 0 or 1, g a GUID, x bytes. */
static const struct {
    const char *name;
    const char *letters;
    enum tail tail;
} verbs[VERBS] = {
    [PAGES] = {"pages", "iinn", NOTHING},
    [FREE_PAGES] = {"free-pages", "nn", NOTHING},
    [MAP] = {"map", "m", NOTHING},
    [EXIT] = {"exit", "n", NOTHING},
    [POOL] = {"pool", "in", NOTHING},
    [FREE_POOL] = {"free-pool", "n", NOTHING},
    [READ] = {"read", "nr", NOTHING},
    [WRITE] = {"write", "nx", NOTHING},
    [INSTALL] = {"install", "ngin", NOTHING},
    [INSTALL_MANY] = {"install-many", "n", PAIRS},
    [UNINSTALL] = {"uninstall", "ngn", NOTHING},
    [REINSTALL] = {"reinstall", "ngnn", NOTHING},
    [OPEN] = {"open", "ngnni", NOTHING},
    [CLOSE] = {"close", "ngnn", NOTHING},
    [INFORMATION] = {"information", "ng", NOTHING},
    [HANDLE_PROTOCOL] = {"handle-protocol", "ng", NOTHING},
    [NOTIFY] = {"notify", "gn", NOTHING},
    [LOCATE] = {"locate", "ignn", NOTHING},
    [LOCATE_BUFFER] = {"locate-buffer", "ign", NOTHING},
    [LOCATE_PROTOCOL] = {"locate-protocol", "gn", NOTHING},
    [PROTOCOLS] = {"protocols", "n", NOTHING},
    [CONNECT] = {"connect", "nf", HANDLES},
    [DISCONNECT] = {"disconnect", "nn", NOTHING},
    [PATH] = {"path", "gn", NOTHING},
    [LIST] = {"list", "", NOTHING},
};

/* What a line's words are read into; a line has fewer than these hold. */
static struct word words[MAX_WORDS];
static uint8_t line_bytes[MAX_LINE_LENGTH / 2];
static struct rafkudin_interface line_interfaces[MAX_WORDS / 2];
static uint64_t line_drivers[MAX_WORDS];

static _Noreturn void fail_line(uint64_t number, const char *what)
{
    fail("trace line %llu: %s", (unsigned long long)number, what);
}

const char *verb_name(enum verb verb)
{
    return verbs[verb].name;
}

static enum verb verb_of(struct word word)
{
    enum verb verb = PAGES;

    while (verb != VERBS && !word_is(word, verbs[verb].name))
        verb++;
    return verb;
}

/* Whether a verb may have this many words behind it. */
static bool is_count(enum verb verb, size_t count)
{
    size_t always = 0;

    while (verbs[verb].letters[always] != '\0')
        always++;
    if (count < always)
        return false;
    switch (verbs[verb].tail) {
    case PAIRS:
        return count > always && (count - always) % 2 == 0;
    case HANDLES:
        return true;
    default:
        return count == always;
    }
}

/* The highest number that a word of a letter may be. */
static uint64_t most_of(char letter)
{
    switch (letter) {
    case 'i':
        return UINT32_MAX;
    case 'm':
        return MAX_MAP_BUFFER;
    case 'r':
        return MAX_READ_SIZE;
    case 'f':
        return 1;
    default:
        return UINT64_MAX;
    }
}

static uint64_t read_number(struct word word, char letter, uint64_t line)
{
    uint64_t number;

    if (!word_number(word, most_of(letter), &number))
        fail_line(line, "number");
    return number;
}

static struct rafkudin_guid read_guid(struct word word, uint64_t line)
{
    struct rafkudin_guid guid;

    if (!guid_read(word.bytes, word.length, &guid))
        fail_line(line, "guid");
    return guid;
}

/* Bytes: two hexadecimal digits for each, or `-` for none. */
static void read_bytes(struct call *call, struct word word, uint64_t line)
{
    call->byte_count = 0;
    if (word_is(word, "-"))
        return;
    if (word.length % 2 != 0)
        fail_line(line, "hex");
    for (size_t at = 0; at < word.length; at += 2) {
        unsigned high = digit_of(word.bytes[at]);
        unsigned low = digit_of(word.bytes[at + 1]);

        if (high > 15 || low > 15)
            fail_line(line, "hex");
        call->bytes[call->byte_count++] = (uint8_t)(high << 4 | low);
    }
}

/* The words behind a verb, from left to right, each by its letter; and then those of its tail. */
static void read_words(struct call *call, const struct word *word, size_t count, uint64_t line)
{
    const struct word *end = word + count;
    uint64_t *number = call->numbers;

    for (const char *letter = verbs[call->verb].letters; *letter != '\0'; letter++, word++) {
        if (*letter == 'g')
            call->guid = read_guid(*word, line);
        else if (*letter == 'x')
            read_bytes(call, *word, line);
        else
            *number++ = read_number(*word, *letter, line);
    }
    for (; word != end; word++) {
        if (verbs[call->verb].tail == HANDLES) {
            call->drivers[call->count++] = read_number(*word, 'n', line);
        } else {
            call->interfaces[call->count].guid = read_guid(*word++, line);
            call->interfaces[call->count++].value = read_number(*word, 'n', line);
        }
    }
}

bool call_read(struct call *call, const struct line *line, uint64_t number)
{
    size_t count;

    if (line->length > MAX_LINE_LENGTH)
        fail_line(number, "long");
    count = line_words(line, words);
    if (count == 0 || words[0].bytes[0] == '#')
        return false;
    *call = (struct call){
        .verb = verb_of(words[0]),
        .bytes = line_bytes,
        .interfaces = line_interfaces,
        .drivers = line_drivers,
    };
    if (call->verb == VERBS)
        fail_line(number, "verb");
    if (!is_count(call->verb, count - 1))
        fail_line(number, "words");
    read_words(call, words + 1, count - 1, number);
    return true;
}
