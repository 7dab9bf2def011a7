/* Asks the host's system for the calls that its words name, and prints what each returns.
 *
 * A call is its number and its arguments, and `;` ends it. `int80` before the number asks in the way
 * of 32 bits. An argument is a number, 'text for the address of a text, @1:2:3 for that of three
 * numbers, or ! for what the call before returned. `scan FIRST LAST NUMBER...` asks for all calls
 * from the first to the last except these, and prints the numbers of those that aren't refused. */
#include "words.h"

#define REFUSED (-1)

static uint64_t numbers[64];
static unsigned numbers_used;

static int64_t ask(const uint64_t *call)
{
    register uint64_t fourth __asm__("r10") = call[4];
    register uint64_t fifth __asm__("r8") = call[5];
    register uint64_t sixth __asm__("r9") = call[6];
    int64_t result;

    __asm__ volatile("syscall"
                     : "=a"(result)
                     : "a"(call[0]), "D"(call[1]), "S"(call[2]), "d"(call[3]), "r"(fourth),
                       "r"(fifth), "r"(sixth)
                     : "rcx", "r11", "memory");
    return result;
}

static int64_t ask_by_32_bits(const uint64_t *call)
{
    int64_t result;

    __asm__ volatile("int $0x80"
                     : "=a"(result)
                     : "a"(call[0]), "b"(call[1]), "c"(call[2]), "d"(call[3]), "S"(call[4]),
                       "D"(call[5])
                     : "r8", "r9", "r10", "r11", "memory");
    return (int32_t)result;
}

/* A number, which is hexadecimal after 0x; *text is behind it then. */
static uint64_t number_of(const char **text)
{
    const char *digit = *text;
    bool negative = *digit == '-';
    uint64_t base = 10, number = 0;

    digit += negative;
    if (digit[0] == '0' && digit[1] == 'x') {
        base = 16;
        digit += 2;
    }
    for (; *digit != 0 && *digit != ':'; digit++)
        number = number * base + (uint64_t)(*digit >= 'a' ? *digit - 'a' + 10 : *digit - '0');
    *text = digit;
    return negative ? 0 - number : number;
}

static uint64_t argument(const char *word, int64_t before)
{
    uint64_t *list = numbers + numbers_used;

    if (*word == '!')
        return (uint64_t)before;
    if (*word == '\'')
        return (uint64_t)(uintptr_t)(word + 1);
    if (*word != '@')
        return number_of(&word);
    do {
        word++;
        numbers[numbers_used++] = number_of(&word);
    } while (*word == ':');
    return (uint64_t)(uintptr_t)list;
}

static EFI_STATUS scan(void)
{
    static uint64_t except[64], bounds[2];
    unsigned count = 0;
    const char *word;

    for (unsigned i = 0; i < 2; i++) {
        word = next_word();
        bounds[i] = word == NULL ? 0 : number_of(&word);
    }
    while ((word = next_word()) != NULL && count < 64)
        except[count++] = number_of(&word);
    for (uint64_t number = bounds[0]; number <= bounds[1]; number++) {
        const uint64_t call[7] = {number, (uint64_t)-1, (uint64_t)-1, (uint64_t)-1,
                                  (uint64_t)-1, (uint64_t)-1, (uint64_t)-1};
        bool skipped = false;

        for (unsigned i = 0; i < count; i++)
            skipped |= except[i] == number;
        if (!skipped && ask(call) != REFUSED)
            print_number((int64_t)number);
    }
    print("scanned\r\n");
    return EFI_SUCCESS;
}

static EFI_STATUS application(void)
{
    int64_t result = 0;
    char *word;

    read_words();
    next_word();
    while ((word = next_word()) != NULL) {
        uint64_t call[7] = {0};
        bool by_32_bits = is(word, "int80");
        unsigned count = 0;

        if (is(word, "scan"))
            return scan();
        if (by_32_bits)
            word = next_word();
        for (; word != NULL && !is(word, ";"); word = next_word())
            call[count < 6 ? count++ : 6] = argument(word, result);
        result = by_32_bits ? ask_by_32_bits(call) : ask(call);
        print_number(result);
    }
    return EFI_SUCCESS;
}
