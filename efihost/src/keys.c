/* Where keys come from: a terminal, which is put into raw mode, or a text, of --input or standard
 * input. In a text a line's end is Enter, and a word in << >> is a key that has no letter. What a
 * pipe has not yet is waited for as on a terminal. */
#include "host.h"
#include "numbers.h"

#include <errno.h>
#include <fcntl.h>
#include <poll.h>
#include <stdlib.h>
#include <string.h>
#include <termios.h>
#include <unistd.h>

static const struct {
    const char *name, *sequence;
    uint16_t scan;
} specials[] = {
    {"up", "\033[A", 1},      {"down", "\033[B", 2},    {"right", "\033[C", 3},
    {"left", "\033[D", 4},    {"home", "\033[H", 5},    {"end", "\033[F", 6},
    {"insert", "\033[2~", 7}, {"delete", "\033[3~", 8}, {"pageup", "\033[5~", 9},
    {"pagedown", "\033[6~", 10}, {"f1", "\033OP", 11},  {"f2", "\033OQ", 12},
    {"f3", "\033OR", 13},     {"f4", "\033OS", 14},     {"f5", "\033[15~", 15},
    {"f6", "\033[17~", 16},   {"f7", "\033[18~", 17},   {"f8", "\033[19~", 18},
    {"f9", "\033[20~", 19},   {"f10", "\033[21~", 20},  {"f11", "\033[23~", 21},
    {"f12", "\033[24~", 22},  {"esc", "\033", 23},
    /* What other terminals send. */
    {"up", "\033OA", 1},      {"down", "\033OB", 2},    {"right", "\033OC", 3},
    {"left", "\033OD", 4},    {"home", "\033OH", 5},    {"end", "\033OF", 6},
    {"home", "\033[1~", 5},   {"end", "\033[4~", 6},    {"home", "\033[7~", 5},
    {"end", "\033[8~", 6},    {"f1", "\033[11~", 11},   {"f2", "\033[12~", 12},
    {"f3", "\033[13~", 13},   {"f4", "\033[14~", 14},   {"f1", "\033[[A", 11},
    {"f2", "\033[[B", 12},    {"f3", "\033[[C", 13},    {"f4", "\033[[D", 14},
    {"f5", "\033[[E", 15},
};

static int source = STDIN_FILENO;
static bool terminal, over;
static struct {
    char letters[4096];
    size_t used, count;
} text; /* what is read of a text */
static struct termios saved;
static uint64_t wait_until;
static uint16_t special_key; /* that of the last word, or 0 */
static EFI_INPUT_KEY come; /* a key that is notified and not read yet */
static bool has_come;
static char waiting[16]; /* letters that are read and not used yet */
static size_t waiting_count;

/* A signal handler may do this. */
void restore_keys(void)
{
    if (terminal)
        tcsetattr(STDIN_FILENO, TCSADRAIN, &saved);
}

void restore_terminal(void)
{
    restore_keys();
    if (terminal_out()) {
        fputs("\033[0m\033[?25h", stdout);
        fflush(stdout);
    }
}

void open_keys(const char *file)
{
    struct termios raw;

    if (file != NULL) {
        source = open(file, O_RDONLY | O_CLOEXEC);
        if (source < 0)
            refuse("cannot read %s: %s", file, strerror(errno));
        return;
    }
    terminal = isatty(STDIN_FILENO) && tcgetattr(STDIN_FILENO, &saved) == 0;
    if (!terminal)
        return;
    raw = saved;
    raw.c_lflag &= ~(tcflag_t)(ICANON | ECHO);
    raw.c_iflag &= ~(tcflag_t)(ICRNL | INLCR);
    raw.c_cc[VMIN] = 0;
    raw.c_cc[VTIME] = 0;
    tcsetattr(STDIN_FILENO, TCSADRAIN, &raw);
}

bool keys_from_terminal(void)
{
    return terminal;
}

int keys_descriptor(void)
{
    return source;
}

/* Reads on of a text, if something is there; what is printed so far is shown before. */
static bool read_text(void)
{
    struct pollfd ready = {source, POLLIN, 0};
    ssize_t count;

    fflush(stdout);
    if (poll(&ready, 1, 0) == 0)
        return false;
    count = read(source, text.letters, sizeof text.letters);
    if (count < 0 && (errno == EINTR || errno == EAGAIN))
        return false;
    over = count <= 0;
    text.used = 0;
    text.count = over ? 0 : (size_t)count;
    return !over;
}

/* The next letter, if one is there. */
static bool read_letter(char *letter)
{
    if (terminal)
        return read(STDIN_FILENO, letter, 1) == 1;
    if (over || (text.used == text.count && !read_text()))
        return false;
    *letter = text.letters[text.used++];
    return true;
}

/* Reads on until there are as many letters as asked for, or none is there. */
static bool letters(size_t count)
{
    while (waiting_count < count && read_letter(&waiting[waiting_count]))
        waiting_count++;
    return waiting_count >= count;
}

/* Whether a key may come that is not there yet, of a terminal or a pipe. */
bool keys_may_come(void)
{
    return terminal || (!letters(1) && !over);
}

/* The same, where what is not there yet is waited for. */
static bool all_letters(size_t count)
{
    struct pollfd more = {source, POLLIN, 0};

    while (!letters(count) && !over && !terminal && !host.signalled)
        poll(&more, 1, 100);
    return waiting_count >= count;
}

static void use(size_t count)
{
    waiting_count -= count;
    memmove(waiting, waiting + count, waiting_count);
}

/* Reads a word in << >>, if one begins here. */
static bool read_word(char *word, size_t room)
{
    size_t length = 0;

    if (terminal || !letters(1) || waiting[0] != '<' || !all_letters(2) || waiting[1] != '<')
        return false;
    use(2);
    while (all_letters(1) && waiting[0] != '>' && length < room - 1) {
        word[length++] = waiting[0];
        use(1);
    }
    word[length] = 0;
    if (!all_letters(2) || waiting[0] != '>' || waiting[1] != '>')
        refuse("input: a word in << >> has no end: %s", word);
    use(2);
    return true;
}

/* Takes the words in << >> that are next: a key, or times to wait before it. */
static void take_words(void)
{
    char word[16];
    uint64_t seconds;

    while (wait_until == 0 && special_key == 0 && read_word(word, sizeof word)) {
        if (strncmp(word, "wait ", 5) == 0) {
            if (!number_of_digits(word + 5, strlen(word + 5), 10, &seconds) || word[5] == 0)
                refuse("input: <<%s>> has no number of seconds", word);
            wait_until = now_100ns() + seconds * 10000000;
            continue;
        }
        for (size_t i = 0; i < LENGTH(specials); i++)
            if (strcmp(specials[i].name, word) == 0)
                special_key = specials[i].scan;
        if (special_key == 0)
            refuse("input: <<%s>> is no key", word);
    }
}

/* The longest sequence of a terminal that the letters begin with. */
static bool sequence(EFI_INPUT_KEY *key)
{
    size_t best = 0;

    letters(6);
    for (size_t i = 0; i < LENGTH(specials); i++) {
        size_t length = strlen(specials[i].sequence);

        if (length > best && length <= waiting_count &&
            memcmp(waiting, specials[i].sequence, length) == 0) {
            best = length;
            key->ScanCode = specials[i].scan;
        }
    }
    use(best);
    return best > 0;
}

/* A letter of UTF-8 up to U+FFFF. */
static void letter(EFI_INPUT_KEY *key)
{
    unsigned first = (unsigned char)waiting[0];
    size_t size = first < 0x80 ? 1 : first < 0xe0 ? 2 : 3;
    CHAR16 wide[4] = {0};
    char bytes[4] = {0};

    if (!all_letters(size))
        size = 1;
    memcpy(bytes, waiting, size);
    use(size);
    widen(wide, bytes);
    key->UnicodeChar = wide[0];
    if (wide[0] == '\n')
        key->UnicodeChar = '\r';
    if (wide[0] == 127)
        key->UnicodeChar = 8;
}

static bool waits(void)
{
    if (wait_until != 0 && now_100ns() >= wait_until)
        wait_until = 0;
    return wait_until != 0;
}

bool key_is_ready(void)
{
    if (!waits())
        take_words();
    return has_come || (!waits() && (special_key != 0 || letters(1)));
}

/* Whether no key comes any more. */
bool keys_are_over(void)
{
    return !terminal && !has_come && wait_until == 0 && special_key == 0 && !letters(1) && over;
}

/* The next key; false where there is none yet. */
bool next_key(EFI_INPUT_KEY *key)
{
    *key = (EFI_INPUT_KEY){0, 0};
    if (!key_is_ready())
        return false;
    if (has_come) {
        *key = come;
        has_come = false;
        return true;
    }
    if (special_key != 0) {
        key->ScanCode = special_key;
        special_key = 0;
        return true;
    }
    if (!(terminal && waiting[0] == '\033' && sequence(key)))
        letter(key);
    return true;
}

/* Whether a key comes, while the one before is read already; next_key returns it all the same. */
bool key_comes(EFI_INPUT_KEY *key)
{
    if (has_come || !next_key(&come))
        return false;
    has_come = true;
    *key = come;
    return true;
}
