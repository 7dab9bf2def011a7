/* The file of --variables, a line for each variable: GUID, attributes, the name's letters and the
 * value's bytes, all but the attributes in hexadecimal.
 *
 * A run that is killed loses nothing. The whole text is first written to a file beside it,
 * FILE.efihost, with a last line that has its checksum, and then to FILE. So FILE is whole unless
 * FILE.efihost is, which then has the later text. Renaming one to the other would take a right to
 * all files of the folder, which an image must not have; these two are opened before the process
 * gives up its rights. */
#include "variables.h"

#include "numbers.h"

#include <errno.h>
#include <fcntl.h>
#include <limits.h>
#include <stdlib.h>
#include <string.h>
#include <sys/file.h>
#include <sys/stat.h>
#include <unistd.h>

#define MAX_FILE_SIZE (16 << 20)
#define END_LINE 13U /* "end ", the checksum and a line feed */

static const char *store_name;
static int store = -1, beside = -1;

struct variable **variable_link(struct variable **first, const CHAR16 *name, const EFI_GUID *guid)
{
    struct variable **link = first;

    while (*link != NULL &&
           !(wide_equal((*link)->name, name) && guid_equal(&(*link)->guid, guid)))
        link = &(*link)->next;
    return link;
}

size_t variable_cost(const struct variable *it)
{
    return VARIABLE_OVERHEAD + 2 * wide_length(it->name) + it->size;
}

size_t variable_room(const struct variable *first, uint32_t attributes)
{
    size_t used = 0;

    for (const struct variable *it = first; it != NULL; it = it->next)
        if (((it->attributes ^ attributes) & EFI_VARIABLE_NON_VOLATILE) == 0)
            used += variable_cost(it);
    return used < VARIABLE_ROOM ? VARIABLE_ROOM - used : 0;
}

void free_variable(struct variable *it)
{
    if (it != NULL)
        free(it->value);
    free(it);
}

/* A word of a line, up to the blank or the line feed behind it, which is passed. */
struct word {
    const char *at;
    size_t length;
};

static bool next_word(const char **at, const char *end, char ending, struct word *word)
{
    const char *behind = memchr(*at, ending, (size_t)(end - *at));

    if (behind == NULL)
        return false;
    *word = (struct word){*at, (size_t)(behind - *at)};
    *at = behind + 1;
    return true;
}

/* Reads bytes in hexadecimal, at most `room`. */
static bool read_bytes(struct word word, void *bytes, size_t room)
{
    if (word.length % 2 != 0 || word.length / 2 > room)
        return false;
    for (size_t i = 0; i < word.length / 2; i++) {
        unsigned high = digit_of(word.at[2 * i]), low = digit_of(word.at[2 * i + 1]);

        if (high > 15 || low > 15)
            return false;
        ((uint8_t *)bytes)[i] = (uint8_t)(high << 4 | low);
    }
    return true;
}

static bool read_attributes(struct word word, uint32_t *attributes)
{
    const uint32_t kept = EFI_VARIABLE_NON_VOLATILE | EFI_VARIABLE_BOOTSERVICE_ACCESS;
    uint64_t number;

    if (word.length == 0 || !number_of_digits(word.at, word.length, 10, &number) ||
        number > UINT32_MAX || (number & kept) != kept)
        return false;
    *attributes = (uint32_t)number;
    return true;
}

/* The variable of a line without its line feed, or NULL. */
static struct variable *read_line(const char *at, const char *end)
{
    struct variable *it = must(calloc(1, sizeof *it));
    struct word guid, attributes, name, value;

    if (next_word(&at, end, ' ', &guid) && guid.length == 2 * sizeof it->guid &&
        read_bytes(guid, &it->guid, sizeof it->guid) &&
        next_word(&at, end, ' ', &attributes) && read_attributes(attributes, &it->attributes) &&
        next_word(&at, end, ' ', &name) && name.length > 0 && name.length % 4 == 0 &&
        read_bytes(name, it->name, sizeof it->name - sizeof it->name[0]) &&
        wide_length(it->name) == name.length / 4) {
        value = (struct word){at, (size_t)(end - at)};
        it->size = value.length / 2;
        it->value = must(malloc(it->size + 1));
        if (it->size == 0 ? value.length == 1 && *at == '-'
                          : it->size <= MAX_VALUE_SIZE && read_bytes(value, it->value, it->size))
            return it;
    }
    free_variable(it);
    return NULL;
}

/* A variable that is there twice is the last one, and one without a value is none. */
static void keep_variable(struct variable **first, struct variable *it)
{
    struct variable **link = variable_link(first, it->name, &it->guid), *old = *link;

    if (it->size == 0) {
        free_variable(it);
        return;
    }
    it->next = old == NULL ? NULL : old->next;
    *link = it;
    free_variable(old);
}

size_t read_variables(const char *text, size_t length, struct variable **first)
{
    const char *at = text, *end = text + length;
    size_t used = 0;
    struct variable *it;
    struct word line;

    for (size_t number = 1; at < end; number++) {
        if (!next_word(&at, end, '\n', &line))
            return number;
        it = read_line(line.at, line.at + line.length);
        if (it == NULL)
            return number;
        used += variable_cost(it);
        keep_variable(first, it);
        if (used > VARIABLE_ROOM)
            return number;
    }
    return 0;
}

static void put_bytes(FILE *text, const void *bytes, size_t count)
{
    static const char digits[] = "0123456789abcdef";
    const uint8_t *from = bytes;

    for (size_t i = 0; i < count; i++) {
        fputc(digits[from[i] >> 4], text);
        fputc(digits[from[i] & 15], text);
    }
}

/* The text of variables, which is the caller's to free, or NULL where there is no memory for it. */
char *variables_text(const struct variable *first, size_t *length)
{
    char *text = NULL;
    FILE *file = open_memstream(&text, length);
    bool failed;

    if (file == NULL)
        return NULL;
    for (const struct variable *it = first; it != NULL; it = it->next) {
        if ((it->attributes & EFI_VARIABLE_NON_VOLATILE) == 0)
            continue;
        put_bytes(file, &it->guid, sizeof it->guid);
        fprintf(file, " %u ", it->attributes);
        put_bytes(file, it->name, 2 * wide_length(it->name));
        fputc(' ', file);
        put_bytes(file, it->value, it->size);
        fputc('\n', file);
    }
    failed = ferror(file) != 0;
    if (fclose(file) == 0 && !failed)
        return text;
    free(text);
    return NULL;
}

/* Makes a text the whole of a file, on the disk too. What was there is overwritten before the file
 * is cut. */
static bool write_whole(int file, const char *text, size_t length)
{
    for (size_t done = 0; done < length;) {
        ssize_t count = pwrite(file, text + done, length - done, (off_t)done);

        if (count < 0 && errno != EINTR)
            return false;
        done += count < 0 ? 0 : (size_t)count;
    }
    if (ftruncate(file, (off_t)length) != 0)
        return false;
    while (fsync(file) != 0)
        if (errno != EINTR)
            return false;
    return true;
}

/* Writes FILE; once that has begun FILE.efihost stays until it is done. */
static bool write_store(const char *text, size_t length)
{
    if (write_whole(store, text, length))
        return ftruncate(beside, 0) == 0;
    close(beside);
    beside = -1;
    return false;
}

bool save_variables(const struct variable *first)
{
    char *text, *whole = NULL;
    size_t length;
    bool saved = false;

    if (store_name == NULL)
        return true;
    if (beside < 0)
        return false;
    text = variables_text(first, &length);
    if (text != NULL)
        whole = malloc(length + END_LINE + 1);
    if (whole != NULL) {
        memcpy(whole, text, length);
        sprintf(whole + length, "end %08x\n", crc32_of(text, length));
        saved = write_whole(beside, whole, length + END_LINE) && write_store(text, length);
    }
    if (!saved)
        fprintf(stderr, "efihost: cannot write %s: %s\n", store_name, strerror(errno));
    free(whole);
    free(text);
    return saved;
}

/* Whether FILE.efihost is whole, and the length of the text before its last line. */
static bool is_whole(const char *text, size_t length, size_t *inner)
{
    char end[END_LINE + 1];

    if (length < END_LINE)
        return false;
    *inner = length - END_LINE;
    sprintf(end, "end %08x\n", crc32_of(text, *inner));
    return memcmp(text + *inner, end, END_LINE) == 0;
}

static void refuse_store(const char *name)
{
    refuse("cannot open %s: %s", name, strerror(errno));
}

static int open_regular(const char *name, int flags, mode_t mode)
{
    int file = open(name, O_RDWR | O_CREAT | O_CLOEXEC | flags, mode);
    struct stat about;

    if (file < 0)
        refuse_store(name);
    if (fstat(file, &about) != 0 || !S_ISREG(about.st_mode))
        refuse("%s is no file", name);
    return file;
}

/* Opens FILE.efihost, which has the rights of FILE. A link is followed first, so that it is beside
 * the file itself. */
static void open_beside(const char *name)
{
    static char path[PATH_MAX + 16];
    struct stat about, other;

    if (realpath(name, path) == NULL || fstat(store, &about) != 0)
        refuse_store(name);
    strcat(path, ".efihost");
    beside = open_regular(path, O_NOFOLLOW, about.st_mode & 0666);
    if (fstat(beside, &other) != 0 || (((about.st_mode ^ other.st_mode) & 0666) != 0 &&
                                       fchmod(beside, about.st_mode & 0666) != 0))
        refuse_store(path);
}

void open_store(const char *name)
{
    store = open_regular(name, 0, 0666);
    if (flock(store, LOCK_EX | LOCK_NB) != 0 && errno == EWOULDBLOCK)
        refuse("another efihost has the variables of %s", name);
    open_beside(name);
    store_name = name;
}

/* The text of one of the two files, which is the caller's to free. */
static char *read_open(int file, size_t *length)
{
    struct stat about = {0};
    ssize_t count = -1;
    char *text;

    if (fstat(file, &about) == 0 && about.st_size > MAX_FILE_SIZE)
        refuse("variables: %s: it is too long", store_name);
    text = must(malloc((size_t)about.st_size + 1));
    count = pread(file, text, (size_t)about.st_size, 0);
    if (count < 0)
        refuse("cannot read %s: %s", store_name, strerror(errno));
    *length = (size_t)count;
    return text;
}

void load_store(struct variable **first)
{
    size_t length, inner, bad;
    char *text = read_open(beside, &length);

    if (is_whole(text, length, &inner) && !write_store(text, inner))
        refuse("cannot write %s: %s", store_name, strerror(errno));
    free(text);
    text = read_open(store, &length);
    bad = read_variables(text, length, first);
    if (bad != 0)
        refuse("variables: %s: line %zu is no variable, or has no room; the file stays as it is",
               store_name, bad);
    free(text);
}
