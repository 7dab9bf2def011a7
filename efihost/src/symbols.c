/* Names of functions, of a .map of lld-link or of an ELF file beside an image; and places as
 * text. */
#include "host.h"

#include <elf.h>
#include <fcntl.h>
#include <stdlib.h>
#include <string.h>
#include <unistd.h>

#define MAX_SYMBOLS (1U << 20)
#define MAX_SYMBOL_LENGTH 255
#define HEAD 4096
#define MAP_BASE " Preferred load address is "

/* A file that may have the names of an image. */
static struct names {
    const char *image;
    uint8_t *bytes;
    size_t length;
} *kept;
static size_t kept_count;

static int by_offset(const void *one, const void *other)
{
    const struct symbol *a = one, *b = other;

    return a->offset < b->offset ? -1 : a->offset > b->offset;
}

static void keep_symbol(struct image *image, uint64_t offset, const char *name, size_t length)
{
    struct symbol *symbol;

    if (offset >= image->size || length == 0 || image->symbol_count == MAX_SYMBOLS)
        return;
    image->symbols =
        must(realloc(image->symbols, (image->symbol_count + 1) * sizeof *image->symbols));
    symbol = &image->symbols[image->symbol_count++];
    symbol->offset = offset;
    symbol->name = must(malloc(length + 1));
    memcpy(symbol->name, name, length);
    symbol->name[length] = 0;
}

/* Lines of a map are a section and an offset in it, a name, and the address, of which the base is
 * that of the line "Preferred load address is". */
static void read_map(struct image *image, char *text)
{
    uint64_t base = 0;

    for (char *line = strtok(text, "\n"); line != NULL; line = strtok(NULL, "\n")) {
        unsigned section, offset;
        unsigned long address;
        char name[256];

        if (sscanf(line, MAP_BASE "%lx", &address) == 1)
            base = address;
        if (sscanf(line, " %x:%x %255s %lx", &section, &offset, name, &address) == 4)
            keep_symbol(image, address - base, name, strlen(name));
    }
}

static void read_elf_table(struct image *image, const uint8_t *file, size_t length,
                           const Elf64_Shdr *table, const Elf64_Shdr *names)
{
    size_t most;

    if (table->sh_offset > length || table->sh_size > length - table->sh_offset ||
        names->sh_offset > length || names->sh_size > length - names->sh_offset)
        return;
    for (size_t at = 0; at + sizeof(Elf64_Sym) <= table->sh_size; at += sizeof(Elf64_Sym)) {
        Elf64_Sym symbol;
        const char *name;

        memcpy(&symbol, file + table->sh_offset + at, sizeof symbol);
        if (ELF64_ST_TYPE(symbol.st_info) != STT_FUNC || symbol.st_name >= names->sh_size)
            continue;
        name = (const char *)file + names->sh_offset + symbol.st_name;
        most = names->sh_size - symbol.st_name;
        most = most < MAX_SYMBOL_LENGTH ? most : MAX_SYMBOL_LENGTH;
        keep_symbol(image, symbol.st_value, name, strnlen(name, most));
    }
}

/* Reads the table of symbols; a file has at most one. */
static void read_elf(struct image *image, const uint8_t *file, size_t length)
{
    Elf64_Ehdr header;

    if (length < sizeof header)
        return;
    memcpy(&header, file, sizeof header);
    if (header.e_shentsize != sizeof(Elf64_Shdr) || header.e_shoff > length ||
        header.e_shnum > (length - header.e_shoff) / sizeof(Elf64_Shdr))
        return;
    for (unsigned i = 0; i < header.e_shnum; i++) {
        Elf64_Shdr table, names;

        memcpy(&table, file + header.e_shoff + i * sizeof table, sizeof table);
        if (table.sh_type != SHT_SYMTAB || table.sh_link >= header.e_shnum)
            continue;
        memcpy(&names, file + header.e_shoff + table.sh_link * sizeof names, sizeof names);
        read_elf_table(image, file, length, &table, &names);
        return;
    }
}

/* Reads names from the bytes of a file, of ELF or else a map, which a zero byte follows. */
static void read_bytes(struct image *image, uint8_t *file, size_t length)
{
    if (length > SELFMAG && memcmp(file, ELFMAG, SELFMAG) == 0)
        read_elf(image, file, length);
    else
        read_map(image, (char *)file);
    if (image->symbol_count > 0)
        qsort(image->symbols, image->symbol_count, sizeof *image->symbols, by_offset);
}

/* Whether a file begins as one of ELF does, or as a map. Of any other file, which an image may name
 * too, nothing stays in the process. */
static bool has_names(const char *path)
{
    char head[HEAD] = "";
    int file = open(path, O_RDONLY | O_NONBLOCK | O_CLOEXEC);
    bool has;

    if (file < 0)
        return false;
    has = read(file, head, sizeof head - 1) > SELFMAG &&
          (memcmp(head, ELFMAG, SELFMAG) == 0 || strstr(head, MAP_BASE) != NULL);
    explicit_bzero(head, sizeof head);
    close(file);
    return has;
}

static void keep_names(const char *image, const char *path)
{
    struct names names = {image, NULL, 0};

    if (has_names(path))
        names.bytes = read_file(path, &names.length);
    if (names.bytes == NULL)
        return;
    kept = must(realloc(kept, (kept_count + 1) * sizeof *kept));
    kept[kept_count++] = names;
}

/* Keeps the files beside an image of the host's that may have its names: first the one that its
 * debug entry names. Later the process has no right to read them. */
void keep_symbols(const char *file, const uint8_t *bytes, size_t length)
{
    static const char *const endings[] = {".map", ".efi.map", ".debug", ".so", ".elf"};
    struct image *image = must(calloc(1, sizeof *image));
    size_t folder = (size_t)(last_part(file) - file), stem = strlen(file);
    const char *debug;
    char path[4096];

    peek_debug_file(bytes, length, image);
    debug = last_part(image->debug_file);
    if (stem > 4 && strcmp(file + stem - 4, ".efi") == 0)
        stem -= 4;
    if (*debug != 0) {
        snprintf(path, sizeof path, "%.*s%s", (int)folder, file, debug);
        keep_names(file, path);
    }
    for (size_t i = 0; i < LENGTH(endings); i++) {
        snprintf(path, sizeof path, "%.*s%s", (int)stem, file, endings[i]);
        keep_names(file, path);
    }
    free(image);
}

/* Reads the names of the first of the files kept for an image that has some. `file` is the image's
 * path, or NULL. */
void read_symbols(struct image *image, const char *file)
{
    for (size_t i = 0; i < kept_count; i++) {
        struct names *it = &kept[i];

        if (it->image != file || it->bytes == NULL)
            continue;
        if (image->symbol_count == 0)
            read_bytes(image, it->bytes, it->length);
        free(it->bytes);
        it->bytes = NULL;
    }
}

/* The name of the function at an offset, or NULL. */
static const char *function_at(const struct image *image, uint64_t offset)
{
    size_t low = 0, high = image->symbol_count;

    while (low < high) {
        size_t middle = low + (high - low) / 2;

        if (image->symbols[middle].offset <= offset)
            low = middle + 1;
        else
            high = middle;
    }
    return low == 0 ? NULL : image->symbols[low - 1].name;
}

/* A place in an image, or an address; the text stays until the 16th call after this. */
const char *place_text(struct image *image, uint64_t address)
{
    static char turns[16][400];
    static unsigned turn;
    char *text = turns[turn++ % 16];
    const char *function = image == NULL ? NULL : function_at(image, address);

    if (image == NULL && address == 0)
        snprintf(text, sizeof turns[0], "efihost");
    else if (image == NULL)
        snprintf(text, sizeof turns[0], "0x%lx", address);
    else if (function == NULL)
        snprintf(text, sizeof turns[0], "%s+0x%lx", image->name, address);
    else
        snprintf(text, sizeof turns[0], "%s+0x%lx (%s)", image->name, address, function);
    return text;
}

const char *where(uint64_t address)
{
    struct image *image = image_at(address);

    return place_text(image, image == NULL ? address : address - image->base);
}

/* Where something was asked for, and the callers before, of which those are left out that have no
 * room; it stays until the fourth call. */
const char *origin_text(const struct origin *origin)
{
    static char turns[4][1600];
    static unsigned turn;
    char *text = turns[turn++ % 4];
    const struct caller *caller = origin->callers;
    size_t used = 0;

    snprintf(text, sizeof turns[0], "%s", place_text(origin->image, origin->address));
    for (unsigned i = 0; i < TRAIL && caller != NULL; i++, caller = caller->outer) {
        const char *place = place_text(caller->image, caller->address);

        used += strlen(text + used);
        if (used + strlen(place) + 4 > sizeof turns[0])
            break;
        snprintf(text + used, sizeof turns[0] - used, " < %s", place);
    }
    return text;
}
