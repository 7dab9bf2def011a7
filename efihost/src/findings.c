/* What --check and --guard find: each is said once for each place with all its callers, counted, and
 * in the report. */
#include "host.h"

#include <stdarg.h>
#include <stdlib.h>
#include <string.h>

struct one_finding {
    enum finding kind;
    struct origin origin, other;
    uint64_t count;
    char text[400];
};
static struct one_finding *findings;
static size_t finding_count;

size_t findings_count(void)
{
    return finding_count;
}

const char *finding_name(enum finding kind)
{
    static const char *const names[FINDING_KINDS] = {
        "behind-block", "before-block", "use-after-free", "free-not-live", "never-placed",
        "run-border",   "image-rights", "leak",           "stale-key",     "after-exit",
        "data-executed", "firmware-written"};

    return names[kind];
}

/* The finding of this kind, and of these places and callers, that is there already, or NULL. Each leak
 * is one of its own. */
static struct one_finding *same_finding(enum finding kind, const struct origin *origin,
                                        const struct origin *other)
{
    for (size_t i = 0; kind != LEAK && i < finding_count; i++)
        if (findings[i].kind == kind && same_origin(&findings[i].origin, origin) &&
            same_origin(&findings[i].other, other))
            return &findings[i];
    return NULL;
}

static void print_finding(const struct one_finding *one)
{
    fprintf(stderr, "efihost: %s: %s\n", finding_name(one->kind), one->text);
    fprintf(stderr, "efihost:   at %s\n", origin_text(&one->origin));
}

static void note(enum finding kind, const struct origin *origin, const struct origin *other,
                 const char *format, va_list words)
{
    struct one_finding *one = same_finding(kind, origin, other);

    if (one != NULL) {
        one->count++;
        return;
    }
    findings = must(realloc(findings, (finding_count + 1) * sizeof *findings));
    one = &findings[finding_count++];
    one->kind = kind;
    one->origin = *origin;
    one->other = *other;
    one->count = 1;
    vsnprintf(one->text, sizeof one->text, format, words);
    fflush(stdout);
    print_finding(one);
}

/* Notes a finding: `origin` is the code that is to blame, or that made the block that was harmed. */
void found(enum finding kind, const struct origin *origin, const char *format, ...)
{
    const struct origin none = {0};
    va_list words;

    va_start(words, format);
    if (host.checks)
        note(kind, origin, &none, format, words);
    va_end(words);
}

/* The same of two places, such as those of an access and of the block's allocation. */
void found_with(enum finding kind, const struct origin *origin, const struct origin *other,
                const char *format, ...)
{
    va_list words;

    va_start(words, format);
    if (host.checks)
        note(kind, origin, other, format, words);
    va_end(words);
}

/* An access to the memory of a pool block, live or freed, or to what lies around it. */
static void found_at_block(const struct block *block, const struct origin *origin, const char *how,
                           uint64_t address)
{
    if (block->gone)
        found_with(USE_AFTER_FREE, origin, &block->origin,
                   "%s byte %ld of %lu bytes at 0x%lx made by %s, which %s freed", how,
                   (int64_t)(address - block->at), block->size, block->at,
                   origin_text(&block->origin), origin_text(&block->freed));
    else
        found_with(BEHIND_BLOCK, origin, &block->origin,
                   "%s byte %lu behind a block of %lu bytes at 0x%lx made by %s", how,
                   address - block->at - block->size, block->size, block->at,
                   origin_text(&block->origin));
}

/* An access to memory that is shut: whose it is, or was. */
void found_access(uint64_t address, uint64_t instruction, const char *how)
{
    struct origin origin = origin_at(instruction);
    struct block *block = ledger_block_around(address);
    struct freed_run *freed = ledger_freed_with(address);
    struct run *run = ledger_run_beside(address);
    uint64_t byte;
    const char *structure = structure_at(address, &byte);

    if (image_at(instruction) == NULL && host.call != NULL)
        origin = origin_now();
    if (structure != NULL)
        found(FIRMWARE_WRITTEN, &origin, "%s byte %lu of %s at 0x%lx, which images only read", how,
              byte, structure, address - byte);
    else if (block != NULL)
        found_at_block(block, &origin, how, address);
    else if (run != NULL)
        found_with(RUN_BORDER, &origin, &run->origin,
                   "%s 0x%lx, %s %lu pages at 0x%lx placed by %s", how, address,
                   address < run->at ? "before" : "behind", run->pages, run->at,
                   origin_text(&run->origin));
    else if (freed != NULL)
        found_with(USE_AFTER_FREE, &origin, &freed->made,
                   "%s byte %lu of %lu bytes at 0x%lx made by %s, which %s freed", how,
                   address - freed->at, (uint64_t)(freed->pages * PAGE), freed->at,
                   origin_text(&freed->made), origin_text(&freed->freed));
    else
        found(NEVER_PLACED, &origin, "%s 0x%lx, in a page that %s", how, address,
              in_pieces(address) ? "no block of the pool has" : "nobody placed");
}

/* ---- What an image left ---- */

struct leaks {
    struct image *image;
    const char *when;
    struct group {
        struct origin origin;
        uint64_t count, bytes;
    } *groups;
    size_t group_count, room;
};

/* Memory that an image's function took for another's code may be for that to free. */
static void add_leak(struct leaks *leaks, const struct origin *origin, uint64_t bytes)
{
    size_t i = 0;

    if (origin->image != leaks->image || for_other(origin))
        return;
    while (i < leaks->group_count && !same_origin(&leaks->groups[i].origin, origin))
        i++;
    if (i == leaks->room) {
        leaks->room = leaks->room == 0 ? 16 : 2 * leaks->room;
        leaks->groups = must(realloc(leaks->groups, leaks->room * sizeof *leaks->groups));
    }
    if (i == leaks->group_count)
        leaks->groups[leaks->group_count++] = (struct group){*origin, 0, 0};
    leaks->groups[i].count++;
    leaks->groups[i].bytes += bytes;
}

/* Memory that is to stay: a configuration table's, the options of an image that stays, or of a type
 * that the operating system keeps. */
static bool is_to_stay(const struct image *image, uint32_t type, uint64_t at, uint64_t size)
{
    return type == RAFKUDIN_RESERVED || type == RAFKUDIN_RUNTIME_SERVICES_CODE ||
           type == RAFKUDIN_RUNTIME_SERVICES_DATA || type == RAFKUDIN_ACPI_RECLAIM ||
           type == RAFKUDIN_ACPI_MEMORY_NVS || has_table(at, size) ||
           has_load_options(image, at, size);
}

static void add_block(struct block *block, void *context)
{
    struct leaks *leaks = context;

    if (!is_to_stay(leaks->image, block->type, block->at, block->size))
        add_leak(context, &block->origin, block->size);
}

static void add_run(struct run *run, void *context)
{
    struct leaks *leaks = context;

    if (!is_to_stay(leaks->image, run->type, run->at, run->pages * PAGE))
        add_leak(context, &run->origin, run->pages * PAGE);
}

static void say_leaks(struct leaks *leaks, const char *what)
{
    for (size_t i = 0; i < leaks->group_count; i++)
        found(LEAK, &leaks->groups[i].origin, "%s %s: left %lu of %s, %lu bytes",
              leaks->image->name, leaks->when, leaks->groups[i].count, what,
              leaks->groups[i].bytes);
    leaks->group_count = 0;
}

/* An open or an interface that is still there; what ended without its image's doing is not. */
static void say_held(const struct held *held, void *context)
{
    struct leaks *leaks = context;
    uint64_t value = 0;

    if (held->origin.image != leaks->image ||
        core_handle_protocol(held->handle, &held->guid, &value) != EFI_SUCCESS)
        return;
    if (held->attributes == 0)
        found(LEAK, &held->origin, "%s %s: left protocol %s on handle %lu", leaks->image->name,
              leaks->when, guid_text(&held->guid), held->handle);
    else
        found(LEAK, &held->origin, "%s %s: left protocol %s of handle %lu open, attributes 0x%x",
              leaks->image->name, leaks->when, guid_text(&held->guid), held->handle,
              held->attributes);
}

void look_for_leaks(struct image *image, const char *when)
{
    static struct leaks leaks;
    size_t events;

    if (!host.checks || host.exited)
        return;
    leaks.image = image;
    leaks.when = when;
    leaks.group_count = 0;
    ledger_each_block(add_block, &leaks);
    say_leaks(&leaks, "its pool blocks");
    ledger_each_run(add_run, &leaks);
    say_leaks(&leaks, "its runs of pages");
    each_held(say_held, &leaks);
    events = events_of(image);
    if (events > 0) {
        struct origin origin = {image, image->entry - image->base, 0, NULL};

        found(LEAK, &origin, "%s %s: left %zu of its events", image->name, when, events);
    }
}

/* ---- The report for programs ---- */

/* The bytes of the letter of UTF-8 that begins here, or 0 where none does. */
static size_t letter_size(const char *text)
{
    unsigned char first = (unsigned char)*text;
    size_t size = first < 0x80 ? 1 : first < 0xc2 ? 0 : first < 0xe0 ? 2 : first < 0xf0 ? 3 : 4;

    for (size_t i = 1; i < size; i++)
        if ((text[i] & 0xc0) != 0x80)
            return 0;
    return first < 0xf5 ? size : 0;
}

/* A text of JSON. Names of files may have any bytes: those that are no letters are question marks. */
void write_text(FILE *file, const char *text)
{
    fputc('"', file);
    while (*text != 0) {
        size_t size = letter_size(text);

        if (*text == '"' || *text == '\\')
            fputc('\\', file);
        if (size == 0)
            fputc('?', file);
        else if ((unsigned char)*text < ' ')
            fprintf(file, "\\u%04x", (unsigned)*text);
        else
            fwrite(text, 1, size, file);
        text += size == 0 ? 1 : size;
    }
    fputc('"', file);
}

void write_findings(FILE *file)
{
    fprintf(file, "  \"findings\": [");
    for (size_t i = 0; i < finding_count; i++) {
        fprintf(file, "%s\n    { \"kind\": \"%s\", \"count\": %lu, \"text\": ", i == 0 ? "" : ",",
                finding_name(findings[i].kind), findings[i].count);
        write_text(file, findings[i].text);
        fprintf(file, ", \"at\": ");
        write_text(file, origin_text(&findings[i].origin));
        fprintf(file, " }");
    }
    fprintf(file, "%s],\n  \"missing\": [", finding_count == 0 ? "" : "\n  ");
    for (size_t i = 0; i < missing_count(); i++) {
        if (i != 0)
            fprintf(file, ", ");
        write_text(file, missing_name(i));
    }
    fprintf(file, "]\n");
}
