/* Placements and frees on the memory maps of real firmware:
 *
 *     real_maps MACHINE ..
 *
 * On each machine drawn calls of AllocatePages and FreePages are judged by a plain array of
 * stretches, with which the whole map is compared after each; so they are where the middle third of
 * each free entry is memory of specific purpose, and with a granule of 16 pages where the machine
 * can have one. The certificates of three requests are accepted, and refused with any of their
 * numbers changed by one. A core that makes no certificates places where one that makes them does.
 * Each point that does not hold is printed on standard error, and then the status is 1. */
#include "draws.h"
#include "fault.h"
#include "points.h"
#include "stretches.h"

#include <stdio.h>
#include <stdlib.h>
#include <string.h>

/* How many calls are made on each map; at least half of these change it, and of the first tenth
 * too. */
#define CALLS 1000U
#define FIRST_CALLS 400U

/* Pages that were placed and not freed since. */
#define MAX_PLACED CALLS

/* A core, the stretches that it is compared with, and what was placed. */
struct memory {
    struct rafkudin *core;
    struct stretches stretches;
    uint64_t granule;
    struct {
        uint64_t first, end;
    } placed[2 * MAX_PLACED];
    size_t placed_count;
};

/* A request for pages, as it was drawn, with the granule of its type. */
struct drawn {
    uint32_t kind, type;
    uint64_t pages, memory, granule;
};

/* A number below 256, from a place of what is drawn. */
static size_t place_of(uint64_t seed, unsigned place)
{
    return seed >> place & 0xff;
}

static uint64_t border_below(uint64_t page, uint64_t granule)
{
    return page - page % granule;
}

static uint64_t border_above(uint64_t page, uint64_t granule)
{
    return border_below(page + granule - 1, granule);
}

/* A request, whose address is up to 63 pages above the first page of a stretch, and often at the
 * border of a granule. */
static struct drawn draw_request(uint64_t seed, const struct memory *memory)
{
    static const uint32_t kinds[4] = {0, 0, 1, 2};
    static const uint32_t types[16] = {0, 1,  2,  3,  4,  5,          6,          8,
                                       9, 10, 11, 12, 13, 0x70000001, 0x80000000, 0xffffffff};
    size_t at = place_of(seed, 20);
    uint64_t page = at < memory->stretches.count ? memory->stretches.list[at].first : 0;
    struct drawn drawn;

    drawn.kind = kinds[place_of(seed, 50) % 4];
    drawn.type = types[place_of(seed, 40) % 16];
    drawn.pages = (seed >> 54 & 0x1f) + 1;
    drawn.granule = granule_of(drawn.type, memory->granule);
    page += seed >> 30 & 0x3f;
    drawn.memory = border_below(page, (seed >> 36 & 3) != 0 ? drawn.granule : 1) * PAGE_SIZE;
    return drawn;
}

/* How many pages a request takes: they fill granules. */
static uint64_t taken_by(const struct drawn *drawn)
{
    return border_above(drawn->pages, drawn->granule);
}

/* The page number by which the pages of a request end. */
static uint64_t limit_of(const struct drawn *drawn)
{
    return drawn->kind == RAFKUDIN_MAX_ADDRESS ? drawn->memory / PAGE_SIZE : PAGE_COUNT;
}

/* Whether some start is permitted: then the first border of a granule in a stretch is. */
static bool has_place(const struct stretches *stretches, const struct drawn *drawn)
{
    for (size_t at = 0; at < stretches->count; at++) {
        uint64_t first = border_above(stretches->list[at].first, drawn->granule);
        uint64_t end = first + taken_by(drawn);

        if (end <= limit_of(drawn) && are_all(stretches, first, end, AVAILABLE))
            return true;
    }
    return false;
}

/* The status of a request. */
static uint64_t status_of(const struct stretches *stretches, const struct drawn *drawn)
{
    uint64_t first = drawn->memory / PAGE_SIZE;

    if (drawn->kind != RAFKUDIN_AT_ADDRESS)
        return has_place(stretches, drawn) ? RAFKUDIN_SUCCESS : RAFKUDIN_OUT_OF_RESOURCES;
    return first % drawn->granule == 0 && are_all(stretches, first, first + taken_by(drawn), FREE)
               ? RAFKUDIN_SUCCESS
               : RAFKUDIN_NOT_FOUND;
}

static void push_placed(struct memory *memory, uint64_t first, uint64_t end)
{
    if (first >= end)
        return;
    memory->placed[memory->placed_count].first = first;
    memory->placed[memory->placed_count++].end = end;
}

/* Makes a request that was drawn, judges the reply, and returns whether it was served. */
static bool place(struct memory *memory, uint64_t seed)
{
    struct drawn drawn = draw_request(seed, memory);
    uint64_t address = drawn.memory, status = status_of(&memory->stretches, &drawn);
    struct change change;

    HOLDS(RafkudinAllocatePages(memory->core, drawn.kind, drawn.type, drawn.pages, &address) ==
          status);
    if (status != RAFKUDIN_SUCCESS) {
        HOLDS(address == drawn.memory);
        return false;
    }
    change = (struct change){address / PAGE_SIZE, 0, drawn.type, true};
    change.end = change.first + taken_by(&drawn);
    HOLDS(address % PAGE_SIZE == 0 && change.first % drawn.granule == 0);
    HOLDS(are_all(&memory->stretches, change.first, change.end,
                  drawn.kind == RAFKUDIN_AT_ADDRESS ? FREE : AVAILABLE));
    HOLDS(drawn.kind == RAFKUDIN_AT_ADDRESS ? address == drawn.memory
                                            : change.end <= limit_of(&drawn));
    stretches_change(&memory->stretches, &change);
    push_placed(memory, change.first, change.end);
    return true;
}

/* Frees pages that were placed, one page more, or some of them, and judges the reply. */
static bool give(struct memory *memory, uint64_t seed)
{
    size_t at = place_of(seed, 20) % memory->placed_count;
    uint64_t first = memory->placed[at].first, end = memory->placed[at].end, from = first, to = end;
    struct change change = {0, 0, RAFKUDIN_CONVENTIONAL, false};
    bool are_placed;

    memory->placed[at] = memory->placed[--memory->placed_count];
    if ((seed >> 45 & 3) == 0)
        to = end + 1;
    else if ((seed >> 45 & 3) == 1)
        from = first + 3 < end ? first + 3 : end - 1;
    else if ((seed >> 45 & 3) == 2)
        to = end > first + 3 ? end - 2 : first + 1;
    are_placed = are_all(&memory->stretches, from, to, PLACED);
    HOLDS(RafkudinFreePages(memory->core, from * PAGE_SIZE, to - from) ==
          (are_placed ? RAFKUDIN_SUCCESS : RAFKUDIN_NOT_FOUND));
    if (!are_placed)
        return false;
    change.first = border_below(from, granule_at(&memory->stretches, from, memory->granule));
    change.end = border_above(to, granule_at(&memory->stretches, to - 1, memory->granule));
    stretches_change(&memory->stretches, &change);
    push_placed(memory, first, change.first);
    push_placed(memory, change.end, end);
    return true;
}

/* Makes drawn calls on a machine with a granule, if it can have that; the answer is whether it
 * can. */
static bool draw_on(const struct machine *machine, uint64_t granule, bool has_specific_purpose)
{
    static struct memory memory;
    unsigned changes = 0;
    uint64_t seed = 1;

    memory.stretches = stretches_of(machine, has_specific_purpose);
    memory.core = core_of(&memory.stretches, granule);
    memory.granule = granule;
    memory.placed_count = 0;
    for (unsigned call = 0; memory.core != NULL && call < CALLS; call++) {
        HOLDS(call != 0 || is_map_of(memory.core, &memory.stretches));
        draw(&seed);
        changes += seed >> 61 >= 3 || memory.placed_count == 0 ? place(&memory, seed)
                                                               : give(&memory, seed);
        HOLDS(is_map_of(memory.core, &memory.stretches));
        HOLDS(call + 1 != FIRST_CALLS || changes >= FIRST_CALLS / 2);
    }
    HOLDS(memory.core == NULL || changes >= CALLS / 2);
    free(memory.stretches.list);
    if (memory.core == NULL)
        return false;
    RafkudinFree(memory.core);
    return true;
}

/* ---- Certificates ---- */

/* The certificate of the last call as a text, null where there is none. */
static char *certificate_of(const struct rafkudin *core)
{
    uint64_t length = 0;
    char *text;

    if (RafkudinCertificate(core, NULL, 0, &length) == RAFKUDIN_NOT_FOUND)
        return NULL;
    text = grow(NULL, length + 1);
    HOLDS(RafkudinCertificate(core, (uint8_t *)text, length, &length) == RAFKUDIN_SUCCESS);
    text[length] = 0;
    return text;
}

static uint64_t judged(const char *text)
{
    uint64_t line = 0;

    return RafkudinCheck((const uint8_t *)text, strlen(text), &line);
}

/* Whether a block is refused once a word in it is another. */
static bool is_refused_with(const char *text, const char *word, const char *other)
{
    size_t before = (size_t)(word - text), length = strlen(text) + strlen(other) + 1;
    char *changed = grow(NULL, length);
    uint64_t status;

    snprintf(changed, length, "%.*s%s%s", (int)before, text, other, word + strcspn(word, " \n"));
    status = judged(changed);
    free(changed);
    return status == RAFKUDIN_ACCESS_DENIED || status == RAFKUDIN_INVALID_PARAMETER;
}

/* Whether a block is refused once this is added to a number in it. */
static bool is_refused_by(const char *text, const char *number, uint64_t more)
{
    char other[24];

    snprintf(other, sizeof other, "%llu", strtoull(number, NULL, 10) + (unsigned long long)more);
    return is_refused_with(text, number, other);
}

/* Tries a block with each number of its bounds and its answer changed by one, and with numbers in
 * place of each `none`. The answer is how many words were changed. */
static unsigned try_words(const char *text)
{
    const char *at = strstr(text, "\nbounds ");
    unsigned words = 0;

    HOLDS(at != NULL);
    for (; at != NULL && *at != 0; at++) {
        if (*at >= '0' && *at <= '9' && (at[-1] == ' ' || at[-1] == '\n'))
            HOLDS(is_refused_by(text, at, 1) && is_refused_by(text, at, UINT64_MAX));
        else if (strncmp(at, "none\n", 5) == 0)
            HOLDS(is_refused_with(text, at, "1 0") && is_refused_with(text, at, "0 1") &&
                  is_refused_with(text, at, "0 0"));
        else
            continue;
        words++;
    }
    return words;
}

static struct rafkudin *whole_core(const struct machine *machine, bool certifies)
{
    struct stretches stretches = stretches_of(machine, false);
    struct rafkudin *core = core_of(&stretches, 1);

    free(stretches.list);
    if (core == NULL)
        fail("a machine is refused");
    RafkudinCertify(core, certifies);
    return core;
}

/* Tries the certificates of requests that name no address. */
static void try_certificates(const struct machine *machine)
{
    static const struct {
        uint32_t type;
        uint64_t pages, limit;
    } requests[3] = {{4, 1, PAGE_COUNT}, {6, 16, PAGE_COUNT}, {2, 64, 0x100000}};
    struct rafkudin *core = whole_core(machine, true);

    for (size_t at = 0; at < 3; at++) {
        uint64_t memory = requests[at].limit * PAGE_SIZE - 1;
        uint32_t kind = requests[at].limit < PAGE_COUNT ? RAFKUDIN_MAX_ADDRESS : RAFKUDIN_ANY_PAGES;
        char *text;

        HOLDS(RafkudinAllocatePages(core, kind, requests[at].type, requests[at].pages, &memory) ==
              RAFKUDIN_SUCCESS);
        text = certificate_of(core);
        HOLDS(text != NULL && judged(text) == RAFKUDIN_SUCCESS && try_words(text) >= 6);
        free(text);
    }
    RafkudinFree(core);
}

/* ---- Cores without certificates ---- */

/* Makes the call with a number, and returns the address: each third asks for a block of the pool,
 * the others for pages. */
static uint64_t place_numbered(struct rafkudin *core, uint64_t number)
{
    static const uint32_t types[4] = {4, 6, 2, 10};
    uint64_t address = 0;

    if (number % 3 == 0)
        HOLDS(RafkudinAllocatePool(core, 4, number * 97 % 9000, &address) == RAFKUDIN_SUCCESS);
    else
        HOLDS(RafkudinAllocatePages(core, RAFKUDIN_ANY_PAGES, types[number % 4], number % 7 + 1,
                                    &address) == RAFKUDIN_SUCCESS);
    return address;
}

static bool has_certificate(const struct rafkudin *core)
{
    char *text = certificate_of(core);

    free(text);
    return text != NULL;
}

/* Both place alike, and a core makes certificates again once it is asked for them. */
static void try_uncertified(const struct machine *machine)
{
    struct rafkudin *certifying = whole_core(machine, true), *other = whole_core(machine, false);
    unsigned certificates = 0;

    for (uint64_t number = 0; number < 120; number++) {
        HOLDS(place_numbered(certifying, number) == place_numbered(other, number));
        HOLDS(number % 3 == 0 || has_certificate(certifying));
        HOLDS(!has_certificate(other));
        certificates += has_certificate(certifying);
    }
    HOLDS(certificates >= 80);
    RafkudinCertify(other, true);
    HOLDS(place_numbered(certifying, 1) == place_numbered(other, 1));
    HOLDS(has_certificate(certifying) && has_certificate(other));
    RafkudinFree(certifying);
    RafkudinFree(other);
}

int main(int count, char **names)
{
    unsigned with_granules = 0;

    fault_program = "real_maps";
    for (int at = 1; at < count; at++) {
        struct machine machine = machine_open(names[at]);

        HOLDS(draw_on(&machine, 1, false));
        HOLDS(draw_on(&machine, 1, true));
        with_granules += draw_on(&machine, 16, false);
        try_certificates(&machine);
        try_uncertified(&machine);
        machine_free(&machine);
    }
    HOLDS(with_granules > 0);
    return points_end("real_maps");
}
