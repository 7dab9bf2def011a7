/* A memory as a plain array of stretches, changed apart from the core's own table. */
#ifndef STRETCHES_H
#define STRETCHES_H

#include "machine.h"
#include "small_core.h"

/* Pages of one kind, from one number up to another. */
struct stretch {
    uint64_t first, end;
    uint32_t type;
    uint64_t attributes;
    bool is_placed;
};

struct stretches {
    struct stretch *list;
    size_t count, room;
};

/* The pages from one number up to another have a new type, placed or given back. */
struct change {
    uint64_t first, end;
    uint32_t type;
    bool is_placed;
};

/* What is asked of pages: placed by AllocatePages; free, for a request that names them; free and
 * not of specific purpose, for any other request. */
enum wanted { PLACED, FREE, AVAILABLE };

/* The stretches of a machine, by ascending pages; with the middle third of each free one of specific
 * purpose, where this is wanted. */
struct stretches stretches_of(const struct machine *machine, bool has_specific_purpose);

/* A core of the stretches with a granule, or null where the library refuses to make it. */
struct rafkudin *core_of(const struct stretches *stretches, uint64_t granule);

/* Makes a change. */
void stretches_change(struct stretches *stretches, const struct change *change);

/* Whether all pages from one number up to another are as it is asked; there is at least one. */
bool are_all(const struct stretches *stretches, uint64_t first, uint64_t end, enum wanted wanted);

/* Whether the map of a core is that of the stretches. */
bool is_map_of(const struct rafkudin *core, const struct stretches *stretches);

/* The granule of a type on a machine with a granule, and of the type of a page, 1 where that is
 * absent. */
uint64_t granule_of(uint32_t type, uint64_t granule);
uint64_t granule_at(const struct stretches *stretches, uint64_t page, uint64_t granule);
#endif
