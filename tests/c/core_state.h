/* All that a core has, as numbers that can be compared. */
#ifndef CORE_STATE_H
#define CORE_STATE_H

#include <rafkudin.h>

struct state {
    uint64_t numbers[1 << 16];
    size_t count;
};

/* Takes all handles with their interfaces and what is open on these, the holders of each GUID, the
 * children of the first handles, and which registrations are to be served. */
void take_state(struct state *state, struct rafkudin *core);

/* Takes the same, and behind it all that each registration is served until it has met all. */
void take_end(struct state *state, struct rafkudin *core);

bool are_same(const struct state *one, const struct state *other);
#endif
