/* What draws.h declares. */
#include "draws.h"

uint64_t draw(uint64_t *seed)
{
    *seed = *seed * 6364136223846793005U + 1442695040888963407U;
    return *seed >> 33;
}

uint64_t draw_below(uint64_t *seed, uint64_t limit)
{
    uint64_t number = draw(seed);

    return limit == 0 ? 0 : number % limit;
}

bool one_of(uint64_t *seed, uint64_t count)
{
    return draw_below(seed, count) == 0;
}
