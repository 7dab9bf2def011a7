/* What tallies.h declares. */
#include "tallies.h"

#include "points.h"

#include <rafkudin.h>

#include <stdio.h>
#include <string.h>

/* The calls of each service, by the lowest byte of their status. */
static unsigned long tallies[SERVICES][256];

void tally(enum service service, uint64_t status)
{
    tallies[service][status & 0xff]++;
}

void tallies_clear(void)
{
    memset(tallies, 0, sizeof tallies);
}

void try_least(const struct least *least, size_t rows)
{
    for (size_t row = 0; row < rows; row++) {
        unsigned long calls = tallies[least[row].service][least[row].status & 0xff];

        if (calls < least[row].calls)
            fprintf(stderr, "service %d, %s: %lu calls of %lu\n", (int)least[row].service,
                    RafkudinStatusName(least[row].status), calls, least[row].calls);
        HOLDS(calls >= least[row].calls);
    }
    tallies_clear();
}
