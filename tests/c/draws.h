/* Numbers that tests draw, by a linear congruential generator. */
#ifndef DRAWS_H
#define DRAWS_H

#include <stdbool.h>
#include <stdint.h>

/* The next number, of 31 bits: the upper ones of the generator's state, which `seed` is then. */
uint64_t draw(uint64_t *seed);

/* A number below a limit, 0 where the limit is 0. */
uint64_t draw_below(uint64_t *seed, uint64_t limit);

/* Whether one of a number of things is drawn. */
bool one_of(uint64_t *seed, uint64_t count);
#endif
