/* A heap in place of the library's own, which refuses allocations. */
#ifndef REFUSING_HEAP_H
#define REFUSING_HEAP_H

#include <stdbool.h>
#include <stddef.h>

/* Whether an allocation was refused since `refuse`, and the bytes in use. */
extern bool was_refused;
extern size_t in_use;

/* An allocation after which more bytes than these would be in use is refused. */
extern size_t most_bytes;

/* Refuses the allocations from one number up to another, counted from 1 from now on; 0 and 0 for
 * none. */
void refuse(unsigned long first, unsigned long last);

/* Refuses none by their number from now on, and leaves `was_refused`. */
void refuse_none(void);
#endif
