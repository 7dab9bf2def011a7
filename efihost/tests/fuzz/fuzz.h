/* What the fuzz targets share. Each includes the file whose readers it tries, so that it can call
 * what that file keeps to itself. */
#ifndef EFIHOST_FUZZ_H
#define EFIHOST_FUZZ_H

#include <setjmp.h>
#include <stdbool.h>
#include <stdint.h>
#include <stdlib.h>
#include <string.h>

int LLVMFuzzerTestOneInput(const uint8_t *data, size_t size);

/* Where a target goes on when its input is refused. */
extern jmp_buf refused;

/* Where it doesn't hold, the target ends, which counts as a find. */
static inline void demand(bool holds)
{
    if (!holds)
        abort();
}

/* The input with a zero byte behind it, which is the caller's to free. */
static inline uint8_t *copy_of(const uint8_t *data, size_t size)
{
    uint8_t *copy = malloc(size + 1);

    demand(copy != NULL);
    if (size != 0)
        memcpy(copy, data, size);
    copy[size] = 0;
    return copy;
}

#endif
