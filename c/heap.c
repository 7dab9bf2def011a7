/* The heap of the library, made of malloc, realloc and free. tools/c-library puts it into the
 * library's archive, where a program with a heap of its own leaves it out: it defines these three
 * functions.
 *
 * The proofs take for granted that a block of `size` bytes begins at a multiple of `align`, a power
 * of two up to 16 that divides `size`, as blocks of malloc and realloc do; and that nothing else of
 * the program uses it until it is given back. */
#include <stdbool.h>
#include <stddef.h>

/* Those of the C library, which is not there when a firmware's library is built. */
void *malloc(size_t size);
void *realloc(void *start, size_t size);
void free(void *start);

/* Where a block begins, if it was not refused. */
struct block {
    bool given;
    void *start;
};

__attribute__((weak)) struct block rattle_alloc(size_t size, size_t align);
__attribute__((weak)) struct block rattle_realloc(void *start, size_t kept, size_t size,
                                                  size_t align);
__attribute__((weak)) void rattle_dealloc(void *start);

/* malloc and realloc may answer a null pointer for no bytes, which is no refusal. */
static size_t some_bytes(size_t size, size_t align)
{
    return size == 0 ? align : size;
}

/* A refused block begins somewhere too. */
static struct block block_at(void *start)
{
    static char nowhere;
    struct block block = {start != NULL, start != NULL ? start : &nowhere};

    return block;
}

struct block rattle_alloc(size_t size, size_t align)
{
    return block_at(malloc(some_bytes(size, align)));
}

/* The first `kept` bytes stay. Where it is refused, the old block stays. */
struct block rattle_realloc(void *start, size_t kept, size_t size, size_t align)
{
    (void)kept;
    return block_at(realloc(start, some_bytes(size, align)));
}

void rattle_dealloc(void *start)
{
    free(start);
}
