/* Points that a program tries. Two threads may try points at once. */
#include "points.h"

#include <stdatomic.h>
#include <stdio.h>

static atomic_int points, failed;

void point(bool holds, const char *file, int line, const char *what)
{
    points++;
    if (holds)
        return;
    failed++;
    fprintf(stderr, "%s: line %d: %s\n", file, line, what);
}

int points_end(const char *program)
{
    int all = points, wrong = failed;

    printf("%s: %d of %d points as said\n", program, all - wrong, all);
    return wrong != 0;
}
