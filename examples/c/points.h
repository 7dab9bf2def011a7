/* Points that a program tries: how many there were, and how many failed. */
#ifndef POINTS_H
#define POINTS_H

#include <stdbool.h>

/* A point: whether it holds, and what it says, at a line of a file. */
void point(bool holds, const char *file, int line, const char *what);

#define HOLDS(what) point((what), __FILE__, __LINE__, #what)

/* How many elements an array has. */
#define COUNT(array) (sizeof(array) / sizeof(array)[0])

/* Prints how many points are as said, and gives the exit status. */
int points_end(const char *program);

#endif
