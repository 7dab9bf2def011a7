/* The end of a program that can't go on. */
#ifndef FAULT_H
#define FAULT_H

#include <stddef.h>

/* The name before what a program says of its end. */
extern const char *fault_program;

/* Writes a line to standard error and ends the program with status 1. */
_Noreturn void fail(const char *format, ...);

/* A block of `size` bytes that replaces another or none, as realloc makes it; where there is
 * no memory the program ends. */
void *grow(void *block, size_t size);
#endif
