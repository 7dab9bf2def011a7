/* The end of a program that can't go on. */
#include "fault.h"

#include <stdarg.h>
#include <stdio.h>
#include <stdlib.h>

const char *fault_program = "rafkudin";

void fail(const char *format, ...)
{
    va_list rest;

    va_start(rest, format);
    fprintf(stderr, "%s: ", fault_program);
    vfprintf(stderr, format, rest);
    fputc('\n', stderr);
    va_end(rest);
    exit(1);
}

void *grow(void *block, size_t size)
{
    block = realloc(block, size != 0 ? size : 1);
    if (block == NULL)
        fail("out of memory");
    return block;
}
