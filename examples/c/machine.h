/* Machine files. */
#ifndef MACHINE_H
#define MACHINE_H

#include "machine_file.h"

#include <stdio.h>

/* Reads a machine file. Where it is none, the program ends and says why. */
struct machine machine_read(FILE *file);

/* The same of a path, where there is to be a file. */
struct machine machine_open(const char *path);

/* A core of the machine. Where the library refuses to make it, the program ends and says why. */
struct rafkudin *machine_core(const struct machine *machine);

/* The entry of a descriptor that GetMemoryMap wrote. */
struct rafkudin_descriptor descriptor_at(const uint8_t *record);
#endif
