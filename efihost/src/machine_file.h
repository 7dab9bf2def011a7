/* Machine files (docs/FORMATS.md): the one reader in C, of efihost and of examples/c. */
#ifndef MACHINE_FILE_H
#define MACHINE_FILE_H

#include <rafkudin.h>

#include <stddef.h>
#include <stdint.h>

#define MAX_MACHINE_FILE_SIZE 67108864U

/* What RafkudinMake is handed: descriptors as EFI_MEMORY_DESCRIPTORs, the granule, and drivers. */
struct machine {
    uint8_t *records;
    size_t size;
    uint64_t granule;
    struct rafkudin_driver *drivers;
    size_t driver_count;
};

/* Reads a text that a zero byte follows. Returns NULL, or the fault in the words of the program;
 * they stay until the next call, and the machine is then empty. */
const char *machine_file_read(const char *text, size_t length, struct machine *machine);

void machine_free(struct machine *machine);

/* Writes a number of the given size in bytes, the lowest first, and reads one. */
void put_number(uint8_t *bytes, size_t count, uint64_t number);
uint64_t number_at(const uint8_t *bytes, size_t count);
#endif
