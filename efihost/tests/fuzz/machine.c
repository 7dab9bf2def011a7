/* Machine files, and JSON in them. */
#include "fuzz.h"

#include "json.h"
#include "machine_file.h"

int LLVMFuzzerTestOneInput(const uint8_t *data, size_t size)
{
    char *text = (char *)copy_of(data, size);
    struct machine machine;

    if (machine_file_read(text, size, &machine) == NULL) {
        demand(json_root(text, size) != NULL);
        demand(machine.granule == 1 || machine.granule == 16);
    } else {
        demand(machine.records == NULL && machine.drivers == NULL);
    }
    machine_free(&machine);
    free(text);
    return 0;
}
