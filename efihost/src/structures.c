/* What the firmware has in the machine's memory and images only read: the functions of protocols
 * and their modes. It lies in pages of its own. With a check an image that writes to
 * them is found, and then goes on. The host keeps all of it elsewhere too, and goes by that. */
#include "host.h"

#include <stdlib.h>
#include <string.h>
#include <sys/mman.h>

#define ROOM_PAGES 4U
#define ALIGNMENT 16U

static struct structure {
    const char *name;
    uint64_t at, size;
} *structures;
static size_t structure_count;
static uint64_t room_at, room_left;

static void note(const char *name, uint64_t at, uint64_t size)
{
    structures = must(realloc(structures, (structure_count + 1) * sizeof *structures));
    structures[structure_count++] = (struct structure){name, at, size};
}

static bool make_room(void)
{
    EFI_STATUS status;
    struct call *call = host.call;

    host.call = NULL;
    status = host_plain_pages(RAFKUDIN_ANY_PAGES, RAFKUDIN_BOOT_SERVICES_DATA, ROOM_PAGES, &room_at);
    host.call = call;
    room_left = status == EFI_SUCCESS ? ROOM_PAGES * PAGE : 0;
    if (status != EFI_SUCCESS)
        return false;
    if (host.checks)
        protect_memory(room_at, room_left, PROT_READ);
    note("a page of protocols", room_at, room_left);
    return true;
}

/* The structure's place for images, or NULL where the machine has no memory for it. */
void *make_structure(const char *name, const void *bytes, size_t size)
{
    size_t whole = (size + ALIGNMENT - 1) / ALIGNMENT * ALIGNMENT;
    void *at;

    if (room_left < whole && !make_room())
        return NULL;
    at = POINTER(room_at);
    note(name, room_at, whole);
    room_at += whole;
    room_left -= whole;
    set_structure(at, bytes, size);
    return at;
}

/* The same for what every machine must have. */
void *need_structure(const char *name, const void *bytes, size_t size)
{
    void *at = make_structure(name, bytes, size);

    if (at == NULL)
        refuse("the machine has no memory for the firmware's protocols");
    return at;
}

/* Gives a structure its bytes, which nothing else than the host changes. */
void set_structure(void *at, const void *bytes, size_t size)
{
    if (memcmp(at, bytes, size) == 0)
        return;
    if (host.checks)
        protect_memory(NUMBER(at), size, PROT_READ | PROT_WRITE);
    memcpy(at, bytes, size);
    if (host.checks)
        protect_memory(NUMBER(at), size, PROT_READ);
}

/* The name of the structure that holds an address, and the byte in it; NULL where none does. */
const char *structure_at(uint64_t address, uint64_t *byte)
{
    for (size_t i = structure_count; i-- > 0;)
        if (address - structures[i].at < structures[i].size) {
            *byte = address - structures[i].at;
            return structures[i].name;
        }
    return NULL;
}
