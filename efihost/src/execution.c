/* Code that runs in memory of the machine outside of images. Pages are mapped without execution:
 * the first fetch from one decides by the type of its memory. In a type for code it runs. In one
 * for data it is a finding if all images that have to do with it say, by NX_COMPAT, that they have
 * no such code. Else it runs, as on firmware that allows it, and a line says so once for an image.
 *
 * All this is done in the handler of a fault, which must not ask the core: types are those that were
 * noted as the core placed memory. */
#include "host.h"

#include <sys/mman.h>

/* What types are for that a system has for itself, only those who use them know. */
static bool is_for_code(uint32_t type)
{
    return type == RAFKUDIN_LOADER_CODE || type == RAFKUDIN_BOOT_SERVICES_CODE ||
           type == RAFKUDIN_RUNTIME_SERVICES_CODE || type > RAFKUDIN_UNACCEPTED;
}

static const char *type_name(uint32_t type)
{
    static const char *const names[] = {
        "Reserved",       "LoaderCode",          "LoaderData",          "BootServicesCode",
        "BootServicesData", "RuntimeServicesCode", "RuntimeServicesData", "Conventional",
        "Unusable",       "ACPIReclaim",         "ACPIMemoryNVS",       "MemoryMappedIO",
        "MemoryMappedIOPortSpace", "PalCode",    "Persistent"};

    return type < LENGTH(names) ? names[type] : "Unaccepted";
}

/* The type of memory at an address; with a check the pool may lie outside the machine. */
static uint32_t type_at(uint64_t address)
{
    const struct block *block = host.checks ? ledger_block_around(address) : NULL;

    return block != NULL ? block->type : memory_type(address);
}

/* Who jumped to where an image now is: the return address of a call, or 0 if that is not known. */
uint64_t caller_of(uint64_t stack)
{
    uint64_t word;
    struct image *image;

    if (stack % 8 != 0 || (memory_rights(stack) & PROT_READ) == 0)
        return 0;
    word = *(const uint64_t *)POINTER(stack);
    image = image_at(word);
    if (image != NULL)
        return behind_call(image, word) ? word : 0;
    return is_for_code(type_at(word)) ? word : 0;
}

/* A block or run of pages that holds what runs. */
struct holder {
    const struct origin *origin;
    uint64_t at, size;
};

static struct holder holder_of(uint64_t address)
{
    const struct block *block = ledger_block_around(address);
    const struct run *run = ledger_run_with(address);

    if (block != NULL)
        return (struct holder){&block->origin, block->at, block->size};
    if (run != NULL && run->origin.image != NULL)
        return (struct holder){&run->origin, run->at, run->pages * PAGE};
    return (struct holder){NULL, address, 1};
}

/* Whether an image that has to do with code may not have it. */
static bool is_forbidden(const struct image *jumped, const struct image *made, bool known)
{
    if (!host.checks)
        return false;
    if (host.options.require_nx)
        return true;
    return known && (jumped != NULL || made != NULL) &&
           (jumped == NULL || jumped->nx_compatible) && (made == NULL || made->nx_compatible);
}

static void note_once(struct image *image, uint64_t address, uint32_t type)
{
    static bool other;
    bool *noted = image == NULL ? &other : &image->ran_data;

    if (!*noted && !host.options.quiet)
        fprintf(stderr,
                "efihost: %s%scode runs in memory of type %s, which is for data, at 0x%lx\n",
                image == NULL ? "" : image->name, image == NULL ? "" : ": ", type_name(type),
                address);
    *noted = true;
}

/* Lets code run at an address; whether that is a finding. */
bool let_run(uint64_t address, uint64_t caller)
{
    uint32_t type = type_at(address);
    struct holder in = holder_of(address);
    struct image *jumped = image_at(caller), *made = in.origin == NULL ? NULL : in.origin->image;
    struct origin origin = jumped == NULL && made != NULL ? *in.origin : origin_at(caller);
    bool forbidden;

    if (is_for_code(type)) {
        protect_memory(address, 1, PROT_READ | PROT_WRITE | PROT_EXEC);
        return false;
    }
    forbidden = is_forbidden(jumped, made, caller == 0 || jumped != NULL);
    if (forbidden)
        found(DATA_EXECUTED, &origin, "execution of 0x%lx, which is memory of type %s, made by %s",
              address, type_name(type), in.origin == NULL ? "efihost" : origin_text(in.origin));
    else
        note_once(jumped != NULL ? jumped : made, address, type);
    protect_memory(address, 1, PROT_READ | PROT_WRITE | PROT_EXEC);
    protect_memory(in.at, in.size, PROT_READ | PROT_WRITE | PROT_EXEC);
    return forbidden;
}
