/* The memory services of the library, each with its line of the trace and its reply. */
#include "host.h"

#define MAX_MAP_BUFFER 16777216U /* that of a map in a trace */

uint64_t core_pages(uint32_t kind, uint32_t type, uint64_t pages, uint64_t *memory)
{
    uint64_t asked = *memory;
    uint64_t status = RafkudinAllocatePages(host.core, kind, type, pages, memory);

    TRACE(.service = RAFKUDIN_CALL_ALLOCATE_PAGES, .type = kind, .memory_type = type,
          .pages = pages, .address = asked);
    check_certificate();
    if (status == RAFKUDIN_SUCCESS)
        note_type(*memory, pages * PAGE, type);
    return status;
}

uint64_t core_free_pages(uint64_t memory, uint64_t pages)
{
    uint64_t status = RafkudinFreePages(host.core, memory, pages);

    TRACE(.service = RAFKUDIN_CALL_FREE_PAGES, .address = memory, .pages = pages);
    if (status == RAFKUDIN_SUCCESS)
        note_type(memory, pages * PAGE, RAFKUDIN_CONVENTIONAL);
    return status;
}

/* `key` and the others may be null; `size` may not. What is wrong with the caller's buffer is seen
 * before the core is asked. */
uint64_t core_map(uint64_t *size, void *map, uint64_t *key, uint64_t *step, uint32_t *version)
{
    const uint64_t needed = RafkudinDescriptors(host.core) * RAFKUDIN_DESCRIPTOR_SIZE;
    struct rafkudin_call call = {.service = RAFKUDIN_CALL_GET_MEMORY_MAP};
    struct rafkudin_map_reply reply = {.map = map};
    uint64_t status;

    if (map == NULL && *size != 0)
        return EFI_INVALID_PARAMETER;
    if (*size >= needed)
        touch(map, needed, true);
    call.size = *size > MAX_MAP_BUFFER ? MAX_MAP_BUFFER : *size;
    status = RafkudinGetMemoryMap(host.core, size, map, &reply.key, &reply.descriptor_size,
                                  &reply.descriptor_version);
    reply.status = status;
    reply.size = *size;
    reply.map_size = status == RAFKUDIN_SUCCESS ? *size : 0;
    if (tracing())
        trace_map(&call, &reply);
    if (status == RAFKUDIN_SUCCESS && key != NULL)
        *key = reply.key;
    if (status != RAFKUDIN_SUCCESS && status != RAFKUDIN_BUFFER_TOO_SMALL)
        return status;
    if (step != NULL)
        *step = reply.descriptor_size;
    if (version != NULL)
        *version = reply.descriptor_version;
    return status;
}

/* While the pool is called the caller's own memory is left alone: it may be what is wrong. */
uint64_t core_pool(uint32_t type, uint64_t size, uint64_t *address)
{
    uint64_t status, made = 0;

    host.in_pool = true;
    status = RafkudinAllocatePool(host.core, type, size, &made);
    host.in_pool = false;
    if (status == RAFKUDIN_SUCCESS) {
        note_type(made, size, type);
        *address = made;
    }
    TRACE(.service = RAFKUDIN_CALL_ALLOCATE_POOL, .memory_type = type, .size = size);
    check_certificate();
    return status;
}

uint64_t core_free_pool(uint64_t address)
{
    uint64_t status;

    host.in_pool = true;
    status = RafkudinFreePool(host.core, address);
    host.in_pool = false;
    TRACE(.service = RAFKUDIN_CALL_FREE_POOL, .address = address);
    return status;
}

uint64_t core_write(uint64_t address, const void *bytes, size_t count)
{
    uint64_t status = RafkudinPoolWrite(host.core, address, bytes, count);

    TRACE(.service = RAFKUDIN_CALL_POOL_WRITE, .address = address, .bytes = bytes,
          .byte_count = count);
    return status;
}

uint64_t core_read(uint64_t address, void *bytes, size_t count)
{
    struct rafkudin_call call = {
        .service = RAFKUDIN_CALL_POOL_READ, .address = address, .size = count};
    struct rafkudin_read_reply reply = {.bytes = bytes};

    reply.status = RafkudinPoolRead(host.core, address, bytes, count);
    reply.count = reply.status == RAFKUDIN_SUCCESS ? count : 0;
    if (tracing())
        trace_read(&call, &reply);
    return reply.status;
}

uint64_t core_exit(uint64_t image, uint64_t key)
{
    uint64_t status = RafkudinExitBootServices(host.core, image, key);

    TRACE(.service = RAFKUDIN_CALL_EXIT_BOOT_SERVICES, .key = key);
    return status;
}
