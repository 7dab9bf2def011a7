/* Device paths.
 *
 * The library follows those of interfaces in its own pool alone, and real ones lie in images and on
 * stacks too. So the value that the core has of a device path's interface is the address of a copy
 * in a pool block of the host's, whose bytes the core is given by PoolWrite; the caller's pointer
 * is kept beside it. A path that its owner changes after it is installed is to the core what it was.
 * A path that is looked up is read where it lies. */
#include "host.h"

#include <stdlib.h>
#include <string.h>

#define ROOM 65536U
#define MAX_PATH_SIZE 4096U

static struct shadow {
    uint64_t at, real;
    size_t length;
    bool live;
} *shadows;
static size_t shadow_count;
static uint64_t scratch, room_at, room_left;

/* A block for the paths that a trace looks up, and none yet for those that are installed. */
void make_path_room(void)
{
    if (core_pool(RAFKUDIN_BOOT_SERVICES_DATA, MAX_PATH_SIZE, &scratch) != EFI_SUCCESS)
        refuse("the machine has no memory for device paths");
}

/* The bytes of a path with its end, or 0 where it is none or too long. */
size_t path_length(const void *path)
{
    const uint8_t *node = path;
    size_t length = 0;

    while (length < MAX_PATH_SIZE - 4) {
        size_t size = (size_t)(node[2] | node[3] << 8);

        if (size < 4)
            return 0;
        length += size;
        if ((node[0] & 0x7f) == 0x7f && node[1] == 0xff)
            return length <= MAX_PATH_SIZE ? length : 0;
        node += size;
    }
    return 0;
}

/* The copy's first node types are those of the standard: the old end node type becomes the new. */
static void copy_path(uint8_t *to, const void *path, size_t length)
{
    memcpy(to, path, length);
    for (size_t at = 0; at + 4 <= length; at += (size_t)(to[at + 2] | to[at + 3] << 8))
        if (to[at] == 0xff)
            to[at] = 0x7f;
}

static bool make_room(size_t size)
{
    EFI_STATUS status = core_pool(RAFKUDIN_BOOT_SERVICES_DATA, size, &room_at);

    if (status == EFI_OUT_OF_RESOURCES && give_red_pages())
        status = core_pool(RAFKUDIN_BOOT_SERVICES_DATA, size, &room_at);
    room_left = status == EFI_SUCCESS ? size : 0;
    return status == EFI_SUCCESS;
}

static struct shadow *free_shadow(size_t length)
{
    struct shadow *more;

    for (size_t i = 0; i < shadow_count; i++)
        if (!shadows[i].live && shadows[i].length == length)
            return &shadows[i];
    if (room_left < length && !make_room(ROOM) && !make_room(length))
        return NULL;
    more = realloc(shadows, (shadow_count + 1) * sizeof *shadows);
    if (more == NULL)
        return NULL;
    shadows = more;
    shadows[shadow_count].at = room_at;
    shadows[shadow_count].length = length;
    room_at += (length + 7) & ~7ULL;
    room_left -= room_left < ((length + 7) & ~7ULL) ? room_left : (length + 7) & ~7ULL;
    return &shadows[shadow_count++];
}

/* Makes the value of an interface that is about to be installed the core's. False where there is no
 * memory for that. */
bool path_to_core(const void *guid, uint64_t *value)
{
    uint8_t copy[MAX_PATH_SIZE];
    struct shadow *shadow;
    size_t length;

    if (!guid_equal(guid, &device_path_guid) || *value == 0)
        return true;
    length = path_length(POINTER(*value));
    if (length == 0)
        return true;
    shadow = free_shadow(length);
    if (shadow == NULL)
        return false;
    copy_path(copy, POINTER(*value), length);
    shadow->real = *value;
    shadow->live = true;
    core_write(shadow->at, copy, length);
    *value = shadow->at;
    return true;
}

uint64_t path_from_core(const void *guid, uint64_t value)
{
    if (!guid_equal(guid, &device_path_guid))
        return value;
    for (size_t i = 0; i < shadow_count; i++)
        if (shadows[i].live && shadows[i].at == value)
            return shadows[i].real;
    return value;
}

/* The core's value of an interface that is installed with this value of the caller's. */
uint64_t path_installed(uint64_t handle, const void *guid, uint64_t value)
{
    uint64_t core_value = 0;

    if (!guid_equal(guid, &device_path_guid))
        return value;
    if (core_handle_protocol(handle, guid, &core_value) == EFI_SUCCESS &&
        path_from_core(guid, core_value) == value)
        return core_value;
    return value;
}

/* An interface with this value of the core's is gone, or was not installed. */
void path_drop(uint64_t value)
{
    for (size_t i = 0; i < shadow_count; i++)
        if (shadows[i].live && shadows[i].at == value)
            shadows[i].live = false;
}

/* The handle with the interface whose path is the longest front of a path, and the bytes of it. */
EFI_STATUS locate_path(const void *guid, const void *path, uint64_t *handle, uint64_t *matched)
{
    size_t length = path_length(path);
    uint8_t copy[MAX_PATH_SIZE];

    *matched = 0;
    if (length == 0)
        return EFI_INVALID_PARAMETER;
    copy_path(copy, path, length);
    return core_locate_path(guid, copy, length, scratch, matched, handle);
}
