/* Images: which there are, loading, starting, ending and unloading them. */
#include "host.h"

#include <stdlib.h>
#include <string.h>

#define APPLICATION 10U

static struct image *images;

struct image *first_image(void)
{
    return images;
}

/* The live image with an address in it, or NULL. */
struct image *image_at(uint64_t address)
{
    static struct image *recent;

    if (address < host.images_start || address >= host.images_end)
        return NULL;
    if (recent != NULL && !recent->gone && address - recent->base < recent->size)
        return recent;
    for (struct image *image = images; image != NULL; image = image->next)
        if (!image->gone && address - image->base < image->size)
            return recent = image;
    return NULL;
}

struct image *image_of(EFI_HANDLE handle)
{
    for (struct image *image = images; image != NULL; image = image->next)
        if (!image->gone && image->handle == handle)
            return image;
    return NULL;
}

/* Copies a path, of which there may be none. False where the machine has no memory for it. */
static bool copy_path(EFI_DEVICE_PATH_PROTOCOL **to, const void *path)
{
    size_t length = path == NULL ? 0 : path_length(path);

    *to = length == 0 ? NULL : try_machine_block(length);
    if (*to != NULL)
        memcpy(*to, path, length);
    return length == 0 || *to != NULL;
}

/* Names an image by its file, of the host or of a device path's file node, or else by its debug
 * entry. */
static void name_image(struct image *image, const char *file, const EFI_DEVICE_PATH_PROTOCOL *rest)
{
    const char *name = file;

    if (name == NULL && rest != NULL && rest->Type == 4 && rest->SubType == 4)
        name = narrow((const CHAR16 *)(const void *)(rest + 1));
    if (name == NULL || *name == 0)
        name = image->debug_file;
    if (*name == 0)
        name = "image";
    snprintf(image->name, sizeof image->name, "%.60s", last_part(name));
}

static void fill_loaded_image(const struct image *image, EFI_HANDLE parent, EFI_HANDLE device)
{
    static const uint32_t code[] = {1, 3, 5}, data[] = {2, 4, 6};
    EFI_LOADED_IMAGE_PROTOCOL *loaded = image->loaded;

    loaded->Revision = 0x1000;
    loaded->ParentHandle = parent;
    loaded->SystemTable = host.table;
    loaded->DeviceHandle = device;
    loaded->FilePath = image->file_path;
    loaded->ImageBase = POINTER(image->base);
    loaded->ImageSize = image->size;
    loaded->ImageCodeType = code[image->subsystem - APPLICATION];
    loaded->ImageDataType = data[image->subsystem - APPLICATION];
}

static EFI_STATUS install_image(struct image *image)
{
    const struct rafkudin_interface list[] = {
        {core_guid(&loaded_image_guid), NUMBER(image->loaded)},
        {core_guid(&loaded_image_path_guid), NUMBER(image->path)},
        {core_guid(&package_list_guid), NUMBER(image->packages)},
    };
    uint64_t handle = 0;
    EFI_STATUS status = install_many(&handle, list, image->packages == NULL ? 2 : 3);

    image->handle = HANDLE(handle);
    return status;
}

/* Makes what goes with an image that is in memory, and installs it. */
static EFI_STATUS equip(struct image *image, EFI_HANDLE parent, const void *path)
{
    uint64_t device = 0, matched = 0;
    const uint8_t *rest = path;

    if (path != NULL && path_length(path) != 0)
        locate_path(&device_path_guid, path, &device, &matched);
    image->loaded = try_machine_block(sizeof *image->loaded);
    if (image->loaded == NULL || !copy_path(&image->path, path) ||
        !copy_path(&image->file_path, rest == NULL ? NULL : rest + matched))
        return EFI_OUT_OF_RESOURCES;
    fill_loaded_image(image, parent, HANDLE(device));
    return install_image(image);
}

/* Gives back what the host made for an image. */
static void strip(struct image *image)
{
    free_machine_block(image->file_path);
    free_machine_block(image->loaded);
    free_machine_block(image->path);
    open_memory(image->base, image->size);
    image->gone = true;
    forget_stacks();
    host_free_pages(image->placed, image->pages);
}

/* Loads an image from bytes; `file` is its name on the host, or NULL. On an error nothing is kept. */
EFI_STATUS load_image(EFI_HANDLE parent, const void *path, const uint8_t *data, uint64_t length,
                      const char *file, struct image **loaded)
{
    struct image *image = calloc(1, sizeof *image);
    struct call *call = host.call;
    EFI_STATUS status;

    if (image == NULL)
        return EFI_OUT_OF_RESOURCES;
    host.call = NULL;
    status = load_pe(data, length, image);
    if (status == EFI_SUCCESS) {
        status = equip(image, parent, path);
        if (status != EFI_SUCCESS)
            strip(image);
    }
    host.call = call;
    if (status != EFI_SUCCESS) {
        free(image->sections);
        free(image);
        return status;
    }
    name_image(image, file, image->file_path);
    read_symbols(image, file);
    apply_rights(image);
    image->next = images;
    images = image;
    if (host.images_end == 0 || image->base < host.images_start)
        host.images_start = image->base;
    if (image->base + image->size > host.images_end)
        host.images_end = image->base + image->size;
    forget_stacks();
    *loaded = image;
    return EFI_SUCCESS;
}

/* Whether memory has the options of an image that is loaded, but this one. */
bool has_load_options(const struct image *except, uint64_t at, uint64_t size)
{
    for (struct image *image = images; image != NULL; image = image->next)
        if (image != except && !image->gone && NUMBER(image->loaded->LoadOptions) - at < size)
            return true;
    return false;
}

/* Takes an image out of the machine, with what the host made for it. A driver that is stopped for
 * that may ask for the same again. */
EFI_STATUS unload_image(struct image *image)
{
    struct call *call = host.call;

    if (image->leaving)
        return EFI_INVALID_PARAMETER;
    image->leaving = true;
    look_for_leaks(image, "is unloaded");
    host.call = NULL;
    if (image->packages != NULL)
        uninstall_one(NUMBER(image->handle), &package_list_guid, NUMBER(image->packages));
    uninstall_one(NUMBER(image->handle), &loaded_image_path_guid, NUMBER(image->path));
    uninstall_one(NUMBER(image->handle), &loaded_image_guid, NUMBER(image->loaded));
    strip(image);
    host.call = call;
    return EFI_SUCCESS;
}

/* Calls an image's entry point, and returns what it or its Exit says. */
EFI_STATUS start_image(struct image *image)
{
    struct call *call = host.call;
    EFI_TPL before = host.tpl;
    uint64_t stack = host.image_stack;

    host.image_stack = FRAME;
    image->below = host.running;
    host.running = image;
    image->started = true;
    host.call = NULL;
    if (sigsetjmp(image->back, 0) == 0)
        image->status =
            ((EFI_IMAGE_ENTRY_POINT)(uintptr_t)image->entry)(image->handle, host.table);
    host.image_stack = stack;
    host.running = image->below;
    host.call = call;
    host.tpl = before;
    give_block(image->exit_data, image, false);
    return image->status;
}

EFI_STATUS EFIAPI LoadImage(BOOLEAN policy, EFI_HANDLE parent, EFI_DEVICE_PATH_PROTOCOL *path,
                            void *data, UINTN size, EFI_HANDLE *handle)
{
    SERVICE("LoadImage", policy, NUMBER(parent), NUMBER(path), NUMBER(data));
    struct source source = {data, size};
    struct image *image = NULL;
    EFI_STATUS status = EFI_SUCCESS;

    if (handle == NULL || image_of(parent) == NULL || (data == NULL && path == NULL))
        ANSWER(EFI_INVALID_PARAMETER);
    touch(data, data == NULL ? 0 : size, false);
    if (data == NULL)
        status = read_by_path(path, policy != 0, &source);
    if (status != EFI_SUCCESS)
        ANSWER(status);
    status = load_image(parent, path, source.bytes, source.length, NULL, &image);
    if (data == NULL)
        free_machine_block(source.bytes);
    if (status == EFI_SUCCESS)
        *handle = image->handle;
    ANSWER(status);
}

EFI_STATUS EFIAPI StartImage(EFI_HANDLE handle, UINTN *size, CHAR16 **data)
{
    SERVICE("StartImage", NUMBER(handle));
    struct image *image = image_of(handle);
    EFI_STATUS status;

    if (image == NULL || image->started)
        ANSWER(EFI_INVALID_PARAMETER);
    status = start_image(image);
    if (size != NULL)
        *size = image->exit_size;
    if (data != NULL) {
        *data = image->exit_data;
        give_block(image->exit_data, NULL, true);
    }
    if (image->subsystem == APPLICATION || EFI_ERROR(status))
        unload_image(image);
    ANSWER(status);
}

EFI_STATUS EFIAPI Exit(EFI_HANDLE handle, EFI_STATUS status, UINTN size, CHAR16 *data)
{
    SERVICE("Exit", NUMBER(handle), status, size);
    struct image *image = image_of(handle);

    if (image == NULL || (image->started && image != host.running))
        ANSWER(EFI_INVALID_PARAMETER);
    if (!image->started)
        ANSWER(unload_image(image));
    leave(&this_call, EFI_SUCCESS);
    image->status = status;
    image->exit_size = size;
    image->exit_data = data;
    siglongjmp(image->back, 1);
}

EFI_STATUS EFIAPI UnloadImage(EFI_HANDLE handle)
{
    SERVICE("UnloadImage", NUMBER(handle));
    struct image *image = image_of(handle);
    EFI_STATUS status;

    if (image == NULL)
        ANSWER(EFI_INVALID_PARAMETER);
    if (image->started) {
        if (image->loaded->Unload == NULL)
            ANSWER(EFI_UNSUPPORTED);
        status = image->loaded->Unload(handle);
        if (status != EFI_SUCCESS)
            ANSWER(status);
    }
    ANSWER(unload_image(image));
}

/* Where a notification changed the map, an old key is not the caller's fault. */
static void found_stale_key(uint64_t key)
{
    EFI_TPL level;
    struct origin origin = origin_now(), change = last_map_change(&level);

    if (level > host.tpl)
        return;
    found(STALE_KEY, &origin,
          "ExitBootServices with the key %lu, which is not that of the map; the last that may have "
          "changed it: %s",
          key, origin_text(&change));
}

EFI_STATUS EFIAPI ExitBootServices(EFI_HANDLE handle, UINTN key)
{
    SERVICE("ExitBootServices", NUMBER(handle), key);
    EFI_STATUS status;

    signal_before_exit();
    status = core_exit(NUMBER(handle), key + red_changes());
    if (status == EFI_INVALID_PARAMETER)
        found_stale_key(key);
    if (status != EFI_SUCCESS)
        ANSWER(status);
    zone_look_at_all("when boot services end");
    count_left();
    signal_exit_boot_services();
    host.exited = true;
    open_all_memory();
    fflush(stdout);
    if (!host.options.quiet)
        fprintf(stderr, "efihost: boot services are exited by %s\n", where(this_call.caller));
    ANSWER(EFI_SUCCESS);
}
