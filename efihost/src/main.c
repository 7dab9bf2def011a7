/* efihost: runs UEFI applications for x86-64 in a process of Linux, over the core of Rafkudin.
 *
 * Memory and protocol services are the core's; all others are here. The machine's memory lies at
 * the machine's own addresses in the process, and images run on a stack in it. */
#include "host.h"

#include <errno.h>
#include <fcntl.h>
#include <stdlib.h>
#include <string.h>
#include <ucontext.h>
#include <unistd.h>
#ifdef __SANITIZE_ADDRESS__
#include <sanitizer/common_interface_defs.h>
#endif

#define STACK_PAGES (128U + SERVICE_STACK / PAGE)

struct host host;
static ucontext_t home, machine_context;

struct loaded_file {
    const char *name;
    uint8_t *bytes;
    size_t length;
    bool of_host;
};
static struct loaded_file application, drivers[MAX_DRIVERS];

/* A file of the host, or else an image of the firmware, whose name then has an ending. */
static struct loaded_file read_image(const char *name)
{
    struct loaded_file file = {name, NULL, 0, true};
    char *whole;
    int why;

    file.bytes = read_file(name, &file.length);
    if (file.bytes != NULL) {
        keep_symbols(name, file.bytes, file.length);
        return file;
    }
    why = errno;
    file.bytes = firmware_image(name, &file.length);
    if (file.bytes == NULL)
        refuse("cannot read %s: %s", name, strerror(why));
    whole = must(malloc(strlen(name) + 5));
    sprintf(whole, "%s.efi", name);
    file.name = whole;
    file.of_host = false;
    return file;
}

/* A device path of a file on a device, whose path may be null; it stays until the next call. */
static const void *file_path(const char *name, const void *device)
{
    static uint8_t path[4096];
    size_t front = device == NULL ? 0 : path_length(device), size;
    CHAR16 wide[1024];

    if (front >= 4)
        memcpy(path, device, front -= 4);
    if (strlen(name) >= LENGTH(wide))
        refuse("the name is too long: %s", name);
    widen(wide, name);
    size = 4 + 2 * (wide_length(wide) + 1);
    path[front] = path[front + 1] = 4;
    path[front + 2] = (uint8_t)size;
    path[front + 3] = (uint8_t)(size >> 8);
    memcpy(path + front + 4, wide, size - 4);
    memcpy(path + front + size, "\x7f\xff\x04", 4);
    return path;
}

static void start_drivers(void)
{
    static uint64_t handles[RAFKUDIN_MAX_HANDLES];
    uint64_t size = sizeof handles;

    for (size_t i = 0; i < host.options.driver_count; i++) {
        const char *name = strrchr(drivers[i].name, '/');
        struct image *image = NULL;
        EFI_STATUS status;

        name = name == NULL ? drivers[i].name : name + 1;
        status = load_image(NULL, file_path(name, NULL), drivers[i].bytes, drivers[i].length,
                            drivers[i].of_host ? drivers[i].name : NULL, &image);
        if (image == NULL)
            fprintf(stderr, "efihost: driver %s can't be loaded: %s, %s\n", name,
                    status_text(status), image_fault());
        if (status == EFI_SUCCESS)
            status = start_image(image);
        if (image != NULL && status != EFI_SUCCESS)
            fprintf(stderr, "efihost: driver %s: %s\n", name, status_text(status));
        if (image != NULL && EFI_ERROR(status))
            unload_image(image);
    }
    if (host.options.driver_count == 0 ||
        core_locate(RAFKUDIN_ALL_HANDLES, NULL, 0, &size, handles) != EFI_SUCCESS)
        return;
    for (size_t i = 0; i < size / 8; i++)
        connect_controller(handles[i], NULL, NULL, true);
}

/* The load options: the application's name and its arguments, with blanks between. */
static void give_arguments(struct image *image)
{
    size_t length = strlen(image->name) + 1, count = host.options.argument_count;
    CHAR16 *options;
    char *text;

    for (size_t i = 0; i < count; i++)
        length += strlen(host.options.arguments[i]) + 1;
    text = must(calloc(length + 1, 1));
    strcpy(text, image->name);
    for (size_t i = 0; i < count; i++) {
        strcat(text, " ");
        strcat(text, host.options.arguments[i]);
    }
    options = machine_block(2 * (length + 1));
    widen(options, text);
    image->loaded->LoadOptions = options;
    image->loaded->LoadOptionsSize = (uint32_t)(2 * (wide_length(options) + 1));
    free(text);
}

/* Loads and runs the application. It is unloaded after its leaks are looked for. */
static void run_application(void)
{
    EFI_HANDLE device;
    const char *name = application_path(application.name, &device);
    const void *path = device == NULL ? NULL : interface_of(NUMBER(device), &device_path_guid);
    EFI_STATUS status = load_image(NULL, file_path(name, path), application.bytes,
                                   application.length,
                                   application.of_host ? application.name : NULL,
                                   &host.application);

    if (status != EFI_SUCCESS)
        finish(ENDED_NEVER_RAN, "%s can't be loaded: %s, %s", application.name,
               status_text(status), image_fault());
    if (host.application->loaded->DeviceHandle == NULL)
        host.application->loaded->DeviceHandle = device;
    give_arguments(host.application);
    status = start_image(host.application);
    if (host.application->exit_data != NULL && host.application->exit_size >= 2)
        fprintf(stderr, "efihost: %s says: %s\n", host.application->name,
                narrow(host.application->exit_data));
    zone_look_at_all("when the application has ended");
    if (host.application->subsystem == 10)
        look_for_leaks(host.application, "ends");
    finish(EFI_ERROR(status) ? ENDED_REFUSED : ENDED_WELL, "%s returned %s",
           host.application->name, status_text(status));
}

static void run_machine(void)
{
#ifdef __SANITIZE_ADDRESS__
    __sanitizer_finish_switch_fiber(NULL, NULL, NULL);
#endif
    start_drivers();
    run_application();
}

/* Images run on a stack of the machine's memory, below which are pages that are shut. */
static void run_on_stack(void)
{
    uint64_t stack = 0;

    if (host_plain_pages(RAFKUDIN_ANY_PAGES, RAFKUDIN_BOOT_SERVICES_DATA, STACK_PAGES + RED_PAGES,
                         &stack) != EFI_SUCCESS)
        refuse("the machine has no memory for a stack");
    shut_memory(stack, RED_PAGES * PAGE);
    host.stack = stack + RED_PAGES * PAGE;
    host.stack_end = host.stack + STACK_PAGES * PAGE;
    getcontext(&machine_context);
    machine_context.uc_stack.ss_sp = POINTER(host.stack);
    machine_context.uc_stack.ss_size = STACK_PAGES * PAGE;
    machine_context.uc_link = &home;
    makecontext(&machine_context, run_machine, 0);
#ifdef __SANITIZE_ADDRESS__
    __sanitizer_start_switch_fiber(NULL, POINTER(host.stack), STACK_PAGES * PAGE);
#endif
    swapcontext(&home, &machine_context);
}

/* Standard streams that are closed go nowhere, so that no file gets the number of one. */
static void open_streams(void)
{
    int file;

    do
        file = open("/dev/null", O_RDWR);
    while (file >= 0 && file <= STDERR_FILENO);
    if (file >= 0)
        close(file);
}

int main(int count, char **words)
{
    static char output[65536];

    open_streams();
    read_options(count, words, &host.options);
    host.checks = host.options.check || host.options.guard;
    host.tpl = TPL_APPLICATION;
    setvbuf(stdout, output, _IOFBF, sizeof output);
    catch_faults();
    keep_named_files();
    open_report(host.options.json);
    open_firmware(host.options.firmware);
    application = read_image(host.options.application);
    for (size_t i = 0; i < host.options.driver_count; i++)
        drivers[i] = read_image(host.options.drivers[i]);
    close_firmware();
    if (host.options.calls != NULL)
        open_calls_log(host.options.calls);
    open_keys(host.options.input);
    open_variables(host.options.variables);
    load_variables();
    make_machine(host.options.machine);
    make_tables();
    make_path_room();
    make_console();
    make_disks();
    make_graphics();
    make_serial(host.options.serial, host.options.serial_input);
    drop_rights();
    if (host.signalled)
        heed_signals();
    run_on_stack();
    return ENDED_NEVER_RAN;
}
