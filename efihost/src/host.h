/* What the files of the host share. Each group of functions has the file that defines it above. */
#ifndef EFIHOST_HOST_H
#define EFIHOST_HOST_H

#include "uefi.h"

#include <rafkudin.h>

#include <setjmp.h>
#include <stdio.h>

#define PAGE 4096ULL
#define TRAIL 6
#define RED_PAGES 16ULL /* those below the stack, which are shut */
#define SERVICE_STACK 65536ULL /* at its end, which services need */
#define MAX_DISKS 16
#define MAX_DRIVERS 128
#define MAX_ARGUMENTS 256
#define NO_RETURN __attribute__((noreturn))
#define LENGTH(array) (sizeof(array) / sizeof(array)[0])
#define HANDLE(number) ((EFI_HANDLE)(uintptr_t)(number))
#define NUMBER(pointer) ((uint64_t)(uintptr_t)(pointer))
#define POINTER(number) ((void *)(uintptr_t)(number))

struct image;

/* A caller, by its offset in an image, and those before it. Equal ones are kept once. */
struct caller {
    struct image *image;
    uint64_t address;
    bool by_service; /* it called a service, which called what is inside */
    const struct caller *outer;
    struct caller *next;
};

/* Where something was asked for: the image whose code called (NULL: the host), the offset in it or,
 * without an image, the address, the number of the call, and all callers before. */
struct origin {
    struct image *image;
    uint64_t address, call;
    const struct caller *callers;
};

/* A service that is being called; `outer` is the one in which the caller's code was called. */
struct call {
    const char *name;
    uint64_t caller, frame, number;
    struct call *outer;
    uint64_t slot;
};

struct options {
    const char *machine, *trace, *input, *variables, *json, *calls, *picture, *screen, *serial,
        *serial_input, *firmware, *application;
    const char *disks[MAX_DISKS], *drivers[MAX_DRIVERS], *arguments[MAX_ARGUMENTS];
    bool disk_read_only[MAX_DISKS];
    size_t disk_count, driver_count, argument_count;
    bool check, guard, strict, quiet, plain, certify, rights, snapshot, require_nx;
    unsigned seconds;
    uint64_t quarantine; /* the bytes of freed blocks that are held back */
};

struct host {
    struct rafkudin *core;
    struct options options;
    EFI_SYSTEM_TABLE *table;
    EFI_BOOT_SERVICES *boot;
    EFI_RUNTIME_SERVICES *runtime;
    EFI_TPL tpl;
    struct call *call;
    struct image *running, *application;
    bool exited, checks;
    bool over_memory; /* a block of the core's pool is at its address */
    bool in_pool;     /* the core's pool is being called */
    bool in_core;     /* the run ends while a call of the core may be under way */
    volatile bool ending; /* the report is being written */
    uint64_t calls;
    volatile bool signalled; /* a signal waits for the host's own code */
    uint64_t images_start, images_end; /* all images that there ever were lie between */
    uint64_t stack, stack_end; /* that of the machine, on which all images run */
    uint64_t image_stack; /* above it is none of the image that runs */
    struct {
        uint64_t instruction, stack;
    } fault; /* where the code of an image stopped */
};
extern struct host host;

/* How a run of efihost ends. */
enum ending {
    ENDED_WELL = 0,
    ENDED_REFUSED = 1, /* the application returned an error */
    ENDED_NEVER_RAN = 2,
    ENDED_WITH_FINDINGS = 3,
    ENDED_BY_FAULT = 4,
    ENDED_BY_LIMIT = 5,
};

/* ---- firmware.c, lzma.c ---- */
void open_firmware(const char *name);
void close_firmware(void);
uint8_t *firmware_image(const char *name, size_t *length);
uint64_t lzma_size(const uint8_t *bytes, size_t count);
uint8_t *lzma_decode(const uint8_t *bytes, size_t count);

/* ---- options.c ---- */
void read_options(int count, char **words, struct options *options);
NO_RETURN void refuse(const char *format, ...) __attribute__((format(printf, 1, 2)));

/* ---- text.c ---- */
const char *last_part(const char *name);
size_t wide_length(const CHAR16 *text);
void widen(CHAR16 *to, const char *text);
bool wide_equal(const CHAR16 *one, const CHAR16 *other);
size_t utf8_of(uint32_t letter, char *to);
bool narrow_into(char *to, size_t room, const CHAR16 *text);
const char *narrow(const CHAR16 *text);
const char *status_text(EFI_STATUS status);
const char *guid_text(const void *guid);
bool guid_equal(const void *one, const void *other);
uint32_t crc32_of(const void *bytes, size_t count);
void *must(void *memory);
uint8_t *read_file(const char *name, size_t *length);

/* ---- core_memory.c, core_protocols.c, trace.c: the services of the library, each with its line
 * of the trace ---- */
void open_trace(const char *name, const uint8_t *records, size_t count, uint64_t granule);
void close_trace(void);
bool tracing(void);
void trace_call(const struct rafkudin_call *call);
void trace_map(const struct rafkudin_call *call, struct rafkudin_map_reply *reply);
void trace_read(const struct rafkudin_call *call, struct rafkudin_read_reply *reply);
void trace_uninstalled(const struct rafkudin_call *call);
#define TRACE(...)                                                                                \
    (tracing() ? trace_call(&(const struct rafkudin_call){__VA_ARGS__}) : (void)0)
void check_certificate(void);
uint64_t core_pages(uint32_t kind, uint32_t type, uint64_t pages, uint64_t *memory);
uint64_t core_free_pages(uint64_t memory, uint64_t pages);
uint64_t core_map(uint64_t *size, void *map, uint64_t *key, uint64_t *step, uint32_t *version);
uint64_t core_pool(uint32_t type, uint64_t size, uint64_t *address);
uint64_t core_free_pool(uint64_t address);
uint64_t core_write(uint64_t address, const void *bytes, size_t count);
uint64_t core_read(uint64_t address, void *bytes, size_t count);
uint64_t core_exit(uint64_t image, uint64_t key);
struct rafkudin_guid core_guid(const void *guid);
uint64_t core_install(uint64_t *handle, const void *guid, uint32_t kind, uint64_t value);
uint64_t core_install_many(uint64_t *handle, const struct rafkudin_interface *list, size_t count);
uint64_t core_uninstall(uint64_t handle, const void *guid, uint64_t value);
uint64_t core_uninstall_many(uint64_t handle, const struct rafkudin_interface *list,
                             size_t count);
uint64_t core_reinstall(uint64_t handle, const void *guid, uint64_t old, uint64_t value);
uint64_t core_notify(const void *guid, uint64_t event, uint64_t *key);
uint64_t core_locate(uint32_t search, const void *guid, uint64_t key, uint64_t *size,
                     uint64_t *handles);
uint64_t core_locate_buffer(uint32_t search, const void *guid, uint64_t key, uint64_t *count,
                            uint64_t *address);
uint64_t core_locate_protocol(const void *guid, uint64_t key, uint64_t *value);
uint64_t core_protocols(uint64_t handle, struct rafkudin_guid *list, size_t room,
                        uint64_t *count);
uint64_t core_open(uint64_t handle, const void *guid, uint64_t *value, uint64_t agent,
                   uint64_t controller, uint32_t attributes);
uint64_t core_close(uint64_t handle, const void *guid, uint64_t agent, uint64_t controller);
uint64_t core_information(uint64_t handle, const void *guid, uint64_t *address, uint64_t *count);
uint64_t core_handle_protocol(uint64_t handle, const void *guid, uint64_t *value);
uint64_t core_locate_path(const void *guid, const uint8_t *path, size_t length, uint64_t block,
                          uint64_t *matched, uint64_t *handle);

/* ---- calls.c: who calls which service ---- */
#define HERE NUMBER(__builtin_return_address(0))
#define FRAME NUMBER(__builtin_frame_address(0)) /* above it is the return address */
#define SERVICE(title, ...) SERVICE_AT(title, HERE, __VA_ARGS__)
/* The call is known before its arguments are looked at, which may be by a bad pointer. */
#define BEGIN(title, where)                                                                       \
    struct call this_call = {                                                                     \
        .name = title, .caller = where, .frame = FRAME, .outer = host.call};                      \
    host.call = &this_call
#define SERVICE_AT(title, where, ...)                                                             \
    BEGIN(title, where);                                                                          \
    if (!enter(&this_call, title, where, (const uint64_t[4]){__VA_ARGS__}))                       \
    return leave(&this_call, EFI_UNSUPPORTED)
#define ANSWER(status) return leave(&this_call, (status))
/* A service that stays after boot services have ended. */
#define RUNTIME_SERVICE(title, ...)                                                               \
    BEGIN(title, HERE);                                                                           \
    begin(&this_call, title, HERE, (const uint64_t[4]){__VA_ARGS__})
void begin(struct call *call, const char *name, uint64_t caller, const uint64_t *arguments);
bool enter(struct call *call, const char *name, uint64_t caller, const uint64_t *arguments);
EFI_STATUS leave(struct call *call, EFI_STATUS status);
void open_calls_log(const char *file);
void close_calls_log(void);
void print_last_calls(FILE *file);
void ask_missing(const char *what);
void print_missing(FILE *file, const char *before);
size_t missing_count(void);
const char *missing_name(size_t index);

/* ---- stacks.c: who called whom ---- */
bool behind_call(const struct image *image, uint64_t address);
struct origin origin_at(uint64_t caller);
struct origin origin_now(void);
struct origin origin_without_callers(void);
bool same_origin(const struct origin *one, const struct origin *other);
bool for_other(const struct origin *origin);
void forget_stacks(void);

/* ---- machine.c ---- */
struct machine_range {
    uint64_t start, pages, attributes;
    uint32_t type;
    bool mapped;
    int usual;        /* the rights with which its pages were mapped */
    uint8_t *changed, *other_type; /* for each page, in which of these rights it differs, and how in
                                    * its type */
};
void make_machine(const char *file);
const struct machine_range *machine_range_at(uint64_t address);
bool conventional_range(uint64_t address, uint64_t *start, uint64_t *size);
uint32_t memory_type(uint64_t address);
int memory_rights(uint64_t address);
bool in_granules(uint32_t type);
uint64_t add_pool_range(uint64_t size);
void note_type(uint64_t address, uint64_t size, uint32_t type);
void protect_memory(uint64_t address, uint64_t size, int rights);
void open_memory(uint64_t address, uint64_t size);
void shut_memory(uint64_t address, uint64_t size);
void open_all_memory(void);

/* ---- ledger.c, quarantine.c: what is live, what was freed, and who made it ---- */
struct block {
    uint64_t at, size, core_at;
    uint64_t start, room; /* the piece of memory in which it lies; no room: it is the core's block */
    uint32_t type;
    bool executable;
    bool paged;  /* it has pages of its own, behind which is one that is shut */
    bool gone;   /* it is freed, and held back */
    bool harmed; /* bytes around it were written, which is found once */
    struct origin origin, freed;
    struct block *next, *later;
};
struct run {
    uint64_t at, pages;
    uint32_t type;
    bool red_before, red_behind;
    struct origin origin;
};
struct freed_run {
    uint64_t at, pages;
    struct origin made, freed;
};
void ledger_add_block(const struct block *block);
struct block *ledger_block(uint64_t at);
struct block *ledger_gone_block(uint64_t at);
struct block *ledger_block_around(uint64_t address);
void ledger_drop_block(struct block *block);
void ledger_each_block(void (*visit)(struct block *block, void *context), void *context);
void ledger_add_run(const struct run *run);
struct run *ledger_run_with(uint64_t address);
struct run *ledger_run_beside(uint64_t address);
bool ledger_red_among(uint64_t at, uint64_t pages);
void ledger_cut_runs(uint64_t at, uint64_t pages);
void ledger_each_run(void (*visit)(struct run *run, void *context), void *context);
void ledger_add_freed(uint64_t at, uint64_t pages, struct origin made);
struct freed_run *ledger_freed_with(uint64_t address);
void hold_back(struct block *block);
void each_held_back(void (*visit)(struct block *block));

/* ---- memory.c, red_zones.c, pieces.c ---- */
EFI_STATUS host_pages(uint32_t kind, uint32_t type, uint64_t pages, uint64_t *at);
EFI_STATUS host_plain_pages(uint32_t kind, uint32_t type, uint64_t pages, uint64_t *at);
EFI_STATUS host_free_pages(uint64_t at, uint64_t pages);
EFI_STATUS host_pool(uint32_t type, uint64_t size, void **block);
EFI_STATUS host_free_pool(void *block);
EFI_STATUS host_adopt_block(uint64_t core_at, uint64_t size, void **block);
void *try_machine_block(uint64_t size);
void *machine_block(uint64_t size);
void *machine_copy(const void *bytes, size_t size);
void free_machine_block(void *block);
bool give_red_pages(void);
uint64_t red_changes(void);
void give_block(const void *block, const struct image *from, bool to_caller);
void touch(const void *bytes, size_t count, bool write);
void fill_memory_services(EFI_BOOT_SERVICES *boot);
struct origin last_map_change(EFI_TPL *level);
void zone_make(struct block *block);
void zone_look(struct block *block, const char *when);
void zone_free(const struct block *block, bool held_back);
void zone_look_at_gone(struct block *block);
void zone_look_at_all(const char *when);
uint64_t take_piece(uint64_t *size, bool executable);
void give_piece(uint64_t at, uint64_t size, bool executable);
bool in_pieces(uint64_t address);

/* ---- structures.c: what images see of the firmware and only read ---- */
void *make_structure(const char *name, const void *bytes, size_t size);
void *need_structure(const char *name, const void *bytes, size_t size);
void set_structure(void *at, const void *bytes, size_t size);
const char *structure_at(uint64_t address, uint64_t *byte);

/* ---- findings.c ---- */
enum finding {
    BEHIND_BLOCK,
    BEFORE_BLOCK,
    USE_AFTER_FREE,
    FREE_NOT_LIVE,
    NEVER_PLACED,
    RUN_BORDER,
    IMAGE_RIGHTS,
    LEAK,
    STALE_KEY,
    AFTER_EXIT,
    DATA_EXECUTED,
    FIRMWARE_WRITTEN,
    FINDING_KINDS,
};
void found(enum finding kind, const struct origin *origin, const char *format, ...)
    __attribute__((format(printf, 3, 4)));
void found_with(enum finding kind, const struct origin *origin, const struct origin *other,
                const char *format, ...) __attribute__((format(printf, 4, 5)));
size_t findings_count(void);
const char *finding_name(enum finding kind);
void write_findings(FILE *file);
void write_text(FILE *file, const char *text);
void found_access(uint64_t address, uint64_t instruction, const char *how);
void look_for_leaks(struct image *image, const char *when);

/* ---- report.c, left.c ---- */
void open_report(const char *file);
void write_report(enum ending ending, const char *why);
void save_pictures(void);
void count_left(void);
void print_left(FILE *file);
void write_left(FILE *file);
NO_RETURN void finish(enum ending ending, const char *format, ...)
    __attribute__((format(printf, 2, 3)));

/* ---- images.c, pe.c, sources.c, symbols.c ---- */
struct symbol {
    uint64_t offset;
    char *name;
};
struct section {
    uint64_t at, size;
    bool writable, executable;
};
struct image {
    EFI_HANDLE handle;
    EFI_LOADED_IMAGE_PROTOCOL *loaded; /* which the image may write */
    EFI_DEVICE_PATH_PROTOCOL *path, *file_path;
    uint64_t placed, base, pages, size, entry, calls;
    char name[64];
    uint16_t subsystem;
    bool started, leaving, gone;
    bool nx_compatible; /* it says that memory of data types may be without execution */
    bool ran_data;      /* and a line has said that it executes some */
    sigjmp_buf back;
    EFI_STATUS status;
    UINTN exit_size;
    CHAR16 *exit_data;
    struct image *below, *next;
    struct section *sections;
    size_t section_count;
    struct symbol *symbols;
    size_t symbol_count;
    char debug_file[128]; /* of the debug entry, or empty */
    void *packages;       /* the HII packages among its resources, or NULL */
};
struct image *image_at(uint64_t address);
struct image *image_of(EFI_HANDLE handle);
struct image *first_image(void);
void keep_symbols(const char *file, const uint8_t *bytes, size_t length);
void read_symbols(struct image *image, const char *file);
const char *place_text(struct image *image, uint64_t address);
const char *where(uint64_t address);
const char *origin_text(const struct origin *origin);
EFI_STATUS load_pe(const uint8_t *file, uint64_t length, struct image *image);
void peek_debug_file(const uint8_t *file, uint64_t length, struct image *image);
const char *image_fault(void);
void apply_rights(struct image *image);
EFI_STATUS load_image(EFI_HANDLE parent, const void *path, const uint8_t *data, uint64_t length,
                      const char *file, struct image **image);
EFI_STATUS start_image(struct image *image);
EFI_STATUS unload_image(struct image *image);
bool has_load_options(const struct image *except, uint64_t at, uint64_t size);
EFI_STATUS EFIAPI LoadImage(BOOLEAN policy, EFI_HANDLE parent, EFI_DEVICE_PATH_PROTOCOL *path,
                            void *data, UINTN size, EFI_HANDLE *handle);
EFI_STATUS EFIAPI StartImage(EFI_HANDLE handle, UINTN *size, CHAR16 **data);
EFI_STATUS EFIAPI Exit(EFI_HANDLE handle, EFI_STATUS status, UINTN size, CHAR16 *data);
EFI_STATUS EFIAPI UnloadImage(EFI_HANDLE handle);
EFI_STATUS EFIAPI ExitBootServices(EFI_HANDLE handle, UINTN key);
struct source {
    uint8_t *bytes; /* a block of the machine's, which the caller frees */
    uint64_t length;
};
EFI_STATUS read_by_path(const void *path, bool policy, struct source *to);

/* ---- events.c ---- */
struct event;
uint64_t now_100ns(void);
void skip_time(uint64_t amount);
void idle(bool wants_key);
void dispatch(void);
void signal_numbers(const uint64_t *numbers, size_t count);
uint64_t event_number(EFI_EVENT event);
EFI_EVENT make_key_event(void);
void signal_before_exit(void);
void signal_exit_boot_services(void);
size_t events_of(const struct image *image);
void fill_event_services(EFI_BOOT_SERVICES *boot);

/* ---- protocols.c, device_paths.c ---- */
EFI_STATUS install_one(uint64_t *handle, const void *guid, uint32_t kind, uint64_t value);
EFI_STATUS install_many(uint64_t *handle, const struct rafkudin_interface *list, size_t count);
EFI_STATUS uninstall_one(uint64_t handle, const void *guid, uint64_t value);
void *interface_of(uint64_t handle, const void *guid);
void fill_protocol_services(EFI_BOOT_SERVICES *boot);
void fill_open_services(EFI_BOOT_SERVICES *boot);
void make_path_room(void);
size_t path_length(const void *path);
bool path_to_core(const void *guid, uint64_t *value);
uint64_t path_from_core(const void *guid, uint64_t value);
uint64_t path_installed(uint64_t handle, const void *guid, uint64_t value);
void path_drop(uint64_t value);
EFI_STATUS locate_path(const void *guid, const void *path, uint64_t *handle, uint64_t *matched);
struct held {
    uint64_t handle, agent, controller, value;
    EFI_GUID guid;
    uint32_t attributes; /* 0: the interface itself, installed */
    struct origin origin;
};
void hold(const struct held *held);
void let_go(uint64_t handle, const void *guid, uint64_t agent, uint64_t controller, bool all);
void each_held(void (*visit)(const struct held *held, void *context), void *context);

/* ---- drivers.c, overrides.c, stops.c ---- */
struct handles {
    uint64_t *list;
    size_t count, room;
};
enum stopped {
    NONE_TO_STOP,
    ALL_STOPPED,
    NOT_ALL_STOPPED,
};
bool is_live(uint64_t handle);
bool has_interface(uint64_t handle, const void *guid, const void *interface);
void add_handle(struct handles *handles, uint64_t handle);
struct handles handles_with(const void *guid);
size_t name_drivers(uint64_t controller, const EFI_HANDLE *first, uint64_t *list);
EFI_STATUS connect_controller(uint64_t controller, const EFI_HANDLE *first,
                              EFI_DEVICE_PATH_PROTOCOL *rest, bool recursive);
EFI_STATUS disconnect_controller(uint64_t controller, uint64_t driver, uint64_t child);
enum stopped stop_drivers_on(uint64_t handle, const void *guid);

/* ---- console.c, screen.c, text_in.c, keys.c ---- */
#define SCREEN_COLUMNS 80
#define SCREEN_ROWS 25
void make_console(void);
void restore_terminal(void);
void restore_keys(void);
void open_screen(const char *name);
void screen_put(int row, int column, CHAR16 letter, int attribute);
void screen_clear(int attribute);
void screen_scroll(int attribute);
void save_screen(void);
bool terminal_out(void);
void make_text_in(void);
void notify_keys(void);
bool key_is_ready(void);
bool key_comes(EFI_INPUT_KEY *key);
bool next_key(EFI_INPUT_KEY *key);
bool keys_are_over(void);
bool keys_from_terminal(void);
bool keys_may_come(void);
int keys_descriptor(void);
void open_keys(const char *file);

/* ---- tables.c, runtime.c, variables.c ---- */
void make_tables(void);
void show_tables(void);
void fill_small_services(EFI_BOOT_SERVICES *boot);
void fill_runtime_services(EFI_RUNTIME_SERVICES *runtime);
void fill_variable_services(EFI_RUNTIME_SERVICES *runtime);
void open_variables(const char *file);
void load_variables(void);
bool has_table(uint64_t at, uint64_t size);

/* ---- disks.c, folder.c, folder_files.c, graphics.c, picture.c, serial.c ---- */
void make_disks(void);
bool disk_is_read_only(size_t number);
uint64_t make_folder(const char *path, unsigned number, bool read_only);
EFI_FILE_PROTOCOL *folder_root(int folder);
bool write_time(EFI_TIME *to, int64_t seconds);
const char *application_path(const char *file, EFI_HANDLE *device);
void make_graphics(void);
void save_picture(void);
void write_picture(FILE *file, const uint32_t *pixels, unsigned width, unsigned height);
void make_serial(const char *to, const char *from);

/* ---- words.c ---- */
struct words {
    char text[512];
    size_t used;
};
void say_text(struct words *to, const char *text);
void say_number(struct words *to, uint64_t number);
void say_place(struct words *to, uint64_t address);
NO_RETURN void end_with(struct words *words, enum ending ending);

/* ---- faults.c, instructions.c, execution.c, sandbox.c ---- */
void catch_faults(void);
void heed_signals(void);
bool pass_over(void *context);
bool is_privileged(uint64_t at);
void print_passed_over(FILE *file);
void say_instruction(struct words *to, uint64_t at);
void say_refusal(struct words *to, int signal, const void *context);
uint64_t caller_of(uint64_t stack);
bool let_run(uint64_t address, uint64_t caller);
void keep_named_files(void);
void drop_rights(void);

extern const EFI_GUID device_path_guid, loaded_image_guid, loaded_image_path_guid,
    driver_binding_guid, file_system_guid, block_io_guid, package_list_guid;

#endif
