/* Rafkudin: the memory and protocol services of a UEFI firmware, proved, as a library for C.
 *
 * A core is the boot services of one machine. docs/RULES.md states what each service does, point by
 * point, and docs/FORMATS.md the bytes of maps, lists, device paths and certificates; the end of
 * RULES.md says what of the standard is left out. No hardware is touched. Addresses are those of
 * the machine that RafkudinMake describes, never pointers of this program, except on a core that
 * RafkudinMakeOver makes over memory.
 *
 * NAMES. There are 24 services. 22 of them have their names in the UEFI Specification 2.10 with
 * the prefix Rafkudin, and the standard's parameters in the standard's order, after the core; where
 * one is left out or added, the comment at the function says so. RafkudinPoolRead and
 * RafkudinPoolWrite are in no standard: by them a caller reaches the bytes of the pool.
 * UninstallMultipleProtocolInterfaces is here too, though no trace of the program has it; so all
 * services of sections 7.2 and 7.3 are here. Other functions are no services.
 * rafkudin_efi_names.h has the standard's names without a prefix, as macros. Every symbol of the
 * library begins with Rafkudin, but for the three of its heap.
 *
 * NUMBERS. A page has 4,096 bytes. Addresses and sizes are in bytes, numbers of pages in pages. A
 * handle is a number, from 1 up; 0 is the null handle. An event is any number of the caller's.
 * Handles, events, interfaces and the addresses of the pool are 64-bit numbers, where the standard
 * has pointers.
 *
 * NULL. A function returns INVALID_PARAMETER, and uses up no call, where its pointer to the core, a
 * GUID, a call, a reply or a result is null, unless the comment says that it may be null; one that
 * returns no status returns 0 or does nothing. A pointer with a count or a size of 0 may be null.
 * rafkudin_null.h, which this header includes, checks for null pointers in inline functions and
 * then calls the library; with RAFKUDIN_NO_NULL_CHECKS nothing checks, and no pointer may be null.
 *
 * STATUSES. Services return an EFI_STATUS. SUCCESS is 0, any other is a refusal. A refused call
 * changes nothing in the core but the number of calls left and what RafkudinEvents,
 * RafkudinCertificate and RafkudinReplyLine report, which is always about the last call. Nor does
 * it write to the caller's variables and buffers, except as said at BUFFER_TOO_SMALL, OpenProtocol
 * and HandleProtocol. Where several refusals apply, the call returns the one that is named first.
 * The following refusals hold for every service, and are not repeated below:
 * - First of all, ABORTED: the core has served its 2^62 - 1 calls, which at 50 ns each take 7,300
 *   years. Refused ones count too.
 * - Then UNSUPPORTED: boot services have ended. Every service returns it from then on.
 * - Last of all, OUT_OF_RESOURCES: the heap refused the core memory for its own tables. The
 *   services that install or reinstall interfaces, and ConnectController, also return it once 2^61
 *   numbers were given to handles, or 2^61 - 1 stamps to interfaces, one at each installation and
 *   reinstallation. GetMemoryMap, ExitBootServices, PoolRead, PoolWrite, CloseProtocol,
 *   HandleProtocol, LocateDevicePath and LocateProtocol never ask for memory. FreePool never
 *   returns it, and FreePages only where its comment says.
 * OUT_OF_RESOURCES may be returned instead of six refusals that are named before it, as the core
 * needs memory to decide them:
 * - ACCESS_DENIED of UninstallProtocolInterface, of ReinstallProtocolInterface, and of an exclusive
 *   OpenProtocol for which a driver must be stopped;
 * - NOT_FOUND of ConnectController, and DEVICE_ERROR of DisconnectController;
 * - INVALID_PARAMETER of UninstallMultipleProtocolInterfaces with up to 16 interfaces.
 *
 * WHAT THE CALLER MUST DO. Nothing checks it, and the proofs hold only where it holds:
 * - `core` is a pointer that RafkudinMake or RafkudinMakeOver set, and RafkudinFree has not been
 *   called with it.
 * - Each pointer is null or aligned for its type.
 * - A buffer has the room, and an array the entries, that the parameter beside it states. All that
 *   is read is initialized: every field of a structure, and entries beyond its counts too. A bool
 *   is 0 or 1.
 * - The variables and buffers that a call's pointers point to must not overlap, nor be a part of
 *   the core; those that are only read may overlap. So each result has a variable of its own.
 * - A core is in one call at a time, on the thread that made it. Two cores may be in calls at once,
 *   also in two threads.
 * - No call is made from an interrupt handler itself, from a signal handler, or in the forked child
 *   of a process with threads.
 *
 * WHAT THE LIBRARY NEEDS. The program defines memcpy, memmove and memset, as the C library does,
 * and malloc, realloc and free; or, instead of these three, a heap of its own:
 *
 *     struct block { bool given; void *start; };
 *     struct block rattle_alloc(size_t size, size_t align);
 *     struct block rattle_realloc(void *start, size_t kept, size_t size, size_t align);
 *     void rattle_dealloc(void *start);
 *
 * docs/C.md says what these must do, how to link, and how a firmware builds the library. On x86-64
 * it runs on every processor and may be interrupted anywhere, as it uses no byte below the stack
 * pointer. ReinstallProtocolInterface and ConnectController take up to 8 KB of stack, services that
 * change pages 6 KB, RafkudinFree 10 KB, RafkudinMake 20 KB, RafkudinPlace 22 KB; docs/C.md says
 * what others take. */
#ifndef RAFKUDIN_H
#define RAFKUDIN_H

/* With RAFKUDIN_NO_STD_INCLUDES nothing is included here, and the includer has declared bool, NULL,
 * size_t, uint8_t, uint32_t and, unless it defines RAFKUDIN_UINT64, uint64_t. */
#ifndef RAFKUDIN_NO_STD_INCLUDES
#include <stdbool.h>
#include <stddef.h>
#include <stdint.h>
#endif

#if defined(__SIZEOF_POINTER__) && __SIZEOF_POINTER__ != 8
#error "rafkudin.h is for 64-bit processors"
#endif

/* The unsigned type of 64 bits: that of EDK2 is `unsigned long long`, whose pointers are of another
 * type than those of `uint64_t` on Linux. */
#ifndef RAFKUDIN_UINT64
#define RAFKUDIN_UINT64 uint64_t
#endif
typedef RAFKUDIN_UINT64 rafkudin_uint64;

/* The library's calling convention: that of the System V ABI, also where the compiler's own is
 * another, as with EDK2 or `-target x86_64-unknown-windows`. */
#ifndef RAFKUDIN_API
#if defined(__x86_64__) || defined(_M_X64)
#define RAFKUDIN_API __attribute__((sysv_abi))
#else
#define RAFKUDIN_API
#endif
#endif

/* The version of this header: a byte for each of its numbers, major, minor and patch. */
#define RAFKUDIN_VERSION 0x000100U

#ifdef __cplusplus
extern "C" {
#endif

/* The statuses that services return. */
#define RAFKUDIN_SUCCESS 0ULL
#define RAFKUDIN_INVALID_PARAMETER 0x8000000000000002ULL
#define RAFKUDIN_UNSUPPORTED 0x8000000000000003ULL
#define RAFKUDIN_BUFFER_TOO_SMALL 0x8000000000000005ULL
#define RAFKUDIN_DEVICE_ERROR 0x8000000000000007ULL
#define RAFKUDIN_OUT_OF_RESOURCES 0x8000000000000009ULL
#define RAFKUDIN_NOT_FOUND 0x800000000000000eULL
#define RAFKUDIN_ACCESS_DENIED 0x800000000000000fULL
#define RAFKUDIN_ALREADY_STARTED 0x8000000000000014ULL
#define RAFKUDIN_ABORTED 0x8000000000000015ULL

/* Type of AllocatePages: AllocateAnyPages, AllocateMaxAddress, AllocateAddress. */
#define RAFKUDIN_ANY_PAGES 0U
#define RAFKUDIN_MAX_ADDRESS 1U
#define RAFKUDIN_AT_ADDRESS 2U

/* EFI_MEMORY_TYPE. Those from 0x70000000 on belong to OEMs, those from 0x80000000 on to loaders of
 * operating systems. No request may name CONVENTIONAL, PERSISTENT, UNACCEPTED or a number from 16
 * to 0x6fffffff. */
#define RAFKUDIN_RESERVED 0U
#define RAFKUDIN_LOADER_CODE 1U
#define RAFKUDIN_LOADER_DATA 2U
#define RAFKUDIN_BOOT_SERVICES_CODE 3U
#define RAFKUDIN_BOOT_SERVICES_DATA 4U
#define RAFKUDIN_RUNTIME_SERVICES_CODE 5U
#define RAFKUDIN_RUNTIME_SERVICES_DATA 6U
#define RAFKUDIN_CONVENTIONAL 7U
#define RAFKUDIN_UNUSABLE 8U
#define RAFKUDIN_ACPI_RECLAIM 9U
#define RAFKUDIN_ACPI_MEMORY_NVS 10U
#define RAFKUDIN_MEMORY_MAPPED_IO 11U
#define RAFKUDIN_MEMORY_MAPPED_IO_PORT_SPACE 12U
#define RAFKUDIN_PAL_CODE 13U
#define RAFKUDIN_PERSISTENT 14U
#define RAFKUDIN_UNACCEPTED 15U

/* The two attribute bits that the core acts on, EFI_MEMORY_SP and EFI_MEMORY_RUNTIME. */
#define RAFKUDIN_MEMORY_SP 0x40000ULL
#define RAFKUDIN_MEMORY_RUNTIME 0x8000000000000000ULL

/* SearchType of LocateHandle and LocateHandleBuffer. */
#define RAFKUDIN_ALL_HANDLES 0U
#define RAFKUDIN_BY_REGISTER_NOTIFY 1U
#define RAFKUDIN_BY_PROTOCOL 2U

/* Attributes of OpenProtocol: one of these, or BY_DRIVER and EXCLUSIVE together. */
#define RAFKUDIN_BY_HANDLE_PROTOCOL 0x1U
#define RAFKUDIN_GET_PROTOCOL 0x2U
#define RAFKUDIN_TEST_PROTOCOL 0x4U
#define RAFKUDIN_BY_CHILD_CONTROLLER 0x8U
#define RAFKUDIN_BY_DRIVER 0x10U
#define RAFKUDIN_EXCLUSIVE 0x20U

/* The bytes of a descriptor that GetMemoryMap writes, and the descriptors' version. */
#define RAFKUDIN_DESCRIPTOR_SIZE 48U
#define RAFKUDIN_DESCRIPTOR_VERSION 1U

/* The most handles that are live at a time, the most driver handles that ConnectController may
 * name, and the most bytes of a pool block. */
#define RAFKUDIN_MAX_HANDLES 4096U
#define RAFKUDIN_MAX_DRIVERS_TO_TRY 16U
#define RAFKUDIN_MAX_BLOCK 0x100000000ULL

/* A core: the boot services of one machine. */
struct rafkudin;

/* EFI_GUID: its sixteen bytes as they lie in memory, the first three fields (4, 2 and 2 bytes)
 * little endian. */
struct rafkudin_guid {
    uint8_t bytes[16];
};

/* A protocol interface: its GUID and its value, which in a firmware is a pointer. The core follows
 * two values alone: that of a device path (09576e91-6d3f-11d2-8e39-00a0c969723b) is an address in
 * the pool, that of a driver binding (18a031ab-b443-4d1a-a5c0-0c09261e9f71) a driver's index among
 * those of RafkudinMake, from 0 on. */
struct rafkudin_interface {
    struct rafkudin_guid guid;
    rafkudin_uint64 value;
};

/* A child that a driver makes: up to 4 interfaces, of which the first `count` are its own. */
struct rafkudin_child {
    struct rafkudin_interface interfaces[4];
    rafkudin_uint64 count;
};

/* A driver with fixed answers: it supports a controller that carries all of `needs`, none of them
 * held by a driver; it opens `opens` there and makes `children`, and it lets itself be stopped or
 * not. Of several drivers for a controller the one of the highest version is started first. Of each
 * array as many entries count as the number behind it says, up to 8. */
struct rafkudin_driver {
    uint32_t version;
    bool stops;
    struct rafkudin_guid needs[8];
    rafkudin_uint64 needs_count;
    struct rafkudin_guid opens[8];
    rafkudin_uint64 opens_count;
    struct rafkudin_child children[8];
    rafkudin_uint64 children_count;
};

/* An entry of the memory map: the fields of EFI_MEMORY_DESCRIPTOR without VirtualStart, which is
 * always 0. */
struct rafkudin_descriptor {
    uint32_t type;
    rafkudin_uint64 physical_start;  /* an address, a multiple of 4,096 */
    rafkudin_uint64 number_of_pages; /* at least 1 */
    rafkudin_uint64 attribute;
};

/* A live block of the pool. */
struct rafkudin_block {
    rafkudin_uint64 address;
    rafkudin_uint64 size;
    uint32_t type; /* EFI_MEMORY_TYPE */
};

/* Who placed pages: nobody, as they are free or came with the machine; AllocatePages; the pool. */
#define RAFKUDIN_GIVEN 0U
#define RAFKUDIN_PLACED 1U
#define RAFKUDIN_POOL 2U

/* Pages in a row of one type, one set of attributes and one owner. Those beside it differ. */
struct rafkudin_run {
    uint32_t type;
    uint32_t owner;
    rafkudin_uint64 physical_start;  /* an address, a multiple of 4,096 */
    rafkudin_uint64 number_of_pages; /* at least 1 */
    rafkudin_uint64 attribute;
};

/* What is open on an interface: an EFI_OPEN_PROTOCOL_INFORMATION_ENTRY. */
struct rafkudin_item {
    rafkudin_uint64 agent;
    rafkudin_uint64 controller;
    uint32_t attributes;
    uint32_t open_count;
};

/* The same with its interface. */
struct rafkudin_open {
    rafkudin_uint64 handle;
    struct rafkudin_guid guid;
    rafkudin_uint64 agent;
    rafkudin_uint64 controller;
    uint32_t attributes;
    uint32_t open_count;
};

/* ---- The core itself. None of these is a service, and none uses up a call. ---- */

/* Makes a core, and puts its pointer into *core.
 *
 * `records` are `size` bytes of EFI_MEMORY_DESCRIPTORs as GetMemoryMap of any firmware writes them:
 * each takes `descriptor_size` bytes, 40 or more, of which the first 40 are the standard's fields.
 * They may come in any order, and may touch. `granule` is in pages, 1 or 16: runtime, reserved and
 * ACPI NVS memory is placed in whole granules of it. `drivers` are `driver_count` drivers, up to
 * 64.
 *
 * INVALID_PARAMETER:
 * - `core` is null;
 * - a descriptor size below 40, or one that does not divide `size`; over 65,536 descriptors;
 * - a descriptor that has no pages, starts at no multiple of 4,096, goes past the last page
 *   (2^52 - 1), is of a type from 16 to 0x6fffffff, or is conventional with RUNTIME; or two that
 *   overlap;
 * - another granule;
 * - more than 64 drivers, or a count of a driver or a child above what its array holds. The drivers
 *   are looked at before any memory is asked for.
 * OUT_OF_RESOURCES: memory was refused. *core is set on SUCCESS alone.
 *
 * The core takes memory for its first 64 placements of pages and for freeing each of them whole:
 * where the heap refuses all memory after that, these calls return SUCCESS nevertheless. A
 * certificate takes memory besides. */
RAFKUDIN_API rafkudin_uint64 RafkudinMake(const uint8_t *records, size_t size,
                                          size_t descriptor_size, rafkudin_uint64 granule,
                                          const struct rafkudin_driver *drivers,
                                          size_t driver_count, struct rafkudin **core);

/* Memory that a caller hands over: `pages` pages of 4,096 bytes from `start` on. `start` is not
 * null, and `pages` below 2^51. */
struct rafkudin_memory {
    void *start;
    size_t pages;
};

/* RafkudinMake with memory for the machine's pages from number `first_page` on: page k of the
 * memory is page `first_page` + k of the machine. The bytes of a pool block are then in this
 * memory, at the block's address. All replies are the same, with one exception: new pages for the
 * pool that are not all in the memory are refused as where memory runs out. So there should be
 * memory for each conventional page of the machine; `start` is at least as aligned as a page.
 *
 * The memory is the core's alone until RafkudinFree, but for what it has handed out. The caller may
 * read and write, by their addresses,
 * - the bytes of its own live blocks: RafkudinPoolRead returns what was written last, by either
 *   way. The 8 bytes before a block, and those behind it up to the next multiple of 32, are the
 *   core's, as are free bytes of an extent, in which it keeps its list;
 * - pages that AllocatePages placed, until they are freed: the core reads and writes no page but
 *   those of the pool.
 * Two cores must have no page of memory in common. What the core keeps for each page, a byte and
 * some more, stays allocated after the core is freed, and also where no core is made.
 *
 * INVALID_PARAMETER: the memory begins at null, or has 2^51 pages or more; and as for RafkudinMake.
 * OUT_OF_RESOURCES: memory was refused. *core is set on SUCCESS alone. */
RAFKUDIN_API rafkudin_uint64 RafkudinMakeOver(struct rafkudin_memory memory,
                                              rafkudin_uint64 first_page, const uint8_t *records,
                                              size_t size, size_t descriptor_size,
                                              rafkudin_uint64 granule,
                                              const struct rafkudin_driver *drivers,
                                              size_t driver_count, struct rafkudin **core);

/* Frees all memory of a core, also once boot services have ended. With null it does nothing. */
RAFKUDIN_API void RafkudinFree(struct rafkudin *core);

/* Whether calls make and keep the certificates of their placements from now on. A new core makes
 * none: they cost a list of bounds and a copy of the memory map for each call that may place
 * pages. The places are the same either way. */
RAFKUDIN_API void RafkudinCertify(struct rafkudin *core, bool certify);

/* Whether the core keeps the reply of each service from now on, for RafkudinReplyLine. A new core
 * keeps none: to keep one takes a call some time, and what it returns is the same either way. */
RAFKUDIN_API void RafkudinRecord(struct rafkudin *core, bool keep);

/* The certificate of the last service that was called, as the text of a certificate block
 * (docs/FORMATS.md), without a zero byte at its end. There is one where that call succeeded while
 * certificates were kept, and it was AllocatePages of the type RAFKUDIN_ANY_PAGES or
 * RAFKUDIN_MAX_ADDRESS, or an AllocatePool, LocateHandleBuffer or OpenProtocolInformation that
 * placed new pages for the pool. `text` has room for `room` bytes; the text is written where all of
 * it fits.
 *
 * SUCCESS: *length are the bytes written. BUFFER_TOO_SMALL: *length are the bytes needed, and none
 * is written. NOT_FOUND: there is no certificate. OUT_OF_RESOURCES: memory was refused. */
RAFKUDIN_API rafkudin_uint64 RafkudinCertificate(const struct rafkudin *core, uint8_t *text,
                                                 size_t room, rafkudin_uint64 *length);

/* What the program `bootcore` prints of the last service that was called, byte for byte, without a
 * zero byte at its end: the lines of its reply under the number of its line in a trace
 * (docs/FORMATS.md) and, while certificates are kept, its certificate as with `--certify`. There is
 * a reply where the service was called while replies were kept (RafkudinRecord). `text` has room
 * for `room` bytes; the text is written where all of it fits. A host that writes a line for each
 * call thus knows what the program must print.
 *
 * SUCCESS: *length are the bytes written. BUFFER_TOO_SMALL: *length are the bytes needed, and none
 * is written. NOT_FOUND: no service was called yet, or the last call left no reply. None is left
 * while replies are not kept, by GetMemoryMap and PoolRead, whose replies are in the caller's buffers, by
 * UninstallMultipleProtocolInterfaces and RafkudinLocatePath, which are in no trace, by
 * RafkudinInstallPath of bytes that begin with no path, and by a call that returns ABORTED.
 * OUT_OF_RESOURCES: memory was refused.
 *
 * After RafkudinInstallPath, which makes several calls, the reply is that of the one that decides
 * its status. Behind it is the certificate of its AllocatePool, which the program prints behind
 * that call's line. */
RAFKUDIN_API rafkudin_uint64 RafkudinReplyLine(const struct rafkudin *core, rafkudin_uint64 number,
                                               uint8_t *text, size_t room,
                                               rafkudin_uint64 *length);

/* How many events the last service that was called signals, and the first `room` of them in
 * `events`, in their order, whether replies are kept or not. Only InstallProtocolInterface, InstallMultipleProtocolInterfaces,
 * ReinstallProtocolInterface and ConnectController signal any, on SUCCESS: the events registered
 * for the GUIDs that they install. An event may be there more than once. */
RAFKUDIN_API size_t RafkudinEvents(const struct rafkudin *core, rafkudin_uint64 *events,
                                   size_t room);

/* How many entries the memory map has. This and the next work once boot services have ended
 * too. */
RAFKUDIN_API size_t RafkudinDescriptors(const struct rafkudin *core);

/* The entry at an index, from 0 on, by ascending address. NOT_FOUND: there is none. */
RAFKUDIN_API rafkudin_uint64 RafkudinDescriptor(const struct rafkudin *core, size_t index,
                                                struct rafkudin_descriptor *entry);

/* How many calls of services the core will still serve: 2^62 - 1 at first. */
RAFKUDIN_API rafkudin_uint64 RafkudinCallsLeft(const struct rafkudin *core);

/* The version of the library, as RAFKUDIN_VERSION: it equals that of the header that fits it. */
RAFKUDIN_API uint32_t RafkudinVersion(void);

/* ---- Questions: what there is, one item after the other ----
 *
 * None is a service, uses up a call, takes memory or changes anything, the map's key included; all
 * work once boot services have ended too. *block and the others are set on SUCCESS.
 *
 * NOT_FOUND: there is no such item. A loop over all ends with it:
 *
 *     for (address = 0; RafkudinBlockFrom(core, address, &block) == 0; address = block.address + 1)
 *     for (index = 0; RafkudinHandle(core, index, &handle) == 0; index++)
 */

/* The live block of the pool with the lowest address at or above `address`. */
RAFKUDIN_API rafkudin_uint64 RafkudinBlockFrom(const struct rafkudin *core,
                                               rafkudin_uint64 address,
                                               struct rafkudin_block *block);

/* How many runs of pages there are; and the one at an index, from 0 on, by ascending address. */
RAFKUDIN_API size_t RafkudinRuns(const struct rafkudin *core);
RAFKUDIN_API rafkudin_uint64 RafkudinRun(const struct rafkudin *core, size_t index,
                                         struct rafkudin_run *run);

/* The handle at an index, from 0 on, by ascending numbers: among all live ones, or among those that
 * carry a GUID. */
RAFKUDIN_API rafkudin_uint64 RafkudinHandle(const struct rafkudin *core, size_t index,
                                            rafkudin_uint64 *handle);
RAFKUDIN_API rafkudin_uint64 RafkudinHolder(const struct rafkudin *core,
                                            const struct rafkudin_guid *Protocol, size_t index,
                                            rafkudin_uint64 *handle);

/* The same handles all at once, in a buffer of the caller's, which has room for `room` handles;
 * *count is how many there are. BUFFER_TOO_SMALL: there is no room for all of them, and none is
 * written; *count is set too. */
RAFKUDIN_API rafkudin_uint64 RafkudinHandlesInto(const struct rafkudin *core,
                                                 rafkudin_uint64 *buffer, size_t room,
                                                 rafkudin_uint64 *count);
RAFKUDIN_API rafkudin_uint64 RafkudinHoldersInto(const struct rafkudin *core,
                                                 const struct rafkudin_guid *Protocol,
                                                 rafkudin_uint64 *buffer, size_t room,
                                                 rafkudin_uint64 *count);

/* The interface at an index, from 0 on, among those on a handle, in order of installation. */
RAFKUDIN_API rafkudin_uint64 RafkudinInterface(const struct rafkudin *core, rafkudin_uint64 handle,
                                               size_t index, struct rafkudin_interface *interface);

/* The item at an index, from 0 on, among those that are open on an interface, oldest first. */
RAFKUDIN_API rafkudin_uint64 RafkudinOpenItem(const struct rafkudin *core, rafkudin_uint64 handle,
                                              const struct rafkudin_guid *Protocol, size_t index,
                                              struct rafkudin_item *item);

/* The item at an index, from 0 on, among those that an agent has open, oldest first. */
RAFKUDIN_API rafkudin_uint64 RafkudinAgentItem(const struct rafkudin *core, rafkudin_uint64 agent,
                                               size_t index, struct rafkudin_open *item);

/* OpenProtocolInformation with a buffer of the caller's, which has room for `room` items: what is
 * open on an interface, oldest first, and in *EntryCount how many items that are.
 *
 * NOT_FOUND: the handle is not live or lacks the GUID. BUFFER_TOO_SMALL: there is no room for all
 * of them, and none is written; *EntryCount is set too. */
RAFKUDIN_API rafkudin_uint64 RafkudinOpenProtocolInformationInto(
    const struct rafkudin *core, rafkudin_uint64 Handle, const struct rafkudin_guid *Protocol,
    struct rafkudin_item *EntryBuffer, size_t room, rafkudin_uint64 *EntryCount);

/* ---- A placement with no core, and the check of one ---- */

/* Finds the best place for `Pages` pages of the type `MemoryType` on a memory map, and keeps
 * nothing of the map: `records`, `size`, `descriptor_size` and `granule` are those of RafkudinMake.
 * `limit` is the last byte that may belong to the pages, UINT64_MAX where they may lie anywhere.
 * *address is what AllocatePages would return on a core that is made of the map.
 *
 * INVALID_PARAMETER: `address` is null; the map, as for RafkudinMake; a memory type that no request
 * may name; 0 pages. OUT_OF_RESOURCES: no free memory without SP has room for the pages below the
 * limit, or memory was refused. */
RAFKUDIN_API rafkudin_uint64 RafkudinPlace(const uint8_t *records, size_t size,
                                           size_t descriptor_size, rafkudin_uint64 granule,
                                           uint32_t MemoryType, rafkudin_uint64 Pages,
                                           rafkudin_uint64 limit, rafkudin_uint64 *address);

/* Judges the `length` bytes of a certificate block, wherever it comes from.
 *
 * SUCCESS: it is accepted: for that map and that request the answer is the best, and each bound is
 * true. ACCESS_DENIED: it is refused. INVALID_PARAMETER: it is no block, and *line is the first
 * line, from 1 on, that is wrong or missing. OUT_OF_RESOURCES: memory was refused. */
RAFKUDIN_API rafkudin_uint64 RafkudinCheck(const uint8_t *text, size_t length,
                                           rafkudin_uint64 *line);

/* ---- Memory services, sections 7.2.1 to 7.2.5 ---- */

/* 7.2.1. Places `Pages` pages of the type `MemoryType`, and puts the address of the first into
 * *Memory: anywhere, below an address (*Memory is the last byte that may belong to them), or at an
 * address (*Memory itself). Anywhere and below an address, the permitted places are those whose
 * pages are all free (conventional) and without SP; the service takes the highest of those after
 * which the memory map has the fewest entries. On a machine with the granule 16, pages of the types
 * RESERVED, RUNTIME_SERVICES_CODE, RUNTIME_SERVICES_DATA and ACPI_MEMORY_NVS begin at a multiple of
 * 16 pages, and their number is rounded up to one. The address is 0 where the pages begin at page
 * 0: where callers take 0 for no memory, the records give page 0 another type.
 *
 * INVALID_PARAMETER: another type of allocation, a memory type that no request may name, or 0
 * pages. NOT_FOUND: the pages are not all there and free at the address, or the address is no
 * multiple of 4,096, or of 65,536 for these four types with the granule 16. OUT_OF_RESOURCES: no
 * permitted place, anywhere or below the address. */
RAFKUDIN_API rafkudin_uint64 RafkudinAllocatePages(struct rafkudin *core, uint32_t Type,
                                                   uint32_t MemoryType, rafkudin_uint64 Pages,
                                                   rafkudin_uint64 *Memory);

/* 7.2.2. Frees pages that AllocatePages placed: a whole allocation, a part of one, or several that
 * touch. On a machine with the granule 16, each end of the range then grows outward to the next
 * multiple of 16 pages, where the page at that end has one of the four types that AllocatePages
 * names; what it grows by was always placed too, and is freed with the rest.
 *
 * INVALID_PARAMETER: `Memory` is no multiple of 4,096, `Pages` is 0, or the range goes past the
 * last page. NOT_FOUND: a page of the range, as it is named, was not placed by AllocatePages.
 * OUT_OF_RESOURCES: memory was refused, and none is reserved. Each AllocatePages reserves memory
 * for one FreePages: enough where all allocations are freed whole. A FreePages of a part uses up as
 * much of it as one of a whole allocation. */
RAFKUDIN_API rafkudin_uint64 RafkudinFreePages(struct rafkudin *core, rafkudin_uint64 Memory,
                                               rafkudin_uint64 Pages);

/* 7.2.3, GetMemoryMap with the buffer's room beside it; RafkudinGetMemoryMap below has the
 * standard's parameters. The map is written to the front of `MemoryMap`, which has `room` bytes:
 * RAFKUDIN_DESCRIPTOR_SIZE bytes for each entry, by ascending address, of which the first 40 are an
 * EFI_MEMORY_DESCRIPTOR. *MemoryMapSize are the bytes written, *MapKey is the key that
 * ExitBootServices asks for, *DescriptorSize and *DescriptorVersion are the descriptors' size and
 * version.
 *
 * BUFFER_TOO_SMALL: *MemoryMapSize are the bytes needed; the descriptors' size and version are set
 * too, the key is not. */
RAFKUDIN_API rafkudin_uint64 RafkudinGetMemoryMapInto(struct rafkudin *core, uint8_t *MemoryMap,
                                                      size_t room, rafkudin_uint64 *MemoryMapSize,
                                                      rafkudin_uint64 *MapKey,
                                                      rafkudin_uint64 *DescriptorSize,
                                                      uint32_t *DescriptorVersion);

/* 7.2.4. Makes a block of `Size` bytes, all 0, in memory of the type `PoolType`, and puts its
 * address into *Buffer. Its address is 8 more than a multiple of 32. A size of 0 is allowed.
 *
 * INVALID_PARAMETER: a memory type that no request may name. OUT_OF_RESOURCES: a size above
 * RAFKUDIN_MAX_BLOCK, or no permitted place for new pages where they are needed. */
RAFKUDIN_API rafkudin_uint64 RafkudinAllocatePool(struct rafkudin *core, uint32_t PoolType,
                                                  rafkudin_uint64 Size, rafkudin_uint64 *Buffer);

/* 7.2.5. Frees the block at an address. INVALID_PARAMETER: no live block has this address. It never
 * returns OUT_OF_RESOURCES: AllocatePool reserves the memory that it may need. */
RAFKUDIN_API rafkudin_uint64 RafkudinFreePool(struct rafkudin *core, rafkudin_uint64 Buffer);

/* Copy `count` bytes of the pool, from the address on, to `bytes`, or copy `bytes` to there. A
 * program of a firmware reaches these bytes by a pointer. INVALID_PARAMETER: the bytes from the
 * address on do not all belong to one live block. */
RAFKUDIN_API rafkudin_uint64 RafkudinPoolRead(struct rafkudin *core, rafkudin_uint64 Address,
                                              uint8_t *bytes, size_t count);
RAFKUDIN_API rafkudin_uint64 RafkudinPoolWrite(struct rafkudin *core, rafkudin_uint64 Address,
                                               const uint8_t *bytes, size_t count);

/* ---- Protocol services, section 7.3, each by its name there ---- */

/* Installs an interface on *Handle, or on a new handle where *Handle is 0; the new handle is then
 * put into *Handle. `InterfaceType` must be 0, EFI_NATIVE_INTERFACE.
 *
 * INVALID_PARAMETER: another interface type; a handle that is neither 0 nor live, or that carries
 * the GUID already. OUT_OF_RESOURCES: RAFKUDIN_MAX_HANDLES are live already. */
RAFKUDIN_API rafkudin_uint64 RafkudinInstallProtocolInterface(struct rafkudin *core,
                                                              rafkudin_uint64 *Handle,
                                                              const struct rafkudin_guid *Protocol,
                                                              uint32_t InterfaceType,
                                                              rafkudin_uint64 Interface);

/* The same with `count` interfaces instead of the standard's list of arguments. All are installed
 * or none.
 *
 * INVALID_PARAMETER: no interfaces, or over 16 (at most the first 17 are read); a handle that is
 * neither 0 nor live; a GUID that is twice among the interfaces or is on the handle.
 * ALREADY_STARTED: one of the interfaces is a device path that a live handle has already.
 * OUT_OF_RESOURCES: RAFKUDIN_MAX_HANDLES are live already. */
RAFKUDIN_API rafkudin_uint64 RafkudinInstallMultipleProtocolInterfaces(
    struct rafkudin *core, rafkudin_uint64 *Handle, const struct rafkudin_interface *interfaces,
    size_t count);

/* Stops the driver that has the interface open, and removes the interface; with the last one its
 * handle goes.
 *
 * INVALID_PARAMETER: the handle is not live. NOT_FOUND: it lacks the GUID, or has it with another
 * value. ACCESS_DENIED: the driver can't be stopped, or the interface would still be open
 * exclusively or for a child. */
RAFKUDIN_API rafkudin_uint64
RafkudinUninstallProtocolInterface(struct rafkudin *core, rafkudin_uint64 Handle,
                                   const struct rafkudin_guid *Protocol, rafkudin_uint64 Interface);

/* Uninstalls the `count` interfaces of an array from a handle, one after the other as
 * RafkudinUninstallProtocolInterface does, or none: a refusal leaves all of them, with what is open
 * on them. With no interfaces it returns SUCCESS. It asks for no memory where no driver has one of
 * them open and none is refused. The standard's service takes the interfaces as arguments.
 *
 * INVALID_PARAMETER: more than 16 interfaces; one that RafkudinUninstallProtocolInterface refuses
 * at its turn. */
RAFKUDIN_API rafkudin_uint64 RafkudinUninstallMultipleProtocolInterfaces(
    struct rafkudin *core, rafkudin_uint64 Handle, const struct rafkudin_interface *interfaces,
    size_t count);

/* Stops the driver that has the interface open, sets its value to `NewInterface`, signals the
 * events of its GUID, and connects the handle recursively. Refusals as of
 * UninstallProtocolInterface, for `OldInterface`. */
RAFKUDIN_API rafkudin_uint64 RafkudinReinstallProtocolInterface(
    struct rafkudin *core, rafkudin_uint64 Handle, const struct rafkudin_guid *Protocol,
    rafkudin_uint64 OldInterface, rafkudin_uint64 NewInterface);

/* Registers an event for all later installations of a GUID, and puts the registration's key, from 1
 * up, into *Registration. It has no refusals of its own. */
RAFKUDIN_API rafkudin_uint64 RafkudinRegisterProtocolNotify(struct rafkudin *core,
                                                            const struct rafkudin_guid *Protocol,
                                                            rafkudin_uint64 Event,
                                                            rafkudin_uint64 *Registration);

/* LocateHandle with the buffer's room beside it; RafkudinLocateHandle below has the standard's
 * parameters. The handles that match are written to `Buffer`, which has room for `room` handles, by
 * ascending numbers: all live ones, the next one of the registration `SearchKey`, or those that
 * carry the GUID. *needed are the bytes of all that match, 8 for each, on SUCCESS and
 * BUFFER_TOO_SMALL. The GUID counts only for RAFKUDIN_BY_PROTOCOL, and may be null for other
 * searches; the key counts only for RAFKUDIN_BY_REGISTER_NOTIFY.
 *
 * INVALID_PARAMETER: another search type, or a key that RegisterProtocolNotify never returned.
 * NOT_FOUND: nothing matches. BUFFER_TOO_SMALL: there is no room for all of them, and none is
 * written. */
RAFKUDIN_API rafkudin_uint64 RafkudinLocateHandleInto(struct rafkudin *core, uint32_t SearchType,
                                                      const struct rafkudin_guid *Protocol,
                                                      rafkudin_uint64 SearchKey,
                                                      rafkudin_uint64 *needed,
                                                      rafkudin_uint64 *Buffer, size_t room);

/* The same search. The handles are put into a new pool block, 8 bytes each, whose address is
 * *Buffer and which the caller frees by FreePool; *NoHandles are how many. Refusals as above
 * without BUFFER_TOO_SMALL, and OUT_OF_RESOURCES: no permitted place for new pages of the pool. */
RAFKUDIN_API rafkudin_uint64 RafkudinLocateHandleBuffer(struct rafkudin *core, uint32_t SearchType,
                                                        const struct rafkudin_guid *Protocol,
                                                        rafkudin_uint64 SearchKey,
                                                        rafkudin_uint64 *NoHandles,
                                                        rafkudin_uint64 *Buffer);

/* Puts the value of an interface into *Interface: with `Registration` 0 that of the lowest handle
 * that carries the GUID, else that of the next handle of this registration.
 *
 * INVALID_PARAMETER: a registration other than 0 that was never made, or is of another GUID.
 * NOT_FOUND: there is no such handle. */
RAFKUDIN_API rafkudin_uint64 RafkudinLocateProtocol(struct rafkudin *core,
                                                    const struct rafkudin_guid *Protocol,
                                                    rafkudin_uint64 Registration,
                                                    rafkudin_uint64 *Interface);

/* ProtocolsPerHandle with a buffer of the caller's, which has room for `room` GUIDs: the GUIDs on
 * the handle are written to it, in order of installation, and *count is how many they are.
 *
 * INVALID_PARAMETER: the handle is not live. BUFFER_TOO_SMALL: there is no room for all of them,
 * and none is written; *count is set too. */
RAFKUDIN_API rafkudin_uint64 RafkudinProtocolsPerHandle(struct rafkudin *core,
                                                        rafkudin_uint64 Handle,
                                                        struct rafkudin_guid *guids, size_t room,
                                                        rafkudin_uint64 *count);

/* Puts the value of an interface into *Interface (RAFKUDIN_TEST_PROTOCOL leaves that as it is, and
 * `Interface` may be null then), and remembers which agent has it open for which controller, and
 * how. An exclusive open stops the driver that has the interface open.
 *
 * By the table of docs/RULES.md, whose topmost line that fits decides: INVALID_PARAMETER: other
 * attributes; a handle, or an agent or controller other than 0, that is not live; an agent or
 * controller of 0 where the attributes need one; a child controller that is the handle itself.
 * UNSUPPORTED: the handle lacks the GUID. ALREADY_STARTED: this agent has it open by driver
 * already. ACCESS_DENIED: it is open by a driver or exclusively, and that can't be ended.
 *
 * As in the reference implementation, which shipped programs rely on, *Interface is set with
 * ALREADY_STARTED too, and is 0 with UNSUPPORTED; not so with RAFKUDIN_TEST_PROTOCOL. */
RAFKUDIN_API rafkudin_uint64 RafkudinOpenProtocol(struct rafkudin *core, rafkudin_uint64 Handle,
                                                  const struct rafkudin_guid *Protocol,
                                                  rafkudin_uint64 *Interface,
                                                  rafkudin_uint64 AgentHandle,
                                                  rafkudin_uint64 ControllerHandle,
                                                  uint32_t Attributes);

/* Closes all that an agent has open for a controller on an interface.
 *
 * INVALID_PARAMETER: the handle or the agent is not live, or the controller is neither 0 nor live.
 * NOT_FOUND: the handle lacks the GUID, or nothing is open so. */
RAFKUDIN_API rafkudin_uint64 RafkudinCloseProtocol(struct rafkudin *core, rafkudin_uint64 Handle,
                                                   const struct rafkudin_guid *Protocol,
                                                   rafkudin_uint64 AgentHandle,
                                                   rafkudin_uint64 ControllerHandle);

/* Puts what is open on an interface into a new pool block, oldest first, in 24 bytes each: agent (8
 * bytes), controller (8), attributes (4), open count (4). *EntryBuffer is its address, and the
 * caller frees it by FreePool; *EntryCount is how many. Where nothing is open both are 0, and there
 * is no block.
 *
 * NOT_FOUND: the handle is not live or lacks the GUID. OUT_OF_RESOURCES: no permitted place for new
 * pages of the pool. */
RAFKUDIN_API rafkudin_uint64 RafkudinOpenProtocolInformation(struct rafkudin *core,
                                                             rafkudin_uint64 Handle,
                                                             const struct rafkudin_guid *Protocol,
                                                             rafkudin_uint64 *EntryBuffer,
                                                             rafkudin_uint64 *EntryCount);

/* OpenProtocol by RAFKUDIN_BY_HANDLE_PROTOCOL, with no agent and no controller. INVALID_PARAMETER:
 * the handle is not live. UNSUPPORTED: it lacks the GUID, and *Interface is 0. */
RAFKUDIN_API rafkudin_uint64 RafkudinHandleProtocol(struct rafkudin *core, rafkudin_uint64 Handle,
                                                    const struct rafkudin_guid *Protocol,
                                                    rafkudin_uint64 *Interface);

/* ConnectController with the number of driver handles beside them; RafkudinConnectController below
 * has the standard's parameters. Starts drivers on a controller: first the `count` driver handles
 * of the caller, up to 16, then all others, the highest version first; with `Recursive` also on the
 * children that this makes, down to depth 8.
 *
 * INVALID_PARAMETER: the handle is not live, or over 16 drivers are named. NOT_FOUND: no driver was
 * started on it. */
RAFKUDIN_API rafkudin_uint64 RafkudinConnectDrivers(struct rafkudin *core,
                                                    rafkudin_uint64 ControllerHandle,
                                                    const rafkudin_uint64 *drivers, size_t count,
                                                    bool Recursive);

/* DisconnectController without a ChildHandle; RafkudinDisconnectController below has the standard's
 * parameters. Stops the drivers that manage a controller, or one of them where `DriverImageHandle`
 * is not 0, with all that they made.
 *
 * INVALID_PARAMETER: the controller is not live; `DriverImageHandle` is not 0, and not live or
 * without the driver binding GUID. DEVICE_ERROR: they can't be stopped. */
RAFKUDIN_API rafkudin_uint64 RafkudinDisconnectDrivers(struct rafkudin *core,
                                                       rafkudin_uint64 ControllerHandle,
                                                       rafkudin_uint64 DriverImageHandle);

/* Of the handles that carry the GUID, puts the one into *Device whose device path is the longest
 * prefix of the path at the pool's address *DevicePath, and sets *DevicePath to the address behind
 * the nodes that matched.
 *
 * INVALID_PARAMETER: no device path is at the address. NOT_FOUND: no handle matches. */
RAFKUDIN_API rafkudin_uint64 RafkudinLocateDevicePath(struct rafkudin *core,
                                                      const struct rafkudin_guid *Protocol,
                                                      rafkudin_uint64 *DevicePath,
                                                      rafkudin_uint64 *Device);

/* ---- The end of the boot services, section 7.4.6 ---- */

/* Ends the boot services where `MapKey` is the current key, as GetMemoryMap returns it: each call
 * that changes the type of a page makes another key. `ImageHandle` is ignored.
 * INVALID_PARAMETER: another key. */
RAFKUDIN_API rafkudin_uint64 RafkudinExitBootServices(struct rafkudin *core,
                                                      rafkudin_uint64 ImageHandle,
                                                      rafkudin_uint64 MapKey);

/* ---- Drivers that are code. None of these is a service, and none uses up a call. ----
 *
 * The drivers of RafkudinMake have fixed answers. A driver that is code, as every
 * EFI_DRIVER_BINDING_PROTOCOL is, calls the services itself, so no service can run it: here the
 * library says what comes next by the rule of ConnectController, and the caller carries it out:
 *
 *     struct rafkudin_binding drivers[..], driver;
 *     struct rafkudin_turns turns;
 *
 *     status = RafkudinConnectBegin(core, controller, named, named_count, drivers, count, &turns);
 *     while (RafkudinConnectNext(&turns, drivers, count, &driver) == RAFKUDIN_SUCCESS) {
 *         bool supported = .. Supported() of the driver on the controller ..;
 *
 *         if (supported)
 *             .. Start() of the driver on the controller ..
 *         RafkudinConnectRecord(&turns, drivers, count, supported);
 *     }
 *
 * Between two turns any service may be called, and turns on other controllers may be begun: the
 * list and the turns are the caller's own memory, and nothing else is kept of them. */

/* A driver: its driver handle; a number by which the caller knows it, such as the address of its
 * driver binding protocol; and the version in that protocol. */
struct rafkudin_binding {
    rafkudin_uint64 handle;
    rafkudin_uint64 driver;
    uint32_t version;
};

/* How far the turns of the drivers on a list have come. */
struct rafkudin_turns {
    size_t left;
    size_t next;
    size_t end;
    bool has_started;
};

/* Begins the turns of the `count` drivers at `drivers` on a controller, and puts the drivers into
 * the order in which they are tried. First come those of the `named_count` handles at `named`, up
 * to 16, each once and in that order. Then come all others, the highest version first, and drivers
 * of one version as they are in the list; so a caller passes all drivers that it has, by ascending
 * handle. A driver counts where its handle is live and carries the driver binding GUID; others drop
 * out.
 *
 * INVALID_PARAMETER: the controller is not live, or over 16 handles are named. OUT_OF_RESOURCES:
 * memory was refused. Both leave the list and *turns as they are. */
RAFKUDIN_API rafkudin_uint64 RafkudinConnectBegin(const struct rafkudin *core,
                                                  rafkudin_uint64 ControllerHandle,
                                                  const rafkudin_uint64 *named, size_t named_count,
                                                  struct rafkudin_binding *drivers, size_t count,
                                                  struct rafkudin_turns *turns);

/* The driver whose turn it is, in *driver: it is asked whether it supports the controller, and is
 * started if it does. The same turn is returned until its outcome is recorded.
 *
 * NOT_FOUND: no driver is left to be tried. */
RAFKUDIN_API rafkudin_uint64 RafkudinConnectNext(const struct rafkudin_turns *turns,
                                                 const struct rafkudin_binding *drivers,
                                                 size_t count, struct rafkudin_binding *driver);

/* Records the outcome of the turn: whether the driver was started, also where its start failed. A
 * driver that was started has no other turn; a driver that was not has another turn after a pass in
 * which any driver was started. Where it is no driver's turn, nothing happens. */
RAFKUDIN_API void RafkudinConnectRecord(struct rafkudin_turns *turns,
                                        struct rafkudin_binding *drivers, size_t count,
                                        bool was_started);

/* Nor can a service stop such a driver: an OpenProtocol with RAFKUDIN_EXCLUSIVE, an uninstall or a
 * reinstall of an interface that one has open by driver returns ACCESS_DENIED, and
 * DisconnectController returns DEVICE_ERROR. So the caller stops these drivers before it calls the
 * service:
 *
 *     struct rafkudin_stop stops[..];
 *     rafkudin_uint64 children[..];
 *
 *     status = RafkudinStopsOnInterface(core, handle, &guid, stops, room, &count);
 *     for (i = 0; i < count; i++) {
 *         status = RafkudinChildren(core, stops[i].controller, stops[i].agent, children, ..);
 *         .. Stop() of the driver stops[i].agent on the controller, first with its children ..
 *     }
 *
 * What Stop() itself uninstalls may have drivers to be stopped too, so stops nest. Where a Stop()
 * may stop others of the list, ask for the list anew after each Stop(), and pass over pairs that
 * were tried.
 *
 * The lists are written to the front of a buffer that has room for `room` entries; *count is how
 * many entries there are. A handle that is not live, or lacks the GUID, has no drivers to be
 * stopped; children that a driver of RafkudinMake made on it are listed as long as they live.
 *
 * BUFFER_TOO_SMALL: there is no room for all of them, and none is written; *count is set too.
 * OUT_OF_RESOURCES: memory was refused; *count stays as it is. */

/* A driver that is to be stopped on a controller: its driver handle, which has something there open
 * by driver. */
struct rafkudin_stop {
    rafkudin_uint64 controller;
    rafkudin_uint64 agent;
};

/* The drivers to be stopped, in order, before an interface can be opened exclusively, uninstalled
 * or reinstalled: those that have it open by driver. Where drivers of RafkudinMake made handles,
 * the drivers on these handles are listed too, the controller that was made last first. */
RAFKUDIN_API rafkudin_uint64 RafkudinStopsOnInterface(const struct rafkudin *core,
                                                      rafkudin_uint64 Handle,
                                                      const struct rafkudin_guid *Protocol,
                                                      struct rafkudin_stop *stops, size_t room,
                                                      rafkudin_uint64 *count);

/* The same before a controller is disconnected: from all drivers that manage it, or from one where
 * `DriverImageHandle` is not 0. */
RAFKUDIN_API rafkudin_uint64 RafkudinStopsOnController(const struct rafkudin *core,
                                                       rafkudin_uint64 ControllerHandle,
                                                       rafkudin_uint64 DriverImageHandle,
                                                       struct rafkudin_stop *stops, size_t room,
                                                       rafkudin_uint64 *count);

/* The children of a driver on a controller, each once: those that a driver of RafkudinMake made, by
 * ascending handle, and then the handles for which the agent has an interface of the controller
 * open by RAFKUDIN_BY_CHILD_CONTROLLER. */
RAFKUDIN_API rafkudin_uint64 RafkudinChildren(const struct rafkudin *core,
                                              rafkudin_uint64 ControllerHandle,
                                              rafkudin_uint64 AgentHandle,
                                              rafkudin_uint64 *children, size_t room,
                                              rafkudin_uint64 *count);

/* ---- Device paths in the caller's memory, which lie in no block of the pool ---- */

/* LocateDevicePath with a path of `length` bytes or fewer at `path`, as an image or a stack has it:
 * puts the handle into *Device, and into *matched how many bytes of the path's nodes matched, so
 * that `path + *matched` is what the standard sets *DevicePath to. The bytes are read as if they
 * lay in a block of the pool, during the call alone. The call takes no memory, and counts as one
 * service.
 *
 * INVALID_PARAMETER: the bytes begin with no device path, or it goes on behind them. NOT_FOUND: no
 * handle matches. */
RAFKUDIN_API rafkudin_uint64 RafkudinLocatePath(struct rafkudin *core,
                                                const struct rafkudin_guid *Protocol,
                                                const uint8_t *path, size_t length,
                                                rafkudin_uint64 *matched,
                                                rafkudin_uint64 *Device);

/* Installs a device path that lies at `path`: AllocatePool of `length` bytes of boot services data,
 * PoolWrite of the bytes to that block, and InstallMultipleProtocolInterfaces of the block's
 * address as the device path of *Handle, or of a new handle where *Handle is 0; the new handle is
 * then put into *Handle. *address is the block's address, which is the value of the interface:
 * whoever uninstalls the interface frees the block. The caller's bytes are read during the call
 * alone. Where InstallMultipleProtocolInterfaces is refused, FreePool gives the block back. Each of
 * the three or four services counts as a call; the events are those of the installation, the
 * certificate is that of the block.
 *
 * INVALID_PARAMETER: the bytes begin with no device path, or it goes on behind them; then no
 * service is called. ABORTED: fewer than four services can still be called; then none is called.
 * Otherwise the status is that of the first of these services that is refused. */
RAFKUDIN_API rafkudin_uint64 RafkudinInstallPath(struct rafkudin *core, rafkudin_uint64 *Handle,
                                                 const uint8_t *path, size_t length,
                                                 rafkudin_uint64 *address);

/* ---- The line of a trace that asks for a call ---- */

/* The services by number. */
#define RAFKUDIN_CALL_ALLOCATE_PAGES 1U
#define RAFKUDIN_CALL_FREE_PAGES 2U
#define RAFKUDIN_CALL_GET_MEMORY_MAP 3U
#define RAFKUDIN_CALL_ALLOCATE_POOL 4U
#define RAFKUDIN_CALL_FREE_POOL 5U
#define RAFKUDIN_CALL_POOL_READ 6U
#define RAFKUDIN_CALL_POOL_WRITE 7U
#define RAFKUDIN_CALL_INSTALL_PROTOCOL_INTERFACE 8U
#define RAFKUDIN_CALL_INSTALL_MULTIPLE_PROTOCOL_INTERFACES 9U
#define RAFKUDIN_CALL_UNINSTALL_PROTOCOL_INTERFACE 10U
#define RAFKUDIN_CALL_REINSTALL_PROTOCOL_INTERFACE 11U
#define RAFKUDIN_CALL_REGISTER_PROTOCOL_NOTIFY 12U
#define RAFKUDIN_CALL_LOCATE_HANDLE 13U
#define RAFKUDIN_CALL_LOCATE_HANDLE_BUFFER 14U
#define RAFKUDIN_CALL_LOCATE_PROTOCOL 15U
#define RAFKUDIN_CALL_PROTOCOLS_PER_HANDLE 16U
#define RAFKUDIN_CALL_OPEN_PROTOCOL 17U
#define RAFKUDIN_CALL_CLOSE_PROTOCOL 18U
#define RAFKUDIN_CALL_OPEN_PROTOCOL_INFORMATION 19U
#define RAFKUDIN_CALL_HANDLE_PROTOCOL 20U
#define RAFKUDIN_CALL_CONNECT_CONTROLLER 21U
#define RAFKUDIN_CALL_DISCONNECT_CONTROLLER 22U
#define RAFKUDIN_CALL_LOCATE_DEVICE_PATH 23U
#define RAFKUDIN_CALL_EXIT_BOOT_SERVICES 24U

/* A call: the number of its service, and its parameters. For a parameter that is a pointer, the
 * field has the value of the variable before the call: a handle of 0 asks for a new one. Fields for
 * which the service has no parameter are ignored, and may be 0 or null (with
 * RAFKUDIN_NO_NULL_CHECKS not null). */
struct rafkudin_call {
    uint32_t service;
    uint32_t type;        /* Type of AllocatePages, InterfaceType */
    uint32_t memory_type; /* MemoryType, PoolType */
    uint32_t search_type;
    uint32_t attributes;
    bool recursive;
    struct rafkudin_guid protocol;
    rafkudin_uint64 handle; /* Handle, ControllerHandle of ConnectController and Disconnect.. */
    rafkudin_uint64 agent;
    rafkudin_uint64 controller; /* of OpenProtocol and CloseProtocol */
    rafkudin_uint64 driver;     /* DriverImageHandle */
    rafkudin_uint64 value;      /* Interface, OldInterface */
    rafkudin_uint64 new_value;  /* NewInterface */
    rafkudin_uint64 event;
    rafkudin_uint64 key;     /* SearchKey, Registration of LocateProtocol, MapKey */
    rafkudin_uint64 address; /* Memory, Buffer of FreePool, DevicePath, Address */
    rafkudin_uint64 pages;
    rafkudin_uint64 size; /* Size of AllocatePool, MemoryMapSize, BufferSize, the bytes to read */
    const uint8_t *bytes; /* of PoolWrite */
    size_t byte_count;
    const struct rafkudin_interface *interfaces; /* of InstallMultipleProtocolInterfaces */
    size_t interface_count;
    const rafkudin_uint64 *drivers; /* of ConnectController: the handles that are tried first */
    size_t driver_count;
};

/* The line of a trace (docs/FORMATS.md) that asks for a call, with its line feed and without a zero
 * byte at its end. `text` has room for `room` bytes; the line is written where all of it fits. The
 * call is not made, and no call is used up; of the core only its heap is used, while the line is
 * made. A caller that writes the machine and, beside each of its calls, this line has a session
 * that the program `bootcore` can run.
 *
 * SUCCESS: *length are the bytes written. BUFFER_TOO_SMALL: *length are the bytes needed, and none
 * is written. INVALID_PARAMETER: no service has the number. NOT_FOUND: no line can ask for the
 * call: a GetMemoryMap with a buffer of more than 16,777,216 bytes, a PoolRead of more than 65,536,
 * no interfaces, or a line of more than 65,536 bytes. OUT_OF_RESOURCES: memory was refused. */
RAFKUDIN_API rafkudin_uint64 RafkudinTraceLine(const struct rafkudin *core,
                                               const struct rafkudin_call *call, uint8_t *text,
                                               size_t room, rafkudin_uint64 *length);

/* What a GetMemoryMap returned: its status, and what is in the caller's variables, on SUCCESS also
 * the map. `number` is that of its line in a trace. */
struct rafkudin_map_reply {
    rafkudin_uint64 number;
    rafkudin_uint64 status;
    rafkudin_uint64 size;            /* *MemoryMapSize */
    rafkudin_uint64 key;             /* *MapKey */
    rafkudin_uint64 descriptor_size; /* *DescriptorSize */
    uint32_t descriptor_version;     /* *DescriptorVersion */
    const uint8_t *map;
    size_t map_size; /* the bytes of it that were written */
};

/* What a PoolRead returned: its status, and on SUCCESS the bytes. */
struct rafkudin_read_reply {
    rafkudin_uint64 number;
    rafkudin_uint64 status;
    const uint8_t *bytes;
    size_t count;
};

/* What the program `bootcore` prints of these (docs/FORMATS.md), without a zero byte at its end.
 * The replies of GetMemoryMap and PoolRead are in the caller's buffers, so the caller hands them
 * in. `text` has room for `room` bytes; the text is written where all of it fits. Of the core only
 * its heap is used, while the text is made.
 *
 * SUCCESS: *length are the bytes written. BUFFER_TOO_SMALL: *length are the bytes needed, and none
 * is written. INVALID_PARAMETER: the status is ABORTED, or none of a service.
 * OUT_OF_RESOURCES: memory was refused. */
RAFKUDIN_API rafkudin_uint64 RafkudinMapReplyLine(const struct rafkudin *core,
                                                  const struct rafkudin_map_reply *reply,
                                                  uint8_t *text, size_t room,
                                                  rafkudin_uint64 *length);
RAFKUDIN_API rafkudin_uint64 RafkudinReadReplyLine(const struct rafkudin *core,
                                                   const struct rafkudin_read_reply *reply,
                                                   uint8_t *text, size_t room,
                                                   rafkudin_uint64 *length);

#ifndef RAFKUDIN_NO_NULL_CHECKS
#include "rafkudin_null.h"
#endif

/* ---- Services with the standard's parameters, over those above ---- */

/* 7.2.3. *MemoryMapSize is the buffer's size in bytes, and afterwards the bytes written, or those
 * needed. To learn the size alone it is 0, and then `MemoryMap` may be null. `MapKey`,
 * `DescriptorSize` and `DescriptorVersion` may be null too.
 *
 * INVALID_PARAMETER: `MemoryMapSize` is null, or `MemoryMap` is null and the size is not 0.
 * BUFFER_TOO_SMALL: *MemoryMapSize are the bytes needed. The descriptors' size and version are set
 * too, so that a loader can add room for the entries that allocating the buffer makes. */
static inline rafkudin_uint64 RafkudinGetMemoryMap(struct rafkudin *core,
                                                   rafkudin_uint64 *MemoryMapSize, void *MemoryMap,
                                                   rafkudin_uint64 *MapKey,
                                                   rafkudin_uint64 *DescriptorSize,
                                                   uint32_t *DescriptorVersion)
{
    uint8_t none = 0;
    rafkudin_uint64 status, size = 0, key = 0, descriptor_size = 0;
    uint32_t version = 0;

    if (MemoryMapSize == NULL || (MemoryMap == NULL && *MemoryMapSize != 0))
        return RAFKUDIN_INVALID_PARAMETER;
    status = RafkudinGetMemoryMapInto(core, MemoryMap == NULL ? &none : (uint8_t *)MemoryMap,
                                      *MemoryMapSize, &size, &key, &descriptor_size, &version);
    if (status != RAFKUDIN_SUCCESS && status != RAFKUDIN_BUFFER_TOO_SMALL)
        return status;
    *MemoryMapSize = size;
    if (status == RAFKUDIN_SUCCESS && MapKey != NULL)
        *MapKey = key;
    if (DescriptorSize != NULL)
        *DescriptorSize = descriptor_size;
    if (DescriptorVersion != NULL)
        *DescriptorVersion = version;
    return status;
}

/* 7.3. *BufferSize is the buffer's size in bytes, and afterwards the bytes written, or those
 * needed. No more than 8 bytes for each of RAFKUDIN_MAX_HANDLES are ever written. To learn the
 * size alone it is 0, and then `Buffer` may be null. `Protocol` may be null for a search that names
 * no protocol.
 *
 * INVALID_PARAMETER: `BufferSize` is null; `Buffer` is null and the size is not 0; `Protocol` is
 * null in a search by protocol. */
static inline rafkudin_uint64 RafkudinLocateHandle(struct rafkudin *core, uint32_t SearchType,
                                                   const struct rafkudin_guid *Protocol,
                                                   rafkudin_uint64 SearchKey,
                                                   rafkudin_uint64 *BufferSize,
                                                   rafkudin_uint64 *Buffer)
{
    const struct rafkudin_guid no_guid = {{0}};
    rafkudin_uint64 status, room, needed = 0, no_handle = 0;

    if (BufferSize == NULL || (Buffer == NULL && *BufferSize != 0))
        return RAFKUDIN_INVALID_PARAMETER;
    if (Protocol == NULL && SearchType == RAFKUDIN_BY_PROTOCOL)
        return RAFKUDIN_INVALID_PARAMETER;
    room = *BufferSize / 8;
    if (room > RAFKUDIN_MAX_HANDLES)
        room = RAFKUDIN_MAX_HANDLES;
    status =
        RafkudinLocateHandleInto(core, SearchType, Protocol == NULL ? &no_guid : Protocol,
                                 SearchKey, &needed, Buffer == NULL ? &no_handle : Buffer, room);
    if (status == RAFKUDIN_SUCCESS || status == RAFKUDIN_BUFFER_TOO_SMALL)
        *BufferSize = needed;
    return status;
}

/* 7.3. `DriverImageHandle` is an array of driver handles that ends with a 0, or null: these are
 * tried first. `RemainingDevicePath` must be 0.
 *
 * UNSUPPORTED: `RemainingDevicePath` is not 0; this is returned first, and uses up no call. The
 * other refusals are those of RafkudinConnectDrivers. */
static inline rafkudin_uint64 RafkudinConnectController(struct rafkudin *core,
                                                        rafkudin_uint64 ControllerHandle,
                                                        const rafkudin_uint64 *DriverImageHandle,
                                                        rafkudin_uint64 RemainingDevicePath,
                                                        bool Recursive)
{
    const rafkudin_uint64 none = 0;
    const rafkudin_uint64 *drivers = DriverImageHandle == NULL ? &none : DriverImageHandle;
    size_t count = 0;

    if (RemainingDevicePath != 0)
        return RAFKUDIN_UNSUPPORTED;
    while (count <= RAFKUDIN_MAX_DRIVERS_TO_TRY && drivers[count] != 0)
        count++;
    return RafkudinConnectDrivers(core, ControllerHandle, drivers, count, Recursive);
}

/* 7.3. `ChildHandle` must be 0.
 *
 * UNSUPPORTED: `ChildHandle` is not 0; this is returned first, and uses up no call. The other
 * refusals are those of RafkudinDisconnectDrivers. */
static inline rafkudin_uint64 RafkudinDisconnectController(struct rafkudin *core,
                                                           rafkudin_uint64 ControllerHandle,
                                                           rafkudin_uint64 DriverImageHandle,
                                                           rafkudin_uint64 ChildHandle)
{
    if (ChildHandle != 0)
        return RAFKUDIN_UNSUPPORTED;
    return RafkudinDisconnectDrivers(core, ControllerHandle, DriverImageHandle);
}

/* The standard's name of a status, without EFI_, or "another status". */
static inline const char *RafkudinStatusName(rafkudin_uint64 status)
{
    switch (status) {
    case RAFKUDIN_SUCCESS:
        return "SUCCESS";
    case RAFKUDIN_INVALID_PARAMETER:
        return "INVALID_PARAMETER";
    case RAFKUDIN_UNSUPPORTED:
        return "UNSUPPORTED";
    case RAFKUDIN_BUFFER_TOO_SMALL:
        return "BUFFER_TOO_SMALL";
    case RAFKUDIN_DEVICE_ERROR:
        return "DEVICE_ERROR";
    case RAFKUDIN_OUT_OF_RESOURCES:
        return "OUT_OF_RESOURCES";
    case RAFKUDIN_NOT_FOUND:
        return "NOT_FOUND";
    case RAFKUDIN_ACCESS_DENIED:
        return "ACCESS_DENIED";
    case RAFKUDIN_ALREADY_STARTED:
        return "ALREADY_STARTED";
    case RAFKUDIN_ABORTED:
        return "ABORTED";
    default:
        return "another status";
    }
}

#ifdef __cplusplus
}
#endif
#endif
