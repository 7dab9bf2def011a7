/* The tables of the system, in the machine's memory, and the small boot services. */
#include "host.h"

#include <string.h>
#include <unistd.h>

#define SYSTEM_SIGNATURE 0x5453595320494249ULL
#define BOOT_SIGNATURE 0x56524553544f4f42ULL
#define RUNTIME_SIGNATURE 0x56524553544e5552ULL
#define REVISION (2U << 16 | 100U)
#define MAX_TABLES 64U

/* Images may write the system's tables: the host has what it goes by here. */
static EFI_CONFIGURATION_TABLE tables[MAX_TABLES], *shown_tables;
static UINTN table_count;

/* Sets a table's checksum. */
static void seal_table(EFI_TABLE_HEADER *header, uint32_t size)
{
    header->HeaderSize = size;
    header->CRC32 = 0;
    header->CRC32 = crc32_of(header, size);
}

void show_tables(void)
{
    EFI_SYSTEM_TABLE *system = host.table;

    memcpy(shown_tables, tables, sizeof tables);
    system->ConfigurationTable = shown_tables;
    system->NumberOfTableEntries = table_count;
    seal_table(&system->Hdr, sizeof *system);
}

static EFI_STATUS EFIAPI InstallConfigurationTable(const EFI_GUID *guid, void *table)
{
    SERVICE("InstallConfigurationTable", NUMBER(guid), NUMBER(table));
    UINTN i = 0;

    if (guid == NULL)
        ANSWER(EFI_INVALID_PARAMETER);
    while (i < table_count && !guid_equal(&tables[i].VendorGuid, guid))
        i++;
    if (i == table_count) {
        if (table == NULL)
            ANSWER(EFI_NOT_FOUND);
        if (i == MAX_TABLES)
            ANSWER(EFI_OUT_OF_RESOURCES);
        table_count++;
        memcpy(&tables[i].VendorGuid, guid, sizeof *guid);
    }
    tables[i].VendorTable = table;
    if (table == NULL)
        tables[i] = tables[--table_count];
    show_tables();
    ANSWER(EFI_SUCCESS);
}

/* Whether a configuration table lies among these bytes. */
bool has_table(uint64_t at, uint64_t size)
{
    for (UINTN i = 0; i < host.table->NumberOfTableEntries; i++)
        if (NUMBER(host.table->ConfigurationTable[i].VendorTable) - at < size)
            return true;
    return false;
}

static EFI_STATUS EFIAPI GetNextMonotonicCount(uint64_t *count)
{
    static uint64_t last;
    SERVICE("GetNextMonotonicCount", NUMBER(count));

    if (count == NULL)
        ANSWER(EFI_INVALID_PARAMETER);
    *count = ++last;
    ANSWER(EFI_SUCCESS);
}

/* Sleeps; where keys come from a text, a long time is skipped. */
static EFI_STATUS EFIAPI Stall(UINTN microseconds)
{
    SERVICE("Stall", microseconds);

    if (keys_from_terminal() || microseconds < 100) {
        fflush(stdout);
        usleep((useconds_t)(microseconds > 3600000000U ? 3600000000U : microseconds));
    } else {
        skip_time(microseconds > UINT64_MAX / 10 ? UINT64_MAX : microseconds * 10);
    }
    dispatch();
    ANSWER(EFI_SUCCESS);
}

static EFI_STATUS EFIAPI SetWatchdogTimer(UINTN seconds, uint64_t code, UINTN size, CHAR16 *data)
{
    SERVICE("SetWatchdogTimer", seconds, code, size, NUMBER(data));
    ANSWER(EFI_SUCCESS);
}

static EFI_STATUS EFIAPI CalculateCrc32(const void *bytes, UINTN count, uint32_t *sum)
{
    SERVICE("CalculateCrc32", NUMBER(bytes), count);

    if (bytes == NULL || count == 0 || sum == NULL)
        ANSWER(EFI_INVALID_PARAMETER);
    *sum = crc32_of(bytes, count);
    ANSWER(EFI_SUCCESS);
}

static void EFIAPI CopyMem(void *to, const void *from, UINTN count)
{
    struct call call = {.frame = FRAME};

    if (enter(&call, "CopyMem", HERE, (const uint64_t[4]){NUMBER(to), NUMBER(from), count})) {
        touch(from, count, false);
        touch(to, count, true);
        memmove(to, from, count);
    }
    leave(&call, EFI_SUCCESS);
}

static void EFIAPI SetMem(void *to, UINTN count, uint8_t value)
{
    struct call call = {.frame = FRAME};

    if (enter(&call, "SetMem", HERE, (const uint64_t[4]){NUMBER(to), count, value})) {
        touch(to, count, true);
        memset(to, value, count);
    }
    leave(&call, EFI_SUCCESS);
}

void fill_small_services(EFI_BOOT_SERVICES *boot)
{
    boot->InstallConfigurationTable = InstallConfigurationTable;
    boot->GetNextMonotonicCount = GetNextMonotonicCount;
    boot->Stall = Stall;
    boot->SetWatchdogTimer = SetWatchdogTimer;
    boot->CalculateCrc32 = CalculateCrc32;
    boot->CopyMem = CopyMem;
    boot->SetMem = SetMem;
    boot->LoadImage = LoadImage;
    boot->StartImage = StartImage;
    boot->Exit = Exit;
    boot->UnloadImage = UnloadImage;
    boot->ExitBootServices = ExitBootServices;
}

static void *pages_of(uint32_t type, uint64_t pages)
{
    uint64_t at = 0;

    if (host_plain_pages(RAFKUDIN_ANY_PAGES, type, pages, &at) != EFI_SUCCESS)
        refuse("the machine has no memory for the system's tables");
    return memset(POINTER(at), 0, pages * PAGE);
}

/* The system table and the runtime services stay after boot services have ended. */
void make_tables(void)
{
    uint8_t *lasting = pages_of(RAFKUDIN_RUNTIME_SERVICES_DATA, 4);
    EFI_SYSTEM_TABLE *system = (void *)lasting;
    EFI_RUNTIME_SERVICES *runtime = (void *)(lasting + PAGE);
    EFI_BOOT_SERVICES *boot = pages_of(RAFKUDIN_BOOT_SERVICES_DATA, 1);
    CHAR16 *vendor = (void *)(lasting + 2 * PAGE);

    host.table = system;
    host.boot = boot;
    host.runtime = runtime;
    shown_tables = (void *)(lasting + 3 * PAGE);
    widen(vendor, "efihost over Rafkudin");
    *system = (EFI_SYSTEM_TABLE){.Hdr = {SYSTEM_SIGNATURE, REVISION, sizeof *system, 0, 0},
                                 .FirmwareVendor = vendor,
                                 .FirmwareRevision = 0x10000,
                                 .RuntimeServices = runtime,
                                 .BootServices = boot};
    boot->Hdr = (EFI_TABLE_HEADER){BOOT_SIGNATURE, REVISION, sizeof *boot, 0, 0};
    runtime->Hdr = (EFI_TABLE_HEADER){RUNTIME_SIGNATURE, REVISION, sizeof *runtime, 0, 0};
    fill_memory_services(boot);
    fill_protocol_services(boot);
    fill_open_services(boot);
    fill_event_services(boot);
    fill_small_services(boot);
    fill_runtime_services(runtime);
    fill_variable_services(runtime);
    seal_table(&boot->Hdr, sizeof *boot);
    seal_table(&runtime->Hdr, sizeof *runtime);
    show_tables();
}
