/* The runtime services but for variables. */
#include "host.h"

#include <string.h>
#include <time.h>

#define UNSPECIFIED_ZONE 0x7ff
#define SECOND 10000000 /* in the unit of the machine's clock */
#define FIRST_YEAR 1900
#define LAST_YEAR 9999

/* The date is that of the clock which timers have, with an offset; both skip the same times. */
static int64_t date_offset;
static int16_t set_zone = UNSPECIFIED_ZONE;
static uint8_t set_daylight;

/* The time of a host's file or clock, in UTC; false where EFI_TIME has none for it. */
bool write_time(EFI_TIME *to, int64_t seconds)
{
    time_t time = (time_t)seconds;
    struct tm parts;

    memset(to, 0, sizeof *to);
    if (gmtime_r(&time, &parts) == NULL || parts.tm_year < FIRST_YEAR - 1900 ||
        parts.tm_year > LAST_YEAR - 1900)
        return false;
    to->Year = (uint16_t)(parts.tm_year + 1900);
    to->Month = (uint8_t)(parts.tm_mon + 1);
    to->Day = (uint8_t)parts.tm_mday;
    to->Hour = (uint8_t)parts.tm_hour;
    to->Minute = (uint8_t)parts.tm_min;
    to->Second = (uint8_t)parts.tm_sec;
    to->TimeZone = UNSPECIFIED_ZONE;
    return true;
}

static EFI_STATUS EFIAPI GetTime(EFI_TIME *to, EFI_TIME_CAPABILITIES *capabilities)
{
    RUNTIME_SERVICE("GetTime", NUMBER(to), NUMBER(capabilities));
    int64_t now = (int64_t)now_100ns() + date_offset, part = now % SECOND;
    EFI_TIME time;

    if (to == NULL)
        ANSWER(EFI_INVALID_PARAMETER);
    if (part < 0)
        part += SECOND;
    if (!write_time(&time, (now - part) / SECOND))
        ANSWER(EFI_DEVICE_ERROR);
    time.Nanosecond = (uint32_t)part * 100;
    time.TimeZone = set_zone;
    time.Daylight = set_daylight;
    *to = time;
    if (capabilities != NULL) {
        capabilities->Resolution = 1;
        capabilities->Accuracy = 50000000;
        capabilities->SetsToZero = 0;
    }
    ANSWER(EFI_SUCCESS);
}

static bool is_day(const EFI_TIME *time)
{
    static const uint8_t days[] = {31, 28, 31, 30, 31, 30, 31, 31, 30, 31, 30, 31};
    unsigned year = time->Year;
    bool leap = (year % 4 == 0 && year % 100 != 0) || year % 400 == 0;

    return year >= FIRST_YEAR && year <= LAST_YEAR && time->Month >= 1 && time->Month <= 12 &&
           time->Day >= 1 && time->Day <= days[time->Month - 1] + (time->Month == 2 && leap);
}

static bool is_time(const EFI_TIME *time)
{
    return is_day(time) && time->Hour < 24 && time->Minute < 60 && time->Second < 60 &&
           time->Nanosecond < 1000000000 &&
           (time->TimeZone == UNSPECIFIED_ZONE ||
            (time->TimeZone >= -1440 && time->TimeZone <= 1440)) &&
           (time->Daylight & ~(EFI_TIME_ADJUST_DAYLIGHT | EFI_TIME_IN_DAYLIGHT)) == 0;
}

/* Sets the machine's clock, which goes on in the time zone that it is set in, and leaves the
 * host's. */
static EFI_STATUS EFIAPI SetTime(EFI_TIME *time)
{
    RUNTIME_SERVICE("SetTime", NUMBER(time));
    struct tm parts = {0};

    if (time == NULL || !is_time(time))
        ANSWER(EFI_INVALID_PARAMETER);
    parts.tm_year = time->Year - 1900;
    parts.tm_mon = time->Month - 1;
    parts.tm_mday = time->Day;
    parts.tm_hour = time->Hour;
    parts.tm_min = time->Minute;
    parts.tm_sec = time->Second;
    date_offset = (int64_t)timegm(&parts) * SECOND + time->Nanosecond / 100 - (int64_t)now_100ns();
    set_zone = time->TimeZone;
    set_daylight = time->Daylight;
    ANSWER(EFI_SUCCESS);
}

static EFI_STATUS EFIAPI GetWakeupTime(BOOLEAN *enabled, BOOLEAN *pending, EFI_TIME *time)
{
    (void)enabled;
    (void)pending;
    (void)time;
    ask_missing("GetWakeupTime");
    return EFI_UNSUPPORTED;
}

static EFI_STATUS EFIAPI SetWakeupTime(BOOLEAN enable, EFI_TIME *time)
{
    (void)enable;
    (void)time;
    ask_missing("SetWakeupTime");
    return EFI_UNSUPPORTED;
}

static EFI_STATUS EFIAPI SetVirtualAddressMap(UINTN size, UINTN step, uint32_t version,
                                              EFI_MEMORY_DESCRIPTOR *map)
{
    (void)size;
    (void)step;
    (void)version;
    (void)map;
    ask_missing("SetVirtualAddressMap");
    return EFI_UNSUPPORTED;
}

static EFI_STATUS EFIAPI ConvertPointer(UINTN debug, void **pointer)
{
    (void)debug;
    (void)pointer;
    ask_missing("ConvertPointer");
    return EFI_UNSUPPORTED;
}

static EFI_STATUS EFIAPI GetNextHighMonotonicCount(uint32_t *count)
{
    RUNTIME_SERVICE("GetNextHighMonotonicCount", NUMBER(count));
    static uint32_t last;

    if (count == NULL)
        ANSWER(EFI_INVALID_PARAMETER);
    *count = ++last;
    ANSWER(EFI_SUCCESS);
}

static void EFIAPI ResetSystem(uint32_t kind, EFI_STATUS status, UINTN size, const void *data)
{
    static const char *const kinds[] = {"cold", "warm", "shutdown", "of the platform's own"};

    (void)size;
    (void)data;
    finish(EFI_ERROR(status) ? ENDED_REFUSED : ENDED_WELL, "ResetSystem, %s, %s",
           kinds[kind > 3 ? 3 : kind], status_text(status));
}

static EFI_STATUS EFIAPI UpdateCapsule(void **capsules, UINTN count, uint64_t list)
{
    (void)capsules;
    (void)count;
    (void)list;
    ask_missing("UpdateCapsule");
    return EFI_UNSUPPORTED;
}

static EFI_STATUS EFIAPI QueryCapsuleCapabilities(void **capsules, UINTN count, uint64_t *most,
                                                  uint32_t *reset)
{
    (void)capsules;
    (void)count;
    (void)most;
    (void)reset;
    ask_missing("QueryCapsuleCapabilities");
    return EFI_UNSUPPORTED;
}

void fill_runtime_services(EFI_RUNTIME_SERVICES *runtime)
{
    struct timespec now;

    clock_gettime(CLOCK_REALTIME, &now);
    date_offset = (int64_t)now.tv_sec * SECOND + now.tv_nsec / 100 - (int64_t)now_100ns();
    runtime->GetTime = GetTime;
    runtime->SetTime = SetTime;
    runtime->GetWakeupTime = GetWakeupTime;
    runtime->SetWakeupTime = SetWakeupTime;
    runtime->SetVirtualAddressMap = SetVirtualAddressMap;
    runtime->ConvertPointer = ConvertPointer;
    runtime->GetNextHighMonotonicCount = GetNextHighMonotonicCount;
    runtime->ResetSystem = ResetSystem;
    runtime->UpdateCapsule = UpdateCapsule;
    runtime->QueryCapsuleCapabilities = QueryCapsuleCapabilities;
}
