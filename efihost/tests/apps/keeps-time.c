/* Timers that are far away, and a clock that takes each time that there is and no other. */
#include "app.h"

#define ANSWERS(call, status)                                                                     \
    do {                                                                                          \
        if ((call) != (status)) {                                                                 \
            print("not so: " #call " is " #status "\r\n");                                        \
            return EFI_ABORTED;                                                                   \
        }                                                                                         \
    } while (0)

static const EFI_TIME good[] = {
    {1900, 1, 1, 0, 0, 0, 0, 0, 0x7ff, 0, 0},
    {1969, 12, 31, 23, 59, 50, 0, 999999900, 0, 0, 0},
    {2000, 2, 29, 12, 30, 30, 0, 5000, -1440, 1, 0},
    {2024, 2, 29, 12, 30, 30, 0, 0, 1440, 2, 0},
    {2262, 4, 12, 0, 0, 0, 0, 0, 60, 3, 0},
    {9000, 6, 30, 1, 2, 3, 0, 0, 0x7ff, 0, 0},
    {9999, 12, 31, 23, 59, 50, 0, 0, 0x7ff, 0, 0},
};
static const EFI_TIME bad[] = {
    {1899, 12, 31, 0, 0, 0, 0, 0, 0, 0, 0},     {10000, 1, 1, 0, 0, 0, 0, 0, 0, 0, 0},
    {2001, 0, 1, 0, 0, 0, 0, 0, 0, 0, 0},       {2001, 13, 1, 0, 0, 0, 0, 0, 0, 0, 0},
    {2001, 255, 1, 0, 0, 0, 0, 0, 0, 0, 0},     {2001, 1, 0, 0, 0, 0, 0, 0, 0, 0, 0},
    {2001, 1, 32, 0, 0, 0, 0, 0, 0, 0, 0},      {2001, 4, 31, 0, 0, 0, 0, 0, 0, 0, 0},
    {2001, 2, 29, 0, 0, 0, 0, 0, 0, 0, 0},      {1900, 2, 29, 0, 0, 0, 0, 0, 0, 0, 0},
    {2100, 2, 29, 0, 0, 0, 0, 0, 0, 0, 0},      {2000, 2, 30, 0, 0, 0, 0, 0, 0, 0, 0},
    {2001, 1, 1, 24, 0, 0, 0, 0, 0, 0, 0},      {2001, 1, 1, 0, 60, 0, 0, 0, 0, 0, 0},
    {2001, 1, 1, 0, 0, 60, 0, 0, 0, 0, 0},      {2001, 1, 1, 0, 0, 0, 0, 1000000000, 0, 0, 0},
    {2001, 1, 1, 0, 0, 0, 0, 0, -1441, 0, 0},   {2001, 1, 1, 0, 0, 0, 0, 0, 1441, 0, 0},
    {2001, 1, 1, 0, 0, 0, 0, 0, 0, 4, 0},       {2001, 1, 1, 0, 0, 0, 0, 0, 0, 0xff, 0},
};

static bool is_near(const EFI_TIME *one, const EFI_TIME *other)
{
    return one->Year == other->Year && one->Month == other->Month && one->Day == other->Day &&
           one->Hour == other->Hour && one->Minute == other->Minute &&
           (unsigned)(one->Second - other->Second) < 5 && one->TimeZone == other->TimeZone &&
           one->Daylight == other->Daylight;
}

static EFI_STATUS dates(void)
{
    EFI_RUNTIME_SERVICES *runtime = table->RuntimeServices;
    EFI_TIME time;

    for (unsigned i = 0; i < sizeof good / sizeof *good; i++) {
        time = good[i];
        ANSWERS(runtime->SetTime(&time), EFI_SUCCESS);
        ANSWERS(runtime->GetTime(&time, NULL), EFI_SUCCESS);
        ANSWERS(is_near(&time, &good[i]), true);
    }
    for (unsigned i = 0; i < sizeof bad / sizeof *bad; i++) {
        time = bad[i];
        ANSWERS(runtime->SetTime(&time), EFI_INVALID_PARAMETER);
    }
    ANSWERS(runtime->GetTime(&time, NULL), EFI_SUCCESS);
    ANSWERS(is_near(&time, &good[sizeof good / sizeof *good - 1]), true);
    boot->Stall(20000000);
    ANSWERS(runtime->GetTime(&time, NULL), EFI_DEVICE_ERROR);
    return EFI_SUCCESS;
}

/* Stall passes the time of timers and of the clock alike. */
static EFI_STATUS stalls(void)
{
    EFI_TIME time = {2001, 1, 1, 0, 0, 0, 0, 0, 0x7ff, 0, 0};
    EFI_EVENT timer;
    UINTN index;

    MUST(boot->CreateEvent(EVT_TIMER, 0, NULL, NULL, &timer));
    MUST(boot->SetTimer(timer, TIMER_RELATIVE, 200000000));
    MUST(table->RuntimeServices->SetTime(&time));
    MUST(boot->Stall(10000000));
    ANSWERS(boot->CheckEvent(timer), EFI_NOT_READY);
    MUST(table->RuntimeServices->GetTime(&time, NULL));
    ANSWERS(time.Second >= 10 && time.Second < 15, true);
    MUST(boot->WaitForEvent(1, &timer, &index));
    MUST(table->RuntimeServices->GetTime(&time, NULL));
    ANSWERS(time.Second >= 19 && time.Second < 25, true);
    return boot->CloseEvent(timer);
}

static EFI_STATUS timers(void)
{
    EFI_EVENT far, list[1], plain;
    UINTN index;

    MUST(boot->CreateEvent(EVT_TIMER, 0, NULL, NULL, &far));
    MUST(boot->CreateEvent(EVT_TIMER, 0, NULL, NULL, &list[0]));
    MUST(boot->CreateEvent(0, 0, NULL, NULL, &plain));
    for (unsigned kind = TIMER_PERIODIC; kind <= TIMER_RELATIVE; kind++)
        for (unsigned bits = 62; bits <= 64; bits++) {
            MUST(boot->SetTimer(far, kind, ~0ULL >> (64 - bits)));
            MUST(boot->SetTimer(list[0], TIMER_PERIODIC, 0));
            MUST(boot->WaitForEvent(1, list, &index));
            MUST(boot->WaitForEvent(1, list, &index));
            MUST(boot->SetTimer(list[0], TIMER_RELATIVE, 0));
            MUST(boot->WaitForEvent(1, list, &index));
            ANSWERS(boot->CheckEvent(far), EFI_NOT_READY);
        }
    ANSWERS(boot->SetTimer(far, 3, 1), EFI_INVALID_PARAMETER);
    ANSWERS(boot->SetTimer(plain, TIMER_RELATIVE, 1), EFI_INVALID_PARAMETER);
    MUST(boot->CloseEvent(plain));
    MUST(boot->CloseEvent(list[0]));
    return boot->CloseEvent(far);
}

static EFI_STATUS application(void)
{
    MUST(timers());
    MUST(stalls());
    MUST(dates());
    MUST(boot->Stall(~0ULL));
    MUST(timers());
    print("times are right\r\n");
    return EFI_SUCCESS;
}
