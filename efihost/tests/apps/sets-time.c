/* Sets the clock, which goes on from there; and refuses a day that is none. */
#include "app.h"

static EFI_STATUS application(void)
{
    EFI_RUNTIME_SERVICES *runtime = table->RuntimeServices;
    EFI_TIME time = {2001, 2, 28, 23, 59, 58, 0, 0, 0x7ff, 0, 0};

    MUST(runtime->SetTime(&time));
    boot->Stall(10);
    MUST(runtime->GetTime(&time, NULL));
    if (time.Year != 2001 || (time.Day != 28 && time.Day != 1))
        return EFI_ABORTED;
    time.Month = 2;
    time.Day = 29;
    return runtime->SetTime(&time) == EFI_INVALID_PARAMETER ? EFI_SUCCESS : EFI_ABORTED;
}
