/* Waits for a key or a timer, and says which came. */
#include "app.h"

static EFI_STATUS application(void)
{
    EFI_EVENT list[2] = {table->ConIn->WaitForKey, NULL};
    UINTN index;

    MUST(boot->CreateEvent(EVT_TIMER, 0, NULL, NULL, &list[1]));
    MUST(boot->SetTimer(list[1], TIMER_RELATIVE, 3000000));
    print("waiting\r\n");
    MUST(boot->WaitForEvent(2, list, &index));
    print(index == 0 ? "a key\r\n" : "the timer\r\n");
    return boot->CloseEvent(list[1]);
}
