/* Ends with an event that is not closed. */
#include "app.h"

static EFI_STATUS application(void)
{
    EFI_EVENT event;

    return boot->CreateEvent(EVT_TIMER, TPL_CALLBACK, NULL, NULL, &event);
}
