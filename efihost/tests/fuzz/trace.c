/* Traces: their lines as calls, by the reader of examples/c. */
#include "fuzz.h"

#include "calls.h"
#include "fault.h"

void fail(const char *format, ...)
{
    (void)format;
    longjmp(refused, 1);
}

/* Whether the arrays of a call are as long as it says. */
static void look_at(const struct call *call)
{
    demand(call->verb < VERBS && verb_name(call->verb) != NULL);
    for (size_t i = 0; i < call->byte_count; i++)
        (void)*(volatile uint8_t *)&call->bytes[i];
    for (size_t i = 0; i < call->count; i++)
        (void)(call->verb == CONNECT ? *(volatile uint64_t *)&call->drivers[i]
                                     : *(volatile uint64_t *)&call->interfaces[i].value);
}

int LLVMFuzzerTestOneInput(const uint8_t *data, size_t size)
{
    static struct line line;
    FILE *volatile file;

    if (size == 0)
        return 0;
    file = fmemopen((void *)(uintptr_t)data, size, "rb");
    demand(file != NULL);
    if (setjmp(refused) == 0) {
        struct call call;

        for (uint64_t number = 1; line_read(&line, file); number++)
            if (call_read(&call, &line, number))
                look_at(&call);
    }
    fclose(file);
    return 0;
}
