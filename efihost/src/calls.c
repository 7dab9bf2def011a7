/* Who calls which service: the call that is under way, the last ones, and what was asked for that
 * is not there. */
#include "host.h"

#include <string.h>

#define LAST 16U
#define MAX_MISSING 64U

static struct {
    const char *name;
    uint64_t caller, number, arguments[4];
    EFI_STATUS status;
    bool ended;
} last[LAST];
static char missing[MAX_MISSING][96];
static size_t missing_names;
static FILE *calls_log;

void open_calls_log(const char *file)
{
    calls_log = fopen(file, "w");
    if (calls_log == NULL)
        refuse("cannot write %s", file);
}

void close_calls_log(void)
{
    if (calls_log != NULL)
        fclose(calls_log);
    calls_log = NULL;
}

static void print_call(FILE *file, uint64_t slot)
{
    fprintf(file, "#%lu %s: %s(0x%lx, 0x%lx, 0x%lx, 0x%lx)", last[slot].number,
            where(last[slot].caller), last[slot].name, last[slot].arguments[0],
            last[slot].arguments[1], last[slot].arguments[2], last[slot].arguments[3]);
    if (last[slot].ended)
        fprintf(file, " = %s\n", status_text(last[slot].status));
    else
        fprintf(file, " has not returned\n");
}

/* Begins a call of a service. */
void begin(struct call *call, const char *name, uint64_t caller, const uint64_t *arguments)
{
    struct image *image = image_at(caller);

    call->name = name;
    call->caller = caller;
    call->number = ++host.calls;
    call->slot = host.calls % LAST;
    if (host.call != call)
        call->outer = host.call;
    host.call = call;
    last[call->slot].name = name;
    last[call->slot].caller = caller;
    last[call->slot].number = call->number;
    last[call->slot].ended = false;
    memcpy(last[call->slot].arguments, arguments, sizeof last[0].arguments);
    if (image != NULL)
        image->calls++;
    if (host.signalled)
        heed_signals();
    if (call->frame - host.stack < SERVICE_STACK)
        finish(ENDED_BY_FAULT, "the stack is used up, in %s called by %s", name, where(caller));
}

/* The same for a boot service. False where they have ended, and the caller must not. */
bool enter(struct call *call, const char *name, uint64_t caller, const uint64_t *arguments)
{
    begin(call, name, caller, arguments);
    if (host.exited) {
        struct origin origin = origin_at(caller);

        found(AFTER_EXIT, &origin, "%s is called after boot services have ended", name);
    }
    return !host.exited;
}

EFI_STATUS leave(struct call *call, EFI_STATUS status)
{
    host.call = call->outer;
    if (last[call->slot].number == call->number) {
        last[call->slot].status = status;
        last[call->slot].ended = true;
        if (calls_log != NULL)
            print_call(calls_log, call->slot);
    } else if (calls_log != NULL) {
        fprintf(calls_log, "#%lu %s: %s(..) = %s\n", call->number, where(call->caller), call->name,
                status_text(status));
    }
    return status;
}

/* The last calls, the oldest first. */
void print_last_calls(FILE *file)
{
    if (host.calls > 0)
        fprintf(file, "efihost: the last calls:\n");
    for (uint64_t i = 1; i <= LAST; i++) {
        uint64_t slot = (host.calls + i) % LAST;

        if (last[slot].name != NULL) {
            fprintf(file, "efihost:   ");
            print_call(file, slot);
        }
    }
}

/* Notes once what was asked for and is not there. */
void ask_missing(const char *what)
{
    for (size_t i = 0; i < missing_names; i++)
        if (strcmp(missing[i], what) == 0)
            return;
    if (missing_names < MAX_MISSING)
        snprintf(missing[missing_names++], sizeof missing[0], "%s", what);
}

size_t missing_count(void)
{
    return missing_names;
}

const char *missing_name(size_t index)
{
    return missing[index];
}
