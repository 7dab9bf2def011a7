/* Events, timers and task priority levels. Where keys come from a script the time that would pass
 * in waiting is skipped; else waiting sleeps until a key or the next timer.
 *
 * To an image an event is a number that is never used again. Each notification may close any event
 * and make others: no pointer to an event is kept across one. */
#include "host.h"

#include <poll.h>
#include <stdlib.h>
#include <string.h>
#include <time.h>

#define SLEEP_MS 50
#define MOST_SKIPPED (UINT64_MAX / 4) /* some 14,000 years */
#define NEVER (UINT64_MAX / 2)        /* a time that doesn't come */
#define IN_VAIN 3000U /* waits for a key that are made after the last one */
#define MARK 0x4556454e00000000ULL /* an event's number is above it, and no address can be */

struct event {
    uint32_t type;
    bool signaled, pending, grouped, key;
    EFI_TPL tpl;
    EFI_EVENT_NOTIFY notify;
    void *context;
    EFI_GUID group;
    uint64_t due, period, number;
    struct image *owner;
    struct event *next;
};

static struct event *events;
static uint64_t skipped, event_numbers;
static struct {
    uint64_t number;
    struct origin by;
} closed[64]; /* of each remainder of numbers the last, for reports */
static const EFI_GUID exit_group = {
    0x27abf055, 0xb1b8, 0x4c26, {0x80, 0x48, 0x74, 0x8f, 0x37, 0xba, 0xa2, 0xdf}};
static const EFI_GUID before_exit_group = {
    0x8be0e274, 0x3970, 0x4b44, {0x80, 0xc5, 0x1a, 0xb9, 0x50, 0x2f, 0x3b, 0xfc}};

uint64_t now_100ns(void)
{
    struct timespec now;

    clock_gettime(CLOCK_MONOTONIC, &now);
    return (uint64_t)now.tv_sec * 10000000 + (uint64_t)now.tv_nsec / 100 + skipped;
}

void skip_time(uint64_t amount)
{
    skipped = amount < MOST_SKIPPED - skipped ? skipped + amount : MOST_SKIPPED;
}

/* When a time has passed from now on. */
static uint64_t due_after(uint64_t now, uint64_t time)
{
    return time < NEVER - now ? now + time : NEVER;
}

static EFI_EVENT handle_of(const struct event *event)
{
    return POINTER(MARK + event->number);
}

static struct event *live_event(EFI_EVENT event)
{
    for (struct event *it = events; it != NULL; it = it->next)
        if (handle_of(it) == event)
            return it;
    return NULL;
}

/* Firmware uses freed memory where an event is closed. What never was an event it may refuse. */
static void found_closed(enum finding kind, EFI_EVENT event)
{
    uint64_t number = NUMBER(event) - MARK;
    const size_t place = number % LENGTH(closed);
    struct origin origin;

    if (!host.checks || number == 0 || number > event_numbers)
        return;
    origin = origin_now();
    found(kind, &origin, "%s of event %lu, which %s closed", host.call->name, number,
          closed[place].number == number ? origin_text(&closed[place].by) : "an image");
}

/* The live event that an image hands to a service, or NULL. */
static struct event *event_of(EFI_EVENT event)
{
    struct event *it = live_event(event);

    if (it == NULL)
        found_closed(USE_AFTER_FREE, event);
    return it;
}

uint64_t event_number(EFI_EVENT event)
{
    struct event *it = event_of(event);

    return it == NULL ? 0 : it->number;
}

static void signal_event(struct event *event)
{
    if ((event->type & EVT_NOTIFY_SIGNAL) != 0)
        event->pending = true;
    else
        event->signaled = true;
}

static void run_timers(void)
{
    uint64_t now = now_100ns();

    for (struct event *it = events; it != NULL; it = it->next)
        if (it->due != 0 && it->due <= now) {
            it->due = it->period == 0 ? 0 : due_after(now, it->period);
            signal_event(it);
        }
}

/* Calls the pending functions above the current level, the highest level first. */
void dispatch(void)
{
    if (host.exited)
        return;
    run_timers();
    notify_keys();
    for (;;) {
        struct event *best = NULL;
        EFI_TPL before = host.tpl;

        for (struct event *it = events; it != NULL; it = it->next)
            if (it->pending && it->tpl > host.tpl && (best == NULL || it->tpl >= best->tpl))
                best = it;
        if (best == NULL)
            return;
        best->pending = false;
        host.tpl = best->tpl;
        if (best->notify != NULL)
            best->notify(handle_of(best), best->context);
        host.tpl = before;
    }
}

/* What the core signals: events by their numbers. */
void signal_numbers(const uint64_t *numbers, size_t count)
{
    for (size_t i = 0; i < count; i++)
        for (struct event *it = events; it != NULL; it = it->next)
            if (it->number == numbers[i])
                signal_event(it);
    if (count > 0)
        dispatch();
}

/* Waits a little: for a key, or for the next timer. */
void idle(bool wants_key)
{
    static unsigned in_vain;
    struct pollfd keys = {keys_descriptor(), POLLIN, 0};
    uint64_t first = 0, now = now_100ns();
    int milliseconds = SLEEP_MS;

    if (host.signalled)
        heed_signals();
    for (struct event *it = events; it != NULL; it = it->next)
        if (it->due != 0 && it->due != NEVER && (first == 0 || it->due < first))
            first = it->due;
    if (!keys_may_come()) {
        in_vain = wants_key && keys_are_over() ? in_vain + 1 : 0;
        if (in_vain > (first == 0 ? 0 : IN_VAIN))
            finish(ENDED_BY_LIMIT, "waits for a key, and the input is over");
        skip_time(first > now ? first - now : 10000);
        poll(NULL, 0, first > now ? 0 : 1);
        return;
    }
    if (first != 0 && first <= now)
        return;
    if (first != 0 && (first - now) / 10000 < SLEEP_MS)
        milliseconds = (int)((first - now) / 10000) + 1;
    fflush(stdout);
    poll(&keys, wants_key ? 1 : 0, milliseconds);
}

static EFI_STATUS make_event(uint32_t type, EFI_TPL tpl, EFI_EVENT_NOTIFY notify, void *context,
                             const EFI_GUID *group, struct event **made)
{
    struct event *event;

    if ((type & (EVT_NOTIFY_SIGNAL | EVT_NOTIFY_WAIT)) != 0 &&
        (notify == NULL || tpl <= TPL_APPLICATION || tpl >= TPL_HIGH_LEVEL))
        return EFI_INVALID_PARAMETER;
    event = calloc(1, sizeof *event);
    if (event == NULL)
        return EFI_OUT_OF_RESOURCES;
    event->type = type;
    event->tpl = tpl;
    event->notify = notify;
    event->context = context;
    event->grouped = group != NULL;
    if (group != NULL)
        event->group = *group;
    event->number = ++event_numbers;
    event->owner = host.call == NULL ? NULL : image_at(host.call->caller);
    event->next = events;
    events = event;
    *made = event;
    return EFI_SUCCESS;
}

EFI_EVENT make_key_event(void)
{
    struct event *event = NULL;

    make_event(0, TPL_NOTIFY, NULL, NULL, NULL, &event);
    event = must(event);
    event->key = true;
    return handle_of(event);
}

size_t events_of(const struct image *image)
{
    size_t count = 0;

    for (struct event *it = events; it != NULL; it = it->next)
        count += it->owner == image;
    return count;
}

static void call_group(const EFI_GUID *group, uint32_t type)
{
    host.tpl = TPL_APPLICATION;
    for (struct event *it = events; it != NULL; it = it->next)
        if ((type != 0 && it->type == type) || (it->grouped && guid_equal(&it->group, group)))
            signal_event(it);
    dispatch();
}

/* Before the boot services end, once. */
void signal_before_exit(void)
{
    static bool signalled;

    if (!signalled)
        call_group(&before_exit_group, 0);
    signalled = true;
}

/* Once the memory services have ended. */
void signal_exit_boot_services(void)
{
    call_group(&exit_group, EVT_SIGNAL_EXIT_BOOT_SERVICES);
}

/* The event's function may close it: that is then no event. */
static EFI_STATUS check_event(struct event *event)
{
    const EFI_EVENT handle = handle_of(event);

    if (event->key)
        return key_is_ready() ? EFI_SUCCESS : EFI_NOT_READY;
    if ((event->type & EVT_NOTIFY_SIGNAL) != 0)
        return EFI_INVALID_PARAMETER;
    if (!event->signaled && (event->type & EVT_NOTIFY_WAIT) != 0 && event->notify != NULL) {
        EFI_TPL before = host.tpl;

        if (event->tpl > host.tpl)
            host.tpl = event->tpl;
        event->notify(handle, event->context);
        host.tpl = before;
        event = live_event(handle);
    }
    if (event == NULL)
        return EFI_INVALID_PARAMETER;
    if (!event->signaled)
        return EFI_NOT_READY;
    event->signaled = false;
    return EFI_SUCCESS;
}

static EFI_TPL EFIAPI RaiseTPL(EFI_TPL tpl)
{
    EFI_TPL before = host.tpl;
    struct call call = {.frame = FRAME};

    if (!enter(&call, "RaiseTPL", HERE, (const uint64_t[4]){tpl})) {
        leave(&call, EFI_UNSUPPORTED);
        return before;
    }
    if (tpl > host.tpl)
        host.tpl = tpl;
    leave(&call, EFI_SUCCESS);
    return before;
}

static void EFIAPI RestoreTPL(EFI_TPL tpl)
{
    struct call call = {.frame = FRAME};

    if (enter(&call, "RestoreTPL", HERE, (const uint64_t[4]){tpl})) {
        host.tpl = tpl;
        dispatch();
    }
    leave(&call, EFI_SUCCESS);
}

static EFI_STATUS EFIAPI CreateEvent(uint32_t type, EFI_TPL tpl, EFI_EVENT_NOTIFY notify,
                                     void *context, EFI_EVENT *event)
{
    SERVICE("CreateEvent", type, tpl, NUMBER(notify), NUMBER(context));
    struct event *made = NULL;
    EFI_STATUS status;

    if (event == NULL)
        ANSWER(EFI_INVALID_PARAMETER);
    status = make_event(type, tpl, notify, context, NULL, &made);
    if (status == EFI_SUCCESS)
        *event = handle_of(made);
    ANSWER(status);
}

static EFI_STATUS EFIAPI CreateEventEx(uint32_t type, EFI_TPL tpl, EFI_EVENT_NOTIFY notify,
                                       const void *context, const EFI_GUID *group,
                                       EFI_EVENT *event)
{
    SERVICE("CreateEventEx", type, tpl, NUMBER(notify), NUMBER(group));
    struct event *made = NULL;
    EFI_STATUS status;

    if (event == NULL)
        ANSWER(EFI_INVALID_PARAMETER);
    status = make_event(type, tpl, notify, (void *)(uintptr_t)context, group, &made);
    if (status == EFI_SUCCESS)
        *event = handle_of(made);
    ANSWER(status);
}

static EFI_STATUS EFIAPI SetTimer(EFI_EVENT event, uint32_t kind, uint64_t time)
{
    SERVICE("SetTimer", NUMBER(event), kind, time);
    struct event *it = event_of(event);

    if (it == NULL || (it->type & EVT_TIMER) == 0 || kind > TIMER_RELATIVE)
        ANSWER(EFI_INVALID_PARAMETER);
    if (time == 0)
        time = kind == TIMER_PERIODIC ? 100000 : 1;
    it->due = kind == TIMER_CANCEL ? 0 : due_after(now_100ns(), time);
    it->period = kind == TIMER_PERIODIC ? time : 0;
    ANSWER(EFI_SUCCESS);
}

static EFI_STATUS EFIAPI CheckEvent(EFI_EVENT event)
{
    static unsigned unready;
    SERVICE("CheckEvent", NUMBER(event));
    struct event *it;
    EFI_STATUS status;
    bool key;

    dispatch();
    it = event_of(event);
    if (it == NULL)
        ANSWER(EFI_INVALID_PARAMETER);
    key = it->key;
    status = check_event(it);
    unready = status == EFI_NOT_READY ? unready + 1 : 0;
    if (unready > 100)
        idle(key);
    ANSWER(status);
}

static EFI_STATUS EFIAPI WaitForEvent(UINTN count, EFI_EVENT *list, UINTN *index)
{
    SERVICE("WaitForEvent", count, NUMBER(list));

    if (count == 0 || list == NULL || index == NULL)
        ANSWER(EFI_INVALID_PARAMETER);
    if (host.tpl != TPL_APPLICATION)
        ANSWER(EFI_UNSUPPORTED);
    for (;;) {
        bool wants_key = false;

        dispatch();
        for (UINTN i = 0; i < count; i++) {
            struct event *it = event_of(list[i]);
            EFI_STATUS status;

            wants_key |= it != NULL && (it->key || it->notify != NULL);
            status = it == NULL ? EFI_INVALID_PARAMETER : check_event(it);
            if (status != EFI_NOT_READY) {
                *index = i;
                ANSWER(status);
            }
        }
        idle(wants_key);
    }
}

static EFI_STATUS EFIAPI SignalEvent(EFI_EVENT event)
{
    SERVICE("SignalEvent", NUMBER(event));
    struct event *it = event_of(event);

    if (it == NULL)
        ANSWER(EFI_INVALID_PARAMETER);
    signal_event(it);
    for (struct event *other = events; it->grouped && other != NULL; other = other->next)
        if (other->grouped && guid_equal(&other->group, &it->group))
            signal_event(other);
    dispatch();
    ANSWER(EFI_SUCCESS);
}

static EFI_STATUS EFIAPI CloseEvent(EFI_EVENT event)
{
    SERVICE("CloseEvent", NUMBER(event));
    struct event *gone = live_event(event), **link = &events;

    if (gone == NULL)
        found_closed(FREE_NOT_LIVE, event);
    if (gone == NULL || gone->key)
        ANSWER(EFI_INVALID_PARAMETER);
    while (*link != gone)
        link = &(*link)->next;
    *link = gone->next;
    closed[gone->number % LENGTH(closed)].number = gone->number;
    closed[gone->number % LENGTH(closed)].by = origin_without_callers();
    free(gone);
    ANSWER(EFI_SUCCESS);
}

void fill_event_services(EFI_BOOT_SERVICES *boot)
{
    boot->RaiseTPL = RaiseTPL;
    boot->RestoreTPL = RestoreTPL;
    boot->CreateEvent = CreateEvent;
    boot->CreateEventEx = CreateEventEx;
    boot->SetTimer = SetTimer;
    boot->CheckEvent = CheckEvent;
    boot->WaitForEvent = WaitForEvent;
    boot->SignalEvent = SignalEvent;
    boot->CloseEvent = CloseEvent;
}
