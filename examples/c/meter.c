/* Times of calls: a row for each service in each phase of a load. */
#define _POSIX_C_SOURCE 200809L

#include "meter.h"

#include "fault.h"

#include <inttypes.h>
#include <stdio.h>
#include <string.h>
#include <time.h>

static uint64_t now(void)
{
    struct timespec time;

    if (clock_gettime(CLOCK_MONOTONIC, &time) != 0)
        fail("there is no clock");
    return (uint64_t)time.tv_sec * 1000000000U + (uint64_t)time.tv_nsec;
}

void meter_begin(struct meter *meter)
{
    for (size_t at = 0; at < meter->count; at++)
        meter->rows[at].time = meter->rows[at].calls = meter->rows[at].refused = 0;
}

void meter_start(struct meter *meter)
{
    meter->started = now();
}

/* The row of a service in a phase, a new one where there is none. */
static struct row *row_of(struct meter *meter, const char *phase, const char *service)
{
    struct row *row = meter->rows;

    for (; row != meter->rows + meter->count; row++)
        if (strcmp(row->phase, phase) == 0 && strcmp(row->service, service) == 0)
            return row;
    if (meter->count == MAX_ROWS)
        fail("too many rows");
    meter->count++;
    *row = (struct row){.phase = phase, .service = service, .least = UINT64_MAX};
    return row;
}

void meter_stop(struct meter *meter, const char *phase, const char *service, uint64_t calls,
                uint64_t refused)
{
    uint64_t time = now() - meter->started;
    struct row *row = row_of(meter, phase, service);

    row->time += time;
    row->calls += calls;
    row->refused += refused;
}

void meter_end(struct meter *meter)
{
    for (struct row *row = meter->rows; row != meter->rows + meter->count; row++)
        if (row->time < row->least)
            row->least = row->time;
}

double meter_least(const struct meter *meter, const char *phase, const char *service)
{
    for (const struct row *row = meter->rows; row != meter->rows + meter->count; row++)
        if (strcmp(row->phase, phase) == 0 && strcmp(row->service, service) == 0)
            return (double)row->least / (double)row->calls;
    fail("there is no row %s %s", phase, service);
}

void meter_print(const struct meter *meter)
{
    printf("  %-8s %-34s %8s %8s %10s\n", "phase", "service", "calls", "refused", "ns a call");
    for (const struct row *row = meter->rows; row != meter->rows + meter->count; row++)
        if (row->calls != 0)
            printf("  %-8s %-34s %8" PRIu64 " %8" PRIu64 " %10.0f\n", row->phase, row->service,
                   row->calls, row->refused, (double)row->least / (double)row->calls);
    fflush(stdout);
}
