/* Times of calls: a row for each service in each phase of a load. */
#ifndef METER_H
#define METER_H

#include <stddef.h>
#include <stdint.h>

#define MAX_ROWS 32

/* A row: the time of its calls in this repetition, and the least of all so far, in nanoseconds. */
struct row {
    const char *phase;
    const char *service;
    uint64_t calls;
    uint64_t refused;
    uint64_t time;
    uint64_t least;
};

/* All zeros at first. */
struct meter {
    struct row rows[MAX_ROWS];
    size_t count;
    uint64_t started;
};

/* Begins a repetition. */
void meter_begin(struct meter *meter);

/* Starts the clock. */
void meter_start(struct meter *meter);

/* Stops the clock after the given number of calls of a service, and adds its time to their row. */
void meter_stop(struct meter *meter, const char *phase, const char *service, uint64_t calls,
                uint64_t refused);

/* Ends a repetition: of each row's times the least is kept. */
void meter_end(struct meter *meter);

/* The least time of a row, in nanoseconds a call. */
double meter_least(const struct meter *meter, const char *phase, const char *service);

/* Prints a line for each row: phase, service, calls, refused ones among them, and nanoseconds a
 * call. */
void meter_print(const struct meter *meter);
#endif
