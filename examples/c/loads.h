/* What the loads of `measure` share. */
#ifndef LOADS_H
#define LOADS_H

#include "machine.h"
#include "meter.h"

/* The kinds of protocols of the handles, how many agents open them, and how many calls are made of
 * those that look at all there is. */
#define KINDS 64
#define AGENTS 16
#define SEARCHES 256

extern const struct rafkudin_guid driver_binding;

/* What is asked for: pages (`below` is 0 for any place), or a block of a pool. */
struct request {
    uint32_t type;
    uint64_t size;
    uint64_t below;
};

/* What is held: the address and the size that was asked for. */
struct held {
    uint64_t address;
    uint64_t size;
};

/* A load that runs. */
struct load {
    struct meter *meter;
    struct rafkudin *core;
    uint64_t drawn;  /* the state of the draws */
    uint64_t middle; /* the address behind the low half of the memory */
    struct held *held;
    size_t count;                                /* of those held */
    struct request *requests;                    /* what is asked for, call by call */
    struct held *given;                          /* what is freed, call by call */
    uint64_t handles[2 * RAFKUDIN_MAX_HANDLES]; /* what is looked for, call by call */
    struct rafkudin_guid kinds[KINDS + 1];
    uint8_t *map;
    size_t map_size;
};

/* Makes the call of a number, from 0 on, and answers whether it succeeds. */
typedef bool one_call(struct load *load, size_t number);

/* Makes the given number of calls of a service, and adds their time to the row of a phase. */
void time_calls(struct load *load, const char *phase, const char *service, size_t count,
                one_call *call);

uint64_t draw_between(struct load *load, uint64_t least, uint64_t most);
size_t least_of(size_t one, size_t other);

/* Places blocks of drawn sizes in the pool. */
void place_blocks(struct load *load, const char *phase, size_t count);

/* Draws the handles that are looked for, two for each that there is. */
void draw_handles(struct load *load, size_t handles);

/* The kind of a handle's first interface, whose value is the handle. */
const struct rafkudin_guid *kind_of(const struct load *load, uint64_t handle);

/* The agent that has the first interface of a handle open by driver. */
uint64_t agent_of(uint64_t handle);

/* Installs an interface on a new handle. */
one_call install_first;

/* A driver opens the first interface of a handle. */
one_call open_by_driver;

/* An agent opens the first interface of a drawn handle, which makes an item or raises the count of
 * one. */
one_call open_to_get;

/* The kind that a driver needs beside the one that it opens, in the loads where it does. */
const struct rafkudin_guid *other_kind(const struct load *load);

/* Starts and stops of a driver of the machine, on some handles or on all; where it makes a child,
 * also in a full table, or one that is a driver handle; where it can't start again; and where its
 * driver binding is reinstalled (driver_loads.c). */
void run_drivers(struct load *load, size_t handles);
void run_driven(struct load *load, size_t handles);
void run_children(struct load *load, size_t handles);
void run_full(struct load *load, size_t handles);
void run_driver_children(struct load *load, size_t handles);
void run_stopped(struct load *load, size_t handles);
void run_stopped_children(struct load *load, size_t handles);
void run_bindings(struct load *load, size_t handles);

/* Questions, and the turns and stops of drivers that are code, beside OpenProtocol (questions of
 * question_loads.c). */
void run_questions(struct load *load, size_t handles);

/* LocateDevicePath of a path that the longest of many paths begins, and of one that none begins; a
 * stop of a chain of drivers (worst_loads.c). */
void run_paths(struct load *load, size_t handles);
void run_vain_paths(struct load *load, size_t handles);
void run_chain(struct load *load, size_t handles);
#endif
