/* Calls, made, and their replies as text. */
#ifndef REPLIES_H
#define REPLIES_H

#include "../../include/rafkudin.h"
#include "calls.h"
#include "text.h"

/* A run of a trace. */
struct run {
    struct rafkudin *core;
    bool certify;
    bool hides_certificates; /* that the core keeps, where `certify` does not print them */
    struct text text; /* what the line prints */
    uint64_t number;  /* of the last call: the number of its line, and where its text begins */
    size_t start;
};

/* Makes the call of a line of a number, and appends what is printed of it. */
void run_call(struct run *run, const struct call *call, uint64_t number);
#endif
