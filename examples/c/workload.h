/* Calls of all kinds on a core of their own. */
#ifndef WORKLOAD_H
#define WORKLOAD_H

#include "../../include/rafkudin.h"

/* Makes the calls, and gives a digest of all that they answer. */
uint64_t run_workload(void);

#endif
