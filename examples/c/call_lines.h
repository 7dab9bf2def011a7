/* The lines of a trace that the library makes of calls. */
#ifndef CALL_LINES_H
#define CALL_LINES_H

#include "../../include/rafkudin.h"
#include "calls.h"
#include "text.h"

/* Appends the line that the library makes of the call of a line; of a listing, which is no call,
 * its verb. */
void call_line_append(struct text *text, const struct rafkudin *core, const struct call *call);

#endif
