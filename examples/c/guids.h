/* GUIDs that are printed. */
#ifndef GUIDS_H
#define GUIDS_H

#include "numbers.h"
#include "text.h"

/* Appends a GUID, in small letters with hyphens. */
void guid_print(struct text *text, const struct rafkudin_guid *guid);
#endif
