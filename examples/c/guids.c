/* GUIDs that are printed. */
#include "guids.h"

void guid_print(struct text *text, const struct rafkudin_guid *guid)
{
    for (unsigned pair = 0; pair < 16; pair++)
        text_print(text, "%s%02x", guid_has_hyphen(pair) ? "-" : "",
                   guid->bytes[guid_places[pair]]);
}
