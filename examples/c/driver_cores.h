/* The cores of `driver_turns`, and what they have. */
#ifndef DRIVER_CORES_H
#define DRIVER_CORES_H

#include <rafkudin.h>

/* How many GUIDs there are beside that of the driver binding, and the most of handles and items. */
#define PROTOCOLS 5U
#define MAX_HANDLES 512U

extern const struct rafkudin_guid driver_binding;

/* The GUID of a number, from 0 on. */
struct rafkudin_guid protocol(unsigned number);

/* A core with 65,536 free pages from page 1 on. */
struct rafkudin *make_core(const struct rafkudin_driver *drivers, size_t count);

/* The handles of a search, ascending; their number is returned. */
size_t handles_of(struct rafkudin *core, uint32_t search, const struct rafkudin_guid *guid,
                  uint64_t *handles);

/* Whether an interface is open for a driver or exclusively. */
bool is_held(struct rafkudin *core, uint64_t handle, const struct rafkudin_guid *guid);

bool carries(struct rafkudin *core, uint64_t handle, const struct rafkudin_guid *guid);

/* Whether two cores have the same handles, interfaces and open items; the items of the second that
 * are for children may be left out. */
bool are_same(struct rafkudin *one, struct rafkudin *two, bool but_children);
#endif
