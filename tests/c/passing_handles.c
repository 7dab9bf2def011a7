/* What a core keeps of handles that are gone. Handles come and go 40,000 times, up to 200 live at a
 * time; each has interfaces that agents have open, agents among them that go too. In the later half
 * at most a quarter more bytes are in use at a time than in the earlier one. The heap is that of
 * refusing_heap.h, instead of the library's. Each point that does not hold is printed on standard
 * error, and then the status is 1. */
#include "draws.h"
#include "points.h"
#include "refusing_heap.h"
#include "small_core.h"

#include <stddef.h>

#define SUCCESS RAFKUDIN_SUCCESS
#define ROUNDS 40000
#define LIVE 200

/* A handle with an interface of each of two protocols, which another handle has open as the agent. */
static uint64_t new_handle(struct rafkudin *core, uint64_t agent)
{
    struct rafkudin_guid first = guid_of(1), second = guid_of(2);
    uint64_t handle = 0, value;

    HOLDS(RafkudinInstallProtocolInterface(core, &handle, &first, 0, 1) == SUCCESS);
    HOLDS(RafkudinInstallProtocolInterface(core, &handle, &second, 0, 2) == SUCCESS);
    if (agent == 0)
        return handle;
    HOLDS(RafkudinOpenProtocol(core, handle, &first, &value, agent, handle, RAFKUDIN_BY_DRIVER) ==
          SUCCESS);
    HOLDS(RafkudinOpenProtocol(core, handle, &second, &value, agent, 0, RAFKUDIN_GET_PROTOCOL) ==
          SUCCESS);
    return handle;
}

/* Removes both interfaces of a handle, which is gone then, with what is open on them. */
static void remove_handle(struct rafkudin *core, uint64_t handle, uint64_t agent)
{
    struct rafkudin_guid first = guid_of(1), second = guid_of(2);

    if (agent != 0)
        HOLDS(RafkudinCloseProtocol(core, handle, &first, agent, handle) == SUCCESS);
    HOLDS(RafkudinUninstallProtocolInterface(core, handle, &second, 2) == SUCCESS);
    HOLDS(RafkudinUninstallProtocolInterface(core, handle, &first, 1) == SUCCESS);
}

/* Handles come in order and go in another, by a distance that is drawn for all of them. */
static void try_rounds(uint64_t seed)
{
    struct rafkudin *core = small_core(NULL, 0);
    uint64_t handles[LIVE] = {0}, agents[LIVE] = {0};
    size_t most[2] = {0, 0};

    for (size_t round = 0; round < ROUNDS; round++) {
        size_t at = draw_below(&seed, LIVE), other = draw_below(&seed, LIVE);

        if (handles[at] != 0)
            remove_handle(core, handles[at], agents[at]);
        for (size_t k = 0; k < LIVE; k++)
            if (agents[k] == handles[at])
                agents[k] = 0;
        agents[at] = other == at ? 0 : handles[other];
        handles[at] = new_handle(core, agents[at]);
        if (in_use > most[round >= ROUNDS / 2])
            most[round >= ROUNDS / 2] = in_use;
    }
    HOLDS(most[1] <= most[0] + most[0] / 4);
    RafkudinFree(core);
}

int main(void)
{
    for (uint64_t seed = 1; seed <= 4; seed++)
        try_rounds(seed);
    HOLDS(in_use == 0);
    return points_end("passing_handles");
}
