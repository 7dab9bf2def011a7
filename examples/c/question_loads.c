/* What a question costs, and a step of the turns and stops of drivers that are code. */
#include "loads.h"

#include <stddef.h>

/* The turns that are taken, of drivers of which none supports its controller; and as they begin. */
static struct rafkudin_binding listed[AGENTS];
static struct rafkudin_turns turns, begun;

/* Where the last block is that was asked for. */
static uint64_t last_block;

/* ---- What there is ---- */

/* The agents are driver handles. */
static bool install_binding(struct load *load, size_t number)
{
    uint64_t handle = number + 1;

    return RafkudinInstallProtocolInterface(load->core, &handle, &driver_binding, 0, number) ==
           RAFKUDIN_SUCCESS;
}

/* The next handle is a child of the driver of this one. */
static bool open_for_child(struct load *load, size_t number)
{
    uint64_t handle = number + 1, value;

    return RafkudinOpenProtocol(load->core, handle, kind_of(load, handle), &value,
                                agent_of(handle), handle + 1,
                                RAFKUDIN_BY_CHILD_CONTROLLER) == RAFKUDIN_SUCCESS;
}

/* ---- Questions ---- */

static bool ask_next_block(struct load *load, size_t number)
{
    struct rafkudin_block block;
    uint64_t from = number == 0 ? 0 : last_block + 1;

    if (RafkudinBlockFrom(load->core, from, &block) != RAFKUDIN_SUCCESS)
        return false;
    last_block = block.address;
    return true;
}

static bool ask_block(struct load *load, size_t number)
{
    struct rafkudin_block block;

    return RafkudinBlockFrom(load->core, load->held[number].address, &block) == RAFKUDIN_SUCCESS &&
           block.address == load->held[number].address;
}

static bool ask_run(struct load *load, size_t number)
{
    struct rafkudin_run run;

    return RafkudinRun(load->core, number % RafkudinRuns(load->core), &run) == RAFKUDIN_SUCCESS;
}

static bool ask_handle(struct load *load, size_t number)
{
    uint64_t handle;

    return RafkudinHandle(load->core, (size_t)load->handles[number] - 1, &handle) ==
               RAFKUDIN_SUCCESS &&
           handle == load->handles[number];
}

static bool ask_holder(struct load *load, size_t number)
{
    uint64_t handle;

    return RafkudinHolder(load->core, kind_of(load, number), 0, &handle) == RAFKUDIN_SUCCESS;
}

static bool ask_interface(struct load *load, size_t number)
{
    struct rafkudin_interface interface;
    uint64_t handle = load->handles[number];

    return RafkudinInterface(load->core, handle, 0, &interface) == RAFKUDIN_SUCCESS &&
           interface.value == handle;
}

static bool ask_item(struct load *load, size_t number)
{
    struct rafkudin_item item;
    uint64_t handle = load->handles[number];

    return RafkudinOpenItem(load->core, handle, kind_of(load, handle), 0, &item) ==
               RAFKUDIN_SUCCESS &&
           item.controller == handle;
}

static bool ask_items(struct load *load, size_t number)
{
    struct rafkudin_item items[4 * AGENTS];
    uint64_t handle = load->handles[number], count;

    return RafkudinOpenProtocolInformationInto(load->core, handle, kind_of(load, handle), items,
                                               sizeof items / sizeof *items,
                                               &count) == RAFKUDIN_SUCCESS;
}

/* The oldest item of an agent, which is among the first ones. */
static bool ask_first_of_agent(struct load *load, size_t number)
{
    struct rafkudin_open item;

    return RafkudinAgentItem(load->core, agent_of(number), 0, &item) == RAFKUDIN_SUCCESS;
}

/* One behind all that an agent has: each loop over its items ends so. */
static bool ask_behind_agent(struct load *load, size_t number)
{
    struct rafkudin_open item;

    return RafkudinAgentItem(load->core, agent_of(number), SIZE_MAX, &item) == RAFKUDIN_NOT_FOUND;
}

/* ---- Turns and stops ---- */

static bool begin_turns(struct load *load, size_t number)
{
    for (size_t i = 0; i < AGENTS; i++)
        listed[i] = (struct rafkudin_binding){i + 1, i, (uint32_t)(i % 3)};
    return RafkudinConnectBegin(load->core, load->handles[number], NULL, 0, listed, AGENTS,
                                &begun) == RAFKUDIN_SUCCESS;
}

static bool take_turn(struct load *load, size_t number)
{
    struct rafkudin_binding driver;
    bool is_next;

    (void)load;
    if (number % AGENTS == 0)
        turns = begun;
    is_next = RafkudinConnectNext(&turns, listed, AGENTS, &driver) == RAFKUDIN_SUCCESS;
    RafkudinConnectRecord(&turns, listed, AGENTS, false);
    return is_next;
}

static bool ask_stops_on_interface(struct load *load, size_t number)
{
    struct rafkudin_stop stops[AGENTS];
    uint64_t handle = load->handles[number], count;

    return RafkudinStopsOnInterface(load->core, handle, kind_of(load, handle), stops, AGENTS,
                                    &count) == RAFKUDIN_SUCCESS &&
           count == 1 && stops[0].controller == handle;
}

static bool ask_stops_on_controller(struct load *load, size_t number)
{
    struct rafkudin_stop stops[AGENTS];
    uint64_t handle = load->handles[number], count;

    return RafkudinStopsOnController(load->core, handle, 0, stops, AGENTS, &count) ==
               RAFKUDIN_SUCCESS &&
           count == 1 && stops[0].agent == agent_of(handle);
}

static bool ask_children(struct load *load, size_t number)
{
    uint64_t children[AGENTS], handle = number + 1, count;

    return RafkudinChildren(load->core, handle, agent_of(handle), children, AGENTS, &count) ==
               RAFKUDIN_SUCCESS &&
           count == 1 && children[0] == handle + 1;
}

void run_questions(struct load *load, size_t handles)
{
    size_t most = handles < SEARCHES ? handles - 1 : SEARCHES;

    draw_handles(load, handles);
    place_blocks(load, "fill", handles);
    time_calls(load, "install", "InstallProtocolInterface", handles, install_first);
    time_calls(load, "agents", "InstallProtocolInterface", AGENTS, install_binding);
    time_calls(load, "open", "OpenProtocol", handles, open_by_driver);
    time_calls(load, "child", "OpenProtocol", handles - 1, open_for_child);
    time_calls(load, "get", "OpenProtocol", 2 * handles, open_to_get);
    time_calls(load, "next", "BlockFrom", handles, ask_next_block);
    time_calls(load, "drawn", "BlockFrom", handles, ask_block);
    time_calls(load, "question", "Run", handles, ask_run);
    time_calls(load, "question", "Handle", 2 * handles, ask_handle);
    time_calls(load, "question", "Holder", 2 * handles, ask_holder);
    time_calls(load, "question", "Interface", 2 * handles, ask_interface);
    time_calls(load, "question", "OpenItem", 2 * handles, ask_item);
    time_calls(load, "all", "OpenProtocolInformationInto", 2 * handles, ask_items);
    time_calls(load, "first", "AgentItem", most, ask_first_of_agent);
    time_calls(load, "behind", "AgentItem", most, ask_behind_agent);
    time_calls(load, "begin", "ConnectBegin", most, begin_turns);
    time_calls(load, "turn", "ConnectNext", 2 * handles, take_turn);
    time_calls(load, "stops", "StopsOnInterface", 2 * handles, ask_stops_on_interface);
    time_calls(load, "stops", "StopsOnController", 2 * handles, ask_stops_on_controller);
    time_calls(load, "children", "Children", most, ask_children);
}
