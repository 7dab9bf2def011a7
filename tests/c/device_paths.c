/* Device paths: bytes that are none, paths with what LocateDevicePath and the installation of equal
 * paths see of them, drawn bytes against a plain reader, and the handles that paths in blocks of the
 * pool lead to. The rows are worked out by hand from docs/RULES.md. Each point that does not hold is
 * printed on standard error, and then the status is 1. */
#include "draws.h"
#include "points.h"
#include "small_core.h"

#include <stdio.h>
#include <stdlib.h>
#include <string.h>

#define SUCCESS RAFKUDIN_SUCCESS
#define INVALID RAFKUDIN_INVALID_PARAMETER
#define NOT_FOUND RAFKUDIN_NOT_FOUND

/* What a variable holds before a call that must leave it. */
#define LEFT 0x5a5a5a5a5a5a5a5aU

static const struct rafkudin_guid path_guid = {{0x91, 0x6e, 0x57, 0x09, 0x3f, 0x6d, 0xd2, 0x11,
                                                0x8e, 0x39, 0x00, 0xa0, 0xc9, 0x69, 0x72, 0x3b}};

/* Bytes, as a text with its length. */
struct bytes {
    const char *text;
    size_t length;
};

#define BYTES(text) {text, sizeof(text) - 1}
#define END "\x7f\xff\x04\0"

/* Whether bytes begin with a path: then how many of them are the nodes of its first instance, and
 * how many those of all. */
struct spans {
    bool is_path;
    size_t first, whole;
};

/* ---- What the library reads ---- */

/* A block of the pool that holds some bytes. */
static uint64_t block_of(struct rafkudin *core, const uint8_t *bytes, size_t length)
{
    uint64_t address = 0;

    HOLDS(RafkudinAllocatePool(core, 4, length, &address) == SUCCESS);
    HOLDS(RafkudinPoolWrite(core, address, bytes, length) == SUCCESS);
    return address;
}

/* Installs an interface on a handle, and returns the handle. */
static uint64_t install(struct rafkudin *core, uint64_t handle, const struct rafkudin_guid *guid,
                        uint64_t value)
{
    HOLDS(RafkudinInstallProtocolInterface(core, &handle, guid, 0, value) == SUCCESS);
    return handle;
}

/* Installs the path in a block on a new handle, if no live handle has it. */
static uint64_t install_path(struct rafkudin *core, uint64_t block)
{
    struct rafkudin_interface interface = {path_guid, block};
    uint64_t handle = 0;

    return RafkudinInstallMultipleProtocolInterfaces(core, &handle, &interface, 1);
}

/* A block with the given number of bytes of some nodes, and an end. */
static uint64_t nodes_of(struct rafkudin *core, const uint8_t *bytes, size_t length)
{
    uint8_t *nodes = malloc(length + 4);
    uint64_t block;

    if (nodes == NULL)
        abort();
    memcpy(nodes, bytes, length);
    memcpy(nodes + length, END, 4);
    block = block_of(core, nodes, length + 4);
    free(nodes);
    return block;
}

/* Asks for a path, of which the first handle is to match a number of bytes, in the pool and in the
 * caller's memory. */
static void try_leads(struct rafkudin *core, const uint8_t *bytes, size_t length, size_t matches)
{
    struct rafkudin_guid one = guid_of(1);
    uint64_t block = block_of(core, bytes, length), behind = block, device = LEFT, matched = LEFT;

    HOLDS(RafkudinLocateDevicePath(core, &one, &behind, &device) == SUCCESS);
    HOLDS(device == 1 && behind == block + matches);
    device = LEFT;
    HOLDS(RafkudinLocatePath(core, &one, bytes, length, &matched, &device) == SUCCESS);
    HOLDS(device == 1 && matched == matches);
    HOLDS(RafkudinFreePool(core, block) == SUCCESS);
}

/* Bytes that no path begins: they can't be asked for, nor installed as a path, and where they lie in
 * a block that is a handle's path, they equal nothing. */
static void try_no_path(struct rafkudin *core, const uint8_t *bytes, size_t length)
{
    struct rafkudin_guid one = guid_of(1);
    uint64_t block = block_of(core, bytes, length), behind = block, device = LEFT, matched = LEFT;
    uint64_t handle = 0;

    HOLDS(RafkudinLocateDevicePath(core, &one, &behind, &device) == INVALID);
    HOLDS(RafkudinLocatePath(core, &one, bytes, length, &matched, &device) == INVALID);
    HOLDS(device == LEFT && matched == LEFT && behind == block);
    HOLDS(RafkudinInstallPath(core, &handle, bytes, length, &matched) == INVALID);
    HOLDS(handle == 0 && matched == LEFT);
    HOLDS(install_path(core, block) == SUCCESS && install_path(core, block) == SUCCESS);
}

/* Bytes that begin with a path. A handle with the nodes of the first instance matches all of these.
 * No live handle has the whole path but where it has no more than these nodes; one has it once it is
 * installed, and so where bytes that are behind the path are other ones. */
static void try_path(struct rafkudin *core, const uint8_t *bytes, size_t length,
                     const struct spans *spans)
{
    struct rafkudin_guid one = guid_of(1);
    uint64_t first = nodes_of(core, bytes, spans->first), block = block_of(core, bytes, length);
    uint64_t whole = block_of(core, bytes, spans->whole + 4);
    bool is_one = spans->first == spans->whole;

    HOLDS(install(core, install(core, 0, &path_guid, first), &one, 0) == 1);
    try_leads(core, bytes, length, spans->first);
    HOLDS(install_path(core, block) == (is_one ? RAFKUDIN_ALREADY_STARTED : SUCCESS));
    HOLDS(install_path(core, whole) == RAFKUDIN_ALREADY_STARTED);
    HOLDS(install_path(core, block) == RAFKUDIN_ALREADY_STARTED);
    try_leads(core, bytes, length, spans->first);
}

/* Tries bytes as a plain reader has read them. */
static void try_bytes(const uint8_t *bytes, size_t length, const struct spans *spans)
{
    struct rafkudin *core = small_core(NULL, 0);

    if (spans->is_path)
        try_path(core, bytes, length, spans);
    else
        try_no_path(core, bytes, length);
    RafkudinFree(core);
}

/* ---- By hand ---- */

/* Bytes that no path begins. */
static const struct bytes refused[] = {
    /* The bytes run out. */
    BYTES(""),
    BYTES("\x7f"),
    BYTES("\x7f\xff"),
    BYTES("\x7f\xff\x04"),
    BYTES("\x01"),
    BYTES("\x01\x01\x04"),
    BYTES("\x01\x01\x04\0"),
    BYTES("\x01\x01\x04\0\x7f\xff\x04"),
    BYTES("\x01\x01\x06\0\x09\x09"),
    BYTES("\x7f\x01\x04\0"),
    BYTES("\x7f\x01\x04\0\x7f\xff\x04"),
    BYTES("\x01\x01\x04\0\x7f\x01\x04\0\x02\x01\x04\0"),
    /* Lengths that are too small. */
    BYTES("\x01\x01\0\0" END),
    BYTES("\x01\x01\x01\0" END),
    BYTES("\x01\x01\x02\0" END),
    BYTES("\x01\x01\x03\0" END),
    BYTES("\x01\x01\x04\0\x02\x01\x03\0" END),
    /* Lengths past the end, and one that reaches just to it. */
    BYTES("\x01\x01\x05\0"),
    BYTES("\x01\x01\x08\0" END),
    BYTES("\x01\x01\x09\0" END),
    BYTES("\x01\x01\x04\x01" END),
    BYTES("\x01\x01\xff\xff" END),
    BYTES("\x01\x01\0\x04" END),
    /* A length that ends inside the next node. */
    BYTES("\x01\x01\x05\0" END),
    BYTES("\x01\x01\x07\0" END),
    /* Ends of a wrong length. */
    BYTES("\x7f\xff\0\0"),
    BYTES("\x7f\xff\x03\0" END),
    BYTES("\x7f\xff\x05\0\x09" END),
    BYTES("\x7f\xff\x08\0" END END),
    BYTES("\x7f\xff\0\x04" END),
    BYTES("\x7f\xff\x04\x01" END),
    BYTES("\x7f\x01\x05\0\x09" END),
    BYTES("\x7f\x01\x03\0" END),
    /* Nodes of the ends' type that are none. */
    BYTES("\x7f\0\x04\0" END),
    BYTES("\x7f\x02\x04\0" END),
    BYTES("\x7f\xfe\x04\0" END),
    BYTES("\x01\x01\x04\0\x7f\x7f\x04\0" END),
    /* The type of ends in old firmware is no end. */
    BYTES("\xff\xff\x04\0"),
    BYTES("\xff\x01\x04\0"),
};

/* A path, the bytes of its first instance's nodes, and those of all. */
static const struct {
    struct bytes bytes;
    size_t first, whole;
} paths[] = {
    /* No nodes. */
    {BYTES(END), 0, 0},
    {BYTES(END "\x01"), 0, 0},
    {BYTES(END END), 0, 0},
    {BYTES(END "\x7f\x01\x03\0"), 0, 0},
    /* One node. */
    {BYTES("\x01\x01\x04\0" END), 4, 4},
    {BYTES("\0\0\x04\0" END), 4, 4},
    {BYTES("\x7e\xff\x04\0" END), 4, 4},
    {BYTES("\x80\x01\x04\0" END), 4, 4},
    {BYTES("\xff\xff\x04\0" END), 4, 4},
    {BYTES("\x01\x7f\x05\0\x7f" END), 5, 5},
    {BYTES("\x01\x01\x06\0\0\x1f" END), 6, 6},
    /* An end inside of a node is none. */
    {BYTES("\x01\x01\x08\0" END END), 8, 8},
    {BYTES("\x01\x01\x08\0\x7f\x01\x04\0" END), 8, 8},
    {BYTES("\x01\x7f\x05\0\xff" END "\x04\0"), 5, 5},
    /* Several nodes: a PCI root, a device and a port of it. */
    {BYTES("\x02\x01\x0c\0\xd0\x41\x03\x0a\0\0\0\0\x01\x01\x06\0\x02\x1f\x03\x12\x0a\0\x01\0\xff\xff"
           "\0\0" END),
     28, 28},
    {BYTES("\x01\x01\x04\0\x02\x01\x05\0\x09" END "\xee\xee"), 9, 9},
    /* Several instances. */
    {BYTES("\x7f\x01\x04\0" END), 0, 4},
    {BYTES("\x01\x01\x04\0\x7f\x01\x04\0" END), 4, 8},
    {BYTES("\x7f\x01\x04\0\x01\x01\x04\0" END), 0, 8},
    {BYTES("\x01\x01\x04\0\x7f\x01\x04\0\x02\x01\x05\0\x09" END), 4, 13},
    {BYTES("\x01\x01\x05\0\x09\x7f\x01\x04\0\x7f\x01\x04\0\x02\x01\x04\0" END), 5, 17},
    {BYTES("\x7f\x01\x04\0\x7f\x01\x04\0\x7f\x01\x04\0" END), 0, 12},
    /* What follows the end of the path is no instance of it. */
    {BYTES("\x01\x01\x04\0" END "\x7f\x01\x04\0" END), 4, 4},
};

/* Lengths of a node of which both bytes count. */
static const uint16_t lengths[] = {255,    256,    257,    260,    1023,  1024,
                                   0x1234, 0x7fff, 0x8000, 0xfffe, 0xffff};

/* A node of this many bytes and an end are a path, and nothing less. */
static void try_long_node(uint16_t length)
{
    static uint8_t bytes[0x10004];
    struct spans none = {false, 0, 0}, node = {true, length, length};

    memset(bytes, 0x7f, sizeof bytes);
    bytes[0] = 4;
    bytes[1] = 1;
    bytes[2] = length & 0xff;
    bytes[3] = length >> 8;
    memcpy(bytes + length, END, 4);
    try_bytes(bytes, length, &none);
    try_bytes(bytes, length + 3U, &none);
    try_bytes(bytes, length + 4U, &node);
}

static void try_rows(void)
{
    struct spans spans = {false, 0, 0};

    for (size_t row = 0; row < COUNT(refused); row++)
        try_bytes((const uint8_t *)refused[row].text, refused[row].length, &spans);
    spans.is_path = true;
    for (size_t row = 0; row < COUNT(paths); row++) {
        spans.first = paths[row].first;
        spans.whole = paths[row].whole;
        try_bytes((const uint8_t *)paths[row].bytes.text, paths[row].bytes.length, &spans);
    }
    for (size_t row = 0; row < COUNT(lengths); row++)
        try_long_node(lengths[row]);
}

/* ---- Drawn bytes and a plain reader ---- */

static uint64_t seed = 2026;

/* A byte of which many matter to a reader of paths. */
static uint8_t likely_byte(void)
{
    static const uint8_t likely[7] = {0, 1, 3, 4, 5, 0x7f, 0xff};
    uint64_t which = draw_below(&seed, 8);

    return which < 7 ? likely[which] : (uint8_t)draw_below(&seed, 256);
}

static size_t push(uint8_t *bytes, size_t length, const char *more, size_t count)
{
    memcpy(bytes + length, more, count);
    return length + count;
}

/* A node of 4 to 8 bytes. */
static size_t push_node(uint8_t *bytes, size_t length)
{
    size_t end = length + 4 + draw_below(&seed, 5);

    bytes[length] = (uint8_t)draw_below(&seed, 6);
    bytes[length + 1] = (uint8_t)draw_below(&seed, 256);
    bytes[length + 2] = (uint8_t)(end - length);
    bytes[length + 3] = 0;
    for (length += 4; length < end; length++)
        bytes[length] = likely_byte();
    return length;
}

/* Up to five nodes and ends of instances, the end of the path and up to three bytes more; half of
 * them cut, or with one byte changed. */
static size_t draw_bytes(uint8_t *bytes)
{
    size_t length = 0, at;

    for (uint64_t nodes = draw_below(&seed, 6); nodes > 0; nodes--)
        length = draw_below(&seed, 4) == 0 ? push(bytes, length, "\x7f\x01\x04", 4)
                                           : push_node(bytes, length);
    length = push(bytes, length, END, 4);
    for (uint64_t more = draw_below(&seed, 4); more > 0; more--)
        bytes[length++] = likely_byte();
    at = draw_below(&seed, length);
    switch (draw_below(&seed, 4)) {
    case 0:
        return at;
    case 1:
        bytes[at] = likely_byte();
        return length;
    default:
        return length;
    }
}

/* What a plain reader finds: it goes from node to node by their lengths. */
static struct spans plain_spans(const uint8_t *bytes, size_t length)
{
    const struct spans none = {false, 0, 0};
    struct spans found = {false, SIZE_MAX, 0};
    size_t at = 0;

    while (at + 4 <= length) {
        size_t node = (size_t)bytes[at + 3] * 256 + bytes[at + 2];
        bool is_end = bytes[at] == 0x7f;

        if (node < 4 || (is_end && (node != 4 || (bytes[at + 1] != 0xff && bytes[at + 1] != 1))))
            return none;
        if (is_end && found.first == SIZE_MAX)
            found.first = at;
        if (is_end && bytes[at + 1] == 0xff) {
            found.is_path = true;
            found.whole = at;
            return found;
        }
        at += node;
    }
    return none;
}

static void try_drawn(void)
{
    unsigned found = 0, instances = 0, others = 0;
    uint8_t bytes[64];

    for (unsigned round = 0; round < 4000; round++) {
        size_t length = draw_bytes(bytes);
        struct spans spans = plain_spans(bytes, length);

        try_bytes(bytes, length, &spans);
        found += spans.is_path;
        instances += spans.is_path && spans.first < spans.whole;
        others += !spans.is_path;
    }
    HOLDS(found > 1000 && instances > 600 && others > 1000);
}

/* ---- The handles that paths in blocks lead to ---- */

/* What the blocks of the pool hold. The nodes are A = 01 01 04 00, B = 02 01 05 00 09 and C = 03 01
 * 04 00. */
static const struct bytes contents[8] = {
    /* A, up to the end of the block. */
    BYTES("\x01\x01\x04\0" END),
    /* A B, from the third byte on. */
    BYTES("\xee\xee\xee\x01\x01\x04\0\x02\x01\x05\0\x09" END),
    /* No nodes. */
    BYTES(END),
    /* A B C, and bytes behind. */
    BYTES("\x01\x01\x04\0\x02\x01\x05\0\x09\x03\x01\x04\0" END "\xee\xee"),
    /* The block ends in the end of the path. */
    BYTES("\x01\x01\x04\0\x7f\xff\x04"),
    /* Two instances: A, and B. */
    BYTES("\x01\x01\x04\0\x7f\x01\x04\0\x02\x01\x05\0\x09" END),
    /* B. */
    BYTES("\x02\x01\x05\0\x09" END),
    /* No bytes. */
    BYTES(""),
};

/* An address: the number of a block, and how many bytes behind its address. */
struct place {
    unsigned block, behind;
};

/* The handles from 1 on: the path's place, if there is such an interface, and the GUIDs beside it. */
static const struct {
    bool has_path;
    struct place place;
    const char *guids;
} handles[8] = {
    {true, {0, 0}, "\1\2"}, {true, {1, 3}, "\1"},    {true, {2, 0}, "\2"},
    {true, {4, 0}, "\1\2"}, {true, {5, 0}, "\1\2"},  {false, {0, 0}, "\1\2"},
    {true, {0, 0}, "\1\2"}, {true, {1, 12}, "\2"},
};

/* A GUID and the place of a path; the status, the handle that the path leads to, and the place behind
 * its nodes. */
static const struct {
    uint8_t guid;
    struct place place;
    uint64_t status, handle;
    struct place behind;
} leads[] = {
    {1, {0, 0}, SUCCESS, 1, {0, 4}},   {2, {0, 0}, SUCCESS, 1, {0, 4}},
    {3, {0, 0}, NOT_FOUND, 0, {0, 0}}, {2, {0, 4}, SUCCESS, 3, {0, 4}},
    {1, {0, 4}, NOT_FOUND, 0, {0, 0}}, {1, {0, 8}, INVALID, 0, {0, 0}},
    {1, {0, 1}, INVALID, 0, {0, 0}},   {1, {1, 3}, SUCCESS, 2, {1, 12}},
    {2, {1, 3}, SUCCESS, 1, {1, 7}},   {1, {1, 0}, INVALID, 0, {0, 0}},
    {1, {1, 7}, NOT_FOUND, 0, {0, 0}}, {2, {1, 7}, SUCCESS, 3, {1, 7}},
    {2, {1, 12}, SUCCESS, 3, {1, 12}}, {2, {1, 13}, INVALID, 0, {0, 0}},
    {1, {2, 0}, NOT_FOUND, 0, {0, 0}}, {2, {2, 0}, SUCCESS, 3, {2, 0}},
    {3, {2, 0}, NOT_FOUND, 0, {0, 0}}, {1, {3, 0}, SUCCESS, 2, {3, 9}},
    {2, {3, 0}, SUCCESS, 1, {3, 4}},   {1, {3, 9}, NOT_FOUND, 0, {0, 0}},
    {1, {3, 17}, INVALID, 0, {0, 0}},  {1, {4, 0}, INVALID, 0, {0, 0}},
    {2, {4, 0}, INVALID, 0, {0, 0}},   {1, {5, 0}, SUCCESS, 1, {5, 4}},
    {2, {5, 4}, SUCCESS, 3, {5, 4}},   {1, {5, 8}, NOT_FOUND, 0, {0, 0}},
    {2, {6, 0}, SUCCESS, 3, {6, 0}},   {2, {7, 0}, INVALID, 0, {0, 0}},
    {2, {7, 1}, INVALID, 0, {0, 0}},
};

/* Interfaces to be installed at once on a new handle: whether each is a path, and the place that is
 * its value; and whether a live handle has one of the paths already. Those that are no path have a
 * GUID each. */
static const struct {
    size_t count;
    struct {
        bool is_path;
        struct place place;
    } interfaces[3];
    bool is_there;
} installed[] = {
    {1, {{true, {0, 0}}}, true},
    {1, {{false, {0, 0}}}, false},
    {1, {{true, {1, 3}}}, true},
    {1, {{true, {1, 0}}}, false},
    {1, {{true, {1, 7}}}, false},
    {1, {{true, {2, 0}}}, true},
    {1, {{true, {3, 0}}}, false},
    {1, {{true, {3, 13}}}, true},
    {1, {{true, {4, 0}}}, false},
    {1, {{true, {5, 0}}}, true},
    {1, {{true, {5, 8}}}, false},
    {1, {{true, {6, 0}}}, false},
    {1, {{true, {6, 5}}}, true},
    {1, {{true, {7, 0}}}, false},
    {3, {{true, {6, 0}}, {false, {0, 0}}, {false, {4, 0}}}, false},
    {3, {{false, {6, 0}}, {false, {6, 0}}, {true, {0, 0}}}, true},
};

static uint64_t blocks[8];

static uint64_t address_of(struct place place)
{
    return blocks[place.block] + place.behind;
}

/* A core with the blocks and the handles. */
static struct rafkudin *core_of_blocks(void)
{
    struct rafkudin *core = small_core(NULL, 0);

    for (size_t at = 0; at < COUNT(contents); at++)
        blocks[at] = block_of(core, (const uint8_t *)contents[at].text, contents[at].length);
    for (size_t at = 0; at < COUNT(handles); at++) {
        uint64_t handle = 0;

        if (handles[at].has_path)
            handle = install(core, handle, &path_guid, address_of(handles[at].place));
        for (const char *byte = handles[at].guids; *byte != 0; byte++) {
            struct rafkudin_guid guid = guid_of((uint8_t)*byte);

            handle = install(core, handle, &guid, 0);
        }
        HOLDS(handle == at + 1);
    }
    return core;
}

static void try_leads_of_blocks(void)
{
    struct rafkudin *core = core_of_blocks();

    for (size_t row = 0; row < COUNT(leads); row++) {
        struct rafkudin_guid guid = guid_of(leads[row].guid);
        uint64_t address = address_of(leads[row].place), device = LEFT;
        bool is_found = leads[row].status == SUCCESS;

        HOLDS(RafkudinLocateDevicePath(core, &guid, &address, &device) == leads[row].status);
        HOLDS(device == (is_found ? leads[row].handle : LEFT));
        HOLDS(address == address_of(is_found ? leads[row].behind : leads[row].place));
    }
    RafkudinFree(core);
}

static void try_installed(void)
{
    for (size_t row = 0; row < COUNT(installed); row++) {
        struct rafkudin *core = core_of_blocks();
        struct rafkudin_interface interfaces[3];
        uint64_t handle = 0;

        for (size_t at = 0; at < installed[row].count; at++) {
            bool is_path = installed[row].interfaces[at].is_path;

            interfaces[at].guid = is_path ? path_guid : guid_of((uint8_t)(10 + at));
            interfaces[at].value = address_of(installed[row].interfaces[at].place);
        }
        HOLDS(RafkudinInstallMultipleProtocolInterfaces(core, &handle, interfaces,
                                                        installed[row].count) ==
              (installed[row].is_there ? RAFKUDIN_ALREADY_STARTED : SUCCESS));
        HOLDS(handle == (installed[row].is_there ? 0 : COUNT(handles) + 1));
        RafkudinFree(core);
    }
}

int main(void)
{
    try_rows();
    try_drawn();
    try_leads_of_blocks();
    try_installed();
    return points_end("device_paths");
}
