/* How EDK2 compiles the header: its own types, no standard include, and another calling convention. */
#define RAFKUDIN_NO_STD_INCLUDES
typedef unsigned char uint8_t;
typedef unsigned int uint32_t;
typedef unsigned long long UINT64;
typedef unsigned long long size_t;
typedef unsigned char bool;
#define NULL ((void *)0)
#define RAFKUDIN_UINT64 UINT64
#include <rafkudin.h>

UINT64 ask(struct rafkudin *core, UINT64 *memory);

UINT64 ask(struct rafkudin *core, UINT64 *memory)
{
    return RafkudinAllocatePages(core, RAFKUDIN_ANY_PAGES, RAFKUDIN_LOADER_DATA, 1, memory);
}
