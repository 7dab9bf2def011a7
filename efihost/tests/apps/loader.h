/* Ends the boot services as a loader does. */
#ifndef EFIHOST_LOADER_H
#define EFIHOST_LOADER_H

#include "app.h"

static uint8_t map[65536];

static inline EFI_STATUS get_key(UINTN *key)
{
    UINTN size = sizeof map, step;
    uint32_t version;

    return boot->GetMemoryMap(&size, (EFI_MEMORY_DESCRIPTOR *)(void *)map, key, &step, &version);
}

#endif
