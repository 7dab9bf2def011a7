/* What the two files of the host's folders share. */
#ifndef EFIHOST_FOLDER_H
#define EFIHOST_FOLDER_H

#include "host.h"

#include <sys/types.h>

#define FOLDER_PATH 2048U

struct folder {
    int root;
    bool read_only;
};

/* The status of the last error of the host's. */
EFI_STATUS folder_status(void);
bool folder_takes_name(const char *name);
EFI_STATUS folder_resolve(const struct folder *folder, const char *from, const CHAR16 *name,
                          char *path);
int folder_descriptor(const struct folder *folder, const char *path, int flags);
int folder_above(const struct folder *folder, const char *path, const char **name);
mode_t folder_mode(const struct folder *folder, const char *path);
EFI_STATUS folder_open(const struct folder *folder, const char *path, int flags,
                       EFI_FILE_PROTOCOL **file);

#endif
