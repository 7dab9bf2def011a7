/* What the applications of the tests share: each has an `application`, whose status is that of the
 * image. */
#ifndef EFIHOST_APP_H
#define EFIHOST_APP_H

#include "../../src/uefi.h"

static EFI_SYSTEM_TABLE *table;
static EFI_BOOT_SERVICES *boot;
static EFI_HANDLE self;

static EFI_STATUS application(void);

/* Prints letters of ASCII. */
static inline void print(const char *text)
{
    CHAR16 wide[256];
    unsigned i = 0;

    while (text[i] != 0 && i < 255) {
        wide[i] = (CHAR16)text[i];
        i++;
    }
    wide[i] = 0;
    table->ConOut->OutputString(table->ConOut, wide);
}

/* Goes on where a call succeeds; else says which did not, and the image returns ABORTED. */
#define MUST(call)                                                                                \
    do {                                                                                          \
        if ((call) != EFI_SUCCESS) {                                                              \
            print("failed: " #call "\r\n");                                                       \
            return EFI_ABORTED;                                                                   \
        }                                                                                         \
    } while (0)

static inline uint8_t *pool(UINTN size)
{
    void *block = NULL;

    boot->AllocatePool(4, size, &block);
    return block;
}

EFI_STATUS EFIAPI efi_main(EFI_HANDLE image, EFI_SYSTEM_TABLE *system)
{
    self = image;
    table = system;
    boot = system->BootServices;
    return application();
}

static const EFI_GUID test_guid = {
    0x2c5bfa86, 0x3d35, 0x4b5a, {0x9e, 0x61, 0x0d, 0x8f, 0x55, 0x20, 0x61, 0x31}};
static const EFI_GUID path_guid = {
    0x09576e91, 0x6d3f, 0x11d2, {0x8e, 0x39, 0x00, 0xa0, 0xc9, 0x69, 0x72, 0x3b}};
static const EFI_GUID loaded_guid = {
    0x5b1b31a1, 0x9562, 0x11d2, {0x8e, 0x3f, 0x00, 0xa0, 0xc9, 0x69, 0x72, 0x3b}};
static const EFI_GUID files_guid = {
    0x964e5b22, 0x6459, 0x11d2, {0x8e, 0x39, 0x00, 0xa0, 0xc9, 0x69, 0x72, 0x3b}};
static const EFI_GUID binding_guid = {
    0x18a031ab, 0xb443, 0x4d1a, {0xa5, 0xc0, 0x0c, 0x09, 0x26, 0x1e, 0x9f, 0x71}};

#endif
