/* Disks: an image of the host's as a block device, a folder of the host's as a file system. */
#include "host.h"

#include <errno.h>
#include <fcntl.h>
#include <limits.h>
#include <stdlib.h>
#include <string.h>
#include <sys/mman.h>
#include <sys/stat.h>
#include <unistd.h>

#define SECTOR 512U

static struct disk {
    void *shown; /* what images see of it */
    EFI_BLOCK_IO_MEDIA media;
    int file;
    bool read_only;
    uint64_t blocks;
    uint8_t *copy; /* with --snapshot: the file's bytes, which become the process's own if written */
} disks[MAX_DISKS];
static size_t disk_count;

static struct {
    char *path;
    uint64_t handle;
} folders[MAX_DISKS];
static size_t folder_count;
static char *whole_application; /* its whole path on the host, or NULL */

static EFI_STATUS EFIAPI reset_disk(EFI_BLOCK_IO_PROTOCOL *this, BOOLEAN extended)
{
    SERVICE("BlockIo.Reset", NUMBER(this), extended);
    ANSWER(EFI_SUCCESS);
}

static const struct disk *disk_of(const EFI_BLOCK_IO_PROTOCOL *shown)
{
    for (size_t i = 0; i < disk_count; i++)
        if (disks[i].shown == shown)
            return &disks[i];
    return NULL;
}

/* Whether a request fits a disk. */
static EFI_STATUS judge(const struct disk *disk, uint32_t media, uint64_t block, UINTN size)
{
    if (disk == NULL)
        return EFI_INVALID_PARAMETER;
    if (media != disk->media.MediaId)
        return EFI_MEDIA_CHANGED;
    if (size % SECTOR != 0)
        return EFI_BAD_BUFFER_SIZE;
    if (block >= disk->blocks || size / SECTOR > disk->blocks - block)
        return EFI_INVALID_PARAMETER;
    return EFI_SUCCESS;
}

static EFI_STATUS EFIAPI read_blocks(EFI_BLOCK_IO_PROTOCOL *this, uint32_t media, uint64_t block,
                                     UINTN size, void *bytes)
{
    SERVICE("BlockIo.ReadBlocks", NUMBER(this), block, size, NUMBER(bytes));
    const struct disk *disk = disk_of(this);
    EFI_STATUS status = judge(disk, media, block, size);
    char *to = bytes;

    if (status != EFI_SUCCESS || size == 0)
        ANSWER(status);
    if (bytes == NULL)
        ANSWER(EFI_INVALID_PARAMETER);
    touch(bytes, size, true);
    if (disk->copy != NULL) {
        memcpy(to, disk->copy + block * SECTOR, size);
        ANSWER(EFI_SUCCESS);
    }
    for (UINTN done = 0; done < size;) {
        ssize_t count = pread(disk->file, to + done, size - done, (off_t)(block * SECTOR + done));

        if (count <= 0)
            ANSWER(EFI_DEVICE_ERROR);
        done += (UINTN)count;
    }
    ANSWER(EFI_SUCCESS);
}

static EFI_STATUS EFIAPI write_blocks(EFI_BLOCK_IO_PROTOCOL *this, uint32_t media, uint64_t block,
                                      UINTN size, const void *bytes)
{
    SERVICE("BlockIo.WriteBlocks", NUMBER(this), block, size, NUMBER(bytes));
    const struct disk *disk = disk_of(this);
    EFI_STATUS status = judge(disk, media, block, size);

    if (status != EFI_SUCCESS || size == 0)
        ANSWER(status);
    if (bytes == NULL)
        ANSWER(EFI_INVALID_PARAMETER);
    if (disk->read_only)
        ANSWER(EFI_WRITE_PROTECTED);
    touch(bytes, size, false);
    if (disk->copy != NULL)
        memcpy(disk->copy + block * SECTOR, bytes, size);
    else if (pwrite(disk->file, bytes, size, (off_t)(block * SECTOR)) != (ssize_t)size)
        ANSWER(EFI_DEVICE_ERROR);
    ANSWER(EFI_SUCCESS);
}

static EFI_STATUS EFIAPI flush_blocks(EFI_BLOCK_IO_PROTOCOL *this)
{
    SERVICE("BlockIo.FlushBlocks", NUMBER(this));
    const struct disk *disk = disk_of(this);

    if (disk == NULL)
        ANSWER(EFI_INVALID_PARAMETER);
    ANSWER(fsync(disk->file) == 0 ? EFI_SUCCESS : EFI_DEVICE_ERROR);
}

/* Whether the process only reads a disk. */
bool disk_is_read_only(size_t number)
{
    return host.options.snapshot || host.options.disk_read_only[number];
}

/* Opens an image, or a block device of the host's, which has its size at its end. */
static void open_disk(struct disk *disk, const char *name, unsigned number)
{
    bool copies = host.options.snapshot && !host.options.disk_read_only[number];
    off_t size;

    disk->file = disk_is_read_only(number) ? -1 : open(name, O_RDWR | O_CLOEXEC);
    disk->read_only = disk->file < 0 && !copies;
    if (disk->file < 0)
        disk->file = open(name, O_RDONLY | O_CLOEXEC);
    if (disk->file < 0)
        refuse("cannot read disk %s: %s", name, strerror(errno));
    size = lseek(disk->file, 0, SEEK_END);
    if (size < (off_t)SECTOR)
        refuse("disk %s: it has less than a block of %u bytes", name, SECTOR);
    disk->blocks = (uint64_t)size / SECTOR;
    if (!copies)
        return;
    disk->copy = mmap(NULL, (size_t)size, PROT_READ | PROT_WRITE, MAP_PRIVATE | MAP_NORESERVE,
                      disk->file, 0);
    if (disk->copy == MAP_FAILED)
        refuse("disk %s: no snapshot: %s", name, strerror(errno));
}

static void make_disk(const char *name, unsigned number)
{
    uint8_t path[] = {2, 1, 12, 0, 0xd0, 0x41, 3, 0x0a, 0,    0,    0, 0,
                      1, 5, 8,  0, 0,    0,    0, 0,    0x7f, 0xff, 4, 0};
    EFI_BLOCK_IO_PROTOCOL functions = {0x10000,     NULL,         reset_disk,
                                       read_blocks, write_blocks, flush_blocks};
    struct disk *disk = &disks[disk_count++];
    uint64_t handle = 0;
    void *shown_path;

    open_disk(disk, name, number);
    disk->media.MediaId = 1;
    disk->media.MediaPresent = true;
    disk->media.ReadOnly = disk->read_only;
    disk->media.LastBlock = disk->blocks - 1;
    disk->media.BlockSize = SECTOR;
    path[16] = (uint8_t)number;
    functions.Media = need_structure("BlockIo.Media", &disk->media, sizeof disk->media);
    disk->shown = need_structure("BlockIo", &functions, sizeof functions);
    shown_path = machine_copy(path, sizeof path);
    install_one(&handle, &block_io_guid, 0, NUMBER(disk->shown));
    install_one(&handle, &device_path_guid, 0, NUMBER(shown_path));
}

/* The paths of the host are found here, while the process may look for them. */
void make_disks(void)
{
    whole_application = realpath(host.options.application, NULL);
    for (size_t i = 0; i < host.options.disk_count; i++) {
        const char *name = host.options.disks[i];
        struct stat about;

        if (stat(name, &about) != 0)
            refuse("cannot read disk %s: %s", name, strerror(errno));
        if (!S_ISDIR(about.st_mode)) {
            make_disk(name, (unsigned)i);
            continue;
        }
        folders[folder_count].path = must(realpath(name, NULL));
        folders[folder_count++].handle = make_folder(name, (unsigned)i, disk_is_read_only(i));
    }
}

/* The first file system that there is, of the host or of a driver. */
static EFI_HANDLE first_file_system(void)
{
    static uint64_t handles[RAFKUDIN_MAX_HANDLES];
    uint64_t size = sizeof handles;

    if (core_locate(RAFKUDIN_BY_PROTOCOL, &file_system_guid, 0, &size, handles) != EFI_SUCCESS)
        return NULL;
    return HANDLE(handles[0]);
}

/* Where an application of the host's lies for itself: its path from the root of the folder that
 * holds it, or its name alone on the first file system, or on no device. */
const char *application_path(const char *file, EFI_HANDLE *device)
{
    static char path[PATH_MAX];
    const char *whole = whole_application, *rest = NULL;

    *device = NULL;
    for (size_t i = 0; whole != NULL && i < folder_count; i++) {
        size_t length = strlen(folders[i].path);

        if (strncmp(whole, folders[i].path, length) == 0 && whole[length] == '/') {
            *device = HANDLE(folders[i].handle);
            rest = whole + length;
        }
    }
    if (rest == NULL) {
        *device = first_file_system();
        rest = strrchr(file, '/') == NULL ? file : strrchr(file, '/');
    }
    snprintf(path, sizeof path, "%s%s", *rest == '/' ? "" : "/", rest);
    for (char *at = path; *at != 0; at++)
        if (*at == '/')
            *at = '\\';
    return path;
}
