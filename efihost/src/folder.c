/* A folder of the host as a simple file system: names without regard to case, as FAT has them, and
 * no way out of the folder. Each path is opened by openat2, which follows no link, and what is made,
 * renamed or deleted is named in the folder that holds it. */
#include "folder.h"

#include <dirent.h>
#include <errno.h>
#include <fcntl.h>
#include <limits.h>
#include <linux/openat2.h>
#include <stdlib.h>
#include <string.h>
#include <strings.h>
#include <sys/stat.h>
#include <sys/syscall.h>
#include <unistd.h>

static struct volume {
    void *shown; /* what images see of it */
    struct folder folder;
} volumes[MAX_DISKS];
static size_t volume_count;

EFI_STATUS folder_status(void)
{
    switch (errno) {
    case ENOENT:
    case ENOTDIR:
    case ENAMETOOLONG:
        return EFI_NOT_FOUND;
    case EROFS:
        return EFI_WRITE_PROTECTED;
    case ENOSPC:
        return EFI_VOLUME_FULL;
    case EACCES:
    case EPERM:
    case ELOOP:
    case EXDEV:
    case EEXIST:
    case ENOTEMPTY:
    case EISDIR:
        return EFI_ACCESS_DENIED;
    default:
        return EFI_DEVICE_ERROR;
    }
}

/* Whether a file may have a name, which is no path: as of FAT, whose drivers refuse others. */
bool folder_takes_name(const char *name)
{
    for (; *name != 0; name++)
        if ((unsigned char)*name < ' ' || strchr("\"*/:<>?\\|", *name) != NULL)
            return false;
    return true;
}

/* Opens what a path has below the root. No symbolic link is followed on the way, and none at its
 * end; O_PATH opens the link itself. */
int folder_descriptor(const struct folder *folder, const char *path, int flags)
{
    struct open_how how = {0};

    how.flags = (uint64_t)(flags | O_NOFOLLOW | O_CLOEXEC);
    how.mode = (flags & O_CREAT) != 0 ? 0666 : 0;
    how.resolve = RESOLVE_BENEATH | RESOLVE_NO_SYMLINKS | RESOLVE_NO_MAGICLINKS;
#ifdef IN_VALGRIND /* which has no openat2 */
    return openat(folder->root, *path == 0 ? "." : path, (int)how.flags, (mode_t)how.mode);
#else
    return (int)syscall(SYS_openat2, folder->root, *path == 0 ? "." : path, &how, sizeof how);
#endif
}

/* Opens the folder that holds a path's last part, which is *name. */
int folder_above(const struct folder *folder, const char *path, const char **name)
{
    const char *slash = strrchr(path, '/');
    char above[FOLDER_PATH];

    *name = slash == NULL ? path : slash + 1;
    snprintf(above, sizeof above, "%.*s", slash == NULL ? 0 : (int)(slash - path), path);
    return folder_descriptor(folder, above, O_PATH | O_DIRECTORY);
}

/* The mode of what is at a path, which may be a symbolic link; 0 where nothing is. */
mode_t folder_mode(const struct folder *folder, const char *path)
{
    int file = folder_descriptor(folder, path, O_PATH);
    struct stat about;
    bool known;

    if (file < 0)
        return 0;
    known = fstat(file, &about) == 0;
    close(file);
    return known ? about.st_mode : 0;
}

/* The name that a folder has for a part of a path, whatever the case of its letters. */
static bool find_name(const struct folder *folder, const char *path, char *name)
{
    int file = folder_descriptor(folder, path, O_RDONLY | O_DIRECTORY);
    DIR *list = file < 0 ? NULL : fdopendir(file);
    const struct dirent *entry;
    bool there = false;

    if (list == NULL) {
        close(file);
        return false;
    }
    while (!there && (entry = readdir(list)) != NULL)
        if (strcasecmp(entry->d_name, name) == 0) {
            strcpy(name, entry->d_name);
            there = true;
        }
    closedir(list);
    return there;
}

/* Adds one part to a path below the root. */
static EFI_STATUS add_part(const struct folder *folder, char *path, const char *part,
                           size_t length, bool last)
{
    char name[NAME_MAX + 1], whole[FOLDER_PATH];
    mode_t mode;
    char *slash;

    if (length == 0 || (length == 1 && part[0] == '.'))
        return EFI_SUCCESS;
    if (length == 2 && part[0] == '.' && part[1] == '.') {
        slash = strrchr(path, '/');
        *(slash == NULL ? path : slash) = 0;
        return EFI_SUCCESS;
    }
    if (length > NAME_MAX || strlen(path) + length + 2 > FOLDER_PATH)
        return EFI_NOT_FOUND;
    memcpy(name, part, length);
    name[length] = 0;
    if (!folder_takes_name(name))
        return EFI_INVALID_PARAMETER;
    snprintf(whole, sizeof whole, "%s%s%s", path, *path == 0 ? "" : "/", name);
    mode = folder_mode(folder, whole);
    if (mode == 0) {
        if (!find_name(folder, path, name) && !last)
            return EFI_NOT_FOUND;
        snprintf(whole, sizeof whole, "%s%s%s", path, *path == 0 ? "" : "/", name);
        mode = folder_mode(folder, whole);
    }
    if (S_ISLNK(mode))
        return EFI_ACCESS_DENIED;
    strcpy(path, whole);
    return EFI_SUCCESS;
}

/* The path below the root of a name that is asked for in a folder of it; the last part need not
 * be. */
EFI_STATUS folder_resolve(const struct folder *folder, const char *from, const CHAR16 *name,
                          char *path)
{
    char whole[FOLDER_PATH];
    const char *text = whole, *end;
    EFI_STATUS status = EFI_SUCCESS;

    if (!narrow_into(whole, sizeof whole, name))
        return EFI_NOT_FOUND;
    *path = 0;
    if (*text != '\\')
        strcpy(path, from);
    for (; *text != 0 && status == EFI_SUCCESS; text = *end == 0 ? end : end + 1) {
        end = text + strcspn(text, "\\");
        status = add_part(folder, path, text, (size_t)(end - text), *end == 0);
    }
    return status;
}

static EFI_STATUS EFIAPI open_volume(EFI_SIMPLE_FILE_SYSTEM_PROTOCOL *this,
                                     EFI_FILE_PROTOCOL **root)
{
    SERVICE("OpenVolume", NUMBER(this));
    size_t i = 0;

    while (i < volume_count && volumes[i].shown != this)
        i++;
    if (i == volume_count || root == NULL)
        ANSWER(EFI_INVALID_PARAMETER);
    ANSWER(folder_open(&volumes[i].folder, "", O_RDONLY, root));
}

/* The handle of a new file system. */
uint64_t make_folder(const char *path, unsigned number, bool read_only)
{
    uint8_t device[] = {2, 1, 12, 0, 0xd0, 0x41, 3, 0x0a, 1,    0,    0, 0,
                        1, 5, 8,  0, 0,    0,    0, 0,    0x7f, 0xff, 4, 0};
    const EFI_SIMPLE_FILE_SYSTEM_PROTOCOL functions = {0x10000, open_volume};
    struct volume *volume = &volumes[volume_count++];
    uint64_t handle = 0;
    void *shown_path;

    volume->folder.read_only = read_only;
    volume->folder.root = open(path, O_RDONLY | O_DIRECTORY | O_CLOEXEC);
    if (volume->folder.root < 0)
        refuse("cannot read folder %s", path);
    device[16] = (uint8_t)number;
    volume->shown = need_structure("SimpleFileSystem", &functions, sizeof functions);
    shown_path = machine_copy(device, sizeof device);
    install_one(&handle, &file_system_guid, 0, NUMBER(volume->shown));
    install_one(&handle, &device_path_guid, 0, NUMBER(shown_path));
    return handle;
}
