/* Files and folders of a folder of the host, as EFI_FILE_PROTOCOL has them. */
#include "folder.h"

#include <dirent.h>
#include <errno.h>
#include <fcntl.h>
#include <limits.h>
#include <stdlib.h>
#include <string.h>
#include <sys/stat.h>
#include <sys/statvfs.h>
#include <unistd.h>

#define HELD_BACK 256U /* closed files whose places are not used again yet */

struct open_file {
    EFI_FILE_PROTOCOL *shown; /* what images see of it */
    bool open;
    struct origin closed;
    const struct folder *folder;
    int file;
    DIR *list; /* of a folder */
    bool writes;
    uint64_t position;
    char path[FOLDER_PATH];
    struct open_file *next;
};
static struct open_file *rows[64]; /* open and closed ones, by their addresses */
static size_t closed_count;

static const EFI_GUID file_info_guid = {
    0x09576e92, 0x6d3f, 0x11d2, {0x8e, 0x39, 0x00, 0xa0, 0xc9, 0x69, 0x72, 0x3b}};
static const EFI_GUID system_info_guid = {
    0x09576e93, 0x6d3f, 0x11d2, {0x8e, 0x39, 0x00, 0xa0, 0xc9, 0x69, 0x72, 0x3b}};
static const EFI_GUID label_guid = {
    0xdb47d7d3, 0xfe81, 0x11d3, {0x9a, 0x35, 0x00, 0x90, 0x27, 0x3f, 0xc1, 0x4d}};
static const CHAR16 label[] = {'H', 'O', 'S', 'T', 0};

static struct open_file **row_of(const EFI_FILE_PROTOCOL *shown)
{
    return &rows[NUMBER(shown) / 16 % LENGTH(rows)];
}

/* The open file that an image hands to a service, or NULL. One that is closed is a finding of this
 * kind. */
static struct open_file *file_of(const EFI_FILE_PROTOCOL *shown, enum finding kind)
{
    struct open_file *it = *row_of(shown);
    struct origin origin;

    while (it != NULL && it->shown != shown)
        it = it->next;
    if (it == NULL || it->open)
        return it;
    origin = origin_now();
    found(kind, &origin, "%s of the file \"%s\", which %s closed", host.call->name, it->path,
          origin_text(&it->closed));
    return NULL;
}

static struct open_file *closed_longest(void)
{
    struct open_file *longest = NULL;

    for (size_t i = 0; i < LENGTH(rows); i++)
        for (struct open_file *it = rows[i]; it != NULL; it = it->next)
            if (!it->open && (longest == NULL || it->closed.call < longest->closed.call))
                longest = it;
    return longest;
}

/* A new file: in a new place, or, if many are closed or there is no memory, in that of the one that
 * is closed for the longest. NULL: there is none. */
static struct open_file *new_file(const EFI_FILE_PROTOCOL *functions)
{
    struct open_file *it = closed_count < HELD_BACK ? calloc(1, sizeof *it) : NULL;
    EFI_FILE_PROTOCOL *shown = NULL;

    if (it != NULL)
        shown = make_structure("a file's functions", functions, sizeof *functions);
    if (shown == NULL) {
        free(it);
        it = closed_longest();
        closed_count -= it != NULL;
        return it;
    }
    it->shown = shown;
    it->next = *row_of(shown);
    *row_of(shown) = it;
    return it;
}

/* The path of the folder that holds a file. */
static void path_above(const struct open_file *it, char *above)
{
    char *slash;

    strcpy(above, it->path);
    slash = strrchr(above, '/');
    *(slash == NULL ? above : slash) = 0;
}

/* Makes a folder, if there is none. */
static EFI_STATUS make_directory(const struct folder *folder, const char *path)
{
    const char *name;
    int above = folder_above(folder, path, &name);
    EFI_STATUS status = EFI_SUCCESS;

    if (above < 0 || (*name != 0 && mkdirat(above, name, 0777) != 0 && errno != EEXIST))
        status = folder_status();
    if (above >= 0)
        close(above);
    return status;
}

static EFI_STATUS EFIAPI open_below(EFI_FILE_PROTOCOL *this, EFI_FILE_PROTOCOL **made,
                                    const CHAR16 *name, uint64_t mode, uint64_t attributes)
{
    SERVICE("File.Open", NUMBER(this), NUMBER(name), mode, attributes);
    struct open_file *from = file_of(this, USE_AFTER_FREE);
    const uint64_t changes = EFI_FILE_MODE_READ | EFI_FILE_MODE_WRITE;
    int flags = mode == EFI_FILE_MODE_READ ? O_RDONLY : O_RDWR;
    char above[FOLDER_PATH], path[FOLDER_PATH];
    EFI_STATUS status;

    if (from == NULL || made == NULL || name == NULL ||
        (flags == O_RDWR && (mode & ~EFI_FILE_MODE_CREATE) != changes))
        ANSWER(EFI_INVALID_PARAMETER);
    if (from->list != NULL)
        strcpy(above, from->path);
    else
        path_above(from, above);
    status = folder_resolve(from->folder, above, name, path);
    if (status == EFI_SUCCESS && flags == O_RDWR && from->folder->read_only)
        status = EFI_WRITE_PROTECTED;
    if (status == EFI_SUCCESS && (mode & EFI_FILE_MODE_CREATE) != 0) {
        if ((attributes & EFI_FILE_DIRECTORY) != 0)
            status = make_directory(from->folder, path);
        else
            flags |= O_CREAT;
    }
    if (status == EFI_SUCCESS)
        status = folder_open(from->folder, path, flags, made);
    ANSWER(status);
}

static void close_file(struct open_file *it)
{
    if (it->list != NULL)
        closedir(it->list);
    else
        close(it->file);
    it->open = false;
    it->closed = origin_without_callers();
    closed_count++;
}

static EFI_STATUS EFIAPI close_this(EFI_FILE_PROTOCOL *this)
{
    SERVICE("File.Close", NUMBER(this));
    struct open_file *it = file_of(this, FREE_NOT_LIVE);

    if (it == NULL)
        ANSWER(EFI_INVALID_PARAMETER);
    close_file(it);
    ANSWER(EFI_SUCCESS);
}

/* Whether the path of a file still has that file, and no other that took its name. */
static bool is_in_place(const struct open_file *it, int above, const char *name)
{
    struct stat now, about;

    return fstatat(above, name, &now, AT_SYMLINK_NOFOLLOW) == 0 && fstat(it->file, &about) == 0 &&
           now.st_dev == about.st_dev && now.st_ino == about.st_ino;
}

static bool delete(const struct open_file *it)
{
    const char *name;
    int above = folder_above(it->folder, it->path, &name);
    bool gone = above >= 0 && is_in_place(it, above, name) &&
                unlinkat(above, name, it->list == NULL ? 0 : AT_REMOVEDIR) == 0;

    if (above >= 0)
        close(above);
    return gone;
}

static EFI_STATUS EFIAPI delete_this(EFI_FILE_PROTOCOL *this)
{
    SERVICE("File.Delete", NUMBER(this));
    struct open_file *it = file_of(this, FREE_NOT_LIVE);
    bool gone;

    if (it == NULL)
        ANSWER(EFI_INVALID_PARAMETER);
    gone = *it->path != 0 && it->writes && delete(it);
    close_file(it);
    ANSWER(gone ? EFI_SUCCESS : EFI_WARN_DELETE_FAILURE);
}

/* Writes what a file's information is, where it fits; *size are the bytes needed. */
static EFI_STATUS write_info(const struct stat *about, const char *name, UINTN *size, void *to)
{
    EFI_FILE_INFO *info = to;
    CHAR16 wide[NAME_MAX + 1];
    UINTN needed, room = *size;

    widen(wide, name);
    needed = sizeof *info + 2 * (wide_length(wide) + 1);
    *size = needed;
    if (room < needed)
        return EFI_BUFFER_TOO_SMALL;
    memset(info, 0, sizeof *info);
    info->Size = needed;
    info->FileSize = S_ISDIR(about->st_mode) ? 0 : (uint64_t)about->st_size;
    info->PhysicalSize = (uint64_t)about->st_blocks * 512;
    write_time(&info->CreateTime, about->st_mtime);
    write_time(&info->LastAccessTime, about->st_atime);
    write_time(&info->ModificationTime, about->st_mtime);
    info->Attribute = S_ISDIR(about->st_mode) ? EFI_FILE_DIRECTORY : 0x20;
    if ((about->st_mode & 0222) == 0)
        info->Attribute |= EFI_FILE_READ_ONLY;
    memcpy(info->FileName, wide, needed - sizeof *info);
    return EFI_SUCCESS;
}

/* The next entry of a folder; 0 bytes after the last one. One that doesn't fit is read again. Names
 * that can't be opened are not shown. */
static EFI_STATUS read_entry(struct open_file *it, UINTN *size, void *to)
{
    const struct dirent *entry;
    struct stat about;
    EFI_STATUS status;
    long before;

    do {
        before = telldir(it->list);
        entry = readdir(it->list);
        if (entry == NULL) {
            *size = 0;
            return EFI_SUCCESS;
        }
    } while (strcmp(entry->d_name, ".") == 0 || strcmp(entry->d_name, "..") == 0 ||
             !folder_takes_name(entry->d_name) ||
             fstatat(it->file, entry->d_name, &about, AT_SYMLINK_NOFOLLOW) != 0 ||
             S_ISLNK(about.st_mode));
    status = write_info(&about, entry->d_name, size, to);
    if (status == EFI_BUFFER_TOO_SMALL)
        seekdir(it->list, before);
    return status;
}

/* How many bytes of a file lie behind the position. */
static uint64_t bytes_left(const struct open_file *it)
{
    struct stat about;

    if (fstat(it->file, &about) != 0 || (uint64_t)about.st_size <= it->position)
        return 0;
    return (uint64_t)about.st_size - it->position;
}

static EFI_STATUS EFIAPI read_this(EFI_FILE_PROTOCOL *this, UINTN *size, void *bytes)
{
    SERVICE("File.Read", NUMBER(this), size == NULL ? 0 : *size, NUMBER(bytes));
    struct open_file *it = file_of(this, USE_AFTER_FREE);
    UINTN done = 0, left;

    if (it == NULL || size == NULL || (bytes == NULL && *size != 0))
        ANSWER(EFI_INVALID_PARAMETER);
    if (it->list != NULL)
        ANSWER(read_entry(it, size, bytes));
    left = bytes_left(it);
    touch(bytes, *size < left ? *size : left, true);
    while (done < *size) {
        ssize_t count = pread(it->file, (char *)bytes + done, *size - done,
                              (off_t)(it->position + done));

        if (count < 0)
            ANSWER(EFI_DEVICE_ERROR);
        if (count == 0)
            break;
        done += (UINTN)count;
    }
    it->position += done;
    *size = done;
    ANSWER(EFI_SUCCESS);
}

static EFI_STATUS EFIAPI write_this(EFI_FILE_PROTOCOL *this, UINTN *size, const void *bytes)
{
    SERVICE("File.Write", NUMBER(this), size == NULL ? 0 : *size, NUMBER(bytes));
    struct open_file *it = file_of(this, USE_AFTER_FREE);
    ssize_t count;

    if (it == NULL || size == NULL || (bytes == NULL && *size != 0))
        ANSWER(EFI_INVALID_PARAMETER);
    if (it->list != NULL)
        ANSWER(EFI_UNSUPPORTED);
    if (!it->writes)
        ANSWER(EFI_ACCESS_DENIED);
    touch(bytes, *size, false);
    count = pwrite(it->file, bytes, *size, (off_t)it->position);
    if (count < 0)
        ANSWER(folder_status());
    it->position += (uint64_t)count;
    ANSWER((UINTN)count == *size ? EFI_SUCCESS : EFI_VOLUME_FULL);
}

static EFI_STATUS EFIAPI get_position(EFI_FILE_PROTOCOL *this, uint64_t *position)
{
    SERVICE("File.GetPosition", NUMBER(this), NUMBER(position));
    struct open_file *it = file_of(this, USE_AFTER_FREE);

    if (it == NULL || position == NULL)
        ANSWER(EFI_INVALID_PARAMETER);
    if (it->list != NULL)
        ANSWER(EFI_UNSUPPORTED);
    *position = it->position;
    ANSWER(EFI_SUCCESS);
}

/* The highest position is the end of the file; of a folder only its start can be set. */
static EFI_STATUS EFIAPI set_position(EFI_FILE_PROTOCOL *this, uint64_t position)
{
    SERVICE("File.SetPosition", NUMBER(this), position);
    struct open_file *it = file_of(this, USE_AFTER_FREE);
    struct stat about;

    if (it == NULL)
        ANSWER(EFI_INVALID_PARAMETER);
    if (it->list != NULL) {
        if (position != 0)
            ANSWER(EFI_UNSUPPORTED);
        rewinddir(it->list);
        ANSWER(EFI_SUCCESS);
    }
    it->position = position;
    if (position == UINT64_MAX)
        it->position = fstat(it->file, &about) == 0 ? (uint64_t)about.st_size : 0;
    ANSWER(EFI_SUCCESS);
}

static EFI_STATUS system_info(struct open_file *it, UINTN *size, void *to)
{
    size_t offset = offsetof(EFI_FILE_SYSTEM_INFO, VolumeLabel);
    UINTN needed = offset + sizeof label, room = *size;
    EFI_FILE_SYSTEM_INFO *info = to;
    struct statvfs about;

    *size = needed;
    if (room < needed)
        return EFI_BUFFER_TOO_SMALL;
    if (fstatvfs(it->folder->root, &about) != 0)
        return EFI_DEVICE_ERROR;
    memset(info, 0, offset);
    info->Size = needed;
    info->VolumeSize = about.f_blocks * about.f_frsize;
    info->FreeSpace = about.f_bavail * about.f_frsize;
    info->BlockSize = (uint32_t)about.f_frsize;
    memcpy(info->VolumeLabel, label, sizeof label);
    return EFI_SUCCESS;
}

static EFI_STATUS EFIAPI get_info(EFI_FILE_PROTOCOL *this, const EFI_GUID *kind, UINTN *size,
                                  void *to)
{
    SERVICE("File.GetInfo", NUMBER(this), NUMBER(kind), size == NULL ? 0 : *size, NUMBER(to));
    struct open_file *it = file_of(this, USE_AFTER_FREE);
    const char *name;
    struct stat about;
    UINTN room;

    if (it == NULL || kind == NULL || size == NULL || (to == NULL && *size != 0))
        ANSWER(EFI_INVALID_PARAMETER);
    name = last_part(it->path);
    if (guid_equal(kind, &file_info_guid))
        ANSWER(fstat(it->file, &about) == 0 ? write_info(&about, name, size, to)
                                            : folder_status());
    if (guid_equal(kind, &system_info_guid))
        ANSWER(system_info(it, size, to));
    if (!guid_equal(kind, &label_guid))
        ANSWER(EFI_UNSUPPORTED);
    room = *size;
    *size = sizeof label;
    if (room < sizeof label)
        ANSWER(EFI_BUFFER_TOO_SMALL);
    memcpy(to, label, sizeof label);
    ANSWER(EFI_SUCCESS);
}

/* Moves a file to a path that no file has. */
static EFI_STATUS move_to(struct open_file *it, const char *path)
{
    const char *old_name, *new_name;
    int from = folder_above(it->folder, it->path, &old_name);
    int to = folder_above(it->folder, path, &new_name);
    EFI_STATUS status = EFI_SUCCESS;

    if (from < 0 || to < 0)
        status = folder_status();
    else if (!is_in_place(it, from, old_name) || folder_mode(it->folder, path) != 0)
        status = EFI_ACCESS_DENIED;
    else if (renameat(from, old_name, to, new_name) != 0)
        status = folder_status();
    if (from >= 0)
        close(from);
    if (to >= 0)
        close(to);
    if (status == EFI_SUCCESS)
        strcpy(it->path, path);
    return status;
}

/* Sets a file's size. */
static EFI_STATUS resize(const struct open_file *it, uint64_t size)
{
    struct stat about;

    if (it->list != NULL || (fstat(it->file, &about) == 0 && (uint64_t)about.st_size == size))
        return EFI_SUCCESS;
    if (!it->writes)
        return EFI_ACCESS_DENIED;
    if (size > INT64_MAX)
        return EFI_VOLUME_FULL;
    return ftruncate(it->file, (off_t)size) == 0 ? EFI_SUCCESS : folder_status();
}

/* Whether a text ends within its bytes. */
static bool ends_within(const CHAR16 *text, UINTN size)
{
    for (UINTN i = 0; i < size / sizeof *text; i++)
        if (text[i] == 0)
            return true;
    return false;
}

/* Sets a file's size and its name, and nothing else. */
static EFI_STATUS EFIAPI set_info(EFI_FILE_PROTOCOL *this, const EFI_GUID *kind, UINTN size,
                                  const void *from)
{
    SERVICE("File.SetInfo", NUMBER(this), NUMBER(kind), size, NUMBER(from));
    struct open_file *it = file_of(this, USE_AFTER_FREE);
    const EFI_FILE_INFO *info = from;
    char above[FOLDER_PATH], path[FOLDER_PATH];
    EFI_STATUS status;

    if (it == NULL)
        ANSWER(EFI_INVALID_PARAMETER);
    if (kind == NULL || from == NULL || !guid_equal(kind, &file_info_guid))
        ANSWER(EFI_UNSUPPORTED);
    if (size < sizeof *info || !ends_within(info->FileName, size - sizeof *info))
        ANSWER(EFI_BAD_BUFFER_SIZE);
    if (it->folder->read_only)
        ANSWER(EFI_WRITE_PROTECTED);
    path_above(it, above);
    status = *it->path == 0 ? EFI_SUCCESS : folder_resolve(it->folder, above, info->FileName, path);
    if (status == EFI_SUCCESS)
        status = resize(it, info->FileSize);
    if (status != EFI_SUCCESS || *it->path == 0 || strcmp(path, it->path) == 0)
        ANSWER(status);
    ANSWER(it->writes && *path != 0 ? move_to(it, path) : EFI_ACCESS_DENIED);
}

static EFI_STATUS EFIAPI flush_this(EFI_FILE_PROTOCOL *this)
{
    SERVICE("File.Flush", NUMBER(this));
    struct open_file *it = file_of(this, USE_AFTER_FREE);

    if (it == NULL)
        ANSWER(EFI_INVALID_PARAMETER);
    ANSWER(it->list != NULL || fsync(it->file) == 0 ? EFI_SUCCESS : EFI_DEVICE_ERROR);
}

static const EFI_FILE_PROTOCOL functions = {
    0x10000,      open_below,   close_this, delete_this, read_this, write_this,
    get_position, set_position, get_info,   set_info,    flush_this};

/* Opens a file or folder at a path below the root; pipes and devices are not even tried. */
EFI_STATUS folder_open(const struct folder *folder, const char *path, int flags,
                       EFI_FILE_PROTOCOL **made)
{
    mode_t mode = folder_mode(folder, path);
    struct open_file *it = NULL;
    DIR *list = NULL;
    struct stat about;
    int file;

    if (mode != 0 && !S_ISDIR(mode) && !S_ISREG(mode))
        return EFI_ACCESS_DENIED;
    file = folder_descriptor(folder, path, (S_ISDIR(mode) ? O_RDONLY : flags) | O_NONBLOCK);
    if (file < 0 || fstat(file, &about) != 0)
        return folder_status();
    if (!S_ISDIR(about.st_mode) && !S_ISREG(about.st_mode)) {
        close(file);
        return EFI_ACCESS_DENIED;
    }
    if (S_ISDIR(about.st_mode))
        list = fdopendir(file);
    if (list != NULL || !S_ISDIR(about.st_mode))
        it = new_file(&functions);
    if (it == NULL) {
        list == NULL ? close(file) : closedir(list);
        return EFI_OUT_OF_RESOURCES;
    }
    set_structure(it->shown, &functions, sizeof functions);
    it->open = true;
    it->position = 0;
    it->folder = folder;
    it->file = file;
    it->writes = (flags & O_RDWR) != 0;
    it->list = list;
    strcpy(it->path, path);
    *made = it->shown;
    return EFI_SUCCESS;
}
