/* Variables; those that are non-volatile are in the file of --variables. */
#include "variables.h"

#include <stdlib.h>
#include <string.h>

#define ACCESS (EFI_VARIABLE_BOOTSERVICE_ACCESS | EFI_VARIABLE_RUNTIME_ACCESS)
#define OF_RUNTIME (EFI_VARIABLE_RUNTIME_ACCESS | EFI_VARIABLE_NON_VOLATILE)
#define OF_ERRORS                                                                                 \
    (EFI_VARIABLE_NON_VOLATILE | ACCESS | EFI_VARIABLE_HARDWARE_ERROR_RECORD)
#define KNOWN (OF_ERRORS | EFI_VARIABLE_APPEND_WRITE)

static struct variable *first;

void open_variables(const char *file)
{
    if (file != NULL)
        open_store(file);
}

void load_variables(void)
{
    if (host.options.variables != NULL)
        load_store(&first);
}

/* Once boot services have ended, variables without runtime access are not there. */
static bool is_seen(const struct variable *it)
{
    return it != NULL && (!host.exited || (it->attributes & EFI_VARIABLE_RUNTIME_ACCESS) != 0);
}

static EFI_STATUS EFIAPI GetVariable(const CHAR16 *name, const EFI_GUID *guid,
                                     uint32_t *attributes, UINTN *size, void *value)
{
    RUNTIME_SERVICE("GetVariable", NUMBER(name), NUMBER(guid), NUMBER(value));
    struct variable *it;

    if (name == NULL || guid == NULL || size == NULL)
        ANSWER(EFI_INVALID_PARAMETER);
    it = *variable_link(&first, name, guid);
    if (!is_seen(it))
        ANSWER(EFI_NOT_FOUND);
    if (attributes != NULL)
        *attributes = it->attributes;
    if (*size < it->size) {
        *size = it->size;
        ANSWER(EFI_BUFFER_TOO_SMALL);
    }
    if (value == NULL && it->size != 0)
        ANSWER(EFI_INVALID_PARAMETER);
    *size = it->size;
    touch(value, it->size, true);
    if (it->size != 0)
        memcpy(value, it->value, it->size);
    ANSWER(EFI_SUCCESS);
}

/* Whether SetVariable takes these attributes. There is nothing that signatures could be checked
 * with, so variables that need one are refused. */
static EFI_STATUS attributes_status(uint32_t attributes)
{
    if ((attributes & EFI_VARIABLE_AUTHENTICATED_WRITE_ACCESS) != 0)
        return EFI_UNSUPPORTED;
    if ((attributes & ~KNOWN) != 0 || (attributes & ACCESS) == EFI_VARIABLE_RUNTIME_ACCESS)
        return EFI_INVALID_PARAMETER;
    if ((attributes & EFI_VARIABLE_HARDWARE_ERROR_RECORD) != 0 &&
        (attributes & OF_ERRORS) != OF_ERRORS)
        return EFI_INVALID_PARAMETER;
    return EFI_SUCCESS;
}

/* Once boot services have ended, only what is both non-volatile and for then can be changed. */
static EFI_STATUS runtime_status(const struct variable *old, uint32_t attributes)
{
    if (!host.exited)
        return EFI_SUCCESS;
    if (old != NULL)
        return (old->attributes & OF_RUNTIME) == OF_RUNTIME ? EFI_SUCCESS : EFI_WRITE_PROTECTED;
    return (attributes & OF_RUNTIME) == OF_RUNTIME ? EFI_SUCCESS : EFI_INVALID_PARAMETER;
}

/* A variable of this name with the value, after the old one if it appends; or NULL. */
static struct variable *made_variable(const CHAR16 *name, const EFI_GUID *guid,
                                      const struct variable *old, UINTN size, const void *value)
{
    size_t before = old == NULL ? 0 : old->size;
    struct variable *it = calloc(1, sizeof *it);

    if (it == NULL || (it->value = malloc(before + size + 1)) == NULL) {
        free_variable(it);
        return NULL;
    }
    memcpy(it->name, name, 2 * wide_length(name));
    it->guid = *guid;
    it->size = before + size;
    if (before != 0)
        memcpy(it->value, old->value, before);
    if (size != 0)
        memcpy(it->value + before, value, size);
    return it;
}

/* Puts a variable, or nothing, in the place of another, or of nothing, and saves that. Where it
 * can't be saved all is as it was. */
static EFI_STATUS replace(struct variable **link, struct variable *it)
{
    struct variable *old = *link;
    uint32_t kept = (old == NULL ? 0 : old->attributes) | (it == NULL ? 0 : it->attributes);

    if (it != NULL)
        it->next = old == NULL ? NULL : old->next;
    *link = it != NULL ? it : old->next;
    if ((kept & EFI_VARIABLE_NON_VOLATILE) != 0 && !save_variables(first)) {
        *link = old;
        free_variable(it);
        return EFI_DEVICE_ERROR;
    }
    free_variable(old);
    return EFI_SUCCESS;
}

/* Puts a variable where there is room for it; one that has its value already stays. */
static EFI_STATUS put_variable(struct variable **link, struct variable *it)
{
    const struct variable *old = *link;
    size_t room = variable_room(first, it->attributes) + (old == NULL ? 0 : variable_cost(old));
    EFI_STATUS status = EFI_SUCCESS;

    if (it->size > MAX_VALUE_SIZE || variable_cost(it) > room)
        status = EFI_OUT_OF_RESOURCES;
    else if (old == NULL || old->size != it->size || memcmp(old->value, it->value, it->size) != 0)
        return replace(link, it);
    free_variable(it);
    return status;
}

static EFI_STATUS set_variable(const CHAR16 *name, const EFI_GUID *guid, uint32_t attributes,
                               UINTN size, const void *value)
{
    struct variable **link = variable_link(&first, name, guid), *old = *link, *it;
    bool appends = (attributes & EFI_VARIABLE_APPEND_WRITE) != 0;
    bool deletes = (size == 0 && !appends) || (attributes & ACCESS) == 0;
    EFI_STATUS status = runtime_status(old, attributes);

    attributes &= ~EFI_VARIABLE_APPEND_WRITE;
    if (deletes && old == NULL)
        return EFI_NOT_FOUND;
    if (status != EFI_SUCCESS)
        return status;
    if (old != NULL && (attributes & ACCESS) != 0 && old->attributes != attributes)
        return EFI_INVALID_PARAMETER;
    if (deletes)
        return replace(link, NULL);
    if (size == 0)
        return EFI_SUCCESS;
    if (size > MAX_VALUE_SIZE)
        return EFI_OUT_OF_RESOURCES;
    it = made_variable(name, guid, appends ? old : NULL, size, value);
    if (it == NULL)
        return EFI_OUT_OF_RESOURCES;
    it->attributes = attributes;
    return put_variable(link, it);
}

static EFI_STATUS EFIAPI SetVariable(const CHAR16 *name, const EFI_GUID *guid, uint32_t attributes,
                                     UINTN size, const void *value)
{
    RUNTIME_SERVICE("SetVariable", NUMBER(name), NUMBER(guid), attributes, size);
    EFI_STATUS status;

    if (name == NULL || *name == 0 || guid == NULL || (value == NULL && size != 0) ||
        wide_length(name) >= MAX_NAME_LENGTH)
        ANSWER(EFI_INVALID_PARAMETER);
    touch(value, size <= MAX_VALUE_SIZE ? size : 0, false);
    status = attributes_status(attributes);
    if (status == EFI_SUCCESS)
        status = set_variable(name, guid, attributes, size, value);
    ANSWER(status);
}

static bool ends_within(const CHAR16 *name, UINTN size)
{
    for (UINTN i = 0; i < size / sizeof *name; i++)
        if (name[i] == 0)
            return true;
    return false;
}

static EFI_STATUS EFIAPI GetNextVariableName(UINTN *size, CHAR16 *name, EFI_GUID *guid)
{
    RUNTIME_SERVICE("GetNextVariableName", NUMBER(size), NUMBER(name), NUMBER(guid));
    struct variable *it = first;
    size_t needed;

    if (size == NULL || name == NULL || guid == NULL || !ends_within(name, *size))
        ANSWER(EFI_INVALID_PARAMETER);
    if (*name != 0) {
        it = *variable_link(&first, name, guid);
        if (!is_seen(it))
            ANSWER(EFI_INVALID_PARAMETER);
        it = it->next;
    }
    while (it != NULL && !is_seen(it))
        it = it->next;
    if (it == NULL)
        ANSWER(EFI_NOT_FOUND);
    needed = 2 * (wide_length(it->name) + 1);
    if (*size < needed) {
        *size = needed;
        ANSWER(EFI_BUFFER_TOO_SMALL);
    }
    *size = needed;
    touch(name, needed, true);
    memcpy(name, it->name, needed);
    *guid = it->guid;
    ANSWER(EFI_SUCCESS);
}

static EFI_STATUS EFIAPI QueryVariableInfo(uint32_t attributes, uint64_t *most, uint64_t *left,
                                           uint64_t *largest)
{
    RUNTIME_SERVICE("QueryVariableInfo", attributes);

    if (most == NULL || left == NULL || largest == NULL || (attributes & ACCESS) == 0 ||
        (attributes & ACCESS) == EFI_VARIABLE_RUNTIME_ACCESS)
        ANSWER(EFI_INVALID_PARAMETER);
    if ((attributes & ~KNOWN) != 0)
        ANSWER(EFI_UNSUPPORTED);
    *most = VARIABLE_ROOM;
    *left = variable_room(first, attributes);
    *largest = *left < VARIABLE_OVERHEAD ? 0 : *left - VARIABLE_OVERHEAD;
    if (*largest > MAX_VALUE_SIZE)
        *largest = MAX_VALUE_SIZE;
    ANSWER(EFI_SUCCESS);
}

void fill_variable_services(EFI_RUNTIME_SERVICES *runtime)
{
    runtime->GetVariable = GetVariable;
    runtime->SetVariable = SetVariable;
    runtime->GetNextVariableName = GetNextVariableName;
    runtime->QueryVariableInfo = QueryVariableInfo;
}
