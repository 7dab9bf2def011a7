/* What the two files of the variables share. */
#ifndef EFIHOST_VARIABLES_H
#define EFIHOST_VARIABLES_H

#include "host.h"

#define MAX_NAME_LENGTH 512U
#define MAX_VALUE_SIZE 65536U
#define VARIABLE_ROOM 1048576U /* of those that are volatile, and of the others */
#define VARIABLE_OVERHEAD 64U

struct variable {
    CHAR16 name[MAX_NAME_LENGTH];
    EFI_GUID guid;
    uint32_t attributes;
    size_t size;
    uint8_t *value;
    struct variable *next;
};

/* The link to a variable of a list, or the one at the list's end. */
struct variable **variable_link(struct variable **first, const CHAR16 *name, const EFI_GUID *guid);
/* What is left of the room for variables with the same NON_VOLATILE. */
size_t variable_room(const struct variable *first, uint32_t attributes);
/* What a variable takes of that room. */
size_t variable_cost(const struct variable *it);
void free_variable(struct variable *it);

/* Adds the variables of a text to a list, and returns 0, or the number of the first bad line. */
size_t read_variables(const char *text, size_t length, struct variable **first);
/* The text of those that are kept, which is the caller's to free. */
char *variables_text(const struct variable *first, size_t *length);
/* Writes the file of --variables, if there is one; false where that fails. */
bool save_variables(const struct variable *first);
/* Opens the file; and reads it, by what is open. */
void open_store(const char *name);
void load_store(struct variable **first);

#endif
