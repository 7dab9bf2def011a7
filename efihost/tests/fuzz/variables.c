/* The file of --variables: what is read is written as it was read. */
#include "fuzz.h"

#include "../../src/variable_store.c"

static void free_all(struct variable *first)
{
    while (first != NULL) {
        struct variable *next = first->next;

        free_variable(first);
        first = next;
    }
}

int LLVMFuzzerTestOneInput(const uint8_t *data, size_t size)
{
    struct variable *first = NULL, *again = NULL;
    size_t length, other_length, inner;
    char *text, *other;

    is_whole((const char *)data, size, &inner);
    if (read_variables((const char *)data, size, &first) == 0) {
        text = variables_text(first, &length);
        demand(read_variables(text, length, &again) == 0);
        other = variables_text(again, &other_length);
        demand(length == other_length && memcmp(text, other, length) == 0);
        demand(length <= size);
        free(text);
        free(other);
    }
    free_all(first);
    free_all(again);
    return 0;
}
