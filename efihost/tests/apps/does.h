/* An application that does what its first argument names. */
#ifndef EFIHOST_DOES_H
#define EFIHOST_DOES_H

#include "loader.h"

struct deed {
    const char *name;
    EFI_STATUS (*does)(void);
};

static inline bool is_word(const CHAR16 *at, const char *word)
{
    while (*word != 0 && *at == (CHAR16)*word)
        at++, word++;
    return *word == 0 && (*at == 0 || *at == ' ');
}

/* The words after the application's own name. */
static inline const CHAR16 *words(void)
{
    static const CHAR16 none[] = {0};
    EFI_LOADED_IMAGE_PROTOCOL *loaded = NULL;
    const CHAR16 *at;

    if (boot->HandleProtocol(self, &loaded_guid, (void **)&loaded) != EFI_SUCCESS)
        return none;
    for (at = loaded->LoadOptions; *at != 0 && *at != ' '; at++)
        ;
    return *at == ' ' ? at + 1 : none;
}

/* With `after` before the name, boot services end first. */
static inline EFI_STATUS do_deed(const struct deed *deeds, UINTN count)
{
    const CHAR16 *at = words();
    UINTN key;

    if (is_word(at, "after")) {
        at += 6;
        MUST(get_key(&key));
        MUST(boot->ExitBootServices(self, key));
    }
    for (UINTN i = 0; i < count; i++)
        if (is_word(at, deeds[i].name))
            return deeds[i].does();
    return EFI_NOT_FOUND;
}

#define DO_DEED(deeds) do_deed(deeds, sizeof deeds / sizeof *deeds)

#endif
