/* Uses instructions that a process may not carry out. */
#include "app.h"

static EFI_STATUS application(void)
{
    uint64_t control;
    uint8_t port;

    __asm__ volatile("cli; sti");
    __asm__ volatile("mov %%cr3, %0" : "=r"(control));
    __asm__ volatile("inb $0x64, %0" : "=a"(port));
    return control == 0 || port != 0xff ? EFI_ABORTED : EFI_SUCCESS;
}
