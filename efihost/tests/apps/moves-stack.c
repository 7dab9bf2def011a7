/* Functions that move the stack pointer between their calls, with words on the stack that look like a
 * return address of another's, or that go on to another by a jump; and one that calls itself often.
 * Each way a function is called that writes past the end of a block. */
#include "app.h"

#define ALONE __attribute__((noinline))

void by_moves(void);
void by_jump(void);

ALONE void nothing(void)
{
    __asm__ volatile("");
}

ALONE void harm(void)
{
    uint8_t *block = NULL;

    boot->AllocatePool(4, 40, (void **)&block);
    block[40] = 1;
    boot->FreePool(block);
}

__asm__(".text\n"
        ".globl by_moves, by_jump, other\n"
        "other: subq $0x28, %rsp\n"
        "callq nothing\n"
        "behind: addq $0x28, %rsp\n"
        "retq\n"
        "by_moves: pushq %rbx\n"
        "leaq behind(%rip), %rbx\n"
        "pushq %rbx\n"
        "pushq %rbx\n"
        "subq $0x20, %rsp\n"
        "callq nothing\n"
        "addq $0x20, %rsp\n"
        "jmp 2f\n"
        "1: addq $0x10, %rsp\n"
        "popq %rbx\n"
        "retq\n"
        "2: subq $0x40, %rsp\n"
        "callq harm\n"
        "addq $0x40, %rsp\n"
        "jmp 1b\n"
        "by_jump: subq $0x28, %rsp\n"
        "callq harm\n"
        "addq $0x28, %rsp\n"
        "jmp by_moves\n");

ALONE static void deep(unsigned more)
{
    if (more == 0)
        harm();
    else
        deep(more - 1);
    __asm__ volatile("");
}

ALONE static EFI_STATUS application(void)
{
    by_moves();
    by_jump();
    for (unsigned i = 0; i < 2; i++)
        deep(300);
    return EFI_SUCCESS;
}
