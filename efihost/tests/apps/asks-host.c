/* Asks the host's system for what the process has given up: a socket, and a file of others. */
#include "app.h"

#define SOCKET 41
#define OPENAT 257
#define HERE (-100)

static int64_t ask(int64_t number, int64_t one, const void *two, int64_t three)
{
    int64_t result;

    __asm__ volatile("syscall"
                     : "=a"(result)
                     : "a"(number), "D"(one), "S"(two), "d"(three), "r"((int64_t)0)
                     : "rcx", "r11", "memory");
    return result;
}

static EFI_STATUS application(void)
{
    if (ask(SOCKET, 2, (const void *)1, 0) != -1)
        return EFI_ABORTED;
    print(ask(OPENAT, HERE, "/etc/passwd", 0) < 0 ? "closed\r\n" : "open\r\n");
    return EFI_SUCCESS;
}
