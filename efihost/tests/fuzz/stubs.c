/* The host around the readers, for targets that need some of it. */
#include "fuzz.h"
#include "host.h"

struct host host;
jmp_buf refused;

void refuse(const char *format, ...)
{
    (void)format;
    longjmp(refused, 1);
}
