/* Keys: a script, or what a terminal sends, if the first byte is odd. */
#include "fuzz.h"

#include <poll.h>
#include <unistd.h>

static const uint8_t *input;
static size_t input_size;

/* What is read is the input, some bytes at a time. */
static ssize_t read_input(int file, void *to, size_t most)
{
    size_t count = most < 7 ? most : 7;

    (void)file;
    count = count < input_size ? count : input_size;
    memcpy(to, input, count);
    input += count;
    input_size -= count;
    return (ssize_t)count;
}

static int poll_input(struct pollfd *list, nfds_t count, int wait)
{
    (void)list;
    (void)wait;
    return (int)count;
}

#define read read_input
#define poll poll_input
#include "../../src/keys.c"

static uint64_t now;

uint64_t now_100ns(void)
{
    return now += 1ULL << 40;
}

bool terminal_out(void)
{
    return false;
}

static void start(const uint8_t *data, size_t size)
{
    input = data;
    input_size = size;
    over = has_come = false;
    waiting_count = text.used = text.count = special_key = 0;
    wait_until = now = 0;
}

int LLVMFuzzerTestOneInput(const uint8_t *data, size_t size)
{
    EFI_INPUT_KEY key;
    bool notified;

    if (size == 0)
        return 0;
    terminal = (data[0] & 1) != 0;
    notified = (data[0] & 2) != 0;
    start(data + 1, size - 1);
    if (setjmp(refused) != 0)
        return 0;
    for (size_t i = 0; i < 4 * size && !keys_are_over(); i++) {
        if (notified)
            key_comes(&key);
        next_key(&key);
        demand(waiting_count <= sizeof waiting);
    }
    return 0;
}
