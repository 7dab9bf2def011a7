/* Replays a trace through the library, and prints the replies as the program `bootcore` prints
 * them:
 *
 *     replay [run] --machine FILE --trace FILE [--certify] [--save-trace FILE]
 *     replay check
 *
 * With `--save-trace` the lines that the library makes of the calls are written to a file, one
 * after each call; a line that asks for none is empty there.
 * `check` judges a certificate block from standard input. The status at the end is the program's
 * own: 0, 1 after a fault, 2 for a wrong command line, 3 for a block that is refused. A fault's
 * line begins with `replay: ` here. */
#include "call_lines.h"
#include "calls.h"
#include "fault.h"
#include "machine.h"
#include "replies.h"

#include <stdlib.h>
#include <string.h>

#define MAX_LINES 1000000

/* The most bytes that are read of a block at a time. */
#define PIECE 65536

static void usage(void)
{
    fputs("usage: replay [run] --machine FILE --trace FILE [--certify] [--save-trace FILE]\n"
          "       replay check\n",
          stderr);
    exit(2);
}

/* Writes the line that the library makes of a call, an empty one where there is none. */
static void save_line(FILE *saved, const struct run *run, const struct call *call)
{
    struct text line = {0};

    if (saved == NULL)
        return;
    if (call != NULL)
        call_line_append(&line, run->core, call);
    else
        text_print(&line, "\n");
    text_write(&line, saved);
    text_free(&line);
}

/* Makes the calls of a trace; the replies to a line are written before the next is read. */
static void run_trace(struct run *run, FILE *trace, FILE *saved)
{
    static struct line line;
    struct call call;
    uint64_t number = 0;

    while (number < MAX_LINES && line_read(&line, trace)) {
        number++;
        if (!call_read(&call, &line, number)) {
            save_line(saved, run, NULL);
            continue;
        }
        run_call(run, &call, number);
        text_write(&run->text, stdout);
        save_line(saved, run, &call);
    }
    if (number == MAX_LINES && getc(trace) != EOF)
        fail("trace: too many lines");
    if (ferror(trace))
        fail("cannot read trace");
}

static FILE *open_file(const char *path, const char *what)
{
    FILE *file = fopen(path, "rb");

    if (file == NULL)
        fail("cannot read %s", what);
    return file;
}

static void run_files(const char *machine_path, const char *trace_path, const char *saved_path,
                      bool certify)
{
    FILE *machine_file = open_file(machine_path, "machine");
    FILE *trace = open_file(trace_path, "trace");
    FILE *saved = NULL;
    struct machine machine = machine_read(machine_file);
    struct run run = {.core = machine_core(&machine), .certify = certify};

    fclose(machine_file);
    machine_free(&machine);
    RafkudinCertify(run.core, certify);
    RafkudinRecord(run.core, true);
    if (saved_path != NULL) {
        saved = fopen(saved_path, "wb");
        if (saved == NULL)
            fail("cannot write the saved trace");
    }
    run_trace(&run, trace, saved);
    if (saved != NULL)
        fclose(saved);
    fclose(trace);
    text_free(&run.text);
    RafkudinFree(run.core);
}

/* Judges the block on standard input, and answers the status to end with. */
static int check_block(void)
{
    static char piece[PIECE];
    struct text block = {0};
    uint64_t line = 0, status;
    size_t taken;

    while ((taken = fread(piece, 1, sizeof piece, stdin)) != 0)
        text_append(&block, piece, taken);
    if (ferror(stdin))
        fail("cannot read block");
    status = RafkudinCheck((const uint8_t *)(block.length != 0 ? block.bytes : piece), block.length,
                           &line);
    text_free(&block);
    if (status == RAFKUDIN_INVALID_PARAMETER)
        fail("block: line %llu", (unsigned long long)line);
    if (status != RAFKUDIN_SUCCESS && status != RAFKUDIN_ACCESS_DENIED)
        fail("out of memory");
    if (puts(status == RAFKUDIN_SUCCESS ? "accepted" : "refused") == EOF || fflush(stdout) != 0)
        fail("cannot write");
    return status == RAFKUDIN_SUCCESS ? 0 : 3;
}

/* The argument of an option, which may be given once. */
static void take_option(const char **value, const char *argument)
{
    if (*value != NULL || argument == NULL)
        usage();
    *value = argument;
}

int main(int count, char **words)
{
    const char *machine = NULL, *trace = NULL, *saved = NULL;
    bool certify = false;
    int at = 1;

    fault_program = "replay";
    if (count == 2 && strcmp(words[1], "check") == 0)
        return check_block();
    if (count > 1 && strcmp(words[1], "run") == 0)
        at++;
    for (; at < count; at++) {
        if (strcmp(words[at], "--machine") == 0)
            take_option(&machine, words[++at]);
        else if (strcmp(words[at], "--trace") == 0)
            take_option(&trace, words[++at]);
        else if (strcmp(words[at], "--save-trace") == 0)
            take_option(&saved, words[++at]);
        else if (strcmp(words[at], "--certify") == 0 && !certify)
            certify = true;
        else
            usage();
    }
    if (machine == NULL || trace == NULL)
        usage();
    run_files(machine, trace, saved, certify);
    return 0;
}
