/* The command line. */
#include "host.h"

#include <errno.h>
#include <stdarg.h>
#include <stdlib.h>
#include <string.h>
#include <unistd.h>

static const char usage[] =
    "usage: efihost [OPTION]... APP.efi [ARGUMENT]...\n"
    "Runs a UEFI application for x86-64 in a process, over the proved core of Rafkudin.\n"
    "\n"
    "  --machine FILE    the machine's memory map, a machine file of bootcore; else 256 MB\n"
    "  --disk FILE       an image as a block device\n"
    "  --disk FOLDER     a folder as a file system\n"
    "  --disk-read-only FILE|FOLDER\n"
    "                    the same, which nothing is written to\n"
    "  --snapshot        what is written to a --disk FILE goes to memory and is lost at the end; a\n"
    "                    folder is read-only\n"
    "  --firmware FILE   the firmware volumes of a firmware: its drivers and applications may be\n"
    "                    named instead of files\n"
    "  --driver FILE     a driver's .efi, started before the application; drivers are then\n"
    "                    connected to all handles\n"
    "  --variables FILE  where non-volatile variables are kept; FILE.efihost is beside it\n"
    "  --input FILE      keys: text, its lines ended by Enter, and <<esc>>, <<up>>, <<down>>,\n"
    "                    <<left>>, <<right>>, <<home>>, <<end>>, <<insert>>, <<delete>>,\n"
    "                    <<pageup>>, <<pagedown>>, <<f1>> to <<f12>>, <<wait SECONDS>>;\n"
    "                    else keys come from standard input\n"
    "  --picture FILE    a graphics output; its picture is saved as PNG at the end and on SIGUSR1\n"
    "  --screen FILE     the console's text, saved as SVG at the end and on SIGUSR1\n"
    "  --serial FILE     a serial port; what is written to it goes to FILE\n"
    "  --serial-input FILE\n"
    "                    what is read from the serial port\n"
    "  --plain           plain text also on a terminal\n"
    "  --quiet           no text of the console\n"
    "\n"
    "  --check           reports misuse of memory and services, and what is left at the end\n"
    "  --guard           the same, and stops at the first access to memory that is not its own, at\n"
    "                    that instruction\n"
    "  --require-nx      execution of data is found in every image, not only in those with NX_COMPAT;\n"
    "                    with --check or --guard\n"
    "  --quarantine BYTES\n"
    "                    freed pool blocks of so many bytes are held back from use; 0 is none;\n"
    "                    without the option it is 16777216\n"
    "  --json FILE       the report for programs\n"
    "  --calls FILE      the services that were called, a line each\n"
    "  --trace FILE      the calls of the core for `bootcore run --trace FILE --machine\n"
    "                    FILE.machine.json`, which prints what is in FILE.replies\n"
    "  --certify         checks the certificate of each placement when it is made; FILE.replies has\n"
    "                    them, as `bootcore run --certify` prints them\n"
    "  --strict          a privileged instruction ends the run\n"
    "  --time SECONDS    ends the run then; 0 is never; without the option it is 60, or never where\n"
    "                    keys come from a terminal\n"
    "  --rights          the process keeps the rights that it has; without it efihost starts no\n"
    "                    image if the system has no Landlock or no seccomp\n"
    "  --help, --version\n"
    "\n"
    "Exit status: 0 the application ended with success; 1 with an error; 2 it was never run;\n"
    "3 --check or --guard found something; 4 it crashed; 5 its time or its input ran out.\n";

#define UNSET UINT32_MAX
#define MAX_SECONDS 1000000000UL
#define QUARANTINE (16ULL << 20)

/* Ends a run that can't begin, or that can't go on since the host lacks something for it. */
void refuse(const char *format, ...)
{
    char why[1024];
    va_list words;

    va_start(words, format);
    vsnprintf(why, sizeof why, format, words);
    va_end(words);
    restore_terminal();
    fflush(stdout);
    fprintf(stderr, "efihost: %s\n", why);
    write_report(ENDED_NEVER_RAN, why);
    exit(ENDED_NEVER_RAN);
}

static void print_version(void)
{
    uint32_t version = RafkudinVersion();

    printf("efihost %u.%u.%u\n", version >> 16, version >> 8 & 0xff, version & 0xff);
    exit(0);
}

/* An option without a value. */
static bool read_flag(const char *word, struct options *options)
{
    struct {
        const char *word;
        bool *flag;
    } const flags[] = {
        {"--check", &options->check},     {"--guard", &options->guard},
        {"--strict", &options->strict},   {"--quiet", &options->quiet},
        {"--plain", &options->plain},     {"--certify", &options->certify},
        {"--rights", &options->rights},   {"--snapshot", &options->snapshot},
        {"--require-nx", &options->require_nx},
    };

    for (size_t i = 0; i < LENGTH(flags); i++)
        if (strcmp(word, flags[i].word) == 0)
            return *flags[i].flag = true;
    if (strcmp(word, "--version") == 0)
        print_version();
    if (strcmp(word, "--help") == 0) {
        fputs(usage, stdout);
        exit(0);
    }
    return false;
}

static void add_to(const char **list, size_t *count, size_t most, const char *value)
{
    if (*count == most)
        refuse("too many of %s", value);
    list[(*count)++] = value;
}

/* A number of an option, of at most `most`. */
static uint64_t read_number(const char *word, const char *value, const char *what, uint64_t most)
{
    uint64_t number;
    char *end;

    errno = 0;
    number = strtoull(value, &end, 10);
    if (*value < '0' || *value > '9' || *end != 0 || errno != 0 || number > most)
        refuse("%s: %s is no number of %s", word, value, what);
    return number;
}

/* An option with a value. */
static bool read_value(const char *word, const char *value, struct options *options)
{
    struct {
        const char *word;
        const char **value;
    } const values[] = {
        {"--machine", &options->machine},     {"--trace", &options->trace},
        {"--input", &options->input},         {"--variables", &options->variables},
        {"--json", &options->json},           {"--calls", &options->calls},
        {"--picture", &options->picture},     {"--serial", &options->serial},
        {"--screen", &options->screen},       {"--firmware", &options->firmware},
        {"--serial-input", &options->serial_input},
    };

    for (size_t i = 0; i < LENGTH(values); i++)
        if (strcmp(word, values[i].word) == 0) {
            *values[i].value = value;
            return true;
        }
    if (strcmp(word, "--disk") == 0 || strcmp(word, "--disk-read-only") == 0) {
        add_to(options->disks, &options->disk_count, MAX_DISKS, value);
        options->disk_read_only[options->disk_count - 1] = word[strlen("--disk")] != 0;
    } else if (strcmp(word, "--driver") == 0) {
        add_to(options->drivers, &options->driver_count, MAX_DRIVERS, value);
    } else if (strcmp(word, "--time") == 0) {
        options->seconds = (unsigned)read_number(word, value, "seconds", MAX_SECONDS);
    } else if (strcmp(word, "--quarantine") == 0) {
        options->quarantine = read_number(word, value, "bytes", UINT64_MAX);
    } else {
        return false;
    }
    return true;
}

/* Reads an option that has a value, which is the next word or follows a `=`. The number of words. */
static int read_valued(char **words, struct options *options)
{
    char *value = strchr(words[0], '='), *next = words[1];

    if (value != NULL) {
        *value = 0;
        if (read_value(words[0], value + 1, options))
            return 1;
    } else if (next != NULL && read_value(words[0], next, options)) {
        return 2;
    } else if (next == NULL && read_value(words[0], "0", options)) {
        refuse("%s needs a value; efihost --help lists the options", words[0]);
    }
    refuse("%s is no option; efihost --help lists them", words[0]);
}

/* Reads the options up to the application; all behind it are its own arguments. */
void read_options(int count, char **words, struct options *options)
{
    int i = 1;

    options->seconds = UNSET;
    options->quarantine = QUARANTINE;
    while (i < count && words[i][0] == '-' && strcmp(words[i], "--") != 0)
        i += read_flag(words[i], options) ? 1 : read_valued(words + i, options);
    if (i < count && strcmp(words[i], "--") == 0)
        i++;
    if (options->require_nx && !options->check && !options->guard)
        refuse("--require-nx needs --check or --guard");
    if (i == count) {
        fputs(usage, stderr);
        exit(ENDED_NEVER_RAN);
    }
    if (options->seconds == UNSET)
        options->seconds = options->input == NULL && isatty(STDIN_FILENO) ? 0 : 60;
    options->application = words[i++];
    for (; i < count; i++)
        add_to(options->arguments, &options->argument_count, MAX_ARGUMENTS, words[i]);
}
