/* The end of a run: what is said on standard error, and the report for programs. */
#include "host.h"

#include <stdarg.h>
#include <stdlib.h>
#include <string.h>
#include <unistd.h>

static FILE *json;

void open_report(const char *file)
{
    if (file == NULL)
        return;
    json = fopen(file, "w");
    if (json == NULL)
        refuse("cannot write %s", file);
}

void save_pictures(void)
{
    save_picture();
    save_screen();
}

static const char *ending_name(enum ending ending)
{
    static const char *const names[] = {"success", "error", "never-ran",
                                        "findings", "fault", "limit"};

    return names[ending];
}

void write_report(enum ending ending, const char *why)
{
    if (json == NULL)
        return;
    fprintf(json, "{\n  \"ending\": \"%s\",\n  \"status\": %d,\n  \"why\": ",
            ending_name(ending), (int)ending);
    write_text(json, why);
    fprintf(json, ",\n  \"calls\": %lu,\n", host.calls);
    write_left(json);
    write_findings(json);
    fprintf(json, "}\n");
    fclose(json);
    json = NULL;
}

static void print_report(enum ending ending, const char *why)
{
    fprintf(stderr, "efihost: %s\n", why);
    if (ending == ENDED_BY_FAULT)
        print_last_calls(stderr);
    if (missing_count() > 0) {
        fprintf(stderr, "efihost: asked for and not there:");
        for (size_t i = 0; i < missing_count(); i++)
            fprintf(stderr, "%s %s", i == 0 ? "" : ",", missing_name(i));
        fputc('\n', stderr);
    }
    print_passed_over(stderr);
    print_left(stderr);
    if (host.checks)
        fprintf(stderr, "efihost: %zu finding%s in %lu calls of services\n", findings_count(),
                findings_count() == 1 ? "" : "s", host.calls);
}

/* Ends the run: its status is that of findings where there are any and no fault came. */
void finish(enum ending ending, const char *format, ...)
{
    char why[1024];
    va_list words;

    if (host.ending)
        _exit(ending);
    host.ending = true;
    va_start(words, format);
    vsnprintf(why, sizeof why, format, words);
    va_end(words);
    fflush(stdout);
    restore_terminal();
    if (!host.options.guard)
        zone_look_at_all("at the end");
    if (findings_count() > 0 && ending != ENDED_BY_FAULT)
        ending = ENDED_WITH_FINDINGS;
    print_report(ending, why);
    write_report(ending, why);
    close_trace();
    close_calls_log();
    save_pictures();
    fflush(NULL);
    _exit(ending);
}
