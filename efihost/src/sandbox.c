/* What the process may do. It gives up rights twice. Before it reads anything, it keeps only the
 * files that the command line names, the folders of the images for the names of functions, and the
 * calls of the system that the host makes itself. Before the first image runs, it keeps only the
 * folders of --disk and what is open. Landlock limits files, and seccomp calls; --rights keeps all.
 * An image can still harm the process that it runs in. */
#include "host.h"

#include <errno.h>
#include <fcntl.h>
#include <libgen.h>
#include <limits.h>
#include <linux/landlock.h>
#include <seccomp.h>
#include <signal.h>
#include <stdlib.h>
#include <string.h>
#include <sys/ioctl.h>
#include <sys/mman.h>
#include <sys/prctl.h>
#include <sys/stat.h>
#include <sys/syscall.h>
#include <sys/time.h>
#include <time.h>
#include <unistd.h>

/* What Debian's headers don't have yet. */
#define REFER (1ULL << 13)
#define TRUNCATE (1ULL << 14)
#define IOCTL_DEV (1ULL << 15)
#define NEWER_TCGETS 0x802c542aU /* of the terminal's calls in newer C libraries */
#define NEWER_TCSETSW 0x402c542cU

#define READING LANDLOCK_ACCESS_FS_READ_FILE
#define WRITING (LANDLOCK_ACCESS_FS_WRITE_FILE | TRUNCATE)
#define OF_FILES (READING | WRITING)
#define LISTING (READING | LANDLOCK_ACCESS_FS_READ_DIR)
#define CHANGING                                                                                  \
    (LISTING | WRITING | REFER | LANDLOCK_ACCESS_FS_MAKE_REG | LANDLOCK_ACCESS_FS_MAKE_DIR |      \
     LANDLOCK_ACCESS_FS_REMOVE_FILE | LANDLOCK_ACCESS_FS_REMOVE_DIR)
#define FIRST_INHERITED 3U
#define EXTRA_SECONDS 15 /* which a run has after its time for its report */

/* What the command line names, and what goes with that. */
static struct named {
    const char *name;
    uint64_t rights;
    bool is_folder; /* of --disk */
} named[2 * MAX_DRIVERS + MAX_DISKS + 32];
static size_t named_count;

/* The calls of the system that the host makes while an image runs. */
static const int calls[] = {
    SCMP_SYS(read),           SCMP_SYS(write),           SCMP_SYS(close),
    SCMP_SYS(fstat),          SCMP_SYS(lseek),           SCMP_SYS(pread64),
    SCMP_SYS(pwrite64),       SCMP_SYS(ftruncate),       SCMP_SYS(fsync),
    SCMP_SYS(poll),           SCMP_SYS(mmap),            SCMP_SYS(munmap),
    SCMP_SYS(mprotect),       SCMP_SYS(mremap),          SCMP_SYS(brk),
    SCMP_SYS(rt_sigprocmask), SCMP_SYS(rt_sigreturn),    SCMP_SYS(restart_syscall),
    SCMP_SYS(clock_gettime),  SCMP_SYS(clock_nanosleep), SCMP_SYS(alarm),
    SCMP_SYS(exit_group),
};
/* Those for folders of --disk, which Landlock limits. */
static const int folder_calls[] = {
    SCMP_SYS(openat2),  SCMP_SYS(newfstatat), SCMP_SYS(getdents64), SCMP_SYS(mkdirat),
    SCMP_SYS(unlinkat), SCMP_SYS(renameat),   SCMP_SYS(fstatfs),
};
static const uint64_t descriptor_calls[] = {F_GETFL, F_SETFD}; /* which fdopendir makes */
/* Those that read what is named, and give up the rest. */
static const int reading_calls[] = {
    SCMP_SYS(openat),    SCMP_SYS(newfstatat),   SCMP_SYS(stat),        SCMP_SYS(lstat),
    SCMP_SYS(readlink),  SCMP_SYS(getcwd),       SCMP_SYS(flock),       SCMP_SYS(fchmod),
    SCMP_SYS(prctl),     SCMP_SYS(seccomp),      SCMP_SYS(landlock_create_ruleset),
    SCMP_SYS(landlock_add_rule), SCMP_SYS(landlock_restrict_self),
};
#ifdef __SANITIZE_ADDRESS__
/* Those by which its runtime looks for a stack's bounds, in the map of the process, and reports. */
static const int sanitizer_calls[] = {
    SCMP_SYS(openat), SCMP_SYS(sched_getaffinity), SCMP_SYS(prlimit64), SCMP_SYS(sigaltstack),
    SCMP_SYS(gettid), SCMP_SYS(getpid),            SCMP_SYS(madvise),   SCMP_SYS(futex),
};
#endif
/* Whether a stream is a terminal, and how keys come from it. */
static const struct {
    uint64_t descriptor, request;
} terminal_calls[] = {
    {STDIN_FILENO, TCGETS},          {STDIN_FILENO, TCSETSW},   {STDIN_FILENO, NEWER_TCGETS},
    {STDIN_FILENO, NEWER_TCSETSW},   {STDOUT_FILENO, TCGETS},   {STDOUT_FILENO, NEWER_TCGETS},
};

NO_RETURN static void cannot(const char *why)
{
    refuse("this system cannot limit what images do: %s; --rights starts them all the same", why);
}

static void add_name(const char *name, uint64_t rights)
{
    if (name != NULL)
        named[named_count++] = (struct named){name, rights, false};
}

static void add_disk(const char *name, uint64_t rights)
{
    struct stat about;

    add_name(name, rights);
    named[named_count - 1].is_folder = stat(name, &about) == 0 && S_ISDIR(about.st_mode);
}

/* An image and, until the first one runs, its folder, where the names of its functions are. One of
 * a firmware has no file. */
static void add_image(const char *name)
{
    add_name(name, LISTING);
    if (access(name, R_OK) == 0)
        add_name(dirname(must(strdup(name))), READING);
}

/* Makes a file that is not there yet, since Landlock allows to write to files that there are. */
static void make_file(const char *name, mode_t mode)
{
    int file = open(name, O_WRONLY | O_CREAT | O_EXCL | O_CLOEXEC, mode);

    if (file >= 0)
        close(file);
}

static void add_output(const char *name)
{
    if (name != NULL)
        make_file(name, 0666);
    add_name(name, WRITING);
}

/* The file of variables, and the one beside it to which they are written first. */
static void add_variables(const char *name)
{
    static char beside[PATH_MAX + sizeof ".efihost"];
    struct stat about;

    if (name == NULL)
        return;
    make_file(name, 0666);
    add_name(name, READING | WRITING);
    if (realpath(name, beside) == NULL || stat(beside, &about) != 0)
        return;
    make_file(strcat(beside, ".efihost"), about.st_mode & 0666);
    add_name(beside, READING | WRITING);
}

static void add_trace(const char *name, const char *ending)
{
    char *whole = must(malloc(strlen(name) + strlen(ending) + 1));

    add_output(strcat(strcpy(whole, name), ending));
}

static void add_names(void)
{
    const struct options *it = &host.options;
    const char *const inputs[] = {it->machine, it->firmware, it->input, it->serial_input};
    const char *const outputs[] = {it->json, it->calls, it->picture, it->screen, it->serial};

    for (size_t i = 0; i < LENGTH(inputs); i++)
        add_name(inputs[i], LISTING);
    for (size_t i = 0; i < LENGTH(outputs); i++)
        add_output(outputs[i]);
    if (it->trace != NULL) {
        add_trace(it->trace, "");
        add_trace(it->trace, ".machine.json");
        add_trace(it->trace, ".replies");
    }
    add_variables(it->variables);
    add_name("/dev/null", WRITING);
    add_image(it->application);
    for (size_t i = 0; i < it->driver_count; i++)
        add_image(it->drivers[i]);
    for (size_t i = 0; i < it->disk_count; i++)
        add_disk(it->disks[i], disk_is_read_only(i) ? LISTING : CHANGING);
}

/* ---- Descriptors ---- */

/* The inherited descriptor that a name of a file stands for, or -1. */
static int inherited(const char *name)
{
    static const char *const folders[] = {"/dev/fd/%u%n", "/proc/self/fd/%u%n"};

    for (size_t i = 0; i < LENGTH(folders); i++) {
        unsigned number;
        int end = 0;

        if (sscanf(name, folders[i], &number, &end) == 1 && name[end] == 0 &&
            number >= FIRST_INHERITED && number <= INT_MAX)
            return (int)number;
    }
    return -1;
}

/* The first inherited descriptor from a number on that is named, or UINT_MAX. */
static unsigned next_named(unsigned from)
{
    unsigned next = UINT_MAX;

    for (size_t i = 0; i < named_count; i++) {
        int number = inherited(named[i].name);

        if (number >= (int)from && (unsigned)number < next)
            next = (unsigned)number;
    }
    return next;
}

/* Closes the inherited descriptors that nothing names. */
static void close_inherited(void)
{
    unsigned next;

    for (size_t i = 0; i < named_count; i++)
        if (inherited(named[i].name) >= 0 && fcntl(inherited(named[i].name), F_GETFD) < 0)
            refuse("cannot open %s: %s", named[i].name, strerror(errno));
    for (unsigned from = FIRST_INHERITED; from != UINT_MAX; from = next + (next != UINT_MAX)) {
        next = next_named(from);
        if (next != from && syscall(SYS_close_range, from, next - 1, 0) != 0)
            cannot(strerror(errno));
    }
}

/* ---- Landlock ---- */

struct ruleset {
    uint64_t files, network, scopes;
};

/* All that a version of Landlock knows to forbid: files, and from the fourth and the sixth version
 * on TCP, signals and abstract sockets. */
static struct ruleset all_of(long version)
{
    struct ruleset all = {REFER - 1, 0, 0};

    if (version <= 0)
        cannot("it has no Landlock");
    if (version >= 2)
        all.files |= REFER;
    if (version >= 3)
        all.files |= TRUNCATE;
    if (version >= 5)
        all.files |= IOCTL_DEV;
    all.network = version >= 4 ? 3 : 0;
    all.scopes = version >= 6 ? 3 : 0;
    return all;
}

/* Allows what is to be done with a file, or with all files below a folder. Where this fails they
 * stay shut. */
static void allow(int rules, const char *name, uint64_t rights)
{
    struct landlock_path_beneath_attr rule = {0};
    struct stat about;

    rule.parent_fd = open(name, O_PATH | O_CLOEXEC);
    if (rule.parent_fd < 0)
        return;
    if (fstat(rule.parent_fd, &about) == 0) {
        rule.allowed_access = S_ISDIR(about.st_mode) ? rights : rights & OF_FILES;
        syscall(SYS_landlock_add_rule, rules, LANDLOCK_RULE_PATH_BENEATH, &rule, 0);
    }
    close(rule.parent_fd);
}

/* Shuts all files but those that are named; later all but the folders of --disk. */
static void limit_files(bool only_folders)
{
    long version = syscall(SYS_landlock_create_ruleset, NULL, 0, LANDLOCK_CREATE_RULESET_VERSION);
    struct ruleset all = all_of(version);
    int rules = (int)syscall(SYS_landlock_create_ruleset, &all, sizeof all, 0);

    if (rules < 0)
        cannot("Landlock limits nothing");
    for (size_t i = 0; i < named_count; i++) {
        if (named[i].is_folder && named[i].rights == LISTING && (all.files & TRUNCATE) == 0)
            cannot("Landlock before Linux 6.2 lets files of a read-only folder be emptied");
        if (!only_folders || named[i].is_folder)
            allow(rules, named[i].name, named[i].rights & all.files);
    }
#ifdef __SANITIZE_ADDRESS__
    allow(rules, "/proc/self", READING);
#endif
    if (prctl(PR_SET_NO_NEW_PRIVS, 1, 0, 0, 0) != 0 ||
        syscall(SYS_landlock_restrict_self, rules, 0) != 0)
        cannot("Landlock limits nothing");
    close(rules);
}

/* ---- seccomp ---- */

static void allow_calls(scmp_filter_ctx filter, const int *list, size_t count)
{
    for (size_t i = 0; i < count; i++) {
        int failed = seccomp_rule_add(filter, SCMP_ACT_ALLOW, list[i], 0);

        if (failed != 0 && failed != -EEXIST)
            cannot(strerror(-failed));
    }
}

static bool has_folders(void)
{
    for (size_t i = 0; i < named_count; i++)
        if (named[i].is_folder)
            return true;
    return false;
}

/* Calls of which arguments must be certain ones. */
static int allow_exact_calls(scmp_filter_ctx filter)
{
    int failed = seccomp_rule_add(filter, SCMP_ACT_ALLOW, SCMP_SYS(setitimer), 1,
                                  SCMP_A0(SCMP_CMP_EQ, ITIMER_REAL));

    failed |= seccomp_rule_add(filter, SCMP_ACT_ALLOW, SCMP_SYS(writev), 1,
                               SCMP_A0(SCMP_CMP_EQ, STDERR_FILENO));
    failed |= seccomp_rule_add(filter, SCMP_ACT_ALLOW, SCMP_SYS(madvise), 1,
                               SCMP_A2(SCMP_CMP_EQ, MADV_DONTNEED));
    for (size_t i = 0; i < LENGTH(terminal_calls); i++)
        failed |= seccomp_rule_add(filter, SCMP_ACT_ALLOW, SCMP_SYS(ioctl), 2,
                                   SCMP_A0(SCMP_CMP_EQ, terminal_calls[i].descriptor),
                                   SCMP_A1(SCMP_CMP_EQ, terminal_calls[i].request));
    for (size_t i = 0; i < LENGTH(descriptor_calls) && has_folders(); i++)
        failed |= seccomp_rule_add(filter, SCMP_ACT_ALLOW, SCMP_SYS(fcntl), 1,
                                   SCMP_A1(SCMP_CMP_EQ, descriptor_calls[i]));
    return failed;
}

/* Refuses all other calls of the system, also those in the way of x32 and of 32 bits. */
static void limit_calls(bool reads)
{
    scmp_filter_ctx filter = must(seccomp_init(SCMP_ACT_ERRNO(EPERM)));
    int failed = seccomp_attr_set(filter, SCMP_FLTATR_ACT_BADARCH, SCMP_ACT_ERRNO(EPERM));

    allow_calls(filter, calls, LENGTH(calls));
    if (reads)
        allow_calls(filter, reading_calls, LENGTH(reading_calls));
    if (has_folders())
        allow_calls(filter, folder_calls, LENGTH(folder_calls));
#ifdef __SANITIZE_ADDRESS__
    allow_calls(filter, sanitizer_calls, LENGTH(sanitizer_calls));
#endif
    failed |= allow_exact_calls(filter);
    if (failed != 0 || seccomp_load(filter) != 0)
        cannot("it has no seccomp");
    seccomp_release(filter);
}

/* An image can put off its alarm, but nothing ends this timer. */
static void limit_time(void)
{
    struct sigevent killing = {.sigev_notify = SIGEV_SIGNAL, .sigev_signo = SIGKILL};
    struct itimerspec time = {{0, 0}, {(time_t)host.options.seconds + EXTRA_SECONDS, 0}};
    timer_t timer;

    if (host.options.seconds > 0 && (timer_create(CLOCK_MONOTONIC, &killing, &timer) != 0 ||
                                     timer_settime(timer, 0, &time, NULL) != 0))
        cannot(strerror(errno));
}

/* The environment is for other programs, and may have their secrets. */
static void clear_environment(void)
{
    for (char **at = environ; *at != NULL; at++)
        explicit_bzero(*at, strlen(*at));
}

/* Gives up what reading doesn't take. */
void keep_named_files(void)
{
    if (host.options.rights)
        return;
    clear_environment();
    add_names();
    close_inherited();
    limit_time();
    limit_files(false);
    limit_calls(true);
}

/* Gives up what images don't take. */
void drop_rights(void)
{
    if (host.options.rights)
        return;
    for (size_t i = 0; i < named_count; i++)
        if (inherited(named[i].name) >= 0)
            close(inherited(named[i].name));
    limit_files(true);
    limit_calls(false);
}
