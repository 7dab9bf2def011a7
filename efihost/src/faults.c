/* Signals: what an image does that the machine doesn't allow ends with where and the last calls,
 * never with the host's own crash.
 *
 * A handler that interrupts an image, or the host's own code, interrupts no function of the C
 * library, so it may call all of them: it decides whether the run goes on. A run that ends does so
 * outside of the handler, on a stack of its own. If the C library is interrupted, or the run ends
 * already, a handler only writes a line and ends the process. No handler asks the core. */
#include "host.h"

#include <signal.h>
#include <sys/mman.h>
#include <ucontext.h>
#include <unistd.h>

#define OF_WRITE 2
#define OF_FETCH 16
#define CHECKED_ALIGNMENT 0x40000LL /* a flag that does nothing in a firmware */
#define FLAGS_OF_IMAGES 0x40500LL   /* and those of single steps and of strings from their ends */
#define ALL (PROT_READ | PROT_WRITE | PROT_EXEC)
#define HANDLER_STACK 262144U
#define ENDING_STACK 1048576U
#define TRIES 20
#define ENDING_SECONDS 10

static struct fault {
    int number;
    uint64_t instruction, stack, address;
    uint64_t place; /* the instruction, or who jumped there */
    bool sent, access, fetch, write, privileged;
    struct words what;
} fault; /* that ends the run */
static volatile sig_atomic_t leaving; /* the run ends, or is about to */
static uint64_t ending_stack;

static bool is_mapped(uint64_t address)
{
    const struct machine_range *range = machine_range_at(address);

    return range != NULL && range->mapped;
}

/* Whether the process stopped in an image's code, and not in the host's. */
static bool in_image(uint64_t instruction)
{
    return is_mapped(instruction);
}

/* Whether it stopped in the host's own code, and not in the C library. */
static bool in_host(uint64_t instruction)
{
    extern const char __executable_start[], etext[];

    return instruction >= NUMBER(__executable_start) && instruction < NUMBER(etext);
}

static struct fault facts(int number, const siginfo_t *info, const ucontext_t *context)
{
    const greg_t *registers = context->uc_mcontext.gregs;
    struct fault it = {.number = number};

    it.instruction = it.place = (uint64_t)registers[REG_RIP];
    it.stack = (uint64_t)registers[REG_RSP];
    it.address = NUMBER(info->si_addr);
    it.sent = info->si_code <= 0;
    it.access = number == SIGSEGV && !it.sent && info->si_code != SI_KERNEL;
    it.write = (registers[REG_ERR] & OF_WRITE) != 0;
    it.fetch = it.access &&
               ((registers[REG_ERR] & OF_FETCH) != 0 || it.address == it.instruction);
    if (it.fetch)
        it.place = caller_of(it.stack);
    return it;
}

/* A handler begins with the flags of what it interrupts: an image's check of alignment is none of
 * the host's. */
static void drop_check_of_alignment(void)
{
    __builtin_ia32_writeeflags_u64(__builtin_ia32_readeflags_u64() &
                                   ~(unsigned long long)CHECKED_ALIGNMENT);
}

/* Goes on with a function, outside of the handler. */
static void leave_for(ucontext_t *context, void (*end)(void))
{
    greg_t *registers = context->uc_mcontext.gregs;

    leaving = 1;
    registers[REG_RIP] = (greg_t)(uintptr_t)end;
    registers[REG_RSP] = (greg_t)(ending_stack - 8); /* as after a call */
    registers[REG_EFL] &= ~FLAGS_OF_IMAGES;
}

/* ---- Accesses that the run survives ---- */

enum heeded {
    ENDS,
    GOES_ON,
    IS_FOUND,
};

/* Whether an access is one below the stack. After boot services the pages there may be used as all
 * others, except by what is on the stack. */
static bool is_below_stack(const struct fault *it)
{
    const uint64_t red = RED_PAGES * PAGE, start = host.stack - red;

    return host.stack != 0 && it->address - start < red &&
           (!host.exited || it->stack - start < red + PAGE);
}

/* An access that a section of an image forbids; a firmware without such rights lets it be. */
static enum heeded heed_image(const struct fault *it)
{
    struct origin origin = origin_at(it->instruction);

    found(IMAGE_RIGHTS, &origin, "%s %s, which the rights of its section forbid",
          it->fetch ? "execution of" : it->write ? "write to" : "read of", where(it->address));
    protect_memory(it->address, 1, ALL);
    return host.checks ? IS_FOUND : GOES_ON;
}

/* An access to memory of the machine: found, and then allowed. It is an image's, or that of a
 * service or of a function that copies for one. */
static enum heeded heed_access(const struct fault *it)
{
    if (!is_mapped(it->address) || is_below_stack(it))
        return ENDS;
    if (host.exited) {
        protect_memory(it->address, 1, ALL);
        return GOES_ON;
    }
    if (image_at(it->address) != NULL)
        return heed_image(it);
    if (it->fetch && memory_rights(it->address) != PROT_NONE)
        return let_run(it->address, it->place) ? IS_FOUND : GOES_ON;
    if (!host.checks)
        return ENDS;
    found_access(it->address, it->place,
                 it->fetch ? "execution of" : it->write ? "write to" : "read of");
    protect_memory(it->address, 1, it->fetch ? ALL : PROT_READ | PROT_WRITE);
    return IS_FOUND;
}

static enum heeded heed(const struct fault *it, ucontext_t *context)
{
    greg_t *flags = &context->uc_mcontext.gregs[REG_EFL];

    if (it->access)
        return heed_access(it);
    if (it->number == SIGBUS && (*flags & CHECKED_ALIGNMENT) != 0) {
        *flags &= ~CHECKED_ALIGNMENT;
        return GOES_ON;
    }
    if (in_image(it->instruction) && !it->sent && !host.options.strict && !host.exited &&
        pass_over(context))
        return GOES_ON;
    return ENDS;
}

/* ---- Those that end it ---- */

static void describe(struct fault *it, const ucontext_t *context)
{
    bool here = in_image(it->instruction) && !it->sent;

    it->privileged = !it->access && here && is_privileged(it->instruction);
    if (host.in_pool && host.over_memory) {
        say_text(&it->what, "the pool's own bytes were overwritten");
    } else if (!it->access && here) {
        say_refusal(&it->what, it->number, context);
    } else if (!it->access) {
        say_text(&it->what, "signal ");
        say_number(&it->what, (uint64_t)it->number);
    } else if (is_below_stack(it)) {
        say_text(&it->what, "the stack is used up");
    } else {
        say_text(&it->what, it->fetch ? "a jump to " : it->write ? "a write to " : "a read of ");
        say_number(&it->what, it->address);
        say_text(&it->what, it->address < 65536 ? ", by a null pointer"
                            : it->fetch         ? ""
                                                : ", where no memory is");
    }
}

/* Words of the stack that are in images; a sanitizer would not have it read all of the stack. */
__attribute__((no_sanitize_address)) static void print_stack(void)
{
    uint64_t at = fault.stack & ~7ULL;
    unsigned shown = 0;

    if (at < host.stack || at >= host.stack_end)
        return;
    for (unsigned i = 0; i < 400 && at < host.stack_end && shown < 12; i++, at += 8) {
        uint64_t word = *(const uint64_t *)POINTER(at);

        if (image_at(word) != NULL && shown++ < 12)
            fprintf(stderr, "efihost:   on the stack: %s\n", where(word));
    }
}

NO_RETURN static void end_by_fault(void)
{
    enum ending ending = host.exited && fault.privileged ? ENDED_WELL : ENDED_BY_FAULT;
    const char *when = host.exited ? ", after ExitBootServices" : "";
    const char *from = fault.fetch && fault.place != 0 ? where(fault.place) : "";
    struct words instruction = {"", 0};
    char what[sizeof fault.what.text + 500];

    snprintf(what, sizeof what, "%s%s%s", fault.what.text, *from == 0 ? "" : ", from ", from);
    if (in_image(fault.instruction)) {
        if (ending == ENDED_BY_FAULT)
            print_stack();
        if (fault.number != SIGTRAP)
            say_instruction(&instruction, fault.instruction);
        finish(ending, "%s, at %s%s%s%s", what, where(fault.instruction), when,
               instruction.used == 0 ? "" : ": ", instruction.text);
    }
    if (host.call != NULL)
        finish(ending, "%s, in %s called by %s%s", what, host.call->name, where(host.call->caller),
               when);
    finish(ending, "%s, at 0x%lx%s", what, fault.instruction, when);
}

/* With --guard the run ends at an access that should not be, of an image or of a service that it
 * called. */
NO_RETURN static void end_at_access(void)
{
    if (image_at(fault.place) == NULL && host.call != NULL)
        finish(ENDED_WITH_FINDINGS, "stopped in %s called by %s", host.call->name,
               where(host.call->caller));
    finish(ENDED_WITH_FINDINGS, "stopped at %s", where(fault.place));
}

/* Ends the process with a line and no report. */
NO_RETURN static void end_here(const struct fault *it)
{
    struct words line = {"", 0};

    if (host.call == NULL)
        say_text(&line, "efihost: the host itself failed: ");
    else
        say_text(&line, "efihost: the run ends without a report: ");
    say_text(&line, it->what.text);
    if (host.call != NULL) {
        say_text(&line, ", in ");
        say_text(&line, host.call->name);
        say_text(&line, " called by ");
        say_place(&line, host.call->caller);
    }
    say_text(&line, ", at ");
    say_number(&line, it->instruction);
    restore_keys();
    end_with(&line, ENDED_BY_FAULT);
}

/* The same where a fault comes in the handler or as the run ends. */
NO_RETURN static void end_at_second(const struct fault *it)
{
    struct words line = {"", 0};

    say_text(&line, "efihost: the host itself failed: a second fault, at ");
    say_number(&line, it->instruction);
    say_text(&line, ", address ");
    say_number(&line, it->address);
    restore_keys();
    end_with(&line, ENDED_BY_FAULT);
}

/* Whether a function of the C library may be under way, or nothing that an image called. */
static bool is_host_failure(const struct fault *it)
{
    if (in_image(it->instruction) || it->fetch || (host.in_pool && host.over_memory))
        return false;
    return !in_host(it->instruction) || (host.call == NULL && host.running == NULL);
}

static void on_fault(int number, siginfo_t *info, void *context)
{
    static volatile sig_atomic_t inside;
    struct fault it;
    enum heeded heeded;

    drop_check_of_alignment();
    if (inside || leaving || host.ending) {
        it.instruction = (uint64_t)((ucontext_t *)context)->uc_mcontext.gregs[REG_RIP];
        it.address = NUMBER(info->si_addr);
        end_at_second(&it);
    }
    inside = 1;
    it = facts(number, info, context);
    host.fault.instruction = it.place;
    host.fault.stack = it.fetch ? it.stack + 8 : it.stack;
    heeded = heed(&it, context);
    host.fault.instruction = 0;
    if (heeded == ENDS) {
        describe(&it, context);
        if (is_host_failure(&it))
            end_here(&it);
    }
    if (heeded == ENDS || (heeded == IS_FOUND && host.options.guard)) {
        fault = it;
        host.in_core = host.in_pool;
        leave_for(context, heeded == ENDS ? end_by_fault : end_at_access);
    }
    inside = 0;
}

/* ---- Signals from outside ---- */

static volatile sig_atomic_t ends_by, wants_pictures; /* which signal ends the run; after SIGUSR1 */
static uint64_t ends_at;

static const char *reason(void)
{
    return ends_by == SIGALRM   ? "the time is over"
           : ends_by == SIGPIPE ? "nobody reads what it writes"
                                : "it is interrupted";
}

NO_RETURN static void end_by_signal(void)
{
    const char *at = in_image(ends_at) || host.call == NULL ? where(ends_at) : host.call->name;

    finish(ENDED_BY_LIMIT, "%s, at %s%s", reason(), at,
           host.exited ? ", after ExitBootServices" : "");
}

/* Does what signals ask for that came while the host's own code ran. */
void heed_signals(void)
{
    host.signalled = false;
    if (ends_by != 0) {
        ends_at = host.call == NULL ? 0 : host.call->caller;
        end_by_signal();
    }
    if (wants_pictures != 0)
        save_pictures();
    wants_pictures = 0;
}

/* Ends the process where the run can't end in order. */
NO_RETURN static void end_late(void)
{
    struct words line = {"", 0};

    say_text(&line, "efihost: the run ends without a report: ");
    say_text(&line, reason());
    if (host.call != NULL) {
        say_text(&line, ", in ");
        say_text(&line, host.call->name);
    }
    restore_keys();
    end_with(&line, ENDED_BY_LIMIT);
}

/* Where an image's own code runs the run ends at once. In the host's own code its tables may be in
 * use: the run ends before the next service, or, if none comes, after a second. In the C library
 * nothing else can be done then than to end the process. An ending that is under way has a few
 * seconds. */
static void on_end(int number, siginfo_t *info, void *context)
{
    static unsigned tries, tries_at_end;
    uint64_t instruction = (uint64_t)((ucontext_t *)context)->uc_mcontext.gregs[REG_RIP];

    (void)info;
    drop_check_of_alignment();
    if (leaving || host.ending) {
        if (tries_at_end++ > 0 && number == SIGALRM)
            end_late();
        alarm(ENDING_SECONDS);
        return;
    }
    if (ends_by == 0)
        ends_by = number;
    if (in_image(instruction) || (tries > TRIES && in_host(instruction))) {
        ends_at = instruction;
        host.in_core = !in_image(instruction);
        leave_for(context, end_by_signal);
        return;
    }
    if (tries++ > 2 * TRIES)
        end_late();
    host.signalled = true;
    ualarm(50000, 0);
}

/* Pictures are saved at once where an image's own code runs, and else by the next service. */
static void on_picture(int number, siginfo_t *info, void *context)
{
    (void)number;
    (void)info;
    drop_check_of_alignment();
    if (in_image((uint64_t)((ucontext_t *)context)->uc_mcontext.gregs[REG_RIP]))
        save_pictures();
    else
        wants_pictures = host.signalled = true;
}

/* The stacks of handlers and of ends, each above a page that is shut. */
static void make_stacks(void)
{
    uint64_t size = HANDLER_STACK + ENDING_STACK + 2 * PAGE;
    uint8_t *at = mmap(NULL, size, PROT_NONE, MAP_PRIVATE | MAP_ANONYMOUS | MAP_NORESERVE, -1, 0);
    uint8_t *ending = at + PAGE + HANDLER_STACK + PAGE;
    stack_t stack = {0};

    if (at == MAP_FAILED || mprotect(at + PAGE, HANDLER_STACK, PROT_READ | PROT_WRITE) != 0 ||
        mprotect(ending, ENDING_STACK, PROT_READ | PROT_WRITE) != 0)
        refuse("this process can have no stack for signals");
    ending_stack = NUMBER(ending + ENDING_STACK);
    stack.ss_sp = at + PAGE;
    stack.ss_size = HANDLER_STACK;
    sigaltstack(&stack, NULL);
}

void catch_faults(void)
{
    static const int faults[] = {SIGSEGV, SIGBUS, SIGILL, SIGFPE, SIGTRAP};
    static const int ends[] = {SIGALRM, SIGINT, SIGTERM, SIGHUP, SIGQUIT, SIGPIPE};
    struct sigaction action = {0};

    make_stacks();
    action.sa_sigaction = on_fault;
    action.sa_flags = SA_SIGINFO | SA_ONSTACK | SA_NODEFER;
    for (size_t i = 0; i < LENGTH(faults); i++)
        sigaction(faults[i], &action, NULL);
    action.sa_sigaction = on_end;
    action.sa_flags = SA_SIGINFO | SA_ONSTACK | SA_RESTART;
    for (size_t i = 0; i < LENGTH(ends); i++)
        sigaction(ends[i], &action, NULL);
    action.sa_sigaction = on_picture;
    sigaction(SIGUSR1, &action, NULL);
    if (host.options.seconds > 0)
        alarm(host.options.seconds);
}
