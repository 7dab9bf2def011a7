/* Interrupts the library at each of its instructions, as a firmware's timer may, on the stack of
 * the running call. A traced child makes calls of all kinds, one instruction at a time; before each
 * that lies in the library, the 128 bytes below the stack pointer are overwritten, which is where
 * the System V ABI lets a leaf function keep its variables, and where an interrupt handler of a
 * firmware has its frame. The replies must equal those of calls that nothing interrupts. For x86-64
 * Linux. */
#define _GNU_SOURCE
#include "workload.h"

#include <stdio.h>

#if defined(__x86_64__) && defined(__linux__)

#include <limits.h>
#include <signal.h>
#include <stdlib.h>
#include <string.h>
#include <sys/mman.h>
#include <sys/ptrace.h>
#include <sys/uio.h>
#include <sys/user.h>
#include <sys/wait.h>
#include <unistd.h>

#define BELOW 128

/* The status of a child that may not be traced. */
#define UNTRACED 77

/* The linker puts the library between these: interrupts_begin.o, the library, interrupts_end.o. */
void library_begins(void);
void library_ends(void);

/* What the child leaves: a digest of all replies. */
static uint64_t *left;

static int run_child(void)
{
    if (ptrace(PTRACE_TRACEME, 0, NULL, NULL) != 0)
        _exit(UNTRACED);
    raise(SIGSTOP);
    *left = run_workload();
    _exit(0);
}

/* Overwrites what lies below the stack pointer of a process. */
static void overwrite(pid_t child, uint64_t stack)
{
    static uint8_t bytes[BELOW];
    struct iovec here = {bytes, BELOW}, there = {(void *)(uintptr_t)(stack - BELOW), BELOW};

    if (bytes[0] == 0)
        memset(bytes, 0xa5, BELOW);
    if (process_vm_writev(child, &here, 1, &there, 1, 0) != BELOW) {
        perror("interrupts: overwriting the stack");
        exit(1);
    }
}

/* Steps the child to its end, and gives how many instructions of the library it ran, ULONG_MAX where
 * no process may be traced here. */
static unsigned long step(pid_t child)
{
    uint64_t begin = (uint64_t)(uintptr_t)library_begins, end = (uint64_t)(uintptr_t)library_ends;
    unsigned long steps = 0;
    int status;

    while (waitpid(child, &status, 0) == child && WIFSTOPPED(status)) {
        struct user_regs_struct registers;
        int signal = WSTOPSIG(status);

        if (signal != SIGTRAP && signal != SIGSTOP) {
            fprintf(stderr, "interrupts: signal %d after %lu instructions\n", signal, steps);
            kill(child, SIGKILL);
            exit(1);
        }
        ptrace(PTRACE_GETREGS, child, NULL, &registers);
        if (registers.rip >= begin && registers.rip < end) {
            overwrite(child, registers.rsp);
            steps++;
        }
        ptrace(PTRACE_SINGLESTEP, child, NULL, NULL);
    }
    return WIFEXITED(status) && WEXITSTATUS(status) == UNTRACED ? ULONG_MAX : steps;
}

int main(void)
{
    uint64_t wanted = run_workload();
    unsigned long steps;
    pid_t child;

    left = mmap(NULL, sizeof *left, PROT_READ | PROT_WRITE, MAP_SHARED | MAP_ANONYMOUS, -1, 0);
    if (left == MAP_FAILED)
        return 1;
    child = fork();
    if (child == 0)
        run_child();
    steps = step(child);
    if (steps == ULONG_MAX) {
        printf("interrupts: not tried, as no process may be traced here\n");
        return 0;
    }
    if (steps < 100000 || *left != wanted) {
        fprintf(stderr, "interrupts: other replies than without interrupts\n");
        return 1;
    }
    printf("interrupts: %lu instructions, each interrupted, with the same replies\n", steps);
    return 0;
}

#else

int main(void)
{
    return run_workload() == 0;
}

#endif
