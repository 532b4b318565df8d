/* Takes each futex call of glibc aside.

   A thread that was told to the script as waiting must not run on by itself as soon as the kernel wakes it: the script
   says with `finish` when it does. So a filter (seccomp) turns each futex call of the process into a signal. Its
   handler makes that very call, and then blocks the thread until it is told to go on. To glibc this looks like a thread
   that doesn't get the processor for a while. */
#include <linux/audit.h>
#include <linux/filter.h>
#include <linux/seccomp.h>
#include <signal.h>
#include <stddef.h>
#include <sys/prctl.h>
#include <sys/syscall.h>
#include <ucontext.h>
#include <unistd.h>

#include "futex.h"
#include "host.h"

__asm__(".text\n"
        ".globl futex_call\n"
        ".type futex_call, @function\n"
        "futex_call:\n"
        "    movl $202, %eax\n"
        "    movq %rcx, %r10\n"
        "    syscall\n"
        ".globl futex_called\n"
        "futex_called:\n"
        "    ret\n"
        ".size futex_call, . - futex_call\n"
        ".section .note.GNU-stack,\"\",@progbits\n"
        ".text\n");

/* A wait for a mutex, and any wait that its deadline ended. Behind a wake of a condition variable glibc goes on to lock
   the mutex, as a requeue of the kernel would do for it, so that is not held. */
static bool is_held(long operation, long result)
{
    long command = operation & FUTEX_CMD_MASK;

    return command == FUTEX_LOCK_PI || command == FUTEX_LOCK_PI2 || result == -ETIMEDOUT;
}

static void make_call(int signal, siginfo_t *information, void *context)
{
    greg_t *registers = ((ucontext_t *)context)->uc_mcontext.gregs;
    int saved = errno;

    (void)signal;
    (void)information;
    long operation = (long)registers[REG_RSI];
    long result = futex_call((uint32_t *)registers[REG_RDI], operation, (uint32_t)registers[REG_RDX],
        (const void *)registers[REG_R10], (uint32_t *)registers[REG_R8], (uint32_t)registers[REG_R9]);
    if (this_worker() != NULL && is_held(operation, result))
        wait_in_kernel(this_worker());
    registers[REG_RAX] = result;
    errno = saved;
}

static bool filter_calls(void)
{
    uint64_t place = (uint64_t)(uintptr_t)futex_called;
    uint32_t at = offsetof(struct seccomp_data, instruction_pointer);
    struct sock_filter lines[] = {
        BPF_STMT(BPF_LD | BPF_W | BPF_ABS, offsetof(struct seccomp_data, arch)),
        BPF_JUMP(BPF_JMP | BPF_JEQ | BPF_K, AUDIT_ARCH_X86_64, 0, 6),
        BPF_STMT(BPF_LD | BPF_W | BPF_ABS, offsetof(struct seccomp_data, nr)),
        BPF_JUMP(BPF_JMP | BPF_JEQ | BPF_K, SYS_futex, 0, 4),
        BPF_STMT(BPF_LD | BPF_W | BPF_ABS, at),
        BPF_JUMP(BPF_JMP | BPF_JEQ | BPF_K, (uint32_t)place, 0, 3),
        BPF_STMT(BPF_LD | BPF_W | BPF_ABS, at + 4),
        BPF_JUMP(BPF_JMP | BPF_JEQ | BPF_K, (uint32_t)(place >> 32), 0, 1),
        BPF_STMT(BPF_RET | BPF_K, SECCOMP_RET_ALLOW),
        BPF_STMT(BPF_RET | BPF_K, SECCOMP_RET_TRAP),
    };
    struct sock_fprog program = {.len = sizeof lines / sizeof *lines, .filter = lines};

    return prctl(PR_SET_NO_NEW_PRIVS, 1, 0, 0, 0) == 0 &&
           syscall(SYS_seccomp, SECCOMP_SET_MODE_FILTER, 0, &program) == 0;
}

bool hold_futex_calls(void)
{
    struct sigaction action = {.sa_sigaction = make_call, .sa_flags = SA_SIGINFO | SA_NODEFER};

    return sigaction(SIGSYS, &action, NULL) == 0 && filter_calls();
}
