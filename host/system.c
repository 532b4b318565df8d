/* Whether this machine can be asked at all. */
#include <gnu/libc-version.h>
#include <sched.h>
#include <string.h>
#include <sys/utsname.h>
#include <unistd.h>

#include "futex.h"
#include "host.h"

static int cannot(FILE *errors, const char *why)
{
    fprintf(errors, "pif-host: this machine can't be asked: %s\n", why);
    return STATUS_CANNOT_ASK;
}

static int policy_error(void)
{
    struct sched_param high = {.sched_priority = sched_get_priority_max(SCHED_FIFO)};
    struct sched_param none = {.sched_priority = 0};

    if (sched_setscheduler(0, SCHED_FIFO, &high) != 0)
        return errno;
    return sched_setscheduler(0, SCHED_OTHER, &none) == 0 ? 0 : errno;
}

int check_system(FILE *errors)
{
    uint32_t word = 0;

    if (sched_get_priority_min(SCHED_FIFO) > 1 || sched_get_priority_max(SCHED_FIFO) < 99)
        return cannot(errors, "its SCHED_FIFO hasn't the priorities 1 to 99");
    int error = policy_error();
    if (error == EPERM)
        return cannot(errors, "no right to SCHED_FIFO (run it as root, or with CAP_SYS_NICE)");
    if (error != 0)
        return cannot(errors, strerror(error));
    if (futex_call(&word, FUTEX_LOCK_PI_PRIVATE, 0, NULL, NULL, 0) != 0 ||
        futex_call(&word, FUTEX_UNLOCK_PI_PRIVATE, 0, NULL, NULL, 0) != 0)
        return cannot(errors, "its kernel has no priority-inheriting futexes (CONFIG_FUTEX_PI)");
    if (is_gone(getpid()))
        return cannot(errors, "/proc/self/task can't be read");
    return STATUS_DONE;
}

void print_versions(FILE *output)
{
    struct utsname name;

    if (uname(&name) == 0)
        fprintf(output, "%s %s %s, glibc %s\n", name.sysname, name.release, name.machine, gnu_get_libc_version());
}

bool take_processor(void)
{
    struct sched_param high = {.sched_priority = sched_get_priority_max(SCHED_FIFO)};
    cpu_set_t allowed, one;
    int last = CPU_SETSIZE - 1;

    if (sched_getaffinity(0, sizeof allowed, &allowed) != 0)
        return false;
    while (last > 0 && !CPU_ISSET(last, &allowed))
        last--;
    CPU_ZERO(&one);
    CPU_SET(last, &one);
    return sched_setaffinity(0, sizeof one, &one) == 0 && sched_setscheduler(0, SCHED_FIFO, &high) == 0;
}
