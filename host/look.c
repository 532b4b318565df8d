/* What the kernel says of a thread in /proc/self/task. */
#include <fcntl.h>
#include <stdlib.h>
#include <string.h>
#include <sys/syscall.h>
#include <unistd.h>

#include "host.h"

/* Reads the start of a thread's file; the length, or -1 if there is none. */
static ssize_t read_file(pid_t thread, const char *name, char *text, size_t room)
{
    char path[64];

    snprintf(path, sizeof path, "/proc/self/task/%d/%s", (int)thread, name);
    int file = open(path, O_RDONLY | O_CLOEXEC);
    if (file < 0)
        return -1;
    ssize_t length = read(file, text, room - 1);
    close(file);
    text[length < 0 ? 0 : length] = '\0';
    return length;
}

bool is_gone(pid_t thread)
{
    char text[8];

    return read_file(thread, "stat", text, sizeof text) <= 0;
}

/* The first word of the file is the number of the call in which the thread is blocked, or `running`. */
static bool is_in(pid_t thread, long first, long second)
{
    char text[32], *end;

    if (read_file(thread, "syscall", text, sizeof text) <= 0)
        return false;
    long call = strtol(text, &end, 10);
    return end != text && (call == first || call == second);
}

bool is_in_futex(pid_t thread) { return is_in(thread, SYS_futex, SYS_futex); }

bool is_at_rest(pid_t thread) { return is_gone(thread) || is_in(thread, SYS_futex, SYS_read); }

/* Field 18 of the thread's stat: -1 - priority for a thread of real time. The name, field 2, stands in parentheses. */
int effective_priority(pid_t thread)
{
    char text[512];

    if (read_file(thread, "stat", text, sizeof text) <= 0)
        return 0;
    const char *field = strrchr(text, ')');
    for (int number = 2; field != NULL && number < 18; number++) {
        field = strchr(field, ' ');
        field = field == NULL ? NULL : field + 1;
    }
    return field == NULL ? 0 : -1 - atoi(field);
}
