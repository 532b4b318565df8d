/* Stands before the library in the recorder's eyes: the Nth call of one name fails, by FAILING=NAME:N:ERROR, and those
   behind it, too, if N stands with a minus. */
#define _GNU_SOURCE
#include <errno.h>
#include <fcntl.h>
#include <stdarg.h>
#include <stdbool.h>
#include <stdio.h>
#include <stdlib.h>
#include <string.h>
#include <sys/mman.h>
#include <sys/syscall.h>
#include <unistd.h>

/* Whether this call of that name is the one. Calls of others than the recorder don't count. */
static bool fails(const char *name)
{
    static int calls;
    const char *which = getenv("FAILING");
    int wanted = 0, error = 0;
    char of[32] = "";

    if (which == NULL || sscanf(which, "%31[a-z_0-9]:%d:%d", of, &wanted, &error) != 3 || strcmp(of, name) != 0)
        return false;
    if (++calls != wanted && (wanted > 0 || calls < -wanted))
        return false;
    errno = error;
    return true;
}

int openat(int directory, const char *file, int way, ...)
{
    va_list more;

    va_start(more, way);
    int rights = (way & O_CREAT) != 0 ? va_arg(more, int) : 0;
    va_end(more);
    return fails("openat") ? -1 : (int)syscall(SYS_openat, directory, file, way, rights);
}

ssize_t pwrite(int file, const void *bytes, size_t size, off_t at)
{
    return fails("pwrite") ? -1 : syscall(SYS_pwrite64, file, bytes, size, at);
}

int ftruncate(int file, off_t size) { return fails("ftruncate") ? -1 : (int)syscall(SYS_ftruncate, file, size); }

int unlinkat(int directory, const char *file, int way)
{
    return fails("unlinkat") ? -1 : (int)syscall(SYS_unlinkat, directory, file, way);
}

/* Of files that the recorder maps: of a run, and of parts. */
void *mmap(void *wanted, size_t size, int rights, int way, int file, off_t at)
{
    if ((way & MAP_SHARED) != 0 && (rights & PROT_WRITE) != 0 && fails("mmap"))
        return MAP_FAILED;
    return (void *)syscall(SYS_mmap, wanted, size, rights, way, file, at);
}

/* Of the file of a run alone. */
int madvise(void *first, size_t size, int advice)
{
    return fails("madvise") ? -1 : (int)syscall(SYS_madvise, first, size, advice);
}
