/* The file of the history, by system calls alone: it may be a signal's handler that writes. The history is written
   beside its file, which it becomes once it is whole. A program that has given its rights up since its first call may
   be allowed neither. So the file is opened at that call, too, and then written where it stands. */
#define _GNU_SOURCE
#include <errno.h>
#include <fcntl.h>
#include <limits.h>
#include <stdio.h>
#include <string.h>
#include <sys/stat.h>
#include <unistd.h>

#include "record.h"

/* Programs know the low numbers, and close them. From 64 on Linux waits for all processors before it makes room. */
enum { HIGH = 60 };

static int file = -1, kept = -1;
static bool is_beside, is_made; /* the file wasn't there before the first call */
static struct stat kept_file;
static char beside[2 * PATH_MAX + MOST_DIGITS + 2]; /* the path of the file, a dot, and the number of the process */

/* 0, or the number of an error. */
static int write_all(int to, const char *bytes, size_t size)
{
    while (size > 0) {
        ssize_t written = write(to, bytes, size);
        if (written < 0 && errno == EINTR)
            continue;
        if (written <= 0)
            return written < 0 ? errno : EIO;
        bytes += written;
        size -= (size_t)written;
    }
    return 0;
}

/* Whether a new file may take the place of this one. */
static bool may_replace(const char *name)
{
    const char *end = strrchr(name, '/');

    if (end == NULL)
        return access(".", W_OK) == 0;
    beside[0] = '\0';
    strncat(beside, name, (size_t)(end - name) + 1);
    return access(beside, W_OK) == 0;
}

/* A device or a pipe is opened at the end alone. */
int keep_file(const char *name)
{
    struct stat present;
    bool is_there = stat(name, &present) == 0;

    if (is_there && !S_ISREG(present.st_mode))
        return S_ISDIR(present.st_mode) ? EISDIR : 0;
    int low = open(name, O_WRONLY | O_CREAT | O_CLOEXEC, 0666);
    if (low < 0)
        return is_there && errno == EACCES && may_replace(name) ? 0 : errno;
    is_made = !is_there;
    kept = fcntl(low, F_DUPFD_CLOEXEC, HIGH);
    if (kept < 0)
        kept = low;
    else
        close(low);
    return fstat(kept, &kept_file) == 0 ? 0 : errno;
}

/* The program may have closed it, and may have another file by this number. */
static bool is_kept(void)
{
    struct stat present;

    return kept >= 0 && fstat(kept, &present) == 0 && present.st_dev == kept_file.st_dev
           && present.st_ino == kept_file.st_ino;
}

static void name_beside(const char *name)
{
    char room[MOST_DIGITS + 1];

    strcpy(beside, name);
    strcat(beside, ".");
    strcat(beside, digits_of((uint64_t)getpid(), 10, room));
}

/* A device, a pipe or a link stays what it is, and is written where it stands. */
int open_file(const char *name)
{
    struct stat present;

    is_beside = lstat(name, &present) != 0 || S_ISREG(present.st_mode);
    name_beside(name);
    int way = is_beside ? O_RDWR : O_WRONLY;
    file = open(is_beside ? beside : name, way | O_CREAT | O_TRUNC | O_CLOEXEC, 0666);
    if (file >= 0)
        return 0;
    int why = errno;
    if (!is_kept() || ftruncate(kept, 0) != 0)
        return why;
    is_beside = false;
    file = kept;
    return 0;
}

int open_in_place(const char *name)
{
    file = open(name, O_WRONLY | O_CREAT | O_TRUNC | O_CLOEXEC, 0666);
    return file < 0 ? errno : 0;
}

int write_file(const char *bytes, size_t size) { return write_all(file, bytes, size); }

static int copy_to_kept(void)
{
    char bytes[4096];
    ssize_t size;
    int why = ftruncate(kept, 0) != 0 || lseek(file, 0, SEEK_SET) != 0 ? errno : 0;

    while (why == 0 && (size = read(file, bytes, sizeof bytes)) != 0)
        why = size < 0 ? errno : write_all(kept, bytes, (size_t)size);
    return why;
}

/* The whole history gets its name. */
static int give_name(const char *name)
{
    if (rename(beside, name) == 0)
        return 0;
    int why = errno;
    if (is_kept())
        why = copy_to_kept();
    unlink(beside);
    if (why != 0 && is_kept() && ftruncate(kept, 0) != 0)
        return errno;
    return why;
}

/* As it was before the first call; but what was written where it stands is lost. */
void leave_file(const char *name)
{
    struct stat present;

    if (is_beside)
        unlink(beside);
    else if (file >= 0 && file == kept && ftruncate(file, 0) != 0)
        return;
    if (is_made && lstat(name, &present) == 0 && present.st_size == 0)
        unlink(name);
}

int close_file(const char *name, int failed)
{
    if (failed == 0 && is_beside)
        failed = give_name(name);
    else if (failed != 0)
        leave_file(name);
    if (close(file) != 0 && failed == 0)
        failed = errno;
    return failed;
}
