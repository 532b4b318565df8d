/* What is recorded of a run: in this process's own memory, or, with RECORD_SHARED, in a file that all processes of the
   run map at the same address. There a pointer means the same to each of them, and a process that is killed loses
   nothing that it published. A file of zeros is an empty run, so that nobody has to make it before another one.
   With RECORD_DIR there is such a file of one process, which has all but the events. */
#define _GNU_SOURCE
#include <errno.h>
#include <fcntl.h>
#include <string.h>
#include <sys/mman.h>
#include <sys/resource.h>
#include <sys/stat.h>
#include <unistd.h>

#include "record.h"

#ifndef MADV_POPULATE_WRITE
#define MADV_POPULATE_WRITE 23
#endif

enum { LARGE = 1 << 20, PAGE = 4096 };

/* The files are sparse. Neither loaders nor sanitizers put anything at this address. */
static const uint64_t sizes[] = {[SHARED_RUN] = (uint64_t)1 << 36, [PARTED_RUN] = (uint64_t)1 << 28};
static const uintptr_t address_of_run = (uintptr_t)0x200000000000;
static const char marks[][MOST_OF_MARK] = {[SHARED_RUN] = "pif recording 3", [PARTED_RUN] = "pif parts 2"};

static Run own;
Run *run = &own;
static RunKind kind = OWN_RUN;
uint64_t size_of_run;
const Run *watched;

bool is_shared_run(void) { return kind == SHARED_RUN; }

bool is_parted_run(void) { return kind == PARTED_RUN; }

static void *map_run(int file, uint64_t size, int way)
{
    void *wanted = (void *)address_of_run;
    void *mapped = mmap(wanted, size, PROT_READ | PROT_WRITE, way | MAP_FIXED_NOREPLACE | MAP_NORESERVE, file, 0);

    if (mapped == wanted || mapped == MAP_FAILED)
        return mapped;
    munmap(mapped, size); /* an older Linux takes the address as a hint */
    errno = EEXIST;
    return MAP_FAILED;
}

/* Else a signal would end the program. */
bool may_be_large(uint64_t size)
{
    struct rlimit most;

    return getrlimit(RLIMIT_FSIZE, &most) == 0 && most.rlim_cur >= size;
}

static int map_file_of_run(int file, int way, RunKind wanted)
{
    struct stat present;
    uint64_t size = sizes[wanted];

    if (fstat(file, &present) != 0)
        return errno;
    if (!S_ISREG(present.st_mode) || (present.st_size != 0 && (uint64_t)present.st_size != size))
        return EILSEQ;
    if (present.st_size == 0 && way == MAP_PRIVATE)
        return ENODATA;
    if (present.st_size == 0 && (!may_be_large(size) || ftruncate(file, (off_t)size) != 0))
        return may_be_large(size) ? errno : EFBIG;
    Run *mapped = map_run(file, size, way);
    if (mapped == MAP_FAILED)
        return errno;
    if (mapped->mark[0] != '\0' && memcmp(mapped->mark, marks[wanted], MOST_OF_MARK) != 0) {
        munmap(mapped, size);
        return EILSEQ;
    }
    run = mapped;
    kind = wanted;
    size_of_run = size;
    return 0;
}

static int make_run(int file, RunKind wanted)
{
    int why = map_file_of_run(file, MAP_SHARED, wanted);

    if (why == 0 && !make_present(run, sizeof *run))
        why = ENOSPC;
    if (why == 0) {
        memcpy(run->mark, marks[wanted], MOST_OF_MARK);
        return 0;
    }
    run = &own;
    kind = OWN_RUN;
    return why;
}

int join_run(const char *name)
{
    int file = open(name, O_RDWR | O_CREAT | O_CLOEXEC, 0666);

    if (file < 0)
        return errno;
    int why = make_run(file, SHARED_RUN);
    close(file);
    return why;
}

/* What was counted before goes on. */
int make_parted_run(int file)
{
    int why = make_run(file, PARTED_RUN);

    if (why == 0) {
        memcpy(run->counts, own.counts, sizeof own.counts);
        memcpy(run->shards, own.shards, sizeof own.shards);
    }
    return why;
}

/* To be written as a history, which leaves the file as it is. */
int read_run(const char *name, RunKind wanted)
{
    int file = open(name, O_RDONLY | O_CLOEXEC);

    if (file < 0)
        return errno;
    int why = map_file_of_run(file, MAP_PRIVATE, wanted);
    close(file);
    return why;
}

static int map_watched(int file)
{
    struct stat present;
    uint64_t size = sizes[PARTED_RUN];

    if (fstat(file, &present) != 0)
        return errno;
    if (S_ISREG(present.st_mode) && present.st_size == 0)
        return ENODATA;
    if (!S_ISREG(present.st_mode) || (uint64_t)present.st_size != size)
        return EILSEQ;
    const Run *mapped = mmap(NULL, size, PROT_READ, MAP_SHARED, file, 0);
    if (mapped == MAP_FAILED)
        return errno;
    if (atomic_load(&mapped->first_part) != 0 && memcmp(mapped->mark, marks[PARTED_RUN], MOST_OF_MARK) == 0) {
        watched = mapped;
        return 0;
    }
    int why = mapped->mark[0] == '\0' || memcmp(mapped->mark, marks[PARTED_RUN], MOST_OF_MARK) == 0 ? ENODATA : EILSEQ;
    munmap((void *)mapped, size);
    return why;
}

/* Of a recording in parts that may still be made; ENODATA: it isn't begun yet. Who reads it copies what it needs into
   memory at the same address, so that a pointer means the same there. */
int watch_run(const char *name)
{
    int file = open(name, O_RDONLY | O_CLOEXEC);

    if (file < 0)
        return errno;
    int why = map_watched(file);
    close(file);
    if (why != 0)
        return why;
    Run *mapped = map_run(-1, sizes[PARTED_RUN], MAP_PRIVATE | MAP_ANONYMOUS);
    if (mapped == MAP_FAILED)
        return errno;
    run = mapped;
    kind = PARTED_RUN;
    size_of_run = sizes[PARTED_RUN];
    memcpy(run->name, watched->name, MOST_OF_RUN);
    return 0;
}

/* A write to a page of a file ends the program by SIGBUS, if the file system is full. So pages are asked for first.
   An older Linux than 5.14 doesn't know how. */
bool make_present(const void *memory, size_t size)
{
    uintptr_t first = (uintptr_t)memory & ~(uintptr_t)(PAGE - 1), end = (uintptr_t)memory + size;
    int number = errno;
    bool is_present = madvise((void *)first, end - first, MADV_POPULATE_WRITE) == 0 || errno == EINVAL;
    errno = number;
    return is_present;
}

/* Zeroed; NULL if there is none. What is large isn't present yet. */
void *take_of_run(size_t size)
{
    uint64_t first = (sizeof *run + LINE - 1) / LINE * LINE;

    if (records_in_parts() && !open_directory())
        return NULL;
    uint64_t most = sizes[kind] - first;
    if (kind == OWN_RUN)
        return size >= LARGE ? map_memory(size) : take_memory(size);
    size = (size + LINE - 1) / LINE * LINE;
    if (atomic_load(&run->taken) > most - size)
        return NULL;
    uint64_t before = atomic_fetch_add(&run->taken, size);
    if (before > most - size)
        return NULL;
    unsigned char *taken = (unsigned char *)run + first + before;
    return size >= LARGE || make_present(taken, size) ? taken : NULL;
}
