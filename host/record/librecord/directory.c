/* The files of a recording in parts: in the directory RECORD_DIR, for each run one with all but the events, as
   4711-65f3a2b1.run, and the parts, as 4711-65f3a2b1.1. The directory is opened once, so that later parts need no
   rights to its path. */
#define _GNU_SOURCE
#include <errno.h>
#include <fcntl.h>
#include <signal.h>
#include <string.h>
#include <sys/mman.h>
#include <sys/stat.h>
#include <unistd.h>

#include "record.h"

enum { HIGH = 60 }; /* programs know the low numbers, and close them */
enum { NOT_OPENED, IS_BEING_OPENED, OPENED, REFUSED };

static const char *path;
static _Atomic int stage;
static int directory = -1;
static struct stat opened;

static void append_number(char *text, uint64_t number, unsigned base)
{
    char room[MOST_DIGITS + 1];

    strcat(text, digits_of(number, base, room));
}

void read_directory(const char *name) { path = name; }

bool records_in_parts(void) { return path != NULL; }

/* The program may have closed it, and may have another file by its number. */
static int the_directory(void)
{
    struct stat present;

    if (fstat(directory, &present) == 0 && present.st_dev == opened.st_dev && present.st_ino == opened.st_ino)
        return directory;
    int low = open(path, O_RDONLY | O_DIRECTORY | O_CLOEXEC);
    if (low < 0)
        return -1;
    directory = fcntl(low, F_DUPFD_CLOEXEC, HIGH);
    close(low);
    return directory < 0 || fstat(directory, &opened) != 0 ? -1 : directory;
}

static void name_run(char name[MOST_OF_RUN])
{
    struct timespec time;

    clock_gettime(CLOCK_REALTIME, &time);
    name[0] = '\0';
    append_number(name, (uint64_t)getpid(), 10);
    strcat(name, "-");
    append_number(name, (uint64_t)time.tv_sec * 1000000 + (uint64_t)time.tv_nsec / 1000, 16);
}

static int make_file_of_run(const char *name)
{
    char file_name[MOST_OF_RUN + 8] = "";
    int in = the_directory();

    if (in < 0)
        return errno;
    strcat(strcat(file_name, name), ".run");
    int file = openat(in, file_name, O_RDWR | O_CREAT | O_EXCL | O_CLOEXEC, 0666);
    if (file < 0)
        return errno;
    int why = make_parted_run(file);
    if (why != 0)
        unlinkat(in, file_name, 0);
    close(file);
    return why;
}

static bool make_all(void)
{
    char name[MOST_OF_RUN];

    name_run(name);
    int why = make_file_of_run(name);
    if (why != 0) {
        say_error("nothing is recorded: RECORD_DIR cannot be used", path, why);
        return false;
    }
    strcpy(run->name, name);
    atomic_store(&run->first_part, 1);
    return true;
}

/* Once. Another thread waits for the first, which no signal interrupts, and which isn't cancelled there. */
bool open_directory(void)
{
    int expected = NOT_OPENED, number = errno, state;
    sigset_t all, before;

    if (atomic_load_explicit(&stage, memory_order_acquire) >= OPENED)
        return atomic_load(&stage) == OPENED;
    sigfillset(&all);
    pthread_sigmask(SIG_BLOCK, &all, &before);
    pthread_setcancelstate(PTHREAD_CANCEL_DISABLE, &state);
    if (atomic_compare_exchange_strong(&stage, &expected, IS_BEING_OPENED))
        atomic_store(&stage, make_all() ? OPENED : REFUSED);
    while (atomic_load(&stage) == IS_BEING_OPENED)
        rest();
    pthread_setcancelstate(state, NULL);
    pthread_sigmask(SIG_SETMASK, &before, NULL);
    errno = number;
    return atomic_load(&stage) == OPENED;
}

/* By another thread; in the child of a fork that one isn't there. */
bool is_being_opened(void) { return atomic_load(&stage) == IS_BEING_OPENED; }

static void name_part(char name[MOST_OF_RUN + MOST_DIGITS + 2], uint64_t number)
{
    strcpy(name, run->name);
    strcat(name, ".");
    append_number(name, number, 10);
}

static void write_head(Head *head, uint64_t number)
{
    char line[MOST_OF_LINE + 8] = "part ";

    append_number(line, number, 10);
    strcat(strcat(strcat(line, " of "), run->name), "\n");
    memcpy(head->line, line, sizeof line);
    head->number = number;
    head->first_place = (number - 1) * EVENTS_OF_PART + 1;
    if (number == 1)
        atomic_store(&head->has_standing, true);
}

/* A page that is written first by a store costs far more than one of a file that has been written. Nor may a store find
   the file system full, since a signal would end the program. */
static bool fill(int file)
{
    static char zeros[SIZE_OF_PART - SIZE_OF_STANDING + PRESENT_OF_STANDING];
    size_t done = 0;

    while (done < sizeof zeros) {
        ssize_t size = pwrite(file, zeros + done, sizeof zeros - done, (off_t)done);
        if (size < 0 && errno == EINTR)
            continue;
        if (size <= 0)
            return false;
        done += (size_t)size;
    }
    return true;
}

static Head *map_part(int file)
{
    if (!may_be_large(SIZE_OF_PART)) {
        errno = EFBIG;
        return MAP_FAILED;
    }
    if (!fill(file) || ftruncate(file, SIZE_OF_PART) != 0)
        return MAP_FAILED;
    return mmap(NULL, SIZE_OF_PART, PROT_READ | PROT_WRITE, MAP_SHARED, file, 0);
}

/* Mapped, or NULL: then `why` is the number of an error, and there is no such file. */
Head *make_part(uint64_t number, int *why)
{
    char name[MOST_OF_RUN + MOST_DIGITS + 2];
    int in = the_directory();

    name_part(name, number);
    int file = in < 0 ? -1 : openat(in, name, O_RDWR | O_CREAT | O_EXCL | O_CLOEXEC, 0666);
    *why = errno;
    if (file < 0)
        return NULL;
    Head *mapped = map_part(file);
    *why = errno;
    close(file);
    if (mapped != MAP_FAILED) {
        write_head(mapped, number);
        return mapped;
    }
    unlinkat(in, name, 0);
    return NULL;
}

/* What can't be removed stays, and is passed over by who reads the recording. */
void drop_part(uint64_t number)
{
    static _Atomic bool is_said;
    char name[MOST_OF_RUN + MOST_DIGITS + 2];

    name_part(name, number);
    if (unlinkat(the_directory(), name, 0) != 0 && !atomic_exchange(&is_said, true))
        say_error("a part that isn't kept cannot be removed", name, errno);
}

void say_no_part(uint64_t number, int why)
{
    char name[MOST_OF_RUN + MOST_DIGITS + 2];

    name_part(name, number);
    say_error("the recording ends here: a part cannot be made", name, why);
}
