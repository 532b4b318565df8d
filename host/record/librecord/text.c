/* Text into the history's file and to standard error. */
#define _GNU_SOURCE
#include <errno.h>
#include <string.h>
#include <sys/uio.h>
#include <unistd.h>

#include "record.h"

enum { ROOM = 1 << 16, MOST_PARTS = 8 };

static char text[ROOM];
static size_t length;
static int failed; /* 0, or the number of the first error */
static bool is_comment;
static size_t left_of_comment;

static void put_bytes(const char *bytes, size_t size)
{
    if (size > ROOM - length) {
        int why = write_file(text, length);
        failed = failed != 0 ? failed : why;
        length = 0;
    }
    memcpy(text + length, bytes, size);
    length += size;
}

/* What names hold that isn't of printable ASCII stands as a question mark. */
static void put_in_comment(const char *words)
{
    for (; *words != '\0' && left_of_comment > 0; words++, left_of_comment--)
        put_bytes(*words >= ' ' && *words <= '~' ? words : "?", 1);
}

void put_text(const char *words)
{
    if (is_comment)
        put_in_comment(words);
    else
        put_bytes(words, strlen(words));
}

void put_number(uint64_t number)
{
    char room[MOST_DIGITS + 1];

    put_text(digits_of(number, 10, room));
}

void put_name(char letter, uint32_t number)
{
    const char name[] = {letter, '\0'};

    put_text(name);
    put_number(number);
}

void begin_comment(void)
{
    is_comment = true;
    left_of_comment = MOST_OF_LINE;
    put_text("# ");
}

void end_line(void)
{
    is_comment = false;
    put_bytes("\n", 1);
}

int open_text(const char *name) { return open_file(name); }

int open_growing_text(const char *name) { return open_in_place(name); }

/* 0, or the number of an error. */
int write_text_so_far(void)
{
    int why = failed != 0 ? failed : write_file(text, length);

    failed = why;
    length = 0;
    return why;
}

/* If the file has the whole text now, 0; else it is what it was. */
int close_text(const char *name)
{
    int why = write_file(text, length);

    length = 0;
    return close_file(name, failed != 0 ? failed : why);
}

/* One line to standard error. */
static void say_parts(const char *const parts[])
{
    struct iovec line[MOST_PARTS];
    int count = 0;

    for (; parts[count] != NULL; count++)
        line[count] = (struct iovec){(void *)parts[count], strlen(parts[count])};
    while (writev(STDERR_FILENO, line, count) < 0 && errno == EINTR)
        ;
}

/* The number is left out where nothing stands behind it. */
void say(const char *before, uint64_t number, const char *behind)
{
    char room[MOST_DIGITS + 1];
    const char *digits = behind == NULL ? "" : digits_of(number, 10, room);

    say_parts((const char *const[]){"librecord: ", before, digits, behind == NULL ? "" : behind, "\n", NULL});
}

void say_error(const char *what, const char *file, int error)
{
    const char *known = strerrordesc_np(error), *why = known == NULL ? "?" : known;

    say_parts((const char *const[]){"librecord: ", what, ": ", file, error == 0 ? "" : ": ", error == 0 ? "" : why, "\n",
                                    NULL});
}
