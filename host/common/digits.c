/* Numbers as text, without the C library's printf, which may lock. */
#include "common.h"

const char *digits_of(uint64_t number, unsigned base, char room[MOST_DIGITS + 1])
{
    char *first = room + MOST_DIGITS;

    *first = '\0';
    do {
        *--first = "0123456789abcdef"[number % base];
        number /= base;
    } while (number > 0);
    return first;
}
