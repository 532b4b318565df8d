/* The kernel's calls on words. */
#ifndef PIF_FUTEX_H
#define PIF_FUTEX_H

#include <linux/futex.h>
#include <stdint.h>
#include <time.h>

/* The futex call from one place of the program; it answers 0 or more, or an error number below 0. `last` is what the
   kernel reads as a time, or for a requeue as a number. hold.c lets this place alone enter the kernel. */
long futex_call(uint32_t *word, long operation, uint32_t value, const void *last, uint32_t *other, uint32_t value3);

/* The instruction behind that call's entry to the kernel. */
extern const char futex_called[];

#endif
