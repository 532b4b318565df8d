/* What libtsan.so of this folder tells libschedule.so, if that is loaded. A program that is compiled with
   -fsanitize=thread and linked with it runs as ever without. */
#ifndef PIF_SCHEDULE_MEMORY_H
#define PIF_SCHEDULE_MEMORY_H

#include <stdbool.h>
#include <stddef.h>
#include <stdint.h>

/* What an atomic access does. */
typedef enum { LOADS, STORES, CHANGES } Atomic;

#ifndef SCHEDULED
#define SCHEDULED
#endif

/* Before a plain access. */
SCHEDULED void pif_schedule_access(const volatile void *at, size_t size, bool writes, uintptr_t caller);

/* Before an atomic one, and behind it. The order is one of C11. */
SCHEDULED void pif_schedule_atomic(const volatile void *at, bool writes, uintptr_t caller);
SCHEDULED void pif_schedule_atomic_done(const volatile void *at, size_t size, Atomic, int order, uintptr_t caller);
SCHEDULED void pif_schedule_fence(int order);

/* This memory is given back. Nobody may use it meanwhile, and what is known of it doesn't hold of the next there. */
SCHEDULED void pif_schedule_forget(const volatile void *at, size_t size, uintptr_t caller);

#endif
