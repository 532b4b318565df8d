/* The heap: memory that is given back may be another thread's next, and nothing orders the two but the heap. */
#define _GNU_SOURCE
#include <dlfcn.h>
#include <malloc.h>
#include <sys/mman.h>

#define SCHEDULED __attribute__((weak))
#include "memory.h"

#define CALLER ((uintptr_t)__builtin_return_address(0))

/* glibc's own, under names that need not be looked for. */
void __libc_free(void *);
void *__libc_realloc(void *, size_t);

static void forget(void *at, size_t size, uintptr_t caller)
{
    if (at != NULL && pif_schedule_forget != NULL)
        pif_schedule_forget(at, size, caller);
}

void free(void *memory)
{
    forget(memory, memory == NULL ? 0 : malloc_usable_size(memory), CALLER);
    __libc_free(memory);
}

void *realloc(void *memory, size_t size)
{
    forget(memory, memory == NULL ? 0 : malloc_usable_size(memory), CALLER);
    return __libc_realloc(memory, size);
}

int munmap(void *memory, size_t size)
{
    int (*const below)(void *, size_t) = (int (*)(void *, size_t))dlsym(RTLD_NEXT, "munmap");

    forget(memory, size, CALLER);
    return below(memory, size);
}
