/* Memory of the system's, for what is noted: malloc may be the program's own, and may lock. */
#define _GNU_SOURCE
#include <sys/mman.h>

#include "common.h"

enum { POOL = 256 << 20, ALIGNMENT = 16 };

static _Atomic(unsigned char *) pool;
static _Atomic size_t taken_from_pool;

/* Pages are the system's until they are written. */
void *map_memory(size_t size)
{
    void *memory = mmap(NULL, size, PROT_READ | PROT_WRITE, MAP_PRIVATE | MAP_ANONYMOUS | MAP_NORESERVE, -1, 0);

    return memory == MAP_FAILED ? NULL : memory;
}

static unsigned char *the_pool(void)
{
    unsigned char *present = atomic_load(&pool);

    if (present != NULL)
        return present;
    unsigned char *mapped = map_memory(POOL);
    if (mapped != NULL && !atomic_compare_exchange_strong(&pool, &present, mapped)) {
        munmap(mapped, POOL);
        return present;
    }
    return mapped;
}

/* Zeroed. */
void *take_memory(size_t size)
{
    unsigned char *first = the_pool();

    size = (size + ALIGNMENT - 1) / ALIGNMENT * ALIGNMENT;
    if (first == NULL || atomic_load(&taken_from_pool) > POOL - size)
        return NULL;
    size_t before = atomic_fetch_add(&taken_from_pool, size);
    return before > POOL - size ? NULL : first + before;
}
