/* Accesses of memory by two threads: in order, or races. */
#include <stdatomic.h>
#include <stdlib.h>

#include "features.h"

static int value, *shared;
static char bytes[2];
static atomic_int flag;

static void *write_value(void *unused)
{
    value = 1;
    return unused;
}

static void *read_value(void *unused)
{
    volatile int found = value;

    (void)found;
    return unused;
}

static void writes_twice(void) { run_two(write_value, write_value); }

static void reads_and_writes(void) { run_two(read_value, write_value); }

static void reads_twice(void) { run_two(read_value, read_value); }

static void *write_first(void *unused)
{
    bytes[0] = 1;
    return unused;
}

static void *write_second(void *unused)
{
    bytes[1] = 1;
    return unused;
}

static void neighbours(void)
{
    run_two(write_first, write_second);
    CHECK(bytes[0] == 1 && bytes[1] == 1);
}

static void pass_value(memory_order order)
{
    value = 1;
    atomic_store_explicit(&flag, 1, order);
}

static void take_value(memory_order order)
{
    while (atomic_load_explicit(&flag, order) == 0)
        continue;
    if (order == memory_order_relaxed)
        atomic_thread_fence(memory_order_acquire);
    CHECK(value == 1);
}

static void *release_value(void *unused)
{
    pass_value(memory_order_release);
    return unused;
}

static void *acquire_value(void *unused)
{
    take_value(memory_order_acquire);
    return unused;
}

static void releases(void) { run_two(release_value, acquire_value); }

/* A fence before what is relaxed, and one behind it. */
static void *fence_value(void *unused)
{
    value = 1;
    atomic_thread_fence(memory_order_release);
    atomic_store_explicit(&flag, 1, memory_order_relaxed);
    return unused;
}

static void *take_by_fence(void *unused)
{
    take_value(memory_order_relaxed);
    return unused;
}

static void fences(void) { run_two(fence_value, take_by_fence); }

static void *pass_relaxed(void *unused)
{
    pass_value(memory_order_relaxed);
    return unused;
}

static void relaxes(void) { run_two(pass_relaxed, acquire_value); }

/* The second one's memory was the first one's, and is its own. */
static void *use_heap(void *unused)
{
    for (int i = 0; i < 3; i++) {
        int *own = malloc(sizeof *own);
        *own = i;
        CHECK(*own == i);
        free(own);
    }
    return unused;
}

static void own_memory(void)
{
    pthread_t first = start(use_heap, NULL);

    pthread_detach(first);
    run_two(use_heap, use_heap);
}

static void *use_shared(void *unused)
{
    *shared = 1;
    return unused;
}

static void *free_shared(void *unused)
{
    free(shared);
    return unused;
}

static void frees_in_use(void)
{
    shared = malloc(sizeof *shared);
    run_two(use_shared, free_shared);
}

const Feature memory_features[] = {
    {"writes_twice", writes_twice}, {"reads_and_writes", reads_and_writes}, {"reads_twice", reads_twice},
    {"neighbours", neighbours},     {"releases", releases},                 {"fences", fences},
    {"relaxes", relaxes},           {"own_memory", own_memory},             {"frees_in_use", frees_in_use},
    {NULL, NULL},
};
