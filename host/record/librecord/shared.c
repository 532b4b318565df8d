/* Which mutex or condition variable is in memory that several processes map: it is known by the file, and the place in
   it. What the program unmaps is forgotten, since something else may be mapped there. */
#define _GNU_SOURCE
#include <sys/mman.h>
#include <sys/shm.h>
#include <sys/syscall.h>
#include <unistd.h>

#include "record.h"

/* An address of this process at which something of shared memory was met. */
typedef struct Met {
    struct Met *next;
    Table *table;
    uintptr_t address;
} Met;

static _Atomic(Met *) all_met;

static int (*real_munmap)(void *, size_t);
static int (*real_shmdt)(const void *);

void find_maps(void)
{
    *(void **)&real_munmap = below("munmap");
    *(void **)&real_shmdt = below("shmdt");
}

static bool is_of(const Place *place, const Table *table, const Mapping *mapping)
{
    return place->is_mutex == (table == &mutexes) && place->device == mapping->device && place->file == mapping->file
           && place->offset == mapping->offset && place->is_segment == mapping->is_segment;
}

static Place *find_from(Place *first, const Table *table, const Mapping *mapping)
{
    while (first != NULL && !is_of(first, table, mapping))
        first = first->next;
    return first;
}

/* Places are added in front and stay, as addresses do. */
static Place *find_or_add(const Table *table, const Mapping *mapping)
{
    uint32_t mixed = (uint32_t)(mapping->offset >> 3 ^ mapping->file << 7 ^ mapping->device) * 2654435761u;
    _Atomic(Place *) *slot = &run->places[mixed % SLOTS_OF_PLACES];
    Place *first = atomic_load(slot), *found = find_from(first, table, mapping);
    Place *added = found != NULL ? NULL : take_of_run(sizeof *added);

    if (added == NULL)
        return found;
    added->device = mapping->device;
    added->file = mapping->file;
    added->offset = mapping->offset;
    added->is_segment = mapping->is_segment;
    added->is_mutex = table == &mutexes;
    do {
        found = find_from(first, table, mapping);
        added->next = first;
    } while (found == NULL && !atomic_compare_exchange_weak(slot, &first, added));
    return found != NULL ? found : added;
}

static bool note_met(Table *table, uintptr_t address)
{
    Met *met = take_memory(sizeof *met);

    if (met == NULL)
        return false;
    met->table = table;
    met->address = address;
    met->next = atomic_load(&all_met);
    while (!atomic_compare_exchange_weak(&all_met, &met->next, met))
        ;
    return true;
}

Memory memory_at(Table *table, uintptr_t address, Place **place)
{
    Mapping mapping;

    if (!find_mapping(address, &mapping))
        return UNKNOWN_MEMORY;
    if (!mapping.is_shared)
        return OWN_MEMORY;
    *place = find_or_add(table, &mapping);
    return *place != NULL && note_met(table, address) ? SHARED_MEMORY : UNKNOWN_MEMORY;
}

static void forget_range(const void *first, size_t size)
{
    for (const Met *met = atomic_load(&all_met); met != NULL; met = met->next)
        if (met->address - (uintptr_t)first < size)
            forget_at(met->table, met->address);
}

/* An allocator may call it while the calls below are being found. */
int munmap(void *first, size_t size)
{
    be_ready();
    int answer = real_munmap != NULL ? real_munmap(first, size) : (int)syscall(SYS_munmap, first, size);
    if (answer == 0)
        forget_range(first, size);
    return answer;
}

/* How large the segment is isn't known here. */
int shmdt(const void *first)
{
    be_ready();
    int answer = real_shmdt(first);
    if (answer == 0)
        forget_range(first, SIZE_MAX - (uintptr_t)first);
    return answer;
}
