/* What is at which address. Nothing here waits: any thread may be preempted anywhere. */
#include "common.h"

struct Address {
    uintptr_t address;
    struct Address *next;
    _Atomic(void *) holds;
};

static _Atomic(Address *) *slot_of(const Table *table, uintptr_t address)
{
    uint32_t mixed = (uint32_t)(address >> 3 ^ address >> 35) * 2654435761u;

    return (_Atomic(Address *) *)&table->slots[mixed >> 16];
}

static Address *find_from(Address *first, uintptr_t address)
{
    while (first != NULL && first->address != address)
        first = first->next;
    return first;
}

static Address *find(const Table *table, uintptr_t address)
{
    return find_from(atomic_load_explicit(slot_of(table, address), memory_order_acquire), address);
}

/* Addresses are added in front and stay, so that a thread which reads needs no lock. */
static Address *find_or_add(Table *table, uintptr_t address)
{
    _Atomic(Address *) *slot = slot_of(table, address);
    Address *first = atomic_load(slot), *found = find_from(first, address);

    if (found != NULL)
        return found;
    Address *added = take_memory(sizeof *added);
    if (added == NULL)
        return NULL;
    added->address = address;
    do {
        found = find_from(first, address);
        added->next = first;
    } while (found == NULL && !atomic_compare_exchange_weak(slot, &first, added));
    return found != NULL ? found : added;
}

void *held_at(const Table *table, uintptr_t address)
{
    Address *found = find(table, address);

    return found == NULL ? NULL : atomic_load_explicit(&found->holds, memory_order_acquire);
}

bool hold_at(Table *table, uintptr_t address, void *value)
{
    Address *found = find_or_add(table, address);

    if (found != NULL)
        atomic_store(&found->holds, value);
    return found != NULL;
}

bool replace_at(Table *table, uintptr_t address, void *old, void *new)
{
    Address *found = find_or_add(table, address);

    if (found != NULL)
        atomic_compare_exchange_strong(&found->holds, &old, new);
    return found != NULL;
}

void forget_at(Table *table, uintptr_t address)
{
    Address *found = find(table, address);

    if (found != NULL)
        atomic_store(&found->holds, NULL);
}
