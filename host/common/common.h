/* What the libraries share that stand before glibc in a program's process: librecord and libschedule. */
#ifndef PIF_COMMON_H
#define PIF_COMMON_H

#include <pthread.h>
#include <stdatomic.h>
#include <stdbool.h>
#include <stddef.h>
#include <stdint.h>
#include <time.h>

enum { MOST_DIGITS = 20, MOST_OF_LINE = 120 }; /* of a number, and of a line of a history */
enum { LEAST_PRIORITY = 1 };                   /* also of threads that aren't of real time: all are of one */
enum { SECOND = 1000000000 };                  /* in nanoseconds */

/* Where the call of the function that stands around this returns to. */
#define CALLER ((uintptr_t)__builtin_return_address(0))

/* Another name of a call, by which programs of older glibcs make it. */
#define OLD_NAME(old, name) extern __typeof__(name) old_##name __asm__(old) __attribute__((alias(#name), copy(name)))

/* Bits of glibc's pthread_mutex_t, in __data.__kind. A destroyed mutex has the kind -1. */
enum {
    KIND_TYPE = 3,
    KIND_ROBUST = 16,
    KIND_INHERIT = 32,
    KIND_PROTECT = 64,
    KIND_SHARED = 128, /* also of each robust mutex */
    KIND_COMPARED = 255,
};

/* glibc.c */
void *below(const char *name);     /* the call of that name in the libraries below this one; NULL if there is none */
void *new_below(const char *name); /* likewise of condition variables, of which glibc has two versions */
bool is_real_time(int policy);
int plain_policy(int policy); /* without what it says of the threads that such a one makes */
bool is_time(clockid_t, const struct timespec *); /* by a clock on which pthread calls wait */

/* The priority of a thread that is made with these attributes, or NULL, by a thread of that priority. */
int priority_by(const pthread_attr_t *, int priority_of_maker);

/* memory.c: never given back; NULL if there is none */
void *map_memory(size_t size);
void *take_memory(size_t size);

/* table.c: what is at which address. Nothing waits, so any thread may be preempted anywhere. Addresses stay. */
enum { SLOTS_OF_TABLE = 65536 };

typedef struct Address Address;
typedef struct {
    _Atomic(Address *) slots[SLOTS_OF_TABLE];
} Table;

void *held_at(const Table *, uintptr_t address);          /* NULL: nothing */
bool hold_at(Table *, uintptr_t address, void *);         /* false: there is no memory */
bool replace_at(Table *, uintptr_t address, void *old, void *new); /* nothing changes if another value stands there */
void forget_at(Table *, uintptr_t address);

/* maps.c: what is mapped in this process */
typedef struct {
    uint64_t device, file, offset; /* of the address: in the file, or in what is shared without one */
    bool is_shared;
    bool is_segment; /* of System V: its number is none of a file's */
} Mapping;

char *text_of_maps(size_t *took);        /* /proc/self/maps; NULL if it can't be read. munmap it, with what it took */
uintptr_t hex_of(const char **text);     /* the number in front, which is passed over */
bool find_mapping(uintptr_t address, Mapping *); /* false: there is none, or it can't be read */

/* symbols.c: names of addresses, as `mutex+0x60 in program`; NULL if there is none */
typedef struct Names Names;

void read_maps(void);
Names *names_by(char *maps); /* of another process, by the text of its maps, which is changed; they are used then */
void use_names(Names *);
const char *name_of_object(uintptr_t address);
const char *name_of_call(uintptr_t returns_to);

/* digits.c: the digits of a number, at the end of the room; the first of them */
const char *digits_of(uint64_t number, unsigned base, char room[MOST_DIGITS + 1]);

#endif
