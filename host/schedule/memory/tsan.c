/* libtsan.so: what compilers call with -fsanitize=thread, at each access of memory. Each atomic access is made here. */
#include <stdatomic.h>

#define SCHEDULED __attribute__((weak))
#include "memory.h"

#define CALLER ((uintptr_t)__builtin_return_address(0))

static void tell(const volatile void *at, size_t size, bool writes, uintptr_t caller)
{
    if (pif_schedule_access != NULL)
        pif_schedule_access(at, size, writes, caller);
}

static void begin(const volatile void *at, bool writes, uintptr_t caller)
{
    if (pif_schedule_atomic != NULL)
        pif_schedule_atomic(at, writes, caller);
}

static void end(const volatile void *at, size_t size, Atomic what, int order, uintptr_t caller)
{
    if (pif_schedule_atomic_done != NULL)
        pif_schedule_atomic_done(at, size, what, order, caller);
}

/* PLAIN ACCESSES */

#define PLAIN(name, size, writes) \
    void name(void *at); \
    void name(void *at) { tell(at, size, writes, CALLER); }
#define PLAIN_OF(size) \
    PLAIN(__tsan_read##size, size, false) \
    PLAIN(__tsan_write##size, size, true) \
    PLAIN(__tsan_volatile_read##size, size, false) \
    PLAIN(__tsan_volatile_write##size, size, true)
PLAIN_OF(1)
PLAIN_OF(2)
PLAIN_OF(4)
PLAIN_OF(8)
PLAIN_OF(16)

#define UNALIGNED_OF(size) \
    PLAIN(__tsan_unaligned_read##size, size, false) \
    PLAIN(__tsan_unaligned_write##size, size, true) \
    PLAIN(__tsan_unaligned_volatile_read##size, size, false) \
    PLAIN(__tsan_unaligned_volatile_write##size, size, true)
UNALIGNED_OF(2)
UNALIGNED_OF(4)
UNALIGNED_OF(8)
UNALIGNED_OF(16)

PLAIN(__tsan_vptr_read, sizeof(void *), false)

#define READ_WRITE_OF(size) \
    void __tsan_read_write##size(void *at); \
    void __tsan_read_write##size(void *at) { tell(at, size, true, CALLER); } \
    void __tsan_unaligned_read_write##size(void *at); \
    void __tsan_unaligned_read_write##size(void *at) { tell(at, size, true, CALLER); }
READ_WRITE_OF(1)
READ_WRITE_OF(2)
READ_WRITE_OF(4)
READ_WRITE_OF(8)
READ_WRITE_OF(16)

void __tsan_vptr_update(void **at, void *value);
void __tsan_vptr_update(void **at, void *value)
{
    if (*at != value)
        tell(at, sizeof *at, true, CALLER);
}

void __tsan_read_range(void *at, size_t size);
void __tsan_read_range(void *at, size_t size) { tell(at, size, false, CALLER); }

void __tsan_write_range(void *at, size_t size);
void __tsan_write_range(void *at, size_t size) { tell(at, size, true, CALLER); }

/* What stands in place of three calls of C, with clang. */
void *__tsan_memcpy(void *into, const void *from, size_t size);
void *__tsan_memcpy(void *into, const void *from, size_t size)
{
    tell(from, size, false, CALLER);
    tell(into, size, true, CALLER);
    return __builtin_memcpy(into, from, size);
}

void *__tsan_memmove(void *into, const void *from, size_t size);
void *__tsan_memmove(void *into, const void *from, size_t size)
{
    tell(from, size, false, CALLER);
    tell(into, size, true, CALLER);
    return __builtin_memmove(into, from, size);
}

void *__tsan_memset(void *into, int byte, size_t size);
void *__tsan_memset(void *into, int byte, size_t size)
{
    tell(into, size, true, CALLER);
    return __builtin_memset(into, byte, size);
}

/* ATOMIC ACCESSES */

#define ATOMIC_LOAD(bits, type) \
    type __tsan_atomic##bits##_load(const volatile type *at, int order); \
    type __tsan_atomic##bits##_load(const volatile type *at, int order) \
    { \
        begin(at, false, CALLER); \
        type value = __atomic_load_n(at, __ATOMIC_SEQ_CST); \
        end(at, sizeof *at, LOADS, order, CALLER); \
        return value; \
    }

#define ATOMIC_STORE(bits, type) \
    void __tsan_atomic##bits##_store(volatile type *at, type value, int order); \
    void __tsan_atomic##bits##_store(volatile type *at, type value, int order) \
    { \
        begin(at, true, CALLER); \
        __atomic_store_n(at, value, __ATOMIC_SEQ_CST); \
        end(at, sizeof *at, STORES, order, CALLER); \
    }

#define ATOMIC_CHANGE(bits, type, name, does) \
    type __tsan_atomic##bits##_##name(volatile type *at, type value, int order); \
    type __tsan_atomic##bits##_##name(volatile type *at, type value, int order) \
    { \
        begin(at, true, CALLER); \
        type before = does(at, value, __ATOMIC_SEQ_CST); \
        end(at, sizeof *at, CHANGES, order, CALLER); \
        return before; \
    }

#define COMPARE(bits, type, name) \
    int __tsan_atomic##bits##_compare_exchange_##name(volatile type *at, type *old, type new, int order, int failed); \
    int __tsan_atomic##bits##_compare_exchange_##name(volatile type *at, type *old, type new, int order, int failed) \
    { \
        begin(at, true, CALLER); \
        bool is_done = __atomic_compare_exchange_n(at, old, new, false, __ATOMIC_SEQ_CST, __ATOMIC_SEQ_CST); \
        end(at, sizeof *at, is_done ? CHANGES : LOADS, is_done ? order : failed, CALLER); \
        return is_done; \
    }

#define COMPARE_VALUE(bits, type) \
    type __tsan_atomic##bits##_compare_exchange_val(volatile type *at, type old, type new, int order, int failed); \
    type __tsan_atomic##bits##_compare_exchange_val(volatile type *at, type old, type new, int order, int failed) \
    { \
        begin(at, true, CALLER); \
        bool is_done = __atomic_compare_exchange_n(at, &old, new, false, __ATOMIC_SEQ_CST, __ATOMIC_SEQ_CST); \
        end(at, sizeof *at, is_done ? CHANGES : LOADS, is_done ? order : failed, CALLER); \
        return old; \
    }

#define ATOMICS_OF(bits, type) \
    ATOMIC_LOAD(bits, type) \
    ATOMIC_STORE(bits, type) \
    ATOMIC_CHANGE(bits, type, exchange, __atomic_exchange_n) \
    ATOMIC_CHANGE(bits, type, fetch_add, __atomic_fetch_add) \
    ATOMIC_CHANGE(bits, type, fetch_sub, __atomic_fetch_sub) \
    ATOMIC_CHANGE(bits, type, fetch_and, __atomic_fetch_and) \
    ATOMIC_CHANGE(bits, type, fetch_or, __atomic_fetch_or) \
    ATOMIC_CHANGE(bits, type, fetch_xor, __atomic_fetch_xor) \
    ATOMIC_CHANGE(bits, type, fetch_nand, __atomic_fetch_nand) \
    COMPARE(bits, type, strong) \
    COMPARE(bits, type, weak) \
    COMPARE_VALUE(bits, type)
ATOMICS_OF(8, uint8_t)
ATOMICS_OF(16, uint16_t)
ATOMICS_OF(32, uint32_t)
ATOMICS_OF(64, uint64_t)

void __tsan_atomic_thread_fence(int order);
void __tsan_atomic_thread_fence(int order)
{
    atomic_thread_fence(memory_order_seq_cst);
    if (pif_schedule_fence != NULL)
        pif_schedule_fence(order);
}

void __tsan_atomic_signal_fence(int order);
void __tsan_atomic_signal_fence(int order)
{
    (void)order;
    atomic_signal_fence(memory_order_seq_cst);
}

/* WHAT ISN'T NEEDED */

void __tsan_init(void);
void __tsan_init(void) {}

void __tsan_func_entry(void *caller);
void __tsan_func_entry(void *caller) { (void)caller; }

void __tsan_func_exit(void);
void __tsan_func_exit(void) {}
