/* pif_record.h with a ring of four lines, and room for two that add: what is lost is said, and what is forgotten is
   gone. At the end a thread writes a line a whole round late, over another one. */
#include <stdio.h>

static unsigned long places;

#define PIF_COUNTER() (++places)
#define PIF_RECORD_LINES 4
#define PIF_RECORD_ADDED 2
#define PIF_RECORD_HERE
#include "../pif_record.h"

static void put(char character) { putchar(character); }

static void lock_and_unlock(unsigned thread)
{
    PIF_BEGIN(thread, "timedlock m%u %u", 1u, 20u);
    PIF_ANSWER(thread, 0);
    PIF_BEGIN(thread, "unlock m%u", 1u);
    PIF_ANSWER(thread, 0);
}

int main(void)
{
    PIF_ADD("thread %u", 10u);
    PIF_ADD("mutex normal robust");
    lock_and_unlock(1);
    printf("lost %lu\n", pif_dump(put));
    PIF_LINE("tick %u", 7u);
    printf("lost %lu\n", pif_dump(put));
    PIF_FORGET();
    printf("lost %lu\n", pif_dump(put));
    PIF_LINE("tick %u", 9u);
    printf("lost %lu\n", pif_dump(put));
    PIF_ADD("cond m%u", 1u);
    printf("lost %lu\n", pif_dump(put));
    unsigned long late = PIF_COUNTER();
    for (unsigned time = 10; time < 15; time++)
        PIF_LINE("tick %u", time);
    pif_note(late, (const char *)0, 0, "tick %u", 9u);
    printf("lost %lu\n", pif_dump(put));
    return 0;
}
