/* pif_record.h with a clock: the dump has a tick before each line by which a deadline may have been reached. */
#include <stdio.h>

static unsigned long places;
static unsigned now;

#define PIF_COUNTER() (++places)
#define PIF_CLOCK() now
#define PIF_RECORD_HERE
#include "../pif_record.h"

static void put(char character) { putchar(character); }

static void use(void)
{
    now = 1;
    PIF_BEGIN(1u, "lock m%u", 1u);
    PIF_ANSWER(1u, 0);
    now = 5;
    PIF_BEGIN(2u, "timedlock m%u %u", 1u, 40u);
    now = 6;
    PIF_BEGIN(3u, "timedlock m%u %u", 1u, 20u);
    now = 19;
    PIF_BEGIN(4u, "trylock m%u", 1u);
    now = 25; /* t3 may have given up by now, and t2 has not */
    PIF_ANSWER(4u, 16);
    now = 24; /* read by another thread, a little earlier */
    PIF_ANSWER(3u, 110);
    now = 40;
    PIF_ANSWER(2u, 110);
    now = 60;
    PIF_BEGIN(2u, "timedlock m%u %u", 1u, 50u);
}

int main(void)
{
    for (unsigned thread = 1; thread <= 4; thread++)
        PIF_ADD("thread %u", 10u);
    PIF_ADD("mutex normal");
    use();
    return pif_dump(put) == 0 ? 0 : 1;
}
