/* pif_record.h on a machine without any library: what is left open is the user's counter alone. */
unsigned long next_place(void);

#define PIF_COUNTER() next_place()
#define PIF_RECORD_HERE
#include "../pif_record.h"

int take(unsigned thread, unsigned mutex);

int take(unsigned thread, unsigned mutex)
{
    PIF_BEGIN(thread, "lock m%u", mutex);
    PIF_ANSWER(thread, 0);
    return 0;
}
