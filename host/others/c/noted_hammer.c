/* What the hammer needs if its calls of pthreads note themselves. */
#include "hammer.h"
#include "noted.h"

unsigned mutex_of(unsigned variable) { return (variable - 1) % orders.mutexes + 1; }

void name_thread(unsigned number) { (void)number; }

bool use_rust(const char *name, char **words)
{
    (void)name;
    (void)words;
    return false;
}

bool use_library(const char *file, char **words)
{
    (void)file;
    (void)words;
    return false;
}

bool write_history(void) { return write_noted(); }

__attribute__((constructor)) static void begin(void) { write_when_hung(); }
