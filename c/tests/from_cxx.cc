// The header from C++, and the shared library.
#include "pif_log.h"
#include "pif_target.h"

int main()
{
    pif_core core = {};
    if (pif_core_new(&core, 2, 1, 0, 1) != PIF_OK)
        return 1;
    uint32_t thread = pif_add_thread(&core, 10).number, mutex = pif_add_mutex(&core, PIF_NORMAL, false).number;
    pif_seen seen = pif_call(&core, thread, pif_lock(mutex));
    pif_core_free(&core);
    return seen.what == PIF_ANSWERED && seen.detail == PIF_DONE ? 0 : 1;
}
