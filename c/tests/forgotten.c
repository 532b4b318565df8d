/* A core that nobody gives up. Under the sanitizers this has to fail, or their silence about the other tests would say
   nothing of memory. */
#include <string.h>

#include "pif.h"

int main(void)
{
    pif_core core = {0};
    uint32_t made = pif_core_new(&core, 1, 1, 1, 1);

    memset(&core, 0, sizeof core);
    return made == PIF_OK ? 0 : 2;
}
