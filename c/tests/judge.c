/* Judges a history, and prints what `pif judge` prints of it. The first room has one byte, so that the library says how
   much it wants.

       judge < HISTORY */
#include <stdio.h>
#include <stdlib.h>

#include "jobs.h"

enum { MOST = 1 << 20 };

int main(void)
{
    uint8_t *history = malloc(MOST), one[1] = {7};
    size_t length = fread(history, 1, MOST, stdin);
    pif_text wanted = pif_judge(history, length, STATES, false, one, sizeof one);
    uint8_t *room = malloc(wanted.wanted);
    pif_text told = pif_judge(history, length, STATES, false, room, wanted.wanted);
    bool same = one[0] == 7 && told.ended == wanted.ended && told.wanted == wanted.wanted;

    if (same)
        fwrite(room, 1, told.wanted, stdout);
    free(room);
    free(history);
    return same ? 0 : 1;
}
