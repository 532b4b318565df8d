/* merge SHARED HISTORY: writes what RECORD_SHARED=SHARED has recorded as one history, in the order of its stamps. The
   file SHARED stays as it is. Statuses: 0 it is written; 1 wrong words, or a file that can't be read or written; 3 no
   call was recorded. */
#include <errno.h>
#include <stdio.h>

#include "librecord/record.h"

int main(int count, char **words)
{
    if (count != 3) {
        fprintf(stderr, "merge: the words are SHARED HISTORY\n");
        return 1;
    }
    int why = read_run(words[1], SHARED_RUN);
    if (why == EILSEQ)
        say_error("this is no recording", words[1], 0);
    else if (why != 0 && why != ENODATA)
        say_error("this cannot be read", words[1], why);
    if (why != 0 && why != ENODATA)
        return 1;
    if (why == ENODATA || !atomic_load(&run->has_call))
        return 3;
    history_file = words[2];
    return write_history() ? 0 : 1;
}
