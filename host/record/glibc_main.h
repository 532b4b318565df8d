/* How glibc's tests are started, in short: in one process, so that it is the test that is recorded. The recorder writes
   what there is when the time is over, at SIGALRM. */
#include "glibc_stubs.h"

#ifndef TIMEOUT
#define TIMEOUT 20
#endif

int main(int count, char **words)
{
    (void)count, (void)words;
    setvbuf(stdout, NULL, _IONBF, 0);
#ifdef PREPARE
    PREPARE(count, words);
#endif
    alarm(TIMEOUT);
#ifdef TEST_FUNCTION
    int status = TEST_FUNCTION;
#else
    int status = ((int (*)(int, char **))do_test)(count, words); /* some of them take the words */
#endif
    return status != 0 ? status : stub_failures > 0;
}
