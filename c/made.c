/* What this library is: the Makefile says it, and each library has it, the proved one and the one that checks as it
   runs. include/pif.h doesn't declare it: a caller declares it as this does. */
#ifndef PIF_MADE
#error "the Makefile defines PIF_MADE"
#endif

const char *pif_made(void);

/* As "libpif 1.2.0, proved". */
const char *pif_made(void)
{
    return PIF_MADE;
}
