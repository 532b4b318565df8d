/* What pif-host and each_instruction are on another system than Linux on x86-64. */
#include <stdio.h>

int main(void)
{
    fputs("pif-host: this machine can't be asked: it is not Linux on x86-64\n", stderr);
    return 7;
}
