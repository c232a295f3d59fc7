#include "counts.h"

#include <stdio.h>

int counts_print(const uint64_t *counts, const char *const *names, int n)
{
    int is_lacking = 0;
    for (int k = 0; k < n; k++) {
        printf("%8llu %s\n", (unsigned long long)counts[k], names[k]);
        if (!counts[k]) {
            printf("FAILED: no input of this kind was tried\n");
            is_lacking = 1;
        }
    }
    return is_lacking;
}
