#include "tally.h"

#include "counts.h"

#include <stdio.h>

uint64_t tally[KIND_COUNT], tally_e[128];

static const char *const names[] = {
#define KIND(name, words) words,
    KINDS
#undef KIND
};

int tally_print(void)
{
    int is_lacking = counts_print(tally, names, KIND_COUNT);
    for (int e = 0; e < 128; e++)
        if (!tally_e[e]) {
            printf("FAILED: no input with e = %d was tried\n", e);
            is_lacking = 1;
        }
    return is_lacking;
}
