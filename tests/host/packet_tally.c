#include "packet_tally.h"

#include "counts.h"

uint64_t tally[KIND_COUNT];

static const char *const names[] = {
#define KIND(name, words) words,
    KINDS
#undef KIND
};

int tally_print(void) { return counts_print(tally, names, KIND_COUNT); }
