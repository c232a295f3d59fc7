#define _DEFAULT_SOURCE
#include "lent.h"

#include <stdio.h>
#include <stdlib.h>
#include <string.h>
#include <sys/mman.h>
#include <unistd.h>

void lent_open(struct lent *l, size_t element)
{
    size_t page = (size_t)sysconf(_SC_PAGESIZE);
    uint8_t *all = mmap(0, LENT_AREA + 2 * page, PROT_NONE, MAP_PRIVATE | MAP_ANONYMOUS, -1, 0);
    if (all == MAP_FAILED || mprotect(all + page, LENT_AREA, PROT_READ | PROT_WRITE)) {
        perror("lent_open");
        exit(2);
    }
    l->area = all + page;
    l->element = element;
}

/* Where the octets and their guards begin, and how many there are. */
static uint8_t *whole(const struct lent *l) { return l->at - l->before; }
static size_t whole_length(const struct lent *l) { return l->before + l->length + l->after; }

void lent_fill(struct lent *l, enum place place, size_t length)
{
    static unsigned turn; /* other octets each time; amid guards, another alignment */
    turn++;
    l->length = length;
    l->before = place == AT_START ? 0 : LENT_GUARD;
    l->after = place == AT_END ? 0 : LENT_GUARD;
    switch (place) {
    case AMID: l->at = l->area + LENT_GUARD + turn % 16 * l->element; break;
    case AT_END: l->at = l->area + LENT_AREA - length; break;
    case AT_START: l->at = l->area; break;
    }
    for (size_t i = 0; i < whole_length(l); i++)
        l->kept[i] = (uint8_t)((i + 1) * 167 + turn * 13);
    memcpy(whole(l), l->kept, whole_length(l));
}

void lent_copy(struct lent *l, enum place place, const uint8_t *octets, size_t length)
{
    lent_fill(l, place, length);
    memcpy(lent_expected(l), octets, length);
    memcpy(l->at, octets, length);
}

uint8_t *lent_expected(struct lent *l) { return l->kept + l->before; }

int lent_is_kept(const struct lent *l) { return memcmp(whole(l), l->kept, whole_length(l)) == 0; }
