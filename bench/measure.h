/*
 * Measuring: the least time of one call, out of many timed rounds of calls; several kinds of call by turns.
 */
#ifndef MEASURE_H
#define MEASURE_H

#include <time.h>

#define MEASURE_ROUNDS 151

/* Microseconds of this process on the processor: what other processes do meanwhile is not counted. */
static inline double measure_now(void)
{
    struct timespec t;
    clock_gettime(CLOCK_PROCESS_CPUTIME_ID, &t);
    return (double)t.tv_sec * 1e6 + (double)t.tv_nsec / 1e3;
}

/* A call to be timed, the i-th of all. */
typedef void measured(void *state, unsigned i);

/* Microseconds of one call, in the r-th round of so many calls. */
static inline double measure_round(measured *call, void *state, unsigned r, unsigned calls)
{
    double began = measure_now();
    for (unsigned i = 0; i < calls; i++)
        call(state, r * calls + i);
    return (measure_now() - began) / calls;
}

/* So many calls, a multiple of `set`, that a round takes 200 microseconds at least, beside which reading the clock is nothing. */
static inline unsigned measure_calls(measured *call, void *state, unsigned set)
{
    unsigned calls = set;
    while (calls * measure_round(call, state, 0, calls) < 200)
        calls *= 2;
    return calls;
}

/* What is timed by turns: calls, each with its state, and the least microseconds of each. */
#define MEASURE_MOST 16

struct measured {
    measured *call;
    void *state;
    double least;
};

/* The least microseconds of one call of each, in rounds by turns so that all meet the same machine: what else that does only adds to them. Calls
   differ, and repeat after `set`: a round has each of them as often, so that the least is not that of the easiest. */
static inline void measure_by_turns(struct measured *each, unsigned count, unsigned set)
{
    unsigned calls[MEASURE_MOST];
    for (unsigned k = 0; k < count; k++) {
        calls[k] = measure_calls(each[k].call, each[k].state, set);
        each[k].least = measure_round(each[k].call, each[k].state, 0, calls[k]);
    }
    for (unsigned r = 1; r < MEASURE_ROUNDS; r++)
        for (unsigned k = 0; k < count; k++) {
            double time = measure_round(each[k].call, each[k].state, r, calls[k]);
            if (time < each[k].least)
                each[k].least = time;
        }
}

/* .. of two, with one state. */
static inline void measure_both(measured *first, measured *second, void *state, unsigned set, double least[2])
{
    struct measured both[2] = { { first, state, 0 }, { second, state, 0 } };
    measure_by_turns(both, 2, set);
    least[0] = both[0].least;
    least[1] = both[1].least;
}

#endif
