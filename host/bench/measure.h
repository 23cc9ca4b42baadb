/*
 * measure.h: contestants that run in rounds, what they cost, and the stack that a call takes.
 */
#ifndef MEASURE_H
#define MEASURE_H

#include <stddef.h>
#include <stdint.h>

/* Puts this process on one processor, the last that it may use. */
void measure_pin(void);

/* A contestant does its job here, or has it done so many times over in another process, which gives the ns that took.
 * One with neither is passed over. */
struct contestant {
    void (*here)(void *job);
    double (*there)(void *job, size_t times);
    void *job;
};

/* The processor time of this thread for so many turns, in ns. */
double measure_turns(void (*here)(void *job), void *job, size_t times);

enum { MOST_ROUNDS = 256, MOST_CONTESTANTS = 10 };

/* The ns of one turn of each contestant, by round. */
struct rounds {
    int rounds;
    double ns[MOST_CONTESTANTS][MOST_ROUNDS];
};

/* Runs all contestants in each round, another one first each time; each for about `batch` ns, one turn at least. */
void measure_rounds(struct rounds *r, const struct contestant *contestants, int n, int rounds, double batch);

struct spread {
    double low; /* a tenth of the rounds lie below */
    double median;
    double high; /* a tenth of the rounds lie above */
};

/* The ns of a turn of contestant k. */
struct spread measure_cost(const struct rounds *r, int k);

/* How fast contestant k is, as a part of contestant `of`, round by round. */
struct spread measure_ratio(const struct rounds *r, int k, int of);

/* The octets of stack that a call writes below the mark, which it sets just before it calls the engine: what it hands over by
 * value counts, the place of the answer does not. */
size_t measure_stack(void (*call)(void *job), void *job);

extern uintptr_t measure_mark;

#define MEASURE_MARK() __asm__ volatile("movq %%rsp, %0" : "=m"(measure_mark) : : "memory")

/* A whole number with commas, in one of a few buffers that are used in turn. */
const char *measure_commas(double n);

#endif
