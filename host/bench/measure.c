/* measure.c: contestants that run in rounds, what they cost, and the stack that a call takes. */
#define _GNU_SOURCE
#include "measure.h"

#include <sched.h>
#include <stdio.h>
#include <stdlib.h>
#include <string.h>
#include <time.h>
#include <ucontext.h>

void measure_pin(void)
{
    cpu_set_t allowed, one;
    if (sched_getaffinity(0, sizeof allowed, &allowed) != 0)
        return;
    for (int cpu = CPU_SETSIZE - 1; cpu >= 0; cpu--) {
        if (CPU_ISSET(cpu, &allowed)) {
            CPU_ZERO(&one);
            CPU_SET(cpu, &one);
            sched_setaffinity(0, sizeof one, &one);
            return;
        }
    }
}

/* ------------------------------------------------------------------------------------------------------------------- Rounds */

static double now(void)
{
    struct timespec t;
    clock_gettime(CLOCK_THREAD_CPUTIME_ID, &t);
    return (double)t.tv_sec * 1e9 + (double)t.tv_nsec;
}

double measure_turns(void (*here)(void *job), void *job, size_t times)
{
    double start = now();
    for (size_t i = 0; i < times; i++)
        here(job);
    return now() - start;
}

static double turns(const struct contestant *c, size_t times)
{
    return c->here != NULL ? measure_turns(c->here, c->job, times) : c->there(c->job, times);
}

static int takes_part(const struct contestant *c)
{
    return c->here != NULL || c->there != NULL;
}

/* The least power of two of turns that takes about `batch` ns. */
static size_t calibrate(const struct contestant *c, double batch)
{
    size_t times = 1;
    while (turns(c, times) < batch * 0.7)
        times *= 2;
    return times;
}

void measure_rounds(struct rounds *r, const struct contestant *contestants, int n, int rounds, double batch)
{
    size_t times[MOST_CONTESTANTS];
    r->rounds = rounds;
    for (int k = 0; k < n; k++) {
        if (takes_part(&contestants[k]))
            times[k] = calibrate(&contestants[k], batch);
    }
    for (int i = 0; i < rounds; i++) {
        for (int j = 0; j < n; j++) {
            int k = (i + j) % n;
            if (takes_part(&contestants[k]))
                r->ns[k][i] = turns(&contestants[k], times[k]) / (double)times[k];
        }
    }
}

static int compare(const void *a, const void *b)
{
    double x = *(const double *)a, y = *(const double *)b;
    return (x > y) - (x < y);
}

static struct spread spread_of(double *values, int n)
{
    qsort(values, (size_t)n, sizeof *values, compare);
    return (struct spread){values[n / 10], values[n / 2], values[n - 1 - n / 10]};
}

struct spread measure_cost(const struct rounds *r, int k)
{
    double values[MOST_ROUNDS];
    memcpy(values, r->ns[k], sizeof values);
    return spread_of(values, r->rounds);
}

struct spread measure_ratio(const struct rounds *r, int k, int of)
{
    double values[MOST_ROUNDS];
    for (int i = 0; i < r->rounds; i++)
        values[i] = r->ns[of][i] / r->ns[k][i];
    return spread_of(values, r->rounds);
}

const char *measure_commas(double n)
{
    static char buffers[16][32];
    static int next;
    char *buffer = buffers[next++ % 16], digits[24];
    int length = snprintf(digits, sizeof digits, "%.0f", n), at = 0;
    for (int i = 0; i < length; i++) {
        if (i > 0 && (length - i) % 3 == 0)
            buffer[at++] = ',';
        buffer[at++] = digits[i];
    }
    buffer[at] = 0;
    return buffer;
}

/* -------------------------------------------------------------------------------------------------------------------- Stack */

uintptr_t measure_mark;

static ucontext_t outside, inside;
static void (*current_call)(void *);
static void *current_job;

static void enter(void)
{
    current_call(current_job);
}

/* Calls on a stack that is painted, and looks for the lowest octet that changed. */
static size_t stack_under(int paint, void (*call)(void *), void *job)
{
    static uint8_t stack[1 << 20] __attribute__((aligned(64)));
    memset(stack, paint, sizeof stack);
    getcontext(&inside);
    inside.uc_stack.ss_sp = stack;
    inside.uc_stack.ss_size = sizeof stack;
    inside.uc_link = &outside;
    current_call = call;
    current_job = job;
    makecontext(&inside, enter, 0);
    swapcontext(&outside, &inside);
    size_t i = 0;
    while (i < sizeof stack && stack[i] == (uint8_t)paint)
        i++;
    return (size_t)(measure_mark - (uintptr_t)(stack + i));
}

size_t measure_stack(void (*call)(void *job), void *job)
{
    /* Two paints: the lowest octet written may have the value of one. */
    size_t a = stack_under(0xa5, call, job), b = stack_under(0x5a, call, job);
    return a > b ? a : b;
}
