/*
 * planes.c: what rearranging a payload for the store costs, and restoring it.
 *
 * Blosc's shuffle with elements of nine octets makes the same octets, its unshuffle the inverse; it is called on the whole payload.
 */
#include "planes.h"

#include "jazmotip.h"
#include "measure.h"
#include "work.h"

#include <stdio.h>
#include <stdlib.h>
#include <string.h>

/* -------------------------------------------------------------------------------------------------------------- The same in C */

enum { BLOCK_EQS = 512, GROUP = 3 };

static size_t block_end(size_t from, size_t eqs)
{
    return eqs - from > BLOCK_EQS ? from + BLOCK_EQS : eqs;
}

static void c_rearrange(const uint8_t *restrict payload, uint8_t *restrict output, size_t eqs)
{
    for (size_t from = 0; from < eqs; from = block_end(from, eqs)) {
        size_t to = block_end(from, eqs);
        for (size_t c = 0; c < JAZMOTIP_EQ_OCTETS; c += GROUP) {
            for (size_t e = from; e < to; e++) {
                output[eqs * c + e] = payload[9 * e + c];
                output[eqs * (c + 1) + e] = payload[9 * e + c + 1];
                output[eqs * (c + 2) + e] = payload[9 * e + c + 2];
            }
        }
    }
}

static void c_restore(const uint8_t *restrict payload, uint8_t *restrict output, size_t eqs)
{
    for (size_t from = 0; from < eqs; from = block_end(from, eqs)) {
        size_t to = block_end(from, eqs);
        for (size_t c = 0; c < JAZMOTIP_EQ_OCTETS; c += GROUP) {
            for (size_t e = from; e < to; e++) {
                output[9 * e + c] = payload[eqs * c + e];
                output[9 * e + c + 1] = payload[eqs * (c + 1) + e];
                output[9 * e + c + 2] = payload[eqs * (c + 2) + e];
            }
        }
    }
}

/* -------------------------------------------------------------------------------------------------------------- Contestants */

static uint8_t refused;

static void engine(void *work)
{
    struct work *w = work;
    refused |= jazmotip_rearrange(w->input, w->length, w->output, w->length);
}

static void engine_back(void *work)
{
    struct work *w = work;
    refused |= jazmotip_restore(w->input, w->length, w->output, w->length);
}

static void c(void *work)
{
    struct work *w = work;
    c_rearrange(w->input, w->output, w->eqs);
}

static void c_back(void *work)
{
    struct work *w = work;
    c_restore(w->input, w->output, w->eqs);
}

static void copy(void *work)
{
    struct work *w = work;
    memcpy(w->output, w->input, w->length);
}

#ifdef HAVE_BLOSC
/* Of libblosc.a; its header does not declare them. */
void blosc_internal_shuffle(size_t element, size_t octets, const uint8_t *from, uint8_t *to);
void blosc_internal_unshuffle(size_t element, size_t octets, const uint8_t *from, uint8_t *to);

static void shuffle(void *work)
{
    struct work *w = work;
    blosc_internal_shuffle(JAZMOTIP_EQ_OCTETS, w->length, w->input, w->output);
}

static void unshuffle(void *work)
{
    struct work *w = work;
    blosc_internal_unshuffle(JAZMOTIP_EQ_OCTETS, w->length, w->input, w->output);
}
static void (*const blosc)(void *) = shuffle, (*const blosc_back)(void *) = unshuffle;
#else
static void (*const blosc)(void *) = NULL, (*const blosc_back)(void *) = NULL;
#endif

enum { ENGINE, C, BLOSC, ENGINE_BACK, C_BACK, BLOSC_BACK, COPY, CONTESTANTS };

/* ----------------------------------------------------------------------------------------------------------------- Equality */

static uint64_t hash_after(void (*here)(void *), struct work *w)
{
    memset(w->output, 0, w->length);
    here(w);
    return work_hash(w->output, w->length);
}

static void check(struct work *w)
{
    void (*const ways[2][3])(void *) = {{engine, c, blosc}, {engine_back, c_back, blosc_back}};
    for (int way = 0; way < 2; way++) {
        uint64_t octets = hash_after(ways[way][0], w);
        for (int other = 1; other < 3; other++) {
            if (ways[way][other] != NULL && hash_after(ways[way][other], w) != octets) {
                fprintf(stderr, "planes of %zu EQs differ from the engine's\n", w->eqs);
                exit(1);
            }
        }
    }
    if (refused != 0) {
        fprintf(stderr, "the engine refuses a payload of %zu EQs\n", w->eqs);
        exit(1);
    }
}

/* ------------------------------------------------------------------------------------------------------------------- Figures */

static struct rounds rounds[WORKS_PAYLOADS];

static void measure(int i)
{
    struct work *w = &works[i];
    struct contestant all[CONTESTANTS] = {
        [ENGINE] = {.here = engine, .job = w},           [C] = {.here = c, .job = w},
        [BLOSC] = {.here = blosc, .job = w},             [ENGINE_BACK] = {.here = engine_back, .job = w},
        [C_BACK] = {.here = c_back, .job = w},           [BLOSC_BACK] = {.here = blosc_back, .job = w},
        [COPY] = {.here = copy, .job = w},
    };
    measure_rounds(&rounds[i], all, CONTESTANTS, w->eqs == JAZMOTIP_MAX_EQS ? 31 : 151, 3e5);
}

static void print_rate(int i, int k)
{
    printf(" %s |", measure_commas((double)works[i].length / measure_cost(&rounds[i], k).median * 1e3));
}

static void print_ratio(int i, int k, int of)
{
    struct spread s = measure_ratio(&rounds[i], k, of);
    printf(" **%.2f** (%.2f to %.2f) |", s.median, s.low, s.high);
}

static void print_way(const char *name, int mine, int in_c, int in_blosc)
{
    printf("| %s, EQs | engine, MB/s | C, MB/s | engine of C | memcpy, MB/s | engine of it |%s\n|---|---:|---:|---:|---:|---:|%s\n",
           name, blosc != NULL ? " Blosc, MB/s | engine of it |" : "", blosc != NULL ? "---:|---:|" : "");
    for (int i = 0; i < WORKS_PAYLOADS; i++) {
        printf("| %s |", measure_commas((double)works[i].eqs));
        print_rate(i, mine);
        print_rate(i, in_c);
        print_ratio(i, mine, in_c);
        print_rate(i, COPY);
        print_ratio(i, mine, COPY);
        if (blosc != NULL) {
            print_rate(i, in_blosc);
            print_ratio(i, mine, in_blosc);
        }
        printf("\n");
    }
    printf("\n");
}

/* At 1,500 EQs and at the most. */
static double least(int k, int of)
{
    double small = measure_ratio(&rounds[3], k, of).median, large = measure_ratio(&rounds[WORKS_PAYLOADS - 1], k, of).median;
    return small < large ? small : large;
}

static void print_goal(const char *name, double ratio)
{
    printf("| at least 1.0 of %s at 1,500 and 4,194,303 EQs | %.2f at least | %s |\n", name, ratio, ratio >= 1 ? "met" : "missed");
}

void planes_print(void)
{
    for (int i = 0; i < WORKS_PAYLOADS; i++) {
        check(&works[i]);
        measure(i);
    }
    print_way("Rearranging", ENGINE, C, BLOSC);
    print_way("Restoring", ENGINE_BACK, C_BACK, BLOSC_BACK);
    printf("| Goal | measured | |\n|---|---:|---|\n");
    print_goal("C, rearranging", least(ENGINE, C));
    print_goal("C, restoring", least(ENGINE_BACK, C_BACK));
    if (blosc != NULL) {
        print_goal("Blosc, rearranging", least(ENGINE, BLOSC));
        print_goal("Blosc, restoring", least(ENGINE_BACK, BLOSC_BACK));
    }
    printf("\n");
}
