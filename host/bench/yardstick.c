/*
 * yardstick.c: what the OLT's calls cost beside the same calls in C, and how often they copy the record.
 *
 * The engine's call is repeated on the same end; the caller's copy of the end that it hands over is part of the cost. The C changes
 * its end in place, and its channel is freed before each send.
 */
#include "yardstick.h"

#include "jazmotip.h"
#include "measure.h"
#include "pointer_olt.h"
#include "same_olt.h"
#include "scene.h"

#include <stdio.h>
#include <stdlib.h>
#include <string.h>

/* --------------------------------------------------------------------------------------------------------------------- Calls */

static void engine_advance(void *job)
{
    struct scene *s = job;
    s->refused |= jazmotip_olt_advance(&s->advancing, 1);
}

static void pointer_advance(void *job)
{
    struct scene *s = job;
    s->refused |= pointer_olt_advance(&s->pointed, 1);
}

static void value_advance(void *job)
{
    struct scene *s = job;
    jazmotip_olt_answer answer = value_olt_advance(s->pointed, 1);
    s->pointed = answer.olt;
    s->refused |= answer.number;
}

static void engine_capture(void *job)
{
    struct scene *s = job;
    s->refused |= jazmotip_olt_capture(s->steady, s->llid).number != s->number;
}

static void pointer_capture(void *job)
{
    struct scene *s = job;
    s->refused |= pointer_olt_capture(&s->pointed, s->llid) != s->number;
}

static void value_capture(void *job)
{
    struct scene *s = job;
    s->refused |= value_olt_capture(s->pointed, s->llid).number != s->number;
}

static void engine_send(struct scene *s, size_t length)
{
    s->refused |=
        jazmotip_olt_send(s->steady, s->llid, 0, s->eight->input, length, s->eight->output, length).number != s->number;
}

static void pointer_send(struct scene *s, size_t length)
{
    s->pointed.shared.channels.zero = 0;
    s->refused |=
        pointer_olt_send(&s->pointed, s->llid, 0, s->eight->input, length, s->eight->output, length).number != s->number;
}

static void value_send(struct scene *s, size_t length)
{
    s->refused |= value_olt_send(s->steady, s->llid, 0, s->eight->input, length, s->eight->output, length).number != s->number;
}

static void engine_send_0(void *job)
{
    engine_send(job, 0);
}

static void pointer_send_0(void *job)
{
    pointer_send(job, 0);
}

static void value_send_0(void *job)
{
    value_send(job, 0);
}

static void engine_send_8(void *job)
{
    engine_send(job, 72);
}

static void pointer_send_8(void *job)
{
    pointer_send(job, 72);
}

static void value_send_8(void *job)
{
    value_send(job, 72);
}

static const struct {
    const char *name;
    void (*engine)(void *scene), (*pointer)(void *scene), (*value)(void *scene);
} calls[] = {
    {"advance", engine_advance, pointer_advance, value_advance},
    {"capture", engine_capture, pointer_capture, value_capture},
    {"send, 0 EQs", engine_send_0, pointer_send_0, value_send_0},
    {"send, 8 EQs", engine_send_8, pointer_send_8, value_send_8},
};

enum { CALLS = sizeof calls / sizeof calls[0] };

/* -------------------------------------------------------------------------------------------------------------------- Tables */

enum { EMPTY, ONE, SCATTERED, ALIKE, TABLES };

static struct scene tables[TABLES];

static void make_tables(void)
{
    scene_make_empty(&tables[EMPTY]);
    scene_make(&tables[ONE], 1, 1, scene_in_order);
    scene_make(&tables[SCATTERED], 16, 4, scene_random);
    scene_make(&tables[ALIKE], 16, 4, scene_alike);
    for (int t = 0; t < TABLES; t++)
        tables[t].pointed = tables[t].steady;
}

/* --------------------------------------------------------------------------------------------------------------------- Ratios */

/* Every table's engine and C take turns in one row of rounds. In the empty table the C has its record by value. */
static void print_ratios(int call)
{
    static struct rounds rounds;
    struct contestant all[2 * TABLES];
    for (int t = 0; t < TABLES; t++) {
        all[2 * t] = (struct contestant){.here = calls[call].engine, .job = &tables[t]};
        all[2 * t + 1] = (struct contestant){.here = t == EMPTY ? calls[call].value : calls[call].pointer, .job = &tables[t]};
    }
    measure_rounds(&rounds, all, 2 * TABLES, 201, 2e5);
    printf("| %s |", calls[call].name);
    for (int t = 0; t < TABLES; t++) {
        struct spread s = measure_ratio(&rounds, 2 * t, 2 * t + 1);
        scene_accepted(tables[t].refused, calls[call].name);
        printf(" %.0f of %.0f: **%.2f** (%.2f to %.2f) |", measure_cost(&rounds, 2 * t + 1).median,
               measure_cost(&rounds, 2 * t).median, s.median, s.low, s.high);
    }
    printf("\n");
}

void yardstick_print(void)
{
    printf("The OLT in C (pointer_olt.c) and the engine were compared on %s random calls and are equal. The C changes its record\n"
           "in place, and in the empty table has it by value; the engine's ns have the caller's copy of the record in them.\n\n",
           measure_commas((double)same_olt_check()));
    printf("| OLT call: ns in C, of ns of the engine | empty table, C by value | 1 unit, 1 LLID | 16 units of 4 LLIDs, random |"
           " LLIDs alike modulo 256 |\n|---|---:|---:|---:|---:|\n");
    make_tables();
    for (int call = 0; call < CALLS; call++)
        print_ratios(call);
    printf("\n");
}

/* --------------------------------------------------------------------------------------------------------------------- Copies */

static size_t copies, octets;

/* What the archive's memcpy is linked to where copies are counted; one of more than half of the record counts as a copy of it. The
 * archive's compiler calls memcpy for every copy above 128 octets. The caller's copy, which hands the end over, is gcc's own. */
void *__wrap_memcpy(void *to, const void *from, size_t n)
{
    copies += n > sizeof(jazmotip_olt) / 2;
    octets += n;
    return memmove(to, from, n);
}

void yardstick_print_copies(void)
{
    make_tables();
    printf("| Copies of the record in a call of the engine, beside the caller's; octets copied in all | empty table |"
           " 1 unit, 1 LLID | 16 units of 4 LLIDs, random |\n|---|---:|---:|---:|\n");
    for (int call = 0; call < CALLS; call++) {
        printf("| %s |", calls[call].name);
        for (int t = 0; t <= SCATTERED; t++) {
            copies = octets = 0;
            calls[call].engine(&tables[t]);
            if (octets == 0) {
                fprintf(stderr, "copies are not counted: this program is linked with the C library's memcpy\n");
                exit(2);
            }
            printf(" %zu; %s |", copies, measure_commas((double)octets));
        }
        printf("\n");
    }
    printf("\n");
}
