/*
 * calls.c: what each call costs and the stack that it takes.
 *
 * An end is a value, so a call is repeated on the same end. The caller's copy of the end that it hands over is part of the cost.
 */
#include "calls.h"

#include "jazmotip.h"
#include "measure.h"
#include "scene.h"
#include "work.h"

#include <stdio.h>

/* ------------------------------------------------------------------------------------------------------------------- Calls */

#define CALL(name, type, call, expected)                                                                                         \
    static void name(void *job)                                                                                                  \
    {                                                                                                                            \
        struct scene *s = job;                                                                                                   \
        MEASURE_MARK();                                                                                                          \
        type answer = call;                                                                                                      \
        s->refused |= answer.number != expected;                                                                                 \
    }

static const uint8_t second_key[16] = {1};

CALL(olt_fresh, jazmotip_olt_answer, jazmotip_olt_fresh(SCENE_OLT_MAC, 0), 0)
CALL(olt_register, jazmotip_olt_answer, jazmotip_olt_register(s->one_less, s->identity, SCENE_TRIP, SCENE_INTERVAL), 0)
CALL(olt_register_full, jazmotip_olt_answer, jazmotip_olt_register(s->steady, s->stranger, SCENE_TRIP, SCENE_INTERVAL), 4)
CALL(olt_capture, jazmotip_olt_answer, jazmotip_olt_capture(s->steady, s->llid), s->number)
CALL(olt_measure, jazmotip_olt_answer, jazmotip_olt_measure(s->steady, s->llid, SCENE_TRIP), s->number)
CALL(olt_clock_send, jazmotip_clock_sent, jazmotip_olt_clock_send(s->captured, s->llid), s->number)
CALL(olt_offer, jazmotip_key_sent, jazmotip_olt_offer(s->steady, s->llid, second_key), s->number)
CALL(olt_retry, jazmotip_key_sent, jazmotip_olt_retry(s->offered, s->llid), s->number)
CALL(olt_acknowledge, jazmotip_olt_answer,
     jazmotip_olt_acknowledge(s->offered, s->llid, ((jazmotip_acknowledgement){.kind = 2, .number = 1})), s->number)
CALL(olt_send_0, jazmotip_olt_sent,
     jazmotip_olt_send(s->steady, s->llid, 0, s->eight->input, 0, s->eight->output, 0), s->number)
CALL(olt_send_8, jazmotip_olt_sent,
     jazmotip_olt_send(s->steady, s->llid, 0, s->eight->input, 72, s->eight->output, 72), s->number)
CALL(olt_receive_0, jazmotip_olt_received,
     jazmotip_olt_receive(s->steady, s->upstream, s->eight->input, 0, s->eight->output, 0), s->number)
CALL(olt_receive_8, jazmotip_olt_received,
     jazmotip_olt_receive(s->steady, s->upstream, s->eight->input, 72, s->eight->output, 72), s->number)

static void olt_advance(void *job)
{
    struct scene *s = job;
    MEASURE_MARK();
    s->refused |= jazmotip_olt_advance(&s->advancing, 1);
}

CALL(onu_fresh, jazmotip_onu_answer, jazmotip_onu_fresh(s->identity, SCENE_OLT_MAC, 0), 0)
CALL(onu_new_time, jazmotip_onu_answer, jazmotip_onu_new_time(s->active, s->active.clock.time % (UINT64_C(1) << 32)), 0)
CALL(onu_clock_message, jazmotip_onu_acknowledged, jazmotip_onu_clock_message(s->unsynced, s->stamps), 0)
CALL(onu_key_message, jazmotip_onu_acknowledged, jazmotip_onu_key_message(s->synced, s->key_message), 0)
CALL(onu_send_0, jazmotip_onu_sent,
     jazmotip_onu_send(s->active, s->llid, 0x80, s->eight->input, 0, s->eight->output, 0), 0)
CALL(onu_send_8, jazmotip_onu_sent,
     jazmotip_onu_send(s->active, s->llid, 0x80, s->eight->input, 72, s->eight->output, 72), 0)
CALL(onu_receive_0, jazmotip_onu_received,
     jazmotip_onu_receive(s->active, s->downstream, s->eight->input, 0, s->eight->output, 0), 0)
CALL(onu_receive_8, jazmotip_onu_received,
     jazmotip_onu_receive(s->active, s->downstream, s->eight->input, 72, s->eight->output, 72), 0)

static void onu_advance(void *job)
{
    struct scene *s = job;
    MEASURE_MARK();
    s->refused |= jazmotip_onu_advance(&s->onu_advancing, 1);
}

static const jazmotip_nonce nonce = {WORK_CHANNEL, WORK_MAC, WORK_CLOCK};
static jazmotip_round_keys round_keys;

CALL(seal, jazmotip_payload_answer,
     jazmotip_seal(1, work_key, nonce, s->work->input, s->work->length, s->work->output, s->work->length), 0)
CALL(seal_clear, jazmotip_payload_answer,
     jazmotip_seal(0, work_key, nonce, s->work->input, s->work->length, s->work->output, s->work->length), 0)
CALL(seal_expanded, jazmotip_payload_answer,
     jazmotip_seal_expanded(1, round_keys, nonce, s->work->input, s->work->length, s->work->output, s->work->length), 0)
/* Turn by turn the output is sealed and opened where it lies. */
CALL(seal_in_place, jazmotip_payload_answer, jazmotip_seal_in_place(1, work_key, nonce, s->work->output, s->work->length), 0)
CALL(seal_expanded_in_place, jazmotip_payload_answer,
     jazmotip_seal_expanded_in_place(1, round_keys, nonce, s->work->output, s->work->length), 0)

static void expand_key(void *job)
{
    (void)job;
    MEASURE_MARK();
    round_keys = jazmotip_expand_key(work_key);
}

static void count(void *job)
{
    struct scene *s = job;
    MEASURE_MARK();
    s->refused |= jazmotip_count(s->work->input, s->work->length) > 8 * s->work->eqs;
}

CALL(directory, jazmotip_block_directory, jazmotip_capture_directory(s->work->input, s->work->length), 0)
CALL(verdict, jazmotip_block_verdict,
     jazmotip_capture_verdict(work_settings, 41, s->work->input, s->work->length, s->work->records), 0)
CALL(payload, jazmotip_block_part, jazmotip_capture_payload(s->work->input, s->work->length, s->work->records), 0)
CALL(open, jazmotip_block_answer,
     jazmotip_capture_open(work_settings, 41, s->work->input, s->work->length, s->work->output, s->work->length), 0)

CALL(class_open, jazmotip_block_answer,
     jazmotip_class_open(((jazmotip_caller){1, 1, 1}), work_settings, 41, (const uint8_t[]){3}, 1, s->work->input, s->work->length,
                         s->work->output, s->work->length), 0)

static void list(void *job)
{
    static uint8_t text[JAZMOTIP_LISTING_OCTETS];
    struct scene *s = job;
    MEASURE_MARK();
    s->refused |= jazmotip_capture_list(work_settings, 41, s->work->input, s->work->length, text) < 26;
}

static void class_list(void *job)
{
    static uint8_t text[JAZMOTIP_LISTING_OCTETS];
    struct scene *s = job;
    MEASURE_MARK();
    s->refused |= jazmotip_class_list((jazmotip_caller){1, 1, 1}, work_settings, 41, (const uint8_t[]){3}, 1, s->work->input,
                                      s->work->length, text) < 26;
}

/* ------------------------------------------------------------------------------------------------------------------ Tables */

/* A call on several scenes in turn: the ns of each, and the deepest stack. NULL where a call has no such scene. */
static void print_row(const char *name, void (*call)(void *), struct scene *const *scenes, int n)
{
    struct contestant contestants[MOST_CONTESTANTS] = {{NULL, NULL, NULL}};
    static struct rounds rounds;
    size_t stack = 0;
    for (int k = 0; k < n; k++) {
        if (scenes[k] == NULL)
            continue;
        size_t octets = measure_stack(call, scenes[k]);
        stack = octets > stack ? octets : stack;
        contestants[k] = (struct contestant){.here = call, .job = scenes[k]};
    }
    measure_rounds(&rounds, contestants, n, 101, 1e5);
    printf("| %s |", name);
    for (int k = 0; k < n; k++) {
        if (scenes[k] == NULL) {
            printf(" |");
            continue;
        }
        scene_accepted(scenes[k]->refused, name);
        printf(" %s |", measure_commas(measure_cost(&rounds, k).median));
    }
    printf(" %s |\n", measure_commas((double)stack));
}

struct row {
    const char *name;
    void (*call)(void *);
};

static void print_rows(const struct row *rows, int n, struct scene *const *scenes, int columns)
{
    for (int i = 0; i < n; i++)
        print_row(rows[i].name, rows[i].call, scenes, columns);
}

#define ROWS(rows) rows, (int)(sizeof rows / sizeof rows[0])

static void print_ends(void)
{
    static struct scene empty, one, full, worst;
    struct scene *const tables[] = {&empty, &one, &full, &worst}, *const no_table[] = {&empty, NULL, NULL, NULL},
                 *const full_tables[] = {NULL, NULL, &full, &worst}, *const units[] = {&one, &full};
    static const struct row olt[] = {
        {"register the table's last unit", olt_register},
        {"advance", olt_advance},
        {"capture", olt_capture},
        {"measure", olt_measure},
        {"clock_send", olt_clock_send},
        {"offer", olt_offer},
        {"retry", olt_retry},
        {"acknowledge", olt_acknowledge},
        {"send, 0 EQs", olt_send_0},
        {"send, 8 EQs", olt_send_8},
        {"receive, 0 EQs", olt_receive_0},
        {"receive, 8 EQs", olt_receive_8},
    };
    static const struct row onu[] = {
        {"fresh", onu_fresh},
        {"advance", onu_advance},
        {"new_time", onu_new_time},
        {"clock_message", onu_clock_message},
        {"key_message", onu_key_message},
        {"send, 0 EQs", onu_send_0},
        {"send, 8 EQs", onu_send_8},
        {"receive, 0 EQs", onu_receive_0},
        {"receive, 8 EQs", onu_receive_8},
    };
    scene_make_empty(&empty);
    scene_make(&one, 1, 1, scene_in_order);
    scene_make(&full, 16, 4, scene_in_order);
    scene_make(&worst, 16, 4, scene_alike);
    printf("| OLT call, ns | empty table, units unknown | 1 unit, 1 LLID | 16 units of 4 LLIDs |"
           " the same, LLIDs alike modulo 256 | stack, octets |\n|---|---:|---:|---:|---:|---:|\n");
    print_row("fresh", olt_fresh, no_table, 4);
    print_row("register one unit more, refused 4", olt_register_full, full_tables, 4);
    print_rows(ROWS(olt), tables, 4);
    printf("\n| ONU call, ns | 1 LLID | 4 LLIDs | stack, octets |\n|---|---:|---:|---:|\n");
    print_rows(ROWS(onu), units, 2);
    printf("\n");
}

static void print_payloads(void)
{
    static struct scene eight, more;
    struct scene *const scenes[] = {&eight, &more};
    static const struct row rows[] = {
        {"expand_key", expand_key},
        {"count", count},
        {"seal, enciphered", seal},
        {"seal, clear", seal_clear},
        {"seal_expanded", seal_expanded},
        {"seal_in_place", seal_in_place},
        {"seal_expanded_in_place", seal_expanded_in_place},
    };
    eight.work = &works[1];
    more.work = &works[3];
    printf("| Payload call, ns | 8 EQs | 1,500 EQs | stack, octets |\n|---|---:|---:|---:|\n");
    print_rows(ROWS(rows), scenes, 2);
    printf("\n");
}

static void print_blocks(void)
{
    static uint8_t two[2], two_opened[2];
    static const struct work empty = {.length = 2, .input = two, .output = two_opened};
    static struct scene nothing, large, even, single;
    struct scene *const blocks[] = {&nothing, &large, &even, &single}, *const full_blocks[] = {NULL, &large, &even, &single};
    static const struct row on_records[] = {
        {"verdict on the last record", verdict},
        {"payload of the last record", payload},
    };
    static const struct row rows[] = {
        {"directory", directory},
        {"open", open},
        {"open for a user of a class", class_open},
        {"list", list},
        {"list for a user of a class", class_list},
    };
    nothing.work = &empty;
    large.work = &works[WORKS_PAYLOADS];
    even.work = &works[WORKS_PAYLOADS + 1];
    single.work = &works[WORKS_PAYLOADS + 2];
    printf("| Capture call, ns | empty block | 253 records of 8 EQs, one of 4,580 | 254 records of 26 EQs | 1 record of 7,278 EQs |"
           " stack, octets |\n|---|---:|---:|---:|---:|---:|\n");
    print_rows(ROWS(on_records), full_blocks, 4);
    print_rows(ROWS(rows), blocks, 4);
    printf("\n");
}

void calls_print(void)
{
    print_ends();
    print_payloads();
    print_blocks();
}
