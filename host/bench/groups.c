/*
 * groups.c: what the calls on groups cost and the stack that they take: at an OLT of eight units with one group of all of them, and with
 * eight; at a unit that joined one group, and at one that joined four.
 */
#include "groups.h"

#include "jazmotip.h"
#include "measure.h"
#include "scene.h"
#include "work.h"

#include <stdio.h>

enum { UNITS = 8, FIRST_GROUP = 1000 };

/* Ends with groups, and what calls are handed. Calls name the last group, whose key 1 is in use and key 2 offered. */
struct grouped {
    jazmotip_olt one_less, olt, offered;
    jazmotip_onu onu_one_less, onu;
    jazmotip_roster roster;
    jazmotip_header header;
    jazmotip_key_message message;
    uint16_t llid;
    uint8_t refused;
};

#define CALL(name, type, call)                                                                                                   \
    static void name(void *job)                                                                                                  \
    {                                                                                                                            \
        struct grouped *g = job;                                                                                                 \
        MEASURE_MARK();                                                                                                          \
        type answer = call;                                                                                                      \
        g->refused |= answer.number;                                                                                             \
    }

static const uint8_t second_key[16] = {1};

CALL(register_group, jazmotip_olt_answer, jazmotip_olt_register_group(g->one_less, g->llid, SCENE_INTERVAL, g->roster))
CALL(offer, jazmotip_key_sent, jazmotip_olt_offer(g->olt, g->llid, second_key))
CALL(retry, jazmotip_key_sent, jazmotip_olt_retry(g->offered, g->llid))
CALL(acknowledge, jazmotip_olt_answer,
     jazmotip_olt_acknowledge(g->offered, g->llid, ((jazmotip_acknowledgement){2, 1, g->roster.llids[UNITS - 1], 2})))
CALL(send_0, jazmotip_olt_sent, jazmotip_olt_send(g->olt, g->llid, 1, works[1].input, 0, works[1].output, 0))
CALL(send_8, jazmotip_olt_sent, jazmotip_olt_send(g->olt, g->llid, 1, works[1].input, 72, works[1].output, 72))
CALL(join, jazmotip_onu_answer, jazmotip_onu_join(g->onu_one_less, g->llid))
CALL(key_message, jazmotip_onu_acknowledged, jazmotip_onu_key_message(g->onu, g->message))
CALL(receive_0, jazmotip_onu_received, jazmotip_onu_receive(g->onu, g->header, works[1].input, 0, works[1].output, 0))
CALL(receive_8, jazmotip_onu_received, jazmotip_onu_receive(g->onu, g->header, works[1].input, 72, works[1].output, 72))

static void advance(void *job)
{
    struct grouped *g = job;
    MEASURE_MARK();
    g->refused |= jazmotip_olt_advance(&g->offered, 0);
}

/* An end that calls lead to. */
#define STEP(end, type, field, call)                                                                                             \
    do {                                                                                                                         \
        type answer = call;                                                                                                      \
        scene_accepted(answer.number, #call);                                                                                    \
        end = answer.field;                                                                                                      \
    } while (0)

static void make_olt(struct grouped *g, int groups)
{
    uint8_t none[1];
    static struct scene units;
    scene_make(&units, UNITS, 1, scene_in_order);
    g->olt = units.steady;
    g->roster.count = UNITS;
    for (int i = 0; i < UNITS; i++)
        g->roster.llids[i] = g->olt.units[i].identity.llids[0];
    for (int i = 0; i < groups; i++) {
        g->one_less = g->olt;
        g->llid = (uint16_t)(FIRST_GROUP + i);
        STEP(g->olt, jazmotip_olt_answer, olt, jazmotip_olt_register_group(g->olt, g->llid, SCENE_INTERVAL, g->roster));
    }
    STEP(g->olt, jazmotip_key_sent, olt, jazmotip_olt_offer(g->olt, g->llid, work_key));
    scene_accepted(jazmotip_olt_advance(&g->olt, SCENE_INTERVAL), "advance");
    STEP(g->olt, jazmotip_olt_sent, olt, jazmotip_olt_send(g->olt, g->llid, 0, none, 0, none, 0));
    jazmotip_key_sent sent = jazmotip_olt_offer(g->olt, g->llid, second_key);
    scene_accepted(sent.number, "offer");
    g->offered = sent.olt;
    g->message = sent.message;
    g->onu = units.active;
}

static void make_onu(struct grouped *g, int groups)
{
    for (int i = 0; i < groups; i++) {
        g->onu_one_less = g->onu;
        STEP(g->onu, jazmotip_onu_answer, onu, jazmotip_onu_join(g->onu, (uint16_t)(g->llid - groups + 1 + i)));
    }
    STEP(g->onu, jazmotip_onu_acknowledged, onu, jazmotip_onu_key_message(g->onu, g->message));
    g->header = (jazmotip_header){0x00, g->llid, 1, 0, (uint8_t)(g->onu.clock.rx % 64)};
    g->refused = 0;
}

static void print_row(const char *name, void (*call)(void *), struct grouped *few, struct grouped *many)
{
    struct contestant contestants[2] = {{.here = call, .job = few}, {.here = call, .job = many}};
    static struct rounds rounds;
    size_t stack = measure_stack(call, few), other = measure_stack(call, many);
    measure_rounds(&rounds, contestants, 2, 101, 1e5);
    scene_accepted(few->refused | many->refused, name);
    printf("| %s | %s |", name, measure_commas(measure_cost(&rounds, 0).median));
    printf(" %s |", measure_commas(measure_cost(&rounds, 1).median));
    printf(" %s |\n", measure_commas((double)(stack > other ? stack : other)));
}

void groups_print(void)
{
    static struct grouped few, many;
    make_olt(&few, 1);
    make_onu(&few, 1);
    make_olt(&many, 8);
    make_onu(&many, 4);
    printf("| OLT call on a group of eight, ns | 8 units, 1 group | 8 units, 8 groups | stack, octets |\n|---|---:|---:|---:|\n");
    print_row("register_group", register_group, &few, &many);
    print_row("advance by 0", advance, &few, &many);
    print_row("offer", offer, &few, &many);
    print_row("retry", retry, &few, &many);
    print_row("acknowledge", acknowledge, &few, &many);
    print_row("send, 0 EQs", send_0, &few, &many);
    print_row("send, 8 EQs", send_8, &few, &many);
    printf("\n| ONU call on a group, ns | 1 joined | 4 joined | stack, octets |\n|---|---:|---:|---:|\n");
    print_row("join", join, &few, &many);
    print_row("key_message", key_message, &few, &many);
    print_row("receive, 0 EQs", receive_0, &few, &many);
    print_row("receive, 8 EQs", receive_8, &few, &many);
    printf("\n");
}
