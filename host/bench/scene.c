/* scene.c: the ends that calls are measured on, each by the calls that lead to it. */
#include "scene.h"

#include <stdio.h>
#include <stdlib.h>

uint16_t scene_in_order(int k)
{
    return (uint16_t)k;
}

uint16_t scene_alike(int k)
{
    return (uint16_t)(256 * k);
}

/* Steps that can be taken back, so that two are never the same. */
uint16_t scene_random(int k)
{
    uint16_t llid = (uint16_t)(0x9e37 * (k + 1));
    llid = (uint16_t)((llid ^ llid >> 7) * 0x2c1b);
    return llid ^ llid >> 9;
}

static jazmotip_identity identity_of(int i, int llids, scene_llids *llid_of)
{
    jazmotip_identity identity = {.mac = WORK_MAC + 16 + (uint64_t)i, .count = (uint8_t)llids};
    for (int j = 0; j < llids; j++)
        identity.llids[j] = llid_of(4 * i + j);
    return identity;
}

void scene_accepted(uint8_t number, const char *call)
{
    if (number != 0) {
        fprintf(stderr, "%s was refused: %d\n", call, number);
        exit(1);
    }
}

/* A step of the OLT: the end that it leaves is that of the answer. */
#define STEP(olt, type, call)                                                                                                    \
    do {                                                                                                                         \
        type answer = call;                                                                                                      \
        scene_accepted(answer.number, #call);                                                                                    \
        olt = answer.olt;                                                                                                        \
    } while (0)

/* A registered unit goes from no clock to a first key that both ends use. */
static jazmotip_olt join(struct scene *s, jazmotip_olt olt, uint16_t llid)
{
    uint8_t none[1];
    STEP(olt, jazmotip_olt_answer, jazmotip_olt_capture(olt, llid));
    s->captured = olt;
    jazmotip_clock_sent sent = jazmotip_olt_clock_send(olt, llid);
    scene_accepted(sent.number, "clock_send");
    olt = sent.olt;
    s->stamps = sent.message;
    STEP(olt, jazmotip_olt_answer, jazmotip_olt_acknowledge(olt, llid, (jazmotip_acknowledgement){.kind = 1}));
    jazmotip_key_sent offer = jazmotip_olt_offer(olt, llid, work_key);
    scene_accepted(offer.number, "offer");
    s->offered = olt = offer.olt;
    s->key_message = offer.message;
    STEP(olt, jazmotip_olt_answer, jazmotip_olt_acknowledge(olt, llid, (jazmotip_acknowledgement){.kind = 2, .number = 1}));
    scene_accepted(jazmotip_olt_advance(&olt, SCENE_INTERVAL), "advance");
    STEP(olt, jazmotip_olt_sent, jazmotip_olt_send(olt, llid, 0, none, 0, none, 0));
    scene_accepted(jazmotip_olt_advance(&olt, 2), "advance");
    s->upstream = (jazmotip_header){0x80, llid, 1, 1, (uint8_t)(olt.shared.clock % 64)};
    STEP(olt, jazmotip_olt_received, jazmotip_olt_receive(olt, s->upstream, none, 0, none, 0));
    return olt;
}

/* The ONU's side of the same way. */
static void join_onu(struct scene *s)
{
    uint8_t none[1];
    jazmotip_onu_answer fresh = jazmotip_onu_fresh(s->identity, SCENE_OLT_MAC, 0);
    scene_accepted(fresh.number, "onu_fresh");
    s->unsynced = fresh.onu;
    jazmotip_onu_acknowledged a = jazmotip_onu_clock_message(s->unsynced, s->stamps);
    scene_accepted(a.number, "clock_message");
    s->synced = a.onu;
    a = jazmotip_onu_key_message(s->synced, s->key_message);
    scene_accepted(a.number, "key_message");
    s->downstream = (jazmotip_header){0x00, s->llid, 1, 1, (uint8_t)(a.onu.clock.rx % 64)};
    jazmotip_onu_received received = jazmotip_onu_receive(a.onu, s->downstream, none, 0, none, 0);
    scene_accepted(received.number, "onu_receive");
    s->active = s->onu_advancing = received.onu;
}

void scene_make(struct scene *s, int units, int llids, scene_llids *llid_of)
{
    jazmotip_olt olt;
    STEP(olt, jazmotip_olt_answer, jazmotip_olt_fresh(SCENE_OLT_MAC, 0));
    for (int i = 0; i < units; i++) {
        s->one_less = olt;
        s->identity = identity_of(i, llids, llid_of);
        STEP(olt, jazmotip_olt_answer, jazmotip_olt_register(olt, s->identity, SCENE_TRIP, SCENE_INTERVAL));
        s->llid = s->identity.llids[llids - 1];
        olt = join(s, olt, s->llid);
    }
    s->steady = s->advancing = olt;
    s->stranger = identity_of(units, llids, llid_of);
    s->eight = &works[1];
    s->refused = 0;
    join_onu(s);
}

void scene_make_empty(struct scene *s)
{
    jazmotip_olt olt;
    STEP(olt, jazmotip_olt_answer, jazmotip_olt_fresh(SCENE_OLT_MAC, 0));
    s->one_less = s->captured = s->offered = s->steady = s->advancing = olt;
    s->identity = identity_of(0, 1, scene_in_order);
    s->llid = s->identity.llids[0];
    s->upstream = (jazmotip_header){0x80, s->llid, 1, 1, 0};
    s->eight = &works[1];
    s->number = JAZMOTIP_UNKNOWN_LLID;
}
