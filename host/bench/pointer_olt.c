/*
 * pointer_olt.c: advance, capture and send of the OLT as firmware in C would have them (01, Clock; Keys; the refusals' order).
 *
 * All checks of a lent end are made in one pass over its units; then the unit is found and changed in place. The cipher is
 * bytecipher.c. A file of its own, so that nothing is inlined into the measuring loop.
 */
#include "pointer_olt.h"

#include "bytecipher.h"

#include <string.h>

#define TURN (UINT64_C(1) << 48) /* of MACs and clocks, and the life of a key in ticks */
#define MAX_FREE (JAZMOTIP_MAX_TICK + JAZMOTIP_MAX_EQS + 1)
#define MAX_PAYLOAD (JAZMOTIP_EQ_OCTETS * (size_t)JAZMOTIP_MAX_EQS)

/* ------------------------------------------------------------------------------------------------------------------ Checks */

/* The LLIDs so far, by a hash: head has the last one of a hash, from 1, and next the one before that has the same. */
struct llids {
    uint8_t head[256];
    uint8_t next[64];
    uint16_t all[64];
    unsigned count;
};

/* Adds an LLID; 0 where it is there already. */
static inline int add(struct llids *l, uint16_t llid)
{
    uint8_t *head = &l->head[(uint16_t)(llid * 40503u) >> 8];
    for (unsigned i = *head; i != 0; i = l->next[i - 1]) {
        if (l->all[i - 1] == llid)
            return 0;
    }
    l->all[l->count] = llid;
    l->next[l->count] = *head;
    *head = (uint8_t)++l->count;
    return 1;
}

static inline int valid_shared(const jazmotip_shared *s)
{
    return s->mac < TURN && s->tick <= JAZMOTIP_MAX_TICK && s->clock < TURN && s->channels.zero <= MAX_FREE &&
           s->channels.one <= MAX_FREE;
}

static inline int valid_keys(const jazmotip_unit_keys *k, uint64_t tick)
{
    const jazmotip_timer *timer = &k->timer;
    const jazmotip_first_send *first = &k->first;
    return timer->interval <= JAZMOTIP_MAX_INTERVAL && timer->count < timer->interval && timer->flag <= 1 && first->noted <= 1 &&
           (!first->noted || first->at <= tick) && k->active <= k->offered;
}

static inline int valid_unit(const jazmotip_unit *u, uint64_t tick)
{
    const jazmotip_confirmation *shown = &u->confirmation;
    const jazmotip_unit_clock *clock = &u->clock;
    return u->identity.mac < TURN && u->identity.count - 1u < JAZMOTIP_LLIDS && valid_keys(&u->keys, tick) &&
           shown->confirmed <= u->keys.active &&
           u->keys.offered - shown->confirmed <= 1 && shown->acknowledged <= 1 && clock->trip <= JAZMOTIP_MAX_TRIP &&
           clock->captured <= 1 && (!clock->captured || clock->tick <= tick) && clock->sent <= 1 && clock->acknowledged <= 1;
}

/* Of an OLT with that many units. */
static inline int valid_group(const jazmotip_group *g, uint64_t tick, unsigned units)
{
    const jazmotip_members *m = &g->members;
    unsigned seen = 0;
    if (m->count - 1u >= JAZMOTIP_MEMBERS || !valid_keys(&g->keys, tick) || g->keys.offered - g->keys.active > 1)
        return 0;
    for (unsigned j = 0; j < m->count; j++) {
        if (m->places[j] >= units || m->marks[j] > 1 || (seen >> m->places[j] & 1) != 0)
            return 0;
        seen |= 1u << m->places[j];
    }
    return 1;
}

/* Whether a call could have made this end. */
static int valid(const jazmotip_olt *olt)
{
    struct llids llids;
    if (olt->count + olt->groupcount > (int)JAZMOTIP_UNITS || !valid_shared(&olt->shared))
        return 0;
    memset(llids.head, 0, sizeof llids.head);
    llids.count = 0;
    for (unsigned i = 0; i < olt->count; i++) {
        const jazmotip_unit *u = &olt->units[i];
        if (!valid_unit(u, olt->shared.tick))
            return 0;
        for (unsigned j = 0; j < u->identity.count; j++) {
            if (!add(&llids, u->identity.llids[j]))
                return 0;
        }
    }
    for (unsigned i = 0; i < olt->groupcount; i++) {
        const jazmotip_group *g = &olt->groups[i];
        if (!valid_group(g, olt->shared.tick, olt->count) || !add(&llids, g->llid))
            return 0;
    }
    return 1;
}

static jazmotip_unit *find(jazmotip_olt *olt, uint16_t llid)
{
    for (unsigned i = 0; i < olt->count; i++) {
        jazmotip_unit *u = &olt->units[i];
        for (unsigned j = 0; j < u->identity.count; j++) {
            if (u->identity.llids[j] == llid)
                return u;
        }
    }
    return NULL;
}

static jazmotip_group *find_group(jazmotip_olt *olt, uint16_t llid)
{
    for (unsigned i = 0; i < olt->groupcount; i++) {
        if (olt->groups[i].llid == llid)
            return &olt->groups[i];
    }
    return NULL;
}

/* ------------------------------------------------------------------------------------------------------- Advance and capture */

static inline void advance_timer(jazmotip_timer *timer, uint64_t n)
{
    timer->count += n;
    if (timer->count >= timer->interval) {
        timer->count %= timer->interval;
        timer->flag = 1;
    }
}

uint8_t pointer_olt_advance(jazmotip_olt *olt, uint64_t n)
{
    if (!valid(olt))
        return JAZMOTIP_OUT_OF_RANGE;
    if (n > JAZMOTIP_MAX_TICK - olt->shared.tick)
        return JAZMOTIP_AT_END;
    olt->shared.tick += n;
    olt->shared.clock = (olt->shared.clock + n) % TURN;
    for (unsigned i = 0; i < olt->count; i++)
        advance_timer(&olt->units[i].keys.timer, n);
    for (unsigned i = 0; i < olt->groupcount; i++)
        advance_timer(&olt->groups[i].keys.timer, n);
    return JAZMOTIP_ACCEPTED;
}

uint8_t pointer_olt_capture(jazmotip_olt *olt, uint16_t llid)
{
    if (!valid(olt))
        return JAZMOTIP_OUT_OF_RANGE;
    jazmotip_unit *u = find(olt, llid);
    if (u == NULL)
        return JAZMOTIP_UNKNOWN_LLID;
    u->clock.captured = 1;
    u->clock.tick = olt->shared.tick;
    return JAZMOTIP_ACCEPTED;
}

/* -------------------------------------------------------------------------------------------------------------------- Send */

static inline int switches(const jazmotip_unit_keys *k, int acknowledged)
{
    return k->timer.flag && k->offered == k->active + 1 && acknowledged;
}

static inline int too_old(const jazmotip_first_send *first, uint64_t tick)
{
    return first->noted && tick - first->at >= TURN;
}

/* What an accepted send makes of the keys, and the number of the key that it goes under. */
static inline uint32_t take_key(jazmotip_unit_keys *k, int switching, uint64_t tick)
{
    if (switching) {
        k->timer.flag = 0;
        k->active = k->offered;
    }
    if (switching || (k->active != 0 && !k->first.noted))
        k->first = (jazmotip_first_send){1, tick};
    return k->active;
}

/* Seals, or copies under number 0; gives the octets enciphered. An empty payload needs no key. */
static inline uint64_t carry(const jazmotip_shared *s, const jazmotip_slots *slots, uint32_t number, uint8_t channel,
                             const uint8_t *payload, size_t length, uint8_t *output)
{
    if (length == 0)
        return 0;
    if (number == 0) {
        memcpy(output, payload, length);
        return 0;
    }
    struct bytecipher_nonce nonce = {channel, s->mac, s->clock};
    return bytecipher_seal(number % 2 ? slots->odd : slots->even, nonce, payload, length, output, length).count;
}

struct pointer_sent pointer_olt_send(jazmotip_olt *olt, uint16_t llid, uint8_t channel, const uint8_t *payload,
                                     size_t payload_length, uint8_t *output, size_t output_length)
{
    struct pointer_sent sent = {.number = JAZMOTIP_OUT_OF_RANGE};
    jazmotip_shared *s = &olt->shared;
    if (!valid(olt))
        return sent;
    sent.number = JAZMOTIP_BAD_LENGTH;
    if (payload_length > MAX_PAYLOAD || payload_length % JAZMOTIP_EQ_OCTETS != 0 || output_length != payload_length)
        return sent;
    sent.number = JAZMOTIP_OUT_OF_RANGE;
    if (channel > 1)
        return sent;
    sent.number = JAZMOTIP_UNKNOWN_LLID;
    jazmotip_unit *u = find(olt, llid);
    jazmotip_group *g = u == NULL ? find_group(olt, llid) : NULL;
    if (u == NULL && g == NULL)
        return sent;
    jazmotip_unit_keys *keys = u != NULL ? &u->keys : &g->keys;
    sent.number = JAZMOTIP_CLOCK_NOT_SET;
    int switching = switches(keys, u == NULL || u->confirmation.acknowledged);
    if (u != NULL && !u->clock.acknowledged && (switching || keys->active != 0))
        return sent;
    sent.number = JAZMOTIP_CHANNEL_TAKEN;
    uint64_t *free_from = channel == 0 ? &s->channels.zero : &s->channels.one;
    if (s->tick < *free_from)
        return sent;
    sent.number = JAZMOTIP_KEY_TOO_OLD;
    if (!switching && keys->active != 0 && too_old(&keys->first, s->tick))
        return sent;
    sent.number = JAZMOTIP_ACCEPTED;
    *free_from = s->tick + payload_length / JAZMOTIP_EQ_OCTETS + 1;
    uint32_t number = take_key(keys, switching, s->tick);
    if (g != NULL && switching)
        memset(number % 2 ? keys->slots.even : keys->slots.odd, 0, JAZMOTIP_KEY_OCTETS);
    sent.header = (jazmotip_header){channel, llid, number != 0, number % 2, s->clock % 64};
    sent.count = carry(s, &keys->slots, number, channel, payload, payload_length, output);
    return sent;
}

/* ----------------------------------------------------------------------------------------------------------------- By value */

jazmotip_olt_answer value_olt_advance(jazmotip_olt olt, uint64_t n)
{
    uint8_t number = pointer_olt_advance(&olt, n);
    return (jazmotip_olt_answer){number, olt};
}

jazmotip_olt_answer value_olt_capture(jazmotip_olt olt, uint16_t llid)
{
    uint8_t number = pointer_olt_capture(&olt, llid);
    return (jazmotip_olt_answer){number, olt};
}

jazmotip_olt_sent value_olt_send(jazmotip_olt olt, uint16_t llid, uint8_t channel, const uint8_t *payload, size_t payload_length,
                                 uint8_t *output, size_t output_length)
{
    struct pointer_sent sent = pointer_olt_send(&olt, llid, channel, payload, payload_length, output, output_length);
    return (jazmotip_olt_sent){.number = sent.number, .olt = olt, .header = sent.header, .count = sent.count};
}
