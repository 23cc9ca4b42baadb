/* same_olt.c: holds the OLT in C equal to the engine on random calls. */
#include "same_olt.h"

#include "jazmotip.h"
#include "pointer_olt.h"

#include <stdio.h>
#include <stdlib.h>
#include <string.h>

#define TURN (UINT64_C(1) << 48)
#define COUNT(array) (sizeof array / sizeof array[0])

/* ------------------------------------------------------------------------------------------------------------------- Random */

static uint64_t random_state = 1;

static uint64_t random64(void)
{
    random_state ^= random_state << 13;
    random_state ^= random_state >> 7;
    random_state ^= random_state << 17;
    return random_state;
}

static uint64_t below(uint64_t n)
{
    return random64() % n;
}

/* From 0 to most, at an end of that range half of the time. */
static uint64_t up_to(uint64_t most)
{
    uint64_t near = below(3) < most ? below(3) : most;
    switch (below(4)) {
    case 0: return near;
    case 1: return most - near;
    default: return most == UINT64_MAX ? random64() : below(most + 1);
    }
}

static void random_octets(uint8_t *octets, size_t n)
{
    for (size_t i = 0; i < n; i++)
        octets[i] = (uint8_t)random64();
}

/* --------------------------------------------------------------------------------------------------------------------- Ends */

enum llids { IN_ORDER, RANDOM, ALIKE }; /* one apart; any; all alike modulo 256 */

/* Other codes for other k. */
static uint16_t llid_of(enum llids how, uint16_t start, int k)
{
    static const uint16_t apart[] = {[IN_ORDER] = 1, [RANDOM] = 0x9e35, [ALIKE] = 256};
    uint16_t llid = (uint16_t)(start + apart[how] * k);
    return how == RANDOM ? (uint16_t)(llid ^ llid >> 7) : llid;
}

static uint64_t tick_before(uint64_t tick)
{
    uint64_t ago = below(2) == 0 ? up_to(tick) : TURN - 2 + below(4);
    return ago <= tick ? tick - ago : 0;
}

static jazmotip_unit_keys random_keys(uint64_t tick)
{
    uint64_t interval = 1 + up_to(JAZMOTIP_MAX_INTERVAL - 1);
    jazmotip_unit_keys k = {.timer = {interval, up_to(interval - 1), (uint8_t)below(2)}, .first = {(uint8_t)below(2), 0}};
    k.active = k.offered = (uint32_t)up_to(UINT32_MAX);
    random_octets(k.slots.even, 16);
    random_octets(k.slots.odd, 16);
    k.first.at = k.first.noted ? tick_before(tick) : random64();
    return k;
}

static jazmotip_unit random_unit(uint64_t tick, enum llids how, uint16_t start, int i, int llids)
{
    jazmotip_unit u = {.identity = {.mac = up_to(TURN - 1), .count = (uint8_t)llids}, .keys = random_keys(tick)};
    for (int j = 0; j < 4; j++)
        u.identity.llids[j] = llid_of(how, start, j < llids ? 4 * i + j : 0);
    u.confirmation = (jazmotip_confirmation){u.keys.active, (uint8_t)below(2)};
    u.clock = (jazmotip_unit_clock){up_to(JAZMOTIP_MAX_TRIP), (uint8_t)below(2), 0, (uint8_t)below(2), (uint8_t)below(2)};
    u.clock.tick = u.clock.captured ? tick_before(tick) : random64();
    if (below(2) == 0 && u.keys.active < UINT32_MAX)
        u.keys.offered++;
    else if (below(2) == 0 && u.keys.active > 0)
        u.confirmation.confirmed--;
    return u;
}

/* A group of the first units; LLIDs that another place has are rare. */
static jazmotip_group random_group(const jazmotip_unit *like, int units)
{
    jazmotip_group g = {.keys = like->keys, .llid = (uint16_t)random64()};
    g.members.count = (uint8_t)(1 + below(units < 8 ? units : 8));
    for (int j = 0; j < 8; j++) {
        g.members.places[j] = (uint8_t)(g.members.count - 1 - j);
        g.members.marks[j] = (uint8_t)below(2);
    }
    return g;
}

/* A valid end; what its places past the counts hold does not matter. */
static jazmotip_olt random_olt(int units, int llids, enum llids how)
{
    uint64_t tick = up_to(JAZMOTIP_MAX_TICK), free_at_most = JAZMOTIP_MAX_TICK + JAZMOTIP_MAX_EQS + 1;
    uint16_t start = (uint16_t)random64();
    jazmotip_olt olt = {.shared = {up_to(TURN - 1), tick, up_to(TURN - 1), {0, 0}}, .count = (uint8_t)units};
    olt.shared.channels.zero = below(4) == 0 ? up_to(free_at_most) : tick + below(2);
    olt.shared.channels.one = below(4) == 0 ? up_to(free_at_most) : tick + below(2);
    for (int i = 0; i < 16; i++)
        olt.units[i] = random_unit(tick, how, start, i < units ? i : 0, llids == 0 ? 1 + (int)below(4) : llids);
    for (int i = 0; i < 16; i++)
        olt.groups[i] = random_group(&olt.units[i], units == 0 ? 1 : units);
    olt.groupcount = units == 0 || below(2) == 0 ? 0 : (uint8_t)below(17 - (uint64_t)units);
    return olt;
}

/* --------------------------------------------------------------------------------------------------------------------- Damage */

/* A number just within its bounds or just outside them, or any. */
static uint64_t near(uint64_t most)
{
    return below(4) == 0 ? random64() : most + below(2);
}

static void damage_shared(jazmotip_olt *olt)
{
    uint64_t *const fields[] = {&olt->shared.mac, &olt->shared.clock, &olt->shared.tick, &olt->shared.channels.zero,
                                &olt->shared.channels.one};
    const uint64_t most[] = {TURN - 1, TURN - 1, JAZMOTIP_MAX_TICK, JAZMOTIP_MAX_TICK + JAZMOTIP_MAX_EQS + 1,
                             JAZMOTIP_MAX_TICK + JAZMOTIP_MAX_EQS + 1};
    size_t k = below(COUNT(fields) + 1);
    if (k == COUNT(fields))
        olt->count = (uint8_t)near(16);
    else
        *fields[k] = near(most[k]);
}

static void damage_flag(jazmotip_unit *u)
{
    uint8_t *const flags[] = {&u->keys.timer.flag, &u->keys.first.noted,  &u->confirmation.acknowledged,
                              &u->clock.captured,  &u->clock.sent,        &u->clock.acknowledged};
    *flags[below(COUNT(flags))] = (uint8_t)near(1);
}

static void damage_number(jazmotip_unit *u)
{
    uint32_t *const numbers[] = {&u->keys.active, &u->keys.offered, &u->confirmation.confirmed};
    *numbers[below(COUNT(numbers))] += (uint32_t)(below(4) == 0 ? random64() : below(5) - 2);
}

static void damage_group(jazmotip_olt *olt)
{
    jazmotip_group *g = &olt->groups[below(4)];
    switch (below(6)) {
    case 0: olt->groupcount = (uint8_t)near(16 - olt->count); break;
    case 1: g->members.count = (uint8_t)near(below(2) == 0 ? 8 : 0); break;
    case 2: g->members.places[below(8)] = (uint8_t)near(olt->count); break;
    case 3: g->members.marks[below(8)] = (uint8_t)near(1); break;
    case 4: g->llid = below(2) == 0 ? olt->units[below(16)].identity.llids[below(4)] : olt->groups[below(4)].llid; break;
    default: g->keys.offered = g->keys.active + (uint32_t)below(4) - 1; break;
    }
}

static void damage_field(jazmotip_unit *u, uint64_t tick)
{
    uint64_t *const fields[] = {&u->identity.mac, &u->keys.timer.interval, &u->keys.timer.count,
                                &u->clock.trip,   &u->keys.first.at,     &u->clock.tick};
    const uint64_t most[] = {TURN - 1, JAZMOTIP_MAX_INTERVAL, u->keys.timer.interval - 1, JAZMOTIP_MAX_TRIP, tick, tick};
    size_t k = below(COUNT(fields));
    *fields[k] = k == 1 && below(2) == 0 ? below(2) : near(most[k]);
}

/* One or two fields changed, most of them to what breaks a rule; or an octet anywhere; or an LLID that another place has. */
static void damage(jazmotip_olt *olt)
{
    jazmotip_unit *u = &olt->units[below(16)], *v = &olt->units[below(16)];
    switch (below(9)) {
    case 0: damage_shared(olt); break;
    case 7: damage_group(olt); break;
    case 1: damage_flag(u); break;
    case 2: damage_number(u); break;
    case 3: damage_field(u, olt->shared.tick); break;
    case 4: u->identity.count = (uint8_t)(below(2) == 0 ? near(4) : below(2)); break;
    case 5: u->identity.llids[below(4)] = v->identity.llids[below(4)]; break;
    case 6: ((uint8_t *)olt)[below(sizeof *olt)] = (uint8_t)random64(); break;
    default: damage(olt); damage(olt); break;
    }
}

/* ----------------------------------------------------------------------------------------------------------------- Equality */

#define SAME(field) (a->field == b->field)

static int same_keys(const jazmotip_unit_keys *a, const jazmotip_unit_keys *b)
{
    return SAME(timer.interval) && SAME(timer.count) && SAME(timer.flag) && SAME(active) && SAME(offered) && SAME(first.noted) &&
           SAME(first.at) && memcmp(&a->slots, &b->slots, sizeof a->slots) == 0;
}

static int same_unit(const jazmotip_unit *a, const jazmotip_unit *b)
{
    return SAME(identity.mac) && SAME(identity.count) && memcmp(a->identity.llids, b->identity.llids, 8) == 0 &&
           same_keys(&a->keys, &b->keys) && SAME(confirmation.confirmed) && SAME(confirmation.acknowledged) && SAME(clock.trip) &&
           SAME(clock.captured) && SAME(clock.tick) && SAME(clock.sent) && SAME(clock.acknowledged);
}

static int same_group(const jazmotip_group *a, const jazmotip_group *b)
{
    return SAME(llid) && same_keys(&a->keys, &b->keys) && memcmp(&a->members, &b->members, sizeof a->members) == 0;
}

/* Every field, those of places that are not in use too. */
static int same_olt(const jazmotip_olt *a, const jazmotip_olt *b)
{
    int same = SAME(shared.mac) && SAME(shared.tick) && SAME(shared.clock) && SAME(shared.channels.zero) &&
               SAME(shared.channels.one) && SAME(count);
    for (int i = 0; i < 16; i++)
        same = same && same_unit(&a->units[i], &b->units[i]) && same_group(&a->groups[i], &b->groups[i]);
    return same && SAME(groupcount);
}

static int same_header(const jazmotip_header *a, const jazmotip_header *b)
{
    return SAME(channel) && SAME(llid) && SAME(encenabled) && SAME(enckey) && SAME(epam);
}

/* --------------------------------------------------------------------------------------------------------------------- Calls */

static long compared, accepted;

static void hold(int same, const char *call, uint8_t number)
{
    if (!same) {
        fprintf(stderr, "the OLT in C and the engine differ in call %ld, %s, which the engine answers with %d\n", compared, call,
                number);
        exit(1);
    }
}

static void counted(uint8_t number)
{
    compared++;
    accepted += number == 0;
}

/* An end of each contestant, all the same before a call and after it. */
struct ends {
    jazmotip_olt engine, pointer, value;
};

static void hold_ends(const struct ends *e, const char *call, uint8_t number)
{
    hold(same_olt(&e->pointer, &e->engine) && same_olt(&e->value, &e->engine), call, number);
    counted(number);
}

static void play_advance(struct ends *e)
{
    uint64_t left = JAZMOTIP_MAX_TICK - e->engine.shared.tick, n = below(2) == 0 ? below(1000) : near(left);
    uint8_t engine = jazmotip_olt_advance(&e->engine, n), pointer = pointer_olt_advance(&e->pointer, n);
    jazmotip_olt_answer value = value_olt_advance(e->value, n);
    e->value = value.olt;
    hold(pointer == engine && value.number == engine, "advance", engine);
    hold_ends(e, "advance", engine);
}

static void play_capture(struct ends *e, uint16_t llid)
{
    jazmotip_olt_answer engine = jazmotip_olt_capture(e->engine, llid), value = value_olt_capture(e->value, llid);
    uint8_t pointer = pointer_olt_capture(&e->pointer, llid);
    e->engine = engine.olt;
    e->value = value.olt;
    hold(pointer == engine.number && value.number == engine.number, "capture", engine.number);
    hold_ends(e, "capture", engine.number);
}

/* Octets of an output that are compared, and the room that there is for one. */
enum { OUTPUT = 9 * 20 + 1, LONGEST = 9 * JAZMOTIP_MAX_EQS + 18 };

static void play_send_of(struct ends *e, uint16_t llid, uint8_t channel, const uint8_t *payload, size_t length, size_t room)
{
    static uint8_t outputs[3][LONGEST];
    random_octets(outputs[0], OUTPUT);
    memcpy(outputs[1], outputs[0], OUTPUT);
    memcpy(outputs[2], outputs[0], OUTPUT);
    jazmotip_olt_sent engine = jazmotip_olt_send(e->engine, llid, channel, payload, length, outputs[0], room);
    struct pointer_sent pointer = pointer_olt_send(&e->pointer, llid, channel, payload, length, outputs[1], room);
    jazmotip_olt_sent value = value_olt_send(e->value, llid, channel, payload, length, outputs[2], room);
    e->engine = engine.olt;
    e->value = value.olt;
    hold(pointer.number == engine.number && value.number == engine.number, "send", engine.number);
    hold(pointer.count == engine.count && value.count == engine.count, "send, its count", engine.number);
    hold(same_header(&pointer.header, &engine.header) && same_header(&value.header, &engine.header), "send, its header",
         engine.number);
    hold(memcmp(outputs[1], outputs[0], OUTPUT) == 0 && memcmp(outputs[2], outputs[0], OUTPUT) == 0, "send, its output",
         engine.number);
    hold_ends(e, "send", engine.number);
}

static void play_send(struct ends *e, uint16_t llid)
{
    static const size_t eqs[] = {0, 0, 1, 2, 8, 8, 19, 20};
    static uint8_t payload[OUTPUT];
    size_t length = 9 * eqs[below(COUNT(eqs))] + (below(16) == 0), room = below(16) == 0 ? below(OUTPUT) : length;
    random_octets(payload, OUTPUT);
    play_send_of(e, llid, (uint8_t)(below(8) == 0 ? random64() : below(2)), payload, length, room);
}

/* Calls that follow each other on one end. */
static void play(jazmotip_olt olt)
{
    struct ends e = {olt, olt, olt};
    for (int i = 0; i < 6; i++) {
        const jazmotip_identity *named = &olt.units[below(16)].identity;
        uint16_t llid = below(8) == 0 ? (uint16_t)random64() : named->llids[below(4)];
        if (below(3) == 0)
            llid = olt.groups[below(4)].llid;
        switch (below(4)) {
        case 0: play_advance(&e); break;
        case 1: play_capture(&e, llid); break;
        default: play_send(&e, llid); break;
        }
    }
}

static void play_too_long(void)
{
    static const uint8_t payload[LONGEST];
    jazmotip_olt olt = random_olt(1, 1, IN_ORDER);
    struct ends e = {olt, olt, olt};
    for (size_t length = LONGEST - 17; length <= LONGEST; length++)
        play_send_of(&e, olt.units[0].identity.llids[0], 0, payload, length, length);
}

long same_olt_check(void)
{
    static const enum llids hows[] = {IN_ORDER, RANDOM, ALIKE};
    play_too_long();
    for (int i = 0; i < 30000; i++) {
        int table = i % 4, units = (int[]){0, 1, 16, 1 + (int)below(16)}[table], llids = table == 2 ? 4 : 0;
        jazmotip_olt olt = random_olt(units, llids, hows[i / 4 % 3]);
        if (below(2) == 0)
            damage(&olt);
        play(olt);
    }
    hold(accepted > compared / 8, "too few were accepted", 0);
    return compared;
}
