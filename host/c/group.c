/*
 * group.c: a video group of two viewers under group keys. The second misses the message of key 2, sees nothing while that key is in
 * use, and comes back with key 3.
 *
 * Prints each call with its code and what it hands over; `group.stdout` is what it must print. Ends with status 0 if both view at
 * the end.
 */
#include "jazmotip.h"

#include <inttypes.h>
#include <stdio.h>
#include <string.h>

#define OLT_MAC UINT64_C(0x020000000001)
#define FIRST_CLOCK UINT64_C(0xFFFFFFFFFF00)

enum { VIEWERS = 2, INTERVAL = 1000, GROUP = 9, OCTETS = 18 };

/* A viewer's MAC, its LLID and the delays of its line. */
static const struct {
    uint64_t mac;
    uint16_t llid;
    uint64_t down, up;
} lines[VIEWERS] = {{0x020000000002, 5, 20, 12}, {0x020000000003, 6, 30, 15}};

/* Two EQs: data alone, and a control character in front. */
static const uint8_t picture[OCTETS] = {
    0x00, 'a', ' ', 'p', 'i', 'c', 't', 'u', 'r', /* */
    0x01, 0xFE, 'e', ' ', ' ', ' ', ' ', ' ', ' ',
};

/* The head end and both viewers. */
typedef struct house {
    jazmotip_olt olt;
    jazmotip_onu viewers[VIEWERS];
} house;

/* An advance goes to all ends. */
static void advance(house *house, uint64_t n)
{
    uint8_t worst = jazmotip_olt_advance(&house->olt, n);
    for (int i = 0; i < VIEWERS; i++)
        worst |= jazmotip_onu_advance(&house->viewers[i], n);
    printf("advance %" PRIu64 ": %u\n", n, worst);
}

static void begin(house *house)
{
    jazmotip_olt_answer olt = jazmotip_olt_fresh(OLT_MAC, FIRST_CLOCK);
    for (int i = 0; i < VIEWERS; i++) {
        jazmotip_identity identity = {.mac = lines[i].mac, .llids = {lines[i].llid}, .count = 1};
        /* LocalTime is the low 32 bits of the OLT's clock plus the delay up. */
        jazmotip_onu_answer onu = jazmotip_onu_fresh(identity, OLT_MAC, (FIRST_CLOCK + lines[i].up) & UINT32_MAX);
        olt = jazmotip_olt_register(olt.olt, identity, lines[i].down + lines[i].up, JAZMOTIP_MAX_INTERVAL);
        printf("viewer %d: fresh %u register %u", i + 1, onu.number, olt.number);
        onu = jazmotip_onu_join(onu.onu, GROUP);
        printf(" join %u\n", onu.number);
        house->viewers[i] = onu.onu;
    }
    jazmotip_roster twice = {.llids = {lines[0].llid, lines[0].llid}, .count = 2};
    jazmotip_roster roster = {.llids = {lines[0].llid, lines[1].llid}, .count = VIEWERS};
    olt = jazmotip_olt_register_group(olt.olt, GROUP, INTERVAL, twice);
    printf("register group, a viewer twice: %u groups %u\n", olt.number, olt.olt.groupcount);
    olt = jazmotip_olt_register_group(olt.olt, GROUP, INTERVAL, roster);
    printf("register group: %u groups %u\n", olt.number, olt.olt.groupcount);
    house->olt = olt.olt;
}

static void set_clock(house *house, int i)
{
    house->olt = jazmotip_olt_capture(house->olt, lines[i].llid).olt;
    jazmotip_clock_sent sent = jazmotip_olt_clock_send(house->olt, lines[i].llid);
    house->olt = sent.olt;
    advance(house, lines[i].down);
    jazmotip_onu_acknowledged set = jazmotip_onu_clock_message(house->viewers[i], sent.message);
    house->viewers[i] = set.onu;
    advance(house, lines[i].up);
    jazmotip_olt_answer answer = jazmotip_olt_acknowledge(house->olt, lines[i].llid, set.acknowledgement);
    house->olt = answer.olt;
    printf("clock of viewer %d: send %u message %u acknowledge %u\n", i + 1, sent.number, set.number, answer.number);
}

/* Key n of the group, whose octets are all n. It goes to both viewers at once; the message to viewer `lost` never arrives. */
static void give_key(house *house, uint8_t n, int lost)
{
    uint8_t key[16];
    memset(key, n, sizeof key);
    jazmotip_key_sent sent = jazmotip_olt_offer(house->olt, GROUP, key);
    house->olt = sent.olt;
    printf("offer: %u number %" PRIu32 "\n", sent.number, sent.message.number);
    if (sent.number != JAZMOTIP_ACCEPTED)
        return;
    jazmotip_onu_acknowledged taken[VIEWERS] = {0};
    uint64_t passed = 0;
    for (int i = 0; i < VIEWERS; i++) {
        advance(house, lines[i].down - passed);
        passed = lines[i].down;
        if (i == lost) {
            printf("viewer %d: its message is lost\n", i + 1);
            continue;
        }
        taken[i] = jazmotip_onu_key_message(house->viewers[i], sent.message);
        house->viewers[i] = taken[i].onu;
        printf("viewer %d: key message %u, a %" PRIu32 " kept %u held %u\n", i + 1, taken[i].number,
               taken[i].onu.joined[0].keys.active, taken[i].onu.joined[0].kept, taken[i].onu.joined[0].keys.held);
    }
    /* the longest way up brings both acknowledgements; each names its unit */
    advance(house, lines[VIEWERS - 1].up);
    for (int i = 0; i < VIEWERS; i++) {
        if (i == lost)
            continue;
        jazmotip_olt_answer answer = jazmotip_olt_acknowledge(house->olt, GROUP, taken[i].acknowledgement);
        house->olt = answer.olt;
        printf("acknowledge of unit %u: %u, marks %u %u\n", taken[i].acknowledgement.unit, answer.number,
               answer.olt.groups[0].members.marks[0], answer.olt.groups[0].members.marks[1]);
    }
}

/* A picture to the group; how many viewers see it. */
static int show(house *house)
{
    uint8_t sealed[OCTETS] = {0};
    jazmotip_olt_sent sent = jazmotip_olt_send(house->olt, GROUP, 0x00, picture, OCTETS, sealed, OCTETS);
    house->olt = sent.olt;
    printf("send: %u sealed %u index %u count %" PRIu64 ", A %" PRIu32 " O %" PRIu32 "\n", sent.number, sent.header.encenabled,
           sent.header.enckey, sent.count, sent.olt.groups[0].keys.active, sent.olt.groups[0].keys.offered);
    int see = 0;
    uint64_t passed = 0;
    for (int i = 0; i < VIEWERS; i++) {
        advance(house, lines[i].down - passed);
        passed = lines[i].down;
        uint8_t opened[OCTETS] = {0};
        jazmotip_onu_received received = jazmotip_onu_receive(house->viewers[i], sent.header, sealed, OCTETS, opened, OCTETS);
        house->viewers[i] = received.onu;
        int sees = received.number == JAZMOTIP_ACCEPTED && memcmp(opened, picture, OCTETS) == 0;
        printf("viewer %d: receive %u count %" PRIu64 " %s\n", i + 1, received.number, received.count,
               sees ? "the picture" : "nothing");
        see += sees;
    }
    return see;
}

int main(void)
{
    house house;
    begin(&house);
    show(&house); /* clear: no key has been offered yet */
    give_key(&house, 1, -1);
    set_clock(&house, 0);
    give_key(&house, 1, -1);
    set_clock(&house, 1);
    give_key(&house, 1, -1);
    advance(&house, INTERVAL);
    show(&house);
    give_key(&house, 2, 1);
    advance(&house, INTERVAL);
    show(&house); /* switches, though viewer 2 has not acknowledged */
    give_key(&house, 3, -1);
    show(&house); /* still under key 2 */
    advance(&house, INTERVAL);
    int see = show(&house);
    printf("viewers: %d\n", see);
    return see == VIEWERS ? 0 : 1;
}
