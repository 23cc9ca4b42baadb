/*
 * path.c: a protected line changes its path, to one whose delay up is 80 ticks shorter, just after the unit has sealed an envelope. Both
 * ends are told, and go on once the clock is set again.
 *
 * Prints each call with its code and what it hands over; `path.stdout` is what it must print. Ends with status 0 if an envelope of
 * each way arrives over the new path.
 */
#include "jazmotip.h"

#include <inttypes.h>
#include <stdio.h>
#include <string.h>

#define OLT_MAC UINT64_C(0x020000000001)
#define FIRST_CLOCK UINT64_C(0xFFFFFFFFFF00)

enum { INTERVAL = 1000, LLID = 5, OCTETS = 18 };

/* Delays in ticks. */
typedef struct path {
    uint64_t down, up;
} path;

static const path before = {150, 100}, after = {10, 20};

/* Two EQs: data alone, and a control character in front. */
static const uint8_t letter[OCTETS] = {
    0x00, 'a', ' ', 'l', 'e', 't', 't', 'e', 'r', /* */
    0x01, 0xFE, '.', ' ', ' ', ' ', ' ', ' ', ' ',
};

/* Both ends of the line. */
typedef struct line {
    jazmotip_olt olt;
    jazmotip_onu onu;
} line;

static void advance(line *line, uint64_t n)
{
    uint8_t worst = jazmotip_olt_advance(&line->olt, n);
    worst |= jazmotip_onu_advance(&line->onu, n);
    printf("advance %" PRIu64 ": %u, clock %012" PRIx64 " unit %012" PRIx64 "\n", n, worst, line->olt.shared.clock,
           line->onu.clock.time);
}

static void begin(line *line)
{
    jazmotip_identity identity = {.mac = 0x020000000002, .llids = {LLID}, .count = 1};
    /* LocalTime is the low 32 bits of the OLT's clock plus the delay up. */
    jazmotip_onu_answer onu = jazmotip_onu_fresh(identity, OLT_MAC, (FIRST_CLOCK + before.up) & UINT32_MAX);
    jazmotip_olt_answer olt = jazmotip_olt_fresh(OLT_MAC, FIRST_CLOCK);
    olt = jazmotip_olt_register(olt.olt, identity, before.down + before.up, INTERVAL);
    printf("fresh %u register %u\n", onu.number, olt.number);
    line->olt = olt.olt;
    line->onu = onu.onu;
}

static void set_clock(line *line, path path)
{
    line->olt = jazmotip_olt_capture(line->olt, LLID).olt;
    jazmotip_clock_sent sent = jazmotip_olt_clock_send(line->olt, LLID);
    line->olt = sent.olt;
    advance(line, path.down);
    jazmotip_onu_acknowledged set = jazmotip_onu_clock_message(line->onu, sent.message);
    line->onu = set.onu;
    advance(line, path.up);
    jazmotip_olt_answer answer = jazmotip_olt_acknowledge(line->olt, LLID, set.acknowledgement);
    line->olt = answer.olt;
    printf("clock: send %u message %u acknowledge %u\n", sent.number, set.number, answer.number);
}

static void give_key(line *line)
{
    static const uint8_t key[16] = {1, 2, 3};
    jazmotip_key_sent sent = jazmotip_olt_offer(line->olt, LLID, key);
    line->olt = sent.olt;
    advance(line, before.down);
    jazmotip_onu_acknowledged taken = jazmotip_onu_key_message(line->onu, sent.message);
    line->onu = taken.onu;
    advance(line, before.up);
    jazmotip_olt_answer answer = jazmotip_olt_acknowledge(line->olt, LLID, taken.acknowledgement);
    line->olt = answer.olt;
    printf("key: offer %u message %u acknowledge %u\n", sent.number, taken.number, answer.number);
}

/* A letter down, and whether it is read. */
static int down(line *line, path path)
{
    uint8_t sealed[OCTETS] = {0}, opened[OCTETS] = {0};
    jazmotip_olt_sent sent = jazmotip_olt_send(line->olt, LLID, 0x00, letter, OCTETS, sealed, OCTETS);
    line->olt = sent.olt;
    printf("send down: %u sealed %u\n", sent.number, sent.header.encenabled);
    if (sent.number != JAZMOTIP_ACCEPTED)
        return 0;
    advance(line, path.down);
    jazmotip_onu_received received = jazmotip_onu_receive(line->onu, sent.header, sealed, OCTETS, opened, OCTETS);
    line->onu = received.onu;
    printf("receive: %u count %" PRIu64 "\n", received.number, received.count);
    return received.number == JAZMOTIP_ACCEPTED && memcmp(opened, letter, OCTETS) == 0;
}

/* A letter up, by a channel; none arrives that is lost. */
static int up(line *line, path path, uint8_t channel, int lost)
{
    uint8_t sealed[OCTETS] = {0}, opened[OCTETS] = {0};
    jazmotip_onu_sent sent = jazmotip_onu_send(line->onu, LLID, channel, letter, OCTETS, sealed, OCTETS);
    line->onu = sent.onu;
    printf("send up: %u sealed %u clock %012" PRIx64 "\n", sent.number, sent.header.encenabled, line->onu.clock.time);
    if (sent.number != JAZMOTIP_ACCEPTED || lost)
        return 0;
    advance(line, path.up);
    jazmotip_olt_received received = jazmotip_olt_receive(line->olt, sent.header, sealed, OCTETS, opened, OCTETS);
    line->olt = received.olt;
    printf("receive: %u count %" PRIu64 "\n", received.number, received.count);
    return received.number == JAZMOTIP_ACCEPTED && memcmp(opened, letter, OCTETS) == 0;
}

/* Both ends are told at one tick, before anything goes over the new path; what is under way is lost. */
static void change(line *line)
{
    uint64_t time = (line->olt.shared.clock + after.up) & UINT32_MAX;
    jazmotip_olt_answer olt = jazmotip_olt_measure(line->olt, LLID, after.down + after.up);
    jazmotip_onu_answer onu = jazmotip_onu_new_time(line->onu, time);
    line->olt = olt.olt;
    line->onu = onu.onu;
    printf("change: measure %u new time %u, changes %" PRId64 "\n", olt.number, onu.number, onu.onu.travel.changes);
}

/* Ticks until the unit may seal again. */
static uint64_t wait(const jazmotip_onu *onu)
{
    uint64_t travel = onu->tick + (uint64_t)onu->travel.changes + (uint64_t)JAZMOTIP_MAX_CHANGES;
    return travel < onu->travel.bar ? onu->travel.bar - travel : 0;
}

int main(void)
{
    line line;
    begin(&line);
    set_clock(&line, before);
    give_key(&line);
    advance(&line, INTERVAL);
    down(&line, before);
    up(&line, before, 0x80, 0);
    up(&line, before, 0x81, 1); /* under way when the path changes */
    change(&line);
    down(&line, after);
    up(&line, after, 0x80, 0);
    set_clock(&line, after);
    int read = down(&line, after);
    up(&line, after, 0x80, 0);
    printf("to wait: %" PRIu64 "\n", wait(&line.onu));
    advance(&line, wait(&line.onu));
    read += up(&line, after, 0x81, 0);
    printf("letters: %d\n", read);
    return read == 2 ? 0 : 1;
}
