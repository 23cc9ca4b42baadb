/*
 * exchange.c: an OLT and one unit from registration to the second key switch, over a line with delays that loses two messages.
 *
 * Prints each call with its code and what it hands over; `exchange.stdout` is what it must print. Clocks turn on the way: the
 * OLT's starts 256 ticks below 2^48. Ends with status 0 if both ends hold key 2.
 */
#include "jazmotip.h"

#include <inttypes.h>
#include <stdio.h>
#include <string.h>

#define OLT_MAC UINT64_C(0x020000000001)
#define UNIT_MAC UINT64_C(0x020000000002)
#define FIRST_CLOCK UINT64_C(0xFFFFFFFFFF00)

enum { DELAY_DOWN = 20, DELAY_UP = 12, INTERVAL = 1000, LLID = 5, OTHER_LLID = 6, OCTETS = 27 };

/* Three EQs: data alone, control characters at both ends, a control character in front. */
static const uint8_t payload[OCTETS] = {
    0x00, 0x10, 0x11, 0x12, 0x13, 0x14, 0x15, 0x16, 0x17, /* */
    0x81, 0x20, 0x21, 0x22, 0x23, 0x24, 0x25, 0x26, 0x27, /* */
    0x01, 0x30, 0x31, 0x32, 0x33, 0x34, 0x35, 0x36, 0x37,
};

/* Both ends of the line. */
typedef struct line {
    jazmotip_olt olt;
    jazmotip_onu onu;
} line;

static void print_octets(const char *name, const uint8_t *octets, size_t length)
{
    printf(" %s ", name);
    for (size_t i = 0; i < length; i++)
        printf("%02x", octets[i]);
}

static void print_header(jazmotip_header header)
{
    printf(" header %02x %04x %u %u %u", header.channel, header.llid, header.encenabled, header.enckey, header.epam);
}

static void print_key_message(jazmotip_key_message message)
{
    printf(" llid %u number %" PRIu32, message.llid, message.number);
    print_octets("key", message.key, sizeof message.key);
    printf("\n");
}

static void print_state(const line *line)
{
    const jazmotip_unit *unit = &line->olt.units[0];
    printf("  tick %" PRIu64 " clock %012" PRIx64 " A %" PRIu32 " C %" PRIu32 " O %" PRIu32 " flag %u, unit a %" PRIu32
           " held %u tx %012" PRIx64 " rx %012" PRIx64 "\n",
           line->olt.shared.tick, line->olt.shared.clock, unit->keys.active, unit->confirmation.confirmed, unit->keys.offered,
           unit->keys.timer.flag, line->onu.keys.active, line->onu.keys.held, line->onu.clock.time, line->onu.clock.rx);
}

/* An advance goes to both ends. */
static void advance(line *line, uint64_t n)
{
    uint8_t at_olt = jazmotip_olt_advance(&line->olt, n);
    uint8_t at_onu = jazmotip_onu_advance(&line->onu, n);
    printf("advance %" PRIu64 ": %u %u\n", n, at_olt, at_onu);
}

static void begin(line *line)
{
    jazmotip_identity identity = {.mac = UNIT_MAC, .llids = {LLID, OTHER_LLID}, .count = 2};
    jazmotip_olt_answer olt = jazmotip_olt_fresh(OLT_MAC, FIRST_CLOCK);
    /* LocalTime is the low 32 bits of the OLT's clock plus the delay up. */
    jazmotip_onu_answer onu = jazmotip_onu_fresh(identity, OLT_MAC, (FIRST_CLOCK + DELAY_UP) & UINT32_MAX);
    printf("fresh: %u %u\n", olt.number, onu.number);
    line->onu = onu.onu;
    for (int time = 1; time <= 2; time++) {
        olt = jazmotip_olt_register(olt.olt, identity, DELAY_DOWN + DELAY_UP, INTERVAL);
        printf("register: %u units %u\n", olt.number, olt.olt.count);
    }
    line->olt = olt.olt;
}

static void acknowledge(line *line, jazmotip_acknowledgement acknowledgement)
{
    advance(line, DELAY_UP);
    jazmotip_olt_answer answer = jazmotip_olt_acknowledge(line->olt, OTHER_LLID, acknowledgement);
    line->olt = answer.olt;
    printf("acknowledge %u %" PRIu32 ": %u\n", acknowledgement.kind, acknowledgement.number, answer.number);
}

static void set_clock(line *line)
{
    jazmotip_olt_answer captured = jazmotip_olt_capture(line->olt, LLID);
    line->olt = captured.olt;
    printf("capture: %u\n", captured.number);
    advance(line, 5);
    jazmotip_clock_sent sent = jazmotip_olt_clock_send(line->olt, LLID);
    line->olt = sent.olt;
    printf("clock send: %u rx %012" PRIx64 " tx %012" PRIx64 "\n", sent.number, sent.message.rx, sent.message.tx);
    advance(line, DELAY_DOWN);
    jazmotip_onu_acknowledged set = jazmotip_onu_clock_message(line->onu, sent.message);
    line->onu = set.onu;
    printf("clock message: %u\n", set.number);
    acknowledge(line, set.acknowledgement);
}

static jazmotip_key_message offer(line *line, uint8_t first_octet)
{
    uint8_t key[16];
    for (uint8_t i = 0; i < 16; i++)
        key[i] = (uint8_t)(first_octet + i);
    jazmotip_key_sent sent = jazmotip_olt_offer(line->olt, LLID, key);
    line->olt = sent.olt;
    printf("offer: %u", sent.number);
    print_key_message(sent.message);
    return sent.message;
}

static jazmotip_key_message retry(line *line)
{
    jazmotip_key_sent sent = jazmotip_olt_retry(line->olt, OTHER_LLID);
    line->olt = sent.olt;
    printf("retry: %u", sent.number);
    print_key_message(sent.message);
    return sent.message;
}

static void take_key(line *line, jazmotip_key_message message)
{
    advance(line, DELAY_DOWN);
    jazmotip_onu_acknowledged taken = jazmotip_onu_key_message(line->onu, message);
    line->onu = taken.onu;
    printf("key message: %u\n", taken.number);
    acknowledge(line, taken.acknowledgement);
}

static void send_down(line *line, uint8_t channel)
{
    uint8_t sealed[OCTETS] = {0}, opened[OCTETS] = {0};
    jazmotip_olt_sent sent = jazmotip_olt_send(line->olt, LLID, channel, payload, OCTETS, sealed, OCTETS);
    line->olt = sent.olt;
    printf("olt send: %u", sent.number);
    print_header(sent.header);
    printf(" count %" PRIu64, sent.count);
    print_octets("octets", sealed, OCTETS);
    printf("\n");
    advance(line, DELAY_DOWN);
    jazmotip_onu_received received = jazmotip_onu_receive(line->onu, sent.header, sealed, OCTETS, opened, OCTETS);
    line->onu = received.onu;
    printf("onu receive: %u count %" PRIu64 " %s\n", received.number, received.count,
           memcmp(opened, payload, OCTETS) == 0 ? "the payload" : "not the payload");
}

static void send_up(line *line, uint8_t channel)
{
    uint8_t sealed[OCTETS] = {0}, opened[OCTETS] = {0};
    jazmotip_onu_sent sent = jazmotip_onu_send(line->onu, OTHER_LLID, channel, payload, OCTETS, sealed, OCTETS);
    line->onu = sent.onu;
    printf("onu send: %u", sent.number);
    print_header(sent.header);
    printf(" count %" PRIu64, sent.count);
    print_octets("octets", sealed, OCTETS);
    printf("\n");
    advance(line, DELAY_UP);
    jazmotip_olt_received received = jazmotip_olt_receive(line->olt, sent.header, sealed, OCTETS, opened, OCTETS);
    line->olt = received.olt;
    printf("olt receive: %u count %" PRIu64 " %s\n", received.number, received.count,
           memcmp(opened, payload, OCTETS) == 0 ? "the payload" : "not the payload");
}

/* An envelope each way. */
static void traffic(line *line)
{
    send_down(line, 0x00);
    send_up(line, 0x80);
    print_state(line);
}

/* A key from its offer to the envelope that switches to it; the first message of the offer is lost. */
static void change_keys(line *line, uint8_t first_octet)
{
    offer(line, first_octet);
    advance(line, 100);
    take_key(line, retry(line));
    traffic(line);
    advance(line, INTERVAL);
    send_down(line, 0x01);
    send_up(line, 0x81);
    print_state(line);
    traffic(line);
}

int main(void)
{
    line line;
    begin(&line);
    offer(&line, 0x40);
    set_clock(&line);
    traffic(&line);
    change_keys(&line, 0x40);
    change_keys(&line, 0xA0);
    const jazmotip_unit *unit = &line.olt.units[0];
    int both_hold_key_2 = unit->keys.active == 2 && unit->confirmation.confirmed == 2 && line.onu.keys.active == 2 &&
                          memcmp(unit->keys.slots.even, line.onu.keys.slots.even, 16) == 0;
    printf("both hold key 2: %d\n", both_hold_key_2);
    return both_hold_key_2 ? 0 : 1;
}
